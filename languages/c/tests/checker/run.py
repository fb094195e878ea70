#!/usr/bin/env python3
"""Checks the map of moving.h through the interleavings of its threads' steps: run.py [--long] [--sources FOLDER] [EDIT..].

First the engine as it is, in all scenarios; then each broken one of broken.txt, which has to be found; or only those that are named.
Without --long it takes about a minute of one processor. With it scenarios are searched with a preemption more, and by chance.
"""

import os
import re
import shutil
import subprocess
import sys
import tempfile
from pathlib import Path

HERE = Path(__file__).resolve().parent
ENGINE = ["row", "settling", "work", "retired", "planning", "core", "registry", "moving"]
HEADERS = ["migration", "moving", "cores"]
CHECKER = ["main", "scenarios", "history", "schedule", "choices", "conflicts", "buffers", "memory", "cores_stand_in"]
CC = os.environ.get("CC", "cc").split()
FLAGS = ["-std=gnu11", "-O1", "-Wall", "-Wextra", "-Werror", f"-I{HERE.parent.parent}/include"]
# _Atomic is a plain word here, each plain access calls memory.c, and a rest takes no time
REPLACED = [f"-I{HERE}/replaced", "-D_Atomic=", "-D__builtin_ia32_pause()=", "-Dsysconf=checked_processors"]
INSTRUMENTED = ["-fsanitize=thread", "-w"]
LONG = ["--deeper", "1", "--random", "1000000"]


class Edit:
    """Changes of an engine: files, and in each a text that is there once, and what takes its place. `scenario` finds it, if is_long with
    a preemption more."""

    def __init__(self, name):
        self.name, self.scenario, self.is_long, self.changes = name, None, False, []

    def read(self, kind, text):
        if kind == "in":
            self.scenario = text.strip()
        elif kind == "only":
            self.is_long = text.strip() == "long"
        elif kind == "file":
            self.changes.append([text.strip(), None, None])
        elif kind == "old":
            self.changes[-1][1] = text[1:]
        elif kind == "new":
            before = self.changes[-1][2]
            self.changes[-1][2] = text[1:] if before is None else f"{before}\n{text[1:]}"


def edits_of(path):
    """The edits that a file tells. Lines before the first 'edit:' are of one that has the file's name."""
    edits = [Edit(path.stem)]
    for line in path.read_text().split("\n"):
        kind, _, text = line.partition(":")
        if kind == "edit":
            edits.append(Edit(text.strip()))
        else:
            edits[-1].read(kind, text)
    return [edit for edit in edits if edit.changes]


def compiled(source, to, *flags):
    subprocess.run([*CC, *FLAGS, *flags, "-c", source, "-o", to], check=True)


class Build:
    """A folder with the sources of an engine, and the objects of its checker."""

    def __init__(self, sources, folder):
        self.folder = folder
        for name in [f"{name}.h" for name in HEADERS] + [f"{name}.c" for name in ENGINE]:
            shutil.copy(sources / name, folder)
        for file, text in self.changed(edits_of(HERE / "small.txt")[0].changes).items():
            (folder / file).write_text(text)
        for name in CHECKER:
            compiled(HERE / f"{name}.c", folder / f"{name}.o", f"-I{folder}")
        compiled(HERE / "the_map.c", folder / "the_map.o", f"-I{folder}", f"-I{HERE}", *REPLACED)
        for name in ENGINE:
            self.compile(name, folder)

    def changed(self, changes):
        """The files with these changes, by their names."""
        files = {}
        for file, old, new in changes:
            text = files.get(file) or (self.folder / file).read_text()
            if text.count(old) != 1:
                raise ValueError(f"{file} has this text {text.count(old)} times: {old}")
            files[file] = text.replace(old, new)
        return files

    def compile(self, name, folder):
        compiled(folder / f"{name}.c", folder / f"{name}.o", f"-I{folder}", *REPLACED, *INSTRUMENTED)

    def checker(self, edit=None):
        """The checker of the engine as it is, or of a broken one, which is compiled in a folder of its own."""
        objects = {name: self.folder / f"{name}.o" for name in CHECKER + ENGINE + ["the_map"]}
        folder = self.folder / (edit.name if edit else ".")
        if edit:
            files = self.changed(edit.changes)
            names = ENGINE if any(file.endswith(".h") for file in files) else [Path(file).stem for file in files]
            shutil.copytree(self.folder, folder, ignore=lambda _, names: [name for name in names if not name.endswith((".c", ".h"))])
            for file, text in files.items():
                (folder / file).write_text(text)
            for name in names:
                self.compile(name, folder)
                objects[name] = folder / f"{name}.o"
        subprocess.run([*CC, *objects.values(), "-o", folder / "checker"], check=True)
        return folder / "checker"


def search(program, *words):
    """What the checker of a broken engine finds, or None."""
    done = subprocess.run([program, *words], stdout=subprocess.PIPE, text=True)
    executions = sum(map(int, re.findall(r"(\d+) executions", done.stdout)))
    what = re.search(r"^(.*): BROKEN in execution (\d+): (.*)$", done.stdout, re.M)
    return what and f"{what[1]}, after {executions + int(what[2])} executions: {what[3]}"


def found(build, edit, is_long):
    try:
        program = build.checker(edit)
    except ValueError as why:
        return None, why
    what = search(program, *(LONG if is_long else []), *([edit.scenario] if edit.scenario else []))
    return what, what or "NOT FOUND"


def main():
    words = sys.argv[1:]
    is_long = "--long" in words and not words.remove("--long")
    sources = HERE.parent.parent / "src"
    if "--sources" in words:
        at = words.index("--sources")
        sources, words = Path(words[at + 1]), words[:at] + words[at + 2:]
    with tempfile.TemporaryDirectory() as folder:
        build = Build(sources, Path(folder))
        if not words:
            subprocess.run([build.checker(), *(LONG if is_long else [])], check=True)
        missed = []
        for edit in edits_of(HERE / "broken.txt"):
            if edit.name in words or not words and (is_long or not edit.is_long):
                what, told = found(build, edit, is_long)
                print(f"{edit.name}: {told}", flush=True)
                missed += [] if what else [edit.name]
    if missed:
        sys.exit(f"{len(missed)} broken engines aren't found: {' '.join(missed)}")


main()
