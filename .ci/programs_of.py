"""What the steps of the gate share that run the built programs."""

import os
import subprocess
import sys
import tempfile

TOP = os.path.dirname(os.path.dirname(os.path.abspath(__file__)))


def path_of(name):
    """The path of a program, be it there or not."""
    return f"{TOP}/crates/{name}/out/{name}"


PROGRAM = path_of("nb_run")
ROOM = tempfile.TemporaryDirectory()

# how nbrun ends
USAGE = (3, b"", b"nbrun: bad usage\n")
READ = (1, b"", b"nbrun: read failed\n")
WRITE = (1, b"", b"nbrun: write failed\n")
EMPTY = (0, b"size 0\n", b"")


def said(line, cause):
    """How nbrun ends that comes to a broken line."""
    return (2, b"", f"nbrun: line {line}: {cause}\n".encode())


def built(name):
    """The path of a program, which is built if it isn't yet."""
    path = path_of(name)
    if not os.path.exists(path):
        quiet = {"stdin": subprocess.DEVNULL, "stdout": subprocess.DEVNULL}
        subprocess.run(["rt", "run", "--", "--help"], cwd=f"{TOP}/crates/{name}", check=True, **quiet)
    return path


def run(words, text, program=PROGRAM, **more):
    """Runs a program on an input of bytes: its status, its output and its errors."""
    ran = subprocess.run([program, *words], input=text, capture_output=True, timeout=60, **more)
    return ran.returncode, ran.stdout, ran.stderr


def run_named(name, words, text=b"", **more):
    return run(words, text, built(name), **more)


def run_from_file(name, words, text, **more):
    """Runs a program on a file, which gives as much as is asked for at each read."""
    path = f"{ROOM.name}/input"
    with open(path, "wb") as file:
        file.write(text)
    with open(path, "rb") as given:
        ran = subprocess.run([built(name), *words], stdin=given, capture_output=True, timeout=60, **more)
    return ran.returncode, ran.stdout, ran.stderr


def library_of(name):
    """A library of .ci that is loaded before a program's own ones, built once."""
    path = f"{ROOM.name}/{name}.so"
    if not os.path.exists(path):
        subprocess.run(["cc", "-shared", "-fPIC", "-O2", "-o", path, f"{TOP}/.ci/{name}.c", "-ldl"], check=True)
    return path


def failing(what):
    """The environment in which single calls of the system fail: fail.c says which."""
    return {"LD_PRELOAD": library_of("fail"), **{key: str(value) for key, value in what.items()}}


def run_failing(name, words, text=b"", **what):
    return run_from_file(name, words, text, env=failing(what))


def help_of(name):
    """How a program ends that is asked for help. The program of nb_run is called nbrun."""
    with open(f"{TOP}/.ci/helps/{name}", "rb") as file:
        return (0, file.read(), b"")


def wrong(name, complaint):
    """How a program ends that is given wrong words."""
    return (3, b"", f"{name}: {complaint}; --help tells more\n".encode())


def version_of(name):
    """How a program ends that is asked for its version."""
    with open(f"{TOP}/VERSION") as file:
        return (0, f"{name} {file.read().strip()}\n".encode(), b"")


def compare(step, cases):
    """Runs all cases, tells which of them come to something else than what is due, and ends the step."""
    mistakes = 0
    for name, run_it, due in cases:
        try:
            came = run_it()
        except Exception as fault:  # such as too few numbers, or a program that doesn't end
            came = repr(fault)
        if came != due:
            print(f"{step}: {name}: {came}, where {due} is due")
            mistakes += 1
    print(f"{step}: {len(cases)} cases, {mistakes} wrong")
    sys.exit(1 if mistakes else 0)
