"""What the checks share that read sources, pages and edits: the files of a crate, their items and brackets, crates.txt, and how a
check ends. As a command, sources.py below NAME.. prints the crates that these use, the lowest first."""

import re
import sys
from pathlib import Path

TOP = Path(__file__).resolve().parent.parent
CRATES = TOP / "crates"


def text_of(*paths):
    """What stands in these files, one after another."""
    return "\n".join(path.read_text(encoding="utf8") for path in paths)


def code_of(crate):
    """The files of a crate's code."""
    return sorted((CRATES / crate / "src").rglob("*.rt"))


def without_comments(text):
    """A text without lines that are comments or attributes."""
    return re.sub(r"^\s*(?://.*|#\[.*\])$", "", text, flags=re.M)


def impls(text):
    """Each impl of a type, with its lines."""
    return re.findall(r"^impl(?:<[^{]*?>)? (\w+)(?:<[^{]*?>)? \{(?: *//[^\n]*)?\n(.*?)^\}", text, re.M | re.S)


def heads(text, before=""):
    """The functions that begin behind this at a line's beginning: each up to its clauses or its body."""
    clauses = r"(?=\s*(?:where\b[^{]*?)?(?:requires|ensures|\{|;))"
    return re.findall(rf"^{before}((?:const )?fn \w+[^;{{}}]*?){clauses}", text, re.M | re.S)


def constants(text):
    """The constants: whether each is public, its name, its type and its value."""
    return re.findall(r"^(pub )?const (\w+): (\w+) = ([^;{\n]*);", text, re.M)


def structs_for_c(text):
    """The structs that are laid out as C lays them out, each with its lines."""
    return re.findall(r"#\[repr\(C\)\]\n(?:#\[[^\n]*\]\n)*(?:pub )?struct (\w+) \{\n(.*?)\n\}", text, re.S)


def closing(text):
    """Where the bracket closes that a text begins with; -1, if it begins with none."""
    depth = 0
    for at, letter in enumerate(text):
        depth += (letter in "([{<") - (letter in ")]}" or letter == ">" and text[at - 1] != "-")
        if depth == 0:
            return at if letter in ")]}>" else -1
    return -1


def parts_of(text):
    """The parts of a list, which commas part, up to the bracket that closes it."""
    depth, parts = 0, [""]
    for before, letter in zip(" " + text, text):
        depth += (letter in "([{<") - (letter in ")]}" or letter == ">" and before != "-")
        if depth < 0:
            break
        if letter == "," and depth == 0:
            parts.append("")
        else:
            parts[-1] += letter
    return [part.strip() for part in parts if part.strip()]


def crates():
    """The crates of crates.txt: each with the libraries that it names, and whether it is a static library itself."""
    found = {}
    for line in text_of(TOP / "crates.txt").splitlines():
        first, _, libraries = line.partition("#")[0].partition(":")
        if first.strip():
            name, *said = first.split()
            found[name] = libraries.split(), "staticlib" in said
    return found


def below(names):
    """The crates of the repository that these use, and those that these use, the lowest first."""
    all_crates, found = crates(), []
    for library in (it for name in names for it in all_crates[name][0] if it in all_crates):
        found += [it for it in [*below([library]), library] if it not in found]
    return found


def ended(check, wrong, *told):
    """Ends a check: prints what is wrong, and what it has to tell."""
    for line in [*wrong, *told]:
        print(f"{check}: {line}")
    sys.exit(1 if wrong else 0)


if __name__ == "__main__":
    print(*below(sys.argv[2:]))
