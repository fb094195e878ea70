"""The wrong edits of the crates. Each is a name and its changes: a file of the crate, a text that is in it once, and the text that
takes its place. Those that the gate tries are files of their own, crates/NAME/must-fail/EDIT.edit, with lines 'file:', 'old:' and
'new:'. The others of a crate, of which the gate tries a few, are in one file, .ci/more-edits/NAME.edits, where a line
'edit: EDIT' begins each."""

from sources import CRATES, TOP, text_of  # beside this file

MORE = TOP / ".ci/more-edits"


def changes_of(lines):
    """The changes that these lines tell."""
    changes, file, old = [], None, None
    for line in lines:
        kind, _, text = line.partition(":")
        if kind == "file":
            file = text.strip()
        elif kind == "old":
            old = text[1:]
        elif kind == "new":
            changes.append((file, old, text[1:]))
    return changes


def of_the_gate(crate):
    """The edits of a crate that the gate tries, by name."""
    return {path.stem: changes_of(text_of(path).split("\n")) for path in sorted(CRATES.glob(f"{crate}/must-fail/*.edit"))}


def more(crate):
    """The other edits of a crate, by name."""
    path, edits = MORE / f"{crate}.edits", {}
    for line in text_of(path).split("\n") if path.is_file() else []:
        kind, _, text = line.partition(":")
        if kind == "edit":
            name = text.strip()
            if name in edits:
                raise ValueError(f"{path.name}: {name} is there twice")
            edits[name] = []
        elif line and not line.startswith("#"):
            edits[name].append(line)
    return {name: changes_of(lines) for name, lines in edits.items()}


def made(crate, changes, files=()):
    """The files of a crate with these changes, each of which applies to what the earlier ones made; or why one doesn't fit."""
    files = dict(files)
    for file, old, new in changes:
        path = CRATES / crate / file
        if not path.is_file():
            raise ValueError(f"there is no {file}")
        text = files.get(file) or text_of(path)
        if text.count(old) != 1:
            raise ValueError(f"its old text is in {file} {text.count(old)} times: {old.strip()}")
        files[file] = text.replace(old, new)
    return files
