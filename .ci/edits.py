"""What is tried on copies of crates: tables of changes, and what a crate stands on."""

from pathlib import Path

ROOT = Path(__file__).resolve().parent.parent


def blocks(table):
    """The blocks of a table, which empty lines part: of each its name, its second line, and its changes by file, as
    `file:`, `old:` and `new:` say. A line that begins with # is a comment."""
    for block in table.read_text(encoding="utf-8").strip().split("\n\n"):
        lines = [line for line in block.split("\n") if not line.startswith("#")]
        if not lines:
            continue
        changes, file, old = [], None, None
        for line in lines[2:]:
            key, _, value = line.partition(":")
            value = value.removeprefix(" ")
            if key == "file":
                file = value
            elif key == "old":
                old = value
            else:
                changes.append((file, old, value))
        yield lines[0], lines[1], changes


def changed(folder, changes):
    """Makes the changes to files below a folder, or none; says which one can't be made."""
    texts = {}
    for file, old, new in changes:
        text = texts.get(file) or (folder / file).read_text(encoding="utf-8")
        if text.count(old) != 1:
            return f"{file} has {text.count(old)} times: {old}"
        texts[file] = text.replace(old, new)
    for file, text in texts.items():
        (folder / file).write_text(text, encoding="utf-8")
    return None


def crates_txt():
    """The crates of this repository, each with what it stands on."""
    lines = (line.split("#")[0] for line in (ROOT / "crates.txt").read_text(encoding="utf-8").split("\n"))
    return {head.split()[0]: rest.split() for head, colon, rest in (line.partition(":") for line in lines) if colon}


def below(named, crate):
    """The crates of this repository that a crate stands on, near and far."""
    near = [other for other in named[crate] if other in named]
    return {*near}.union(*(below(named, other) for other in near))
