#!/usr/bin/env python3
"""Puts each wrong definition of wrong_definitions.txt in place of the right one, in a copy of its crate, and looks
whether the proof of the function beside it is refused.

  wrong_definitions.py [WORD..]     those whose name has one of the words, or all

A wrong definition is a block of lines. The first is its name. `law CRATE FUNCTION` names a law whose proof it breaks.
`code CRATE FUNCTION` names a function whose body isn't what it says: only the code tells it from the right one. Then
come `file:`, `old:` and `new:`, as in a crate's must-fail edits, but with the path below crates/. The crates have to be
proved in this clone (`rt all check`). A line tells what came of each, and the last line counts: `N passed, M failed`.
"""
import os
import shutil
import subprocess
import sys
import tempfile
from pathlib import Path

sys.dont_write_bytecode = True
sys.path.insert(0, str(Path(__file__).resolve().parent.parent / ".ci"))
from edits import ROOT, below, blocks, changed, crates_txt  # noqa: E402

NAMED = crates_txt()


def copied(crate, changes, room):
    """A repository of this crate and of those that it stands on, with what was proved of them."""
    names = {crate, *below(NAMED, crate)}
    lines = [line for line in (ROOT / "crates.txt").read_text(encoding="utf-8").split("\n")
             if line.split(":")[0].split(" ")[0] in names]
    (room / "crates.txt").write_text("\n".join(lines) + "\n", encoding="utf-8")
    shutil.copy(ROOT / "HANDLES", room / "HANDLES")
    (room / ".git").mkdir()
    worked_on = {crate, *(file.split("/")[0] for file, _, _ in changes)}
    for name in names:
        old, new = ROOT / "crates" / name, room / "crates" / name
        shutil.copytree(old, new, ignore=shutil.ignore_patterns("out", "must-fail"))
        left = shutil.ignore_patterns() if name in worked_on else shutil.ignore_patterns("incremental")
        shutil.copytree(old / "out", new / "out", copy_function=os.link, ignore=left)


def tried(crate, function, changes):
    """Whether the function's proof is refused, and what was said."""
    with tempfile.TemporaryDirectory(prefix="wrong-") as room:
        copied(crate, changes, Path(room))
        lost = changed(Path(room) / "crates", changes)
        if lost:
            return False, lost
        words = ["rt", "check", "--jobs", "1", "--only", function]
        ran = subprocess.run(words, cwd=Path(room) / "crates" / crate, stdout=subprocess.PIPE, stderr=subprocess.STDOUT, text=True)
        lines = ran.stdout.strip().split("\n")
        errors = [line for line in lines if ": error: " in line]
        unread = [line for line in errors if any(f"/{line}".startswith(f"/./{file.partition('/')[2]}:") for file, _, _ in changes)]
        refused = any(line.startswith(f"fn {crate}::{function}: ") and not line.endswith(": proved") for line in lines)
        said = (unread or errors or lines[-3:])[0][:160]
        return refused and not unread, said


def main():
    words = sys.argv[1:]
    passed = failed = 0
    for name, words_of, changes in blocks(ROOT / "bench/wrong_definitions.txt"):
        how, crate, function = words_of.split()
        if words and not any(word in name for word in words):
            continue
        refused, said = tried(crate, function, changes)
        passed, failed = passed + refused, failed + (not refused)
        told = f"refused by the {how}" if refused else "NOT REFUSED by the " + how
        print(f"{name}: {told} {crate}::{function}: {said}", flush=True)
    print(f"{passed} passed, {failed} failed")
    return 1 if failed else 0


if __name__ == "__main__":
    sys.exit(main())
