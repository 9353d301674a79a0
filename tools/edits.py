"""Wrong programs: edits of a crate that its check must refuse, one to a file, read and applied as the gate does.

    # what the wrong program is
    # refused: how the check's first error begins
    file: src/root.rt
    old: a text that the file has once
    new: what stands there instead

A file holds for the pairs after it. An old text stands once in the crate's file, and once too where the pairs before it
are applied: none relies on what another puts in.
"""
from pathlib import Path
from typing import List, NamedTuple

TOP = Path(__file__).resolve().parent.parent
HEAD = ("# ", "# refused: ")
ROOMS = ("src/", "specs/")


class Unfit(Exception):
    """Why a file is no wrong program."""


class Change(NamedTuple):
    file: str
    old: str
    new: str


class Edit(NamedTuple):
    """Of a head that is not whole, what is missing is empty."""

    name: str
    what: str
    refused: str
    changes: List[Change]


def crates(top=TOP):
    """The names of those that have edits."""
    return sorted({path.parent.parent.name for path in top.glob("crates/*/must-fail/*.edit")}
                  | {path.parent.name for path in top.glob("docs/wrong/*/*.edit")})


def files(crate, top=TOP):
    """Those of the gate first."""
    return sorted(top.glob(f"crates/{crate}/must-fail/*.edit")) + sorted(top.glob(f"docs/wrong/{crate}/*.edit"))


def read(path):
    lines = path.read_text(encoding="utf-8").splitlines()
    head = [lines.pop(0)[len(sign):] if lines and lines[0].startswith(sign) else "" for sign in HEAD]
    changes, file, old = [], "", ""
    for line in lines:
        word, _, text = line.partition(" ")
        if word == "file:":
            file = text
        elif word == "old:":
            old = text
        elif word == "new:":
            changes.append(Change(file, old, text))
            old = ""
        else:
            raise Unfit(f"{line!r} is no part of an edit")
    return Edit(path.stem, *head, changes)


def changed(edit, crate):
    """The files of the crate's folder that the edit changes, by name, as it leaves them."""
    texts = {}
    for file, old, new in edit.changes:
        if not file.startswith(ROOMS) or ".." in file or not (crate / file).is_file():
            raise Unfit(f"{file!r} is no file of src/ or specs/")
        whole = (crate / file).read_text(encoding="utf-8")
        text = texts.get(file, whole)
        if not old or whole.count(old) != 1 or text.count(old) != 1:
            raise Unfit(f"{file} does not have this once: {old!r}")
        texts[file] = text.replace(old, new)
    if not texts:
        raise Unfit("it changes nothing")
    return texts
