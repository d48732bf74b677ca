"""Mutants as files: what a file of edits says, and the texts of a crate with its changes."""
import os
from collections.abc import Iterable
from dataclasses import dataclass, field
from typing import NamedTuple

Texts = dict[str, str]


class BadEdit(Exception):
    """What keeps a mutant from being tried."""


def read(path: str | os.PathLike[str]) -> str:
    with open(path, encoding="utf-8") as file:
        return file.read()


class Change(NamedTuple):
    """A file, a text that stands once in it, and what is put in its place."""

    file: str
    old: str
    new: str


@dataclass
class Edit:
    """A file of edits: its other lines by their key, and its changes."""

    name: str
    says: dict[str, str] = field(default_factory=dict)
    changes: list[Change] = field(default_factory=list)


def edit_of(path: str | os.PathLike[str]) -> Edit:
    """Reads a file of edits: lines `KEY: TEXT`, of which `file:` names the file that the pairs of `old:` and `new:`
    below it change."""
    edit, file, old = Edit(os.path.basename(path).removesuffix(".edit")), "", ""
    for line in read(path).splitlines():
        key, _, text = line.partition(": ")
        if key == "file":
            file = text.strip()
        elif key == "old":
            old = text
        elif key in ("new", "new:"):
            edit.changes.append(Change(file, old, text))
        else:
            edit.says[key] = text.strip()
    if not edit.changes:
        raise BadEdit("it changes nothing")
    return edit


def applied(folder: str, changes: Iterable[Change], texts: Texts) -> Texts:
    """Returns the texts of a crate's files with these changes made in them too."""
    texts = dict(texts)
    for path, old, new in changes:
        text = texts[path] if path in texts else read(f"{folder}/{path}")
        if text.count(old) != 1:
            raise BadEdit(f"an old text is in {path} {text.count(old)} times, and not once")
        texts[path] = text.replace(old, new)
    return texts
