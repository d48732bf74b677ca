#!/usr/bin/env python3
"""Writes DEFINITIONS.md: what the contracts of public calls mean by their words, from the comments of the specs.

    check/definitions.py            writes the page
    check/definitions.py --check    compares it with the specs; the status is 1 where they differ

The page has each definition that a contract of a public call cites and that has a comment, and each limit.
"""
import re
import sys
from pathlib import Path
from typing import NamedTuple

ROOT = Path(__file__).resolve().parent.parent
sys.dont_write_bytecode = True
sys.path.append(str(ROOT / "tools"))
from contracts import public_calls, specified_crates  # noqa: E402

PAGE = ROOT / "docs/DEFINITIONS.md"

OPENING = """\
# Definitions

What the contracts mean by their words: each definition that a contract of a public call cites, by crate and file
(`crates/CRATE/specs/FILE.antt`) with its public source, and each limit. What has no source is this project's own.
Names in brackets after a file's name are of definitions that the line itself explains. Left out are the texts of faults
([FAULTS.md](FAULTS.md)), what single calls on a board or an outlet ask and leave, and what only laws such as
`owners_law` speak of. `check/definitions.py` writes this page from the comments of the specs: change the comment and run it.

## Notation

In a contract `x.now` is what a shared reference points to, `x.old` and `x.new` what a mutable one points to before and
after the call, and `result` the answer. `≡` is equality, `×` and, `⊎` or, `→` implies, `↔` exactly where, `¬` not,
`⊤` always and `⊥` never; `(n : ℕ) → P` is said of every `n`, and `(n : ℕ) × P` of some one. `IfOk`, `IfErr`, `IfSome`
and `IfNone` speak of one case of the answer; where it is another, they say nothing. Texts are lists of byte values.
"""  # noqa: E501

# Files that say only which text a fault has, or what one call on a board or outlet asks and leaves.
LEFT_OUT = ("FaultTexts", "OptionTexts", "WordFaults", "Lines", "BoardRule", "Boards", "OutletCalls", "Ports")

# A comment that begins so speaks of the definition before it.
CONTINUES = ("The same", "And ", "They ", "These ")

# The public source of a file's definitions, where its comment names none.
SOURCES = {
    "geom_core/Cells": "the point sets of OGC 06-103r4, 6.1.15.1, on a grid",
    "relation_core/Masks": "OGC 06-103r4, 6.1.15.2",
    "relation_core/Matrices": "OGC 06-103r4, 6.1.4, 6.1.6 and 6.1.10 for the parts, 6.1.15.2 for the matrix",
    "relation_core/Meetings": "Egenhofer and Franzosa 1991",
    "relation_core/Relations": "OGC 06-103r4, 6.1.15.3, and [DECISIONS.md](DECISIONS.md) beyond it",
    "geom_core/Sets": "OGC 06-103r4, 6.1.15.3, and [DECISIONS.md](DECISIONS.md) beyond it",
    "wkt_core/Drawing": "OGC 06-103r4, 6.1.7 and 6.1.11",
    "wkt_core/Spelling": "OGC 06-103r4, 6.1.4, 6.1.7 and 6.1.11",
    "split_core/Choices": "Guttman 1984, 3.2 and 3.5.2",
    "split_core/Splits": "Guttman 1984, 3.5.2",
    "rtree_core/Nodes": "Guttman 1984, 2",
    "rtree_core/Packed": "Leutenegger, Lopez and Edgington 1997",
    "rtree_core/Trees": "Guttman 1984, 2",
    "rtree_core/Windows": "Guttman 1984, 3.1",
    "descent_core/Depths": "Brinkhoff, Kriegel and Seeger 1993, 4",
    "refine_core/Refinements": "the refinement step of Orenstein 1986 and of Brinkhoff, Kriegel and Seeger 1993",
    "row_core/Records": "RFC 4180, as the crate `csv` reads it",
    "report_core/CsvTexts": "RFC 4180, with a line feed behind each record",
    "draw_core/Pictures": "SVG 1.1",
}

DEFINITION = re.compile(r"(?:abbrev )?pub (?:abbrev |record |data )?(?!mod )([^\s:]+)(?:[^:]*:|$)")
NUMBER = re.compile(r"^\w+ = (\d+)$", re.MULTILINE)
IMPORT = re.compile(r"use Rattle\.(\w+)\.specs\.(\w+)(?:\.\{([^}]*)\}| as (\w+))")


class Definition(NamedTuple):
    """A definition of a spec: its crate, file, name, comment, and value where it is a number."""
    crate: str
    file: str
    name: str
    comment: str
    value: str | None


class Spec(NamedTuple):
    """A file of specs: what it is about, and its definitions."""
    subject: str
    definitions: list[Definition]


def sentence(lines: list[str]) -> str:
    """Lines of a comment as one text, which begins in upper case and ends with a full stop."""
    text = " ".join(line.removeprefix("--").strip() for line in lines)
    return text and text[0].upper() + text[1:].rstrip(".") + "."


def read_spec(crate: str, path: Path) -> Spec:
    """The file's opening comment and its definitions, each with the comment right before it."""
    subject: str | None = None
    definitions: list[Definition] = []
    for block in re.split(r"\n(?=\n|use |$)", "\n" + path.read_text(encoding="utf-8")):
        lines = block.strip("\n").split("\n")
        comment = [line for line in lines if line.startswith("--") and not line.startswith("-- ----")]
        if subject is None and lines != [""]:
            subject = sentence(comment)
        for line in lines:
            found = DEFINITION.match(line)
            if found:
                number = NUMBER.search(block)
                value = number.group(1) if number else None
                definitions.append(Definition(crate, path.stem, found.group(1), sentence(comment), value))
                break
    return Spec(subject or "", definitions)


def cited(crate: str) -> set[tuple[str, str, str]]:
    """The definitions that the contracts of a crate's public calls cite, but for laws: crate, file and name."""
    found: set[tuple[str, str, str]] = set()
    for call in public_calls(crate):
        if call.name.endswith("_law"):
            continue
        for owner, file, names, alias in IMPORT.findall(call.source):
            if alias:
                found |= {(owner, file, name) for name in re.findall(rf"\b{alias}\.(\w+)", call.contract)}
            imported: list[str] = re.findall(r"[^\s,][^,]*", names)
            for item in imported:
                name, _, other = item.strip().partition(" as ")
                if re.search(rf"\b{re.escape(other or name)}\b", call.contract):
                    found.add((owner, file, name))
    return found


def page() -> str:
    """The whole page."""
    names = specified_crates()
    wanted = {key for crate in names for key in cited(crate)}
    specs = {(crate, path.stem): read_spec(crate, path)
             for crate in names for path in sorted(Path(ROOT, "crates", crate, "specs").glob("*.antt"))}
    unknown = [key for key in SOURCES if tuple(key.split("/")) not in specs]
    if unknown:
        sys.exit(f"check/definitions.py: SOURCES names no file of specs: {', '.join(unknown)}")
    parts = [OPENING]
    for crate in names:
        sections = "".join(section(crate, file, spec, wanted) for (owner, file), spec in specs.items()
                           if owner == crate and file not in LEFT_OUT)
        parts += [f"\n## `{crate}`\n", sections] if sections else []
    return "".join(parts)


def section(crate: str, file: str, spec: Spec, wanted: set[tuple[str, str, str]]) -> str:
    """What the page has of a file: nothing where no contract of a public call cites it."""
    shown: list[Definition] = []
    before: Definition | None = None
    for item in spec.definitions:
        if item.value or (crate, file, item.name) in wanted:
            if before and before not in shown and item.comment.startswith(CONTINUES):
                shown.append(before)
            shown.append(item)
        before = item
    if not shown:
        return ""
    source = SOURCES.get(f"{crate}/{file}")
    subject = spec.subject.rstrip(".") + (f" ({source})." if source else ".")
    rows = [row(item) for item in shown if item.comment or item.value]
    plain = ", ".join(f"`{item.name}`" for item in shown if not item.comment and not item.value)
    names = f" ({plain})" if plain else ""
    return f"\n**{file}**{names}: {subject}\n" + ("\n" + "".join(rows) if rows else "")


def row(item: Definition) -> str:
    """A definition's line: its name, its value where it is a number, and its comment."""
    value = f" = {int(item.value):,}" if item.value else ""
    return f"- `{item.name}`{value}" + (f": {item.comment}\n" if item.comment else "\n")


def main() -> int:
    text = page()
    if sys.argv[1:] == ["--check"]:
        is_same = PAGE.read_text(encoding="utf-8") == text
        print("definitions: the page agrees with the specs" if is_same
              else "definitions: the page differs from the specs; run check/definitions.py")
        return 0 if is_same else 1
    if sys.argv[1:]:
        print(__doc__, file=sys.stderr)
        return 2
    PAGE.write_text(text, encoding="utf-8")
    return 0


if __name__ == "__main__":
    sys.exit(main())
