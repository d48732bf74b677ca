#!/usr/bin/env python3
"""Sees that each crate has a README of five lines at most, and that the files which it names are there.

    check/readmes.py       the status is 1 where one is missing, longer, or names a file that isn't there

A line that begins with `Terms:` isn't counted: it explains words of the crate's clauses, for GUARANTEES.md. A section
`Decisions` may follow, with the choices that concern this crate alone: each is a paragraph that begins with what was
chosen, in bold.
"""
import re
import sys
from collections.abc import Iterator
from pathlib import Path

ROOT = Path(__file__).resolve().parent.parent
MOST_LINES = 5
DECISIONS = "\n\n## Decisions\n\n"
NAMED = re.compile(r"`((?:src|specs|proofs)/[\w/]+\.\w+)`")


def faults(crate: Path) -> Iterator[str]:
    """What is wrong with a crate's README."""
    page = crate / "README.md"
    if not page.is_file():
        yield "is not there"
        return
    text = page.read_text(encoding="utf-8")
    head, _, decisions = text.partition(DECISIONS)
    if sum(not line.startswith("Terms: ") for line in head.splitlines()) > MOST_LINES:
        yield f"has more than {MOST_LINES} lines above its decisions"
    for paragraph in decisions.split("\n\n") if decisions else ():
        if not paragraph.startswith("**"):
            yield f"has a decision without a title: {paragraph[:40]}"
    for name in NAMED.findall(text):
        if not (crate / name).is_file():
            yield f"names {name}, which is not there"


def main() -> int:
    crates = sorted(path for path in (ROOT / "crates").iterdir() if (path / "src").is_dir())
    wrong = [f"crates/{crate.name}/README.md {fault}" for crate in crates for fault in faults(crate)]
    print(*wrong, f"readmes: {len(crates)} crates, {len(wrong)} faults", sep="\n")
    return 1 if wrong else 0


if __name__ == "__main__":
    sys.exit(main())
