#!/usr/bin/env python3
"""Writes what GUARANTEES.md says of each public call, from its contract and the comments of its clauses.

    check/guarantees.py            writes that part of the page
    check/guarantees.py --check    compares it with the sources; the status is 1 where they differ

A call has a line: its name, the first sentence of its documentation, and then the names of its clauses, each with the
comment before it in the source. A comment is also that of the clauses that follow it without one. A clause without a
name and without a comment is what the documentation says; a clause with a name has to have a comment. What follows
`Terms:` in the README of a crate stands below the crate's heading. The page has all this between two comments; the rest
of it is written by hand.
"""
import re
import sys
from collections.abc import Iterator
from pathlib import Path

ROOT = Path(__file__).resolve().parent.parent
sys.dont_write_bytecode = True
sys.path.append(str(ROOT / "tools"))
from contracts import Call, public_calls, specified_crates  # noqa: E402

PAGE = ROOT / "docs/GUARANTEES.md"
BEGIN = "<!-- check/guarantees.py writes what follows, from the contracts and the comments of their clauses -->\n"
END = "<!-- the end of what check/guarantees.py writes -->\n"
TERMS = re.compile(r"^Terms: (.*)$", re.MULTILINE)
SENTENCE = re.compile(r"(.*?)\.(?=\s|$)(?!\s[a-z0-9])", re.DOTALL)
LINK = re.compile(r"\[(`[^`]*`)\](?:\([^)]*\))?")


def terms(crate: str) -> str:
    """The words that the clauses of a crate's calls use, if its README explains them."""
    page = ROOT / "crates" / crate / "README.md"
    found = TERMS.search(page.read_text(encoding="utf-8")) if page.is_file() else None
    return f"\n{found.group(1)}\n" if found else ""


def subject(call: Call) -> str:
    """The first sentence of a call's documentation, without its full stop."""
    found = SENTENCE.match(call.documentation)
    return LINK.sub(r"\1", found.group(1) if found else call.documentation)


def promises(call: Call) -> Iterator[str]:
    """The clauses of a call, each group with its comment."""
    for names, comment in call.promises():
        listed = ", ".join(f"`{name}`" for name in names if name)
        if listed and not comment:
            sys.exit(f"check/guarantees.py: {call.crate}: {call.name} has no comment of {listed}")
        text = ": ".join(part for part in (listed, comment) if part)
        if text:
            yield text


def line(call: Call) -> str:
    """A call's line."""
    texts = "; ".join(promises(call))
    sentences = [f"{text[0].upper()}{text[1:]}." for text in (subject(call), texts) if text]
    return f"- `{call.name}`{': ' if sentences else ''}{' '.join(sentences)}\n"


def section(crate: str) -> str:
    """What the page has of a crate, which is nothing if it promises nothing."""
    lines = [line(call) for call in public_calls(crate) if call.promises()]
    return f"\n### `{crate}`\n{terms(crate)}\n{''.join(lines)}" if lines else ""


def main() -> int:
    head, _, rest = PAGE.read_text(encoding="utf-8").partition(BEGIN)
    old, _, tail = rest.partition(END)
    new = "".join(section(crate) for crate in specified_crates()) + "\n"
    if sys.argv[1:] == ["--check"]:
        is_same = old == new
        print("guarantees: the page agrees with the contracts" if is_same
              else "guarantees: the page differs from the contracts; run check/guarantees.py")
        return 0 if is_same else 1
    if sys.argv[1:]:
        print(__doc__, file=sys.stderr)
        return 2
    PAGE.write_text(head + BEGIN + new + END + tail, encoding="utf-8")
    return 0


if __name__ == "__main__":
    sys.exit(main())
