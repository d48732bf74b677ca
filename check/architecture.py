#!/usr/bin/env python3
"""Writes the tables of crates in ARCHITECTURE.md, from crates.txt and the READMEs of the crates.

    check/architecture.py            writes the tables
    check/architecture.py --check    compares them with crates.txt and the READMEs; the status is 1 where they differ

A table has the crates below one heading of crates.txt, each with the first sentence of its README, the crates that it
rests on, and what follows `Contract:` in its README. Left out of what a crate rests on is what another of these crates
rests on too, directly or not. The page has the tables between two comments; all else of it is written by hand.
"""
import re
import sys
from collections.abc import Iterator
from pathlib import Path

ROOT = Path(__file__).resolve().parent.parent
sys.dont_write_bytecode = True
sys.path.append(str(ROOT / "tools"))
from crates import Uses, below, uses_by_crate  # noqa: E402

PAGE = ROOT / "docs/ARCHITECTURE.md"
BEGIN = "<!-- check/architecture.py writes what follows, from crates.txt and the READMEs of the crates -->\n"
END = "<!-- the end of what check/architecture.py writes -->\n"
COLUMNS = "| Crate | What it is | Rests on | The contract that the crates above use |\n|---|---|---|---|\n"
SENTENCE = re.compile(r"(.*?)\.(?=\s|$)(?!\s[a-z0-9])", re.DOTALL)
CONTRACT = re.compile(r"Contract: (.*)\.$", re.MULTILINE)


def readme(crate: str) -> str:
    """A crate's README without its title and its decisions."""
    page = ROOT / "crates" / crate / "README.md"
    if not page.is_file():
        sys.exit(f"check/architecture.py: {crate} has no README")
    text = page.read_text(encoding="utf-8").partition("\n## ")[0]
    return text.removeprefix(f"# {crate}\n").strip()


def subject(text: str) -> str:
    """The first sentence of a README, without its full stop."""
    found = SENTENCE.match(text)
    return " ".join(found.group(1).split()) if found else ""


def contract(text: str) -> str:
    """What the crates above rely on, if the README says so."""
    found = CONTRACT.search(text)
    return found.group(1) if found else ""


def nearest(crate: str, uses: Uses) -> list[str]:
    """The crates that a crate uses, but for those that another of them rests on."""
    deeper = {it for other in uses[crate] for it in below(other, uses)}
    return [it for it in uses[crate] if it not in deeper]


def groups(uses: Uses) -> Iterator[tuple[str, list[str]]]:
    """The headings of crates.txt, each with the crates below it."""
    title = ""
    listed: list[str] = []
    for line in (ROOT / "crates.txt").read_text(encoding="utf-8").splitlines():
        if line.startswith("#"):
            if listed:
                yield title, listed
            title, listed = line.lstrip("# "), []
        elif line.partition(":")[0] in uses:
            listed.append(line.partition(":")[0])
    yield title, listed


def row(crate: str, uses: Uses) -> str:
    """A crate's line."""
    text = readme(crate)
    rests_on = ", ".join(f"`{it}`" for it in nearest(crate, uses))
    cells = [f"`{crate}`", subject(text), rests_on, contract(text)]
    return "|" + "|".join(f" {cell} " if cell else " " for cell in cells) + "|\n"


def tables() -> str:
    """All tables, each below its heading."""
    uses = uses_by_crate()
    parts = ((title, "".join(row(it, uses) for it in crates)) for title, crates in groups(uses))
    return "\n".join(f"**{title}**\n\n{COLUMNS}{rows}" for title, rows in parts)


def main() -> int:
    before, found, rest = PAGE.read_text(encoding="utf-8").partition(BEGIN)
    old, ended, after = rest.partition(END)
    if not found or not ended:
        sys.exit("check/architecture.py: ARCHITECTURE.md lacks one of the comments around the tables")
    new = f"\n{tables()}\n"
    if sys.argv[1:] == ["--check"]:
        print("architecture: the tables agree with crates.txt and the READMEs" if old == new
              else "architecture: the tables differ from crates.txt or the READMEs; run check/architecture.py")
        return 0 if old == new else 1
    if sys.argv[1:]:
        print(__doc__, file=sys.stderr)
        return 2
    PAGE.write_text(before + BEGIN + new + END + after, encoding="utf-8")
    return 0


if __name__ == "__main__":
    sys.exit(main())
