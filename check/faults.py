#!/usr/bin/env python3
"""Compares the lines in the tables of FAULTS.md with the texts that the definitions of the crates give to faults.

    check/faults.py            the status is 1 where a line is only on one side

A definition such as `wkt_text Text = codes ".."` is read as lines of text, with `N` for a decimal number and `INPUT`
for the word of an input.
"""
import re
import sys
from collections.abc import Iterator
from itertools import product
from pathlib import Path

ROOT = Path(__file__).resolve().parent.parent
SPECS = ("relation_core/specs/FaultTexts", "wkt_core/specs/FaultTexts", "wkt_any_core/specs/FaultTexts",
         "layer_core/specs/FaultTexts", "row_core/specs/FaultTexts", "parallel_core/specs/Faults",
         "run_core/specs/FaultTexts", "pair_core/specs/OptionTexts", "command_core/specs/WordFaults")
EQUATION = re.compile(r"^(\w+)(?: ([\w.]+|\(.*?\)))? = (.*)$")
PART = re.compile(r'codes "([^"]*)"|(decimal) |(\w+_(?:text|words|word))\b(?: ([\w.]+|\([^()]*\)))?')
LINE = re.compile(r"^\| `rjoin: ([^`]*)`")
INPUT = re.compile(r"^(first|second|left|right|edits|layer|window): ")
# The equations of each function by its name: a pattern of its argument, if it has one, and what it is equal to.
Equations = dict[str, list[tuple[str | None, str]]]


def definitions() -> Equations:
    """The equations of each function in the files of SPECS."""
    found: Equations = {}
    for spec in SPECS:
        for line in Path(ROOT, "crates", f"{spec}.antt").read_text(encoding="utf-8").splitlines():
            equation = EQUATION.match(line)
            if equation:
                name, pattern, value = equation.groups()
                found.setdefault(name, []).append((pattern, value))
    return found


def texts(found: Equations, name: str, argument: str | None = None) -> list[str]:
    """All texts that a function gives, or those for one pattern of its argument."""
    if name == "input_word":
        return ["INPUT"]
    if name == "read_text":
        return list(read_texts(found))
    equations = found[name]
    chosen = [value for pattern, value in equations if pattern == argument] or [value for _, value in equations]
    return [text for value in chosen for text in texts_of(found, value)]


def texts_of(found: Equations, value: str) -> list[str]:
    """The texts of a right-hand side, whose parts stand one after another."""
    parts = []
    for literal, decimal, name, argument in PART.findall(value):
        if decimal:
            parts.append(["N"])
        elif name:
            parts.append(texts(found, name, argument or None))
        else:
            parts.append([literal])
    return ["".join(choice) for choice in product(*parts)]


def read_texts(found: Equations) -> Iterator[str]:
    """The place of a row stands before exactly the causes that have a row."""
    for pattern, row in found["row_of"]:
        places = texts(found, "row_text") if row.startswith("Some") else [""]
        for place, cause in product(places, texts(found, "cause_text", pattern)):
            yield place + cause


def lines_of_code() -> set[str]:
    found = definitions()
    lines = texts(found, "run_text") + texts(found, "word_fault_line")
    return {INPUT.sub("INPUT: ", line) for line in lines if line}


def lines_of_page() -> set[str]:
    page = Path(ROOT, "docs/FAULTS.md").read_text(encoding="utf-8")
    lines = (LINE.match(line) for line in page.splitlines())
    return {INPUT.sub("INPUT: ", line.group(1)) for line in lines if line}


def main() -> int:
    code, page = lines_of_code(), lines_of_page()
    for line in sorted(code - page):
        print(f"not on the page: {line}")
    for line in sorted(page - code):
        print(f"not in the code: {line}")
    print(f"faults: {len(code & page)} lines agree, {len(code ^ page)} don't")
    return 1 if code != page else 0


if __name__ == "__main__":
    sys.exit(main())
