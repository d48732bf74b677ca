"""What is wrong with the page and the picture of a made-up run: texts that pass the edge or each other, tables that are
lacking, and peers by another way than their best one."""
import argparse
from collections.abc import Iterator
from itertools import combinations
from pathlib import Path
from xml.etree import ElementTree

import page
from programs import ALL_TABLES, Program, Run, Task, Words

SVG = "{http://www.w3.org/2000/svg}"
# As wide as a letter is on average in wide fonts, by its size.
LETTER_WIDTH = 0.6
LONGEST = 300
# Whose each run is, its way, and how long it takes.
RUNS = (("rjoin", "", 10), ("GEOS", "prepared", 40), ("GEOS", "relate right", 20), ("GEOS distance", "", 10),
        ("Boost.Geometry", "", 30), ("PostGIS", "", LONGEST), ("Another peer", "", 25))
Box = tuple[float, float, float, float]


def no_words(_task: Task) -> Words:
    return []


def rows() -> Iterator[page.Row]:
    """A row of each table."""
    for table in ALL_TABLES:
        runs = {f"{peer} {way}".strip(): Run(peer, way, seconds, seconds, 1_024, 5, "", "", seconds == LONGEST)
                for peer, way, seconds in RUNS}
        yield page.Row("kind", table, "relation", 100, (100, 100), runs, runs)


def options(by_processor: bool) -> argparse.Namespace:
    return argparse.Namespace(processor=by_processor, workers=4, times=3, enough=10, longest=LONGEST, output=Path("."))


def box_of(text: ElementTree.Element) -> Box:
    """About where a text stands: left, top, right, bottom."""
    x, y, size = float(text.get("x", "0")), float(text.get("y", "0")), float(text.get("font-size", page.LETTER))
    return x, y - size * 0.75, x + LETTER_WIDTH * size * len(text.text or ""), y


def faults_of(picture: str) -> Iterator[str]:
    root = ElementTree.fromstring(picture)
    width, height = float(root.get("width", "0")), float(root.get("height", "0"))
    boxes = {f"{text.text} at {text.get('y')}": box_of(text) for text in root.iter(f"{SVG}text")}
    for name, (_, _, right, bottom) in boxes.items():
        if right > width or bottom > height:
            yield f"the picture's edge cuts {name}"
    for (one, first), (other, second) in combinations(boxes.items(), 2):
        if all(first[at] < second[at + 2] and second[at] < first[at + 2] for at in (0, 1)):
            yield f"in the picture {one} stands over {other}"


def faults() -> list[str]:
    """What is wrong, in words."""
    programs = [Program(peer, "1", no_words, ALL_TABLES, way) for peer, way, _ in RUNS]
    found: list[str] = []
    for by_processor in (False, True):
        made = options(by_processor)
        found += faults_of(page.picture(made, programs, list(rows())))
        text = page.page(made, programs, list(rows()), [])
        found += [f"no table {title}" for title in page.TITLES.values() if f"## {title}\n" not in text]
        if "(2.0) relate right" not in text or "(4.0) prepared" in text:
            found.append("not the better way of a peer")
    return found
