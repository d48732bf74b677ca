"""The QGIS plugin's reading and writing by columns, beside its reading of one geometry."""
from __future__ import annotations

import random
import re
import struct
from pathlib import Path
from typing import Any, Callable, List, Sequence

import pytest

from test_boxes import SQUARE, TRIANGLE, Ring, line, module, multi, polygon

POINT = struct.pack("<BI2d", 1, 1, 1.5, -2)
HOLED = polygon(SQUARE, [(1, 1), (2, 1), (2, 2), (1, 1)])
CERTAIN = [POINT, line((3, 0), (1, 0)), line((0, 0), (1, 1)), line((0, 0), (2, 0), (2, 1)),
           polygon(SQUARE), polygon(SQUARE[::-1]), polygon(TRIANGLE), HOLED,
           polygon([(0, 0), (4, 0), (4, 2), (2, 2), (2, 4), (0, 4), (0, 0)]),
           struct.pack("<BI3d", 1, 1001, 1, 2, 9), struct.pack("<BI4d", 1, 3001, 1, 2, 9, 9),
           struct.pack("<BI3d", 1, 0x80000001, 1, 2, 9),
           multi(4, POINT), multi(4, POINT, struct.pack("<BI3d", 1, 1001, 3, 4, 9)),
           multi(5, line((0, 0), (1, 1))), multi(5, line((0, 0), (1, 1)), line((2, 2), (2, 4))),
           multi(6, polygon(SQUARE)), multi(6, polygon(SQUARE), HOLED)]
NOT_READ = [line(), line((1, 1), (1, 1)), polygon(), polygon([]), polygon(TRIANGLE[:-1]),
            polygon([(1, 1), (1, 1), (1, 1), (1, 1)]), multi(4), multi(7),
            multi(5, line((0, 0), (1, 1)), line((1, 1), (1, 1))),
            multi(6, polygon(SQUARE), polygon(TRIANGLE[:-1])),
            struct.pack("<BI2d", 1, 1, float("nan"), float("nan")),
            struct.pack("<BI2d", 1, 1, float("inf"), 0), line((0, 0), (1, float("-inf"))),
            multi(7, line((0, 0), (1, 1)), polygon(TRIANGLE)),
            struct.pack("<BII6d", 1, 8, 3, 0, 0, 1, 1, 2, 0), b""]


def one(wkb: bytes, decimals: int | None = None) -> Any:
    """The geometry as it is read alone, or None where it isn't read."""
    columns, boxes, shapes = (module(name) for name in ("columns", "boxes", "shapes"))
    try:
        return columns.of_box(boxes.box_of(wkb))
    except boxes.NotABox:
        pass
    except (IndexError, struct.error):
        return None
    try:
        return columns.of_shape(shapes.shape_of(wkb, decimals))
    except shapes.NotRead:
        return None


def check(wkbs: Sequence[bytes], decimals: int | None = None) -> List[bool]:
    """Which geometries are certain, all of which have to be as they are read alone."""
    found, certain = module("columns").read(wkbs, decimals)
    flags = [bool(flag) for flag in certain]
    for place, wkb in enumerate(wkbs):
        part, expected = found.part(place, place + 1), one(wkb, decimals)
        if flags[place]:
            assert expected is not None, wkb
            assert [column.tolist() for column in part] == [
                column.tolist() for column in expected], wkb
        else:
            assert part.size.tolist() == [0] and not len(part.points)
    return flags


def test_what_is_certain() -> None:
    assert all(check(CERTAIN))
    assert [check([wkb]) for wkb in CERTAIN] == [[True]] * len(CERTAIN)


def test_what_is_left_to_be_read_alone() -> None:
    assert not any(check(NOT_READ)) and check([]) == []
    mixed = [wkb for pair in zip(NOT_READ, CERTAIN) for wkb in pair]
    assert check(mixed) == [False, True] * (len(mixed) // 2)


def test_rounding_leaves_few_points() -> None:
    """What may become a point at some decimals is read alone."""
    tiny = polygon([(0, 0), (0.001, 0), (0, 0.001), (0, 0)])
    wkbs = [line((0.011, 0), (0.012, 0.001)), line((0.0049, 0), (0.005, 0.001)), tiny,
            line((0, 0), (0.03, 0.001)), polygon(TRIANGLE, tiny_ring())]
    assert check(wkbs, 2) == [False, False, False, True, True]
    assert check(wkbs, 6) == [True] * 5


def tiny_ring() -> Ring:
    return [(0.5, 0.5), (0.501, 0.5), (0.5, 0.501), (0.5, 0.5)]


def random_ring(source: random.Random) -> Ring:
    points = [(source.randrange(4), source.randrange(4)) for _ in range(source.randrange(6))]
    return points + points[:1] if source.random() < 0.9 else points


def random_box(source: random.Random) -> Ring:
    x, y = source.randrange(3), source.randrange(3)
    ring: Ring = [(x, y), (x + 1, y), (x + 1, y + 2), (x, y + 2), (x, y)]
    return ring[::-1] if source.random() < 0.5 else ring


def random_geometry(source: random.Random) -> bytes:
    def point() -> bytes:
        return struct.pack("<BI2d", 1, 1, source.randrange(3), source.randrange(3))

    def track() -> bytes:
        return line(*random_ring(source)[:source.randrange(2, 6)])

    def area() -> bytes:
        rings = [random_ring(source) for _ in range(source.randrange(3))]
        return polygon(*rings) if source.random() < 0.5 else polygon(random_box(source))

    kind, made = source.choice([(4, point), (5, track), (6, area)])
    makers: List[Callable[[], bytes]] = [made, lambda: multi(kind, *(
        made() for _ in range(source.randrange(4))))]
    return source.choice(makers)()


def test_random_geometries() -> None:
    """Small ones, among them many that are flat, empty or not closed."""
    source = random.Random(2026)
    for _ in range(60):
        flags = check([random_geometry(source) for _ in range(source.randrange(120))])
        assert sum(flags) >= len(flags) // 4


def lines_of(wkbs: Sequence[bytes], decimals: int, path: Path) -> List[str]:
    columns, sheet = module("columns"), module("sheet")
    layer = columns.joined([one(wkb) for wkb in wkbs]) if wkbs else columns.nothing()
    sheet.write(path, layer, decimals)
    return path.read_text(encoding="ascii").splitlines()


def test_lines(tmp_path: Path) -> None:
    path = tmp_path / "layer.csv"
    assert lines_of([], 0, path) == ["id,wkt"]
    assert lines_of([POINT, polygon(SQUARE), polygon([(0, 0), (9, 1), (0, -1.25), (0, 0)])], 2,
                    path) == [
        "id,wkt", '0,"POINT(1.50 -2.00)"',
        '1,"POLYGON((0.00 00.00,4.00 00.00,4.00 04.00,0.00 04.00,0.00 00.00))"',
        '2,"MULTIPOLYGON(((0.00 00.00,9.00 01.00,0.00 -1.25,0.00 00.00)))"']
    assert lines_of([line((3, 0), (1, 0)), multi(4, POINT, POINT)], 0, path) == [
        "id,wkt", '0,"LINESTRING(1 00,3 00)"', '1,"MULTIPOINT((2 -2),(2 -2))"']
    assert lines_of([multi(6, polygon(SQUARE), HOLED)], 0, path) == [
        "id,wkt", '0,"MULTIPOLYGON(((0 0,4 0,4 4,0 4,0 0)),((0 0,4 0,4 4,0 4,0 0),'
        '(1 1,2 1,2 2,1 1)))"']
    assert lines_of([multi(5, line((0, 0), (1, 1)), line((2, 2), (2, 4)))], 0, path) == [
        "id,wkt", '0,"MULTILINESTRING((0 0,1 1),(2 2,2 4))"']


@pytest.mark.parametrize("decimals, text", [
    (0, "POINT(1 2)"), (1, "LINESTRING(1.2 1.9,1.2 2.1)"),
    (2, "POLYGON((1.21 1.91,1.24 1.91,1.24 2.11,1.21 2.11,1.21 1.91))")])
def test_a_box_is_what_its_rounded_corners_are(decimals: int, text: str, tmp_path: Path) -> None:
    box = polygon([(1.21, 1.91), (1.24, 1.91), (1.24, 2.11), (1.21, 2.11), (1.21, 1.91)])
    assert lines_of([box], decimals, tmp_path / "box.csv") == ["id,wkt", f'0,"{text}"']


def test_many_lines(tmp_path: Path) -> None:
    """More than a block of points; each number is that of its coordinate."""
    source = random.Random(7)
    wkbs = [line(*((source.uniform(-1e5, 1e5), source.uniform(-1e3, 1e7)) for _ in range(40)))
            for _ in range(2000)]
    units = module("decimals")
    header, *lines = lines_of(wkbs, 3, tmp_path / "many.csv")
    assert header == "id,wkt" and len(lines) == len(wkbs) == 2000
    for number, (text, wkb) in enumerate(zip(lines, wkbs)):
        assert text.startswith(f'{number:04},"MULTILINESTRING((') and text.endswith('))"')
        coordinates = module("shapes").shape_of(wkb).coordinates
        found = [int(word.replace(".", "")) for word in re.findall(r"-?\d+\.\d{3}", text)]
        assert found == [units.in_units(value, 3) for value in coordinates]


def test_all_in_units() -> None:
    """Halves of a unit go away from zero, as the shortest decimal number tells which are halves."""
    import numpy

    units = module("decimals")
    source = random.Random(11)
    for decimals in range(16):
        values = [0.0, -0.0, 0.5, -0.5, 1.005, -2.675, 0.29, 1e-7, 4.35, 0.0000005, 999999.9999995]
        values += [source.randrange(-10**9, 10**9) * 5 / 10**source.randrange(8)
                   for _ in range(3000)]
        values += [source.uniform(-1e6, 1e6) for _ in range(3000)]
        values += [source.uniform(-1e3, 1e3) for _ in range(3000)]
        values = [value for value in values if units.ANY.fit([value], decimals)]
        found = units.all_in_units(numpy.array(values), decimals).tolist()
        assert found == [units.in_units(value, decimals) for value in values]


@pytest.mark.parametrize("text, digits, rows", [
    ("left,right,matrix\n", (1, 1), []),
    ("left,right,matrix\n00,1,212FF1FF2\n07,0,0FFFFF212\n", (2, 1),
     [(0, 1, "212FF1FF2"), (7, 0, "0FFFFF212")]),
    ("left,right,distance\n0,12,1.5\n3,00,10\n", (1, 2), [(0, 12, "1.5"), (3, 0, "10")]),
    ("left,right\n", (1, 1), []), ("left,right\n0,12\n3,00\n", (1, 2), [(0, 12), (3, 0)]),
])
def test_reports(text: str, digits: Any, rows: Any, tmp_path: Path) -> None:
    path = tmp_path / "report.csv"
    path.write_text(text, encoding="ascii")
    columns = text.split("\n", maxsplit=1)[0].split(",")[2:]
    found = module("report").read(path, columns, digits)
    read = [found.left.tolist(), found.right.tolist(), *[found.texts] * len(columns)]
    assert list(zip(*read)) == rows
    assert columns or found.texts == []


@pytest.mark.parametrize("text", [
    "", "left,right\n", "left,right,matrix\n1,2,212FF1FF2", "left,right,matrix\n1,2\n",
    "left,right,matrix\n12,3,212FF1FF2\n", "left,right,matrix\nx,3,212FF1FF2\n"])
def test_what_is_no_report(text: str, program: Path, tmp_path: Path) -> None:
    path = tmp_path / "report.csv"
    path.write_text(text, encoding="ascii")
    with pytest.raises(module("program").ProgramError, match="wrote no report"):
        module("report").read(path, ["matrix"], (1, 1))


@pytest.mark.parametrize("text", [
    "", "left,right,matrix\n", "left,right\n1,2", "left,right\n1,2,212FF1FF2\n",
    "left,right\n12,3\n", "left,right\n1,\n", "left,right\n1,x\n"])
def test_what_is_no_report_of_pairs_alone(text: str, program: Path, tmp_path: Path) -> None:
    path = tmp_path / "report.csv"
    path.write_text(text, encoding="ascii")
    with pytest.raises(module("program").ProgramError, match="wrote no report"):
        module("report").read(path, [], (1, 1))
