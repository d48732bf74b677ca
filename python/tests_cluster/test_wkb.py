"""Layers whose geometries are hexadecimal well-known binary."""
from __future__ import annotations

import re
import struct
from pathlib import Path

import layers
import pytest
from conftest import Tools, ended, write_layer

KINDS = {"POINT": 1, "LINESTRING": 2, "POLYGON": 3}
SRID = 0x20000000
ANY = ("--geometry", "any")


def hexadecimal(text: str, order: str, srid: int = 0) -> str:
    """A geometry of whole numbers as WKB in this order of bytes, or as EWKB."""
    kind = text.split("(")[0].strip()
    rings = [
        [tuple(map(int, point.split())) for point in ring.split(",")]
        for ring in re.findall(r"[^()]+", text.split("(", 1)[1]) if ring.strip(" ,")
    ]
    head = struct.pack(f"{order}BI", int(order == "<"), KINDS[kind] | (SRID if srid else 0))
    if srid:
        head += struct.pack(f"{order}I", srid)
    body = struct.pack(f"{order}I", len(rings)) if kind == "POLYGON" else b""
    for ring in rings:
        body += b"" if kind == "POINT" else struct.pack(f"{order}I", len(ring))
        body += b"".join(struct.pack(f"{order}2d", *point) for point in ring)
    return (head + body).hex()


def as_wkb(layer: Path) -> Path:
    """The same layer in both orders of bytes, in small and large letters, with and without SRID."""
    rows = []
    for number, line in enumerate(layer.read_text().splitlines()[1:]):
        name, text = line.split(",", 1)
        wkb = hexadecimal(text.strip('"'), "<>"[number % 2], 3857 * (number % 3 == 0))
        rows.append((name, wkb.upper() if number % 5 else wkb))
    return write_layer(layer.with_name(f"{layer.stem}-wkb.csv"), rows)


def test_the_words_of_points() -> None:
    """As PostGIS writes them."""
    assert hexadecimal("POINT (1 2)", "<").upper() == "0101000000000000000000F03F0000000000000040"


@pytest.mark.parametrize(
    "words",
    [
        ["join", "--relation", "intersects"],
        ["join", "--relation", "intersects", "--pairs"],
        ["near", "--distance", "300"],
        ["nearest", "--distance", "20000", "--most", "2"],
        ["nearest", "--most", "2"],
    ],
)
@pytest.mark.parametrize("kind", ["roads", "mixture"])
def test_joins(tools: Tools, words: list[str], kind: str) -> None:
    """One layer, or both; the bytes are those of texts."""
    left, right = layers.write_pair(tools.folder, kind, 120)
    command, *more = words
    texts = ended([tools.program, command, left, right, *more, *ANY])
    for ones, others in ((as_wkb(left), right), (as_wkb(left), as_wkb(right))):
        found = tools.check_command(
            [command, ones, others, *more, *ANY], "--tiles", "7", "--block", "4000"
        )
        assert found == texts.output and found.count(b"\n") > 1


def test_rows_that_are_left_out(tools: Tools) -> None:
    rows = [("bad", "0101"), ("nan", "0101000000000000000000F87F000000000000F87F")]
    good = [(f"n{x}", hexadecimal(f"POINT ({x} 1)", "<")) for x in range(40)]
    layer = write_layer(tools.folder / "layer.csv", [*good[:9], rows[0], *good[9:], rows[1]])
    words = ["join", layer, layer, "--relation", "equals", *ANY]
    skip = tools.folder / "skipped.csv"
    tools.check_command([*words, "--skip", skip], "--tiles", "3", "--block", "600")
    found = skip.read_bytes()
    ended([tools.program, *words, "--skip", skip])
    assert found == skip.read_bytes() and found.count(b"\n") == 5


@pytest.mark.parametrize("words", [["stats"], ["bounds"], ["window", "POINT (5 1)"]])
def test_commands_of_one_layer(tools: Tools, words: list[str]) -> None:
    layer = as_wkb(layers.write_pair(tools.folder, "mixture", 90)[0])
    command, *more = words
    tools.check_command([command, layer, *more, *ANY], "--block", "900")
