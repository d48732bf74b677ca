#!/usr/bin/env python3
"""Runs the program that `rt ci` has built on files whose answers were written by hand or follow by arithmetic.

    check/stored_runs.py [ROWS]     all of it; the last line counts. ROWS are those of a layer some of whose rows are
                                    skipped: 20,000 unless given, and 5,000 of them are unreadable

A folder of check/runs is one run: `args` has its words, one a line, `stdin` is its standard input, and `files/` are the
files that lie where it runs. It has to write `stdout`, say `stderr`, end with the status in `status` and leave the
files of `left/` beside those that were there; a file that isn't there stands for nothing, or for status 0.

A file check/runs/NAME.toml has several runs over the same files. Its table `files` has their texts by their names, and
`-` is standard input. A `run` has its `words` and, where they aren't nothing or 0, its `stdout`, `stderr`, `status` and
`left`; its own `files` are added to those of all runs or stand in their place. With `workers`, a list of numbers, it is
run by each of them.

Runs over files that are longer than one read are made below. RJOIN is the program, where it is set.
"""
import os
import subprocess
import sys
import tempfile
import tomllib
from collections.abc import Iterator
from dataclasses import dataclass, field
from pathlib import Path
from typing import Any

ROOT = Path(__file__).resolve().parent.parent
PROGRAM = Path(os.environ.get("RJOIN") or ROOT / "crates/rjoin/out/rjoin").absolute()
# What a run of a table may have.
KEYS = {"words", "workers", "files", "stdout", "stderr", "status", "left"}
SECONDS = 60
MANY = 20_000
UNREADABLE = 5_000
# With so many features, comparing each with every other one takes minutes.
MOST = 300_000
# The most features that a picture has.
MOST_DRAWN = 100_000


@dataclass
class Run:
    """A run of the program, and how it has to end."""

    name: str
    words: list[str]
    files: dict[str, bytes] = field(default_factory=dict)
    stdin: bytes = b""
    stdout: bytes = b""
    stderr: bytes = b""
    status: int = 0
    left: dict[str, bytes] = field(default_factory=dict)

    def wrong(self) -> str | None:
        """Runs the program, and says what it did otherwise."""
        with tempfile.TemporaryDirectory(prefix="stored-run-") as room:
            for name, content in self.files.items():
                (Path(room) / name).write_bytes(content)
            words = [str(PROGRAM), *self.words]
            try:
                ended = subprocess.run(words, cwd=room, input=self.stdin, capture_output=True, timeout=SECONDS)
            except subprocess.TimeoutExpired:
                return "it took too long"
            found = {path.name: path.read_bytes() for path in Path(room).iterdir()}
        if ended.returncode != self.status:
            return f"status {ended.returncode}, and not {self.status}: {ended.stderr[:200]!r}"
        if ended.stderr != self.stderr:
            return f"it said {ended.stderr[:200]!r}, and not {self.stderr[:200]!r}"
        wanted = {**self.files, **self.left}
        if found.keys() != wanted.keys():
            return f"it left {sorted(found)}, and not {sorted(wanted)}"
        texts = [("it wrote", ended.stdout, self.stdout), *((f"{it} has", found[it], wanted[it]) for it in wanted)]
        return next((why for why in (parted(*it) for it in texts) if why), None)


def parted(what: str, found: bytes, wanted: bytes) -> str | None:
    """Says where two texts part, if they do."""
    if found == wanted:
        return None
    at = next((i for i, (a, b) in enumerate(zip(found, wanted)) if a != b), min(len(found), len(wanted)))
    return f"{what} {found[at : at + 60]!r} at byte {at}, and not {wanted[at : at + 60]!r}"


def stored() -> Iterator[Run]:
    """Returns the runs of check/runs."""
    for path in sorted((ROOT / "check/runs").iterdir()):
        if path.is_dir():
            yield run_of(path)
        else:
            yield from runs_of(path)


def run_of(folder: Path) -> Run:
    """Returns the run of a folder."""

    def content(name: str) -> bytes:
        path = folder / name
        return path.read_bytes() if path.is_file() else b""

    files = {path.name: path.read_bytes() for path in (folder / "files").glob("*")}
    words = content("args").decode(errors="surrogateescape").splitlines()
    status = int(content("status") or 0)
    left = {path.name: path.read_bytes() for path in (folder / "left").glob("*")}
    return Run(folder.name, words, files, content("stdin"), content("stdout"), content("stderr"), status, left)


def runs_of(path: Path) -> Iterator[Run]:
    """Returns the runs of a table."""
    table = tomllib.loads(path.read_text(encoding="utf-8"))
    for number, row in enumerate(table["run"], 1):
        unknown = row.keys() - KEYS
        if unknown:
            raise ValueError(f"{path.name}: run {number} has {' '.join(sorted(unknown))}, which no run has")
        for workers in row.get("workers", [None]):
            yield run_of_row(f"{path.name}, run {number}", table.get("files", {}), row, workers)


def run_of_row(name: str, files: dict[str, str], row: dict[str, Any], workers: int | None) -> Run:
    """Returns the run of a row of a table by some workers, or by as many as its words ask for."""
    words = row["words"] if workers is None else [*row["words"], "--workers", str(workers)]
    texts = encoded({**files, **row.get("files", {})})
    stdin = texts.pop("-", b"")
    return Run(f"{name}, {' '.join(words)}", words, texts, stdin, row.get("stdout", "").encode(),
               row.get("stderr", "").encode(), row.get("status", 0), encoded(row.get("left", {})))


def encoded(texts: dict[str, str]) -> dict[str, bytes]:
    """The bytes of files by their names."""
    return {name: text.encode() for name, text in texts.items()}


def layer(rows: list[tuple[str, str]]) -> bytes:
    """Returns the file of a layer."""
    return "".join(["id,wkt\n", *(f'{name},"{wkt}"\n' for name, wkt in rows)]).encode()


def long_runs_by_columns(squares: list[tuple[str, str]], corners: list[str]) -> Iterator[Run]:
    """Makes runs over these squares in a file with other columns too, with and without the names of the squares."""
    rows = "".join(f'"{wkt}",a,{name}\n' for name, wkt in squares)
    bounds = "".join(["id,x1,y1,x2,y2\n", *corners]).encode()
    files = {"layer.csv": f"shape,note,name\n{rows}".encode()}
    yield Run("long-bounds-by-columns", ["bounds", "layer.csv", "--columns", "name,shape"], files, stdout=bounds)
    numbered = [f"{n},{line.partition(',')[2]}" for n, line in enumerate(corners, 1)]
    bounds = "".join(["id,x1,y1,x2,y2\n", *numbered]).encode()
    yield Run("long-bounds-of-rows-without-ids", ["bounds", "layer.csv", "--columns", "shape"], files, stdout=bounds)
    tabs = "".join(f"{wkt}\ta\t{name}\n" for name, wkt in squares)
    files = {"layer.tsv": f"shape\tnote\tname\n{tabs}".encode()}
    words = ["bounds", "layer.tsv", "--columns", "shape", "--delimiter", "tab"]
    yield Run("long-bounds-of-rows-with-tabs", words, files, stdout=bounds)


def long_runs() -> Iterator[Run]:
    """Makes runs over files of some hundred kilobytes, whose answers follow by arithmetic.

    Square n of the left layer goes from (10 n, 0) to (10 n + 4, 4), and point n of the right one is (10 n + 4, n % 5):
    on the right side of that square, at a corner where n % 5 is 0 or 4.
    """
    squares = [
        (f"square {n}", f"POLYGON (({10 * n} 0, {10 * n + 4} 0, {10 * n + 4} 4, {10 * n} 4, {10 * n} 0))")
        for n in range(MANY)
    ]
    points = [(f"p{n}", f"POINT ({10 * n + 4} {n % 5})") for n in range(MANY)]
    left, right = layer(squares), layer(points)
    files = {"left.csv": left, "right.csv": right}
    corners = [f"square {n},{10 * n},0,{10 * n + 4},4\n" for n in range(MANY)]
    bounds = "".join(["id,x1,y1,x2,y2\n", *corners]).encode()
    # A point lies in its square's boundary: of the nine letters, boundary with interior is a point.
    pairs = [f"square {n},p{n},FF20F1FF2\n" for n in range(MANY)]
    report = "".join(["left,right,matrix\n", *pairs]).encode()
    yield Run("long-bounds", ["bounds", "left.csv"], files, stdout=bounds)
    yield Run("long-bounds-of-standard-input", ["bounds", "-"], stdin=left, stdout=bounds)
    join = ["join", "left.csv", "right.csv", "--relation", "touches"]
    yield Run("long-join", join, files, stdout=report)
    alone = "".join(["left,right\n", *(f"square {n},p{n}\n" for n in range(MANY))]).encode()
    for workers in ("1", "4"):
        words = [*join, "--pairs", "--workers", workers]
        yield Run(f"long-join-of-pairs-by-{workers}", words, files, stdout=alone)
    yield Run("long-join-of-standard-input", ["join", "-", *join[2:]], files, stdin=left, stdout=report)
    yield from long_runs_by_columns(squares, corners)
    last = f"POINT ({10 * MANY - 6} {(MANY - 1) % 5})"
    yield Run("long-window", ["window", "right.csv", last], files, stdout=f"id\np{MANY - 1}\n".encode())
    # A node has at most eight items, so the tree has 2,500 leaves, then 313, 40 and 5 nodes, and the root.
    stats = f"features {MANY}\npoints {MANY}\nsegments 0\nrectangles 0\nheight 5\n"
    yield Run("long-stats", ["stats", "right.csv"], files, stdout=stats.encode())
    yield Run("long-row-at-fault", ["stats", "-"], stdin=right + b"p0,POINT (0 0)\n",
              stderr=f"rjoin: layer: row {MANY + 1}: id is already there\n".encode(), status=1)
    ragged = {**files, "right.csv": right + b"last\n", "edits.csv": b"id,wkt\n"}
    yield Run("long-ragged-row-before-edits-at-fault", [*join, "--edits", "edits.csv"], ragged,
              stderr=f"rjoin: right: row {MANY + 1}: wrong fields\n".encode(), status=1)


def pictures_of_most() -> Iterator[Run]:
    """Makes pictures of as many features as are drawn, points at the origin, and of one more."""
    points = b"id,wkt\n" + b"".join(b"%d,POINT (0 0)\n" % n for n in range(MOST_DRAWN))
    files = {"left.csv": points, "right.csv": b"id,wkt\nlast,POINT (0 0)\n",
             "edits.csv": b"op,layer,id,wkt\ndelete,right,last,\n"}
    words = ["draw", "left.csv", "right.csv", "--relation", "touches"]
    # The first lines of a picture differ by its counts alone, where it is as wide as it is high.
    head = (ROOT / "check/runs/draw-two-layers/stdout").read_bytes().partition(b' viewBox="0 0 6 6"')[0]
    for count, now in ((b"left features: 2", b"left features: %d" % MOST_DRAWN),
                       (b"right features: 2", b"right features: 0"), (b"matching pairs: 1", b"matching pairs: 0")):
        head = head.replace(count, now)
    # A margin of one unit is on each side of the origin.
    drawn = b"".join(b'<path class="point" d="M1 1h0v0"><title>%d</title></path>\n' % n for n in range(MOST_DRAWN))
    picture = (head + b' viewBox="0 0 2 2">\n<g class="left">\n' + drawn
               + b'</g>\n<g class="right">\n</g>\n</svg>\n</svg>\n')
    yield Run("most-features-drawn", [*words, "--edits", "edits.csv"], files, stdout=picture)
    yield Run("one-more-than-drawn", words, files, stderr=b"rjoin: more than 100000 features to draw\n", status=1)


def runs_of_most() -> Iterator[Run]:
    """Makes runs that take a second where a tree is searched by its covers, and minutes where all of it is walked.

    Point n of the left layer is (n, 0). One worker joins the layer with itself; or its features from the last one back
    are deleted but for the first, and what is left is joined with point 0.
    """
    files = {"left.csv": b"id,wkt\n" + b"".join(b"%d,POINT (%d 0)\n" % (n, n) for n in range(MOST))}
    header, words = b"left,right,matrix\n", ["--relation", "equals", "--workers", "1"]
    report = header + b"".join(b"%d,%d,0FFFFFFF2\n" % (n, n) for n in range(MOST))
    yield Run("most-points-joined", ["join", "left.csv", "left.csv", *words], files, stdout=report)
    files["right.csv"] = b"id,wkt\n0,POINT (0 0)\n"
    files["edits.csv"] = b"op,layer,id,wkt\n" + b"".join(b"delete,left,%d,\n" % n for n in range(MOST - 1, 0, -1))
    edited = ["join", "left.csv", "right.csv", "--edits", "edits.csv", *words]
    yield Run("most-points-deleted", edited, files, stdout=header + b"0,0,0FFFFFFF2\n")


def runs_that_skip(rows: int) -> Iterator[Run]:
    """Makes runs over a layer 5,000 of whose rows can't be read, by the numbers of workers that read it in other parts.

    Row n of the left layer is the point (n, 0), and the last of as many rows as make 5,000 parts has one of the four
    faults in turn. The right layer is a line along all of them, whose last row is at fault too.
    """
    faults = [("POINT (1 2", "not a geometry text"), ("POINT (0.5 2)", "number not whole or out of range"),
              ('"LINESTRING (1 1, 1 1)"', "a line without length, or a ring that is not closed or is flat"),
              ('"POLYGON ((0 0, 4 4, 4 0, 0 4, 0 0))"', "rings cross or overlap")]
    step = rows // UNREADABLE
    texts, listed, pairs = [], [], []
    for n in range(1, rows + 1):
        if n % step:
            texts.append(f"p{n},POINT ({n} 0)\n")
            pairs.append(f"p{n},line,0FFFFF102\n")
        else:
            text, fault = faults[n // step % 4]
            texts.append(f"p{n},{text}\n")
            listed.append(f'left,{n},p{n},{quoted(fault)}\n')
    files = {"left.csv": "".join(["id,wkt\n", *texts]).encode(),
             "right.csv": f'id,wkt\nline,"LINESTRING (0 0, {rows + 1} 0)"\nlast,POINT EMPTY\n'.encode()}
    report = "".join(["left,right,matrix\n", *pairs]).encode()
    left = {"list.csv": "".join(["side,row,id,fault\n", *listed, "right,2,last,not a geometry text\n"]).encode()}
    said = f"rjoin: rows skipped: left {len(listed)}, right 1\n".encode()
    for workers in ("1", "2", "3", "4", "16"):
        words = ["join", "left.csv", "right.csv", "--relation", "within", "--geometry", "any", "--skip", "list.csv",
                 "--workers", workers]
        yield Run(f"rows-skipped-by-{workers}-workers", words, files, stdout=report, stderr=said, left=left)


def quoted(text: str) -> str:
    """A field of CSV."""
    return f'"{text}"' if "," in text else text


def main() -> int:
    if not PROGRAM.is_file():
        print("stored runs: the program isn't built: run `rt ci` first")
        return 2
    rows = int(sys.argv[1]) if len(sys.argv) > 1 else MANY
    runs = [*stored(), *long_runs(), *runs_of_most(), *pictures_of_most(), *runs_that_skip(rows)]
    failed = 0
    for run in runs:
        why = run.wrong()
        if why:
            failed += 1
            print(f"{run.name}: {why}")
    print(f"stored runs: {len(runs) - failed} passed, {failed} failed")
    return 1 if failed else 0


if __name__ == "__main__":
    sys.exit(main())
