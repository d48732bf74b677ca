"""The page and the picture of a run of the bench."""
import datetime
import os
import platform
from argparse import Namespace
from collections.abc import Callable
from dataclasses import dataclass
from xml.sax.saxutils import escape

from programs import Program, Run

COLOURS = ("#1b6ca8", "#8aa29e", "#c98b3c", "#7b5ea7", "#5b8c5a", "#a8553f")
TITLES = {"box pairs": "Points, segments and rectangles: pairs alone",
          "box": "Points, segments and rectangles: pairs with letters",
          "near": "Boxes within a distance", "nearest": "Nearest boxes",
          "any pairs": "Any geometry: pairs alone", "any": "Any geometry: pairs with letters",
          "near any": "Any geometry within a distance"}
WIDTH = 760
# How wide what stands before a bar is, and behind the longest one.
LABEL, BEHIND = 130, 100
BAR = 15
GAP = 14
LETTER = 12
# Of the legend: a square and its name behind it, whose letters are this wide at most, and the place to the next one.
SQUARE, WIDEST_LETTER, APART = 10, 8, 15
Runs = dict[str, Run]


@dataclass(frozen=True)
class Cost:
    """What is compared of runs: seconds from start to end, or those of the processor."""

    is_processor: bool

    def of(self, run: Run) -> float:
        return run.processor if self.is_processor else run.seconds

    def best_by_peer(self, runs: Runs) -> Runs:
        """The best run of each peer, of those in its ways."""
        found: Runs = {}
        for run in sorted(runs.values(), key=lambda run: (run.is_stopped, self.of(run))):
            found.setdefault(run.peer, run)
        return {peer: found[peer] for peer in dict.fromkeys(run.peer for run in runs.values())}


@dataclass(frozen=True)
class Row:
    """One join: its layers, and the best run of each program by its name, by all workers and by one."""

    kind: str
    table: str
    relation: str
    size: int
    features: tuple[int, ...]
    runs: Runs
    alone: Runs


def write(options: Namespace, everyone: list[Program], rows: list[Row], wrong: list[str]) -> None:
    """Writes BENCH.md and bench.svg into the folder of the options."""
    options.output.mkdir(parents=True, exist_ok=True)
    (options.output / "BENCH.md").write_text(page(options, everyone, rows, wrong), encoding="utf-8")
    (options.output / "bench.svg").write_text(picture(options, everyone, rows), encoding="utf-8")


def page(options: Namespace, everyone: list[Program], rows: list[Row], wrong: list[str]) -> str:
    agrees = "Every program gave the same pairs with the same DE-9IM letters or distances."
    answer = "\n".join(wrong) if wrong else agrees
    groups = "\n\n".join(group(options, title, [row for row in rows if row.table == table])
                         for table, title in TITLES.items() if any(row.table == table for row in rows))
    return f"""# Bench

`bench/run` makes layers, joins them by rjoin and by its peers, compares the answers, and writes this page. It is of one run on one machine: compare the ratios, and not the seconds.{by_processor(options)}

| | |
|---|---|
| Day | {datetime.date.today()} |
| Machine | {machine()} |
| System | {system()} |
| Programs | {versions(everyone)} |
| Threads | {options.workers} |
| Runs | the best of {options.times}, or of fewer where one takes {options.enough:g} s; one that takes {options.longest} s is stopped |

{answer}

![Seconds of each program](bench.svg)

The picture has {of_picture(options)}; of joins that are measured twice, those without letters.

{groups}

## What is joined

| Kind | Left | Right |
|---|---|---|
| points | random points | random rectangles that cover the square about once |
| rectangles | such rectangles | such rectangles |
| mixture | points, segments and rectangles on a coarse grid, so that ends and sides coincide | the same |
| cadastre | square parcels side by side | blocks of two by two parcels |
| chip | horizontal bars, eight a cell | vertical wires, eight a cell, every second one without a width |
| close | random rectangles that cover a sixteenth of the square, with about two others within the distance | the same |
| wide | such rectangles, with about twenty others within the distance | the same |
| nearest, nearest-ten | random points | random points |
| parcels | irregular parcels of 14 vertices on average, which share their sides | other such parcels, half a row away |
| neighbours | such parcels | the same parcels |
| roads | polylines of 2 to 33 vertices | such parcels |
| crossings | such polylines | other such polylines |
| zones | random points | areas of 100 vertices, as large as parcels |
| districts | random points | one such area to 100 points, each as large as 100 parcels |
| strands | polylines of 10 vertices aslant across the whole square | others between them: all boxes meet, and no lines |
| spirals | one polyline of as many turns as a turn has vertices | another one between its turns, which begins at the same point |
| spikes | a few random points | one area of many long thin spikes |
| giants, near-any | a few areas of 100,000 vertices, half as wide as the layer | such parcels |

The generator has a fixed seed (`bench/layers.py`, and `bench/irregular.py` for any geometry). Of the cadastre, the chip, the neighbours, the strands and the spirals, the number of pairs follows by arithmetic and is compared too; `bench/smoke` does that alone, at small sizes and with no peer.

## What the peers do

GEOS (C interface) joins by an STRtree of the right layer, in several ways, of which the best one of each join counts; it stands behind the time. *prepared*: the named predicate of prepared left geometries, and the letters of the pairs that hold. *plain*: the letters of all pairs whose boxes meet, fitted to the masks. *relate*: the same by prepared left geometries, which GEOS relates from 3.13 on. *right*: right geometries are prepared, and the tree is of the left layer. Pairs alone are those of the prepared predicate. *distance*: the tree is asked by the left envelope, grown by the distance, and the prepared left geometry gives the distance. Boost.Geometry: a packed R-tree of boxes and `relation`, fitted to the masks. These read the CSV files themselves and join by as many threads as rjoin, which has `--pairs` for pairs alone. PostGIS: `\\copy` into unlogged tables, a GiST index each, `ANALYZE`, the join, for letters with `ST_Relate`, `ST_DWithin` with `ST_Distance`, or for nearest points a lateral query in the order of `<->` with its ties; all of that is in its seconds. All of them take geometries of any form, and rjoin reads the first nine kinds as points, axis-parallel segments and rectangles, which has a part in the difference. GEOS and Boost.Geometry round the points where lines cross, so their letters may differ from the exact ones.
"""  # noqa: E501


def versions(everyone: list[Program]) -> str:
    """Each program with its version, once for all its ways."""
    found = {program.peer: program.version.removeprefix("rjoin ") for program in everyone}
    return ", ".join(f"{peer} {version}" for peer, version in found.items())


def by_processor(options: Namespace) -> str:
    if not options.processor:
        return ""
    return (" The machine was busy with other work, so the page has the processor's seconds, which that distorts less, "
            "and no PostGIS, whose server does the work.")


def of_picture(options: Namespace) -> str:
    return "the processor's seconds by one thread" if options.processor else f"seconds by {options.workers} threads"


def group(options: Namespace, title: str, rows: list[Row]) -> str:
    """The tables of the joins of one sort of geometries and one answer."""
    cost = Cost(options.processor)
    peers = list(cost.best_by_peer(rows[0].runs))
    work = work_table([peer for peer in peers if peer != "PostGIS"], rows, options.workers, cost)
    if options.processor:
        return f"""## {title}

Seconds of the processor over all threads from the two files to the written pairs, in brackets how many times as many as rjoin, below 1 where rjoin takes more, and the most memory in megabytes:

{work}"""  # noqa: E501
    return f"""## {title}

Seconds from the two files to the written pairs by {options.workers} threads, and in brackets how many times as long as rjoin, below 1 where rjoin takes longer:

{table(peers, rows, lambda row: cost.best_by_peer(row.runs))}

The same by one thread each:

{table(peers, rows, lambda row: cost.best_by_peer(row.alone))}

Seconds of the processor over all threads, in brackets how many times as many as rjoin, and the most memory in megabytes. They depend less on the other work of the machine.{without_postgis(peers)}

{work}"""  # noqa: E501


def without_postgis(peers: list[str]) -> str:
    return " PostGIS is left out, since its server does the work." if "PostGIS" in peers else ""


def machine() -> str:
    try:
        with open("/proc/cpuinfo", encoding="ascii", errors="replace") as file:
            models = [line.split(":", 1)[1].strip() for line in file if line.startswith("model name")]
    except OSError:
        models = []
    memory = os.sysconf("SC_PAGE_SIZE") * os.sysconf("SC_PHYS_PAGES") / 2**30
    load, cores = os.getloadavg()[0], os.cpu_count() or 1
    busy = " and busy with other work" if load > 2 * cores else ""
    model = models[0] if models else platform.machine()
    return f"{model}, {cores} cores, {memory:.0f} GB; load {load:.0f} at the end{busy}"


def system() -> str:
    try:
        return f"{platform.freedesktop_os_release()['PRETTY_NAME']}, {platform.system()} {platform.release()}"
    except OSError:
        return platform.platform()


def table(peers: list[str], rows: list[Row], best_of: Callable[[Row], Runs]) -> str:
    lines = [f"| Kind | Relation | Features | Pairs | {' | '.join(peers)} |", "|---" * (4 + len(peers)) + "|"]
    for row in rows:
        runs = best_of(row)
        cells = " | ".join(seconds_cell(runs, peer) for peer in peers)
        lines.append(f"| {row.kind} | {row.relation} | {features_of(row)} | {row.runs['rjoin'].pairs:,} | {cells} |")
    return "\n".join(lines)


def features_of(row: Row) -> str:
    return " x ".join(f"{count:,}" for count in row.features)


def seconds_cell(runs: Runs, peer: str) -> str:
    run, over = runs[peer], "over " if runs[peer].is_stopped else ""
    if peer == "rjoin":
        return f"{over}{run.seconds:.2f}"
    return f"{over}{run.seconds:.2f} ({run.seconds / runs['rjoin'].seconds:.1f}){way_of(run)}"


def way_of(run: Run) -> str:
    """The way of a peer, but for what all of its ways have in common."""
    way = run.way.removeprefix("pairs").strip()
    return f" {way}" if way not in ("", "distance") else ""


def work_table(peers: list[str], rows: list[Row], workers: int, cost: Cost) -> str:
    lines = [f"| Kind | Relation | Features | Pairs | Threads | {' | '.join(peers)} |", "|---" * (5 + len(peers)) + "|"]
    for row in rows:
        start = f"{row.kind} | {row.relation} | {features_of(row)} | {row.runs['rjoin'].pairs:,}"
        for threads, runs in ((workers, row.runs), (1, row.alone)):
            best = cost.best_by_peer(runs)
            lines.append(f"| {start} | {threads} | {' | '.join(work_cell(best, peer) for peer in peers)} |")
    return "\n".join(lines)


def work_cell(runs: Runs, peer: str) -> str:
    """The seconds of the processor and the memory of a program, and for a peer how many times those of rjoin."""
    run, own = runs[peer], runs["rjoin"].processor
    ratio = f" ({run.processor / max(own, 0.01):.1f}){way_of(run)}" if peer != "rjoin" else ""
    return f"{'over ' if run.is_stopped else ''}{run.processor:.2f}{ratio}, {run.kilobytes / 1024:.0f} MB"


def picture(options: Namespace, everyone: list[Program], rows: list[Row]) -> str:
    """Bars of the best of each peer by several threads, or of the processor by one; of the first size alone of each
    table, and of joins without letters where there are such. A bar that would pass the edge is cut there, and its
    number stands beside it. The machine stands below."""
    cost = Cost(options.processor)
    shown = [(row, drawn(cost, row)) for row in shown_of(rows)]
    peers = [peer for peer in dict.fromkeys(program.peer for program in everyone)
             if any(peer in runs for _, runs in shown)]
    scale = (WIDTH - LABEL - BEHIND) / cut_of([runs for _, runs in shown], cost)
    first, top = legend(peers)
    parts = [first]
    for row, runs in shown:
        parts.append(bars(row, runs, peers, top, scale, cost))
        top += BAR * max(2, len(runs)) + GAP
    foot = top + LETTER
    height = foot + GAP
    parts.append(f'<text x="8" y="{foot}" fill="#666666" font-size="10">{escape(machine())}</text>')
    return (f'<svg xmlns="http://www.w3.org/2000/svg" viewBox="0 0 {WIDTH} {height}" width="{WIDTH}" '
            f'height="{height}" font-family="sans-serif" font-size="{LETTER}">\n'
            f'<rect width="{WIDTH}" height="{height}" fill="white"/>\n' + "\n".join(parts) + "\n</svg>\n")


def shown_of(rows: list[Row]) -> list[Row]:
    """The rows that the picture has."""
    tables = {row.table for row in rows}
    sizes = {row.table: row.size for row in reversed(rows)}
    return [row for row in rows if row.size == sizes[row.table] and f"{row.table} pairs" not in tables]


def drawn(cost: Cost, row: Row) -> Runs:
    """The runs of a row that the picture has."""
    runs = cost.best_by_peer(row.alone if cost.is_processor else row.runs)
    return {peer: run for peer, run in runs.items() if not cost.is_processor or peer != "PostGIS"}


def cut_of(shown: list[Runs], cost: Cost) -> float:
    """Where bars are cut: 25 times the longest of rjoin's, or the longest bar of all."""
    longest = max(cost.of(run) for runs in shown for run in runs.values())
    own = max(cost.of(runs["rjoin"]) for runs in shown)
    return max(0.01, min(longest, 25 * own))


def legend(peers: list[str]) -> tuple[str, int]:
    """The names of the bars' colours, in as many lines as they need, and where the bars may begin."""
    parts, x, y = [], LABEL, SQUARE + 2
    for peer, colour in zip(peers, COLOURS):
        end = x + SQUARE + 5 + WIDEST_LETTER * len(peer)
        if end > WIDTH and x > LABEL:
            x, y, end = LABEL, y + BAR, LABEL + end - x
        parts.append(f'<rect x="{x}" y="{y}" width="{SQUARE}" height="{SQUARE}" fill="{colour}"/>'
                     f'<text x="{x + SQUARE + 5}" y="{y + SQUARE - 1}">{escape(peer)}</text>')
        x = end + APART
    return "\n".join(parts), y + 30


def bars(row: Row, runs: Runs, peers: list[str], top: int, scale: float, cost: Cost) -> str:
    parts = [f'<text x="8" y="{top + LETTER}">{escape(row.kind)}</text>'
             f'<text x="8" y="{top + 2 * LETTER + 2}" fill="#666666">{escape(row.relation)}</text>']
    for at, (peer, run) in enumerate(runs.items()):
        width = max(1.0, min(cost.of(run) * scale, WIDTH - LABEL - BEHIND))
        y, over = top + at * BAR, "over " if run.is_stopped else ""
        parts.append(f'<rect x="{LABEL}" y="{y}" width="{width:.1f}" height="{BAR - 3}" '
                     f'fill="{COLOURS[peers.index(peer)]}"/>'
                     f'<text x="{LABEL + width + 5:.1f}" y="{y + LETTER - 2}">{over}{cost.of(run):.2f} s</text>')
    return "\n".join(parts)
