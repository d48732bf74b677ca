#!/usr/bin/env python3
"""Times rjoin.sjoin and geopandas.sjoin on the same frames, side by side, as a table.

    bench/frames.py [SIZE..] [--kinds KIND,..] [--times N] [--no-geopandas]
    bench/frames.py --debian-13 [--cache FOLDER] ..     as root, in the new Debian 13 of bench/run, with GeoPandas 1

Each join runs in a process of its own, from frames to a frame. The table has seconds from start to end, seconds of all
processors, those of the program alone, and the share of the rest, which are the conversions from frames and to one.
Of several times that with the least of all processors counts. The pairs are compared. The program is RJOIN's, or the
one that the repository has built.
"""
import argparse
import json
import os
import resource
import subprocess
import sys
import tempfile
import time
from itertools import product
from pathlib import Path
from typing import Any

import debian13
import layers

ROOT = Path(__file__).resolve().parent.parent
PROGRAM = Path(os.environ.get("RJOIN", ROOT / "crates/rjoin/out/rjoin"))
# Kinds of layers, and the predicate by which each is joined.
KINDS = {"rectangles": "intersects", "parcels": "intersects", "neighbours": "touches", "districts": "within"}


def frame(path: str) -> Any:
    """The layer as a frame, as it would be read from a file of doubles."""
    import geopandas
    import pandas

    rows = pandas.read_csv(path)
    return geopandas.GeoDataFrame({"id": rows["id"]}, geometry=geopandas.GeoSeries.from_wkt(rows["wkt"]))


def joined(tool: str, left: Any, right: Any, predicate: str) -> Any:
    if tool == "rjoin":
        import rjoin

        return rjoin.sjoin(left, right, predicate)
    import geopandas

    return geopandas.sjoin(left, right, predicate=predicate)


def processor(who: int) -> float:
    used = resource.getrusage(who)
    return used.ru_utime + used.ru_stime


def measured(tool: str, predicate: str, left: str, right: str) -> dict[str, Any]:
    """What a join takes, in this process; the modules are loaded before."""
    frames = frame(left), frame(right)
    joined(tool, frames[0].iloc[:100], frames[1].iloc[:100], predicate)
    own, programs = processor(resource.RUSAGE_SELF), processor(resource.RUSAGE_CHILDREN)
    start = time.monotonic()
    found = joined(tool, *frames, predicate)
    return {"wall": time.monotonic() - start, "own": processor(resource.RUSAGE_SELF) - own,
            "program": processor(resource.RUSAGE_CHILDREN) - programs, "pairs": len(found),
            "sum": int((found.index.to_numpy() * 31 + found["index_right"].to_numpy()).sum()),
            "memory": resource.getrusage(resource.RUSAGE_SELF).ru_maxrss // 1024}


def options_of(words: list[str]) -> argparse.Namespace:
    parser = argparse.ArgumentParser(description=__doc__, formatter_class=argparse.RawDescriptionHelpFormatter)
    parser.add_argument("sizes", nargs="*", type=int, default=[100_000])
    parser.add_argument("--kinds", type=lambda text: text.split(","), default=list(KINDS))
    parser.add_argument("--times", type=int, default=1)
    parser.add_argument("--no-geopandas", action="store_true")
    parser.add_argument("--debian-13", action="store_true")
    parser.add_argument("--cache", type=Path, default=debian13.default_cache(), help="folder of the new Debian 13")
    parser.add_argument("--one", nargs=4, help=argparse.SUPPRESS)
    return parser.parse_args(words)


def main(words: list[str]) -> int:
    options = options_of(words)
    if options.one:
        print(json.dumps(measured(*options.one)))
        return 0
    if options.debian_13:
        return on_debian_13(options.cache, [word for word in words if word != "--debian-13"])
    tools = ["rjoin"] if options.no_geopandas else ["rjoin", "geopandas"]
    print("kind        size     tool       pairs     wall      cpu  program  rest of cpu   MB", flush=True)
    with tempfile.TemporaryDirectory() as folder:
        for kind, size in product(options.kinds, options.sizes):
            paths = layers.write_pair(folder, kind, size)
            found = [result_of(tool, paths, kind, size, options.times) for tool in tools]
            if any((one["pairs"], one["sum"]) != (found[0]["pairs"], found[0]["sum"]) for one in found):
                print("the pairs differ")
                return 1
    return 0


def on_debian_13(cache: Path, words: list[str]) -> int:
    """Runs this script in a new system."""
    try:
        system = debian13.system_in(cache)
    except debian13.Lacking as fault:
        print(f"skipped: Debian 13 ({fault})")
        return 1
    inside = debian13.inside(system, ROOT, PROGRAM, "python3", "/checkout/bench/frames.py", *words)
    return subprocess.run(inside, check=False).returncode


def cpu_of(run: dict[str, float]) -> float:
    return run["own"] + run["program"]


def result_of(tool: str, paths: tuple[Path, Path], kind: str, size: int, times: int) -> dict[str, Any]:
    """What a join takes, in a new process, at best, printed as a row."""
    words = [sys.executable, __file__, "--one", tool, KINDS[kind], *map(str, paths)]
    runs: list[dict[str, Any]] = [
        json.loads(subprocess.run(words, stdout=subprocess.PIPE, text=True, check=True).stdout) for _ in range(times)]
    found = min(runs, key=cpu_of)
    cpu = cpu_of(found)
    rest = found["own"] / cpu if tool == "rjoin" else 0
    print(f"{kind:11} {size:8} {tool:9} {found['pairs']:8} {found['wall']:8.2f} {cpu:8.2f} {found['program']:8.2f} "
          f"{rest:12.0%} {found['memory']:4}", flush=True)
    return found


if __name__ == "__main__":
    sys.exit(main(sys.argv[1:]))
