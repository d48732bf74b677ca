"""The programs that are measured: how each is found or built, and the words that run it on two layers."""
import os
import shutil
import subprocess
from collections.abc import Callable, Iterator
from dataclasses import dataclass
from functools import partial
from pathlib import Path

import debian13

HERE = Path(__file__).resolve().parent
Words = list[str | Path]


@dataclass(frozen=True)
class Task:
    """Two layers, the relation, the distance or the number of nearest features that they are joined by, what
    `--geometry` says of them, how many threads may work, and whether pairs alone are asked for."""

    left: Path
    right: Path
    relation: str
    geometry: str
    workers: int
    distance: int | None = None
    most: int | None = None
    is_pairs: bool = False

    @property
    def table(self) -> str:
        """The table in which it stands: that of its geometries, and for letters and pairs one each."""
        return f"{self.geometry} pairs" if self.is_pairs else self.geometry


@dataclass(frozen=True)
class Program:
    """A program that joins: whose it is, its version, the words that run it, and the tables that it is measured for. A
    peer that joins in several ways is a program for each, and the best one of a join counts as the peer's."""

    peer: str
    version: str
    words: Callable[[Task], Words]
    tables: tuple[str, ...] = ("box",)
    way: str = ""

    @property
    def name(self) -> str:
        return f"{self.peer} {self.way}".strip()


@dataclass(frozen=True)
class Run:
    """One run of a program: whose it is, how long it took, all threads' time, its most memory, its pairs in one order
    with their letters or distances, and without them. A run that was stopped, as it took too long, has no pairs."""

    peer: str
    way: str
    seconds: float
    processor: float
    kilobytes: int
    pairs: int
    digest: str
    digest_of_ids: str = ""
    is_stopped: bool = False


@dataclass(frozen=True)
class Home:
    """Where the peers in C++ are built: in this system, or in a new Debian 13."""

    system: Path | None = None

    @property
    def folder(self) -> Path:
        return self.system / "bench" if self.system else HERE / "out"

    def place_of(self, path: Path) -> Path:
        """What a path is called inside."""
        return Path("/", path.relative_to(self.system)) if self.system else path

    def compiler(self) -> Words:
        return ["chroot", self.system, "/usr/bin/g++"] if self.system else ["g++"]

    def version_of(self, version: str) -> str:
        return f"{version} of Debian 13" if self.system else version

    def runner(self) -> Words:
        return debian13.runner(self.system) if self.system else []


def output_of(words: Words) -> str | None:
    """What a command writes, or None where it is not there or fails."""
    try:
        ended = subprocess.run(words, capture_output=True, text=True, check=True)
    except (OSError, subprocess.CalledProcessError):
        return None
    return ended.stdout.strip()


def rjoin(path: str | Path) -> Program:
    """The program itself. The script at the root of the repository builds it first where it has to."""
    version = output_of([path, "--version"])
    if version is None:
        raise SystemExit(f"bench: {path} doesn't run")
    built = HERE.parent / "crates/rjoin/out/rjoin"
    program = built if Path(path) == HERE.parent / "rjoin" else path

    def words(task: Task) -> Words:
        if task.distance is not None:
            geometry = ["--geometry", "any"] if task.geometry == "near any" else []
            return [program, "near", task.left, task.right, "--distance", str(task.distance), *geometry,
                    "--workers", str(task.workers)]
        if task.most is not None:
            return [program, "nearest", task.left, task.right, "--most", str(task.most),
                    "--workers", str(task.workers)]
        geometry = ["--geometry", task.geometry] if task.geometry != "box" else []
        pairs = ["--pairs"] if task.is_pairs else []
        return [program, "join", task.left, task.right, "--relation", task.relation, *geometry, *pairs,
                "--workers", str(task.workers)]

    return Program("rjoin", version, words, ALL_TABLES)


ALL_TABLES = ("box pairs", "box", "near", "nearest", "any pairs", "any", "near any")


def built(home: Home, source: Path, *libraries: str) -> Path | None:
    """A C++ peer, built where it isn't there or is older than its source; None where that fails."""
    program = home.folder / source.stem
    sources = [source, *HERE.glob("peers/*.hpp")]
    if program.exists() and all(program.stat().st_mtime > file.stat().st_mtime for file in sources):
        return program
    print(f"building {home.version_of(source.name)}", flush=True)
    home.folder.mkdir(exist_ok=True)
    for file in sources:
        shutil.copy(file, home.folder)
    words: Words = [*home.compiler(), "-O2", "-std=c++17", "-pthread", home.place_of(home.folder / source.name), "-o",
                    home.place_of(program), *libraries]
    return None if output_of(words) is None else program


def header_version(home: Home, header: str, macro: str) -> str | None:
    text = output_of([*home.compiler(), "-E", "-dM", "-include", header, "-x", "c++", "/dev/null"]) or ""
    values = [line.split(maxsplit=2)[2] for line in text.splitlines() if line.split()[1:2] == [macro]]
    return values[0].strip('"') if values else None


def cplusplus_words(program: Words, way: list[str], task: Task) -> Words:
    asked = task.relation if task.distance is None else str(task.distance)
    return [*program, task.left, task.right, asked, str(task.workers), *way]


# The ways in which GEOS joins, by the words that ask geos_join.cpp for them, and the tables that they are for.
GEOS_WAYS = {
    "prepared": ("box", "any"),
    "plain": ("any",),
    "relate": ("box", "any"),
    "relate right": ("box", "any"),
    "pairs": ("box pairs", "any pairs"),
    "pairs right": ("box pairs", "any pairs"),
}


def geos(home: Home) -> Iterator[Program]:
    """GEOS in each of its ways. From 3.13 on it relates prepared geometries."""
    version = header_version(home, "geos_c.h", "GEOS_VERSION")
    program = built(home, HERE / "peers/geos_join.cpp", "-lgeos_c") if version else None
    if not version or not program:
        return
    has_relate = tuple(map(int, version.split(".")[:2])) >= (3, 13)
    for way, tables in GEOS_WAYS.items():
        if has_relate or not way.startswith("relate"):
            words = partial(cplusplus_words, [*home.runner(), program], way.split())
            yield Program("GEOS", home.version_of(version), words, tables, way)


def geos_near(home: Home) -> Iterator[Program]:
    version = header_version(home, "geos_c.h", "GEOS_VERSION")
    program = built(home, HERE / "peers/geos_near.cpp", "-lgeos_c") if version else None
    if version and program:
        words = partial(cplusplus_words, [*home.runner(), program], [])
        yield Program("GEOS", home.version_of(version), words, ("near", "near any"), "distance")


def boost(home: Home) -> Iterator[Program]:
    version = header_version(home, "boost/version.hpp", "BOOST_LIB_VERSION")
    program = built(home, HERE / "peers/boost_join.cpp") if version else None
    if version and program:
        words = partial(cplusplus_words, [*home.runner(), program], [])
        yield Program("Boost.Geometry", home.version_of(version.replace("_", ".")), words)


def postgis(_home: Home) -> Iterator[Program]:
    """PostGIS in the database that the environment of psql names; its time has the loading of the tables in it."""
    if not shutil.which("psql") or "PGHOST" not in os.environ:
        return
    asked: Words = ["psql", "-qAtX", "-c", "set client_min_messages = error; create extension if not exists postgis",
                    "-c", "select postgis_lib_version()"]
    version = output_of(asked)
    if version:
        yield Program("PostGIS", version, postgis_words, ("box pairs", "box", "near", "nearest"))


def postgis_words(task: Task) -> Words:
    copies = [f"\\copy {side}_rows (id, geom) from '{path}' csv header"
              for side, path in (("left", task.left), ("right", task.right))]
    if task.distance is not None:
        asked, query = f"distance={task.distance}", "postgis_near.sql"
    elif task.most is not None:
        asked, query = f"most={task.most}", "postgis_nearest.sql"
    else:
        asked = f"relation=ST_{task.relation.title().replace('_', '')}"
        query = "postgis_pairs.sql" if task.is_pairs else "postgis_join.sql"
    return ["psql", "-qX", "--csv", "-v", asked, "-v", f"workers={task.workers - 1}", "-f", HERE / "peers/tables.sql",
            "-c", copies[0], "-c", copies[1], "-f", HERE / "peers/indexes.sql", "-f", HERE / "peers" / query]


PEERS: dict[str, Callable[[Home], Iterator[Program]]] = {
    "geos": geos, "geos-near": geos_near, "boost": boost, "postgis": postgis,
}
