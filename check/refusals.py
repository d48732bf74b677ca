#!/usr/bin/env python3
"""Refuses memory, files, reads, writes and threads to the program, and memory to the tests as check/tests.py has built
them, gives the program hostile files and outputs, and sees that each run ends as it may.

    check/refusals.py            all but the tests of whole commands, which take most of the time
    check/refusals.py --all      all of it

Four parts. Of the crates NAME_tests, the tests that are named for refused memory are run with each allocation
refused in turn, and have to pass. The program is run on the files of data/ with each allocation, opened file,
read, write, start of a thread and random keys refused in turn, alone or with all that follow, and with each read
and write cut short or interrupted. It is run once with each of a list of bad files, names and outputs. And how often
it starts a thread, reads, writes, makes a long list longer, yields and waits is counted. The last line counts runs.

A refused run may do as well as one that isn't refused. Else it ends with status 1 and its line, and has written
nothing, or a beginning of the report where it is writing that failed. What ends by a signal, takes too long
or writes anything else has gone wrong. `check/refuse.c` is what refuses; gcc compiles it into a folder of the run.
"""
import os
import re
import shutil
import subprocess
import sys
import tempfile
from collections.abc import Callable
from concurrent.futures import ThreadPoolExecutor
from dataclasses import dataclass, field
from functools import partial
from glob import glob
from itertools import count
from typing import Any

ROOT = os.path.dirname(os.path.dirname(os.path.abspath(__file__)))
SECONDS = 20
LONG_SECONDS = 120
SWEEPS = 5
MOST_WRONG = 5
# The tests as check/tests.py has built them, with what refuses memory linked in.
TESTS = f"{ROOT}/out/tests/*_tests"
# Those of whole commands, which have seven eighths of the time of all: the program is run with the same refusals.
OF_COMMANDS = "command_tests"
NAMED = re.compile(r"refused|growth|without_memory")
STOPPED = b"test stopped at "
NOBODY = 65534
IN_ROW = 20_000
IN_CROWD = 4_000
FEW = 12

NO_MEMORY = rb"rjoin: ((left|right|edits|layer): |edits: row \d+: )?no memory\n"
NO_THREAD = rb"rjoin: a worker could not be started\n"
NO_FILE = rb"rjoin: (left|right|edits|layer): cannot be opened\n"
NO_KEYS = rb"rjoin: no random keys for hashing\n"
READ_FAILED = rb"rjoin: (left|right|edits|layer): read failed\n"
WRITE_FAILED = rb"rjoin: write failed\n"
LIST_FAILED = rb"rjoin: skip: cannot be written\n"

# How calls of each kind are refused, and the lines that may tell of it. A way without a line changes no answer.
WAYS: dict[str, dict[str, bytes | None]] = {
    "memory": dict.fromkeys(("once", "on"), NO_MEMORY + b"|" + NO_THREAD + b"|" + LIST_FAILED),
    "thread": {"once": NO_THREAD, "on": NO_THREAD},
    "open": {"once": NO_FILE + b"|" + LIST_FAILED, "on": NO_FILE + b"|" + LIST_FAILED},
    "keys": {"once": NO_KEYS, "on": NO_KEYS},
    "read": {"once": READ_FAILED, "on": READ_FAILED, "short": None, "bytes": None, "signal": None},
    "write": {"once": WRITE_FAILED + b"|" + LIST_FAILED, "on": b"", "none": WRITE_FAILED + b"|" + LIST_FAILED,
              "short": None, "bytes": None, "signal": None},
}


@dataclass
class Ended:
    """How a run ended: its status, below 0 for a signal and None where it took too long, what it wrote, and whether
    a call was refused."""

    status: int | None
    output: bytes
    errors: bytes
    is_refused: bool = False

    def shown(self) -> str:
        return f"status {self.status}, wrote {self.output[:80]!r} and {self.errors[:200]!r}"


@dataclass
class Tally:
    """How many runs there were, and a line for each that went wrong."""

    runs: int = 0
    wrong: list[str] = field(default_factory=list)

    def add(self, label: str, ended: Ended, why: str | None) -> None:
        self.runs += 1
        if why:
            self.wrong.append(f"{label}: {why}: {ended.shown()}")


@dataclass(frozen=True)
class Sweep:
    """A program that is run with each call of a kind refused in turn, and what says what is wrong with such a run."""

    shim: str
    label: str
    words: list[str]
    kind: str
    way: str
    judge: Callable[[Ended], str | None]


def ran(words: list[str], env: dict[str, str] | None = None, tells: int | None = None, seconds: float = SECONDS,
        **how: Any) -> Ended:
    """Runs a program to its end. `tells` is a descriptor that it is to inherit."""
    how = {"stdout": subprocess.PIPE, "stderr": subprocess.PIPE, "stdin": subprocess.DEVNULL, **how}
    kept = (tells,) if tells is not None else ()
    environment = {**os.environ, **(env or {})}
    started: subprocess.Popen[bytes] = subprocess.Popen(words, env=environment, pass_fds=kept, **how)
    try:
        output, errors = started.communicate(timeout=seconds)
        return Ended(started.returncode, output or b"", errors or b"")
    except subprocess.TimeoutExpired:
        started.kill()
        output, errors = started.communicate()
        return Ended(None, output or b"", errors or b"")


def ran_refused(shim: str, words: list[str], kind: str, way: str, at: int) -> Ended:
    """Runs a program with one call refused, or all from that one on, by the shim or, where that is empty, by itself."""
    heard, tells = os.pipe()
    env = {"LD_PRELOAD": shim, "REFUSE_KIND": kind, "REFUSE_HOW": way, "REFUSE_AT": str(at), "REFUSE_TELL": str(tells),
           "ASAN_OPTIONS": "abort_on_error=1:allocator_may_return_null=1"}
    try:
        ended = ran(words, env, tells)
    finally:
        os.close(tells)
    with os.fdopen(heard, "rb") as reported:
        ended.is_refused = bool(reported.read())
    return ended


def is_same(ended: Ended, plain: Ended) -> bool:
    return (ended.status, ended.output, ended.errors) == (plain.status, plain.output, plain.errors)


def crash(ended: Ended) -> str | None:
    """What is wrong with any run that ends so."""
    if ended.status is None:
        return "took too long"
    return f"ended by signal {-ended.status}" if ended.status < 0 else None


def judged(kind: str, way: str, plain: Ended, ended: Ended) -> str | None:
    """What is wrong with a refused run of the program, or None. `plain` is the run that isn't refused."""
    line = WAYS[kind][way]
    if crash(ended) or is_same(ended, plain):
        return crash(ended)
    if line is None:
        return "another answer, although nothing failed"
    if kind == "write" and ended.output == plain.output and ended.status == 0 and plain.errors.startswith(ended.errors):
        return None  # a note that standard error hasn't taken
    if ended.status not in (1, plain.status) or ended.status == 0:
        return "another answer with status 0, or a wrong status"
    is_reported = bool(re.fullmatch(line, ended.errors))
    if kind != "write":
        return None if is_reported and not ended.output else "not its line, or part of a report"
    is_reported = is_reported or (plain.errors != b"" and plain.errors.startswith(ended.errors))
    is_beginning = plain.output.startswith(ended.output)
    return None if is_reported and is_beginning else "not its line, or no beginning of the report"


def swept(it: Sweep) -> Tally:
    """Runs a program with the first call of a kind refused, the second and on, until none is, or some runs have gone
    wrong, and judges each run."""
    tally = Tally()
    for at in count(1):
        ended = ran_refused(it.shim, it.words, it.kind, it.way, at)
        tally.add(f"{it.label}, {it.kind} {at} {it.way}", ended, it.judge(ended))
        if not ended.is_refused or len(tally.wrong) == MOST_WRONG:
            break
    return tally


def test_tasks(room: str, is_all: bool) -> list[Sweep]:
    """The sweeps over the tests that are named for refused memory."""
    tasks = []
    for built in sorted(it for it in glob(TESTS) if is_all or os.path.basename(it) != OF_COMMANDS):
        program = shutil.copy(built, room)
        for name in re.findall(r"^(.*): test$", ran([program, "--list"]).output.decode(), re.MULTILINE):
            if NAMED.search(name):
                words, label = [program, name], f"{os.path.basename(program)}, {name}"
                tasks.append(Sweep("", label, words, "memory", "once", passes))
                tasks.append(Sweep("", label, words, "memory", "on", stops))
    return tasks


def passes(ended: Ended) -> str | None:
    return crash(ended) or (None if ended.status == 0 else "the test failed")


def stops(ended: Ended) -> str | None:
    """With no memory from some moment on a test may fail, also by what it asserts, but in no other way."""
    return None if ended.status == -6 and STOPPED in ended.output else crash(ended)


# The statuses of the commands below that don't succeed.
STATUSES = {
    "join refused": 1,
    "draw refused": 1,
    "join without unreadable rows refused": 1,
    "a bad geometry": 1,
    "a bad geometry of any direction": 1,
    "join of any geometry refused": 1,
    "draw of any geometry refused": 1,
    "window by rings that cross": 1,
    "near refused": 1,
    "nearest refused": 1,
    "no file": 1,
    "no command": 2,
    "two standard inputs": 2,
}


def commands() -> dict[str, list[str]]:
    """Command lines for the files of data/."""
    square = "POLYGON ((0 0, 9 0, 9 9, 0 9, 0 0))"
    join = ["join", "parcels.csv", "roads.csv", "--relation", "touches"]
    any_two = ["relate", "--geometry", "any"]
    any_join = ["slanted.csv", "lines.csv", "--relation", "intersects", "--geometry", "any"]
    even_odd = ["bow-ties.csv", "lines.csv", "--relation", "intersects", "--geometry", "any", "--rings", "even-odd"]
    bow_tie = "POLYGON ((0 0, 4 4, 4 0, 0 4, 0 0))"
    return {
        "join": join,
        "join with edits": [*join, "--edits", "edits.csv", "--workers", "3", "--batch", "1", "--cut", "8"],
        "join of many messages": ["join", "few.csv", "few.csv", "--relation", "equals", "--batch", "1"],
        "join for pairs alone": [*join, "--pairs"],
        "join for first pairs": [*join, "--first"],
        "join for counts": [*join, "--count"],
        "join for features without a pair": [*join, "--unmatched"],
        "join refused": [*join, "--edits", "bad.csv"],
        "draw": ["draw", *join[1:]],
        "draw with edits": ["draw", *join[1:], "--edits", "edits.csv", "--workers", "3", "--batch", "1"],
        "draw refused": ["draw", *join[1:], "--edits", "bad.csv"],
        "join without unreadable rows": ["join", "torn.csv", *join[2:], "--skip", "LIST"],
        "join without unreadable rows refused": ["join", "torn.csv", *join[2:], "--edits", "bad.csv", "--skip", "LIST"],
        "near": ["near", *join[1:3], "--distance", "5"],
        "near with edits": ["near", *join[1:3], "--distance", "5", "--apart", "--edits", "edits.csv", "--batch", "1"],
        "near refused": ["near", *join[1:3], "--distance", "5", "--edits", "bad.csv"],
        "nearest": ["nearest", *join[1:3]],
        "nearest with edits": ["nearest", *join[1:3], "--most", "2", "--distance", "5", "--edits", "edits.csv"],
        "nearest refused": ["nearest", *join[1:3], "--edits", "bad.csv"],
        "window": ["window", "stations.csv", square],
        "stats": ["stats", "parcels.csv"],
        "bounds": ["bounds", "stations.csv"],
        "relate": ["relate", square, "POINT (9 9)"],
        "relate at a scale": ["relate", square, "POINT (9 9.25)", "--scale", "2"],
        "relate of any geometry": [*any_two, "LINESTRING (3 4, 6 2)", "LINESTRING (0 6, 6 2, 5 0, 6 5)"],
        "relate by the even-odd rule": [*any_two, "--rings", "even-odd", "POINT (1 2)", bow_tie],
        "join of any geometry": ["join", *any_join],
        "join of any geometry with edits": ["join", *any_join, "--edits", "any-edits.csv", "--workers", "3",
                                            "--batch", "1"],
        "join of any geometry for pairs alone": ["join", *any_join, "--pairs"],
        "join of any geometry for first pairs": ["join", *any_join, "--first"],
        "join of any geometry for first pairs alone": ["join", *any_join, "--first", "--pairs"],
        "join of any geometry for counts": ["join", *any_join, "--count"],
        "join of any geometry for features without a pair": ["join", *any_join, "--unmatched"],
        "join of any geometry refused": ["join", *any_join, "--edits", "any-bad.csv"],
        "join by the even-odd rule": ["join", *even_odd],
        "draw of any geometry": ["draw", *any_join],
        "draw of any geometry refused": ["draw", *any_join, "--edits", "any-bad.csv"],
        "draw by the even-odd rule": ["draw", *even_odd],
        "window of any geometry": ["window", "slanted.csv", "LINESTRING (1 3, 5 -1)", "--geometry", "any"],
        "window by rings that cross": ["window", "slanted.csv", bow_tie, "--geometry", "any"],
        "stats of any geometry": ["stats", "slanted.csv", "--geometry", "any"],
        "bounds of any geometry": ["bounds", "slanted.csv", "--geometry", "any"],
        "a bad geometry": ["relate", square, "POINT (9 9"],
        "a bad geometry of any direction": [*any_two, square, "POLYGON ((0 0, 9 3, 0 9, 0 1))"],
        "no file": ["stats", "nowhere.csv"],
        "no command": ["join", "parcels.csv"],
        "two standard inputs": ["join", "-", "-", "--relation", "touches"],
        "help": ["--help"],
    }


SLANTED = """id,wkt
corner,"POLYGON ((0 0, 4 0, 0 4, 0 0))"
ring,"POLYGON ((0 0, 6 0, 6 6, 0 6, 0 0), (2 2, 4 2, 4 4, 2 4, 2 2))"
parts,"MULTIPOLYGON (((0 0, 2 0, 0 2, 0 0)), ((4 0, 6 0, 6 2, 4 0)))"
trees,"MULTIPOINT (1 1, 2 2, 3 3)"
"""
LINES = """id,wkt
fence,"LINESTRING (1 3, 5 -1)"
loop,"LINESTRING (0 0, 4 0, 2 3, 0 0)"
fork,"MULTILINESTRING ((0 0, 2 2), (2 2, 4 0), (2 2, 2 5))"
"""
BOW_TIES = """id,wkt
corner,"POLYGON ((0 0, 4 0, 0 4, 0 0))"
bow tie,"POLYGON ((0 0, 4 4, 4 0, 0 4, 0 0))"
"""
ANY_EDITS = """op,layer,id,wkt
delete,left,corner,
insert,left,new corner,"POLYGON ((0 0, 5 0, 0 3, 0 0))"
insert,right,tree,POINT (3 2)
"""
TORN = """id,wkt
mill field,"POLYGON ((0 0, 9 0, 9 9, 0 9, 0 0))"
empty,POINT EMPTY
half,POINT (0.5 0)
"""
EDITS = """op,layer,id,wkt
insert,left,new field,"POLYGON ((0 0, 2 0, 2 2, 0 2, 0 0))"
delete,left,mill field,
insert,right,path,"LINESTRING (0 0, 2 0)"
"""


def with_list(words: list[str], name: str) -> list[str]:
    """The words with this file for the list of skipped rows, since sweeps run side by side."""
    return [name if it == "LIST" else it for it in words]


def program_tasks(shim: str, program: str) -> list[Sweep]:
    """The sweeps over the program."""
    tasks = []
    for label, words in commands().items():
        words = [program, *words]
        plain = ran(with_list(words, f"list of {label}"))
        if plain.status != STATUSES.get(label, 0):
            sys.exit(f"refusals: with nothing refused, {label} went wrong: {plain.shown()}")
        for kind, ways in WAYS.items():
            for way in ways:
                own = with_list(words, f"list of {label}, {kind} {way}")
                tasks.append(Sweep(shim, label, own, kind, way, partial(judged, kind, way, plain)))
    return tasks


@dataclass
class Case:
    """A run that has to end with one of these lines and a status, having written only a beginning of `front`."""

    label: str
    words: list[str]
    line: bytes
    status: int = 1
    front: bytes = b""
    how: dict[str, Any] = field(default_factory=dict)

    def ran(self, program: str) -> Ended:
        return ran([it if it != "rjoin" else program for it in self.words], seconds=LONG_SECONDS, **self.how)

    def wrong(self, ended: Ended) -> str | None:
        if crash(ended):
            return crash(ended)
        if ended.status != self.status or not re.fullmatch(self.line, ended.errors):
            return f"not status {self.status} and {self.line!r}"
        return None if self.front.startswith(ended.output) else "no beginning of the report"


def under(limit: str, *words: str) -> list[str]:
    """The words that run a program under a limit of the shell."""
    return ["sh", "-c", f'{limit} exec "$0" "$@"', *words]


def file_cases() -> list[Case]:
    """Files that can't be opened, can't be read, are too long or hold too much."""
    cases = []
    for path, line in [
        (".", b"read failed"),
        ("n" * 300, b"cannot be opened"),
        ("", b"cannot be opened"),
        ("parcels.csv/x", b"cannot be opened"),
        ("parcels.csv/", b"cannot be opened"),
        ("/dev/null", b"wrong header\nthe first line begins with ''"),
        ("-", b"wrong header\nthe first line begins with ''"),
        ("/dev/zero", b"file is too long"),
        ("longest.csv", rb"wrong header\nthe first line begins with '\?{64}'"),
        ("too-long.csv", b"file is too long"),
        ("huge.csv", b"file is too long"),
        ("one-word.csv", b"wrong header\nthe first line begins with '" + b"a" * 64 + b"'"),
        ("one-field.csv", b"row 1: wrong fields"),
        ("one-id.csv", rb"row 1: id must have 1 to 64 bytes of UTF-8"),
        ("one-text.csv", b"row 1: not a geometry text"),
        ("full.csv", b"row 1000001: layer is full"),
        ("full-double.csv", b"row 1000001: id is already there"),
    ]:
        shown = f"a file {path[:20]!r}"
        cases.append(Case(shown, ["rjoin", "stats", path], b"rjoin: layer: " + line + b"\n"))
    for path, line in [("full.csv", b"layer is full"), ("full-double.csv", b"id is already there")]:
        words = ["rjoin", "join", path, "few.csv", "--relation", "equals", "--workers", "1"]
        shown = f"a file {path!r} by one worker"
        cases.append(Case(shown, words, b"rjoin: left: row 1000001: " + line + b"\n"))
    for at, side in enumerate((b"left", b"right", b"edits")):
        words = ["rjoin", "join", "parcels.csv", "roads.csv", "--edits", "edits.csv", "--relation", "touches"]
        words[[2, 3, 5][at]] = "."
        cases.append(Case(f"a folder as {side.decode()}", words, b"rjoin: " + side + b": read failed\n"))
    words = ["rjoin", "stats", "too-long.csv", "--geometry", "any"]
    line = rb"rjoin: layer: wrong header\nthe first line begins with '\?{64}'\n"
    cases.append(Case("a file of any geometry, too long for boxes", words, line))
    drawn = ["rjoin", "draw", "half.csv", "few.csv", "--relation", "equals"]
    cases.append(Case("too many to draw", drawn, b"rjoin: more than 100000 features to draw\n"))
    few = under("ulimit -n 4;", "rjoin", "join", "parcels.csv", "roads.csv", "--relation", "touches")
    cases.append(Case("two files, and one descriptor left", few, rb"rjoin: (left|right): cannot be opened\n"))
    return cases


def memory_cases() -> list[Case]:
    """Layers, files of a join and pairs that need more than 64 MB, a report of 48,000 pairs that needs a tenth of it,
    a join of 2,500 tasks that needs half of 48, and a small one in 8, which a thread doesn't fit into."""
    held = ["rjoin", "window", "half.csv", "POINT (0 0)"]
    pairs = ["rjoin", "join", "crowd.csv", "crowd.csv", "--relation", "intersects"]
    tasks = ["rjoin", "join", "row.csv", "row.csv", "--relation", "equals", "--workers", "1", "--cut", "8"]
    report = ["rjoin", "join", "crowd.csv", "few.csv", "--relation", "equals", "--workers", "1"]
    alone = ["rjoin", "join", "few.csv", "few.csv", "--relation", "equals", "--workers", "1"]
    most = "ulimit -v 65536;"
    return [
        Case("a long file in 64 MB", under(most, "rjoin", "stats", "too-long.csv"), rb"rjoin: layer: no memory\n"),
        Case("a large layer in 64 MB", under(most, *held), rb"rjoin: layer: no memory\n"),
        join_case(most, b"left", "too-long.csv", "few.csv"),
        join_case(most, b"left", "half.csv", "few.csv"),
        join_case(most, b"right", "few.csv", "too-long.csv"),
        join_case(most, b"right", "few.csv", "half.csv"),
        join_case(most, b"edits", "few.csv", "few.csv", "--edits", "too-long.csv"),
        Case("many pairs in 64 MB", under(most, *pairs), NO_MEMORY + b"|" + NO_THREAD),
        Case("a report of 48,000 pairs in 64 MB", under(most, *report), b"", 0, front=equals_of_crowd()),
        Case("many tasks in 48 MB", under("ulimit -v 49152;", *tasks), b"", 0, front=equals_of_row()),
        Case("one worker in 8 MB", under("ulimit -v 8192;", *alone), b"", 0, front=equals_of_crowd(FEW)),
    ]


def join_case(limit: str, blamed: bytes, *files: str) -> Case:
    """A join by one worker in which one of the files needs more memory than there is."""
    words = under(limit, "rjoin", "join", *files, "--relation", "equals", "--workers", "1")
    return Case(f"a join of {' '.join(files)} in 64 MB", words, b"rjoin: " + blamed + rb": no memory\n")


def equals_of_row() -> bytes:
    """The report of the row's points that equal each other."""
    return b"left,right,matrix\n" + b"".join(b"%d,%d,0FFFFFFF2\n" % (it, it) for it in range(IN_ROW))


def equals_of_crowd(lefts: int = IN_CROWD) -> bytes:
    """The report of the crowd's points, or the first of them, beside the few, all of which are equal."""
    pairs = ((left, right) for left in range(lefts) for right in range(FEW))
    return b"left,right,matrix\n" + b"".join(b"%d,%d,0FFFFFFF2\n" % it for it in pairs)


def output_cases(plain: dict[str, bytes], full: int, closed: int) -> list[Case]:
    """Outputs that take nothing, for a command and for help. `full` and `closed` are descriptors of such."""
    cases = []
    for name in ("join", "near", "nearest", "draw", "window", "stats", "bounds", "relate", "help"):
        front, words = plain[name], commands()[name]
        for shown, output in [("a full device", full), ("a closed pipe", closed)]:
            how = {"stdout": output}
            cases.append(Case(f"{name} to {shown}", ["rjoin", *words], WRITE_FAILED, front=front, how=how))
        shut = ["sh", "-c", 'exec "$0" "$@" >&-', "rjoin", *words]
        cases.append(Case(f"{name} to no output", shut, WRITE_FAILED, front=front))
    for name, number in [("join refused", 1), ("no command", 2)]:
        both = {"stdout": full, "stderr": subprocess.STDOUT}
        cases.append(Case(f"{name}, both outputs full", ["rjoin", *commands()[name]], b"", number, how=both))
    return cases


def permission_cases(program: str, room: str) -> list[Case]:
    """A file that may not be read. As root the run is nobody's."""
    how: dict[str, Any] = {"user": NOBODY, "group": NOBODY, "extra_groups": []} if os.geteuid() == 0 else {}
    try:
        ran([program, "--version"], **how)
    except OSError:
        print("no run could be made as nobody, so a file without permission wasn't tried")
        return []
    words = ["rjoin", "stats", f"{room}/secret.csv"]
    return [Case("a file without permission", words, rb"rjoin: layer: cannot be opened\n", how=how)]


def write_file(name: str, text: str, size: int | None = None) -> None:
    with open(name, "w", encoding="utf-8") as file:
        file.write(text)
        file.truncate(size)


def points(count: int, text: str) -> str:
    """A layer of so many points. The text says where, by their numbers."""
    return "id,wkt\n" + "".join(f"{it},{text.format(it)}\n" for it in range(count))


def write_files(room: str) -> None:
    """Puts the files into the folder."""
    shutil.copytree(f"{ROOT}/data", room, dirs_exist_ok=True)
    os.chdir(room)
    write_file("edits.csv", EDITS)
    write_file("bad.csv", EDITS + "delete,right,nowhere,\n")
    write_file("torn.csv", TORN)
    write_file("slanted.csv", SLANTED)
    write_file("lines.csv", LINES)
    write_file("bow-ties.csv", BOW_TIES)
    write_file("any-edits.csv", ANY_EDITS)
    write_file("any-bad.csv", ANY_EDITS + "insert,right,fold,\"LINESTRING (1 1, 1 1)\"\n")
    write_file("longest.csv", "", 134_217_728)
    write_file("too-long.csv", "", 134_217_729)
    write_file("huge.csv", "", 1_099_511_627_776)
    word = "a" * 100_000_000
    write_file("one-word.csv", word)
    write_file("one-field.csv", "id,wkt\n" + word)
    write_file("one-id.csv", f"id,wkt\n{word},POINT (0 0)")
    write_file("one-text.csv", "id,wkt\na," + word)
    write_file("full.csv", points(1_000_001, "POINT ({} 0)"))
    write_file("full-double.csv", points(1_000_000, "POINT ({} 0)") + "0,POINT (0 0)\n")
    write_file("half.csv", points(500_000, "POINT ({} 0)"))
    write_file("crowd.csv", points(IN_CROWD, "POINT (0 0)"))
    write_file("throng.csv", points(2 * IN_CROWD, "POINT (0 0)"))
    write_file("few.csv", points(FEW, "POINT (0 0)"))
    write_file("short.csv", points(3_000, "POINT ({} 0)"))
    write_file("row.csv", points(IN_ROW, "POINT ({} 0)"))
    write_file("secret.csv", "id,wkt\n")
    os.chmod("secret.csv", 0)


@dataclass
class Calls:
    """How many calls of a kind a command makes, at least and at most."""

    label: str
    words: list[str]
    kind: str
    least: int
    most: int
    under: list[str] = field(default_factory=list)


def thread_limits() -> list[Calls]:
    """One worker starts no thread, and what needs no worker starts none but where it reads a layer of 64 KiB or more:
    for each MiB of it three that read parts and one that inserts rows. With more workers, a few more threads read and
    build the right layer, sort pairs and free a layer beside the left one. Each processor may sort with two threads."""
    join, crowd = commands()["join"], ["join", "crowd.csv", "few.csv", "--relation", "equals"]
    limits = [Calls(it, commands()[it], "thread", 0, 0) for it in ("stats", "window", "bounds", "relate")]
    rounds = -(-os.path.getsize("half.csv") // 1_048_576)
    for command, *rest in (["stats"], ["window", "POINT (0 0)"], ["bounds"]):
        limits.append(Calls(f"{command} of a short file", [command, "short.csv", *rest], "thread", 0, 0))
        limits.append(Calls(f"{command} of a large file", [command, "row.csv", *rest], "thread", 4, 4))
        words, threads = [command, "half.csv", *rest], 4 * rounds
        limits.append(Calls(f"{command} of a long file", words, "thread", threads, threads))
    for name in ("join", "join of any geometry", "draw", "near", "nearest"):
        limits.append(Calls(f"{name} by one worker", [*commands()[name], "--workers", "1"], "thread", 0, 0))
    large = ["join", "half.csv", "row.csv", "--relation", "equals", "--workers", "1"]
    limits.append(Calls("a join of large files by one worker", large, "thread", 0, 0))
    limits += [workers_for(number) for number in range(1, min(len(os.sched_getaffinity(0)), 2) + 1)]
    for workers in (2, 4, 16):
        limits.append(Calls(f"{workers} workers", [*join, "--workers", str(workers)], "thread", workers, workers + 8))
    limits.append(Calls("48,000 pairs by one", [*crowd, "--workers", "1"], "thread", 0, 0))
    most = 4 * 4 + 2 * (os.cpu_count() or 1) + 8
    limits.append(Calls("48,000 pairs by four", [*crowd, "--workers", "4"], "thread", 4, most))
    return limits


def workers_for(number: int) -> Calls:
    """A worker for each of so many processors: as many threads, and no more than with this number of workers; none for
    one."""
    listed = ",".join(map(str, sorted(os.sched_getaffinity(0))[:number]))
    words = [*commands()["join"], "--workers", "auto"]
    least, most = (0, 0) if number == 1 else (number, number + 8)
    return Calls(f"workers auto, processors {number}", words, "thread", least, most, ["taskset", "-c", listed])


def device_limits() -> list[Calls]:
    """A file is read in pieces of 64 KiB, and no more of it than a file may have and one piece. A report is written in
    as many texts as there are workers, and a header. Room is made for them at once: what is made longer are lists of
    pairs, which have 375 KiB in the end."""
    crowd = ["join", "crowd.csv", "few.csv", "--relation", "equals"]
    pieces = sum(os.path.getsize(it) // 65_536 + 3 for it in ("crowd.csv", "few.csv"))
    limits = [Calls("a file of 1 TB", ["stats", "huge.csv"], "read", 2_049, 2_049)]
    for workers, growths in ((1, 6), (4, 9)):
        words = [*crowd, "--workers", str(workers)]
        limits.append(Calls(f"a report of 48,000 pairs by {workers}", words, "write", 1, workers + 1))
        limits.append(Calls(f"a report of 48,000 pairs by {workers}", words, "growth", 1, growths))
        limits.append(Calls(f"two files by {workers}", words, "read", 4, pieces))
    return limits


def wait_limits() -> list[Calls]:
    """One of two workers tries 64,000,000 pairs and sends two messages, and the other one. Before each of them the
    receiver yields 64 times at most, and then sleeps for 50 microseconds at a time."""
    words = ["join", "throng.csv", "throng.csv", "--relation", "touches", "--workers", "2", "--cut", "0"]
    return [Calls("a long task", words, "yield", 1, 192), Calls("a long task", words, "nap", 150, 1_000_000),
            Calls("a long task", words, "long", 0, 0)]


def counted(shim: str, program: str, calls: Calls) -> Tally:
    """Sees that a command makes at least and at most so many calls of a kind: the last of the one is met, and one more
    than the other isn't."""
    way, words = "once" if calls.kind == "thread" else "short", [*calls.under, program, *calls.words]
    tally = Tally()
    for at, is_met in ((calls.least, True), (calls.most + 1, False)):
        tally.runs += 1
        if at and ran_refused(shim, words, calls.kind, way, at).is_refused != is_met:
            shown = f"fewer than {at}" if is_met else f"{at} or more"
            tally.wrong.append(f"{calls.label}: {shown} calls ({calls.kind}), and not {calls.least} to {calls.most}")
    return tally


def reported_as_thread(shim: str, words: list[str]) -> Tally:
    """Refuses memory once, at each time in turn, and counts the runs that report it as a missing thread."""
    tally = Tally()
    for at in count(1):
        ended = ran_refused(shim, words, "memory", "once", at)
        if re.fullmatch(NO_THREAD, ended.errors):
            tally.add(f"memory {at} of {words[1:]}", ended, "reported as a thread")
        if not ended.is_refused:
            break
    return tally


def named_memory(shim: str, program: str) -> Tally:
    """Sees that refused memory is reported as memory. To start a thread the program takes memory once, so as many
    refusals as there are workers may be reported as a thread's. There may be more if threads ran in another order from
    one run to the next, so the least of several sweeps counts."""
    workers, words = 3, [program, *commands()["join"], "--workers", "3"]
    for _ in range(SWEEPS):
        tally = reported_as_thread(shim, words)
        if tally.runs <= workers:
            return Tally(tally.runs)
    return tally


def tried_cases(program: str, room: str) -> Tally:
    """Runs the cases, each once."""
    tally = Tally()
    heard, closed = os.pipe()
    os.close(heard)
    full = os.open("/dev/full", os.O_WRONLY)
    plain = {name: ran([program, *words]).output for name, words in commands().items()}
    cases = [*file_cases(), *memory_cases(), *output_cases(plain, full, closed), *permission_cases(program, room)]
    for case in cases:
        ended = case.ran(program)
        tally.add(case.label, ended, case.wrong(ended))
    os.close(closed)
    os.close(full)
    return tally


def compiled(room: str) -> str:
    shim = f"{room}/refuse.so"
    subprocess.run(["gcc", "-O1", "-shared", "-fPIC", "-o", shim, f"{ROOT}/check/refuse.c"], check=True)
    return shim


def unmet(tasks: list[Sweep], tallies: list[Tally]) -> Tally:
    """A tally of the kinds of calls of which no sweep met any, although every program has some."""
    met = {task.kind for task, tally in zip(tasks, tallies) if tally.runs > 1}
    kinds = {task.kind for task in tasks} - met - {"thread"}
    return Tally(0, [f"no call was seen that could be refused: {kind}" for kind in sorted(kinds)])


def summed(tallies: list[Tally], what: str) -> Tally:
    """Adds tallies up, prints what went wrong, and says how many runs there were."""
    total = Tally(sum(it.runs for it in tallies), [line for it in tallies for line in it.wrong])
    for line in total.wrong:
        print(line)
    print(f"{what}: {total.runs} runs, {len(total.wrong)} went wrong", flush=True)
    return total


def main(words: list[str]) -> int:
    built = f"{ROOT}/crates/rjoin/out/rjoin"
    if not os.path.isfile(built) or not glob(TESTS):
        sys.exit("refusals: no program is built, or check/tests.py has left no tests to run")
    with tempfile.TemporaryDirectory(prefix="refusals-") as room:
        os.chmod(room, 0o755)
        shim, program = compiled(room), shutil.copy(built, room)
        write_files(room)
        tests, lines = test_tasks(room, words == ["--all"]), program_tasks(shim, program)
        with ThreadPoolExecutor(len(os.sched_getaffinity(0))) as pool:
            done = list(pool.map(swept, [*tests, *lines]))
        done, refused = done[: len(tests)], done[len(tests):]
        of_tests = summed([*done, unmet(tests, done)], f"{len(tests) // 2} tests")
        of_program = summed([*refused, unmet(lines, refused)], "the program, refused")
        of_cases = summed([tried_cases(program, room)], "the program, bad files and outputs")
        limits = [*thread_limits(), *device_limits(), *wait_limits()]
        calls = [*(counted(shim, program, it) for it in limits), named_memory(shim, program)]
        of_calls = summed(calls, "the program, counted calls")
    parts = [of_tests, of_program, of_cases, of_calls]
    runs, wrong = sum(it.runs for it in parts), sum(len(it.wrong) for it in parts)
    print(f"refusals: {runs - wrong} passed, {wrong} failed")
    return 1 if wrong else 0


if __name__ == "__main__":
    sys.exit(main(sys.argv[1:]))
