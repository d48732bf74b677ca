#!/usr/bin/env python3
"""Shows that a test fails for each mutant that only a test can tell, since its function still keeps its contract.

A file crates/NAME/tested-mutants/*.edit is one such mutant. Its lines are those of a mutant (`check/mutants.py`), but
for the first:
    fails: CRATE MODULE::TEST    the test that has to fail, and the crate that it stands in
The mutant is put into a copy of the sources, whose crate of tests keeps that test alone, and `rt try --test` compiles
it over the mutant and runs it, with no proof.

    check/tested_mutants.py [CRATE | CRATE/MUTANT ..]
                                            of these crates, or of all
    check/tested_mutants.py --changed       of the crates that changed, or whose tests did, since the base (changes.py),
                                            and a tenth of the others; of all where how they are tried changed
    check/tested_mutants.py --unchanged     with nothing changed: each of these tests has to pass

The status is 0 where each test failed as it has to. The last line counts.
"""
import os
import re
import shutil
import subprocess
import sys
import tempfile
from collections.abc import Collection, Iterable
from concurrent.futures import ThreadPoolExecutor
from dataclasses import dataclass
from pathlib import Path

from changes import Changes, chosen
from edits import BadEdit, Change, Edit, applied, edit_of

ROOT = Path(__file__).resolve().parent.parent
# Each run compiles with one thread, and takes about 2 GB.
AT_ONCE = min(len(os.sched_getaffinity(0)), 4)
# The files that every verdict rests on, as Git's paths.
OF_ALL = {"check/tested_mutants.py", "check/tests.py", "check/edits.py", "tools/toolchain.py", "HANDLES"}
# A function with its comments and attributes, to the brace below its first letter.
FUNCTION = re.compile(r"((?:^ *(?:///|#\[).*\n)+)^( *)(?:pub )?fn (\w+)\b(?:.*\n)+?\2}\n", re.M)


@dataclass
class Mutant:
    """A mutant, the crate that it is of, and the test that has to fail."""

    crate: str
    edit: Edit
    tests: str
    test: str

    def name(self) -> str:
        return f"{self.crate}/{self.edit.name}"

    def __str__(self) -> str:
        return f"{self.name()}: {self.tests} {self.test}"


def mutant_of(path: Path) -> Mutant:
    edit = edit_of(path)
    tests, _, test = edit.says.get("fails", "").partition(" ")
    if not test:
        raise BadEdit(f"{path}: it names no test")
    return Mutant(path.parent.parent.name, edit, tests, test)


def mutants(words: list[str]) -> list[Mutant]:
    """Those of these crates, or of these names, or all."""
    found = [mutant_of(path) for path in sorted(ROOT.glob("crates/*/tested-mutants/*.edit"))]
    return [it for it in found if not words or it.crate in words or it.name() in words]


def changed(found: list[Mutant]) -> tuple[list[Mutant], str]:
    """Those of these mutants that `--changed` tries, and why these."""
    def touched(changes: Changes) -> set[str]:
        crates = changes.crates()
        return {it.name() for it in found if {it.crate, it.tests} & crates}

    some, why = chosen([it.name() for it in found], OF_ALL, touched)
    return [it for it in found if it.name() in some], why


def keep(tests: Path, wanted: Collection[str]) -> None:
    """Takes all tests but these out of a crate, since what no test calls isn't compiled."""
    names = {test.rpartition("::")[2] for test in wanted}
    for path in tests.rglob("*.rt"):
        text = path.read_text(encoding="utf-8")
        path.write_text(FUNCTION.sub(lambda it: "" if "#[test]" in it[1] and it[3] not in names else it[0], text),
                        encoding="utf-8")


def verdicts(tests: str, wanted: Collection[str], crate: str = "", changes: Iterable[Change] = ()) -> dict[str, str]:
    """Runs tests of a crate over the sources with these changes in a crate, and says how each ended."""
    with tempfile.TemporaryDirectory(prefix="tested-mutant-") as room:
        for name in ("crates.txt", "HANDLES"):
            shutil.copy(ROOT / name, room)
        shutil.copytree(ROOT / "crates", f"{room}/crates", ignore=shutil.ignore_patterns("out"))
        for path, text in applied(f"{room}/crates/{crate}", changes, {}).items():
            Path(f"{room}/crates/{crate}/{path}").write_text(text, encoding="utf-8")
        keep(Path(room, "crates", tests, "src"), wanted)
        ended = subprocess.run([ROOT / "check/tests.py", "--try"], cwd=f"{room}/crates/{tests}", text=True,
                               errors="replace", stdin=subprocess.DEVNULL, stdout=subprocess.PIPE,
                               stderr=subprocess.STDOUT)
    found = dict(re.findall(r"(?m)^test (\S+) \.\.\. (\S+)", ended.stdout))
    return found or {"": ended.stdout.strip()[-300:]}


def tried(mutant: Mutant) -> tuple[bool, str]:
    try:
        found = verdicts(mutant.tests, [mutant.test], mutant.crate, mutant.edit.changes)
    except BadEdit as why:
        return False, f"{mutant}: BAD EDIT: {why}"
    verdict = found.get(mutant.test, f"NOT RUN {found.get('', '')}")
    return verdict == "FAILED", f"{mutant}: {verdict}"


def unchanged(wanted: list[Mutant]) -> list[tuple[bool, str]]:
    """How the tests that mutants name end with nothing changed."""
    reported = []
    for crate in sorted({it.tests for it in wanted}):
        tests = sorted({it.test for it in wanted if it.tests == crate})
        found = verdicts(crate, tests)
        for test in tests:
            verdict = found.get(test, f"NOT RUN {found.get('', '')}")
            reported.append((verdict == "ok", f"{crate} {test}: unchanged, {verdict}"))
    return reported


def main(words: list[str]) -> int:
    wanted = mutants([it for it in words if not it.startswith("--")])
    if "--changed" in words:
        every = len(wanted)
        wanted, why = changed(wanted)
        print(f"{len(wanted)} of {every} tested mutants are tried: {why}", flush=True)
    ends = []
    with ThreadPoolExecutor(AT_ONCE) as pool:
        for is_well, text in unchanged(wanted) if "--unchanged" in words else pool.map(tried, wanted):
            print(text, flush=True)
            ends.append(is_well)
    well = sum(ends)
    print(f"tested mutants: {well} passed, {len(ends) - well} failed")
    return 0 if all(ends) else 1


if __name__ == "__main__":
    sys.exit(main(sys.argv[1:]))
