#!/usr/bin/env python3
"""Runs the tests of crates with no proof, as `rt try --test` does: compiled with the checks of AddressSanitizer.

    check/tests.py [CRATE..]     of these crates, or of all that have tests, and so each program that the gate doesn't
                                 prove, on its file stdin; as many side by side as processors and memory allow
    check/tests.py --try         what `rt try --test` does in this folder, without its check for names, which only gives
                                 hints; for check/tested_mutants.py and the script itself
    check/tests.py --keep FILE   the same, and a program of the tests is kept as FILE, in which check/refusals.py can
                                 refuse allocations

The programs of the tests stay in out/tests/, where check/refusals.py takes them. A test may take ten minutes. The
status is 0 where each test passed, and each program wrote what its file stdout has. The last line counts.
"""
import os
import re
import subprocess
import sys
import tempfile
from concurrent.futures import ThreadPoolExecutor
from pathlib import Path
from typing import Any, NamedTuple

from proofs import proved

ROOT = Path(__file__).resolve().parent.parent
sys.path.append(str(ROOT / "tools"))

from crates import uses_by_crate  # noqa: E402
from toolchain import toolchain  # noqa: E402

KEPT = ROOT / "out/tests"
# What a run takes at most, in KiB.
MEMORY = 2 << 20
# How long a test may take: some join a thousand times, which with these checks takes minutes.
SECONDS = "600"
# The calls that check/refuse.c stands before.
WRAPPED = ("malloc", "calloc", "realloc", "memalign", "aligned_alloc", "posix_memalign")
# Links as it is asked, and once more with what refuses allocations. The last -o counts.
LINKER = """#!/bin/sh
{linker} "$@" && exec {linker} "$@" {wraps} {object} -o {program}
"""


class Ended(NamedTuple):
    """How the tests of a crate ended."""

    passed: int
    failed: int
    said: str


def linking_twice(kit: str, room: Path, program: str) -> Path:
    """A folder of the toolchain's programs whose linker also keeps this program."""
    real, made = Path(kit, "toolchain"), room / "toolchain"
    (made / "bin").mkdir(parents=True)
    (made / "lib").symlink_to(real / "lib")
    for tool in sorted(real.glob("bin/*")):
        (made / "bin" / tool.name).symlink_to(tool)
    built = room / "refuse.o"
    subprocess.run(["gcc", "-O1", "-fPIC", "-DWRAPPED", "-c", "-o", built, ROOT / "check/refuse.c"], check=True)
    linker = made / "bin/ld.lld"
    linker.unlink()
    wraps = " ".join(f"--wrap={it}" for it in WRAPPED)
    linker.write_text(LINKER.format(linker=real / "bin/ld.lld", wraps=wraps, object=built, program=program),
                      encoding="utf-8")
    linker.chmod(0o755)
    return made


def try_tests(program: str = "") -> int:
    """What `rt try --test` does, without the check for names. Keeps a program of the tests where its name is given."""
    kit = toolchain()
    setattr(kit, "RATTLE", "true")
    crate = kit.Crate(os.getcwd(), str(Path.cwd().parent.parent), {})
    if not program:
        return int(crate.try_unproved(["--test"], []))
    with tempfile.TemporaryDirectory(prefix="tests-") as room:
        made, real = linking_twice(kit.KIT, Path(room), program), kit.subprocess.Popen

        def started(words: list[str], **how: Any) -> Any:
            return real([str(made) if it == f"{kit.KIT}/toolchain" else it for it in words], **how)

        setattr(kit.subprocess, "Popen", started)
        try:
            return int(crate.try_unproved(["--test", "--seconds", SECONDS], []))
        finally:
            setattr(kit.subprocess, "Popen", real)


def tried(crate: str) -> Ended:
    """Runs the tests of a crate, or the program that it is."""
    return tested(crate) if has_tests(crate) else ran(crate)


def tested(crate: str) -> Ended:
    """Runs the tests of a crate."""
    words = [sys.executable, __file__, "--keep", str(KEPT / crate)]
    ended = subprocess.run(words, cwd=ROOT / "crates" / crate, text=True, errors="replace", stdin=subprocess.DEVNULL,
                           stdout=subprocess.PIPE, stderr=subprocess.STDOUT)
    verdicts = re.findall(r"(?m)^test (\S+) \.\.\. (\S+)", ended.stdout)
    failed = sum(verdict != "ok" for _, verdict in verdicts)
    if ended.returncode and not failed or not verdicts:
        failed += 1
    return Ended(sum(verdict == "ok" for _, verdict in verdicts), failed, ended.stdout if failed else "")


def ran(crate: str) -> Ended:
    """Runs a program on its file stdin, and compares what it writes with its file stdout."""
    folder = ROOT / "crates" / crate
    with open(folder / "stdin", "rb") as given:
        ended = subprocess.run(["rt", "try"], cwd=folder, stdin=given, capture_output=True, check=False)
    if ended.returncode == 0 and ended.stdout == (folder / "stdout").read_bytes():
        return Ended(1, 0, "")
    return Ended(0, 1, (ended.stderr + ended.stdout).decode(errors="replace"))


def has_tests(crate: str) -> bool:
    sources = (ROOT / "crates" / crate / "src").rglob("*.rt")
    return any("#[test]" in it.read_text(encoding="utf-8") for it in sources)


def is_own_program(crate: str) -> bool:
    """Whether the crate is a program that users don't have, and that the gate doesn't prove."""
    return (ROOT / "crates" / crate / "src/main.rt").is_file() and crate not in proved()


def with_tests() -> list[str]:
    """The crates that have tests, the upper ones first, which take longest, and the programs beside the users' one."""
    return [it for it in reversed(uses_by_crate()) if has_tests(it) or is_own_program(it)]


def at_once() -> int:
    """How many runs processors and memory allow."""
    free = re.search(r"MemAvailable: *(\d+)", Path("/proc/meminfo").read_text(encoding="ascii"))
    return max(1, min(len(os.sched_getaffinity(0)), int(free[1]) // MEMORY if free else 1))


def main(words: list[str]) -> int:
    if words[:1] in (["--try"], ["--keep"]):
        return try_tests(*words[1:])
    KEPT.mkdir(parents=True, exist_ok=True)
    crates = words or with_tests()
    ends = []
    with ThreadPoolExecutor(at_once()) as pool:
        for crate, ended in zip(crates, pool.map(tried, crates)):
            print(f"{ended.said}{crate}: {ended.passed} passed, {ended.failed} failed", flush=True)
            ends.append(ended)
    failed = sum(it.failed for it in ends)
    print(f"tests: {sum(it.passed for it in ends)} passed, {failed} failed")
    return 1 if failed else 0


if __name__ == "__main__":
    sys.exit(main(sys.argv[1:]))
