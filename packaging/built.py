"""A built program: which sources and toolchain it was proved and built with."""
import hashlib
import os
import subprocess
import sys
from argparse import ArgumentParser, Namespace
from dataclasses import dataclass
from pathlib import Path

ROOT = Path(__file__).resolve().parent.parent
sys.path.append(str(ROOT / "tools"))

from crates import below, uses_by_crate  # noqa: E402
from toolchain import toolchain  # noqa: E402

DIRTY = "-dirty"
CRATE = ROOT / "crates/rjoin"
PROGRAM = CRATE / "out/rjoin"

PROVED = """\
rjoin {built.version}

commit:     {built.commit}
toolchain:  {built.toolchain}
program:    libexec/rjoin/rjoin, {size} bytes
SHA-256:    {sum}
crates:     {crates}

Every crate above was proved in full, with its sources of this commit{changes}, and the program is what the toolchain
then built of them, byte for byte. {evidence}

What the proofs say and what is trusted stands in README.md, under "What is proved", and call by call, with what is only
tested, in docs/GUARANTEES.md. To prove it again, run .ci/run in a checkout of this commit.
"""
CHANGES = " and the changes that the checkout had"
BY_STAMP = "The toolchain's stamp of the proved build named these sources, this toolchain and these bytes."
BY_CI = "They were proved from nothing by `rt ci`."


class Refused(Exception):
    """Why there can be no package."""


@dataclass(frozen=True)
class Built:
    """A proved program. The commit ends with -dirty where the checkout had changes; the time is in seconds since the
    epoch."""

    program: Path
    version: str
    commit: str
    toolchain: str
    time: int
    is_by_ci: bool


def output_of(*words: str | Path) -> str:
    """What a command run in the checkout writes, without the last line feed."""
    try:
        ran = subprocess.run(words, cwd=ROOT, capture_output=True, text=True, check=True)
    except OSError as error:
        raise Refused(f"{words[0]} can't be run: {error.strerror}") from error
    except subprocess.CalledProcessError as error:
        raise Refused(f"{' '.join(map(str, words))}: {error.stderr.strip()}") from error
    return ran.stdout.rstrip("\n")


def sum_of(file: Path) -> str:
    return hashlib.sha256(file.read_bytes()).hexdigest()


def check_stamp(program: Path) -> None:
    """Refuses a program that wasn't proved and built from the sources of this checkout by the toolchain on the PATH."""
    stamp = program.with_name(program.name + ".stamp")
    if not stamp.is_file():
        raise Refused(f"{stamp} is not there: only a proved build leaves it. Build with ./rjoin --version")
    expected = toolchain().Crate(str(CRATE), str(ROOT), {}).stamp() + sum_of(program)
    if stamp.read_text(encoding="utf-8") != expected:
        raise Refused(f"{program} was built from other sources or by another toolchain. Build with ./rjoin --version")


def built(program: Path, is_by_ci: bool) -> Built:
    """The program at the path, or why it can't be packaged."""
    if not program.is_file():
        raise Refused(f"{program} is not there. Build it with ./rjoin --version")
    version = output_of("rt", "version")
    if not is_by_ci:
        check_stamp(program)
    is_changed = output_of("git", "status", "--porcelain") != ""
    commit = output_of("git", "rev-parse", "HEAD") + DIRTY * is_changed
    time = int(os.environ.get("SOURCE_DATE_EPOCH") or output_of("git", "log", "-1", "--format=%ct"))
    return Built(program, output_of(program, "--version").split()[1], commit, version, time, is_by_ci)


def short_commit(commit: str) -> str:
    """The first twelve digits of a commit, with its mark of changes."""
    return commit[:12] + DIRTY * commit.endswith(DIRTY)


def statement(it: Built) -> str:
    """The text of the file PROVED."""
    crates = " ".join([*sorted(below("rjoin", uses_by_crate())), "rjoin"])
    evidence = BY_CI if it.is_by_ci else BY_STAMP
    changes = CHANGES if it.commit.endswith(DIRTY) else ""
    return PROVED.format(built=it, size=it.program.stat().st_size, sum=sum_of(it.program), crates=crates,
                         evidence=evidence, changes=changes)


def options(description: str | None) -> Namespace:
    """The words of the command line: program, by_ci and into."""
    parser = ArgumentParser(description=description)
    parser.add_argument("--program", type=Path, default=PROGRAM, help="the proved program [default: %(default)s]")
    parser.add_argument("--by-ci", action="store_true", help="rt ci has just proved and built it, and left no stamp")
    parser.add_argument("--into", type=Path, default=ROOT / "out", help="folder of the result [default: %(default)s]")
    return parser.parse_args()
