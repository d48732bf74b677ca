"""What the checks of the packages share: what is tried, and how commands are run."""
import re
import shutil
import subprocess
import tarfile
from collections.abc import Callable
from dataclasses import dataclass
from pathlib import Path
from subprocess import CompletedProcess
from typing import NamedTuple

from built import ROOT, output_of
from files import DOCS

Ran = CompletedProcess[bytes]
EXAMPLE = re.compile(r"^## Run\n.*?```sh\n\./rjoin (?P<words>[^\n]*)\n```\n.*?```\n(?P<output>.*?)```\n", re.M | re.S)
MINUTES = 10


class Example(NamedTuple):
    """The words of a command, without the program, and what it writes."""

    words: str
    output: bytes


class Skipped(Exception):
    """What a check needs and isn't there."""


@dataclass(frozen=True)
class Tried:
    """What is checked: the program, the packages that were built by their names, the tarball, the folder with bin,
    libexec and share of the package rjoin, and one for what a check makes. Without Debian's tools there are no
    packages, and the folder is that of the tarball."""

    program: Path
    packages: dict[str, Path]
    tarball: Path
    options: list[str]
    prefix: Path
    room: Path

    @property
    def debs(self) -> dict[str, Path]:
        if not self.packages:
            raise Skipped("dpkg-shlibdeps is not installed")
        return self.packages

    @property
    def deb(self) -> Path:
        return self.debs["rjoin"]

    @property
    def launcher(self) -> Path:
        return self.prefix / "bin/rjoin"

    def page(self, name: str) -> str:
        return (self.prefix / DOCS / name).read_text(encoding="utf-8")


Check = Callable[[Tried], None]


def ran(*words: str | Path, folder: Path | None = None, env: dict[str, str] | None = None, data: bytes = b"") -> Ran:
    """Runs a command to its end, which has to come within MINUTES."""
    return subprocess.run(words, cwd=folder, env=env, input=data, capture_output=True, check=False,
                          timeout=60 * MINUTES)


def expect(condition: bool, what: object) -> None:
    if not condition:
        raise AssertionError(what)


def well(it: Ran) -> Ran:
    """The run, which has to end with status 0."""
    expect(it.returncode == 0, f"{it.args}: status {it.returncode}: {(it.stdout + it.stderr).decode()[-600:]}")
    return it


def need(tool: str) -> None:
    if not shutil.which(tool):
        raise Skipped(f"{tool} is not installed")


def build(kind: str, into: Path, options: list[str]) -> list[Path]:
    """Builds the Debian packages (deb) or the tarball."""
    ran_well = well(ran(ROOT / f"packaging/build-{kind}", "--into", into, *options))
    return [Path(line) for line in ran_well.stdout.decode().splitlines()]


def unpacked(tarball: Path, folder: Path) -> Path:
    """Unpacks the tarball into the folder, and returns the one folder that it holds."""
    with tarfile.open(tarball) as tar:
        tar.extractall(folder)
    (top,) = folder.iterdir()
    return top


def example(docs: Path) -> Example:
    """The join that the README in the folder shows."""
    found = EXAMPLE.search((docs / "README.md").read_text(encoding="utf-8"))
    assert found
    return Example(found["words"], found["output"].encode())


def version_line(it: Tried) -> bytes:
    """What rjoin --version has to print: the program's own line, and the commit."""
    commit = output_of("git", "describe", "--always", "--abbrev=12", "--exclude=*")
    is_changed = output_of("git", "status", "--porcelain") != ""
    return f"{output_of(it.program, '--version')} (commit {commit}{'-dirty' * is_changed})\n".encode()
