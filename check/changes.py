"""What changed since a base commit, and by it which mutants the gate tries: those of what changed, up to a limit, and a
tenth of all others, another tenth with each landing, so that ten landings try all.

The base is where this branch left GATE_BASE, else origin/HEAD, origin/main or origin/master. On that branch itself
it is the last commit that was made more than three hours before this one, since what lands together is made in less.
What isn't committed counts as changed too.
"""
import os
import re
import subprocess
import sys
import zlib
from collections.abc import Callable, Collection
from pathlib import Path
from typing import NamedTuple

from stubs import FREE, METHOD, stub

ROOT = Path(__file__).resolve().parent.parent
sys.path.append(str(ROOT / "tools"))

from crates import below, uses_by_crate  # noqa: E402

# The branches that this one may have come from.
BRANCHES = ("origin/HEAD", "origin/main", "origin/master")
# The seconds between two commits by which they belong to two landings.
PAUSE = 3 * 3600
LOTS = 10
# How many mutants of what changed are tried at most, so that a landing that touches most crates ends in time.
MOST = 300
# What no other crate sees of a source file beside the bodies of functions: comments, modules and what is imported.
UNSEEN = re.compile(r"^ *//.*\n|^mod \w+;\n|^use [^;]*;\n|^\n", re.M)
# An `impl` with all that stands in it.
IMPL = re.compile(r"^impl\b(?:.*\n)+?}\n", re.M)


class Base(NamedTuple):
    """The commit that changes are counted from, none where it isn't known, and why it is that one."""

    commit: str
    why: str


def git(*words: str) -> str:
    """What Git answers in this repository, or nothing where it can't."""
    try:
        ended = subprocess.run(["git", *words], cwd=ROOT, capture_output=True, text=True, check=False)
    except OSError:
        return ""
    return ended.stdout.strip() if ended.returncode == 0 else ""


def times(commit: str) -> list[tuple[int, str]]:
    """When this commit and those that it rests on were made, and which each is, the last one first."""
    listed = (line.split() for line in git("log", "--format=%ct %H", commit).splitlines())
    return sorted(((int(time), name) for time, name in listed), reverse=True)


def landing_before(commit: str) -> Base:
    """The last commit of the landing before the one that this commit belongs to."""
    made = times(commit)
    found = next((name for time, name in made if time < made[0][0] - PAUSE), "")
    why = "the last commit before this landing" if found else "no commit is known from before this landing"
    return Base(found, why)


def landings(commit: str) -> int:
    """How many landings there were up to this commit."""
    number, first = 0, float("inf")
    for time, _ in times(commit):
        if time < first - PAUSE:
            number, first = number + 1, time
    return number


def base() -> Base:
    named = os.environ.get("GATE_BASE")
    for branch in [named] if named else BRANCHES:
        commit = git("merge-base", "HEAD", branch)
        if commit and commit != git("rev-parse", "HEAD"):
            return Base(commit, f"where this branch left {branch}")
        if commit:
            return landing_before(commit)
    return Base("", f"{named} has no commit in common with this one" if named else
                "no branch is known that this one came from")


def seen(function: re.Match[str], is_public: bool) -> str:
    """What other crates see of a function: all but its body, and nothing where it is private."""
    return stub(function[0], function[1]) if is_public or re.search(r"^ *pub fn ", function[0], re.M) else ""


def statements(source: str) -> str:
    """What other crates may see of a source file: a method of a trait is as public as the trait, and any type and
    constant may be mentioned by what is public."""
    def methods(found: re.Match[str]) -> str:
        is_of_trait = " for " in found[0].partition("\n")[0]
        return METHOD.sub(lambda it: seen(it, is_of_trait), found[0])

    return FREE.sub(lambda it: seen(it, False), IMPL.sub(methods, UNSEEN.sub("", source)))


class Changes:
    """What changed since the base."""

    def __init__(self) -> None:
        self.base = base()
        commit = self.base.commit
        self.paths = {*git("diff", "--name-only", "--no-renames", commit).splitlines(),
                      *git("ls-files", "--others", "--exclude-standard").splitlines()} if commit else set()

    def crates(self, *parts: str) -> set[str]:
        """The crates with a changed file in one of these folders, or anywhere where none is given, or with another line
        in crates.txt."""
        listed = re.findall(r"^[-+](\w+)\b", git("diff", "--unified=0", self.base.commit, "--", "crates.txt"), re.M)
        files = (path.split("/") for path in self.paths if path.startswith("crates/"))
        return {file[1] for file in files if not parts or file[2] in parts} | set(listed)

    def beneath(self) -> set[str]:
        """The crates that rest on one whose definitions or statements changed."""
        restated = {path.split("/")[1] for path in self.paths if self.is_restated(path)}
        uses = uses_by_crate()
        return {it for it in uses if below(it, uses) & restated}

    def is_restated(self, path: str) -> bool:
        """Whether what other crates can see of this file changed."""
        if re.match(r"crates/\w+/specs/", path):
            return True
        if not re.match(r"crates/\w+/src/.*\.rt$", path):
            return False
        now, then = ROOT / path, git("show", f"{self.base.commit}:{path}")
        new = now.read_text(encoding="utf-8") if now.is_file() else ""
        return statements(new) != statements(f"{then}\n")


def chosen(every: list[str], of_all: Collection[str], touched: Callable[[Changes], set[str]]) -> tuple[list[str], str]:
    """Those of these mutants, each as CRATE/NAME, that are tried, and why: all where no base is known or where one of
    the files changed that every verdict rests on, else those that changes have touched, at most MOST, and a tenth of
    the others."""
    changes = Changes()
    commit, why = changes.base
    if not commit:
        return every, why
    since = f"changed since {commit[:12]}, {why}"
    changed = sorted(changes.paths & set(of_all))
    if changed:
        return every, f"{' '.join(changed)} {since}"
    near, lot = touched(changes), (landings(commit) + 1) % LOTS
    tried = nearest(near, changes)
    some = [it for it in every if it in tried or zlib.crc32(it.encode()) % LOTS == lot]
    return some, f"{len(tried)} of {len(near)} for what {since}; and of the others number {lot} of {LOTS} lots"


def nearest(names: set[str], changes: Changes) -> set[str]:
    """At most MOST of these mutants, first those whose own crate changed, and others with each base."""
    crates = changes.crates()

    def place(name: str) -> tuple[bool, int]:
        return name.split("/")[0] not in crates, zlib.crc32(f"{name} {changes.base.commit}".encode())

    return set(sorted(names, key=place)[:MOST])
