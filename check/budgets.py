#!/usr/bin/env python3
"""Sees that the proof of no crate takes more processor time than its budget.

    check/budgets.py            judges the times that check/proofs.py wrote last
    check/budgets.py --write    makes the list of budgets anew from these times, on a quiet machine

check/budgets.txt has a line for each crate that the gate proves: its name and the seconds that its proof took when the
list was made. A crate may take twice as long, and a few seconds more. How fast the machine is is told by all crates of
the run: by the median of their times beside those of the list. So a slower machine fails no crate, and what makes all
crates slower by the same factor shows in the printed sums alone. A crate that `rt ci` has proved on this machine before
isn't proved again, and has no time to judge. The last line counts.
"""
import sys
from pathlib import Path
from statistics import median

from proofs import ROOT, TIMES, proved

BUDGETS = ROOT / "check/budgets.txt"
# The time of one machine for the same proof varies by half, with what else runs on it.
HEAD_ROOM = 2
# What a crate may take more in any case, since the time of a small one varies most.
SLACK_SECONDS = 4

Seconds = dict[str, float]


def seconds_in(path: Path) -> Seconds:
    lines = path.read_text(encoding="utf-8").splitlines() if path.is_file() else []
    return {crate: float(seconds) for crate, seconds in (line.split() for line in lines if not line.startswith("#"))}


def slowness(took: Seconds, listed: Seconds) -> float:
    """How many times as long the proofs took as when the list was made."""
    return median([seconds / listed[it] for it, seconds in took.items() if it in listed] or [1])


def over(took: Seconds, listed: Seconds, slower: float) -> list[str]:
    """A line for each crate that takes more than it may, or that the list lacks."""
    lines = []
    for crate, seconds in took.items():
        if crate not in listed:
            lines.append(f"{crate}: {seconds:.0f} s, and no budget: check/budgets.py --write makes the list anew")
            continue
        most = slower * (HEAD_ROOM * listed[crate] + SLACK_SECONDS)
        if seconds > most:
            lines.append(f"{crate}: {seconds:.0f} s, and it may take {most:.0f}: when the list was made it took "
                         f"{listed[crate]:.0f} s, and crates now take {slower:.2f} times as long")
    return lines


def judge(took: Seconds, listed: Seconds) -> int:
    slower = slowness(took, listed)
    print(f"{len(took)} crates took {sum(took.values()):.0f} s; when the list was made, {len(listed)} took "
          f"{sum(listed.values()):.0f} s; now they take {slower:.2f} times as long")
    lines = over(took, listed, slower)
    print(*lines, sep="\n", end="\n" if lines else "")
    print(f"budgets: {len(took) - len(lines)} passed, {len(lines)} failed")
    return 1 if lines else 0


def write(took: Seconds) -> int:
    """Makes the list anew, where each crate that the gate proves has a time."""
    wanted = proved()
    lacking = [it for it in wanted if it not in took]
    if lacking:
        sys.exit(f"budgets: the last run has not proved these, so nothing is written: {' '.join(lacking)}")
    head = "# The processor seconds that the proof of each crate took; check/budgets.py says more.\n"
    BUDGETS.write_text("".join((head, *(f"{crate} {took[crate]:.0f}\n" for crate in sorted(wanted)))),
                       encoding="utf-8")
    return 0


def main(words: list[str]) -> int:
    if not TIMES.is_file():
        sys.exit("budgets: check/proofs.py has written no times")
    took = {crate: seconds for crate, seconds in seconds_in(TIMES).items() if crate in proved()}
    return write(took) if words == ["--write"] else judge(took, seconds_in(BUDGETS))


if __name__ == "__main__":
    sys.exit(main(sys.argv[1:]))
