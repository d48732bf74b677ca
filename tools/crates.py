"""The crates of the repository, and what each uses of it, as crates.txt lists them."""
from pathlib import Path

ROOT = Path(__file__).resolve().parent.parent
PROGRAM = "rjoin"
Uses = dict[str, list[str]]


def uses_by_crate() -> Uses:
    """What each crate of the repository uses of the repository itself."""
    lines = (line.partition("#")[0] for line in (ROOT / "crates.txt").read_text(encoding="utf-8").splitlines())
    listed = {line.partition(":")[0].split()[0]: line.partition(":")[2].split() for line in lines if line.strip()}
    return {name: [it for it in uses if it in listed] for name, uses in listed.items()}


def below(name: str, uses: Uses) -> set[str]:
    """The crates that a crate rests on, directly or not."""
    found: set[str] = set()
    left = [name]
    while left:
        new = set(uses[left.pop()]) - found
        found |= new
        left += new
    return found
