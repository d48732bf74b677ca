"""The public calls of the crates with their contracts, as the sources have them, for the pages under docs/."""
import re
from collections.abc import Iterator
from pathlib import Path
from typing import NamedTuple

from crates import ROOT, uses_by_crate

EXPORTS = re.compile(r"^pub use [\w:]*?(?:\{([^}]*)\}|(\w+));", re.MULTILINE)
MODULES = re.compile(r"^pub mod (\w+);", re.MULTILINE)
BLOCK = re.compile(r"^(pub trait|impl)(?:<.*?>)? ?(?:.* for )?(\w+)")
CALL = re.compile(r"^ *(pub )?fn (\w+)")
CLAUSE = re.compile(r"\bensures (\w*) ?\{")
CONTRACT_END = re.compile(r"(^ *\{\}?|;| \{|\{\})$")
COMMENT = re.compile(r"^ *// ?(.*)$")
DOCUMENTATION = re.compile(r"^ */// ?(.*)$")
ATTRIBUTE = re.compile(r"^ *#\[")


class Call(NamedTuple):
    """A public call: its crate, its name as in `Layer::insert`, its documentation and contract, and the text of its
    file."""
    crate: str
    name: str
    documentation: str
    lines: list[str]
    source: str

    @property
    def contract(self) -> str:
        """The contract without its comments."""
        return "\n".join(line for line in self.lines if not COMMENT.match(line))

    def clauses(self) -> list[str]:
        """The names of what it promises, and an empty one for a clause without a name."""
        return CLAUSE.findall(self.contract)

    def promises(self) -> list[tuple[list[str], str]]:
        """The names of what it promises, each group of them with the comment before it."""
        groups: list[tuple[list[str], str]] = []
        comment: list[str] = []
        for line in self.lines:
            remark, clause = COMMENT.match(line), CLAUSE.search(line)
            if remark:
                comment.append(remark.group(1))
                continue
            if clause and (comment or not groups):
                groups.append(([clause.group(1)], " ".join(comment)))
            elif clause:
                groups[-1][0].append(clause.group(1))
            comment = []
        return groups


def specified_crates() -> list[str]:
    """The libraries that have definitions, bottom up. A program has no public call."""
    folders = ((name, ROOT / "crates" / name) for name in uses_by_crate())
    return [name for name, it in folders if (it / "specs").is_dir() and (it / "src/lib.rt").is_file()]


def public_calls(crate: str) -> Iterator[Call]:
    """The public calls of a crate, those of its public traits among them."""
    source = ROOT / "crates" / crate / "src"
    root = (source / "lib.rt").read_text(encoding="utf-8")
    exported = {name.strip() for many, one in EXPORTS.findall(root) for name in (many or one).split(",")}
    modules = set(MODULES.findall(root))
    for path in sorted(source.rglob("*.rt")):
        for call in calls_of_file(crate, path):
            if path.stem in modules or call.name.split("::")[0] in exported:
                yield call


def calls_of_file(crate: str, path: Path) -> Iterator[Call]:
    """The calls of a file that are marked as public, and those of its public traits."""
    text = path.read_text(encoding="utf-8")
    owner, in_trait = "", False
    documentation: list[str] = []
    lines = iter(text.split("\n"))
    for line in lines:
        remark = DOCUMENTATION.match(line)
        if remark:
            documentation.append(remark.group(1))
            continue
        block = BLOCK.match(line)
        if block and not line.endswith("{}"):
            in_trait, owner = block.group(1) == "pub trait", f"{block.group(2)}::"
        elif line == "}":
            owner, in_trait = "", False
        call = CALL.match(line)
        if call and (call.group(1) or in_trait):
            contract = [line]
            while COMMENT.match(contract[-1]) or not CONTRACT_END.search(contract[-1]):
                contract.append(next(lines))
            said = " ".join(documentation).partition("  ")[0]
            yield Call(crate, owner + call.group(2), said, contract, text)
        if not ATTRIBUTE.match(line):
            documentation = []
