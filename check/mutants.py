#!/usr/bin/env python3
"""Shows that the prover refuses each mutant, and at the clause that the mutant is for.

A file crates/NAME/mutants/*.edit is one mutant. Its lines are:
    refused: FUNCTION CLAUSE     the function and the clause that refuses the mutant (no CLAUSE: its only one;
                                 invariant_of-NAME: what the type of the value NAME asks; loop-NAME: what is
                                 kept of NAME in a loop; of a law, which has no body, the lemma that fails where
                                 a definition is changed)
    why: TEXT                    where a definition is changed: what makes the law false then
    alone: WHY                   only where the edit changes what other functions see, such as a constant: it takes a
                                 check of its own, so a limit is rather changed where the function compares with it
    file: src/PATH               the file that the pairs below change
    old: TEXT                    stands once in it
    new: TEXT                    is put in its place
A function is proved from its own body and the contracts of what it calls, so a mutant has no
bearing on any other function. Hence the mutants of many functions are put into one copy of
the crate, and one check tells of them all. Each is put into a copy of its function: the function
once more under another name, with its proof, and of its contract the clause alone that the mutant is
for. What can have no copy, such as a trait's method, has its mutant in its place.
All other functions are stubs (stubs.py), which have their contract and no body, and lemmas are taken
as they are stated, since `rt ci` proves both; but where a definition is changed, lemmas are proved.
Each mutant has to be refused at its clause, and nothing else may be that is checked: what those
functions call, or the whole crate where a mutant is in a cycle of calls.

    check/mutants.py [NAME..]                of these crates, or of all; CRATE/MUTANT names one mutant
    check/mutants.py --changed               of the crates that changed since the base (changes.py), and of those that
                                        rest on a crate whose definitions or statements did: what other crates can see
                                        of it; of the others a tenth; all where how they are tried changed
    check/mutants.py --unchanged [NAME..]    with nothing changed: each function that has mutants, and each of its
                                        copies, has to be proved, so that how they are made refuses none

The libraries below a crate are taken as `rt ci` has left them in out/, and what `rt check` has kept
there of the crate itself isn't proved again. The status is 0 where each mutant was refused as
it says. The last line counts.
"""
import os
import re
import shutil
import subprocess
import sys
import tempfile
from collections.abc import Iterable, Iterator
from concurrent.futures import ThreadPoolExecutor
from contextlib import contextmanager
from dataclasses import dataclass, field, replace
from glob import glob
from typing import NamedTuple

from changes import Changes, chosen
from edits import BadEdit, Change, Texts, applied, edit_of, read
from stubs import admitted, hole_of, is_fixed, stubbed

ROOT = os.path.dirname(os.path.dirname(os.path.abspath(__file__)))
KIT = os.path.dirname(subprocess.run(["rt", "doc"], capture_output=True, text=True, check=True).stdout.strip())
PARTS = ("src", "specs", "proofs")
# The files that every verdict rests on, as Git's paths.
OF_ALL = {"check/mutants.py", "check/edits.py", "check/stubs.py"}
Uses = dict[str, list[str]]


@dataclass
class Mutant:
    """One file of mutants/."""

    name: str
    function: str = ""
    clause: str = ""
    is_alone: bool = False
    changes: list[Change] = field(default_factory=list)

    def unchanged(self) -> "Mutant":
        """Returns a mutant at the same place that changes nothing. Pairs that apply to what earlier ones made are left
        out."""
        made = [it.new for it in self.changes]
        first = [it for at, it in enumerate(self.changes) if it.old not in made[:at]]
        return replace(self, changes=[it._replace(new=it.old) for it in first])

    def changes_definition(self) -> bool:
        return any(it.file.startswith("specs/") for it in self.changes)

    def is_apart(self) -> bool:
        """Whether it takes a check of its own: others see what it changes, or lemmas are to be proved."""
        return self.is_alone or self.changes_definition()

    def applied(self, folder: str, texts: Texts) -> Texts:
        """Returns the texts of a crate's files with this mutant in them too."""
        return applied(folder, self.changes, texts)

    def in_copy(self, folder: str, texts: Texts, copy: str) -> Texts:
        """Returns the texts with this mutant in a copy of its function, which stands behind the function and promises
        only the clause that the mutant is for."""
        path = self.function.split("::")
        name = path[-1]
        file = self.changes[0].file
        item = item_of(path, read(f"{folder}/{file}"))
        for changed, old, new in self.changes:
            if changed != file or item.count(old) != 1:
                raise BadEdit(f"an old text does not stand in {name} once")
            item = item.replace(old, new)
        if is_fixed(folder, path, item):
            raise BadEdit(f"{name} is in a cycle of calls")
        others = other_clauses(folder, path, item, self.clause)
        text = texts[file] if file in texts else read(f"{folder}/{file}")
        first = item_of(path, text)
        behind = f"{first}\n{without_clauses(item, others).replace(f'fn {name}', f'fn {copy}', 1)}"
        return {**texts, file: text.replace(first, behind), **proof_of_copy(folder, path, copy, others)}


def item_of(path: list[str], text: str) -> str:
    """Returns the text of the one function of that path, if it can have a copy: to the brace below its first letter. A
    method is looked for where its type has methods of its own."""
    *_, owner, name = ["", *path]
    block = re.search(rf"(?m)^impl(?:<.*>)? {re.escape(owner)}(?:<.*>)? {{\n(?:.*\n)+?}}\n", text)
    text = block[0] if block else text
    head = rf"((?:^ *#\[.*\]\n)*)^( *)(?:pub(?:\(\w+\))? )?fn {re.escape(name)}\b"
    found = list(re.finditer(rf"(?m){head}(?:.*\n)+?\2}}\n", text))
    if len(found) != 1 or found[0][2] and not block:
        raise BadEdit(f"{name} is no function by itself")
    return found[0][0]


def other_clauses(folder: str, path: list[str], item: str, clause: str) -> list[str]:
    """Returns the names of the clauses of a function that may be left out where a mutant is for this one: none where an
    answer is for several clauses."""
    answers = f"{folder}/proofs/{'/'.join(path)}/Answers.antt"
    goals = re.findall(r"(?m)^pub (returns\S*) :", read(answers)) if os.path.isfile(answers) else []
    if not clause or not all("clause-" in it for it in goals):
        return []
    return [it for it in re.findall(r"(?m)^ *ensures (\w+) {", item) if it != clause]


def without_clauses(item: str, names: list[str]) -> str:
    """Returns the text of a function whose clauses of these names say nothing."""
    for name in names:
        whole = rf"(?m)^( *)ensures {name} {{(?:.*\n)+?(?=\1ensures |^ *{{}}?$)"
        item = re.sub(whole, rf"\1ensures {name} {{ Unit {{0}} }}\n", item)
    return item


def proof_of_copy(folder: str, path: list[str], copy: str, others: list[str]) -> Texts:
    """Returns the texts of the files that prove the function of this path, as files for its copy, with no answers for
    these clauses."""
    copies, texts = [*path[:-1], copy], {}
    for file in sorted(glob(f"{folder}/proofs/{'/'.join(path)}/*.antt")):
        left_out = re.compile(rf"pub \S*clause-(?:{'|'.join(others) or '-'}) :")
        kept = [it for it in read(file).split("\n\n") if not left_out.match(it)]
        text = "\n\n".join(kept).replace(f".proofs.{'.'.join(path)}.", f".proofs.{'.'.join(copies)}.")
        texts[f"proofs/{'/'.join(copies)}/{os.path.basename(file)}"] = text
    return texts


@dataclass
class Group:
    """Mutants that one check tells of, the functions that have them, and the files."""

    mutants: list[Mutant] = field(default_factory=list)
    functions: list[str] = field(default_factory=list)
    texts: Texts = field(default_factory=dict)
    stubs: list[str] = field(default_factory=list)

    def is_alone(self) -> bool:
        return any(it.is_alone for it in self.mutants)

    def stub_others(self, folder: str) -> "Group":
        """Puts stubs in the place of the functions that have no mutant, and whose closures have none."""
        written_out = {re.sub(r"\bfn::(\w+)::.*", r"\1", it) for it in self.functions}
        self.texts, self.stubs = stubbed(folder, self.texts, written_out)
        if not any(it.changes_definition() for it in self.mutants):
            self.texts |= admitted(folder)
        return self

    def only(self) -> list[str]:
        """Returns the words by which the prover checks these functions and what they call alone; none, so that it
        checks the whole crate, where one is a cycle of calls, which has no name for it."""
        if any("+" in function for function in self.functions):
            return []
        return [word for it in self.functions for word in ("--only", it)]

    def add(self, folder: str, mutant: Mutant) -> "Group":
        """Adds a mutant in a copy of its function, or in its place where it can have no copy."""
        times = sum(it.function == mutant.function for it in self.mutants)
        function = f"{mutant.function}_copy{times}"
        try:
            self.texts = mutant.in_copy(folder, self.texts, function.rpartition("::")[2])
        except BadEdit:
            if times:
                raise
            return self.put(folder, mutant)
        self.mutants.append(mutant)
        self.functions.append(function)
        return self

    def put(self, folder: str, mutant: Mutant) -> "Group":
        """Puts a mutant in its function's place."""
        self.texts, function = mutant.applied(folder, self.texts), mutant.function
        self.mutants.append(mutant)
        self.functions.append(function)
        return self


class Answer(NamedTuple):
    """Whether a mutant or a function did as it has to, and a line that tells."""

    is_well: bool
    text: str


def mutant_of(path: str) -> Mutant:
    edit = edit_of(path)
    function, _, clause = edit.says.get("refused", "").partition(" ")
    if not function:
        raise BadEdit("it names no function")
    return Mutant(edit.name, function, clause, "alone" in edit.says, edit.changes)


def grouped(folder: str, mutants: list[Mutant]) -> list[Group]:
    """Deals the mutants out to groups: each to the first that can take it, and each alone that has to be."""
    groups: list[Group] = []
    for mutant in mutants:
        for group in groups:
            if mutant.is_apart() or any(it.is_apart() for it in group.mutants):
                continue
            try:
                group.add(folder, mutant)
            except BadEdit:
                continue
            break
        else:
            groups.append(Group().add(folder, mutant))
    return [it.stub_others(folder) for it in groups]


def dependencies() -> Uses:
    """Returns what each crate of the repository stands on, by its name."""
    lines = [line.partition("#")[0].partition(":") for line in read(f"{ROOT}/crates.txt").splitlines()]
    return {name.split()[0]: below.split() for name, _, below in lines if name.strip()}


def below(crate: str, of: Uses, found: list[str]) -> list[str]:
    """Returns the crates of the repository below this one."""
    for it in of[crate]:
        if it in of and it not in found:
            found.append(it)
            below(it, of, found)
    return found


def rlib(crate: str) -> str:
    """The folder of a crate's library."""
    return f"{ROOT}/crates/{crate}/out/rlib"


def check(crate: str, of: Uses, group: Group, kept: str) -> str:
    """Checks a copy of the crate with the group's texts in place of its own, over what the folder kept has of earlier
    checks, if there is one, and returns what the prover says."""
    folder = f"{ROOT}/crates/{crate}"
    with tempfile.TemporaryDirectory(prefix="mutants-") as room:
        for part in PARTS:
            if os.path.isdir(f"{folder}/{part}"):
                shutil.copytree(f"{folder}/{part}", f"{room}/{part}")
        for it in group.stubs:
            shutil.rmtree(f"{room}/proofs/{it.replace('::', '/')}", ignore_errors=True)
        for path, text in group.texts.items():
            os.makedirs(os.path.dirname(f"{room}/{path}"), exist_ok=True)
            with open(f"{room}/{path}", "w", encoding="utf-8") as file:
                file.write(text)
        top = "src/main.rt" if os.path.isfile(f"{room}/src/main.rt") else "src/lib.rt"
        words = [f"{KIT}/bin/rattle", "check", "--crate-name", crate, top, "--allow-holes", "--jobs", "1"]
        words += ["--antt-project", f"{KIT}/rattle/logic/antt-project.json", "--logic-built", f"{KIT}/logic_built"]
        words += ["--incremental", kept] if kept else []
        words += ["-L", f"dependency={KIT}/rlibs", *group.only()]
        for it in ["std", *of[crate]]:
            words += ["--extern", f"{it}={rlib(it) if it in of else f'{KIT}/rlibs'}/{it}.rlib"]
        for it in below(crate, of, []):
            words += ["-L", f"dependency={rlib(it)}"]
        ended = subprocess.run(words, cwd=room, text=True, errors="replace", stdin=subprocess.DEVNULL,
                               stdout=subprocess.PIPE, stderr=subprocess.STDOUT)
        return ended.stdout


def owner_of(named: str, function: str, functions: set[str]) -> tuple[str, str]:
    """Returns the function that owes a goal, and the goal, as the line of a function names it."""
    answer = re.fullmatch(r"Rattle\.(\w+)\.proofs\.(.+)\.Answers\.([^.]+)", named)
    goal = answer[3] if answer else named
    path = [answer[1], *answer[2].split(".")] if answer else function.split("::")
    # the goals of functions that call one another come together, each after the name of its function; the goal of a
    # call's requires is named after what is called
    first, _, rest = goal.partition("-")
    beside = "::".join([*path[:-1], first])
    is_of_beside = beside in functions and not rest.startswith("requires")
    if not is_of_beside and not rest.startswith("requires"):
        # a closure among them is of a function in the same module
        module = "::".join(path[:-1]).partition("::fn::")[0]
        closures = [it for it in functions if it.startswith(f"{module}::fn::") and it.endswith(f"::{first}")]
        if closures:
            return closures[0], goal
    return beside if is_of_beside else "::".join(path), goal


def refusals(said: str, hole: str) -> dict[str, set[str]] | None:
    """Returns the goals that were refused, by the function that owes them, or None where no function was judged. What
    rests on this hole is none."""
    reported = [line.removeprefix("fn ").partition(": ") for line in said.splitlines() if line.startswith("fn ")]
    functions = {function for function, _, _ in reported}
    goals: dict[str, set[str]] = {}
    noted: set[str] = set()
    for line in said.splitlines():
        if line.startswith("note: src/"):
            noted |= set(re.findall(r"\(`([^`]+)`\)", line))
        if not line.startswith("fn "):
            continue
        function, _, verdict = line.removeprefix("fn ").partition(": ")
        named = re.findall(r"`([^`:]+)`", verdict.partition("it calls ")[0])
        # what is noted stands above the line of the function
        for it in {*named, *noted} - {"search", hole}:
            owner, goal = owner_of(it, function, functions)
            goals.setdefault(owner, set()).add(goal)
        noted = set()
    return goals if reported else None


def is_at(goal: str, clause: str) -> bool:
    """Whether a goal stands for this clause, loop, invariant or lemma, or for the only clause of its function."""
    return not clause or bool(re.search(rf"(^(clause-)?|-clause-){re.escape(clause)}($|-)", goal))


def is_of(owner: str, function: str) -> bool:
    """Whether the owner of a goal is the function, which may lack the front of its path."""
    return f"::{owner}".endswith(f"::{function}")


def judged(crate: str, group: Group, said: str) -> tuple[list[Answer], list[str]]:
    """Returns for each mutant whether it was refused as it says, and a line that tells; and the functions that were
    refused with no mutant for them."""
    goals = refusals(said, hole_of(crate))
    if goals is None:
        return [Answer(False, f"{crate}/{it.name}: NOT TRIED: {said.strip()[:300]}") for it in group.mutants], []
    answers = []
    for mutant, function in zip(group.mutants, group.functions):
        found = sorted(goal for it in goals if is_of(it, function) for goal in goals[it])
        at = [goal for goal in found if is_at(goal, mutant.clause)]
        where = f"{crate}/{mutant.name}: {mutant.function} {mutant.clause}".rstrip()
        said = f"refused ({at[0]})" if at else f"NOT REFUSED THERE, but at: {', '.join(found) or 'nothing'}"
        answers.append(Answer(bool(at), f"{where}: {said}"))
    return answers, [it for it in goals if not any(is_of(it, function) for function in group.functions)]


@contextmanager
def kept_of(crate: str, groups: list[Group]) -> Iterator[str]:
    """A folder for what checks of a crate keep, with what `rt check` has kept of it; none where `rt check` has kept
    nothing and one check is all, since to keep takes time."""
    by_check = f"{ROOT}/crates/{crate}/out/incremental"
    if len(groups) == 1 and not os.path.isdir(by_check):
        yield ""
        return
    with tempfile.TemporaryDirectory(prefix="mutants-kept-") as kept:
        if os.path.isdir(by_check):
            shutil.copytree(by_check, kept, dirs_exist_ok=True)
        yield kept


def is_proved(function: str, verdicts: dict[str, str], hole: str) -> bool:
    """Whether a function is proved, given this hole. A verdict may name another function that rests on the same."""
    verdict = verdicts[function]
    named = set(re.findall("`([^`]+)`", verdict)) - {hole}
    return verdict == "no holes" or verdict.startswith("depends on a hole in ") and \
        all(it in verdicts and is_proved(it, verdicts, hole) for it in named)


def unchanged(crate: str, of: Uses, groups: list[Group]) -> list[Answer]:
    """Checks a crate's groups with nothing changed, and returns for each function and copy whether it was proved, and a
    line that tells."""
    reported = []
    with kept_of(crate, groups) as kept:
        for group in groups:
            said = check(crate, of, group, kept)
            verdicts = dict(re.findall(r"(?m)^fn (\S+): (.*)$", said))
            for function in group.functions:
                # a function that calls itself is named as a cycle, and its verdict is not
                found = [it for it in verdicts if is_of(it, function.replace("+", ""))]
                is_well = bool(found) and all(is_proved(it, verdicts, hole_of(crate)) for it in found)
                why = "; ".join(verdicts[it] for it in found) or said.strip()[:300]
                answer = "is proved" if is_well else f"NOT PROVED: {why}"
                reported.append(Answer(is_well, f"{crate}/{function}: unchanged, {answer}"))
    return reported


def tried(crate: str, of: Uses, groups: list[Group]) -> list[Answer]:
    """Tries a crate's groups in turn, each over what `rt check` and the checks before it proved. A mutant that was not
    refused is tried again by itself, since the goals of a function may wait for another that it calls."""
    folder = f"{ROOT}/crates/{crate}"
    reported: list[Answer] = []
    with kept_of(crate, groups) as kept:
        for group in groups:
            answers, others = judged(crate, group, check(crate, of, group, kept))
            for at, mutant in enumerate(group.mutants):
                if not answers[at].is_well and len(group.mutants) > 1:
                    alone = Group().put(folder, mutant).stub_others(folder)
                    (answers[at],), _ = judged(crate, alone, check(crate, of, alone, kept))
            reported += answers
            if others and not group.is_alone():
                names = ", ".join(sorted(others))
                reported.append(Answer(False, f"{crate}: refused too, with no mutant for it: {names}"))
    return reported


def names_of(crate: str) -> list[str]:
    """Returns the names of the mutants of a crate."""
    return sorted(it.removesuffix(".edit") for it in glob("*.edit", root_dir=f"{ROOT}/crates/{crate}/mutants"))


def mutants_of(crate: str, names: list[str]) -> list[Mutant]:
    return [mutant_of(f"{ROOT}/crates/{crate}/mutants/{it}.edit") for it in names]


def named(words: list[str], crates: Iterable[str]) -> dict[str, list[str]]:
    """Returns the mutants that these words name, by their crates: those of a crate, or one of them."""
    found: dict[str, list[str]] = {}
    for word in words or crates:
        crate, _, name = word.partition("/")
        found.setdefault(crate, []).extend([name] if name else names_of(crate))
    return found


def wanted(words: list[str], of: Uses) -> dict[str, list[str]]:
    """Returns the mutants that are to be tried, by their crates. The upper crates take longest, so they come first."""
    found = named([it for it in words if not it.startswith("--")], reversed(of))
    if "--changed" not in words:
        return found
    every = [f"{crate}/{name}" for crate, names in found.items() for name in names]

    def touched(changes: Changes) -> set[str]:
        crates = changes.crates(*PARTS, "mutants") | changes.beneath()
        return {it for it in every if it.split("/")[0] in crates}

    some, why = chosen(every, OF_ALL, touched)
    print(f"{len(some)} of {len(every)} mutants are tried: {why}", flush=True)
    return named(some, ())


def main(words: list[str]) -> int:
    of = dependencies()
    groups: dict[str, list[Group]] = {}
    answers: list[Answer] = []
    is_unchanged = "--unchanged" in words
    for crate, names in wanted(words, of).items():
        try:
            mutants = [it.unchanged() if is_unchanged else it for it in mutants_of(crate, names)]
            groups[crate] = grouped(f"{ROOT}/crates/{crate}", mutants)
        except BadEdit as why:
            answers.append(Answer(False, f"{crate}: BAD EDIT: {why}"))
    judge = unchanged if is_unchanged else tried
    with ThreadPoolExecutor(len(os.sched_getaffinity(0))) as pool:
        for found in pool.map(lambda it: judge(it, of, groups[it]), groups):
            answers += found
            for is_well, text in found:
                print(text, flush=True)
    failed = [text for is_well, text in answers if not is_well]
    print(*failed, sep="\n", end="\n" if failed else "")
    print(f"{'functions' if is_unchanged else 'mutants'}: {len(answers) - len(failed)} passed, {len(failed)} failed")
    return 1 if failed else 0


if __name__ == "__main__":
    sys.exit(main(sys.argv[1:]))
