"""Stubs, by which what `rt ci` proves isn't proved once more: a stub of a function has its contract and no body, and a
lemma is taken as it is stated."""
import os
import re
from collections.abc import Iterator
from glob import glob

from edits import Texts, read

# A function that stands by itself or in an `impl` of its type, from its attributes to the brace below its first letter.
FUNCTION = r"(?m)^(?:%s#\[.*\]\n)*^(%s)(?:pub(?:\(\w+\))? )?fn (\w+)\b(?:.*{}\n|(?:.*\n)+?%s{?}\n)"
FREE = re.compile(FUNCTION % (("",) * 3))
METHOD = re.compile(FUNCTION % ((" {4}",) * 3))
IMPL = re.compile(r"(?m)^impl(?!.* for )(<.*?>)? (\w+)(<.*>)? {\n(?:.*\n)+?}\n")
TYPE = re.compile(r"(?m)^(?:pub(?:\(\w+\))? )?(?:struct|enum) (\w+)")
# A lemma with a proof: the indent, the statement, the name, and then the clauses of its proof with what is below them.
LEMMA = re.compile(r"(?m)^( *)((?:pub )?(\S+) :(?: .*)?\n(?:\1 .*\n|\1unfolding .*\n)*)"
                   r"(?:\1\3 .*\n(?:\1[] })].*\n|\n(?=\1 ))*)+")
# The one hole that stubs and lemmas rest on: a goal for each would be worked out and printed.
ADMITTED = """pub admitted {ℓ} : {A : Type ℓ} → A
admitted = ?
"""
PROOF = """use Rattle.{crate}.proofs.Admitted.{{admitted}}
use Rattle.{crate}.proofs.{path}.Statement.{{statement}}

pub {name}_spec : {{M : Type 1}} → statement M
{name}_spec = admitted
"""


def module_of(file: str) -> list[str]:
    """The path of the module that is the file src/PATH."""
    path = file.removeprefix("src/").removesuffix(".rt").split("/")
    return [] if path in (["lib"], ["main"]) else path


def functions(folder: str, texts: Texts) -> Iterator[tuple[list[str], str, str, str]]:
    """Yields a crate's functions and its types' own methods, each by its path, its file, its indent and its text."""
    files = glob("src/**/*.rt", root_dir=folder, recursive=True)
    sources = {it: texts.get(it) or read(f"{folder}/{it}") for it in files}
    module_of_type = {name: module_of(file) for file, text in sources.items() for name in TYPE.findall(text)}
    for file, text in sources.items():
        for found in FREE.finditer(text):
            yield [*module_of(file), found[2]], file, found[1], found[0]
        for block in IMPL.finditer(text):
            # an impl at types that it names, as `impl Job<Boxes>`, is known by these and by where it stands
            types = [] if block[1] else re.findall(r"\b[A-Z]\w*", block[3] or "")
            owner = [*module_of(file), "+".join([block[2], *types])] if types else [*module_of_type[block[2]], block[2]]
            for found in METHOD.finditer(block[0]):
                yield [*owner, found[2]], file, found[1], found[0]


def stub(function: str, indent: str) -> str:
    """The text of a function at this indent with a body that costs the prover next to nothing. The brace of the body it
    had stands on a line by itself below a contract, and at the end of the head where there is none."""
    body = re.search(rf"(?m)^{indent}{{}}?$", function) or re.search(r"(?m){}?$", function)
    assert body, function
    head = re.sub(r"(?m)^ *#\[tactic.*\]\n", "", function[:body.start()])
    return f"{head}{{ loop {{}} }}\n"


def is_fixed(folder: str, path: list[str], function: str) -> bool:
    """Whether a function can't be a stub: a constant may call it, or it is in a cycle of calls, which has one proof."""
    cycles = glob(f"{folder}/proofs/{'/'.join(path[:-1])}/+*")
    return "const fn" in function or "#[cycle" in function or any(path[-1] in it.split("+") for it in cycles)


def hole_of(crate: str) -> str:
    """The hole that stubs and lemmas rest on, by the prover's name."""
    return f"Rattle.{crate}.proofs.Admitted.admitted"


def admitted(folder: str) -> Texts:
    """Returns the texts of a crate's files of lemmas where each lemma is taken as it is stated."""
    texts = {}
    for file in glob("proofs/*.antt", root_dir=folder):
        text, count = LEMMA.subn(r"\1\2\1\3 = admitted\n", read(f"{folder}/{file}"))
        if count:
            texts[file] = f"use Rattle.{os.path.basename(folder)}.proofs.Admitted.{{admitted}}\n{text}"
    return texts


def stubbed(folder: str, texts: Texts, written_out: set[str]) -> tuple[Texts, list[str]]:
    """Returns the texts of a crate's files with a stub for each function that isn't written out and can have one, and
    these functions."""
    texts, stubs, crate = dict(texts), [], os.path.basename(folder)
    modules = f"{folder}/proofs/Lib.antt"
    texts["proofs/Lib.antt"] = "pub mod Admitted\n" + (read(modules) if os.path.isfile(modules) else "")
    texts["proofs/Admitted.antt"] = ADMITTED
    for path, file, indent, function in functions(folder, texts):
        text, name = texts.get(file) or read(f"{folder}/{file}"), "::".join(path)
        if name in written_out or is_fixed(folder, path, function) or text.count(function) != 1:
            continue
        texts[file] = text.replace(function, stub(function, indent))
        proof = PROOF.format(crate=crate, path=".".join(path), name=path[-1])
        texts[f"proofs/{'/'.join(path)}/Proof.antt"] = proof
        stubs.append(name)
    return texts, stubs
