"""What a join is asked for."""
from __future__ import annotations

import argparse
import os
from dataclasses import dataclass
from typing import Any, Optional

from rjoin_cluster.commands import JOIN, NEAR, NEAREST, OF_ONE_LAYER, PAIRS, WINDOW
from rjoin_cluster.conditions import Condition
from rjoin_cluster.faults import JoinFault
from rjoin_cluster.inputs import not_in_blocks
from rjoin_cluster.program import Program, find_program
from rjoin_cluster.reading import Reading
from rjoin_cluster.remote import is_url, path_of
from rjoin_cluster.sides import SIDES, Side


@dataclass(frozen=True)
class Certificates:
    """The files by which a cluster and its users know each other, as TLS has them."""

    authority: Optional[str]
    certificate: Optional[str]
    key: Optional[str]


@dataclass(frozen=True)
class Place:
    """Where the tasks run: at the scheduler of this address, or in so many threads of the command
    itself.
    """

    scheduler: Optional[str]
    workers: int
    patience: float  # seconds to wait for a scheduler and for workers, and for a sign of life
    certificates: Optional[Certificates] = None
    dashboard: bool = False  # dask's, on this machine's loopback address


@dataclass(frozen=True)
class Request:
    """What is to be joined, and how."""

    layers: dict[Side, str]  # paths, patterns of paths, or URLs
    condition: Condition
    report: str
    edits: Optional[str]
    skip: Optional[str]  # the list of rows that are left out, as their geometry can't be read
    program: Program
    place: Place
    folder: str  # that all workers share
    resume: Optional[str]  # the folder of the join, which stays where it is ended
    has_files: bool  # whether the report is many files
    tiles: Optional[int]  # the least number, as far as the data can be cut
    block_bytes: int

    @property
    def has_texts(self) -> bool:
        """Whether geometries travel as the files have them: boxes that are joined are written anew
        from their corners, which takes less time.
        """
        if self.condition.command in OF_ONE_LAYER:
            return False
        return self.condition.command != JOIN or not self.program.reading.is_of_boxes

    def described(self) -> dict[str, Any]:
        """What makes it this join, beside its layers and the program: what its tasks depend on."""
        condition = self.condition
        return {
            "options": [condition.command, *condition.words, *self.program.reading.words()],
            "skipped rows": self.skip is not None,
            "many files": self.has_files,
            "tiles": self.tiles,
            "block": self.block_bytes,
        }


def request_of(words: argparse.Namespace) -> Request:
    is_of_one = words.command in OF_ONE_LAYER
    layers = {Side.ONLY: words.layer} if is_of_one else dict(zip(SIDES, (words.left, words.right)))
    beside = os.curdir if is_url(words.out) else os.path.dirname(os.path.abspath(words.out))
    return Request(
        {side: layer_path(side, word) for side, word in layers.items()},
        condition_of(words),
        words.out,
        words.edits,
        words.skip,
        Program(find_program(words.program), reading_of(words)),
        place_of(words),
        path_of(words.folder or beside),
        words.resume and path_of(words.resume),
        words.files,
        words.tiles,
        words.block,
    )


def condition_of(words: argparse.Namespace) -> Condition:
    if words.command in OF_ONE_LAYER:
        return Condition(words.command, (words.window,) if words.command == WINDOW else ())
    if words.command == JOIN:
        pairs = (PAIRS,) if words.pairs else ()
        return Condition(JOIN, (f"--relation={words.relation}", *pairs))
    distance = (f"--distance={words.distance}",) if words.distance is not None else ()
    if words.command == NEAR:
        apart = ("--apart",) if words.apart else ()
        return Condition(NEAR, (*distance, *apart), words.distance)
    most = int(words.most) if words.most.isdecimal() else 1  # else the program refuses it
    return Condition(NEAREST, (*distance, f"--most={words.most}"), words.distance, most)


def reading_of(words: argparse.Namespace) -> Reading:
    return Reading(words.scale, words.round, words.geometry, words.rings)


def layer_path(side: Side, word: str) -> str:
    """A path by which every worker finds a layer; standard input belongs to the command alone."""
    if word == "-":
        raise not_in_blocks(side)
    return path_of(word)


def place_of(words: argparse.Namespace) -> Place:
    certificates = None
    if words.tls_ca_file or words.tls_cert or words.tls_key:
        files = (words.tls_ca_file, words.tls_cert, words.tls_key)
        certificates = Certificates(*map(file_of, files))
        if not (words.scheduler or "").startswith("tls://"):
            raise JoinFault("--tls-ca-file, --tls-cert and --tls-key are for a scheduler at tls://")
    return Place(words.scheduler, words.workers, words.patience, certificates, words.dashboard)


def file_of(word: Optional[str]) -> Optional[str]:
    """A file of TLS, which can be opened."""
    if word is not None:
        try:
            os.close(os.open(word, os.O_RDONLY))
        except OSError as cause:
            raise JoinFault(f"{word}: cannot be opened: {cause.strerror}") from cause
    return word
