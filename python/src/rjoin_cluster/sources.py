"""The files of layers as workers find them named in the folder of the join: a list of them in each
task would make tasks longer with each file.
"""
from __future__ import annotations

import hashlib
import json
from typing import Any, Sequence

from rjoin_cluster.inputs import Files, Input
from rjoin_cluster.layout import Layout, contents_of, save_bytes
from rjoin_cluster.sides import Side

SUM_BYTES = 16


def save_inputs(layout: Layout, files: Sequence[Input]) -> str:
    """Keeps which files the layers have, and answers a sum of what is kept."""
    text = json.dumps(list(map(told, files))).encode()
    save_bytes(layout.inputs(), [text])
    return hashlib.blake2b(text, digest_size=SUM_BYTES).hexdigest()


def load_inputs(layout: Layout) -> list[Input]:
    return list(map(read, json.loads(contents_of(layout.inputs()))))


def save_files(layout: Layout, side: Side, files: Sequence[Input]) -> None:
    """Keeps which file each block of a layer is of, in the order of the blocks."""
    places: dict[Input, int] = {}
    blocks = [places.setdefault(file, len(places)) for file in files]
    known = {"files": list(map(told, places)), "blocks": blocks}
    save_bytes(layout.files(side), [json.dumps(known).encode()])


def load_files(layout: Layout, side: Side) -> Files:
    """The file of each block of a layer."""
    known = json.loads(contents_of(layout.files(side)))
    files = list(map(read, known["files"]))
    return tuple(files[place] for place in known["blocks"])


def told(file: Input) -> list[Any]:
    return [file.side.value, file.path, file.bytes, file.written, file.on_disk, file.has_others]


def read(fields: Sequence[Any]) -> Input:
    side, path, size, written, on_disk, has_others = fields
    return Input(Side(side), path, size, written, on_disk and (on_disk[0], on_disk[1]), has_others)
