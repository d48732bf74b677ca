"""What a worker has to find on its machine before it gets a task of a join."""
from __future__ import annotations

import os
import tempfile
import uuid
from dataclasses import dataclass
from functools import lru_cache
from typing import Callable, TypeVar

from rjoin_cluster.faults import JoinFault, Unfit
from rjoin_cluster.layout import Layout, contents_of, remove_file, save_bytes
from rjoin_cluster.program import Program
from rjoin_cluster.sources import load_inputs

Job = TypeVar("Job")
Result = TypeVar("Result")

TOKEN = b"seen\n"
TRIAL_BYTES = 2**20  # written to the worker's own folder for temporary files
JOINS = 64  # whose checks a process remembers


@dataclass(frozen=True)
class Needs:
    """What a worker needs: the folder of the join, the program of this version, and the layers."""

    layout: Layout
    program: Program
    version: str
    inputs: str = ""  # a sum of what is told of the layers' files in the folder


@lru_cache(maxsize=JOINS)
def check(needs: Needs) -> None:
    """Raises what this process lacks. A process that lacks nothing is checked once."""
    lack = lack_of(needs)
    if lack:
        raise Unfit(lack)


def checked(needs: Needs, task: Callable[[Job], Result], job: Job) -> tuple[Result]:
    """Runs a task, where this process has what the join needs. Its result comes in a tuple, so that
    None is never taken for one.
    """
    check(needs)
    return (task(job),)


def lack_of(needs: Needs) -> str:
    """What a worker lacks; empty where it has all."""
    try:
        return lack_of_files(needs) or lack_of_room() or lack_of_program(needs)
    except OSError as cause:
        return f"{cause}{whose(cause)}"
    except JoinFault as lack:  # of what opens URLs
        return str(lack)


def lack_of_files(needs: Needs) -> str:
    if contents_of(needs.layout.token()) != TOKEN:
        return f"{needs.layout.folder} is not the folder of the join"
    write_and_read(needs.layout)
    for file in load_inputs(needs.layout):
        if not file.is_at_start():
            return f"{file.path} is another file"
    return ""


def lack_of_program(needs: Needs) -> str:
    """The program writes to the folder of temporary files, for which there has to be room."""
    version = needs.program.version()
    is_same = version == needs.version
    return "" if is_same else f"{needs.program.path} is {version}, and not {needs.version}"


def write_and_read(layout: Layout) -> None:
    """Leaves a file in the folder, as a task does, and reads it back."""
    name = f"check-{uuid.uuid4().hex}"
    path, text = layout.file(name), name.encode()
    save_bytes(path, [text])
    found = contents_of(path)
    remove_file(path)
    if found != text:
        raise OSError(f"{path} has not what was written to it")


def whose(cause: OSError) -> str:
    """Says by whom the folder may be used, where that is the matter."""
    if not isinstance(cause, PermissionError):
        return ""
    return f"; a worker has to be of the user of the join, and this one is user {os.getuid()}"


def lack_of_room() -> str:
    """Why nothing can be written to the folder of temporary files; empty where it can."""
    try:
        with tempfile.TemporaryFile() as file:
            file.write(bytes(TRIAL_BYTES))
    except OSError as cause:
        return f"temporary files cannot be written: {tempfile.gettempdir()}: {cause.strerror}"
    return ""
