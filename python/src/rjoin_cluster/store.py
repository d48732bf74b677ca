"""The folder of a join that may be gone on with: it stays where the join is ended, and another one
of the same layers, options and program finds there what was done.
"""
from __future__ import annotations

import fcntl
import json
import os
import shutil
import stat
from contextlib import contextmanager
from dataclasses import dataclass
from pathlib import Path
from typing import Any, BinaryIO, Iterator, Mapping

from rjoin_cluster.faults import JoinFault, ProgramFault
from rjoin_cluster.layout import UNFINISHED, Layout, private, save_bytes
from rjoin_cluster.outputs import new_folder, remove_folder, told_of
from rjoin_cluster.record import Record
from rjoin_cluster.remote import is_url

FOR_ALL = 0o077  # of a mode, what others may do
PLANNED = "planned for"
# What a join leaves before it is known which one it is.
EARLY = ("lock", "token", "workers", "check-", "inputs.json", "join.json.")


@dataclass
class Store:
    """The folder of a join, and what its tasks came to."""

    layout: Layout
    is_kept: bool
    record: Record

    def settle(self, described: Mapping[str, Any], workers: int) -> int:
        """Takes over what is there of the join that is described, or begins anew where nothing is;
        answers for how many workers the join is planned, as its tasks depend on it.
        """
        path = self.layout.description()
        known = read_description(path)
        if known is None:
            self.check_early()
            known = {**described, PLANNED: workers}
            save_bytes(path, [json.dumps(known, indent=1).encode()])
        for name, value in described.items():
            if known.get(name) != value:
                raise JoinFault(
                    f"{self.layout.folder}: is of another join: {name}; remove it, or name another"
                )
        for left in Path(self.layout.folder).glob(f"*{UNFINISHED}"):
            left.unlink(missing_ok=True)
        self.record = Record(self.layout.record())
        return int(known[PLANNED])

    def check_early(self) -> None:
        """Refuses a folder that has more than a join leaves before it is described."""
        for path in Path(self.layout.folder).iterdir():
            if not path.name.startswith(EARLY):
                raise JoinFault(f"{self.layout.folder}: has files that are not of a join")


def read_description(path: Path) -> Any:
    """What is known of the join of a folder; None where there was none."""
    try:
        return json.loads(path.read_bytes())
    except FileNotFoundError:
        return None
    except ValueError as cause:
        raise JoinFault(f"{path}: is not what a join has written") from cause


@contextmanager
def new_store(shared: str) -> Iterator[Store]:
    """A folder of this join alone, which vanishes however the join ends."""
    with new_folder(shared) as layout:
        yield Store(layout, False, Record())


@contextmanager
def kept_store(path: str) -> Iterator[Store]:
    """The folder of this name, which vanishes where the join succeeds or its layers are at fault,
    and else stays.
    """
    if is_url(path):
        raise JoinFault(f"{path}: a join goes on in a folder of a file system alone")
    folder = os.path.abspath(path)
    with told_of(path):
        os.makedirs(folder, 0o700, exist_ok=True)
    check_own(path, folder)
    layout = Layout(folder)
    try:
        with locked(layout, path):
            shutil.rmtree(layout.path("workers"), ignore_errors=True)
            store = Store(layout, True, Record())
            try:
                yield store
            finally:
                store.record.close()
    except ProgramFault:
        remove_folder(folder)
        raise
    remove_folder(folder)


def check_own(path: str, folder: str) -> None:
    """The folder has features of both layers, and what is done with what lies there: so it is for
    the user alone.
    """
    status = os.lstat(folder)
    if not stat.S_ISDIR(status.st_mode):
        raise JoinFault(f"{path}: is no folder")
    if status.st_uid != os.getuid() or status.st_mode & FOR_ALL:
        raise JoinFault(f"{path}: has to be of this user alone, with mode 0700")


@contextmanager
def locked(layout: Layout, path: str) -> Iterator[None]:
    """Keeps other joins from the folder, until this process has ended, however it does."""
    with told_of(path):
        file: BinaryIO = open(layout.lock(), "ab", opener=private)
    with file:
        try:
            fcntl.flock(file, fcntl.LOCK_EX | fcntl.LOCK_NB)
        except BlockingIOError as cause:
            raise JoinFault(f"{path}: another join uses it") from cause
        yield
