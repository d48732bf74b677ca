"""What a join makes: a report that appears as a whole, and a folder that vanishes."""
from __future__ import annotations

import json
import os
import shutil
import stat
import tempfile
import time
import uuid
from contextlib import ExitStack, contextmanager, suppress
from functools import partial
from pathlib import Path
from typing import Any, BinaryIO, Iterator, Mapping, NamedTuple, Optional, Sequence, Union

from rjoin_cluster.faults import JoinFault, one_line
from rjoin_cluster.layout import Layout, Name, contents_of, save_bytes, unfinished
from rjoin_cluster.remote import is_there, is_url, put, remove

NEW_FILE = 0o666  # its mode, of which the user's mask takes its part
MANIFEST = "manifest.json"
COPY_BYTES = 2**24
CLEANING_TRIES = 40
CLEANING_PAUSE = 0.25


class Report:
    """A file that is to become the report."""

    def __init__(self, path: str) -> None:
        self.path = path
        self.target = Path(os.path.realpath(path))
        self.part = unfinished(self.target.with_name(f".{self.target.name}"))
        self.file: Optional[BinaryIO] = None

    def open(self) -> None:
        """Makes the file, for the users alone that may read and write the one that it replaces."""
        with told_of(self.path):
            mode = stat.S_IMODE(os.stat(self.target).st_mode) if self.target.exists() else None
            opener = partial(os.open, mode=NEW_FILE if mode is None else mode)
            self.file = open(self.part, "xb", opener=opener)
            if mode is not None:
                os.fchmod(self.file.fileno(), mode)

    def write(self, text: bytes) -> None:
        if self.file is not None:
            with told_of(self.path):
                self.file.write(text)

    def take(self, path: Path) -> None:
        """Has the bytes of a finished file: is another name of it, or a copy where it lies on
        another file system.
        """
        if self.file is None:
            return
        with told_of(self.path):
            other = unfinished(self.part)
            try:
                os.link(path, other)
            except OSError:
                with open(path, "rb") as file:
                    shutil.copyfileobj(file, self.file, COPY_BYTES)
                return
            try:
                os.chmod(other, stat.S_IMODE(os.fstat(self.file.fileno()).st_mode))
                os.replace(other, self.part)
            finally:
                other.unlink(missing_ok=True)
            self.file.close()
            self.file = open(self.part, "rb")

    def finish(self) -> None:
        """Gives the file the report's name."""
        if self.file is not None:
            with told_of(self.path):
                self.file.flush()
                os.fsync(self.file.fileno())
                os.replace(self.part, self.target)

    def remove(self) -> None:
        """Takes away what has not got the name."""
        if self.file is not None:
            with suppress(OSError):  # of bytes that could not be written before
                self.file.close()
        with suppress(OSError):
            self.part.unlink()


def link_or_copy(path: Name, other: Path, mode: int) -> None:
    """Gives a file another name, or copies it where that lies on another file system."""
    if isinstance(path, str):
        other.write_bytes(contents_of(path))
    else:
        try:
            os.link(path, other)
        except OSError:
            shutil.copyfile(path, other)
    os.chmod(other, mode)


@contextmanager
def on_disk(path: Name) -> Iterator[str]:
    """The path of a file, which is copied where it lies at a URL."""
    if not isinstance(path, str):
        yield str(path)
        return
    with tempfile.NamedTemporaryFile() as file:
        file.write(contents_of(path))
        file.flush()
        yield file.name


class RemoteReport(Report):
    """A report at a URL: it is written to a file in a folder, and put there in the end."""

    def __init__(self, url: str, folder: str) -> None:
        super().__init__(os.path.join(folder, "report"))
        self.url = url

    def finish(self) -> None:
        if self.file is not None:
            with told_of(self.url):
                self.file.flush()
                put(str(self.part), self.url)


class Piece(NamedTuple):
    """A file of a report of many files."""

    path: Name
    pairs: int
    bytes: int


class ReportFolder:
    """A report of many files, in their order, with a manifest: a folder that appears as a whole."""

    def __init__(self, path: str) -> None:
        self.path = path
        self.target = Path(os.path.abspath(path))
        self.part = unfinished(self.target.with_name(f".{self.target.name}"))

    def open(self) -> None:
        if os.path.lexists(self.target):
            raise JoinFault(f"{self.path}: is there already, and many files need a new name")
        with told_of(self.path):
            self.part.mkdir()

    def take(self, pieces: Sequence[Piece], columns: Sequence[str]) -> None:
        """Has finished files, and a manifest that lists them."""
        mask = os.umask(0)
        os.umask(mask)
        files = []
        with told_of(self.path):
            for number, piece in enumerate(pieces):
                name = f"part-{number:05}.csv"
                link_or_copy(piece.path, self.part / name, NEW_FILE & ~mask)
                files.append({"name": name, "pairs": piece.pairs, "bytes": piece.bytes})
            (self.part / MANIFEST).write_text(manifest_of(files, columns), encoding="utf-8")

    def finish(self) -> None:
        """Gives the folder its name."""
        with told_of(self.path):
            for path in self.part.iterdir():
                with open(path, "rb") as file:
                    os.fsync(file.fileno())
            os.rename(self.part, self.target)

    def remove(self) -> None:
        shutil.rmtree(self.part, ignore_errors=True)


def manifest_of(files: Sequence[Mapping[str, Any]], columns: Sequence[str]) -> str:
    """The text that lists the files of a report."""
    pairs = sum(file["pairs"] for file in files)
    manifest = {"columns": list(columns), "pairs": pairs, "files": files}
    return json.dumps(manifest, indent=1) + "\n"


class RemoteFolder:
    """The same at a URL, where it is complete once it has its manifest."""

    def __init__(self, url: str, folder: str) -> None:
        self.url = url.rstrip("/")
        self.part = unfinished(Path(os.path.abspath(folder), ".manifest"))

    def open(self) -> None:
        if is_there(self.url):
            raise JoinFault(f"{self.url}: is there already, and many files need a new name")

    def take(self, pieces: Sequence[Piece], columns: Sequence[str]) -> None:
        """Puts finished files there, and keeps the manifest."""
        files = []
        with told_of(self.url):
            for number, piece in enumerate(pieces):
                name = f"part-{number:05}.csv"
                with on_disk(piece.path) as path:
                    put(path, f"{self.url}/{name}")
                files.append({"name": name, "pairs": piece.pairs, "bytes": piece.bytes})
            self.part.write_text(manifest_of(files, columns), encoding="utf-8")

    def finish(self) -> None:
        with told_of(self.url):
            put(str(self.part), f"{self.url}/{MANIFEST}")
        self.part.unlink()

    def remove(self) -> None:
        """Takes away what has no manifest."""
        if self.part.exists():
            self.part.unlink()
            remove(self.url)


class Outputs(NamedTuple):
    """What a join writes: its report, as one file or as many, and the list of skipped rows."""

    report: Optional[Report]
    files: Optional[Union[ReportFolder, RemoteFolder]]
    skipped: Optional[Report]


@contextmanager
def new_report_folder(
    path: str, beside: str = os.curdir
) -> Iterator[Union[ReportFolder, RemoteFolder]]:
    """A report of many files that appears where the join succeeds. What is to be put to a URL is
    made beside.
    """
    report: Union[ReportFolder, RemoteFolder]
    report = RemoteFolder(path, beside) if is_url(path) else ReportFolder(path)
    try:
        report.open()
        yield report
        report.finish()
    finally:
        report.remove()


@contextmanager
def new_report(path: str, beside: str = os.curdir) -> Iterator[Report]:
    """A report that appears where the join succeeds, and leaves nothing where it doesn't. Where the
    path is a link, the report is what it leads to; where it is a URL, the report is made beside.
    """
    report = RemoteReport(path, beside) if is_url(path) else local_report(path)
    try:
        report.open()
        yield report
        report.finish()
    finally:
        report.remove()


def local_report(path: str) -> Report:
    """A report at a path that may be one."""
    if os.path.islink(path) and not os.path.exists(path):
        raise JoinFault(f"{path}: a link that leads nowhere")
    if os.path.exists(path) and not os.path.isfile(path):
        raise JoinFault(f"{path}: not a regular file")
    return Report(path)


@contextmanager
def new_reports(*paths: str, beside: str = os.curdir) -> Iterator[list[Report]]:
    """Several reports, of which the last one gets its name first."""
    if len({os.path.realpath(path) for path in paths}) < len(paths):
        raise JoinFault(f"{paths[-1]}: is the report")
    with ExitStack() as stack:
        yield [stack.enter_context(new_report(path, beside)) for path in paths]


@contextmanager
def told_of(path: str) -> Iterator[None]:
    """Words what the system says when a path is written."""
    try:
        yield
    except OSError as cause:
        raise JoinFault(f"{path}: cannot be written: {cause.strerror}") from cause


@contextmanager
def new_folder(shared: str) -> Iterator[Layout]:
    """A folder of this join alone in the one that all workers share, for its user alone; at a URL
    for those who may read there.
    """
    name = f"rjoin-cluster-{uuid.uuid4().hex}"
    if is_url(shared):
        layout = Layout(f"{shared.rstrip('/')}/{name}")
        try:
            check_takes(layout)
            yield layout
        finally:
            remove(layout.folder)
        return
    folder = os.path.join(os.path.abspath(shared), name)
    try:
        with told_of(shared):
            os.mkdir(folder, 0o700)
        yield Layout(folder)
    finally:
        remove_folder(folder)


def check_takes(layout: Layout) -> None:
    """Ends the join where nothing can be written to a URL, whose module may raise anything."""
    try:
        save_bytes(layout.file("begun"), [])
    except JoinFault:
        raise
    except Exception as cause:
        raise JoinFault(f"{layout.folder}: cannot be written: {one_line(cause)}") from cause


def remove_folder(folder: str) -> None:
    """Removes a folder into which a task that was given up may still write for a moment."""
    for _ in range(CLEANING_TRIES):
        shutil.rmtree(folder, ignore_errors=True)
        if not os.path.exists(folder):
            return
        time.sleep(CLEANING_PAUSE)
