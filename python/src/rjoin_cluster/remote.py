"""Files that are named by URLs, such as s3://bucket/left.csv, which fsspec reads and writes."""
from __future__ import annotations

import re
import shutil
from contextlib import contextmanager, suppress
from typing import Any, BinaryIO, Iterator, Optional

from rjoin_cluster.faults import JoinFault

URL = re.compile(r"[A-Za-z][A-Za-z0-9+.-]*://")
FILE = "file://"
COPY_BYTES = 2**24


def is_url(word: str) -> bool:
    """Whether a name is that of a file which fsspec has; a path is none, nor a file's URL."""
    return URL.match(word) is not None and not word.startswith(FILE)


def path_of(word: str) -> str:
    """A name of a file, as a path where its URL is that of a path."""
    return word[len(FILE):] if word.startswith(FILE) else word


def system_of(url: str) -> tuple[Any, str]:
    """The file system of a URL, and the file's name there."""
    import fsspec

    try:
        system, name = fsspec.core.url_to_fs(url)
    except (ImportError, ValueError) as cause:
        raise JoinFault(f"{url}: {cause}") from cause
    return system, name


def state_of(url: str) -> tuple[int, str]:
    """How many bytes a file has, and what its system tells two versions of it apart by."""
    system, name = system_of(url)
    system.invalidate_cache()
    return int(system.info(name)["size"]), str(system.ukey(name))


@contextmanager
def opened_url(url: str) -> Iterator[BinaryIO]:
    """The file of a URL for reading."""
    system, name = system_of(url)
    with system.open(name, "rb") as file:
        yield file


def bytes_of(url: str, begin: Optional[int] = None, end: Optional[int] = None) -> bytes:
    """The bytes of a file, or those between two places of it."""
    system, name = system_of(url)
    return bytes(system.cat_file(name, start=begin, end=end))


def send(path: str, url: str) -> None:
    """Copies a file to a URL, where the system lets it appear as a whole."""
    system, name = system_of(url)
    system.put_file(path, name)


def names_like(pattern: str) -> list[str]:
    """The URLs that a pattern fits, in their order."""
    system, name = system_of(pattern)
    scheme = pattern[: pattern.index("://") + len("://")]
    return sorted(scheme + str(found).lstrip("/") for found in system.glob(name))


def is_there(url: str) -> bool:
    system, name = system_of(url)
    return bool(system.exists(name))


def put(path: str, url: str) -> None:
    """Copies a file to a URL, where it appears as a whole, or not at all."""
    system, name = system_of(url)
    with system.transaction, system.open(name, "wb") as target, open(path, "rb") as file:
        shutil.copyfileobj(file, target, COPY_BYTES)


def remove(url: str) -> None:
    """Takes away a file, or a folder with its files, as far as that can be done."""
    with suppress(OSError):
        system, name = system_of(url)
        if system.exists(name):
            system.rm(name, recursive=True)
