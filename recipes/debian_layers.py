"""Layers that packages of Debian contain, downloaded and unpacked, but not installed.

They go to the folder that the environment variable RJOIN_LAYERS names, or to ~/.cache/rjoin-layers, once.
Needs apt-get and dpkg-deb.
"""
import os
import subprocess
from pathlib import Path

FOLDER = Path(os.environ.get("RJOIN_LAYERS", Path.home() / ".cache/rjoin-layers"))


def unpacked(package: str) -> Path:
    """The folder of a package's files."""
    place = FOLDER / package
    if not place.exists():
        FOLDER.mkdir(parents=True, exist_ok=True)
        subprocess.run(["apt-get", "download", "-qq", package], cwd=FOLDER, check=True)
        archive = next(FOLDER.glob(f"{package}_*.deb"))
        subprocess.run(["dpkg-deb", "-x", archive, place], check=True)
        archive.unlink()
    return place


def file_of(package: str, name: str) -> Path:
    """The file of a package with this name."""
    return next(unpacked(package).rglob(name))
