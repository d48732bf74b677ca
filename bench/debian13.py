"""A new Debian 13 in a folder, for the peers that its users have: it is made once, and kept in a cache."""
import os
import shutil
import subprocess
from pathlib import Path

PACKAGES = "g++,libboost-dev,libgeos-dev,python3-geopandas,python3-pyogrio"
# A system has processes and mounts of its own, so that nothing of it is left running or mounted.
NAMESPACES = ("unshare", "--mount", "--pid", "--fork", "--kill-child")
INSIDE = """
set -e
mount -t proc proc "$0/proc"
mount --rbind /dev "$0/dev"
mkdir -p "$0/checkout"
mount --bind "$1" "$0/checkout"
cp "$2" "$0/measured-rjoin"
system=$0
shift 2
exec chroot "$system" env -i PATH=/usr/bin:/bin LANG=C.UTF-8 RJOIN=/measured-rjoin PYTHONPATH=/checkout/python/src \
    PYTHONDONTWRITEBYTECODE=1 "$@"
"""


class Lacking(Exception):
    """What is lacking for a new system."""


def default_cache() -> Path:
    """The folder where systems are kept, unless another one is named."""
    return Path(os.environ.get("XDG_CACHE_HOME") or Path.home() / ".cache") / "rjoin-bench"


def system_in(cache: Path) -> Path:
    """The system within a cache, which is made where it isn't there, or had other packages."""
    system = cache / "debian-13"
    made = system / "packages"
    if made.exists() and made.read_text(encoding="ascii") == PACKAGES:
        return system
    if not shutil.which("mmdebstrap"):
        raise Lacking("mmdebstrap is not installed")
    if os.geteuid():
        raise Lacking("not root, which a new system needs")
    print(f"making Debian 13 in {system}, about 1 GB", flush=True)
    part = cache / "debian-13.part"
    for folder in (part, system):
        shutil.rmtree(folder, ignore_errors=True)
    part.mkdir(parents=True)
    # what it mounts is gone with it, also where it is stopped
    words = ["unshare", "--mount", "mmdebstrap", "--variant=apt", f"--include={PACKAGES}", "trixie", str(part)]
    ended = subprocess.run(words, capture_output=True, text=True, check=False)
    if ended.returncode:
        shutil.rmtree(part, ignore_errors=True)
        raise Lacking(" ".join(["mmdebstrap failed:", *ended.stderr.splitlines()[-1:]]))
    (part / made.name).write_text(PACKAGES, encoding="ascii")
    part.rename(system)
    return system


def runner(system: Path) -> list[str | Path]:
    """The words that run a program of the system here: its own loader, with its own libraries. So whoever runs it needs
    not be root, and finds all files where they are."""
    loader = min(system.glob("usr/lib/*/ld-linux*.so.*"))
    return [loader, "--library-path", loader.parent]


def inside(system: Path, checkout: Path, program: Path, *words: str) -> list[str | Path]:
    """The words that run a command inside, as root, where this checkout is /checkout and RJOIN this program."""
    return [*NAMESPACES, "sh", "-c", INSIDE, system, checkout, program, *words]
