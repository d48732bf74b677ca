#!/usr/bin/env python3
"""Installs the Debian packages that the parts of the gate need, as check/packages.txt lists them.

    check/install.py [PART..]              as root, what is missing of those of these parts, or of all
    check/install.py --missing [PART..]    names what is missing, and installs nothing

What is there is left as it is, so a second run does nothing. A mirror that fails is tried three times. The status is 0
where all are there in the end; else the last lines name what is missing. The server that Debian starts with PostgreSQL
isn't started.
"""
import os
import shutil
import subprocess
import sys
import time
from collections.abc import Collection
from pathlib import Path

LIST = Path(__file__).resolve().with_name("packages.txt")
TRIES = 3
PAUSE_SECONDS = 5
# How long one call of apt-get may take.
SECONDS = 900
OPTIONS = ("-y", "--no-install-recommends", "-o", "Acquire::Retries=3", "-o", "Acquire::http::Timeout=30",
           "-o", "DPkg::Lock::Timeout=300")
# Debian's scripts start no service in the runlevel of a single user.
ENVIRONMENT = {**os.environ, "DEBIAN_FRONTEND": "noninteractive", "RUNLEVEL": "1"}


def parts_by_package() -> dict[str, list[str]]:
    """What needs each package."""
    lines = (line.partition("#")[0].split() for line in LIST.read_text(encoding="utf-8").splitlines())
    return {words[0]: words[1:] for words in lines if words}


def is_installed(package: str) -> bool:
    asked = ["dpkg-query", "--show", "--showformat=${db:Status-Status}", package]
    return subprocess.run(asked, capture_output=True, text=True, check=False).stdout == "installed"


def missing(parts: Collection[str] = ()) -> list[str]:
    """The packages of these parts, or of all, that aren't installed; none where the system isn't Debian's."""
    if not shutil.which("dpkg-query"):
        return []
    return [package for package, needing in parts_by_package().items()
            if (not parts or set(parts) & set(needing)) and not is_installed(package)]


def apt_get(*words: str) -> bool:
    """Whether apt-get has done what it was asked for."""
    try:
        ended = subprocess.run(["apt-get", *OPTIONS, *words], env=ENVIRONMENT, stdin=subprocess.DEVNULL,
                               timeout=SECONDS, check=False)
    except (OSError, subprocess.TimeoutExpired) as fault:
        print(f"apt-get: {fault}", flush=True)
        return False
    return ended.returncode == 0


def install(parts: Collection[str]) -> None:
    """Installs what is missing, all at once, and where that can't be had, what each part lacks by itself."""
    for attempt in range(TRIES):
        time.sleep(PAUSE_SECONDS * attempt)
        # a source of packages that isn't reached may be one that nothing is needed of
        apt_get("update")
        if apt_get("install", *missing(parts)):
            return
    for part in sorted({part for needing in parts_by_package().values() for part in needing}):
        lacking = missing([part]) if not parts or part in parts else []
        if lacking:
            apt_get("install", *lacking)


def main(words: list[str]) -> int:
    parts = [word for word in words if word != "--missing"]
    unknown = set(parts) - {part for needing in parts_by_package().values() for part in needing}
    if unknown:
        print(f"install: no part {' '.join(sorted(unknown))}", file=sys.stderr)
        return 2
    lacking = missing(parts)
    if lacking and "--missing" not in words and os.geteuid() == 0 and shutil.which("apt-get"):
        install(parts)
        lacking = missing(parts)
    if lacking:
        print(f"not installed: {' '.join(lacking)}")
    return 1 if lacking else 0


if __name__ == "__main__":
    sys.exit(main(sys.argv[1:]))
