"""The files of each package, below the folder that it is installed to (/usr, or where the tarball is unpacked)."""
import gzip
from collections.abc import Callable, Iterator
from dataclasses import dataclass, field
from datetime import datetime, timezone
from email.utils import format_datetime

from built import ROOT, Built, output_of, short_commit, statement
from manual import manual
from python_files import python_files

PACKAGING = ROOT / "packaging"
DOCS = "share/doc/rjoin"
SHARED = "share/rjoin"
MAINTAINER = "Soffitnettle maintainers <maintainers@users.noreply.soffitnettle.example>"

# The pages of each package. All lie below DOCS, so that their links lead from one to the other.
PYTHON_PAGES = ("docs/PYTHON.md", "docs/CLUSTER.md", "docs/python.svg")
INTEGRATION_PAGES = ("docs/QGIS.md", "docs/KLAYOUT.md", "docs/POSTGIS.md", "docs/RECIPES.md", "docs/qgis.png",
                     "docs/klayout.png", "docs/postgis.svg", "docs/spacing.svg", "docs/storms.svg")
PAGES = ("README.md", "CHANGELOG.md", "docs/*.md", "docs/*.svg", "docs/*.png")
HOSTS = ("integrations/qgis", "integrations/klayout", "integrations/postgis")
RECIPES = ("recipes/debian_layers.py", "recipes/exact_relations.py", "recipes/from-ogr", "recipes/from-postgis",
           "recipes/real-layers", "recipes/tasks", "recipes/to-postgis", "recipes/with-postgres")

INTERPRETERS = {b"#!/usr/bin/env python3\n": b"#!/usr/bin/python3\n", b"#!/usr/bin/env bash\n": b"#!/bin/bash\n"}

DEBIAN_CHANGELOG = """\
rjoin ({version}) unstable; urgency=medium

  * Release {version}; {docs}/CHANGELOG.md lists what has changed.

 -- {maintainer}  {date}
"""


@dataclass(frozen=True)
class File:
    """A file of a package: its path below the prefix, and what it holds, or the target of a symbolic link."""

    path: str
    content: bytes = b""
    is_program: bool = False
    target: str = ""

    @property
    def mode(self) -> int:
        return 0o755 if self.is_program else 0o644


@dataclass(frozen=True)
class Package:
    """A Debian package. Its control file is the one of its name in packaging/control; the scripts are those that dpkg
    runs, by their names."""

    name: str
    files: Callable[[Built], Iterator[File]]
    is_for_all: bool = True
    scripts: dict[str, str] = field(default_factory=dict)


def compressed(text: str) -> bytes:
    return gzip.compress(text.encode(), compresslevel=9, mtime=0)


def launcher(built: Built) -> str:
    """The script that runs the program."""
    text = (PACKAGING / "launcher.in").read_text(encoding="utf-8")
    shared = (PACKAGING / "launch.sh").read_text(encoding="utf-8")
    return text.replace("@COMMIT@", short_commit(built.commit)).replace("@LAUNCH@\n", shared)


def changelog(built: Built) -> str:
    date = format_datetime(datetime.fromtimestamp(built.time, timezone.utc))
    return DEBIAN_CHANGELOG.format(version=built.version, maintainer=MAINTAINER, date=date, docs=f"/usr/{DOCS}")


def kept(*patterns: str) -> list[str]:
    """The files of these names that the repository keeps."""
    return output_of("git", "ls-files", "--", *patterns).splitlines()


def pages(*names: str) -> Iterator[File]:
    for name in names:
        yield File(f"{DOCS}/{name}", (ROOT / name).read_bytes())


def copied(folder: str, names: list[str]) -> Iterator[File]:
    """Files of the repository, whose scripts name Debian's interpreters."""
    for name in names:
        content, is_program = (ROOT / name).read_bytes(), bool((ROOT / name).stat().st_mode & 0o100)
        first, feed, rest = content.partition(b"\n")
        yield File(f"{folder}/{name}", INTERPRETERS.get(first + feed, first + feed) + rest, is_program)


def papers(built: Built, package: str) -> Iterator[File]:
    """The copyright and the changelog that every Debian package has."""
    yield File(f"share/doc/{package}/copyright", (PACKAGING / "copyright").read_bytes())
    yield File(f"share/doc/{package}/changelog.gz", compressed(changelog(built)))


def manual_page(name: str) -> File:
    """A man page that is kept under packaging/manuals."""
    return File(f"share/man/man1/{name}.1.gz", compressed((PACKAGING / f"manuals/{name}.1").read_text("utf-8")))


def program_files(built: Built) -> Iterator[File]:
    """The program, with its man page and completion, the sample layers and the pages on it."""
    day = datetime.fromtimestamp(built.time, timezone.utc).date().isoformat()
    yield File("bin/rjoin", launcher(built).encode(), is_program=True)
    yield File("libexec/rjoin/rjoin", built.program.read_bytes(), is_program=True)
    yield File("share/man/man1/rjoin.1.gz", compressed(manual(built.program, built.version, day)))
    yield File("share/bash-completion/completions/rjoin", (PACKAGING / "completion.bash").read_bytes())
    yield File(f"{DOCS}/PROVED", statement(built).encode())
    yield File(f"{DOCS}/data", target="../../rjoin/data")
    yield from papers(built, "rjoin")
    yield from copied(SHARED, kept("data"))
    yield from pages(*(name for name in kept(*PAGES) if name not in (*PYTHON_PAGES, *INTEGRATION_PAGES)))


def package_files(built: Built) -> Iterator[File]:
    """Both Python packages, with their command and pages."""
    for path, content, is_program in python_files():
        yield File(path, content, is_program)
    yield manual_page("rjoin-cluster")
    yield from papers(built, "python3-rjoin")
    yield from pages(*PYTHON_PAGES)


def integration_files(built: Built) -> Iterator[File]:
    """The integrations and recipes, with links where QGIS, KLayout and the shell look for them."""
    folder = f"{SHARED}/integrations"
    yield from copied(SHARED, kept(*HOSTS, *RECIPES))
    yield File("share/qgis/python/plugins/rjoin_processing", target="../../../rjoin/integrations/qgis/rjoin_processing")
    yield File("lib/klayout/salt/rjoin", target=f"../../../{folder}/klayout")
    yield File("bin/rjoin-postgis", target=f"../{folder}/postgis/rjoin-postgis")
    yield manual_page("rjoin-postgis")
    yield from papers(built, "rjoin-integrations")
    yield from pages(*INTEGRATION_PAGES)


# As Debian's helpers have it: Python's bytecode is made where a package is installed, and goes before it.
BYTECODE = {
    "postinst": '#!/bin/sh\nset -e\nif command -v py3compile >/dev/null 2>&1; then py3compile -p python3-rjoin; fi\n',
    "prerm": '#!/bin/sh\nset -e\nif command -v py3clean >/dev/null 2>&1; then py3clean -p python3-rjoin; fi\n',
}
PACKAGES = (
    Package("rjoin", program_files, is_for_all=False),
    Package("python3-rjoin", package_files, scripts=BYTECODE),
    Package("rjoin-integrations", integration_files),
)


def files(package: Package, built: Built) -> list[File]:
    """All files of a package, by path."""
    return sorted(package.files(built), key=lambda file: file.path)
