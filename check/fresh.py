"""Checks that need a new Debian 12: it is made once, and each of them has a copy of its own."""
import os
import re
import shutil
import subprocess
from dataclasses import dataclass
from pathlib import Path
from threading import Lock

from built import ROOT, output_of
from files import DOCS
from trial import Check, Ran, Skipped, Tried, example, expect, need, ran, version_line, well

BLOCK = re.compile(r"^```(\w*)\n(.*?)^```$", re.M | re.S)
NO_PACKAGES = re.compile(rb"^E: (Failed to fetch|Unable to fetch)", re.M)
TRIES = 3
MINUTES = 12
# A system has processes and mounts of its own, so that nothing of it is left running or mounted.
NAMESPACES = ("unshare", "--mount", "--pid", "--fork", "--kill-child")
INSIDE = """
set -e
mount -t proc proc "$0/proc"
mount --rbind /dev "$0/dev"
exec chroot "$0" "$@"
"""
# apt doesn't ask, tries again where a mirror fails, and leaves out packages that are only recommended: a page that runs
# without them runs with them, and they are ten times as many.
PREPARE = """
cat >/etc/apt/apt.conf.d/check <<'APT'
APT::Get::Assume-Yes "true";
APT::Install-Recommends "false";
Acquire::Retries "3";
DPkg::Options { "--force-unsafe-io"; };
APT
apt-get update
"""
# Where the pages find in a folder of a user, once the packages are installed, what is at the root of a checkout.
LINKS = "ln -s /usr/share/rjoin/data /usr/share/rjoin/integrations /usr/share/rjoin/recipes ."
# What the packages and their first user leave, before a checkout is tried.
PURGE = "{ ! dpkg-query --show rjoin || apt-get purge --autoremove rjoin; } && rm -rf /root/.[!.]*"


@dataclass(frozen=True)
class Page:
    """A page whose commands are run, as root. Those that install come first; a page may need a command that all others
    are run by. Blocks that name a package's file are for who has the packages, and those that hold one of some texts
    for who has a checkout; others are left out, which need what the page says, such as a second machine."""

    name: str
    of_checkout: tuple[str, ...] = ()
    left_out: tuple[str, ...] = ()
    within: str = "bash"
    is_for_checkout: bool = True

    def blocks(self) -> list[tuple[str, str]]:
        """The language and the text of each block, without what is left out."""
        found = BLOCK.findall((ROOT / self.name).read_text(encoding="utf-8"))
        for text in (*self.of_checkout, *self.left_out):
            expect(any(text in block for _, block in found), f"{self.name} has no block with {text!r}")
        return [it for it in found if not any(text in it[1] for text in self.left_out)]

    def commands(self, is_checkout: bool) -> list[tuple[str, str]]:
        """The blocks for who has a checkout, or for who has the packages."""
        others = (".deb",) if is_checkout else self.of_checkout
        return [it for it in self.blocks() if not any(text in it[1] for text in others)]

    def script(self, is_checkout: bool) -> str:
        """What is run of the page: its commands in one shell, and then its Python in one run."""
        commands = self.commands(is_checkout)
        installing = [text for language, text in commands if language == "sh" and "apt install" in text]
        shell = [text for language, text in commands if language == "sh" and "apt install" not in text]
        python = [text for language, text in commands if language == "python"]
        if python:
            shell.append("".join(["python3 - <<'PYTHON'\n", *python, "PYTHON\n"]))
        rest = "".join(["set -exo pipefail\n", *shell])
        if self.within == "bash":
            return "".join(["set -exo pipefail\n", *installing, *shell])
        return "".join(["set -exo pipefail\n", *installing, f"cat >commands <<'COMMANDS'\n{rest}COMMANDS\n",
                        f"{self.within} bash commands\n"])

    def shown(self, is_checkout: bool) -> list[str]:
        """The lines that the page says its commands write."""
        commands = self.commands(is_checkout)
        beside = zip(commands, commands[1:])
        texts = [text for (before, _), (language, text) in beside if (before, language) == ("sh", "")]
        return [line.strip() for text in texts for line in text.splitlines()]


class Systems:
    """A new Debian 12, and its copies. Where it can't be had, all that need it are skipped by the same words."""

    def __init__(self) -> None:
        self.base: Path | None = None
        self.why = ""
        self.lock = Lock()

    def copy(self, it: Tried, name: str) -> Path:
        with self.lock:
            if not self.base and not self.why:
                try:
                    self.base = new_debian(it.room / "debian")
                except Skipped as skipped:
                    self.why = str(skipped)
        if not self.base:
            raise Skipped(self.why)
        system = it.room / name
        well(ran("cp", "-a", self.base, system))
        return system


SYSTEMS = Systems()


def new_debian(folder: Path) -> Path:
    """Makes a Debian 12 with apt, sudo and no more."""
    need("mmdebstrap")
    need("unshare")
    if os.geteuid():
        raise Skipped("not root, which a new system needs")
    if ran(*NAMESPACES, "true").returncode:
        raise Skipped("no new namespaces can be made here")
    for _ in range(TRIES):
        shutil.rmtree(folder, ignore_errors=True)
        made = ran("mmdebstrap", "--variant=apt", "--include=sudo", "bookworm", folder)
        if made.returncode == 0 and inside(folder, "sh", "-ec", PREPARE).returncode == 0:
            return folder
    raise Skipped(f"mmdebstrap got no packages: {made.stderr.decode(errors='replace').splitlines()[-1:]}")


def inside(system: Path, *words: str) -> Ran:
    """Runs a command in a new system."""
    env = ("env", "-i", "PATH=/usr/local/sbin:/usr/local/bin:/usr/sbin:/usr/bin:/sbin:/bin", "LANG=C.UTF-8",
           "HOME=/root", "DEBIAN_FRONTEND=noninteractive")
    return subprocess.run([*NAMESPACES, "sh", "-c", INSIDE, system, *env, *words], input=b"", capture_output=True,
                          check=False, timeout=60 * MINUTES)


def installs_on_plain_debian(it: Tried) -> None:
    system = SYSTEMS.copy(it, "plain")
    shutil.copy(it.deb, system / "rjoin.deb")
    expect(inside(system, "which", "rt").returncode != 0, "the toolchain is there")
    well(inside(system, "dpkg", "-i", "/rjoin.deb"))
    shown = example(system / "usr" / DOCS)
    made = well(inside(system, "sh", "-c", f"cd /usr/{DOCS} && rjoin {shown.words}"))
    expect(made.stdout == shown.output, made.stdout)
    expect(well(inside(system, "rjoin", "--version")).stdout == version_line(it), "rjoin --version")
    total = well(inside(system, "sha256sum", "/usr/libexec/rjoin/rjoin")).stdout.decode().split()[0]
    expect(total in (system / "usr" / DOCS / "PROVED").read_text(encoding="utf-8"), total)
    expect(well(inside(system, "dpkg", "--verify", "rjoin")).stdout == b"", "installed files differ")
    well(inside(system, "dpkg", "--purge", "rjoin"))
    expect(not list(system.glob("usr/*/**/*rjoin*")), list(system.glob("usr/*/**/*rjoin*")))


def copy_checkout(it: Tried, folder: Path) -> None:
    """Copies what the repository keeps, with the program that was built."""
    folder.mkdir()
    for name in output_of("git", "ls-files").splitlines():
        (folder / name).parent.mkdir(parents=True, exist_ok=True)
        shutil.copy2(ROOT / name, folder / name)
    for path in ("crates/rjoin/out/rjoin", "out/built"):
        (folder / path).parent.mkdir(parents=True, exist_ok=True)
    shutil.copy(it.program, folder / "crates/rjoin/out/rjoin")
    (folder / "out/built").touch()


def run_script(system: Path, folder: str, page: Page, is_checkout: bool) -> None:
    """Runs the commands of a page in a folder of a system, and looks for what the page says that they write."""
    (system / folder[1:] / ".script").write_text(page.script(is_checkout), encoding="utf-8")
    made = inside(system, "bash", "-c", f"cd {folder} && exec bash .script")
    if made.returncode and NO_PACKAGES.search(made.stderr):
        raise Skipped("apt got no packages")
    written = {line.strip() for line in well(made).stdout.decode().splitlines()}
    expect(written.issuperset(page.shown(is_checkout)), (page.name, sorted(set(page.shown(is_checkout)) - written)))


def run_page(it: Tried, page: Page) -> None:
    """Runs the commands of a page as they stand: beside the packages, and in a checkout."""
    system = SYSTEMS.copy(it, f"page {Path(page.name).stem}")
    home, checkout = system / "root/packages", system / "root/checkout"
    home.mkdir()
    for file in (*it.debs.values(), it.tarball):
        shutil.copy(file, home)
    well(inside(system, "sh", "-c", f"cd /root/packages && {LINKS}"))
    run_script(system, "/root/packages", page, is_checkout=False)
    if page.is_for_checkout:
        well(inside(system, "sh", "-c", PURGE))
        copy_checkout(it, checkout)
        run_script(system, "/root/checkout", page, is_checkout=True)
    shutil.rmtree(system)


def check_of(page: Page) -> Check:
    def check(it: Tried) -> None:
        run_page(it, page)

    check.__name__ = f"commands_of_{page.name}_run"
    return check


PAGES = (
    Page("docs/INSTALL.md", of_checkout=("packaging/build-deb",), is_for_checkout=False),
    Page("docs/PYTHON.md", of_checkout=("venv",)),
    Page("docs/CLUSTER.md", of_checkout=("pip install",), left_out=("10.0.0.1",)),
    Page("docs/QGIS.md", of_checkout=("ln -s",)),
    Page("docs/KLAYOUT.md", of_checkout=("ln -s",)),
    Page("docs/POSTGIS.md", within="recipes/with-postgres"),
)
CHECKS: tuple[Check, ...] = (installs_on_plain_debian, *map(check_of, PAGES))
