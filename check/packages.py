#!/usr/bin/env python3
"""Builds the Debian packages and the tarball of a proved program, and tries them.

    check/packages.py [--offline] [--program PATH] [--by-ci] [CHECK..]

What needs a tool that isn't installed is skipped by name. Without --offline, and as root, the packages are also
installed into new Debian 12 systems, which mmdebstrap fetches, and the commands of the pages are run there. CHECK is a
part of the name of a check; without one all are run. The last line counts; the status is 1 where a check failed.
"""
import gzip
import hashlib
import os
import re
import shutil
import subprocess
import sys
from argparse import ArgumentParser
from concurrent.futures import ThreadPoolExecutor
from pathlib import Path
from tempfile import TemporaryDirectory

sys.path.append(str(Path(__file__).resolve().parent.parent / "packaging"))
import checkout  # noqa: E402
import fresh  # noqa: E402
from built import CRATE, PROGRAM, ROOT, output_of  # noqa: E402
from files import DOCS, PACKAGES  # noqa: E402
from manual import commands, help_of  # noqa: E402
from trial import (Check, Skipped, Tried, build, example, expect, need, ran, unpacked, version_line, well)  # noqa: E402

# How many new systems are tried side by side.
AT_ONCE = 2
RELEASE = re.compile(r"^## (\d\S*)", re.M)
# What the page has as titles of its own, or not at all.
TITLES = ("Usage: rjoin <COMMAND>", "Arguments:", "Options:", "Exit status:")
COMMANDS = re.compile(r"^Commands:\n(  .*\n)+", re.M)
COMPLETE = """
source /usr/share/bash-completion/bash_completion
source "$1"
program=$2
shift 2
COMP_WORDS=("$@") COMP_CWORD=$(($# - 1)) COMP_LINE="$*"
COMP_POINT=${#COMP_LINE}
_rjoin "$program"
printf '%s\\n' "${COMPREPLY[@]}"
"""
LINK = re.compile(r"\]\((?!https?:|#)([^)#]+)")
# Scripts that pages name, and those of them that they say a checkout alone has.
SCRIPT = re.compile(r"\b(?:recipes|integrations)/[\w./-]*\w")
OF_CHECKOUT = {"recipes/tiles"}
# Papers that exist in the sources alone, to which the packages may refer.
OUTSIDE = {"LICENSE", "CONTRIBUTING.md", "../CONTRIBUTING.md", "../LICENSE"}
PAPERS = {
    "rjoin": {
        "README.md", "CHANGELOG.md", "docs/ARCHITECTURE.md", "docs/BENCH.md", "docs/DECISIONS.md",
        "docs/DEFINITIONS.md", "docs/FAULTS.md", "docs/GATE.md", "docs/GUARANTEES.md", "docs/INSTALL.md",
        "docs/PLANE.md", "docs/bench.svg", "docs/village.svg",
    },
    "python3-rjoin": {"docs/PYTHON.md", "docs/CLUSTER.md", "docs/python.svg"},
    "rjoin-integrations": {
        "docs/QGIS.md", "docs/KLAYOUT.md", "docs/POSTGIS.md", "docs/RECIPES.md", "docs/qgis.png", "docs/klayout.png",
        "docs/postgis.svg", "docs/spacing.svg", "docs/storms.svg",
    },
}
INSTALLED = {
    "rjoin": ("bin/rjoin", "libexec/rjoin/rjoin", "share/man/man1/rjoin.1.gz", "share/rjoin/data/town/zones.csv",
              "share/bash-completion/completions/rjoin"),
    "python3-rjoin": ("bin/rjoin-cluster", "lib/python3/dist-packages/rjoin/py.typed",
                      "share/man/man1/rjoin-cluster.1.gz"),
    "rjoin-integrations": ("bin/rjoin-postgis", "share/qgis/python/plugins/rjoin_processing/metadata.txt",
                           "lib/klayout/salt/rjoin/pymacros/join_layers.lym", "lib/klayout/salt/rjoin/grain.xml",
                           "lib/klayout/salt/rjoin/ruby/rjoin.rb", "share/man/man1/rjoin-postgis.1.gz"),
}
FORMAT_OPTIONS = {"--geometry", "--rings", "--scale", "--round", "--help"}
FILE_OPTIONS = {"--columns", "--delimiter", *FORMAT_OPTIONS}
SIDE_OPTIONS = {"--left-columns", "--right-columns", "--left-delimiter", "--right-delimiter"}
LAYER_OPTIONS = {"--edits", "--workers", "--batch", "--cut", "--skip", *SIDE_OPTIONS, *FILE_OPTIONS}
PRODUCT_OPTIONS = {"--pairs", "--first", "--count", "--unmatched"}
JOIN_OPTIONS = {"--relation", *LAYER_OPTIONS}
OPTIONS = {
    "relate": FORMAT_OPTIONS, "join": {*PRODUCT_OPTIONS, *JOIN_OPTIONS}, "draw": JOIN_OPTIONS,
    "window": FILE_OPTIONS, "near": {"--distance", "--apart", *LAYER_OPTIONS},
    "nearest": {"--most", "--distance", *LAYER_OPTIONS}, "stats": FILE_OPTIONS, "bounds": FILE_OPTIONS,
}
RELATIONS = {
    "intersects", "touches", "crosses", "within", "contains", "overlaps", "equals", "covers", "covered_by",
    "contains_properly",
}
SCALES = {"0", "1", "2", "3", "4", "5", "6"}
STUB = '#!/bin/sh\nprintf "%s\\n" "$GLIBC_TUNABLES" "$@"\nexit 7\n'


def joins_as_readme_says(launcher: Path, docs: Path) -> None:
    """Runs the README's join with the launcher in the folder of the pages."""
    shown = example(docs)
    made = well(ran(launcher, *shown.words.split(), folder=docs))
    expect(made.stdout == shown.output, made.stdout)


def words_of(text: str) -> str:
    """The text without white space, in which a page and a help text may differ."""
    return re.sub(r"\s+", "", text)


def version_is_that_of_the_changelog(it: Tried) -> None:
    found = RELEASE.search((ROOT / "CHANGELOG.md").read_text(encoding="utf-8"))
    assert found
    shown = output_of(it.program, "--version")
    expect(shown == f"rjoin {found[1]}", f"the program says {shown!r}, and the newest of CHANGELOG.md is {found[1]}")


def second_build_has_the_same_bytes(it: Tried) -> None:
    for kind, firsts in (("tarball", [it.tarball]), *([("deb", [*it.packages.values()])] if it.packages else [])):
        for first, second in zip(firsts, build(kind, it.room / "again", it.options), strict=True):
            expect(second.read_bytes() == first.read_bytes(), f"{second.name} differs")


def a_program_without_proof_is_refused(it: Tried) -> None:
    false = it.room / "false"
    shutil.copy(it.program, false)
    other = it.room / "other"
    shutil.copy(it.program, other)
    (it.room / "other.stamp").write_text("0" * 128, encoding="utf-8")
    for program in (it.room / "nothing", false, other):
        for kind in ("deb", "tarball"):
            made = ran(ROOT / f"packaging/build-{kind}", "--program", program, "--into", it.room / "refused")
            expect(made.returncode == 1 and b"Build" in made.stderr, made)
    expect(not (it.room / "refused").exists(), "a refused build left something")


def lintian_finds_no_error(it: Tried) -> None:
    need("lintian")
    made = ran("lintian", "--fail-on", "error,warning", "--allow-root", *it.debs.values())
    expect(made.returncode == 0, made.stdout.decode())


def the_library_is_named_as_a_dependency(it: Tried) -> None:
    made = output_of("dpkg-deb", "--field", it.deb, "Depends", "Version", "Architecture")
    expect(re.search(r"^Depends: libc6 \(>= 2\.\d+\)$", made, re.M) is not None, made)
    expect(f"rjoin_{'_'.join(re.findall('^(?:Version|Architecture): (.*)$', made, re.M))}.deb" == it.deb.name, made)


def packages_depend_on_one_another(it: Tried) -> None:
    """Each of the other packages asks for the program of its own version."""
    version = output_of("dpkg-deb", "--field", it.deb, "Version")
    for name in ("python3-rjoin", "rjoin-integrations"):
        made = output_of("dpkg-deb", "--field", it.debs[name], "Depends", "Version", "Architecture")
        expect(f"rjoin (= {version})" in made and it.debs[name].name == f"{name}_{version}_all.deb", made)


def unpacked_packages(it: Tried) -> dict[str, Path]:
    """The folder usr of each package by itself."""
    folders = {name: it.room / f"package {name}" for name in it.debs}
    for name, folder in folders.items():
        if not folder.exists():
            well(ran("dpkg-deb", "--extract", it.debs[name], folder))
    return {name: folder / "usr" for name, folder in folders.items()}


def packages_hold_what_their_pages_show(it: Tried) -> None:
    """Each page, and each picture in it, is in the package of what it is on; all links between pages lead to a file."""
    folders = unpacked_packages(it)
    for name, papers in PAPERS.items():
        found = {str(path.relative_to(folders[name] / DOCS)) for path in (folders[name] / DOCS).rglob("*")
                 if path.suffix in (".md", ".svg", ".png")}
        expect(found == papers, (name, found ^ papers))
        for paper in papers:
            expect((folders[name] / DOCS / paper).read_bytes() == (ROOT / paper).read_bytes(), paper)
    for name, papers in PAPERS.items():
        for page in (paper for paper in papers if paper.endswith(".md")):
            for link in LINK.findall((folders[name] / DOCS / page).read_text(encoding="utf-8")):
                there = [folder / DOCS / Path(page).parent / link for folder in folders.values()]
                expect(any(path.exists() for path in there) or link in OUTSIDE, f"{page}: {link}")


def packages_hold_the_scripts_that_their_pages_name(it: Tried) -> None:
    """The pages name the folder of tasks, whose scripts read layers by a module beside it."""
    usr = unpacked_packages(it)["rjoin-integrations"]
    for page in sorted(PAPERS["rjoin-integrations"] | PAPERS["python3-rjoin"] | {"docs/INSTALL.md"}):
        named = SCRIPT.findall((ROOT / page).read_text(encoding="utf-8")) if page.endswith(".md") else []
        missing = {name for name in named if not (usr / "share/rjoin" / name).exists()} - OF_CHECKOUT
        expect(not missing, (page, missing))
    tasks = output_of("git", "ls-files", "recipes/tasks").splitlines()
    for name in (*tasks, "recipes/debian_layers.py"):
        expect((usr / "share/rjoin" / name).is_file(), name)


def packages_hold_what_hosts_look_for(it: Tried) -> None:
    folders = unpacked_packages(it)
    for name, files in INSTALLED.items():
        for file in files:
            expect((folders[name] / file).is_file(), f"{name}: {file}")
    for name in ("rjoin", "rjoin_cluster"):
        theirs = {path.name for path in (folders["python3-rjoin"] / "lib/python3/dist-packages" / name).iterdir()}
        kept = {Path(path).name for path in output_of("git", "ls-files", f"python/src/{name}").splitlines()}
        expect(theirs == kept, (name, theirs ^ kept))


def package_joins(it: Tried) -> None:
    usr = unpacked_packages(it)["rjoin"]
    joins_as_readme_says(usr / "bin/rjoin", usr / DOCS)


def tarball_joins_from_any_folder(it: Tried) -> None:
    top = unpacked(it.tarball, it.room / "a folder")
    joins_as_readme_says(top / "bin/rjoin", top / DOCS)
    link = it.room / "link"
    link.symlink_to(top / "bin/rjoin")
    joins_as_readme_says(link, top / DOCS)


def tarball_has_the_files_of_the_package(it: Tried) -> None:
    expect(it.deb.is_file(), it.deb)
    packaged = {file.relative_to(it.prefix) for file in it.prefix.rglob("*") if "lintian" not in file.parts}
    top = unpacked(it.tarball, it.room / "compared")
    expect({file.relative_to(top) for file in top.rglob("*")} == packaged, "they have other files")


def version_tells_the_commit(it: Tried) -> None:
    for word in ("--version", "-V"):
        expect(well(ran(it.launcher, word)).stdout == version_line(it), ran(it.launcher, word).stdout)
    with open("/dev/full", "wb") as full:
        made = subprocess.run([it.launcher, "--version"], stdout=full, stderr=subprocess.PIPE, check=False)
    expect((made.returncode, made.stderr) == (1, b"rjoin: write failed\n"), made)


def launcher_passes_words_and_tunables(it: Tried) -> None:
    copy = it.room / "stub"
    shutil.copytree(it.prefix, copy)
    (copy / "libexec/rjoin/rjoin").write_text(STUB, encoding="utf-8")
    words = ["join", "a b", "", "*", "--", "--version"]
    env = {name: value for name, value in os.environ.items() if name != "GLIBC_TUNABLES"}
    made = ran(copy / "bin/rjoin", *words, env=env)
    tunables, *passed = made.stdout.decode().split("\n")[:-1]
    expect((made.returncode, passed) == (7, words), made)
    expect(re.fullmatch(r"glibc\.malloc\.\w+=\d+(:glibc\.malloc\.\w+=\d+)*", tunables) is not None, tunables)
    own = ran(copy / "bin/rjoin", env={**env, "GLIBC_TUNABLES": "glibc.malloc.check=0"})
    expect(own.stdout == b"glibc.malloc.check=0\n", own)


def launcher_keeps_input_faults_and_status(it: Tried) -> None:
    for words in (["join"], ["stats", "nowhere.csv"], ["relate", "POINT (1 1)", "POINT (x)"], ["--version=1"]):
        mine, theirs = ran(it.launcher, *words), ran(it.prefix / "libexec/rjoin/rjoin", *words)
        expect((mine.returncode, mine.stdout, mine.stderr) == (theirs.returncode, theirs.stdout, theirs.stderr), mine)
    made = ran(it.launcher, "stats", "-", data=b"id,wkt\na,POINT (1 2)\n")
    expect(made.stdout.startswith(b"features 1\n"), made)


def manual_has_all_of_the_help(it: Tried) -> None:
    need("man")
    page = it.prefix / "share/man/man1/rjoin.1.gz"
    env = {**os.environ, "MANWIDTH": "1000", "LC_ALL": "C.UTF-8", "MANROFFOPT": "-rHY=0"}
    shown = well(ran("man", "--warnings", "-l", page, env=env))
    expect(shown.stderr == b"", shown.stderr.decode())
    text = words_of(shown.stdout.decode())
    whole = [str(it.launcher)]
    for words in [whole, *(whole + [name] for name in commands(help_of(it.program)))]:
        helped = COMMANDS.sub("", well(ran(*words, "--help")).stdout.decode())
        for line in helped.splitlines():
            is_there = words_of(line.removeprefix("Usage: ")).casefold() in text.casefold()
            expect(is_there or line in TITLES, line)


def completions(it: Tried, *words: str) -> set[str]:
    """What completion offers for the last of the words, behind rjoin."""
    script = it.prefix / "share/bash-completion/completions/rjoin"
    folder = it.prefix / DOCS / "data"
    made = well(ran("bash", "-c", COMPLETE, "bash", script, it.launcher, "rjoin", *words, folder=folder))
    return set(made.stdout.decode().split())


def completion_offers_what_the_help_lists(it: Tried) -> None:
    if not Path("/usr/share/bash-completion/bash_completion").is_file():
        raise Skipped("bash-completion is not installed")
    whole = help_of(it.program)
    expect(set(commands(whole)) == set(OPTIONS), commands(whole))
    expect(completions(it, "") == {*OPTIONS, "help"} == completions(it, "help", "") | {"help"}, completions(it, ""))
    expect(completions(it, "--") == {"--help", "--version"}, completions(it, "--"))
    for name, options in OPTIONS.items():
        listed = set(re.findall(r"--[\w-]+", "\n".join(help_of(it.program, name).entries["Options"])))
        expect(completions(it, name, "--") == options == listed, (name, completions(it, name, "--")))
        expect(completions(it, name, "--scale", "") == SCALES, (name, completions(it, name, "--scale", "")))
    listed = set(re.findall(r"^  ([a-z_]+)(?:  |$)", well(ran(it.program, "join", "--help")).stdout.decode(), re.M))
    for name in ("join", "draw"):
        expect(completions(it, name, "--relation", "") == RELATIONS == listed - {"disjoint"}, name)
    expect(completions(it, "join", "par") == {"parcels.csv"}, completions(it, "join", "par"))
    expect(completions(it, "join", "--edits", "road") == {"roads.csv"}, completions(it, "join", "--edits", "road"))
    expect(completions(it, "join", "--workers", "") == {"auto"}, completions(it, "join", "--workers", ""))
    expect(completions(it, "join", "--batch", "") == set(), completions(it, "join", "--batch", ""))


def proved_names_program_toolchain_and_commit(it: Tried) -> None:
    text = it.page("PROVED")
    total = hashlib.sha256((it.prefix / "libexec/rjoin/rjoin").read_bytes()).hexdigest()
    expect(total == hashlib.sha256(it.program.read_bytes()).hexdigest(), "the packaged program differs")
    for fact in (total, output_of("rt", "version"), output_of("git", "rev-parse", "HEAD"), CRATE.name):
        expect(fact in text, fact)


def pages_are_there(it: Tried) -> None:
    for name in ("README.md", "CHANGELOG.md", "docs/FAULTS.md", "data/town/parcels.csv"):
        expect(it.page(name) == (ROOT / name).read_text(encoding="utf-8"), name)
    log = gzip.decompress((it.prefix / DOCS / "changelog.gz").read_bytes()).decode()
    expect(log.startswith("rjoin ({})".format(output_of(it.program, "--version").split()[1])), log)


def copyright_names_the_libraries(it: Tried) -> None:
    kit = Path(output_of("rt", "doc")).parent
    lines = (ROOT / "crates.txt").read_text(encoding="utf-8").splitlines()
    used = {name for line in lines for name in line.partition(":")[2].split() if not (ROOT / "crates" / name).is_dir()}
    licensed = {name for name in used if list((kit / "rattle" / name).glob("LICENSE*"))}
    text = it.page("copyright")
    expect(bool(licensed), f"no licence of a library was found under {kit}")
    expect(not [name for name in licensed if f"({name})" not in text], licensed)
    expect(words_of((ROOT / "LICENSE").read_text(encoding="utf-8").split("\n\n", 2)[2]) in
           words_of(text.replace("\n .\n", "\n")), "the licence differs from LICENSE")


def scripts_pass_shellcheck(it: Tried) -> None:
    need("shellcheck")
    well(ran("shellcheck", "-x", it.launcher, ROOT / "packaging/launch.sh", ROOT / "rjoin", folder=ROOT))
    well(ran("shellcheck", "--shell=bash", ROOT / "packaging/completion.bash"))


OFFLINE: tuple[Check, ...] = (
    version_is_that_of_the_changelog, second_build_has_the_same_bytes, a_program_without_proof_is_refused,
    lintian_finds_no_error, the_library_is_named_as_a_dependency, packages_depend_on_one_another,
    packages_hold_what_their_pages_show, packages_hold_the_scripts_that_their_pages_name,
    packages_hold_what_hosts_look_for, package_joins,
    tarball_joins_from_any_folder, tarball_has_the_files_of_the_package, version_tells_the_commit,
    launcher_passes_words_and_tunables, launcher_keeps_input_faults_and_status, manual_has_all_of_the_help,
    completion_offers_what_the_help_lists, proved_names_program_toolchain_and_commit, pages_are_there,
    copyright_names_the_libraries, scripts_pass_shellcheck,
    *checkout.CHECKS,
)


def tried(program: Path, options: list[str], room: Path) -> Tried:
    """Builds what is to be checked."""
    (tarball,) = build("tarball", room / "built", options)
    if not shutil.which("dpkg-shlibdeps"):
        return Tried(program, {}, tarball, options, unpacked(tarball, room / "tarball"), room)
    packages = {path.name.partition("_")[0]: path for path in build("deb", room / "built", options)}
    expect(set(packages) == {it.name for it in PACKAGES} == set(PAPERS), packages)
    well(ran("dpkg-deb", "--extract", packages["rjoin"], room / "deb"))
    return Tried(program, packages, tarball, options, room / "deb/usr", room)


def title(check: Check) -> str:
    return check.__name__.replace("_", " ")


def outcome(check: Check, it: Tried) -> str:
    """Runs a check, and says on a line how it ended: passed, skipped or FAILED."""
    how, why = "passed", ""
    try:
        check(it)
    except Skipped as skipped:
        how, why = "skipped", f": {skipped}"
    except Exception as error:  # a check that stops for any cause has failed
        how, why = "FAILED", f": {type(error).__name__}: {error}"
    print(f"{how}  {title(check)}{why}", flush=True)
    return how


def main() -> int:
    parser = ArgumentParser(description=__doc__)
    parser.add_argument("--offline", action="store_true", help="leave out what needs the network")
    parser.add_argument("--program", type=Path, default=PROGRAM, help="the proved program [default: %(default)s]")
    parser.add_argument("--by-ci", action="store_true", help="rt ci has just proved and built it, and left no stamp")
    parser.add_argument("checks", nargs="*", metavar="CHECK", help="parts of the names of the checks to run")
    given = parser.parse_args()
    chosen = [check for check in (*OFFLINE, *(() if given.offline else fresh.CHECKS))
              if not given.checks or any(word in title(check) for word in given.checks)]
    os.umask(0o022)
    with TemporaryDirectory(prefix="rjoin-packages-") as folder:
        room, program = Path(folder), given.program.resolve()
        options = ["--program", str(program), *["--by-ci"] * given.by_ci]
        try:
            it = tried(program, options, room)
        except AssertionError as error:
            print(f"{error}\npackaging: 0 passed, 1 failed, 0 skipped")
            return 1
        with ThreadPoolExecutor(AT_ONCE) as pool:
            ended = [outcome(check, it) for check in chosen if check in OFFLINE]
            ended += pool.map(lambda check: outcome(check, it), (check for check in chosen if check not in OFFLINE))
    passed, failed, skipped = (ended.count(how) for how in ("passed", "FAILED", "skipped"))
    print(f"packaging: {passed} passed, {failed} failed, {skipped} skipped")
    return int(failed > 0)


if __name__ == "__main__":
    sys.exit(main())
