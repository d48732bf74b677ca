#!/usr/bin/env python3
"""Runs GeoPandas' own tests of sjoin and sjoin_nearest with the calls of rjoin in their place.

    check/geopandas_tests.py [WORDS FOR PYTEST]
    check/geopandas_tests.py --debian-13    as root, the same and the package's tests in a new Debian 13

The tests are those of the GeoPandas that is installed: Debian's package has them. The calls are given decimals="auto",
since coordinates are floats, and missing="keep". Each test has to pass but for those of OTHERWISE, which have to fail;
docs/PYTHON.md says why. The program is RJOIN's, or the one that the repository has built. The last line counts, and the
status is 1 where a test ends otherwise.
"""
import functools
import os
import subprocess
import sys
import tempfile
import warnings
from pathlib import Path
from typing import Any

ROOT = Path(__file__).resolve().parents[1]
PROGRAM = os.environ.get("RJOIN", str(ROOT / "crates/rjoin/out/rjoin"))
# Tests by the beginnings of their names, and why they fail.
OTHERWISE: dict[str, str] = {}
# What GeoPandas itself doesn't pass, and that it has no sjoin_nearest with Shapely 1.8.
NO_TESTS = ("test_no_nearest_all", "test_no_overlapping_geometry", "test_sjoin_outer")
GIVEN = {"decimals": "auto", "missing": "keep"}
# Debian 13 has GeoPandas 1 and Shapely 2.
PACKAGES = "python3-geopandas,python3-pyogrio,python3-pytest"
NAMESPACES = ("unshare", "--mount", "--pid", "--fork", "--kill-child")
INSIDE = """
set -e
mount -t proc proc "$0/proc"
mount --rbind /dev "$0/dev"
mkdir "$0/checkout"
mount --bind "$1" "$0/checkout"
# not on the PATH: tests of a missing program would find it there
cp "$2" "$0/checked-rjoin"
exec chroot "$0" env -i PATH=/usr/bin:/bin LANG=C.UTF-8 RJOIN=/checked-rjoin PYTHONPATH=/checkout/python/src \
    PYTHONDONTWRITEBYTECODE=1 sh -c 'python3 /checkout/check/geopandas_tests.py &&
    python3 -m pytest -q -p no:cacheprovider -c /checkout/python/pyproject.toml /checkout/python/tests'
"""


class Ours:
    """A plugin of pytest that runs each test, also of what GeoPandas hasn't with Shapely 1.8, and counts."""

    def __init__(self) -> None:
        self.counts = {"passed": 0, "failed": 0, "skipped": 0, "otherwise": 0}

    def pytest_collection_modifyitems(self, items: list[Any]) -> None:
        import pytest

        items[:] = [item for item in items if item.originalname not in NO_TESTS]
        for item in items:
            for node in item.listchain():
                node.own_markers = [mark for mark in node.own_markers if mark.name != "skipif"]
            reason = next((why for name, why in OTHERWISE.items() if item.name.startswith(name)), None)
            if reason:
                item.add_marker(pytest.mark.xfail(reason=reason, strict=True))

    def pytest_runtest_logreport(self, report: Any) -> None:
        if report.when == "call" or report.outcome != "passed":
            is_known = report.outcome == "skipped" and hasattr(report, "wasxfail")
            self.counts["otherwise" if is_known else report.outcome] += 1


def run(words: list[str]) -> int:
    """Runs the tests with the calls of rjoin."""
    import geopandas
    import pytest
    from geopandas.tools import tests

    import rjoin

    for name in ("sjoin", "sjoin_nearest"):
        setattr(geopandas, name, functools.partial(getattr(rjoin, name), **GIVEN))
    ours, path = Ours(), Path(tests.__file__).with_name("test_sjoin.py")
    words = ["-q", "-rfEX", "--no-header", "--tb=short", "-p", "no:cacheprovider",
             f"--confcutdir={path.parents[2]}", str(path), *words]
    os.environ["RJOIN"] = PROGRAM
    with warnings.catch_warnings():
        warnings.simplefilter("ignore", rjoin.ImproperRingsWarning)
        warnings.simplefilter("ignore", rjoin.StaleProgramWarning)
        status = pytest.main(words, plugins=[ours])
    counts = ours.counts
    print(f"GeoPandas {geopandas.__version__}: {counts['otherwise']} end otherwise, as docs/PYTHON.md says")
    print(f"geopandas: {counts['passed']} passed, {counts['failed']} failed, {counts['skipped']} skipped")
    return int(status)


def on_debian_13() -> int:
    """Runs this script and the package's tests in a new system."""
    with tempfile.TemporaryDirectory() as folder:
        system = Path(folder, "system")
        subprocess.run(["mmdebstrap", "--variant=apt", f"--include={PACKAGES}", "trixie", system], check=True)
        return subprocess.run([*NAMESPACES, "sh", "-c", INSIDE, system, ROOT, PROGRAM], check=False).returncode


if __name__ == "__main__":
    sys.exit(on_debian_13() if "--debian-13" in sys.argv else run(sys.argv[1:]))
