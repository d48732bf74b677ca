"""The program that the tests of every host run."""
from __future__ import annotations

import os
import shutil
import sys
from pathlib import Path

import pytest

from town import ROOT

sys.path.insert(0, str(ROOT / "integrations/postgis"))
import found  # noqa: E402


@pytest.fixture(scope="session")
def program(tmp_path_factory: pytest.TempPathFactory) -> Path:
    """The program as hosts find it.

    What was checked out after it was built may be the same: so it isn't told here as stale.
    """
    try:
        path = found.find()
    except found.NoProgram as fault:
        pytest.skip(str(fault))
    if found.staleness(path):
        path = shutil.copy(path, tmp_path_factory.mktemp("program"))
    os.environ["RJOIN"] = os.path.abspath(path)
    return Path(path)
