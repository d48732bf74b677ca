"""What tests of the package share: the program, and the town's layers as frames."""
from __future__ import annotations

import os
import shutil
import warnings
from typing import Any, Dict, Iterator

import pytest
from town import NAMES, TOP, rows_of

from rjoin import found
from rjoin.program import told

BUILT = TOP / "crates/rjoin/out/rjoin"


@pytest.fixture(autouse=True, scope="session")
def program() -> None:
    """The program: RJOIN, or what was built here, or the PATH's."""
    if "RJOIN" not in os.environ and BUILT.exists():
        os.environ["RJOIN"] = str(BUILT)
    if not shutil.which(os.environ.get("RJOIN", "rjoin")):
        pytest.skip("the program rjoin is not built")
    os.environ["RJOIN"] = os.path.abspath(found.find())
    told.add(os.environ["RJOIN"])  # what was checked out after it was built may be the same


@pytest.fixture()
def real() -> str:
    """The path of the program."""
    return os.environ["RJOIN"]


@pytest.fixture(autouse=True)
def quiet() -> Iterator[None]:
    """Without the warnings of GeoPandas and Shapely about their own future."""
    with warnings.catch_warnings():
        warnings.simplefilter("ignore", DeprecationWarning)
        warnings.simplefilter("ignore", FutureWarning)
        yield


@pytest.fixture(scope="session")
def town() -> Dict[str, Any]:
    """The town's layers, read without the package; the index is a number, and `id` a column."""
    geopandas = pytest.importorskip("geopandas")
    return {name: geopandas.GeoDataFrame(
        {"id": ids}, geometry=geopandas.GeoSeries.from_wkt(texts), crs="EPSG:25832")
        for name in NAMES for ids, texts in [rows_of(name)]}
