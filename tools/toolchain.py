"""The toolchain's own code, for what its command `rt` has no words for."""
import importlib.machinery
import importlib.util
import subprocess
import sys
from functools import cache
from pathlib import Path
from types import ModuleType


@cache
def toolchain() -> ModuleType:
    """The library of the toolchain's command `rt`, as `rt` itself uses it: for the sum of a crate's files `rt` has each
    crate below read once; the library alone reads one once for each way that leads there."""
    sys.dont_write_bytecode = True
    page = subprocess.run(["rt", "doc"], capture_output=True, text=True, check=True).stdout.strip()
    loader = importlib.machinery.SourceFileLoader("rt", f"{Path(page).parent}/bin/rt")
    spec = importlib.util.spec_from_loader("rt", loader)
    assert spec
    command = importlib.util.module_from_spec(spec)
    loader.exec_module(command)
    library = command.rtlib
    assert isinstance(library, ModuleType)
    return library
