"""Layers that are changed during a join, also where their size and time stay the same."""
from __future__ import annotations

import os
import shutil
from pathlib import Path
from typing import Callable

import pytest
from conftest import Tools, told, write_layer

from rjoin_cluster.blocks import Extent
from rjoin_cluster.faults import JoinFault
from rjoin_cluster.inputs import Input, find_inputs
from rjoin_cluster.sides import Side

CHANGED = "left: the file was changed during the join"
ROWS = [("a", "POINT (1 1)"), ("b", "POINT (2 2)")]


@pytest.fixture
def layer(tmp_path: Path) -> Path:
    return write_layer(tmp_path / "layer.csv", ROWS)


def found(layer: Path) -> Input:
    return find_inputs({Side.LEFT: str(layer)})[Side.LEFT][0]


def rewrite(layer: Path) -> None:
    """Other bytes of the same number, and the time is set back."""
    before = layer.stat()
    write_layer(layer, ROWS[::-1])
    os.utime(layer, ns=(before.st_atime_ns, before.st_mtime_ns))


def replace(layer: Path) -> None:
    """By another file of the same size and time."""
    shutil.copy2(layer, layer.with_name("copy"))
    os.replace(layer.with_name("copy"), layer)


@pytest.mark.parametrize("change", [rewrite, replace, os.unlink, os.utime])
def test_a_change_is_found_in_the_end(layer: Path, change: Callable[[Path], object]) -> None:
    file = found(layer)
    file.check_unchanged()
    change(layer)
    with pytest.raises(JoinFault, match=CHANGED):
        file.check_unchanged()


def test_a_change_is_found_where_the_file_is_read(layer: Path) -> None:
    """A copy of the same size and time is the same file to a worker on another machine."""
    file = found(layer)
    replace(layer)
    with file.opened() as copy:
        assert copy.read() == layer.read_bytes()
    os.utime(layer)
    with pytest.raises(JoinFault, match=CHANGED), file.opened():
        pass


def test_bytes_that_have_gone_are_a_change(layer: Path) -> None:
    """As where the file gets shorter once it is open."""
    file = found(layer)
    whole = Extent(file, 0, 0, file.bytes)
    assert whole.read().tobytes() == layer.read_bytes()
    with pytest.raises(JoinFault, match=CHANGED):
        Extent(file, 0, 0, file.bytes + 1).read()


PROGRAM = """#!/bin/sh
if [ "$1" = join ]; then cp -p {layer} {layer}.$$ && mv {layer}.$$ {layer}; fi
exec {program} "$@"
"""


@pytest.mark.parametrize("side", ["left", "right"])
def test_a_layer_that_is_replaced_while_it_is_joined(
    tools_here: Tools, layer: Path, side: str, capfd: pytest.CaptureFixture[str]
) -> None:
    from rjoin_cluster.command import main

    program, other = layer.with_name("rjoin"), write_layer(layer.with_name("other.csv"), ROWS)
    program.write_text(PROGRAM.format(layer=layer, program=tools_here.program))
    program.chmod(0o755)
    both = (layer, other) if side == "left" else (other, layer)
    words = tools_here.command(*both, "within", "--program", str(program))
    line = f"rjoin-cluster: {side}: the file was changed during the join\n"
    assert (main(words), told(capfd.readouterr().err)) == (1, line)
    assert not tools_here.report().exists()
