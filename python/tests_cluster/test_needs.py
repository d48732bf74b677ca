"""What a worker needs before a join: the shared folder, the program, the files, and the user."""
from __future__ import annotations

import os
import shutil
from dataclasses import replace
from pathlib import Path
from typing import Callable

import pytest
from conftest import Tools, write_layer

from rjoin_cluster.faults import Unfit
from rjoin_cluster.inputs import find_inputs
from rjoin_cluster.layout import Layout, save_bytes
from rjoin_cluster.needs import TOKEN, Needs, checked, lack_of
from rjoin_cluster.program import Program
from rjoin_cluster.reading import Reading
from rjoin_cluster.sides import Side
from rjoin_cluster.sources import save_inputs


def test_what_a_worker_lacks(tools: Tools, monkeypatch: pytest.MonkeyPatch) -> None:
    layout, program = Layout(str(tools.folder)), Program(tools.program, Reading())
    layer = write_layer(tools.folder / "layer.csv", [("a", "POINT (1 1)")])
    other = write_layer(tools.folder / "other.csv", [("b", "POINT (2 2)")])
    files = find_inputs({Side.LEFT: str(layer), Side.RIGHT: str(other)})
    save_inputs(layout, [*files[Side.LEFT], *files[Side.RIGHT]])
    needs = Needs(layout, program, program.version())
    assert "No such file" in lack_of(needs)
    Path(layout.token()).write_bytes(b"of others")
    assert lack_of(needs) == f"{tools.folder} is not the folder of the join"
    Path(layout.token()).write_bytes(TOKEN)
    assert lack_of(needs) == ""
    assert list(tools.folder.glob("check-*")) == []
    assert lack_of(replace(needs, version="rjoin 0")).endswith("and not rjoin 0")
    assert "No such file" in lack_of(replace(needs, program=Program("/nowhere/rjoin", Reading())))
    shutil.copy2(layer, tools.folder / "copy")
    os.replace(tools.folder / "copy", layer)
    assert lack_of(needs) == ""
    os.utime(other)
    assert lack_of(needs) == f"{other} is another file"
    os.utime(layer)
    assert lack_of(needs) == f"{layer} is another file"
    monkeypatch.setattr("tempfile.tempdir", "/nowhere")
    lack = "temporary files cannot be written: /nowhere: No such file or directory"
    save_inputs(layout, [])
    assert lack_of(needs) == lack


def test_a_task_of_a_process_that_was_not_checked(tools: Tools) -> None:
    """Another one may have taken over the address of a worker that was."""
    layout, program = Layout(str(tools.folder)), Program(tools.program, Reading())
    needs, done = Needs(layout, program, program.version()), list[int]()
    save_inputs(layout, [])
    with pytest.raises(Unfit, match="No such file"):
        checked(needs, done.append, 1)
    assert done == []
    Path(layout.token()).write_bytes(TOKEN)
    checked(needs, done.append, 2)
    Path(layout.token()).unlink()  # which is looked at once
    checked(needs, done.append, 3)
    assert done == [2, 3]


@pytest.mark.skipif(os.geteuid() != 0, reason="one has to be root to be another user")
@pytest.mark.parametrize("mode, path", [(0o700, "token"), (0o755, "check-")])
def test_a_worker_of_another_user(tools: Tools, mode: int, path: str) -> None:
    """It can't read what is in the folder, or else it can't write into it."""
    for folder in [tools.folder, *tools.folder.parents]:
        folder.chmod(folder.stat().st_mode | 0o055)
    layout, program = Layout(str(tools.folder / "shared")), Program(tools.program, Reading())
    Path(layout.folder).mkdir(mode)
    save_bytes(layout.token(), [TOKEN])
    Path(layout.token()).chmod(0o644)
    lack = as_another_user(lambda: lack_of(Needs(layout, program, "rjoin")))
    assert lack.startswith(f"[Errno 13] Permission denied: '{layout.folder}/{path}")
    assert lack.endswith("; a worker has to be of the user of the join, and this one is user 65534")


def as_another_user(call: Callable[[], str]) -> str:
    """What a call answers in a process of another user."""
    reader, writer = os.pipe()
    process = os.fork()
    if process == 0:
        os.setuid(65534)
        os.write(writer, call().encode())
        os._exit(0)
    os.close(writer)
    with open(reader, encoding="utf8") as pipe:
        answer = pipe.read()
    os.waitpid(process, 0)
    return answer
