"""The client of a scheduler."""
from __future__ import annotations

import os
import signal
import time
from pathlib import Path

import pytest
from conftest import own_processes

from rjoin_cluster.cluster import remote_client
from rjoin_cluster.faults import JoinFault
from rjoin_cluster.request import Place
from rjoin_cluster.watch import Watch


def test_a_scheduler_that_has_stopped_is_not_waited_for_in_the_end(tmp_path: Path) -> None:
    """Neither when the client is closed nor when it is freed, where dask waits again."""
    with own_processes(tmp_path) as (address, number):
        clients = remote_client(Place(address, 1, patience=60.0))
        client = clients.__enter__()
        os.kill(number, signal.SIGSTOP)
        with pytest.raises(JoinFault, match="the scheduler has not answered for 2 seconds"):
            Watch(client, 2.0).look()
        started = time.monotonic()
        clients.__exit__(None, None, None)
        client.__del__()
        assert time.monotonic() - started < 40
