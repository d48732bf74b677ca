"""A join of two layers of any size on a dask cluster, from the files to the report."""
from __future__ import annotations

import sys
import tempfile
import time
import uuid
from contextlib import ExitStack, contextmanager
from importlib.util import find_spec
from typing import Any, ContextManager, Iterator, Optional

from rjoin_cluster.cluster import connected
from rjoin_cluster.commands import EDITS, JOIN
from rjoin_cluster.conditions import reach_of
from rjoin_cluster.edits import EditFile, read_edits
from rjoin_cluster.engine import Engine
from rjoin_cluster.faults import JoinFault, ProgramFault, Unfit
from rjoin_cluster.inputs import find_inputs, paths_that_open
from rjoin_cluster.layer_steps import LayerSteps
from rjoin_cluster.layout import save_bytes
from rjoin_cluster.needs import TOKEN, Needs, check
from rjoin_cluster.outputs import Outputs, new_report, new_report_folder, new_reports
from rjoin_cluster.progress import Progress
from rjoin_cluster.remote import is_url, opened_url
from rjoin_cluster.request import Request
from rjoin_cluster.sides import Side
from rjoin_cluster.sources import save_inputs
from rjoin_cluster.steps import Steps
from rjoin_cluster.store import Store, kept_store, new_store
from rjoin_cluster.workers import Workers


def join(request: Request, progress: Progress) -> dict[str, Any]:
    """Writes the report, and answers the figures of the join."""
    started = time.perf_counter()
    if request.place.dashboard and find_spec("bokeh") is None:
        raise JoinFault("--dashboard: the Python module bokeh, which draws it, is not installed")
    check_condition(request)
    if request.skip is not None:
        request.program.check_has(JOIN, "--skip")
    if request.edits is not None:
        request.program.check_has(JOIN, EDITS)
    reach = reach_of(request.condition, request.program)
    inputs = find_inputs(request.layers, *edits_path(request))
    edits = edits_of(request)
    files = [file for files in inputs.values() for file in files]
    for file in files:
        for path in (request.report, request.skip):
            if path is not None:
                file.check_not(path)
    with outputs_of(request) as outputs, store_of(request) as store:
        layout = store.layout
        save_bytes(layout.token(), [TOKEN])
        program = request.program
        needs = Needs(layout, program, program.version(), save_inputs(layout, files))
        if request.place.scheduler is None:
            check_here(needs)
        with connected(request.place, layout) as watch:
            if request.place.dashboard:
                progress.tell(f"dashboard: {watch.client.dashboard_link}")
            token = uuid.uuid4().hex  # tasks of an earlier join in this folder may still go on
            workers = Workers(watch, needs, token)
            workers.wait()
            engine = Engine(token, progress, workers)
            kind = LayerSteps if Side.ONLY in inputs else Steps
            steps = kind(request, reach, inputs, store, engine, edits)
            figures = steps.report_into(outputs)
            figures["workers"] = workers.count
        for file in files:
            file.check_unchanged()
    figures["seconds"]["all"] = round(time.perf_counter() - started, 3)
    return figures


def check_condition(request: Request) -> None:
    """Ends the join where the program doesn't take its words. A window that can't be read is told
    behind a layer that can't be opened.
    """
    try:
        request.condition.check(request.program)
    except ProgramFault as fault:
        if fault.status == 1:
            paths_that_open(request.layers)
        raise


def edits_path(request: Request) -> list[tuple[str, str]]:
    """The file of edits with its word for faults, if there is one that has a path."""
    return [] if request.edits in (None, "-") else [("edits", str(request.edits))]


def edits_of(request: Request) -> Optional[EditFile]:
    """The edits, which the command reads; so they may also come from standard input."""
    if request.edits is None:
        return None
    if request.edits == "-":
        return read_edits(sys.stdin.buffer, request.program)
    if is_url(request.edits):
        with opened_url(request.edits) as remote:
            return read_edits(remote, request.program)
    try:
        with open(request.edits, "rb") as file:
            return read_edits(file, request.program)
    except IsADirectoryError:
        return EditFile(b"", [], ProgramFault("rjoin: edits: read failed"))


def store_of(request: Request) -> ContextManager[Store]:
    """The folder that all workers share."""
    return new_store(request.folder) if request.resume is None else kept_store(request.resume)


@contextmanager
def outputs_of(request: Request) -> Iterator[Outputs]:
    """What appears where the join succeeds: a report of one file or of many, and the list of
    skipped rows, which gets its name first.
    """
    beside = tempfile.gettempdir() if is_url(request.folder) else request.folder
    if not request.has_files:
        written = [path for path in (request.report, request.skip) if path is not None]
        with new_reports(*written, beside=beside) as (report, *skipped):
            yield Outputs(report, None, skipped[0] if skipped else None)
        return
    with ExitStack() as stack:
        folder = stack.enter_context(new_report_folder(request.report, beside))
        skip = request.skip and stack.enter_context(new_report(request.skip, beside))
        yield Outputs(None, folder, skip or None)


def check_here(needs: Needs) -> None:
    """Ends the join where this process, whose threads are the workers, lacks what it needs."""
    try:
        check(needs)
    except Unfit as lack:
        raise JoinFault(str(lack)) from lack
