"""How the program is found, how its faults are told, and what is loaded when."""
from __future__ import annotations

import csv
import os
import pickle
import signal
import subprocess
import sys
import time
import warnings
from pathlib import Path
from typing import Any, Callable, Dict, Iterator, List

import pytest
from town import TOP, TOWN

import rjoin
from rjoin import found, program, signals

HEAVY = ("numpy", "pandas", "geopandas", "shapely", "fiona")


def test_the_import_loads_nothing_heavy() -> None:
    asked = f"import rjoin, sys; print([name for name in {HEAVY} if name in sys.modules])"
    answer = subprocess.run([sys.executable, "-c", asked], capture_output=True, text=True,
                            check=True)
    assert answer.stdout.strip() == "[]"


@pytest.fixture()
def alone(monkeypatch: Any, tmp_path: Path) -> Path:
    """A package outside any checkout, with no RJOIN and one folder on the PATH."""
    monkeypatch.setattr(found, "own_checkout", lambda: None)
    monkeypatch.delenv("RJOIN")
    monkeypatch.setenv("PATH", f"{tmp_path}:/usr/bin:/bin")
    return tmp_path


def script(path: Path, text: str) -> Path:
    """A program that tells the version of the real one, and does else what the text says."""
    path.write_text(f"#!/bin/sh\n[ $1 = --version ] && echo rjoin {rjoin.__version__} && exit\n"
                    f"{text}\n")
    path.chmod(0o755)
    return path


def test_a_missing_program_says_what_to_do(monkeypatch: Any, alone: Path) -> None:
    with pytest.raises(rjoin.RjoinError, match="set RJOIN"):
        rjoin.relate("POINT (0 0)", "POINT (0 0)")
    monkeypatch.setenv("RJOIN", str(alone / "none"))
    with pytest.raises(rjoin.RjoinError, match="RJOIN is .*none"):
        rjoin.relate("POINT (0 0)", "POINT (0 0)")


def test_the_path_is_searched_and_rjoin_goes_first(monkeypatch: Any, real: str,
                                                   alone: Path) -> None:
    script(alone / "rjoin", f'exec "{real}" "$@"')
    assert rjoin.relate("POINT (0 0)", "POINT (0 0)") == "0FFFFFFF2"
    monkeypatch.setenv("RJOIN", str(script(alone / "other", "echo TTTTTTTTT; echo 212101212")))
    with pytest.raises(rjoin.RjoinError, match="other wrote no answer"):
        rjoin.relate("POINT (0 0)", "POINT (0 0)")


@pytest.mark.parametrize("by", ("RJOIN", "PATH", "place"))
def test_of_a_checkout_the_built_program_is_taken_and_a_stale_one_is_told(
        monkeypatch: Any, real: str, alone: Path, by: str) -> None:
    """Never its launcher, which would prove what has changed."""
    top = alone / "checkout"
    (top / "crates/rjoin/src").mkdir(parents=True)
    (top / "crates.txt").touch()
    source = top / "crates/rjoin/src/main.rt"
    source.touch()
    launcher = script(top / "rjoin", f"touch {top}/proved; exit 1")
    if by == "RJOIN":
        monkeypatch.setenv("RJOIN", str(launcher))
    elif by == "PATH":
        (alone / "rjoin").symlink_to(launcher)
    else:
        monkeypatch.setattr(found, "own_checkout", lambda: top)
    with pytest.raises(rjoin.RjoinError, match="checkout/rjoin --version builds it"):
        rjoin.relate("POINT (0 0)", "POINT (0 0)")
    (top / "crates/rjoin/out").mkdir()
    built = script(top / "crates/rjoin/out/rjoin", f'exec "{real}" "$@"')
    with warnings.catch_warnings():
        warnings.simplefilter("error", rjoin.StaleProgramWarning)
        assert rjoin.relate("POINT (0 0)", "POINT (0 0)") == "0FFFFFFF2"
    program.told.clear()
    os.utime(source, ns=(0, built.stat().st_mtime_ns + 1))
    with pytest.warns(rjoin.StaleProgramWarning, match="older than its sources"):
        assert rjoin.relate("POINT (0 0)", "POINT (0 0)") == "0FFFFFFF2"
    (top / "out").mkdir()
    script(top / "out/built", "")  # the mark of the launcher that nothing had to be built
    assert found.staleness(str(built)) is None
    assert not (top / "proved").exists()


def test_an_installed_program_is_never_stale() -> None:
    """Its path has fewer folders than that of one which a checkout has built."""
    assert found.staleness("/usr/bin/rjoin") is None


def test_a_hint_stays_with_its_fault() -> None:
    text = "a warning\nrjoin: no\ndid you mean b?\n"
    assert program.fault_line(text) == "rjoin: no; did you mean b?"


def test_the_reason_of_a_fault_has_no_word_of_options() -> None:
    """The package itself reads a layer as any geometry where it is none of boxes."""
    text = "rjoin: left: row 3: not a geometry text\n--geometry any reads this row\n"
    fault = program.error_of("rjoin", 1, text)
    assert isinstance(fault, program.InputFault)
    assert (fault.row, fault.reason) == (3, "not a geometry text")


def test_the_version_is_that_of_the_program_and_is_asked_once(monkeypatch: Any, real: str,
                                                              tmp_path: Path) -> None:
    told = subprocess.run([real, "--version"], capture_output=True, text=True, check=True).stdout
    assert told.split()[:2] == ["rjoin", rjoin.__version__]
    project = (TOP / "python/pyproject.toml").read_text()
    assert f'\nversion = "{rjoin.__version__}"\n' in project
    counting = tmp_path / "rjoin"
    counting.write_text(f'#!/bin/sh\necho "$1" >>{tmp_path}/calls\nexec "{real}" "$@"\n')
    counting.chmod(0o755)
    monkeypatch.setenv("RJOIN", str(counting))
    for _ in range(3):
        rjoin.relate("POINT (0 0)", "POINT (0 0)")
    assert (tmp_path / "calls").read_text().split() == ["--version", *["relate"] * 3]


def test_a_program_that_was_exchanged_is_asked_again(monkeypatch: Any, real: str,
                                                     tmp_path: Path) -> None:
    path = script(tmp_path / "rjoin", f'exec "{real}" "$@"')
    monkeypatch.setenv("RJOIN", str(path))
    assert rjoin.relate("POINT (0 0)", "POINT (0 0)") == "0FFFFFFF2"
    before = path.stat().st_mtime_ns
    path.write_text("#!/bin/sh\necho rjoin 0.1.0\n")
    os.utime(path, ns=(before, before + 1))
    with pytest.raises(rjoin.RjoinError, match="is rjoin 0.1.0, and rjoin 0.2 is needed"):
        rjoin.relate("POINT (0 0)", "POINT (0 0)")


def joined() -> Any:
    """The call that needs frames."""
    geopandas = pytest.importorskip("geopandas")
    frame = geopandas.GeoDataFrame(geometry=geopandas.GeoSeries.from_wkt(["POINT (0 0)"]))
    return rjoin.sjoin(frame, frame)


CALLS: Dict[str, Callable[[], Any]] = {
    "sjoin": joined,
    "pairs": lambda: rjoin.pairs(["POINT (0 0)"], ["POINT (0 0)"]),
    "window": lambda: rjoin.window(["POINT (0 0)"], "POINT (0 0)"),
    "stats": lambda: rjoin.stats(["POINT (0 0)"]),
    "relate": lambda: rjoin.relate("POINT (0 0)", "POINT (0 0)"),
    "draw": lambda: rjoin.draw(["POINT (0 0)"], ["POINT (0 0)"]),
}
OTHER_PROGRAMS = {"true": "/bin/true", "echo": "/bin/echo", "old": "echo rjoin 0.1.0"}


@pytest.mark.parametrize("call", CALLS)
@pytest.mark.parametrize("text", (":", "echo", "echo left,right,distance",
                                  "echo TTTTTTTTT", "echo '<svg >'"))
def test_a_program_that_answers_nothing_is_told(monkeypatch: Any, tmp_path: Path, call: str,
                                                text: str) -> None:
    monkeypatch.setenv("RJOIN", str(script(tmp_path / "rjoin", text)))
    with pytest.raises(rjoin.RjoinError, match="wrote no answer of its kind") as caught:
        CALLS[call]()
    assert caught.type is rjoin.RjoinError


PAIR, LETTERS = "0,0", "0,0,0FFFFFFF2"


@pytest.mark.parametrize("header, good, line, matrix", (
    *(("left,right,matrix", LETTERS, line, True) for line in (
        "0,0,0FFFFFFF", "0;0,0FFFFFFF2", "x,0,0FFFFFFF2", "0,0,0FFFFFFX2", "0,0,0FFFFFFF2,",
        "0,0,0FFFFFFF2 0,0,0FFFFFFF2", "", PAIR)),
    *(("left,right", PAIR, line, False) for line in (
        "0,", "0;0", "x,0", "0,x", "0,0,", "0,0 0,0", "", "0,00", "0,0\\n0", LETTERS))))
def test_a_line_that_no_join_writes_is_told(monkeypatch: Any, tmp_path: Path, header: str,
                                            good: str, line: str, matrix: bool) -> None:
    geopandas = pytest.importorskip("geopandas")
    frame = geopandas.GeoDataFrame(geometry=geopandas.GeoSeries.from_wkt(["POINT (0 0)"]))

    def answered(text: str) -> int:
        path = script(tmp_path / "rjoin", f"printf '{text}'")
        monkeypatch.setenv("RJOIN", str(path))
        return len(rjoin.sjoin(frame, frame, matrix=matrix))
    assert answered(f"{header}\\n{good}\\n") == 1
    for text in (f"{header}\\n{line}\\n", f"{header}\\n{good}"):
        with pytest.raises(rjoin.RjoinError, match="wrote no answer of its kind"):
            answered(text)


@pytest.mark.parametrize("matrix", (False, True))
def test_a_report_of_the_other_kind_is_told(monkeypatch: Any, tmp_path: Path,
                                            matrix: bool) -> None:
    geopandas = pytest.importorskip("geopandas")
    frame = geopandas.GeoDataFrame(geometry=geopandas.GeoSeries.from_wkt(["POINT (0 0)"]))
    other = f"left,right\\n{PAIR}" if matrix else f"left,right,matrix\\n{LETTERS}"
    monkeypatch.setenv("RJOIN", str(script(tmp_path / "rjoin", f"printf '{other}\\n'")))
    with pytest.raises(rjoin.RjoinError, match="wrote no answer of its kind"):
        rjoin.sjoin(frame, frame, matrix=matrix)


@pytest.mark.parametrize("call", CALLS)
@pytest.mark.parametrize("name", OTHER_PROGRAMS)
def test_another_program_is_told(monkeypatch: Any, tmp_path: Path, call: str, name: str) -> None:
    other = Path(OTHER_PROGRAMS[name])
    if name == "old":
        other = tmp_path / "rjoin"
        other.write_text(f"#!/bin/sh\n{OTHER_PROGRAMS[name]}\n")
        other.chmod(0o755)
    monkeypatch.setenv("RJOIN", str(other))
    with pytest.raises(rjoin.RjoinError, match="not the program|rjoin 0.2 is needed") as caught:
        CALLS[call]()
    assert caught.type is rjoin.RjoinError


@pytest.mark.parametrize("text, error, told", (
    ("echo 'rjoin: no memory' >&2; exit 1", rjoin.RjoinError, "^no memory"),
    ("echo 'rjoin: left: no memory' >&2; exit 1", rjoin.RjoinError, "^left: no memory"),
    ("echo 'rjoin: left: read failed' >&2; exit 1", rjoin.InputError, "left: read failed"),
    ("kill -9 $$", rjoin.RjoinError, "signal 9"),
    ("exit 3", rjoin.RjoinError, "status 3"),
    ("echo 'rjoin: --cut must be 0 to 8' >&2; exit 2", rjoin.ArgumentError, "--cut"),
    ("echo left,right", rjoin.RjoinError, "wrote no answer"),
))
def test_other_ends_are_told(monkeypatch: Any, tmp_path: Path, text: str, error: Any,
                             told: str) -> None:
    monkeypatch.setenv("RJOIN", str(script(tmp_path / "rjoin", text)))
    with pytest.raises(error, match=told) as caught:
        rjoin.pairs(["POINT (0 0)"], ["POINT (0 0)"])
    assert caught.type is error


def test_the_environment_is_handed_on(monkeypatch: Any, real: str, tmp_path: Path) -> None:
    """All of it, beside how the program should take memory, which the caller may set."""
    monkeypatch.setenv("RJOIN", str(script(tmp_path / "rjoin",
                                           f'env >{tmp_path}/env; exec "{real}" "$@"')))
    monkeypatch.setenv("OF_THE_CALLER", "1")
    monkeypatch.delenv("GLIBC_TUNABLES", raising=False)
    for tunables in (program.tunables([]), "glibc.malloc.arena_max=7"):
        rjoin.relate("POINT (0 0)", "POINT (0 0)")
        lines = (tmp_path / "env").read_text().splitlines()
        assert "OF_THE_CALLER=1" in lines and f"GLIBC_TUNABLES={tunables}" in lines
        monkeypatch.setenv("GLIBC_TUNABLES", "glibc.malloc.arena_max=7")


def test_faults_have_side_row_and_feature(tmp_path: Path) -> None:
    pytest.importorskip("pandas")
    wrong = tmp_path / "wrong.csv"
    wrong.write_text('id,wkt\na,POINT (1 2)\n"b, c","LINESTRING (1 1, 1 1)"\n')
    with pytest.raises(rjoin.InputError) as caught:
        rjoin.pairs(TOWN / "parcels.csv", wrong)
    fault = pickle.loads(pickle.dumps(caught.value))
    assert (fault.side, fault.row, fault.feature) == ("right", 2, "b, c")
    assert str(fault) == ("right: row 2 (feature 'b, c'): a line without length, or a ring that "
                          "is not closed or is flat")
    wrong.write_text("id,wkt\na,POINT (1 2)\na,POINT (1 2)\n")
    with pytest.raises(rjoin.InputError, match="layer: row 2 .*id is already there"):
        rjoin.stats(wrong)
    with pytest.raises(rjoin.InputError, match="window: not a geometry text"):
        rjoin.window(TOWN / "parcels.csv", "POINT 1 2")
    for place in ("POINT (0.1234567890123456 2)", "LINESTRING (1 1, 1 1)"):
        with pytest.raises(rjoin.InputError, match="^window: [^(]*$") as caught:
            rjoin.window(TOWN / "parcels.csv", place)
        assert (caught.value.row, caught.value.feature) == (None, None)
    with pytest.raises(rjoin.InputError, match="first: .*decimals"):
        rjoin.relate("POINT (0.1234567890123456 2)", "POINT (0 0)")
    for words in ("--help", "-h", "--", "-"):
        with pytest.raises(rjoin.InputError, match="^window: not a geometry text"):
            rjoin.window(TOWN / "parcels.csv", words)
        with pytest.raises(rjoin.InputError, match="^first: not a geometry text"):
            rjoin.relate(words, "POINT (0 0)")


def test_ids_and_texts_of_files_are_read_as_the_program_does(tmp_path: Path) -> None:
    pytest.importorskip("pandas")
    layer = tmp_path / "layer.csv"
    ids = ["a\rb", "c\nd", 'q"q', " lead", "NA", "x,y", "1.0", "ü", "e\r\nf"]
    rows = [f'"{one.replace(chr(34), 2 * chr(34))}",POINT ({place} 0)\n'
            for place, one in enumerate(ids)]
    layer.write_bytes('"id","wkt"\n'.encode() + "".join(rows).encode())
    pairs = rjoin.pairs(layer, layer, "equals")
    assert pairs["left"].tolist() == pairs["right"].tolist() == ids
    assert rjoin.pairs(layer, layer, "equals", ids="position")["left"].tolist() == list(range(9))
    side = ", ".join(f"{place} 0" for place in range(30_000))
    layer.write_text(f'id,wkt\nlong,"POLYGON (({side}, 29999 1, 0 1, 0 0))"\n')
    assert rjoin.stats(layer).rectangles == 1
    assert csv.field_size_limit() < len(side)  # which is the caller's
    layer.write_text('id,wkt\na,"POINT (1 2)\n' + "b,POINT (1 2)\n" * 20_000)
    with pytest.raises(rjoin.InputError, match=r"row 1 \(feature 'a'\): not a geometry text"):
        rjoin.stats(layer)
    layer.write_text("id,wkt\na,POINT (1 2)\nb,POINT (1 2),c\n")
    for missing in ("error", "skip"):
        with pytest.raises(rjoin.InputError, match="layer: row 2 .*wrong fields"):
            rjoin.stats(layer, missing=missing)
    layer.write_text("id,wkt\na,POINT (1 2)\nb\0c,POINT (1 2)\n")
    with pytest.raises(rjoin.InputError, match="row 2 .*NUL"):
        rjoin.pairs(layer, layer)


def test_a_file_whose_name_has_a_colon_goes_first(tmp_path: Path) -> None:
    pytest.importorskip("pandas")
    for name, count in (("town", 1), ("town:2026", 2)):
        points = "".join(f"{place},POINT ({place} 0)\n" for place in range(count))
        (tmp_path / name).write_text(f"id,wkt\n{points}")
        assert rjoin.stats(tmp_path / name).features == count
        assert rjoin.stats(f"{tmp_path}/{name}").features == count


def test_a_text_is_a_word_of_the_command_line_up_to_the_length_of_one() -> None:
    """Linux refuses a word of 131,072 bytes, the one that ends it included."""
    pytest.importorskip("pandas")
    for size in (131_071, 131_072):
        text = "POINT" + " " * (size - len("POINT(1 2)")) + "(1 2)"
        assert rjoin.window(["POINT (1 2)", "POINT (3 4)"], text).tolist() == [0]
        if size == 131_071:
            assert rjoin.relate(text, "POINT (1 2)") == "0FFFFFFF2"
        else:
            with pytest.raises(rjoin.InputError, match="first: its text has 131072 bytes, and "
                                                       "131071 are the most"):
                rjoin.relate(text, "POINT (1 2)")


def test_a_temporary_folder_that_cannot_be_made_is_told(monkeypatch: Any, tmp_path: Path) -> None:
    pytest.importorskip("pandas")
    monkeypatch.setattr("tempfile.tempdir", str(tmp_path / "none"))
    with pytest.raises(rjoin.RjoinError, match="^temporary files: No such file"):
        rjoin.pairs(["POINT (0 0)"], ["POINT (0 0)"])


@pytest.fixture()
def small_disk(monkeypatch: Any, tmp_path: Path) -> Iterator[Path]:
    """A disk of 1 MB for temporary files, for which one has to be root."""
    disk = tmp_path / "disk"
    disk.mkdir()
    words = ["mount", "-t", "tmpfs", "-o", "size=1m", "tmpfs", str(disk)]
    if subprocess.run(words, capture_output=True, check=False).returncode != 0:
        pytest.skip("no disk can be mounted here")
    monkeypatch.setattr("tempfile.tempdir", str(disk))
    try:
        yield disk
    finally:
        subprocess.run(["umount", "-l", str(disk)], check=True)


def test_a_disk_that_is_full_is_told(small_disk: Path) -> None:
    """Where the package writes a layer, and where the program writes a report."""
    pytest.importorskip("pandas")
    for layer in (["POINT (1 1)"] * 60_000, ["POINT (1 1)"] * 400):
        with pytest.raises(rjoin.RjoinError, match="^temporary files: No space left on device$"):
            rjoin.pairs(layer, layer, "equals")
        assert not os.listdir(small_disk)


def test_nothing_is_left_in_the_temporary_folder(monkeypatch: Any, tmp_path: Path) -> None:
    pytest.importorskip("pandas")
    monkeypatch.setenv("TMPDIR", str(tmp_path))
    monkeypatch.setattr("tempfile.tempdir", None)
    rjoin.pairs(["POINT (0 0)"], ["POINT (0 0)"])
    with pytest.raises(rjoin.InputError):
        rjoin.pairs(["POINT (0 0)"], ["POINT 0 0"])
    assert not os.listdir(tmp_path)


CALLER = """
import sys
import rjoin
rjoin.pairs(["POINT (0 0)"], ["POINT (0 0)"])
"""
COMMAND = "import sys; from rjoin.command import main; sys.exit(main(sys.argv[1:]))"


@pytest.mark.parametrize("ending, status", ((signal.SIGTERM, -15), (signal.SIGHUP, -1)))
def test_a_caller_that_is_ended_leaves_nothing(monkeypatch: Any, tmp_path: Path, ending: Any,
                                               status: int) -> None:
    caller = begun(monkeypatch, tmp_path, [sys.executable, "-c", CALLER])
    caller.send_signal(ending)
    _, errors = caller.communicate(timeout=60)
    assert (caller.returncode, errors) == (status, f"rjoin: ended by {ending.name}\n")
    assert_nothing_left(tmp_path)


def test_signals_are_the_callers_before_and_behind_a_call() -> None:
    """Those that it handles, and those that it ignores; the others end as they did."""
    came: List[int] = []
    mine: Dict[int, Any] = {
        signal.SIGTERM: lambda number, _: came.append(number), signal.SIGHUP: signal.SIG_IGN,
        signal.SIGINT: signal.default_int_handler}
    before = {number: signal.signal(number, handler) for number, handler in mine.items()}
    try:
        with signals.cleanly():
            for number in (signal.SIGTERM, signal.SIGHUP):
                os.kill(os.getpid(), number)
            with pytest.raises(KeyboardInterrupt):
                os.kill(os.getpid(), signal.SIGINT)
        assert came == [signal.SIGTERM]
        assert {number: signal.getsignal(number) for number in mine} == mine
    finally:
        for one, handler in before.items():
            signal.signal(one, handler)


@pytest.mark.parametrize("ending, status, line", (
    (signal.SIGTERM, -15, "rjoin: ended by SIGTERM\n"),
    (signal.SIGINT, 130, "rjoin: interrupted\n")))
def test_a_command_that_is_ended_leaves_nothing(monkeypatch: Any, tmp_path: Path, ending: Any,
                                                status: int, line: str) -> None:
    pytest.importorskip("geopandas")
    command = begun(monkeypatch, tmp_path, [
        sys.executable, "-c", COMMAND, str(TOWN / "parcels.csv"), str(TOWN / "roads.csv"),
        "--relation", "touches", "-o", str(tmp_path / "out/pairs.csv")])
    command.send_signal(ending)
    _, errors = command.communicate(timeout=60)
    assert (command.returncode, errors) == (status, line)
    assert_nothing_left(tmp_path)


def begun(monkeypatch: Any, folder: Path, words: Any) -> "subprocess.Popen[str]":
    """A process whose program runs, without an end, and has told its number."""
    monkeypatch.setenv("RJOIN", str(script(
        folder / "rjoin", f"echo $$ >{folder}/number.new; mv {folder}/number.new {folder}/number\n"
                          "exec sleep 1000")))
    monkeypatch.setenv("PYTHONPATH", os.pathsep.join(sys.path))
    for name in ("tmp", "out"):
        (folder / name).mkdir()
    monkeypatch.setenv("TMPDIR", str(folder / "tmp"))
    process = subprocess.Popen(words, stderr=subprocess.PIPE, text=True, preexec_fn=hear_signals)
    for _ in range(3000):
        if (folder / "number").exists():
            break
        assert process.poll() is None
        time.sleep(0.02)
    assert os.listdir(folder / "tmp")
    return process


def hear_signals() -> None:
    """What runs in the background may ignore some of them, and what it starts too."""
    for ending in (signal.SIGHUP, signal.SIGINT, signal.SIGTERM):
        signal.signal(ending, signal.SIG_DFL)


def assert_nothing_left(folder: Path) -> None:
    assert os.listdir(folder / "tmp") == os.listdir(folder / "out") == []
    with pytest.raises(ProcessLookupError):
        os.kill(int((folder / "number").read_text()), 0)


def test_the_command_tells_its_version(capsys: Any) -> None:
    from rjoin.command import main

    with pytest.raises(SystemExit) as ended:
        main(["--version"])
    assert ended.value.code == 0 and capsys.readouterr().out.split()[-1] == rjoin.__version__


def test_memory_is_taken_as_the_launcher_says() -> None:
    launch = '. "$1"; shift; launch "$@"'
    print_it = ["sh", "-c", 'echo "$GLIBC_TUNABLES"']
    env = {name: value for name, value in os.environ.items() if name != "GLIBC_TUNABLES"}
    for words in (["a.csv"], ["--geometry", "any"], ["--geometry=any"], ["many.csv", "any.csv"]):
        called = ["sh", "-c", launch, "sh", str(TOP / "packaging/launch.sh"), *print_it, *words]
        taken = subprocess.run(called, env=env, stdout=subprocess.PIPE, check=True, text=True)
        assert taken.stdout == program.tunables(words) + "\n"
