#!/usr/bin/env python3
"""Tests the gate's own runner with parts that pass, fail, skip, hang, leave a server or run side by side, the list of
packages, budgets, the choice of mutants, and how tests are counted."""
import io
import os
import runpy
import signal
import subprocess
import sys
import tempfile
import time
import unittest
from contextlib import redirect_stdout
from pathlib import Path
from unittest.mock import patch

import budgets
import changes
import crates
import gate as runner
import mutants
import proofs
import tests

HERE = Path(__file__).resolve().parent
DRIVER = """
import sys
sys.path.insert(0, {folder!r})
import gate
gate.GRACE_SECONDS, gate.QUIET_SECONDS = 2, {quiet}
sys.exit(gate.gate([{parts}]))
"""


# The words behind the minutes of a part of a lane.
HEAVY, LIGHT = "1, gate.Lane.HEAVY", "1, gate.Lane.LIGHT"


def words_of(*parts: str, quiet: float = 300) -> list[str]:
    """The words that run a gate of these parts, whose lanes may print nothing for so many seconds."""
    listed = ", ".join(f"gate.Part({part})" for part in parts)
    return [sys.executable, "-c", DRIVER.format(folder=str(HERE), parts=listed, quiet=quiet)]


def gate(*parts: str, quiet: float = 300) -> tuple[int, list[str]]:
    """The status and the lines of a gate of these parts."""
    words = words_of(*parts, quiet=quiet)
    ended = subprocess.run(words, capture_output=True, text=True, timeout=60, check=False)
    return ended.returncode, (ended.stdout + ended.stderr).splitlines()


def shell(name: str, script: str, more: str = "1") -> str:
    """A part that is a script of the shell."""
    return f"{name!r}, ('sh', '-c', {script!r}), {more}"


def await_file(path: str | Path) -> str:
    """Words of the shell that wait until a file is there."""
    return f"while ! [ -e {path} ]; do sleep 0.05; done"


class Gate(unittest.TestCase):
    def last(self, status: int, line: str, *parts: str) -> list[str]:
        found, lines = gate(*parts)
        self.assertEqual((found, lines[-1]), (status, line), "\n".join(lines))
        return lines

    def test_counts_are_added(self) -> None:
        lines = self.last(0, "9 passed, 0 failed, 2 skipped",
                          shell("one", "echo 'one: 5 passed, 0 failed, 2 skipped'"),
                          shell("two", "echo '1 passed, 0 failed'; echo 'two: 3 passed, 0 failed'"),
                          shell("three", "true"))
        self.assertEqual([line.split()[:4] for line in lines[-6:-1]],
                         [["part", "passed", "failed", "skipped"], ["one", "5", "0", "2"], ["two", "3", "0", "0"],
                          ["three", "1", "0", "0"], ["all", "9", "0", "2"]])

    def test_a_part_that_fails_hides_no_other(self) -> None:
        self.last(1, "2 passed, 3 failed, 0 skipped",
                  shell("status", "exit 3"), shell("count", "echo 'x: 1 passed, 1 failed'; exit 1"),
                  "'none', ('/nowhere/tool',), 1", shell("last", "true"))

    def test_a_count_of_failures_beats_the_status(self) -> None:
        self.last(1, "0 passed, 1 failed, 0 skipped", shell("lies", "echo '0 passed, 1 failed'"))

    def test_a_status_beats_a_count_without_failures(self) -> None:
        self.last(1, "4 passed, 1 failed, 0 skipped", shell("lies", "echo '4 passed, 0 failed'; exit 1"))

    def test_what_is_skipped_is_named(self) -> None:
        lines = self.last(0, "0 passed, 0 failed, 1 skipped",
                          shell("one", "echo 'skipped  x: no such tool'; echo 'one: 0 passed, 0 failed, 1 skipped'"))
        self.assertIn("one: skipped  x: no such tool", lines)

    def test_packages_that_cannot_be_had_are_skipped(self) -> None:
        lines = self.last(0, "0 passed, 0 failed, 1 skipped",
                          shell("packages", "echo 'not installed: a b'; exit 1", "1, may_be_skipped=True"))
        self.assertIn("packages: not installed: a b", lines)

    def test_a_part_that_hangs_is_stopped(self) -> None:
        lines = self.last(1, "1 passed, 1 failed, 0 skipped",
                          shell("hangs", "trap '' TERM; while :; do sleep 0.1; done", "0.02"), shell("next", "true"))
        self.assertTrue(any(line.startswith("hangs: stopped after") for line in lines))

    def test_what_is_left_running_is_stopped(self) -> None:
        with tempfile.TemporaryDirectory() as room:
            lines = self.last(0, "1 passed, 0 failed, 0 skipped",
                              shell("server", f"setsid sh -c 'echo $$ >{room}/pid; exec sleep 600' & sleep 0.3"))
            process = Path(room, "pid").read_text(encoding="ascii").strip()
        self.assertFalse(Path(f"/proc/{process}").exists())
        self.assertTrue(any(line.startswith("server: left running, and stopped: sleep") for line in lines))

    def test_lanes_run_side_by_side_behind_the_first_parts(self) -> None:
        with tempfile.TemporaryDirectory() as room:
            first, one, two = (Path(room, name) for name in ("first", "one", "two"))
            both = (shell("heavy", f"touch {one}; {await_file(two)}; test -e {first}", HEAVY),
                    shell("light", f"{await_file(one)}; touch {two}; test -e {first}", LIGHT))
            lines = self.last(0, "3 passed, 0 failed, 0 skipped", *both, shell("first", f"sleep 0.3; touch {first}"))
        self.assertEqual([line.split()[0] for line in lines[-5:-1]], ["first", "heavy", "light", "all"])

    def test_what_parts_of_two_lanes_write_stands_apart(self) -> None:
        with tempfile.TemporaryDirectory() as room:
            one, two = Path(room, "one"), Path(room, "two")
            lines = self.last(0, "2 passed, 0 failed, 0 skipped",
                              shell("heavy", f"echo a; touch {one}; {await_file(two)}; echo b", HEAVY),
                              shell("light", f"{await_file(one)}; echo c; touch {two}; sleep 0.5; echo d", LIGHT))
        for name, written in (("heavy", ["a", "b"]), ("light", ["c", "d"])):
            at = next(i for i, line in enumerate(lines) if line.startswith(f"== {name}: "))
            self.assertEqual(lines[at + 1:at + 3], written, "\n".join(lines))

    def test_lanes_that_print_nothing_for_long_say_what_runs(self) -> None:
        lanes = shell("heavy", "sleep 1", HEAVY), shell("ended", "true", LIGHT), shell("light", "sleep 1", LIGHT)
        self.assertIn("== running: heavy light", gate(*lanes, quiet=0.4)[1])

    def test_a_part_of_one_lane_alone_is_printed_at_once(self) -> None:
        words = words_of(shell("heavy", "echo a; sleep 600", HEAVY))
        with subprocess.Popen(words, stdout=subprocess.PIPE, text=True) as running:
            assert running.stdout
            self.assertEqual([running.stdout.readline()[:8], running.stdout.readline()], ["== heavy", "a\n"])
            running.terminate()

    def test_each_lane_stops_what_its_own_parts_left_running(self) -> None:
        with tempfile.TemporaryDirectory() as room:
            over = Path(room, "over")
            lines = self.last(0, "3 passed, 0 failed, 0 skipped",
                              shell("heavy", await_file(over), HEAVY),
                              shell("server", "setsid sleep 600 & sleep 0.3", LIGHT),
                              shell("light", f"touch {over}", LIGHT))
        self.assertIn("server: left running, and stopped: sleep", lines)
        self.assertFalse([line for line in lines if line.startswith("heavy: ")])

    def test_a_lane_that_dies_has_failed(self) -> None:
        lines = self.last(1, "2 passed, 2 failed, 0 skipped",
                          shell("kills", "kill -KILL $PPID", HEAVY), shell("behind", "true", HEAVY),
                          shell("one", "true", LIGHT), shell("two", "true", LIGHT))
        self.assertIn("behind: its lane ended before it", lines)

    def test_a_gate_that_is_stopped_prints_and_leaves_nothing_running(self) -> None:
        with tempfile.TemporaryDirectory() as room:
            lanes = [shell(name, f"echo reported {name}; echo $$ >{room}/{name}; exec sleep 600", lane)
                     for name, lane in (("heavy", HEAVY), ("light", LIGHT))]
            with subprocess.Popen(words_of(*lanes), stdout=subprocess.PIPE, text=True) as running:
                numbers = [Path(room, name) for name in ("heavy", "light")]
                while not all(path.exists() and path.read_text(encoding="ascii") for path in numbers):
                    time.sleep(0.05)
                running.send_signal(signal.SIGTERM)
                reported, _ = running.communicate(timeout=30)
            left = [path for path in numbers if Path("/proc", path.read_text(encoding="ascii").strip()).exists()]
        self.assertEqual((running.returncode, left), (143, []))
        self.assertLessEqual({"reported heavy", "reported light"}, set(reported.splitlines()))

    def test_all_has_each_part_try_all_in_twice_the_time(self) -> None:
        parts = runner.Part("one", ("try", "--changed"), 3, whole=("try",)), runner.Part("two", ("do",), 4)
        with patch.multiple(runner, PARTS=parts, MOST_MINUTES=50), patch.object(runner, "gate") as called:
            runner.main(["--all", "one", "two"])
            runner.main(["one"])
        self.assertEqual([[(part.words, part.minutes) for part in it.args[0]] for it in called.mock_calls],
                         [[(("try",), 6), (("do",), 8)], [(("try", "--changed"), 3)]])
        self.assertEqual([it.args[1:] for it in called.mock_calls], [(100,), ()])

    def test_parts_read_nothing(self) -> None:
        self.last(0, "1 passed, 0 failed, 0 skipped", shell("reads", "test -z \"$(cat)\""))


class Packages(unittest.TestCase):
    def test_every_part_that_needs_packages_is_a_part(self) -> None:
        parts = {part.name for part in runpy.run_path(str(HERE / "gate.py"))["PARTS"]}
        packages = runpy.run_path(str(HERE / "install.py"))["parts_by_package"]()
        self.assertLessEqual({part for needing in packages.values() for part in needing}, parts)

    def calls(self, there_after: int) -> list[str]:
        """What apt-get is asked for where it has installed all of `a` and `b` only after so many tries."""
        made: list[str] = []
        install = runpy.run_path(str(HERE / "install.py"))["install"]

        def apt_get(*words: str) -> bool:
            made.append(" ".join(words))
            return words[0] == "install" and len(made) >= 2 * there_after

        def missing(parts: list[str]) -> list[str]:
            return ["a"] if parts == ["one"] else ["b"] if parts == ["two"] else ["a", "b"]

        install.__globals__.update(PAUSE_SECONDS=0, apt_get=apt_get, missing=missing,
                                   parts_by_package=lambda: {"a": ["one"], "b": ["two"]})
        install([])
        return made

    def test_a_mirror_that_fails_is_tried_three_times(self) -> None:
        self.assertEqual(self.calls(1), ["update", "install a b"])
        self.assertEqual(self.calls(3), ["update", "install a b"] * 3)
        self.assertEqual(self.calls(9), ["update", "install a b"] * 3 + ["install a", "install b"])

    def test_missing_names_and_installs_nothing(self) -> None:
        words = [str(HERE / "install.py"), "--missing", "nothing"]
        ended = subprocess.run(words, capture_output=True, text=True, check=False)
        self.assertEqual((ended.returncode, ended.stderr), (2, "install: no part nothing\n"))


# What stands for a proof: it works for 0.3 seconds, once a copy of it has done so.
PROOF = """
import os, time
if os.fork():
    os.wait()
while time.process_time() < 0.3:
    pass
"""
PROVES = ("{0}/rattle build --crate-name one; {0}/rattle build --crate-name one --test & "
          "{0}/rattle check --crate-name two; wait; exit 3")


class Budgets(unittest.TestCase):
    """The processor time of proofs, and how it is judged."""

    def test_the_proofs_below_a_command_are_timed(self) -> None:
        with tempfile.TemporaryDirectory() as room:
            Path(room, "rattle").symlink_to(sys.executable)
            for verb in ("build", "check"):
                Path(room, verb).write_text(PROOF, encoding="utf-8")
            words = [f"{room}/rattle", "build", "--crate-name", "one"]
            how = patch.multiple(proofs, POLL_SECONDS=0.05)
            with how, subprocess.Popen(words, cwd=room):
                status, watch = proofs.watched(["sh", "-c", PROVES.format(room)], Path(room))
        found = dict(watch.by_crate())
        self.assertEqual((status, list(found)), (3, ["one", "two"]))
        for crate, worked in (("one", 1.2), ("two", 0.6)):
            self.assertTrue(0.8 * worked < found[crate] < worked + 0.3, found)

    def judged(self, low: float, **took: float) -> tuple[int, list[str]]:
        """The status, and the crates that are found to take too much, where three low crates take so long."""
        listed = {"one": 50.0, "two": 50.0, "three": 50.0, "large": 100.0, "small": 1.0}
        with redirect_stdout(io.StringIO()) as said:
            status = budgets.judge({"one": low, "two": low, "three": low, **took}, listed)
        return status, [line.split(":")[0] for line in said.getvalue().splitlines()[1:-1]]

    def test_a_crate_that_takes_much_more_fails(self) -> None:
        self.assertEqual(self.judged(50, large=200, small=5), (0, []))
        self.assertEqual(self.judged(50, large=210, small=5), (1, ["large"]))
        self.assertEqual(self.judged(50, large=100, small=7), (1, ["small"]))

    def test_a_slower_machine_fails_no_crate(self) -> None:
        self.assertEqual(self.judged(150, large=600), (0, []))
        self.assertEqual(self.judged(150, large=630), (1, ["large"]))
        self.assertEqual(self.judged(25, large=110), (1, ["large"]))

    def test_a_crate_without_a_budget_fails(self) -> None:
        self.assertEqual(self.judged(50, new=1), (1, ["new"]))

    def test_a_run_that_proved_nothing_anew_passes(self) -> None:
        with tempfile.TemporaryDirectory() as room:
            took, listed = Path(room, "times"), Path(room, "budgets.txt")
            listed.write_text("one 7\n", encoding="utf-8")
            with patch.multiple(budgets, TIMES=took, BUDGETS=listed, proved=lambda: ["one"]):
                self.assertRaises(SystemExit, budgets.main, [])
                took.write_text("", encoding="utf-8")
                self.assertEqual(budgets.main([]), 0)

    def test_the_list_is_made_of_a_run_that_proved_all(self) -> None:
        with tempfile.TemporaryDirectory() as room:
            took, listed = Path(room, "times"), Path(room, "budgets.txt")
            how = patch.multiple(budgets, TIMES=took, BUDGETS=listed, proved=lambda: ["one", "two"])
            with how:
                took.write_text("one 7\n", encoding="utf-8")
                self.assertRaises(SystemExit, budgets.main, ["--write"])
                self.assertFalse(listed.exists())
                took.write_text("one 7\ntests 90\ntwo 40\n", encoding="utf-8")
                self.assertEqual(budgets.main(["--write"]), 0)
            self.assertEqual(budgets.seconds_in(listed), {"one": 7, "two": 40})


class Proofs(unittest.TestCase):
    """What the gate proves, and how."""

    def test_the_program_and_what_it_rests_on_are_proved(self) -> None:
        uses = {"low": [], "tests": ["low"], "program": ["low"], "tool": ["low"]}
        with patch.multiple(proofs, PROGRAM="program", uses_by_crate=lambda: uses):
            self.assertEqual(proofs.proved(), ["low", "program"])

    def test_the_proved_crates_are_copied_and_what_was_built_is_taken(self) -> None:
        with tempfile.TemporaryDirectory() as here, tempfile.TemporaryDirectory() as there:
            for path in ("crates/one/src/lib.rt", "crates/one/out/old", "crates/two/src/lib.rt", "HANDLES"):
                Path(here, path).parent.mkdir(parents=True, exist_ok=True)
                Path(here, path).write_text(path, encoding="utf-8")
            Path(here, "crates.txt").write_text("# all\none: std\ntwo: one\n", encoding="utf-8")
            with patch.multiple(proofs, ROOT=Path(here)):
                proofs.copy(["one"], Path(there))
                copied = sorted(str(it.relative_to(there)) for it in Path(there).rglob("*") if it.is_file())
                listed = Path(there, "crates.txt").read_text(encoding="utf-8")
                Path(there, "crates/one/out/rlib").mkdir(parents=True)
                proofs.take(["one"], Path(there))
            built = sorted(it.name for it in Path(here, "crates/one/out").iterdir())
        self.assertEqual(copied, ["HANDLES", "crates.txt", "crates/one/src/lib.rt"])
        self.assertEqual((listed, built), ("one: std\n", ["old", "rlib"]))


class Tests(unittest.TestCase):
    """How the tests of a crate are counted that are run without a proof."""

    def counted(self, status: int, said: str) -> tuple[int, int]:
        ended = subprocess.CompletedProcess([], status, said)
        with patch.object(subprocess, "run", return_value=ended):
            return tests.tested("one_tests")[:2]

    def test_each_test_counts(self) -> None:
        self.assertEqual(self.counted(0, "test a::b ... ok\ntest a::c ... ok\n"), (2, 0))
        self.assertEqual(self.counted(1, "test a::b ... ok\ntest a::c ... FAILED\n"), (1, 1))

    def test_a_crate_that_runs_none_or_ends_badly_has_failed(self) -> None:
        self.assertEqual(self.counted(2, "error: src/lib.rt"), (0, 1))
        self.assertEqual(self.counted(0, ""), (0, 1))
        self.assertEqual(self.counted(4, "test a::b ... ok\n"), (1, 1))


LIBRARY = """//! Old.

pub fn sum(a: u8) -> u8
    ensures { result ≡ a }
{
    a
}

fn other() -> u8 {
    0
}
"""


class Changed(unittest.TestCase):
    """The choice of mutants in a repository whose crate `two` rests on `one`, and whose crates `one_tests` and
    `two_tests` test one each. Each of the two has a mutant and a tested mutant, of which no lot is drawn."""

    def setUp(self) -> None:
        self.top = Path(self.enterContext(tempfile.TemporaryDirectory()))
        self.tested = runpy.run_path(str(HERE / "tested_mutants.py"))
        self.tested["changed"].__globals__.update(ROOT=self.top)
        for module, root in ((changes, self.top), (crates, self.top), (mutants, str(self.top))):
            self.enterContext(patch.object(module, "ROOT", root))
        self.enterContext(patch.object(changes, "LOTS", 10**12))
        self.enterContext(patch.dict(os.environ, GATE_BASE=""))
        self.write("crates.txt", "one:\none_tests: one\ntwo: one\ntwo_tests: two\n")
        for name in ("one", "two"):
            self.write(f"crates/{name}/src/lib.rt", LIBRARY)
            self.write(f"crates/{name}_tests/src/lib.rt", "// old\n")
            self.write(f"crates/{name}/mutants/wrong.edit", "refused: sum\nfile: src/lib.rt\nold: a\nnew: b\n")
            self.write(f"crates/{name}/tested-mutants/wrong.edit",
                       f"fails: {name}_tests it::fails\nfile: src/lib.rt\nold: a\nnew: b\n")
        self.write("check/edits.py", "")
        self.git("init", "--quiet", "--initial-branch=main")
        self.commit()
        self.land()

    def write(self, path: str, text: str) -> None:
        (self.top / path).parent.mkdir(parents=True, exist_ok=True)
        (self.top / path).write_text(text, encoding="utf-8")

    def git(self, *words: str, hour: float = 0) -> None:
        person = ("-c", "user.name=a", "-c", "user.email=a@example.org")
        made = {"GIT_COMMITTER_DATE": f"{1_800_000_000 + 3600 * hour:.0f} +0000"}
        subprocess.run(["git", *person, *words], cwd=self.top, env={**os.environ, **made}, check=True)

    def commit(self, hour: float = 0) -> None:
        self.git("add", "--all")
        self.git("commit", "--quiet", "--message=change", "--allow-empty", hour=hour)

    def land(self) -> None:
        """Makes the last commit that of the branch on the server."""
        self.git("update-ref", "refs/remotes/origin/main", "HEAD")

    def chosen(self, base: str = "") -> list[list[str]]:
        """The crates of the chosen mutants, and those of the chosen tested mutants."""
        with patch.dict(os.environ, GATE_BASE=base), redirect_stdout(io.StringIO()):
            tested, _ = self.tested["changed"](self.tested["mutants"]([]))
            return [sorted(mutants.wanted(["--changed"], mutants.dependencies())), [it.crate for it in tested]]

    def test_with_no_base_all_are_chosen(self) -> None:
        both = [["one", "two"]] * 2
        self.assertEqual(self.chosen("nowhere"), both)
        self.assertEqual(self.chosen(), both, "no landing before this one is known")
        self.git("update-ref", "-d", "refs/remotes/origin/main")
        self.assertEqual(self.chosen(), both, "no branch is known")

    def test_a_branch_tries_what_changed_on_it(self) -> None:
        self.write("README.md", "")
        self.commit()
        self.assertEqual(self.chosen(), [[], []])
        self.write("crates/two/src/lib.rt", "// newer\n")
        self.commit()
        self.assertEqual(self.chosen(), [["two"], ["two"]])
        self.write("crates/one_tests/src/new.rt", "// in no commit\n")
        self.assertEqual(self.chosen(), [["two"], ["one", "two"]])
        self.assertEqual(self.chosen("HEAD~1"), [["two"], ["one", "two"]])

    def test_the_branch_itself_tries_what_landed_last(self) -> None:
        self.write("crates/one/mutants/wrong.edit", "refused: sum\nfile: src/lib.rt\nold: a\nnew: c\n")
        self.commit(9)
        self.commit(11)
        self.land()
        self.assertEqual(self.chosen(), [["one"], ["one"]])
        self.commit(20)
        self.land()
        self.assertEqual(self.chosen(), [[], []])

    def test_a_changed_statement_touches_what_rests_on_it(self) -> None:
        for old, new, mutants_of in (("Old", "New", ["one"]), ("    a", "    b", ["one"]), ("other", "more", ["one"]),
                                     ("≡", "≤", ["one", "two"]), ("pub fn", "fn", ["one", "two"])):
            self.write("crates/one/src/lib.rt", LIBRARY.replace(old, new))
            self.commit()
            self.assertEqual(self.chosen()[0], mutants_of, new)
        self.write("crates/one/src/lib.rt", LIBRARY)
        self.write("crates/one/specs/Sums.antt", "")
        self.assertEqual(self.chosen(), [["one", "two"], ["one"]])

    def test_another_line_of_the_list_is_a_change(self) -> None:
        self.write("crates.txt", "one:\none_tests: one\ntwo: one std\ntwo_tests: two\n")
        self.commit()
        self.assertEqual(self.chosen(), [["two"], ["two"]])

    def test_a_change_of_how_they_are_tried_chooses_all(self) -> None:
        self.write("check/edits.py", "# newer\n")
        self.commit()
        self.assertEqual(self.chosen(), [["one", "two"]] * 2)

    def test_a_large_landing_tries_first_what_changed_itself(self) -> None:
        self.write("crates/two/src/lib.rt", "// newer\n")
        self.commit()
        names = [f"{crate}/{number}" for crate in ("one", "two") for number in range(9)]
        with patch.object(changes, "MOST", 12):
            tried = changes.chosen(names, (), lambda _: {*names})[0]
        self.assertEqual((len(tried), sum(it.startswith("two") for it in tried)), (12, 9))

    def test_ten_landings_try_each_mutant_once(self) -> None:
        every = [f"one/{number}" for number in range(50)]
        drawn: list[str] = []
        with patch.object(changes, "LOTS", 10):
            for landing in range(1, 11):
                self.commit(10 * landing)
                self.commit(10 * landing + 2)
                self.land()
                drawn += changes.chosen(every, (), lambda _: set())[0]
        self.assertEqual(sorted(drawn), sorted(every))


if __name__ == "__main__":
    result = unittest.main(exit=False, verbosity=0).result
    bad = len(result.failures) + len(result.errors)
    print(f"gate: {result.testsRun - bad} passed, {bad} failed")
    sys.exit(1 if bad else 0)
