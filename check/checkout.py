"""Checks of the launcher `rjoin` at the root of a checkout, with a `tools/build` that proves nothing."""
import os
import shutil
from pathlib import Path

from built import ROOT
from files import DOCS
from trial import Check, Ran, Tried, example, expect, ran, well

OLD = "#!/bin/sh\necho old program\n"
# Each writes that it was called; what it then does of the build is its own.
CALLED = '#!/bin/sh\necho called >>"$CALLS"\n'
FAILS, IS_STOPPED = f"{CALLED}exit 2\n", f"{CALLED}kill -TERM $$\n"
BUILDS = f'{CALLED}printf "#!/bin/sh\\necho new program\\n" >"$PROGRAM"\n'
HOUR = 3600


class Checkout:
    """A copy of what the launcher reads, with an old program, sources that are older still, and a
    `tools/build`."""

    def __init__(self, room: Path, build: str) -> None:
        self.top, self.calls, self.source = room / "checkout", room / "calls", room / "checkout/crates/one/src/lib.rt"
        self.program, self.built = self.top / "crates/rjoin/out/rjoin", self.top / "out/built"
        shutil.rmtree(room, ignore_errors=True)
        for name in ("rjoin", "packaging/launch.sh", "crates.txt"):
            self.write(self.top / name, (ROOT / name).read_text(encoding="utf-8"), 3)
        self.write(self.source, "// one\n", 3)
        self.write(self.source.with_name("other.rt"), "// other\n", 3)
        self.write(self.program, OLD, 2)
        self.write(self.built, "", 2)
        self.write(self.top / "tools/build", build, 3)
        self.write(room / "bin/rt", "#!/bin/sh\n", 3)
        self.age(3)
        path = f"{room}/bin:{os.environ['PATH']}"
        self.env = {**os.environ, "PATH": path, "CALLS": str(self.calls), "PROGRAM": str(self.program)}

    def age(self, hours: int) -> None:
        """Gives all folders of the crates a time so long ago."""
        then = self.built.stat().st_mtime - hours * HOUR
        for folder, _, _ in os.walk(self.top / "crates"):
            os.utime(folder, (then, then))

    @staticmethod
    def write(path: Path, text: str, hours: int) -> None:
        """Writes a program or file that is some hours old."""
        path.parent.mkdir(parents=True, exist_ok=True)
        path.write_text(text, encoding="utf-8")
        path.chmod(0o755)
        then = path.stat().st_mtime - hours * HOUR
        os.utime(path, (then, then))

    def run(self, env: dict[str, str] | None = None) -> Ran:
        return ran(self.top / "rjoin", "stats", "-", env=env or self.env)

    def times_called(self) -> int:
        """How often tools/build was called."""
        return len(self.calls.read_text(encoding="utf-8").splitlines()) if self.calls.exists() else 0


def a_failed_build_runs_no_program(it: Tried) -> None:
    for build in (FAILS, IS_STOPPED):
        checkout = Checkout(it.room / "failed", build)
        checkout.source.touch()
        for times in (1, 2):
            made = checkout.run()
            expect((made.returncode, made.stdout) == (1, b""), made)
            expect(checkout.times_called() == times, "a failed build is tried again by the next call")


def a_changed_checkout_is_built_once(it: Tried) -> None:
    checkout = Checkout(it.room / "changed", BUILDS)
    expect((well(checkout.run()).stdout, checkout.times_called()) == (b"old program\n", 0), "nothing has changed")
    checkout.source.touch()
    for _ in range(2):
        expect(well(checkout.run()).stdout == b"new program\n", checkout.run())
    expect(checkout.times_called() == 1, checkout.times_called())


def a_source_that_is_gone_is_a_change(it: Tried) -> None:
    checkout = Checkout(it.room / "gone", BUILDS)
    checkout.source.unlink()
    expect(well(checkout.run()).stdout == b"new program\n", "the old program was run")


def a_build_without_its_tools_runs_no_program(it: Tried) -> None:
    checkout = Checkout(it.room / "bare", BUILDS)
    checkout.source.touch()
    (it.room / "bare/bin/rt").unlink()
    tools = it.room / "bare/tools"
    tools.mkdir()
    for name in ("bash", "dirname", "find", "env"):
        found = shutil.which(name)
        assert found
        (tools / name).symlink_to(found)
    made = checkout.run({**checkout.env, "PATH": str(tools)})
    expect((made.returncode, made.stdout) == (2, b"") and b"rt is not on the PATH" in made.stderr, made)


def the_checkouts_launcher_joins(it: Tried) -> None:
    checkout = Checkout(it.room / "joined", FAILS)
    shutil.copy(it.program, checkout.program)
    shown = example(it.prefix / DOCS)
    made = well(ran(checkout.top / "rjoin", *shown.words.split(), folder=ROOT, env=checkout.env))
    expect(made.stdout == shown.output and checkout.times_called() == 0, made)


CHECKS: tuple[Check, ...] = (
    a_failed_build_runs_no_program, a_changed_checkout_is_built_once, a_source_that_is_gone_is_a_change,
    a_build_without_its_tools_runs_no_program, the_checkouts_launcher_joins,
)
