"""Who may run what: other users of the machine may not, and a cluster knows its users by TLS."""
from __future__ import annotations

import os
import shutil
import stat
import subprocess
import sys
from contextlib import suppress
from pathlib import Path
from typing import Any, Iterator
from urllib.error import HTTPError
from urllib.request import urlopen

import layers
import psutil
import pytest
from conftest import Tools, distributed, ended, own_processes, running_group, wait_for

from rjoin_cluster.cluster import OPEN_PORTS

OTHER_USER = 65534
as_root = pytest.mark.skipif(os.geteuid() != 0, reason="one has to be root to be another user")

# What another user tries: to run code on the workers of a cluster.
INTRUDER = """
import sys
from distributed import Client
try:
    print(Client(sys.argv[1], timeout=4).run(lambda: "run"))
except Exception as cause:
    print("refused")
"""


@pytest.fixture
def pair(tools: Tools) -> tuple[Path, Path]:
    return layers.write_pair(tools.folder, "rectangles", 20_000)


@pytest.fixture
def local_join(tools: Tools, pair: tuple[Path, Path]) -> Iterator[Any]:
    """A join by workers of this machine, in the middle of it."""
    words = tools.local_command(*pair, "intersects", "--tiles", "64", "--block", "100000")
    with running_group(words) as process:
        wait_for(tools, "pairs-*.rows", process)
        yield process


def tried_as_another_user(*words: str) -> str:
    """What a program of another user writes; it has Python without the environment of the tests."""
    python = os.path.realpath(sys.executable)
    done = subprocess.run(
        [python, "-c", *words], user=OTHER_USER, env={"HOME": "/"}, cwd="/",
        stdout=subprocess.PIPE, stderr=subprocess.DEVNULL, text=True, check=True,
    )
    return done.stdout.strip()


def sockets_of(command: psutil.Process) -> list[Any]:
    """The sockets of a process and of all that it started."""
    sockets = []
    for process in [command, *command.children(recursive=True)]:
        with suppress(psutil.NoSuchProcess):  # a run of rjoin that has ended
            sockets += process.connections("inet")
    return sockets


def test_a_local_join_opens_no_port(local_join: Any) -> None:
    assert sockets_of(psutil.Process(local_join.pid)) == []
    assert local_join.poll() is None


@as_root
def test_the_files_of_a_join_are_for_its_user(tools: Tools, local_join: Any) -> None:
    for folder in [tools.folder, *tools.folder.parents]:
        folder.chmod(folder.stat().st_mode | 0o055)
    (folder,) = tools.folder.glob("rjoin-cluster-*")
    assert stat.S_IMODE(folder.stat().st_mode) == 0o700
    modes = {stat.S_IMODE(path.stat().st_mode) for path in folder.glob("*.rows")}
    assert modes == {0o600}
    look = "import os, sys\ntry: print(os.listdir(sys.argv[1]))\nexcept OSError: print('refused')"
    assert tried_as_another_user(look, str(tools.folder)) != "refused"
    assert tried_as_another_user(look, str(folder)) == "refused"


@pytest.fixture(scope="module")
def certificate(tmp_path_factory: pytest.TempPathFactory) -> list[str]:
    if shutil.which("openssl") is None:
        pytest.skip("openssl is not installed")
    return make_certificate(tmp_path_factory.mktemp("certificate"))


def make_certificate(folder: Path) -> list[str]:
    """The options of a certificate that signs itself, made as the page on clusters says."""
    make = "openssl req -x509 -newkey rsa:2048 -nodes -days 365 -subj /CN=rjoin-cluster"
    words = [*make.split(), "-keyout", "key.pem", "-out", "cert.pem"]
    subprocess.run(words, cwd=folder, check=True, capture_output=True)
    files = {"ca-file": "cert.pem", "cert": "cert.pem", "key": "key.pem"}
    return [word for name in files for word in (f"--tls-{name}", str(folder / files[name]))]


@pytest.fixture(scope="module")
def tls_scheduler(
    certificate: list[str], tmp_path_factory: pytest.TempPathFactory
) -> Iterator[str]:
    authority, own, key = certificate[1::2]
    names = {"tls_ca_file": authority, "tls_client_cert": own, "tls_client_key": key}
    security = distributed.Security(require_encryption=True, **names)
    with own_processes(tmp_path_factory.mktemp("tls"), security, *certificate) as (address, _):
        assert address.startswith("tls://")
        yield address


def test_a_join_over_tls(
    tools: Tools, pair: tuple[Path, Path], certificate: list[str], tls_scheduler: str
) -> None:
    words = [*tools.command(*pair, "overlaps"), "--scheduler", tls_scheduler, *certificate]
    done = ended([sys.executable, "-m", "rjoin_cluster", *words])
    assert (done.status, done.errors) == (0, "")
    assert tools.report().read_bytes() == tools.one_run(*pair, "overlaps").output


@pytest.mark.parametrize(
    "protocol, fault",
    [
        ("tls://", "needs --tls-ca-file, --tls-cert and --tls-key"),
        ("tcp://", "no scheduler answers"),
    ],
)
def test_a_join_without_a_certificate(
    tools: Tools, pair: tuple[Path, Path], tls_scheduler: str, protocol: str, fault: str
) -> None:
    address = tls_scheduler.replace("tls://", protocol)
    words = [*tools.command(*pair, "overlaps", "--patience", "3"), "--scheduler", address]
    done = ended([sys.executable, "-m", "rjoin_cluster", *words])
    warning = f"rjoin-cluster: {address}: {OPEN_PORTS}\n" if protocol == "tcp://" else ""
    assert (done.status, done.errors) == (1, f"{warning}rjoin-cluster: {address}: {fault}\n")


# Another one shows a certificate and believes whatever is shown; the scheduler speaks first.
FORGER = """
import socket, ssl, sys
host, port = sys.argv[1].split("//")[1].split(":")
context = ssl.SSLContext(ssl.PROTOCOL_TLS_CLIENT)
context.check_hostname, context.verify_mode = False, ssl.CERT_NONE
context.load_cert_chain(sys.argv[2], sys.argv[3])
try:
    with context.wrap_socket(socket.create_connection((host, int(port)), timeout=9)) as link:
        print("let in" if link.recv(1) else "refused")
except ssl.SSLError:
    print("refused")
"""


@as_root
def test_another_user_with_a_certificate_of_its_own(
    tools: Tools, certificate: list[str], tls_scheduler: str
) -> None:
    for folder in [tools.folder, *tools.folder.parents]:
        folder.chmod(folder.stat().st_mode | 0o055)
    forged = make_certificate(tools.folder)
    Path(forged[-1]).chmod(0o644)
    assert tried_as_another_user(FORGER, tls_scheduler, forged[3], forged[5]) == "refused"
    own = ended([sys.executable, "-c", FORGER, tls_scheduler, certificate[3], certificate[5]])
    assert own.output == b"let in\n"


@as_root
def test_another_user_is_refused_by_tls(tls_scheduler: str, scheduler: str) -> None:
    """And is let in where there is no TLS, so that the refusal is one of TLS."""
    assert tried_as_another_user(INTRUDER, tls_scheduler) == "refused"
    assert tried_as_another_user(INTRUDER, tls_scheduler.replace("tls:", "tcp:")) == "refused"
    assert "run" in tried_as_another_user(INTRUDER, scheduler)


def test_a_cluster_leaves_nothing_open_to_other_users(tmp_path: Path) -> None:
    """Its HTTP ports answer nothing, and its files lie in a folder of the user alone."""
    with own_processes(tmp_path) as (address, number):
        with distributed.Client(address) as client:
            services = [client.scheduler_info()["services"]["dashboard"]]
            (worker,) = client.scheduler_info()["workers"].values()
            services.append(worker["services"]["dashboard"])
        for port in services:
            for path in ("info/main/workers.html", "json/identity.json", "health", "metrics"):
                with pytest.raises(HTTPError, match="404"):
                    urlopen(f"http://127.0.0.1:{port}/{path}")
    local = Path(worker["local_directory"])
    assert tmp_path / "workers" in local.parents
    assert stat.S_IMODE((tmp_path / "workers").stat().st_mode) == 0o700


def test_certificates_are_for_tls(tools: Tools, capfd: pytest.CaptureFixture[str]) -> None:
    from rjoin_cluster.command import main

    layer = tools.folder / "layer.csv"
    layer.write_text("id,wkt\n")
    for words, line in (
        (["--tls-key", "/nowhere"], "/nowhere: cannot be opened: No such file or directory"),
        (
            ["--tls-key", str(layer)],
            "--tls-ca-file, --tls-cert and --tls-key are for a scheduler at tls://",
        ),
    ):
        capfd.readouterr()
        assert main([*tools.command(layer, layer, "within"), *words]) == 1
        assert capfd.readouterr().err == f"rjoin-cluster: {line}\n"


def test_a_dashboard_that_cannot_be_drawn(tools: Tools, capfd: pytest.CaptureFixture[str]) -> None:
    from rjoin_cluster.command import main

    try:
        import bokeh  # type: ignore[import]  # noqa: F401

        pytest.skip("bokeh is installed")
    except ImportError:
        pass
    layer = tools.folder / "layer.csv"
    layer.write_text("id,wkt\n")
    assert main([*tools.command(layer, layer, "within"), "--dashboard"]) == 1
    assert "bokeh" in capfd.readouterr().err
