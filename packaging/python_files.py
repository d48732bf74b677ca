"""The Python packages as Debian lays them out: modules in dist-packages, their metadata, and commands."""
import tomllib
from collections.abc import Iterator
from typing import Any

from built import ROOT, output_of

MODULES = "lib/python3/dist-packages"
SOURCES = "python/src"
COMMAND = """\
#!/usr/bin/python3
import sys

from {module} import {function}

if __name__ == "__main__":
    sys.exit({function}())
"""


def requirements(project: dict[str, Any]) -> Iterator[str]:
    """Lines of the metadata on what the packages need, and what their extras do."""
    for name in project["dependencies"]:
        yield f"Requires-Dist: {name}"
    for extra, names in project["optional-dependencies"].items():
        yield f"Provides-Extra: {extra}"
        for name in names:
            yield f'Requires-Dist: {name} ; extra == "{extra}"'


def metadata(project: dict[str, Any]) -> str:
    """The core metadata of the packages."""
    lines = ["Metadata-Version: 2.1", f"Name: {project['name']}", f"Version: {project['version']}",
             f"Summary: {project['description']}", f"License: {project['license']['text']}",
             f"Requires-Python: {project['requires-python']}", *requirements(project)]
    return "\n".join(lines) + "\n"


def python_files() -> Iterator[tuple[str, bytes, bool]]:
    """The path of each file, what it holds, and whether it is a program."""
    project = tomllib.loads((ROOT / "python/pyproject.toml").read_text(encoding="utf-8"))["project"]
    for name in output_of("git", "ls-files", "--", SOURCES).splitlines():
        yield name.replace(SOURCES, MODULES, 1), (ROOT / name).read_bytes(), False
    information = f"{MODULES}/{project['name']}-{project['version']}.dist-info"
    scripts = "".join(f"{name} = {function}\n" for name, function in project["scripts"].items())
    yield f"{information}/METADATA", metadata(project).encode(), False
    yield f"{information}/entry_points.txt", f"[console_scripts]\n{scripts}".encode(), False
    for name, function in project["scripts"].items():
        module, _, call = function.partition(":")
        yield f"bin/{name}", COMMAND.format(module=module, function=call).encode(), True
