"""The man page rjoin(1), made of what `rjoin --help` and `rjoin COMMAND --help` print, so that the two can't differ."""
import re
import subprocess
from collections.abc import Iterator
from dataclasses import dataclass
from pathlib import Path

Lines = list[str]

TERM = re.compile(r"^  (?P<term>\S+)  +(?P<text>\S.*)$")
CONTINUED = re.compile(r"^ {8,}\S")
COLUMNS = re.compile(r"\S {3,}\S")
EXIT_STATUS = "Exit status:"

CLOSING = r"""
.SH EXAMPLE
.EX
cd /usr/share/doc/rjoin
rjoin join data/parcels.csv data/roads.csv \-\-relation touches
.EE
.PP
writes the pairs of a parcel and a road that touch.
.SH ENVIRONMENT
.TP
.B GLIBC_TUNABLES
Unless it is set, rjoin sets it so that the C library takes memory from the system in large pieces.
.SH FILES
.TP
.I /usr/share/doc/rjoin
README.md, which says what is proved; docs/FAULTS.md, which explains every line on standard error; sample layers under
data; and PROVED, which names the commit, the toolchain and the checksum of the program.
.PP
What was unpacked from the tarball has them below the folder that it was unpacked to, in share/doc/rjoin.
"""


@dataclass(frozen=True)
class Help:
    """The parts of a help text. Entries are lines of a name and what it means; notes are paragraphs."""

    about: str
    usage: str
    entries: dict[str, Lines]
    notes: list[Lines]


def help_of(program: Path, *words: str) -> Help:
    """What the program prints for the words and --help."""
    words_of_help = ("rjoin", *words, "--help")  # usage lines begin with the name that the program is called by
    ran = subprocess.run(words_of_help, executable=program, capture_output=True, text=True, check=True)
    about, usage, *rest = (paragraph.split("\n") for paragraph in ran.stdout.strip("\n").split("\n\n"))
    lists = {"Commands:", "Arguments:", "Options:"}
    entries = {lines[0].rstrip(":"): lines[1:] for lines in rest if lines[0] in lists}
    notes = [lines for lines in rest if lines[0] not in lists]
    return Help(" ".join(about), " ".join(usage).removeprefix("Usage: "), entries, notes)


def commands(help_text: Help) -> Lines:
    """The names of the program's commands, without that of help."""
    names = (line.split()[0] for line in help_text.entries["Commands"])
    return [name for name in names if name != "help"]


def escaped(text: str) -> str:
    """A line of plain text as a line of troff."""
    line = text.replace("\\", r"\e").replace("-", r"\-")
    return rf"\&{line}" if line.startswith((".", "'")) else line


def tagged(term: str, text: str) -> Lines:
    return [".TP", f".B {escaped(term)}", escaped(text)]


def listed(entries: Lines) -> Iterator[str]:
    """Entries of Arguments or Options."""
    for entry in entries:
        term, text = re.split(r" {2,}", entry.strip(), maxsplit=1)
        yield from tagged(term, text)


def verbatim(lines: Lines) -> Lines:
    return [".EX", *map(escaped, lines), ".EE"]


def note(lines: Lines) -> Iterator[str]:
    """A paragraph of the notes: filled text, terms with their meaning, and lines that are kept as they are."""
    yield ".PP"
    if COLUMNS.search(lines[0]):
        yield from verbatim(lines)
        return
    in_list = False
    for line in lines:
        term = TERM.match(line)
        continues = in_list and CONTINUED.match(line)
        if in_list and not term and not continues:
            yield ".PP"
        in_list = bool(term or continues)
        if term:
            yield from tagged(term["term"], term["text"])
        elif line.startswith("  ") and not continues:
            yield from verbatim([line])
        else:
            yield escaped(line.strip())


def synopsis(usages: Lines) -> Iterator[str]:
    for usage in usages:
        program, command, rest = usage.split(" ", 2)
        yield from (rf"\fB{program} {command}\fR {escaped(rest)}", ".br")


def section(command: Help) -> Iterator[str]:
    """The part of the page on one command."""
    yield from (f'.SS "{escaped(command.usage)}"', escaped(command.about) + ".")
    for entries in command.entries.values():
        yield from listed(entries)
    for lines in command.notes:
        yield from note(lines)


def manual(program: Path, version: str, date: str) -> str:
    """The man page of the program as troff."""
    whole = help_of(program)
    each = [help_of(program, name) for name in commands(whole)]
    ends = next(lines for lines in whole.notes if lines[0] == EXIT_STATUS)
    name = whole.about[0].lower() + whole.about[1:]
    page = [f'.TH RJOIN 1 {date} "rjoin {version}" "User Commands"', ".SH NAME", rf"rjoin \- {escaped(name)}"]
    page += [".SH SYNOPSIS", *synopsis([it.usage for it in each]), ".SH DESCRIPTION", escaped(whole.about) + "."]
    page += [line for lines in whole.notes if lines != ends for line in note(lines)]
    page += [".SH OPTIONS", *listed(whole.entries["Options"]), ".SH COMMANDS"]
    page += [line for command in each for line in section(command)]
    page += ['.SH "EXIT STATUS"', *note(ends[1:])]
    return "\n".join(page) + CLOSING
