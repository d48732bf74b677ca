"""Where the records of a CSV text end, found in parts that may begin anywhere, inside quotes too.

A quote opens a quoted field only where a field begins; elsewhere in a bare field it is an ordinary
byte, so that the parity of quotes alone tells nothing. A reader of RFC 4180 that takes any text is
in one of three states between two bytes, as far as line ends are concerned. What a part does to
each of them is found without knowing the state that it begins in, and the parts are then composed.
"""
from __future__ import annotations

import enum
from dataclasses import dataclass
from typing import Optional, Sequence

import numpy as np
from numpy.typing import NDArray

Bytes = NDArray[np.uint8]
Places = NDArray[np.int64]
Flags = NDArray[np.bool_]

BYTE_ORDER_MARK = b"\xef\xbb\xbf"
WINDOW = 65_536


def table_of(members: bytes) -> Flags:
    """Which bytes are among these."""
    table = np.zeros(256, dtype=np.bool_)
    table[np.frombuffer(members, dtype=np.uint8)] = True
    return table


COMMA = ord(",")
QUOTE = ord('"')
RETURN = ord("\r")
FEED = ord("\n")
IS_FIELD_END = table_of(b",\r\n")


class State(enum.IntEnum):
    """What a reader makes of the next byte."""

    FREE = 0  # a quote opens a quoted field, or opens the one again that was just closed
    BARE = 1  # within a field without quotes, where a quote is an ordinary byte
    QUOTED = 2  # within quotes, where a line end is an ordinary byte


@dataclass(frozen=True)
class Passage:
    """What a part of a text does to one state."""

    after: State
    first_end: Optional[int]  # behind the first line end in the part that ends a record


@dataclass(frozen=True)
class Segment:
    """What a scan found in a part of a file."""

    passages: tuple[Passage, ...]  # by the state that the part begins in
    line_feeds: int  # about


@dataclass(frozen=True)
class QuoteRuns:
    """The runs of quotes that stand side by side in a part."""

    begins: Places
    odd: Flags
    opens: Flags  # whether a field ends right before; not known of a run at the part's beginning

    def first(self, count: int) -> QuoteRuns:
        return QuoteRuns(self.begins[:count], self.odd[:count], self.opens[:count])


def quote_runs(part: Bytes) -> QuoteRuns:
    quotes = np.flatnonzero(part == QUOTE)
    heads = np.flatnonzero(np.diff(quotes, prepend=-2) != 1)
    begins = quotes[heads]
    odd = (np.diff(heads, append=quotes.size) & 1).astype(np.bool_)
    return QuoteRuns(begins, odd, IS_FIELD_END[part[begins - 1]])


def line_ends(part: Bytes) -> Places:
    return np.flatnonzero((part == RETURN) | (part == FEED))


def opening(runs: QuoteRuns, start: State) -> Flags:
    """Whether the first quote of each run opens a field, where the run stands outside quotes."""
    opens = runs.opens.copy()
    if opens.size and runs.begins[0] == 0:
        opens[0] = start is State.FREE
    return opens


def quoted_behind(runs: QuoteRuns, start: State) -> Flags:
    """Whether the place behind each run is within quotes.

    A run of even length changes nothing. One of odd length that may open a field turns outside to
    inside and back; any other one of odd length closes a quoted field, or stands in a bare one, so
    that behind it is outside.
    """
    opens = opening(runs, start)
    turns = np.logical_xor.accumulate(runs.odd & opens)
    closing = np.maximum.accumulate(np.where(runs.odd & ~opens, np.arange(opens.size), -1))
    inside: Flags = turns ^ np.where(closing >= 0, turns[closing], start is State.QUOTED)
    return inside


def quoted_by_state(runs: QuoteRuns) -> tuple[Flags, ...]:
    """`quoted_behind` for each state; from the first run on that closes a field, all of them are
    one.
    """
    free = quoted_behind(runs, State.FREE)
    closing = np.flatnonzero(runs.odd[1:] & ~runs.opens[1:])
    split = int(closing[0]) + 2 if closing.size else free.size
    head = runs.first(split)
    return tuple(np.concatenate([quoted_behind(head, start), free[split:]]) for start in State)


def state_after(part: Bytes, runs: QuoteRuns, quoted: Flags, start: State) -> State:
    """The state behind a part."""
    inside = bool(quoted[-1]) if quoted.size else start is State.QUOTED
    if not part.size:
        return start
    if inside:
        return State.QUOTED
    if part[-1] != QUOTE:
        return State.FREE if IS_FIELD_END[part[-1]] else State.BARE
    was_inside = bool(quoted[-2]) if quoted.size > 1 else start is State.QUOTED
    return State.FREE if was_inside or opening(runs, start)[-1] else State.BARE


def outside(places: Places, runs: QuoteRuns, quoted: Flags, start: State) -> Places:
    """Those of the places, none of which holds a quote, that are outside quotes."""
    if not quoted.size:
        return places[:0] if start is State.QUOTED else places
    behind = np.concatenate([[start is State.QUOTED], quoted])
    return places[~behind[np.searchsorted(runs.begins, places)]]


def first_record_end(part: Bytes, runs: QuoteRuns, quoted: Flags, start: State) -> Optional[int]:
    """The place behind the first line end outside quotes."""
    for begin in range(0, part.size, WINDOW):
        places = begin + line_ends(part[begin:begin + WINDOW])
        ends = outside(places, runs, quoted, start)
        if ends.size:
            return int(ends[0]) + 1
    return None


def passage(part: Bytes, runs: QuoteRuns, quoted: Flags, start: State) -> Passage:
    after = state_after(part, runs, quoted, start)
    return Passage(after, first_record_end(part, runs, quoted, start))


def scan(part: Bytes) -> Segment:
    """What a part does to each state."""
    runs = quote_runs(part)
    passages = (
        passage(part, runs, quoted, start) for start, quoted in zip(State, quoted_by_state(runs))
    )
    return Segment(tuple(passages), int(np.count_nonzero(part == FEED)))


def scan_ends(head: Bytes, tail: Bytes, size: int) -> Optional[Segment]:
    """What a part of this size does, of which only both ends were looked at; None where that takes
    more of it.

    Behind a quote that surely closes a field the state doesn't depend on what stands before. So the
    tail mostly leads all states to one, as the head has a record's end for each of them.
    """
    first, last = scan(head), scan(tail)
    (after, *others) = {passage.after for passage in last.passages}
    if others or any(passage.first_end is None for passage in first.passages):
        return None
    line_feeds = (first.line_feeds + last.line_feeds) * size // (head.size + tail.size)
    passages = (Passage(after, passage.first_end) for passage in first.passages)
    return Segment(tuple(passages), line_feeds)


def block_begins(segments: Sequence[Segment], segment_bytes: int) -> list[int]:
    """Where blocks of whole records begin in a file, one for each segment in which a record ends.

    A record that covers whole segments leaves no place to begin a block in them.
    """
    begins = [0]
    state = State.FREE
    for number, segment in enumerate(segments):
        taken = segment.passages[state]
        if number > 0 and taken.first_end is not None:
            begins.append(number * segment_bytes + taken.first_end)
        state = taken.after
    return begins


def record_ends(part: Bytes) -> Places:
    """The place behind each record of a text that begins between records; empty lines are none."""
    runs = quote_runs(part)
    quoted = quoted_behind(runs, State.FREE)
    ends = outside(line_ends(part), runs, quoted, State.FREE)
    last = int(ends[-1]) + 1 if ends.size else 0
    behind = ends[np.diff(ends, prepend=-1) != 1] + 1
    all_ends: Places = np.append(behind, part.size) if last < part.size else behind
    return all_ends


def field_ends(part: Bytes) -> Places:
    """Where the fields of a text end that begins between records: the places of the commas and line
    ends that aren't quoted.
    """
    runs = quote_runs(part)
    is_end = part == COMMA
    is_end |= part == FEED
    is_end |= part == RETURN
    return outside(np.flatnonzero(is_end), runs, quoted_behind(runs, State.FREE), State.FREE)


def second_fields(part: Bytes) -> Places:
    """Where the second field of each record begins and ends, in a text that begins between records
    and whose records have two fields each.
    """
    begins, ends = records_in(part)
    commas = first_commas(part, begins, ends)
    if commas is not None:
        return np.stack([commas + 1, ends], axis=1)
    ends = field_ends(part)
    commas = np.flatnonzero(part[ends] == COMMA)
    behind = np.append(ends, part.size)[commas + 1]
    return np.stack([ends[commas] + 1, behind], axis=1)


def records_in(part: Bytes) -> tuple[Places, Places]:
    """Where the records of a text begin, and where they end, before their line ends."""
    runs = quote_runs(part)
    feeds = np.flatnonzero(part <= RETURN)  # and a few other bytes
    feeds = feeds[(part[feeds] == FEED) | (part[feeds] == RETURN)]
    ends = outside(feeds, runs, quoted_behind(runs, State.FREE), State.FREE)
    if (int(ends[-1]) + 1 if ends.size else 0) < part.size:
        ends = np.append(ends, part.size)
    heads = np.flatnonzero(np.diff(ends, prepend=-1) != 1)
    begins = np.append(-1, ends).take(heads) + 1
    return begins, ends.take(heads)


def first_commas(part: Bytes, begins: Places, ends: Places) -> Optional[Places]:
    """Where the first field of each record ends; None where one is quoted, or the only one. In a
    field without quotes around it no comma stands, and most are short.
    """
    if (part[begins] == QUOTE).any():
        return None
    commas, rows = begins.copy(), np.arange(begins.size)
    while rows.size:
        rows = rows[part[commas[rows]] != COMMA]
        commas[rows] += 1
        if (commas[rows] >= ends[rows]).any():
            return None
    return commas
