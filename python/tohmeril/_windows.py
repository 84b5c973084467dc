"""What the command `windows` writes, as arrays: the window of a column of bars on each session, as it is seen there.

A line has the newest cells of an asset's window, all of them or one. A window is kept in an array with a row for each
session and a column for each asset; a line with one cell adds it, and one with all of them replaces the column.
"""

from __future__ import annotations

from typing import IO, TYPE_CHECKING, Any, Iterator, NamedTuple, Sequence

import numpy as np

from .program import Unreadable

if TYPE_CHECKING:
    Array = np.ndarray[Any, Any]

HEADER = b"session,sid,count,cells\n"
BLOCK = 1 << 20  # bytes of lines at a time
COMMA, NEWLINE, BETWEEN, POINT, MINUS, ZERO = (ord(sign) for sign in ",\n;.-0")
PLACES = 6  # behind the point
ZEROS = np.uint64(0x3030303030303030)
STEPS = [  # that add up the digits of eight bytes: how far, times what, and what of the sum counts
    (np.uint64(8), np.uint64(10), np.uint64(0x00FF00FF00FF00FF)),
    (np.uint64(16), np.uint64(100), np.uint64(0x0000FFFF0000FFFF)),
    (np.uint64(32), np.uint64(10000), np.uint64(0x00000000FFFFFFFF)),
]


class Lines(NamedTuple):
    """The lines of one session, or some of them: their sids, how many cells each has, and all cells, oldest first."""

    day: str
    sids: Array
    counts: Array
    cells: Array


def read_lines(out: IO[bytes]) -> Iterator[Lines]:
    """The lines session by session, where those of a session may come in several parts."""
    line = out.readline()
    if line != HEADER:
        raise Unreadable(line)
    rest = b""
    while block := out.read(BLOCK):
        text = rest + block
        end = text.rfind(b"\n") + 1
        rest = text[end:]
        if end:
            yield from _parsed(np.frombuffer(text, "u1", end))
    if rest:
        raise Unreadable(rest)


def _parsed(text: Array) -> Iterator[Lines]:
    """The lines of a block of whole lines."""
    ends = np.flatnonzero(text == NEWLINE)
    commas = np.flatnonzero(text == COMMA)
    starts = np.append(0, ends[:-1] + 1)
    if len(commas) != 3 * len(ends) or (commas[::3] - starts != 10).any():
        raise Unreadable(bytes(text[: ends[0] + 1]))
    second, third = commas[1::3], commas[2::3]
    read = _Places(text)
    sids, counts = read.whole(starts + 11, second), read.whole(second + 1, third)
    first, last = third + 1, ends
    if not (counts == 1).all():
        last = np.flatnonzero((text == NEWLINE) | (text == BETWEEN))
        first = np.append(0, last[:-1] + 1)
        first[np.append(0, np.cumsum(counts[:-1]))] = third + 1
    if len(last) != counts.sum():
        raise Unreadable(bytes(text[: ends[0] + 1]))
    cells = read.decimals(first, last)
    days = read.eight(starts + 10)  # without the century
    begins = np.flatnonzero(np.append(True, days[1:] != days[:-1]))
    bounds = np.append(0, np.cumsum(counts))
    for low, high in zip(begins, np.append(begins[1:], len(days))):
        day = bytes(text[starts[low] : starts[low] + 10]).decode()
        yield Lines(day, sids[low:high], counts[low:high], cells[bounds[low] : bounds[high]])


class _Places:
    """Reads the numbers between places of a text, all at once.

    Eight bytes that end at a place are one number of 64 bits, whose digits are added up in pairs, then pairs of pairs.

    >>> read = _Places(np.frombuffer(b"12;-0.500000;1234567890.123456;", "u1"))
    >>> read.whole(np.array([0]), np.array([2])), read.decimals(np.array([3, 13, 31]), np.array([12, 30, 31]))
    (array([12]), array([-5.00000000e-01,  1.23456789e+09,             nan]))
    """

    def __init__(self, text: Array):
        padded = np.concatenate([np.full(8, ZERO, "u1"), text, np.full(8, ZERO, "u1")])
        self.bytes = padded
        self.words: Array = np.ndarray((len(padded) - 7,), "u8", padded.data, 0, (1,))  # that begin at each byte

    def eight(self, ends: Array) -> Array:
        """The eight bytes before each place."""
        words: Array = self.words[ends]
        return words

    def digits(self, ends: Array, counts: Array) -> Array:
        """The numbers of at most eight digits before each place."""
        keep = (np.minimum(counts, 8) * 8).astype("u8")
        words: Array = (self.eight(ends) ^ ZEROS) >> (64 - np.maximum(keep, 1)) << (64 - np.maximum(keep, 1))
        words[counts <= 0] = 0
        for shift, factor, mask in STEPS:
            words = (words * factor + (words >> shift)) & mask
        numbers: Array = words.astype("i8")
        return numbers

    def whole(self, starts: Array, ends: Array) -> Array:
        """The whole numbers between places; without a digit 0."""
        counts = ends - starts
        numbers = self.digits(ends, counts)
        if (counts > 8).any():
            numbers += self.digits(ends - 8, counts - 8) * 10**8
        return numbers

    def decimals(self, starts: Array, ends: Array) -> Array:
        """The cells between places, each with six decimals or empty, as floats with NaN for an empty one."""
        missing = ends == starts
        point = np.where(missing, ends, ends - PLACES - 1)
        minus = ~missing & (self.bytes[starts + 8] == MINUS)
        if (self.bytes[point + 8][~missing] != POINT).any():
            raise Unreadable(bytes(self.bytes[8:68]))
        six = np.where(missing, 0, PLACES)
        values = self.whole(np.where(missing, point, starts + minus), point) * 10**PLACES + self.digits(ends, six)
        floats: Array = values / 10**PLACES
        floats[minus] *= -1
        floats[missing] = np.nan
        return floats


class Windows:
    """The windows of a column, as the lines of one session after the other make them.

    Parameters
    ----------
    out : binary stream
        What the command writes.
    length : int
        The windows' length.
    sids : array
        All sids that there are, ascending; the arrays have a column for each.
    """

    def __init__(self, out: IO[bytes], length: int, sids: Array):
        self.lines, self.length, self.sids = read_lines(out), length, sids
        self.cells = np.full((length + max(length // 4, 64), len(sids)), np.nan)
        self.next = 0  # the row of the next session's newest cell
        self.known = sids[:0], np.zeros(0, int)  # the sids that were seen last, and their columns

    def __iter__(self) -> Iterator[tuple[str, Array]]:
        """Each session that has a line, and the columns of the assets that exist on it."""
        parts: list[Lines] = []
        for part in self.lines:
            if parts and part.day != parts[0].day:
                yield parts[0].day, self._seen(parts)
                parts = []
            parts.append(part)
        if parts:
            yield parts[0].day, self._seen(parts)

    def _seen(self, parts: Sequence[Lines]) -> Array:
        """Move the windows on to a session."""
        if self.next == len(self.cells):
            self.cells[: self.length - 1] = self.cells[self.next - self.length + 1 :]
            self.next = self.length - 1
        if self.next < self.length - 1:  # the first session
            self.next = self.length - 1
        self.cells[self.next] = np.nan
        found = []
        for part in parts:
            if not np.array_equal(part.sids, self.known[0]):
                self.known = part.sids, np.searchsorted(self.sids, part.sids)
            columns = self.known[1]
            found.append(columns)
            single = part.counts == 1
            if single.all():
                self.cells[self.next, columns] = part.cells
                continue
            places = np.cumsum(part.counts) - part.counts
            self.cells[self.next, columns[single]] = part.cells[places[single]]
            whole = part.cells[places[~single][:, None] + np.arange(self.length)]
            self.cells[self.next - self.length + 1 : self.next + 1, columns[~single]] = whole.T
        self.next += 1
        return found[0] if len(found) == 1 else np.concatenate(found)

    def newest(self, length: int) -> Array:
        """The newest rows of the windows of the session that was come to last, of all assets."""
        return self.cells[self.next - length : self.next]
