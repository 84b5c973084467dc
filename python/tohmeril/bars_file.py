"""Bars of one frame or of many, one after the other, as the lines of a file, with little memory.

A bar is a record of seven whole numbers. Small batches of records are sorted by asset and day; where there are many
they are laid into a file, as one batch that is sorted, too. In the end the bars of some assets at a time are read from all batches, and are written in the
order of their sids.
"""

from __future__ import annotations

import os
from contextlib import contextmanager, nullcontext
from functools import lru_cache
from pathlib import Path
from typing import (
    TYPE_CHECKING,
    Any,
    BinaryIO,
    Callable,
    ContextManager,
    Iterable,
    Iterator,
    Mapping,
    NamedTuple,
    Optional,
    Union,
)

import numpy as np
import pandas as pd

from .faults import DataFault
from .frames import NEGATIVE, NO_SYMBOL, long_bars
from .pipeline.script import BARS
from .pipeline.term import GREATEST
from .values import FORMS_OF_NUMBERS, and_others, read_numbers, shown

if TYPE_CHECKING:
    Array = np.ndarray[Any, Any]

AnyBars = Union[pd.DataFrame, Mapping[str, pd.DataFrame], Iterable[pd.DataFrame]]
KEY, CELLS, ROW = 0, slice(1, 1 + len(BARS)), 1 + len(BARS)  # places in a record
WIDTH = ROW + 1
MISSING = np.iinfo("i8").min  # of a cell, which is in millionths
MEMORY = 1 << 22  # records in memory
BATCH = 1 << 17  # records that are sorted at a time, which the processor's cache holds
BLOCK = 1 << 13  # records that are turned at a time, likewise
GROUP = 1 << 17  # records that are read from the batches at a time
POINT = np.frombuffer(b"".join(b".%03d" % number for number in range(1000)), "u4")  # the first half of a fraction
COMMA, END = (np.frombuffer(b"".join(b"%03d%c" % (number, end) for number in range(1000)), "u4") for end in b",\n")
FOUR = np.frombuffer(b"".join(b"%04d" % number for number in range(10_000)), "u4")
FRONT = np.frombuffer(
    b"".join((b"%d" % number).rjust(4, b"\0") for number in range(10_000)), "u4"
)  # without zeros in front


class Batch(NamedTuple):
    """Records by asset and day from a place on; `starts` has where those of each asset begin."""

    place: int
    starts: Array


class Bars:
    """Bars that are taken in frame by frame, and then written as a file.

    Parameters
    ----------
    folder : Path
        Where the batches are laid until `close`.

    Attributes
    ----------
    assets : list
        The assets by their numbers here, in the order in which they came.
    days : set of int
        The days that have a bar with a value, in days since 1970-01-01, as all days here.
    first, last : ndarray of int
        The days of the first and the last bar with a value of each asset; where it has none the last one is before
        the first.
    """

    def __init__(self, folder: Path):
        self.path = folder / "bars.part"
        self.file: Optional[BinaryIO] = None
        self.numbers: dict[Union[int, str], int] = {}
        self.days: set[int] = set()
        self.first = self.last = np.empty(0, "i4")
        self.records = np.empty((MEMORY, WIDTH), "i8")
        self.laid = self.sorted = self.filled = 0  # records in the file, and of those in memory
        self.batches: list[Batch] = []
        self.frames: list[tuple[int, Optional[pd.Index]]] = []
        self.rows = 0

    @property
    def assets(self) -> list[Union[int, str]]:
        return list(self.numbers)

    def begin(self, index: Optional[pd.Index]) -> None:
        """Begin a frame, whose index tells the places of faults; None where its rows are none of the user's."""
        if (
            index is not None
            and (self.frames or any(name is not None for name in index.names))
            and not isinstance(index, pd.RangeIndex)
        ):
            index = pd.RangeIndex(len(index))  # an index of each frame would take memory
        self.frames.append((self.rows, index))

    def add(self, rows: pd.DataFrame, kept: Optional[Array] = None) -> None:
        """Take in the next bars of the frame, as `long_bars` gives them; of the rows those that are kept, or all."""
        places = np.arange(self.rows, self.rows + len(rows))
        self.rows += len(rows)
        if kept is not None and not kept.all():
            rows, places = rows[kept], places[kept]
        local, found = pd.factorize(rows.sid.to_numpy())
        self._refuse(rows, places, local < 0, "an asset is missing", NO_SYMBOL)
        numbers = np.array([self.numbers.setdefault(asset, len(self.numbers)) for asset in found.tolist()], "i8")
        keys = _keys(numbers[local], rows.session.to_numpy())
        columns = [self._values(rows, places, name) for name in BARS]
        for start in range(0, len(rows), BLOCK):
            if self.filled - self.sorted + BLOCK > BATCH:
                self._sort()
                if self.filled + BATCH > MEMORY:
                    self._lay()
            part = self.records[self.filled : self.filled + min(BLOCK, len(rows) - start)]
            step = slice(start, start + len(part))
            part[:, KEY] = keys[step]
            some = np.zeros(len(part), bool)
            for at, values in enumerate(columns, CELLS.start):
                some |= ~np.isnan(values[step])
                part[:, at] = millionths(values[step])
            part[:, ROW] = np.where(some, places[step], ~places[step])  # below 0 where the bar has no value
            self.filled += len(part)

    def _values(self, rows: pd.DataFrame, places: Array, name: str) -> Array:
        """A column as floats, which has no value that a bar can't have."""
        values: Array
        values, wrong = read_numbers(rows[name])
        if wrong.any():
            told = f"{name} has {shown(rows[name], wrong)} in place of a number"
            self._refuse(rows, places, wrong, told, FORMS_OF_NUMBERS)
        if not ((values >= 0) & (values <= float(GREATEST)) | np.isnan(values)).all():
            for wrong, hint in (
                (np.isinf(values), "give NaN for a missing value"),
                (values < 0, NEGATIVE[name == "volume"]),
                (
                    values > float(GREATEST),
                    f"the greatest is {GREATEST}: give volumes in thousands, or prices in a greater unit",
                ),
            ):
                if wrong.any():
                    at = int(wrong.argmax())
                    bar = f"{rows.sid.iloc[at]} on {as_text(rows.session.iloc[at])}"
                    self._refuse(rows, places, wrong, f"the {name} of {bar} is {values[at]:.12g}", hint)
        return values

    def _refuse(self, rows: pd.DataFrame, places: Array, wrong: Array, told: str, hint: str = "") -> None:
        """Raise the fault of the wrong rows, where there is one."""
        if wrong.any():
            place = self._place(int(places[int(wrong.argmax())]))
            place = place and f"row {place}{and_others(int(wrong.sum()) - 1)}"
            raise DataFault(f"bars: {told}", "; ".join(filter(None, (place, hint))))

    def _place(self, row: int) -> str:
        """A row as the user counts it; empty where bars are no rows."""
        at = int(np.searchsorted([first for first, _ in self.frames], row, side="right")) - 1
        first, index = self.frames[at]
        if index is None:
            return ""
        return str(index[row - first]) + (f" of frame {at}" if len(self.frames) > 1 else "")

    def _sort(self) -> None:
        """Sort the newest records in memory by asset and day, as one more batch; their days are noted."""
        records = self.records[self.sorted : self.filled]
        if (records[1:, KEY] < records[:-1, KEY]).any():
            records[:] = records.take(np.argsort(records[:, KEY], kind="stable"), axis=0)
        keys: Array = records[:, KEY].copy()
        self.batches.append(Batch(self.laid + self.sorted, self._starts(keys)))
        self.sorted = self.filled
        keys = keys[records[:, ROW] >= 0]
        fresh = np.full(len(self.numbers) - len(self.first), np.iinfo("i4").max, "i4")
        self.first, self.last = np.append(self.first, fresh), np.append(self.last, -fresh)
        if not len(keys):
            return
        asset, day = keys >> 32, _days(keys)
        least = int(day.min())
        self.days.update((np.flatnonzero(np.bincount(day - least)) + least).tolist())
        begins = np.flatnonzero(np.diff(asset, prepend=-1))
        ends = np.append(begins[1:], len(asset)) - 1
        there = asset[begins]
        self.first[there] = np.minimum(self.first[there], day[begins])
        self.last[there] = np.maximum(self.last[there], day[ends])

    def _lay(self) -> None:
        """Lay the records in memory into the file, as one batch."""
        if self.file is None:
            self.file = open(self.path, "wb+")
        keys: Array = self.records[: self.filled, KEY].copy()
        order = np.argsort(keys, kind="stable")
        for start in range(0, len(order), GROUP):
            self.file.write(self.records.take(order[start : start + GROUP], axis=0).data)
        self.file.flush()
        there = [batch for batch in self.batches if batch.place < self.laid]
        self.batches = [*there, Batch(self.laid, self._starts(keys[order]))]
        self.laid, self.sorted, self.filled = self.laid + self.filled, 0, 0

    def _starts(self, keys: Array) -> Array:
        """Where those of each asset begin among sorted keys."""
        bounds: Array = np.arange(len(self.numbers) + 1, dtype="i8") << 32
        found: Array = np.asarray(keys.searchsorted(bounds))
        return found

    def _read(self, batch: Batch, first: int, end: int) -> Array:
        """The records of a batch that are of the assets from one to another, without the latter."""
        start, stop = (batch.place + int(batch.starts[asset]) for asset in (first, end))
        found: Array = self.records[max(start - self.laid, 0) : max(stop - self.laid, 0)]
        if start < self.laid and self.file is not None:
            size = WIDTH * self.records.itemsize
            found = np.frombuffer(os.pread(self.file.fileno(), (stop - start) * size, start * size), "i8")
        return found.reshape(-1, WIDTH)

    def end(self) -> None:
        """End the taking in; from here on the attributes are those of all bars."""
        self._sort()
        self.batches = [
            Batch(place, np.append(starts, np.full(len(self.numbers) + 1 - len(starts), starts[-1])))
            for place, starts in self.batches
        ]

    def write(self, out: BinaryIO, sids: Array, progress: bool = False) -> int:
        """Write the lines of the bars that have a value, by sid and session; their count.

        Parameters
        ----------
        out : file
        sids : ndarray of int
            The sids of `assets`.
        progress : bool
        """
        written, doubled, first = 0, 0, self.records[:0]
        with progress_bar(progress, "bars written", self.rows) as bar:
            for records, keys in self._groups(sids):
                same = keys[1:] == keys[:-1]
                if same.any():
                    begins = np.flatnonzero(same & ~np.append(False, same[:-1]))
                    if not doubled:
                        first = records[begins[0] : begins[0] + 1 + int(np.append(same[begins[0] :], False).argmin())]
                    doubled += len(begins)
                kept = _with_values(records)
                written += len(kept)
                for start in range(0, 0 if doubled else len(kept), BLOCK):
                    part = kept[start : start + BLOCK]
                    out.write(lines(sids[part[:, KEY] >> 32], _days(part[:, KEY]), part[:, CELLS]))
                if bar is not None:
                    bar.update(len(records))
        if doubled:
            rows = np.sort(np.where(first[:, ROW] < 0, ~first[:, ROW], first[:, ROW]))
            places = list(filter(None, map(self._place, rows.tolist())))
            told = f"{self.assets[int(first[0, KEY]) >> 32]} {as_text(int(_days(first[0, KEY])))} is there twice"
            listed = f", in the rows [{', '.join(places)}]" if places else ""
            raise DataFault(f"bars: {told}{listed}{and_others(doubled - 1, verb=True)}")
        return written

    def frames_of(self, sids: Array) -> Iterator[pd.DataFrame]:
        """The bars that `write` writes, as frames of the file's columns, one after the other."""
        days = np.array(sorted(self.days), "i8")
        texts = pd.Index([as_text(day) for day in days.tolist()])
        codes = np.zeros(days[-1] - days[0] + 1, "i4")
        codes[days - days[0]] = np.arange(len(days))
        for records, _ in self._groups(sids):
            rows = _with_values(records)
            columns = {}
            for at, name in enumerate(BARS, CELLS.start):
                columns[name] = cells = rows[:, at] / 1e6
                cells[cells < 0] = np.nan  # missing
            sessions = pd.Categorical.from_codes(codes[_days(rows[:, KEY]) - days[0]], texts)
            yield pd.DataFrame({"sid": sids[rows[:, KEY] >> 32], "session": sessions, **columns}, copy=False)

    def _groups(self, sids: Array) -> Iterator[tuple[Array, Array]]:
        """All bars by sid and day, those of some assets at a time, with numbers that are in this order."""
        if not len(sids):
            return
        places = np.unique(sids, return_inverse=True)[1]
        assets = np.argsort(sids, kind="stable")
        counts = np.sum([np.diff(batch.starts) for batch in self.batches], axis=0)[assets]
        new = np.append(True, np.diff(sids[assets]) > 0)  # two symbols of one sid stay together
        groups = (np.cumsum(counts) // GROUP)[np.flatnonzero(new)[np.cumsum(new) - 1]]
        begins = np.flatnonzero(np.diff(groups, prepend=-1))
        for begin, end in zip(begins, [*begins[1:], len(assets)]):
            group = assets[begin:end]
            breaks = [0, *(np.flatnonzero(np.diff(group) != 1) + 1), len(group)]
            ranges = [(group[a], group[b - 1] + 1) for a, b in zip(breaks, breaks[1:])]
            records = np.concatenate([self._read(batch, a, b) for batch in self.batches for a, b in ranges])
            keys = _keys(places[records[:, KEY] >> 32], _days(records[:, KEY]))
            if (keys[1:] < keys[:-1]).any():
                order = np.argsort(keys, kind="stable")
                records, keys = records.take(order, axis=0), keys[order]
            yield records, keys

    def close(self) -> None:
        """Remove the batches."""
        if self.file is not None:
            self.file.close()
            self.path.unlink()


def _keys(assets: Array, days: Array) -> Array:
    """Numbers in the order of assets and days."""
    found: Array = (assets << 32) + (days + np.int64(1 << 31))
    return found


def _days(keys: Array) -> Array:
    """The days of such numbers."""
    found: Array = (keys & 0xFFFFFFFF) - (1 << 31)
    return found


def _with_values(records: Array) -> Array:
    """The records of bars that have a value."""
    some = records[:, ROW] >= 0
    return records if some.all() else records[some]


@contextmanager
def gathered(
    folder: Path, bars: AnyBars, progress: bool = False, kept: Optional[Callable[[pd.DataFrame], Array]] = None
) -> Iterator[Bars]:
    """Bars of any form, with batches in the folder within the block; of the rows those that `kept` says, or all."""
    found = Bars(folder)
    try:
        with progress_bar(progress, "bars read") as bar:
            for index, parts in _frames(bars):
                found.begin(index)
                for part in parts:
                    rows = long_bars(part)
                    found.add(rows, None if kept is None else kept(rows))
                    if bar is not None:
                        bar.update(len(rows))
        found.end()
        yield found
    finally:
        found.close()


def _frames(
    bars: AnyBars,
) -> Iterator[tuple[Optional[pd.Index], Iterable[Union[pd.DataFrame, Mapping[str, pd.DataFrame]]]]]:
    """Each frame in slices, so that no copy of a whole one is made, with its index where its rows are the bars."""
    if isinstance(bars, Mapping):
        frames = list(bars.values())
        if frames and all(isinstance(frame, pd.DataFrame) and frame.index.equals(frames[0].index) for frame in frames):
            steps = _steps(*frames[0].shape)
            yield None, ({name: frame.iloc[step] for name, frame in bars.items()} for step in steps)
        else:
            yield None, [bars]
        return
    if isinstance(bars, (str, Path)) or not isinstance(bars, Iterable):
        raise DataFault(
            f"bars: {type(bars).__name__} is no frame",
            "one takes a frame, as pd.read_csv makes of a file, frames by name, or long frames one after the other",
        )
    for frame in [bars] if isinstance(bars, pd.DataFrame) else bars:
        if not isinstance(frame, pd.DataFrame):
            raise DataFault(
                f"bars: {type(frame).__name__} is no frame",
                "one takes a frame, frames by name, or long frames one after the other",
            )
        wide = frame.columns.nlevels == 2
        yield None if wide else frame.index, (
            frame.iloc[step] for step in _steps(len(frame), max(1, frame.shape[1] // 5) if wide else 1)
        )


def _steps(length: int, width: int) -> Iterator[slice]:
    """Slices of all rows, by how many bars a row has."""
    size = max(1, GROUP // max(1, width))
    return (slice(start, start + size) for start in range(0, length, size))


def progress_bar(wanted: bool, told: str, total: Optional[int] = None) -> ContextManager[Any]:
    """A bar of progress, where it is wanted and tqdm is there."""
    if wanted:
        try:
            from tqdm import tqdm

            bar: ContextManager[Any] = tqdm(total=total, desc=told, unit="", unit_scale=True)
            return bar
        except ImportError:
            pass
    return nullcontext()


def as_number(day: str) -> int:
    """The number of a day since 1970-01-01.

    >>> as_number("2024-01-02")
    19724
    """
    return int(np.datetime64(day, "D").astype("int64"))


def as_text(day: int) -> str:
    """A day by its number since 1970-01-01.

    >>> as_text(19_724)
    '2024-01-02'
    """
    return str(np.datetime64(int(day), "D"))


def millionths(values: Array) -> Array:
    """Floats up to 10^11 as whole millionths, rounded as ``%.6f`` rounds them; MISSING for NaN.

    >>> millionths(np.array([1.5, 1.0000005, 0.0000005, -0.25, 1e11, np.nan])).tolist()[:5]
    [1500000, 1000001, 0, -250000, 100000000000000000]
    """
    missing, sizes = np.isnan(values), np.abs(values)
    sizes[missing] = 0
    whole = np.floor(sizes)
    part = (sizes - whole) * 1e6  # the difference is exact, the product is rounded
    near = np.rint(part)
    found: Array = whole.astype("i8") * 1_000_000 + near.astype("i8")
    ties = np.flatnonzero(np.abs(near - part) == 0.5)  # only here can that have moved it past a half
    if len(ties):
        found[ties] = [int(f"{size:.6f}".replace(".", "")) for size in sizes[ties].tolist()]
    np.negative(found, out=found, where=values < 0)
    found[missing] = MISSING
    return found


def lines(sids: Array, days: Array, cells: Array) -> bytearray:
    """The lines of bars, whose values are 0 or more: all fields at their greatest width, without the zero bytes that
    fill them.

    >>> cells = np.array([[1, 25, 500_000, 10**12, MISSING], [0] * 5])
    >>> print(lines(np.array([7, 107]), np.array([0, 19_724]), cells).decode(), end="")
    7,1970-01-01,0.000001,0.000025,0.500000,1000000.000000,
    107,2024-01-02,0.000000,0.000000,0.000000,0.000000,0.000000
    """
    parts = [_digits(sids), list(_day_texts(int(days.min()), int(days.max()))[days - days.min()].T)]
    for column, end in zip(cells.T, (COMMA, COMMA, COMMA, COMMA, END)):
        sizes = column.copy()
        missing = sizes < 0
        some_missing = missing.any()
        if some_missing:
            sizes[missing] = 0
        wholes = sizes // 1_000_000
        sizes -= wholes * 1_000_000
        high = sizes // 1000
        sizes -= high * 1000
        field = [*_digits(wholes), POINT[high], end[sizes]]
        if some_missing:
            for part in field[:-1]:
                part[missing] = 0
            field[-1][missing] = np.frombuffer(b"\0\0\0" + end[:1].tobytes()[-1:], "u4")
        parts.append(field)
    words = [word for part in parts for word in part]
    text = bytearray(4 * len(words) * len(sids))
    table = np.frombuffer(text, "u4").reshape(len(sids), len(words))
    for at, word in enumerate(words):
        table[:, at] = word
    return text.translate(None, b"\0")


@lru_cache(8)
def _day_texts(first: int, last: int) -> Array:
    """The days from one to another between commas, since most blocks have the same ones."""
    days = np.arange(first, last + 1).astype("datetime64[D]").astype("S10")
    texts: Array = np.char.add(np.char.add(b",", days), b",").view("u4").reshape(-1, 3)
    return texts


def _digits(numbers: Array) -> list[Array]:
    """The digits of whole numbers from 0 on, by fours, with zero bytes in front."""
    rest = numbers
    found: list[Array] = []
    while rest.max() >= 10_000:
        above: Array = rest // 10_000
        last = rest - above * 10_000
        shown = np.where(above > 0, FOUR[last], FRONT[last])
        found.insert(0, np.where(rest > 0, shown, 0) if found else shown)
        rest = above
    return [FRONT[rest] if not found else np.where(rest > 0, FRONT[rest], 0), *found]
