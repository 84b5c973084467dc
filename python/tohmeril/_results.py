"""What is computed, as records of the program's files: numbers that are known on the very session, and labels.

A record holds until the next one of its name and asset. So one is written only where a result is another than on the
session before, and where a result is missing it is an empty one, which ends what was known before.
"""

from __future__ import annotations

import csv
import io
import os
import shutil
from decimal import ROUND_HALF_UP, Decimal
from functools import lru_cache
from pathlib import Path
from types import MappingProxyType
from typing import IO, TYPE_CHECKING, Any, Iterable, Mapping, Optional

import numpy as np

from .data import HEADERS
from .faults import ReadFault

if TYPE_CHECKING:
    Array = np.ndarray[Any, Any]

Stamp = tuple[str, int, int, int]
PLACES = 6  # behind the point
MILLION = 10**PLACES
FOUR = np.array([list(f"{number:04}".encode()) for number in range(10_000)], "u1").view("u4")[:, 0]  # digits of four
MISSING = np.iinfo("i8").min
GREATEST = 1e11
ROWS = 1 << 17  # records that are written at a time
MOST = {"results": 2_000_000, "labels": 200_000}  # records that a run reads, of results with those of numbers
USERS = {"results": "numbers", "labels": "labels"}  # the part of the data beside which they stand
LONGEST = 64  # bytes of a label


class TooMany(Exception):
    """There are more records than one run reads; the part of the data says of what."""

    def __init__(self, part: str):
        super().__init__(part)
        self.part = part


def to_millionths(values: Array) -> tuple[Array, Array]:
    """Floats in whole millionths, each the nearest to its shortest decimal, ties away from zero; and which of them are
    too great for a cell. These, infinities and NaN are missing.

    >>> millionths, great = to_millionths(np.array([0.1, -1.0000005, 0.0000004999, np.inf, -3e12]))
    >>> millionths[:3], (millionths[3:] == MISSING).all(), great[3:]
    (array([ 100000, -1000001,       0]), True, array([False,  True]))
    """
    finite = np.isfinite(values)
    great = finite & (np.abs(np.where(finite, values, 0)) > GREATEST)
    inside = finite & ~great
    used = np.where(inside, values, 0.0)
    whole = np.trunc(used)
    part = np.abs(used - whole) * MILLION
    low = np.floor(part)
    found: Array = np.abs(whole).astype("i8") * MILLION + (low + (part - low >= 0.5)).astype("i8")
    unsure = np.abs(part - low - 0.5) <= np.abs(used) * 2.3e-10 + 1e-9  # the last place of the float, and its product's
    for at in np.flatnonzero(unsure & inside):
        found[at] = int(Decimal(repr(abs(float(used[at])))).quantize(Decimal("0.000001"), ROUND_HALF_UP).scaleb(6))
    found[used < 0] *= -1
    found[~inside] = MISSING
    return found, great


class Records:
    """Writes the results of some terms session by session: numbers into a file of results beside the user's numbers,
    and labels behind the user's labels.

    Parameters
    ----------
    folder : Path
        Where the files are made.
    users : mapping of str to Path
        The user's files of numbers and labels, where there are.
    sids : array
        The sids of all columns.
    names : mapping of str to names
        Of a file that is in it the records of these names alone.

    Attributes
    ----------
    kept : dict of str to array
        Of these files the numbers of the records that are there, and of the header.
    """

    def __init__(
        self,
        folder: Path,
        users: Mapping[str, Path],
        sids: Array,
        names: Mapping[str, Iterable[str]] = MappingProxyType({}),
    ):
        self.sids = sids
        self.files: dict[str, Path] = {}
        self.count: dict[str, int] = {}
        self.known: dict[str, Array] = {}  # the newest results by name
        self.waiting: list[tuple[str, str, Array, Array]] = []  # names, days, columns and values that are to be written
        self.rows = 0
        self.folder, self.users, self.names = folder, users, names
        self.kept: dict[str, Array] = {}

    def put(self, name: str, day: str, columns: Array, values: Array) -> None:
        """The results of some columns on a session, in millionths."""
        known = self.known.setdefault(name, np.full(len(self.sids), MISSING))
        changed = values != known[columns]
        columns, values = columns[changed], values[changed]
        if not len(columns):
            return
        known[columns] = values
        self._counted("results", len(columns))
        self.waiting.append((name, day, columns, values))
        self.rows += len(columns)
        if self.rows >= ROWS:
            self.flush()

    def put_labels(self, name: str, day: str, columns: Array, labels: Array) -> None:
        """The texts of some columns on a session, where None is none."""
        known = self.known.setdefault(name, np.full(len(self.sids), None, dtype=object))
        changed = np.array([new != old for new, old in zip(labels, known[columns])], bool)
        columns, labels = columns[changed], labels[changed]
        known[columns] = labels
        self._counted("labels", len(columns))
        with open(self.files["labels"], "a", newline="", encoding="ascii") as file:
            rows = csv.writer(file, lineterminator="\n")
            rows.writerows((name, sid, day, label or "") for sid, label in zip(self.sids[columns].tolist(), labels))

    def flush(self) -> None:
        """Write all numbers that wait. Their order is free, so that those of equal length are written at once."""
        if not self.waiting:
            return
        with open(self.files["results"], "ab") as file:
            for name in dict.fromkeys(name for name, *_ in self.waiting):
                some = [(day, columns, values) for each, day, columns, values in self.waiting if each == name]
                days = np.repeat(np.arange(len(some)), [len(columns) for _, columns, _ in some])
                columns, values = (np.concatenate([each[at] for each in some]) for at in (1, 2))
                dates = _as_bytes([f",{day}," for day, _, _ in some])
                digits = _written(values)
                for first, end in self._widths():
                    sids = _as_bytes([f"{name},{sid}" for sid in self.sids[first:end].tolist()])
                    here = (columns >= first) & (columns < end)
                    for rows, ends in (
                        (here & (values != MISSING), digits),
                        (here & (values == MISSING), digits[:, :0]),
                    ):
                        at = np.flatnonzero(rows)
                        line = np.full((len(at), 1), ord("\n"), "u1")
                        lines: Array = np.hstack([sids[columns[at] - first], dates[days[at]], ends[at], line])
                        file.write(lines.data)
        self.waiting, self.rows = [], 0

    def _widths(self) -> list[tuple[int, int]]:
        """The columns whose sids have equally many digits, which are beside each other."""
        digits = [len(str(sid)) for sid in self.sids.tolist()]
        bounds = [at for at in range(1, len(digits)) if digits[at] != digits[at - 1]]
        return list(zip([0, *bounds], [*bounds, len(digits)]))

    def _counted(self, part: str, count: int) -> None:
        """Count records, behind those of the user's file, which are there before the first."""
        if part not in self.files:
            self._begin(part)
        self.count[part] += count
        if self.count[part] > MOST[part]:
            raise TooMany(USERS[part])

    def _begin(self, part: str) -> None:
        """Begin the file of a part; where the user's numbers have no room beside results, also one of some of them."""
        own = USERS[part]
        user, names = self.users.get(own), self.names.get(own)
        if own == part or names is None:
            self.files[part] = self.folder / f"{part}.csv"
            self.count[part], kept = _begin(user if own == part else None, self.files[part], own, names)
        else:
            self.files[own], self.files[part] = self.folder / f"{own}.csv", self.folder / f"{part}.csv"
            self.count[part], kept = _begin(user, self.files[own], own, names)
            _begin(None, self.files[part], own, None)
        if kept is not None:
            self.kept[own] = kept

    def open(self, part: str) -> None:
        """Make the file of a part, which may get no record."""
        self._counted(part, 0)


def stamp(path: Path) -> Stamp:
    """What tells a file from what is written in its place."""
    try:
        found = os.stat(path)
    except OSError:
        raise ReadFault(f"read: {path}") from None
    return str(path), found.st_ino, found.st_size, found.st_mtime_ns


@lru_cache(64)
def _count(file: Stamp) -> int:
    """How many lines a file has, the last one with or without its end."""
    count, block = 0, b"\n"
    with open(file[0], "rb") as source:
        while more := source.read(1 << 22):
            block = more
            count += block.count(b"\n")
    return count + (not block.endswith(b"\n"))


def _begin(user: Optional[Path], path: Path, part: str, names: Optional[Iterable[str]]) -> tuple[int, Optional[Array]]:
    """Begin a file with the user's records, of all names or of these, or with the header alone: how many there are, and
    where not all are there, the numbers that they and the header have in the user's file.
    """
    if user is None:
        path.write_text(f"{','.join(HEADERS[part])}\n")
        return 0, None
    count = _count(stamp(user))
    if names is not None:
        with open(user, "rb") as source, open(path, "wb") as file:
            numbers = _put_some(source.read(), file, names)
        return len(numbers) - 1, numbers
    if count > MOST[part] + 1:
        raise TooMany(part)
    shutil.copyfile(user, path)  # within the kernel, where it can
    with open(path, "rb+") as file:
        if file.seek(0, os.SEEK_END) and file.seek(-1, os.SEEK_END) and file.read(1) != b"\n":
            file.write(b"\n")
    return max(count - 1, 0), None


def _put_some(text: bytes, file: IO[bytes], names: Iterable[str]) -> Array:
    """Write the header, and the records of some names; their numbers among the records of the text.

    >>> out = io.BytesIO()
    >>> _put_some(b'name,sid\\n\\nab,1\\nabc,2\\n"ab",3', out, ["ab"]), out.getvalue()
    (array([1, 2, 4]), b'name,sid\\nab,1\\n"ab",3\\n')
    """
    text += b"" if text.endswith(b"\n") else b"\n"
    signs = np.frombuffer(text + b"\n" * 80, "u1")
    ends = np.flatnonzero(signs[: len(text)] == ord("\n"))
    starts = np.append(0, ends[:-1] + 1)
    is_record = ends - starts - (signs[ends - 1] == ord("\r")) > 0
    kept = is_record & (np.cumsum(is_record) == 1)
    for first in (form % name.encode() for name in names for form in (b"%s,", b'"%s",')):
        at = np.flatnonzero(is_record)
        for place, sign in enumerate(first):
            at = at[signs[starts[at] + place] == sign]
        kept[at] = True
    stretches = np.flatnonzero(np.diff(kept, prepend=False, append=False))
    places = np.append(starts, len(text))[stretches]
    file.writelines(memoryview(text)[a:b] for a, b in places.reshape(-1, 2))
    numbers: Array = np.cumsum(is_record)[kept]
    return numbers


def _as_bytes(texts: list[str]) -> Array:
    """Texts of one length as rows of bytes."""
    rows: Array = np.frombuffer("".join(texts).encode(), "u1").reshape(len(texts), -1)
    return rows


def _written(values: Array) -> Array:
    """Millionths as decimals of one width, with zeros in front.

    >>> [row.tobytes() for row in _written(np.array([-1500000, 12, 123456789]))]
    [b'-00001.500000', b'000000.000012', b'000123.456789']
    """
    left: Array = np.abs(np.where(values == MISSING, 0, values))
    groups = max(-(-(len(str(int(left.max(initial=0)))) + 1) // 4), 3)
    digits = np.empty((len(values), groups), "u4")
    for group in range(groups - 1, -1, -1):
        higher = left // 10_000
        digits[:, group] = FOUR[left - higher * 10_000]
        left = higher
    places = digits.view("u1").reshape(len(values), 4 * groups)
    rows = np.empty((len(values), 4 * groups + 1), "u1")
    rows[:, :-7], rows[:, -7], rows[:, -6:] = places[:, :-6], ord("."), places[:, -6:]
    rows[values < 0, 0] = ord("-")
    return rows


def as_labels(values: Array, missing: Any) -> Array:
    """What a classifier computed, as the program's labels, with None for none."""
    found = np.full(len(values), None, dtype=object)
    for at, value in enumerate(values.tolist()):
        if value is None or value != value or value == missing or value == "":
            continue
        if isinstance(value, str) and not (value.isascii() and value.isprintable() and len(value) <= LONGEST):
            raise ValueError(f"{value!r} is no label, which has at most {LONGEST} signs, of ASCII")
        if not isinstance(value, (str, int)) or isinstance(value, bool):
            raise TypeError(f"{value!r} is no label, which is a text: with dtype = int64 it may be a whole number")
        found[at] = str(value)
    return found
