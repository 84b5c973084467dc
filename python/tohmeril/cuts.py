"""The files that a piece of a range reads, cut from larger ones in one pass, with memory for a block of bars.

Beside each cut file stand the numbers that its records have in the whole file, for faults.
"""

from __future__ import annotations

import csv
import io
import os
import shutil
import sqlite3
import zlib
from contextlib import closing, contextmanager
from itertools import islice
from pathlib import Path
from tempfile import TemporaryDirectory
from typing import TYPE_CHECKING, Any, Callable, Container, Iterator, NamedTuple, Optional, Sequence, Union

import numpy as np
import pandas as pd

from ._order import order_of
from .data import CREATE, FILES, HEADERS, SECONDS, TABLES, Data, readable, records
from .faults import DataFault, ReadFault, StoreFault
from .plans import Piped, as_script, traced

if TYPE_CHECKING:
    Array = np.ndarray[Any, Any]

BLOCK = 8 << 20  # bytes of bars at a time
SINCE = {
    "labels": "start",
    "numbers": "known",
}  # the day from which on a record of these files holds, until the next one of its name


class Span(NamedTuple):
    """A piece: its folder, the first session whose bars it reads, its last one, and the assets that exist between."""

    folder: Path
    first: str
    last: str
    sids: frozenset[str]


class Keys(NamedTuple):
    """A field of lines: its text is that of its code."""

    codes: Array
    texts: list[str]


def cut_files(pipeline: Piped, data: Data, ranges: Sequence[tuple[str, str]], folder: Path) -> list[Data]:
    """For each range of sessions, the files with what a pipeline reads for it and no more, and all sessions."""
    script = as_script(pipeline)
    for part, path in data.files.items():
        if part != "adjustments" and not os.access(path, os.R_OK):
            raise ReadFault(f"read: {path}")
    tables = {part: _table(data, part) for part in ("assets", "labels", "numbers", "revisions") if part in data.files}
    assets = tables["assets"]
    spans = []
    for at, (start, end) in enumerate(ranges):
        with traced(script, data):
            first = data.sessions[order_of(script, start, end, data).reach]
        spans.append(
            Span(folder / str(at), first, end, frozenset(assets.sid[(assets.start < end) & (assets.end >= first)]))
        )
    for span in spans:
        span.folder.mkdir()
        shutil.copyfile(data.files["sessions"], span.folder / FILES["sessions"])
        for part, table in tables.items():
            rows = table[_kept(part, table, span)].sort_index()
            rows.to_csv(span.folder / FILES[part], index=False)
            np.append(1, rows.index + 1).astype("i8").tofile(span.folder / f"{part}.records")
        if "adjustments" in data.files:
            _adjustments(data.files["adjustments"], span)
    _bars(data, spans, pd.Index(assets.sid.unique()))
    return [_laid(span.folder, data.files) for span in spans]


def of_whole(fault: DataFault, data: Data, piece: Data) -> DataFault:
    """A fault of a piece's file, as one of the file that this was cut from."""
    assert fault.path is not None and fault.record is not None  # it is the program's
    part = {name: part for part, name in FILES.items()}[Path(fault.path).name]
    records = piece.folder / f"{part}.records"
    return fault.moved(
        data.files[part], int(np.fromfile(records, "i8")[fault.record - 1]) if records.exists() else fault.record
    )


def packed(data: Data) -> dict[str, bytes]:
    """The files of a piece, compressed, which go with its task to a worker on another machine."""
    return {part: zlib.compress(path.read_bytes(), 1) for part, path in data.files.items()}


@contextmanager
def unpacked(data: Union[Data, dict[str, bytes]]) -> Iterator[Data]:
    """The data, whose files are laid in a temporary folder where they came with the task."""
    if isinstance(data, Data):
        yield data
        return
    with TemporaryDirectory() as folder:
        for part, content in data.items():
            Path(folder, FILES[part]).write_bytes(zlib.decompress(content))
        yield _laid(folder, data)


def _laid(folder: Union[str, Path], parts: Container[str]) -> Data:
    """The data of a piece, without adjustments where the whole has none."""
    return Data(folder) if "adjustments" in parts else Data(folder, adjustments=None)


def _table(data: Data, part: str) -> pd.DataFrame:
    """The records of a file as texts, by their numbers less 1, and by day where they hold from a day on."""
    path, header, rows = data.files[part], HEADERS[part], records(data.files[part])
    if next(rows, None) != header:
        raise DataFault(f"{path}:1: data BadHeader")
    columns: dict[str, list[str]] = {name: [] for name in header}
    once: dict[str, str] = {}  # equal texts are one, since there may be millions
    while block := list(islice(rows, 1 << 16)):
        for at, row in enumerate(block, len(columns["sid"]) + 2):
            if len(row) != len(header):
                raise DataFault(f"{path}:{at}: data BadField")
        for column, fields in zip(columns.values(), zip(*block)):
            column.extend(map(once.setdefault, fields, fields))
    table = pd.DataFrame(columns, dtype=object)
    table.index += 1
    return (
        table.sort_values(SINCE[part], kind="stable", key=lambda days: days.astype("category").cat.codes)
        if part in SINCE
        else table
    )


def _kept(part: str, table: pd.DataFrame, span: Span) -> pd.Series:
    """Which records of a table a piece reads."""
    kept = table.sid.isin(span.sids)
    if part in SINCE:  # those that begin within the piece, and the newest ones before it
        since = table[SINCE[part]]
        kept &= since <= span.last
        old = table[kept & (since <= span.first)]
        kept &= (since > span.first) | table.index.isin(old.drop_duplicates(["name", "sid"], keep="last").index)
    if part == "revisions":
        kept &= (table.session >= span.first) & (table.session < span.last) & (table.known <= span.last)
    return kept


def _bars(data: Data, spans: Sequence[Span], assets: pd.Index) -> None:
    """Copy the lines of the bars file into the pieces that read them, block by block.

    The header, and a line of an unknown asset or session, go into each piece, where the program judges them.
    """
    sessions, last = pd.Index(data.sessions), 0  # the number of the last record
    pieces = [
        (span.folder, np.append(assets.isin(span.sids), False), *sessions.get_indexer([span.first, span.last]))
        for span in spans
    ]
    for folder, *_ in pieces:
        (folder / FILES["bars"]).touch()
    with open(data.files["bars"], "rb") as bars:
        while block := bars.read(BLOCK):
            block += bars.readline()
            block += b"" if block.endswith(b"\n") else b"\n"
            text = np.frombuffer(block, "u1")
            ends = np.flatnonzero(text == ord("\n"))
            lengths = np.diff(ends, prepend=-1)
            is_record = lengths - (text[ends - 1] == ord("\r")) > 1
            numbers = last + np.cumsum(is_record, dtype="i8")
            last = numbers[-1]
            sids, days = _plain_keys(text, ends, lengths) or _any_keys(block)
            asset, session = _places(sids, assets), _places(days, sessions)
            unknown = (asset < 0) | (session < 0) | (numbers == 1)
            places = np.append(0, ends + 1)
            for folder, mine, first, end in pieces:
                kept = is_record & (mine[asset] & (session >= first) & (session < end) | unknown)
                if kept.any():
                    stretches = np.flatnonzero(np.diff(kept, prepend=False, append=False))
                    with open(folder / FILES["bars"], "ab") as out, open(folder / "bars.records", "ab") as whole:
                        out.writelines(memoryview(block)[a:b] for a, b in places[stretches].reshape(-1, 2))
                        whole.write(memoryview(numbers[kept]))  # tofile turns Ctrl-C into a TypeError


def _plain_keys(text: Array, ends: Array, lengths: Array) -> Optional[tuple[Keys, Keys]]:
    """The sids and the days of lines of seven fields that begin as the program writes them.

    None where one line of the block is another.
    """
    commas, starts = np.flatnonzero(text == ord(",")), ends - lengths + 1
    if len(commas) != 6 * len(ends):
        return None
    first, second, last = commas[::6], commas[1::6], commas[5::6]
    width = first - starts
    if (first < starts).any() or (last > ends).any() or (second - first != 11).any():
        return None
    if (
        width.min() < 1
        or width.max() > 10
        or (text[first + 5] != ord("-")).any()
        or (text[first + 8] != ord("-")).any()
    ):
        return None
    sids, days, none = np.zeros(len(ends), "i8"), np.zeros(len(ends), "i8"), np.zeros(len(ends), bool)
    for at in range(int(width.max())):
        digits = np.where(at < width, text[np.minimum(starts + at, first)], ord("0")) - np.uint8(ord("0"))
        none |= digits > 9
        sids = np.where(at < width, sids * 10 + digits, sids)
    for place in (1, 2, 3, 4, 6, 7, 9, 10):
        digits = text[first + place] - np.uint8(ord("0"))
        none |= digits > 9
        days = days * 10 + digits
    if none.any() or ((text[starts] == ord("0")) & (width > 1)).any():
        return None
    return _distinct(sids, str), _distinct(days, _as_day)


def _as_day(number: int) -> str:
    """The day of a number YYYYMMDD, which need not be one.

    >>> _as_day(20240102)
    '2024-01-02'
    """
    return f"{number // 10_000:04}-{number // 100 % 100:02}-{number % 100:02}"


def _any_keys(block: bytes) -> tuple[Keys, Keys]:
    """The first two fields of lines of any form."""
    keys = pd.read_csv(
        io.BytesIO(block),
        header=None,
        names=["sid", "session"],
        usecols=[0, 1],
        index_col=False,
        dtype="category",
        quoting=csv.QUOTE_NONE,
        keep_default_na=False,
        skip_blank_lines=False,
        lineterminator="\n",
        encoding_errors="replace",
    )
    sids, days = (
        Keys(key.cat.codes.to_numpy(), [str(text).strip('"') for text in key.cat.categories])
        for key in (keys.sid, keys.session)
    )
    return sids, days


def _distinct(numbers: Array, text: Callable[[int], str]) -> Keys:
    """Numbers as keys, by the texts of the distinct ones."""
    codes, distinct = pd.factorize(numbers)
    return Keys(codes, list(map(text, distinct.tolist())))


def _places(keys: Keys, known: pd.Index) -> Array:
    """The places of keys among the known ones; -1 for one that is not."""
    places: Array = np.append(known.get_indexer(keys.texts), -1)
    found: Array = places[keys.codes]
    return found


def _adjustments(source: Path, span: Span) -> None:
    """Copy the adjustments of days after the first bar that is read and up to the last session."""
    days = [int(pd.Timestamp(day).timestamp()) + SECONDS for day in (span.first, span.last)]
    try:
        with readable(source) as name, closing(sqlite3.connect(span.folder / FILES["adjustments"], uri=True)) as store:
            store.execute("ATTACH ? AS source", (name,))
            for table in TABLES:
                store.execute(CREATE.format(table))
                store.execute(
                    f"INSERT INTO {table} SELECT id, effective_date, num, den, sid FROM source.{table} "
                    "WHERE effective_date >= ? AND effective_date < ?",
                    days,
                )
            store.commit()
    except sqlite3.Error as error:
        raise StoreFault(f"store: {source}") from error
