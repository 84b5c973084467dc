"""What looks odd in data though it is lawful: most of it shows later as an empty or a wrong column, and the program is
silent.
"""

from __future__ import annotations

import sqlite3
from contextlib import closing
from typing import TYPE_CHECKING, Any, Container, Iterable, Iterator, NamedTuple, Optional, Sequence

import numpy as np
import pandas as pd

from . import program
from ._order import names_in
from .data import SECONDS, TABLES, Data, readable
from .faults import LimitFault, StoreFault
from .pipeline.script import BARS
from .plans import Piped, Source, as_data, as_script

if TYPE_CHECKING:
    Array = np.ndarray[Any, Any]

NEAR = 1e10  # a tenth of the greatest cell
PROBE = "pipeline 1;\ncolumn one = 1;\nscreen 1 > 2;\n"
BLOCK = 250_000  # records at a time
SINCE = {"labels": "start", "numbers": "known"}  # the column with the day from which on a record holds
GREAT = 1.8  # a factor between two closes that few days have
LIKE = 0.05  # how near to a half, a third, .. a fall by a split is: the price moves on that day, too
PLAIN = 1.2  # the least factor of a split that a usual day does not hide
NO_NAMES = {"", "nan", "NaN", "NaT", "None", "<NA>"}  # what a missing symbol becomes as a text


def check(
    data: Source, pipelines: Sequence[Piped] = (), table: Optional[pd.DataFrame] = None, lacking: Container[str] = ()
) -> list[str]:
    """Let the program judge all files, whose fault is raised, and list what looks odd.

    It reads the bars in blocks, while the program does, and keeps of each asset the newest close.

    Parameters
    ----------
    data : Data, str or Path
        The data, or their folder, which need not be in its place yet.
    pipelines : sequence of Pipeline, str or Path
        All pipelines that are run over the data: with them, labels and numbers that none of them names, and names
        without labels or numbers, are listed.
    table : DataFrame, optional
        A frame of `run_pipeline`: its columns without any value are listed.
    lacking : sequence of str
        The columns of bars that may be empty, as those are that were not given.

    Returns
    -------
    list of str
        A sentence for each oddity, which begins with its file; empty where nothing looks odd.

    Raises
    ------
    Fault
        What the program says of the files.
    StoreFault
        Where the tables of the adjustments can't be read.
    """
    if table is not None and not isinstance(table, pd.DataFrame):
        raise TypeError(f"table is a frame of run_pipeline, and not {table!r}")
    return [*check_files(as_data(data), pipelines, lacking), *_columns(table)]


def check_files(
    data: Data,
    pipelines: Sequence[Piped] = (),
    lacking: Container[str] = (),
    bars: Optional[Iterable[pd.DataFrame]] = None,
) -> list[str]:
    """What `check` finds in the files; the bars are in these frames, one after the other, else in their file."""
    found: list[str] = []
    failed: Optional[Exception] = None
    last = data.sessions[-1] if data.sessions else "1970-01-01"
    try:
        with data.steady(), program.file(PROBE) as name:
            with program.stream(["run", name, *data.names, last, last, *data.options]) as judged:
                try:
                    found += _looked(data, pipelines, lacking, _blocks(data) if bars is None else bars)
                except Exception as error:  # the program says better what is wrong in a file
                    failed = error
                judged.read()
    except LimitFault as fault:  # the rest can be looked at all the same
        found.insert(0, str(fault).replace("\n", ": "))
    if failed is not None:
        raise failed
    return found


def _looked(
    data: Data, pipelines: Sequence[Piped], lacking: Container[str], blocks: Iterable[pd.DataFrame]
) -> Iterator[str]:
    """What looks odd in the files."""
    if not data.sessions:
        return
    assets = pd.read_csv(data.files["assets"], dtype={"sid": "int64", "start": str, "end": str})
    adjustments = _adjustments(data, assets.sid)
    bars = _Bars(data, assets.sid, adjustments)
    for block in blocks:
        bars.add(block)
    yield from _sessions(data)
    yield from _lives(data, assets)
    yield from _symbols(data)
    yield from bars.oddities(lacking)
    yield from _acting(data, assets, adjustments)
    for part in SINCE:
        yield from _dated(data, pipelines, part)


def _sessions(data: Data) -> Iterator[str]:
    days = pd.DatetimeIndex(data.sessions)
    names = days.day_name()
    for name, other in (("Saturday", "Sunday"), ("Sunday", "Saturday")):
        free = days[names == name]
        if len(free) and (names == other).mean() < 0.1:  # else it is a market that trades on all days
            yield (
                f"sessions: {len(free)} of {len(days)} are a {name}, as {free[0]:%Y-%m-%d}: a day in UTC is another "
                "one east of it, so give days of the exchange's own clock"
            )


def _lives(data: Data, assets: pd.DataFrame) -> Iterator[str]:
    last = data.sessions[-1]
    never = assets[(assets.end < data.sessions[0]) | (assets.start >= last)]
    if len(never):
        first = never.iloc[0]
        yield (
            f"assets: {len(never)} of {len(assets)} exist on no session, as {_asset(data, first.sid)} after "
            f"{first.start} up to {first.end}"
        )
    ending = (assets["end"] == last).sum()
    if ending:
        yield (
            f"assets: {ending} of {len(assets)} end on the last session, {last}: they have no row on the next one; "
            "if they still trade, give an end far ahead"
        )
    halted = assets[(assets.end < last) & (assets.end >= data.sessions[-6:][0]) & (assets.end >= data.sessions[0])]
    if len(halted):
        yield (
            f"assets: {len(halted)} of {len(assets)} end within the five sessions before the last one, as "
            f"{_asset(data, halted.sid.iloc[0])} on {halted.end.iloc[0]}: if trading was halted alone, give an end far "
            "ahead"
        )


def _symbols(data: Data) -> Iterator[str]:
    if data.symbols is None:
        return
    rows = pd.read_csv(data.files["symbols"], dtype=str, keep_default_na=False)
    yield from (
        f"symbols: the sid {sid} is called {symbol!r}, as a missing value is"
        for sid, symbol in zip(rows.sid, rows.symbol)
        if symbol in NO_NAMES
    )
    for name, other, told in (("sid", "symbol", "{1} have the sid {0}"), ("symbol", "sid", "{0} has the sids {1}")):
        twice = rows[rows.duplicated(name, keep=False)]
        if len(twice):
            same = twice[twice[name] == twice[name].iloc[0]]
            more = twice[name].nunique() - 1
            yield f"symbols: {told.format(same[name].iloc[0], ' and '.join(same[other]))}" + (
                f", and so {more} more" if more else ""
            )


def _asset(data: Data, sid: int) -> str:
    """An asset as the reader knows it."""
    return str(sid) if data.symbols is None else str(dict(zip(data.symbols.index, data.symbols)).get(sid, sid))


def _blocks(data: Data) -> Iterator[pd.DataFrame]:
    """The bars, some records at a time."""
    types = {"sid": "int64", "session": "category", **dict.fromkeys(BARS, "float64")}
    with pd.read_csv(data.files["bars"], dtype=types, chunksize=BLOCK, low_memory=False) as blocks:
        yield from blocks


class _Change(NamedTuple):
    """The closes of an asset on two sessions, one after the other as far as it has closes."""

    asset: int
    session: int
    before: float
    after: float


class _Bars:
    """What is odd in bars that are added block by block. Those of an asset are compared where they come by session."""

    def __init__(self, data: Data, sids: pd.Series, adjustments: pd.DataFrame):
        self.data, self.sids, self.sessions = data, pd.Index(np.unique(sids)), pd.Index(data.sessions)
        self.close = np.full(len(self.sids), np.nan)  # the newest one of each asset, and its session
        self.place = np.full(len(self.sids), -1)
        self.greatest = np.full(len(BARS) + 1, np.nan)  # of the columns, and of close * volume
        self.zeros, self.zero, self.steps, self.step = 0, "", 0, ""
        self.width = len(self.sessions) + 1  # a key is the place of the asset times this and that of the session
        acting = adjustments[adjustments.asset >= 0]
        keys = acting.asset.to_numpy() * self.width + np.searchsorted(data.sessions, acting.day.to_numpy(str))
        order = np.argsort(keys, kind="stable")
        self.keys, self.logs = keys[order], np.append(0, np.cumsum(np.log(acting.ratio.to_numpy())[order]))
        plain = (acting.table == "splits").to_numpy() & (np.abs(np.log(acting.ratio.to_numpy())) > np.log(PLAIN))
        self.splits, self.split_keys = acting[plain], keys[plain]
        self.seen, self.flat, self.first_flat = 0, 0, ""  # splits, and those without a fall or a rise

    def add(self, block: pd.DataFrame) -> None:
        """Look at some bars."""
        cells = [block[name].to_numpy() for name in BARS]
        self.greatest = np.fmax(
            self.greatest, [np.fmax.reduce(each, initial=np.nan) for each in (*cells, cells[3] * cells[4])]
        )
        zero = np.logical_or.reduce([each == 0 for each in cells[:4]])
        if zero.any():
            at = int(zero.argmax())
            self.zero = self.zero or f"{_asset(self.data, block.sid.iloc[at])} on {block.session.iloc[at]}"
            self.zeros += int(zero.sum())
        asset = self.sids.get_indexer(block.sid)
        place = np.append(self.sessions.get_indexer(block.session.cat.categories), -1)[block.session.cat.codes]
        close = block.close.to_numpy()
        keys = asset * self.width + place
        kept = (close > 0) & (asset >= 0) & (place >= 0)
        if not kept.all():
            asset, place, close, keys = asset[kept], place[kept], close[kept], keys[kept]
        if not len(keys):
            return
        if (keys[1:] < keys[:-1]).any():
            order = np.argsort(keys, kind="stable")
            asset, place, close, keys = asset[order], place[order], close[order], keys[order]
        self._compare(asset, place, close, keys)

    def _compare(self, asset: Array, place: Array, close: Array, keys: Array) -> None:
        """Compare each close with the one before it, by asset and session."""
        first = np.flatnonzero(np.append(True, asset[1:] != asset[:-1]))
        before, since = np.append(np.nan, close[:-1]), np.append(-1, place[:-1])
        before[first], since[first] = self.close[asset[first]], self.place[asset[first]]
        before[since >= place] = np.nan  # another order than by session
        newest = np.append(first[1:], len(asset)) - 1
        newest = newest[place[newest] > self.place[asset[newest]]]
        self.close[asset[newest]], self.place[asset[newest]] = close[newest], place[newest]
        change = close / before
        great = np.flatnonzero((change < 1 / GREAT) | (change > GREAT))
        low = np.searchsorted(self.keys, keys[great] - place[great] + since[great], "right")
        high = np.searchsorted(self.keys, keys[great], "right")
        rest = change[great] / np.exp(self.logs[high] - self.logs[low])  # without what the adjustments explain
        times = np.maximum(rest, 1 / rest)
        steps = great[(times > GREAT) & (np.abs(times / np.round(times) - 1) < LIKE)]
        self.steps += len(steps)
        for at in steps[:1]:
            self.step = self.step or self._told(_Change(asset[at], place[at], before[at], close[at]))
        at = np.minimum(np.searchsorted(keys, self.split_keys), len(keys) - 1)
        own = (asset[at] == self.split_keys // self.width) & (keys[at] >= self.split_keys)
        here = own & (since[at] < self.split_keys % self.width) & ~np.isnan(before[at])
        for row, pair in zip(self.splits[here].itertuples(), at[here].tolist()):
            self.seen += 1
            if abs(np.log(change[pair])) < abs(np.log(change[pair] / row.ratio)):
                self.flat += 1
                told = self._told(_Change(asset[pair], place[pair], before[pair], close[pair]))
                self.first_flat = self.first_flat or f"{told}, with {row.den}:{row.num}"

    def _told(self, change: _Change) -> str:
        asset = _asset(self.data, self.sids[change.asset])
        return f"{asset} on {self.sessions[change.session]} from {change.before:.12g} to {change.after:.12g}"

    def oddities(self, lacking: Container[str]) -> Iterator[str]:
        """What was seen."""
        for name, greatest in zip([*BARS, "close * volume"], self.greatest):
            if np.isnan(greatest) and name != "close * volume" and name not in lacking:
                yield f"bars: the column {name} is empty"
            elif greatest > NEAR:
                yield (
                    f"bars: {name} goes up to {greatest:.0f}, and what passes 100000000000 is missing: give the "
                    "volume in thousands, or prices in a greater unit"
                )
        if self.zeros:
            yield f"bars: {self.zeros} with a price of 0, as that of {self.zero}: leave a missing one empty"
        if self.steps:
            often = "once" if self.steps == 1 else f"{self.steps} times"
            yield (
                f"bars: {often} a close falls to about a half, a third, .. or rises to the double, the triple, .. "
                f"without a split, as that of {self.step}: give the splits, or see whether the bar is of another asset"
            )
        if self.flat:
            yield f"splits: {self.flat} of {self.seen} show no fall or rise on their day, as {self.first_flat}: " + (
                "these prices are adjusted already, so that each split counts twice: give the raw close (in Sharadar "
                "closeunadj, in CRSP PRC), or leave out the splits"
                if self.flat > self.seen / 2
                else "is the day another, are these prices adjusted already, or is the ratio turned?"
            )


def _adjustments(data: Data, sids: pd.Series) -> pd.DataFrame:
    """The rows of all tables: table, sid, asset (the sid's place among all, or -1), seconds, day, num, den, ratio."""
    parts = {}
    path = data.files.get("adjustments")
    if path is not None:
        try:
            with readable(path) as name, closing(sqlite3.connect(name, uri=True)) as store:
                for table in TABLES:
                    rows = store.execute(f"SELECT sid, effective_date, num, den FROM {table}").fetchall()
                    parts[table] = np.array(rows, dtype="int64").reshape(-1, 4)
        except (sqlite3.Error, TypeError, ValueError, OverflowError) as error:
            fault = StoreFault(f"store: {path}")
            fault.note = fault.note or f"in the table {TABLES[len(parts)]}: {error}"
            raise fault from None
    rows = np.concatenate([*parts.values(), np.empty((0, 4), "int64")])
    found = pd.DataFrame(rows, columns=["sid", "seconds", "num", "den"])
    days = (found.seconds // SECONDS).clip(-30_000, 100_000).to_numpy().astype("datetime64[D]").astype(str)
    found = found.assign(
        table=np.repeat(list(parts), [len(each) for each in parts.values()]) if parts else "", day=days
    )
    return found.assign(
        ratio=found.num.clip(lower=1) / found.den.clip(lower=1), asset=pd.Index(np.unique(sids)).get_indexer(found.sid)
    )


def _acting(data: Data, assets: pd.DataFrame, adjustments: pd.DataFrame) -> Iterator[str]:
    """Adjustments that do nothing, or act twice."""
    for name in TABLES:
        rows = adjustments[adjustments.table == name]
        unknown = ~rows.sid.isin(assets.sid)
        if unknown.any():
            yield (
                f"{name}: {unknown.sum()} of {len(rows)} are of unknown sids, as {rows.sid[unknown].iloc[0]}, and do "
                "nothing"
            )
        if (rows.seconds.abs() < 100_000).any():
            yield (
                f"{name}: effective dates as {rows.seconds.iloc[0]} look like days and are read as seconds since "
                "1970-01-01"
            )
        elif (
            len(rows) and not ((rows.day > data.sessions[0]) & (rows.day <= data.sessions[-1])).any()
        ):  # on bars of earlier days
            yield f"{name}: none of {len(rows)} falls within the bars, so that none does anything"
        twice = rows[rows.duplicated(["sid", "day"] if name == "splits" else ["sid", "day", "num", "den"])]
        if len(twice):
            yield (
                f"{name}: {len(twice)} of {len(rows)} are there twice, as that of {_asset(data, twice.sid.iloc[0])} on "
                f"{twice.day.iloc[0]}, so that it acts twice"
            )


def _dated(data: Data, pipelines: Sequence[Piped], part: str) -> Iterator[str]:
    """Labels or numbers that no pipeline names, names without any, and days that are none of publication."""
    named = {name for pipeline in pipelines for name in names_in(as_script(pipeline), part)}
    rows = pd.DataFrame({"name": [], SINCE[part]: []}, dtype=str)
    if part in data.files:
        blocks = pd.read_csv(
            data.files[part], usecols=["name", SINCE[part]], dtype="category", na_filter=False, chunksize=BLOCK
        )
        rows = pd.concat([block.drop_duplicates().astype(str) for block in blocks] or [rows]).drop_duplicates()
    there = set(rows["name"])
    if pipelines:
        yield from (f"{part}: no pipeline names {name!r}" for name in sorted(there - named))
    yield from (
        f"{part}: there are none of the name {name!r}, so that its column is empty" for name in sorted(named - there)
    )
    sessions = pd.Series(data.sessions, dtype=str)
    closing_days = set(sessions.groupby(sessions.str[:7]).max())  # the last sessions of months
    for name, days in rows.groupby("name")[SINCE[part]]:
        later = days[days > sessions.min()] if part == "labels" else days  # labels often begin with the data
        if len(later) > 2 and (pd.to_datetime(later).dt.is_month_end | later.isin(closing_days)).all():
            yield (
                f"{part}: {name!r} is known on the last days of months alone, as periods end: give the days of "
                "publication"
            )
        if (days.str[:4] == "1970").all() and sessions.min() > "1971":
            yield f"{part}: {name!r} has days of 1970 alone: whole numbers as 20240202 may have been read as seconds"
        elif (days > sessions.max()).all():
            yield f"{part}: {name!r} begins after the last session, so that none sees it"


def _columns(table: Optional[pd.DataFrame]) -> Iterator[str]:
    for name, cells in {} if table is None else table.items():
        some = cells != -1 if cells.dtype == "int64" else cells if cells.dtype == bool else cells.notna()
        if not some.any():
            yield f"table: the column {name!r} has no value"
