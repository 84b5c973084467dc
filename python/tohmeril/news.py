"""What comes after the last session of a folder, added so that no row that was shown changes."""

from __future__ import annotations

import mmap
import os
import shutil
import sqlite3
import warnings
from contextlib import closing
from pathlib import Path
from typing import TYPE_CHECKING, Any, Container, Iterable, Mapping, NamedTuple, Optional, Sequence, Union

import numpy as np
import pandas as pd

from . import program
from .bars_file import AnyBars, Bars, as_number, as_text, gathered
from .data import FILES, HEADERS, NEEDED, SECONDS, TABLES, Data, readable, records
from .days import Day, read_day
from .faults import DataFault, LimitFault, ReadFault, StoreFault
from .folder import as_path, lost, writing
from .frames import FOREVER, Sids, late_parts, read_symbols, require_unique, select_columns
from .ingest import add_adjustments, adjustments, beside_bars, calendar, of_parts, write_records
from .odd import PROBE
from .pipeline.script import BARS
from .values import and_others

if TYPE_CHECKING:
    Array = np.ndarray[Any, Any]

FIRST = {"labels": "start", "numbers": "known", "revisions": "known"}  # the day from which on sessions see a record
LISTED = 5  # assets in a sentence


class Store(NamedTuple):
    """What a folder has before news are added: its data, its last session, its lifetimes by sid."""

    data: Data
    last: str
    lives: pd.DataFrame


def append(
    folder: Union[str, Path],
    bars: Optional[AnyBars] = None,
    *,
    sessions: Optional[Iterable[Day]] = None,
    assets: Optional[pd.DataFrame] = None,
    splits: Optional[pd.DataFrame] = None,
    mergers: Optional[pd.DataFrame] = None,
    dividends: Optional[pd.DataFrame] = None,
    labels: Union[pd.DataFrame, Mapping[Any, Any], None] = None,
    revisions: Optional[pd.DataFrame] = None,
    numbers: Union[pd.DataFrame, Mapping[Any, Any], None] = None,
    symbols: Optional[Mapping[str, int]] = None,
    after_close: Union[bool, str, Iterable[str]] = (),
    late: Optional[Day] = None,
) -> Data:
    """Add what came since the last session of a folder, at once, and as seen from then on alone.

    The table of a session is computed as of its morning. So the rows of all sessions up to the last one stay as they
    are where bars are of that session or of later ones, where adjustments are effective, labels begin and numbers and
    revisions are known later, and where no asset begins or ends earlier. All else is refused, with a sentence, and
    the folder stays as it was. Rows of all appends, each up to its last session, are those of one `write` of all.

    Parameters
    ----------
    folder : str or Path
    bars : as of `tohmeril.ingest.write`, optional
        Bars of the last session, where it has none yet, and of later ones. An asset without a bar goes on, and one
        that is new begins on the day of its first bar.
    sessions : iterable of days, optional
        The next sessions; without it the days of the bars after the last session. A job of each morning gives today,
        and the bars of the session before.
    assets : DataFrame, optional
        sid, start, end of new assets, and of those that get another end.
    splits, mergers, dividends, labels, revisions, numbers :
        As of `tohmeril.ingest.write`: what is new alone.
    symbols : mapping of str to int, optional
        Sids of new symbols; without it the next ones after the greatest sid, in alphabetic order.
    after_close : str or iterable of str, optional
        As of `tohmeril.ingest.write`.
    late : day, optional
        Bars of sessions before the last one are taken as revisions that are known on this day; without it they are
        refused.

    Returns
    -------
    Data
        Its `added` says how many records of each part were added.

    Raises
    ------
    DataFault
        News that would change what was shown, or that are there already, or that the program refuses.
    """
    folder, given = as_path(folder), {"splits": splits, "mergers": mergers, "dividends": dividends}
    with writing(folder, list(FILES.values())) as new:
        store = _opened(folder)
        early: list[pd.DataFrame] = []
        with gathered(new, () if bars is None else bars, kept=lambda rows: _kept(rows, store, late, early)) as found:
            lives = None if assets is None else select_columns(assets, "assets")
            sids = _sids(
                store,
                [*found.assets, *(sid for rows in early for sid in rows.sid), *([] if lives is None else lives.sid)],
                symbols,
            )
            own = sids(pd.Series(pd.Index(found.assets)), "bars").to_numpy("int64")
            _refuse_bars(store, found, own)
            days = _next_sessions(store, found, sessions)
            lives = _lives(store, found, own, early, sids, lives)
            parts = {
                "assets": lives,
                **_beside(store, sids, days, labels, revisions, numbers, late_parts(after_close), early, late),
            }
            added = {"sessions": len(days), "bars": _write_bars(store, new, found, own)}
        for part in ("sessions", *HEADERS):
            if part != "bars":
                added[part] = _add(store, new, part, parts.get(part), days)
        added.update(_add_adjustments(store, new, given, sids))
        _judge(new)
        _warn(store, sids, lives, found, own, days)
    data = Data(folder)
    data.added = {part: count for part, count in added.items() if count}
    return data


def _opened(folder: Path) -> Store:
    """What a folder has."""
    data = Data(folder)
    for part in NEEDED:
        if not data.files[part].exists():
            note = lost(folder) or "append adds to a folder that is there: Data.write makes one"
            raise ReadFault(f"read: {data.files[part]}", note)
    if not data.sessions:
        raise DataFault(f"{data.files['sessions']}:1: data Empty")
    for part in ("assets", "bars"):
        if next(records(data.files[part]), None) != HEADERS[part]:
            raise DataFault(f"{data.files[part]}:1: data BadHeader")
    lives = pd.read_csv(data.files["assets"], dtype={"sid": "int64"}, index_col="sid", encoding="utf-8-sig")
    return Store(data, data.sessions[-1], lives)


def _kept(rows: pd.DataFrame, store: Store, late: Optional[Day], early: list[pd.DataFrame]) -> Array:
    """Which bars are no earlier than the last session; the others are put to the early ones, where they may be late."""
    kept: Array = (rows.session >= as_number(store.last)).to_numpy()
    if not kept.all():
        before = rows[~kept]
        before = before.assign(session=before.session.map(as_text))
        first = before.iloc[0]
        if late is None:
            raise DataFault(
                f"bars: that of {first.sid} on {first.session} is before {store.last}, the last session, whose rows "
                "were shown without it",
                "give what is new alone, and a bar that is corrected or late as a revision; late=DAY takes all "
                "such bars as revisions that became known on that day",
            )
        early.append(before)
    return kept


def _sids(store: Store, assets: Sequence[Union[int, str]], symbols: Optional[Mapping[str, int]]) -> Sids:
    """The sids of assets, where new symbols get new ones."""
    fresh = sorted({asset for asset in assets if isinstance(asset, str)})
    if store.data.symbols is None:
        if symbols:
            raise DataFault("symbols: the data have none", "leave them out, and give sids")
        if fresh:
            raise DataFault(
                f"bars: the data have no symbols, so no {fresh[0]!r}", "give sids, as the folder was written with them"
            )
        return Sids([*store.lives.index, *assets], None)
    known = dict(zip(store.data.symbols, map(int, store.data.symbols.index)))
    symbols = None if symbols is None else read_symbols(symbols)
    for symbol, given in (symbols or {}).items():
        if known.get(symbol, given) != given:
            raise DataFault(f"symbols: {symbol!r} has the sid {known[symbol]}, not {given}", "a sid does not change")
    named = {sid: symbol for symbol, sid in (symbols or {}).items()}  # also of assets that go by sids
    fresh += [named[asset] for asset in assets if not isinstance(asset, str) and asset in named]
    fresh = sorted({symbol for symbol in fresh if symbol not in known})
    after = max([*known.values(), *store.lives.index], default=-1) + 1
    for at, symbol in enumerate(fresh, after):
        sid = at if symbols is None else symbols.get(symbol)
        if sid is None or sid in known.values():
            raise DataFault(
                f"symbols: there is no sid of {symbol!r}"
                if sid is None
                else f"symbols: the sid {sid} of {symbol!r} is of another"
            )
        known[symbol] = sid
    return Sids([*known, *store.lives.index, *assets], known)


def _refuse_bars(store: Store, found: Bars, sids: Array) -> None:
    """Refuse bars of the last session that are there already."""
    again = [at for at in np.flatnonzero(found.first == as_number(store.last))]
    there = _sids_on(store.data.files["bars"], store.last) if again else set()
    twice = [found.assets[at] for at in again if int(sids[at]) in there]
    if twice:
        raise DataFault(
            f"bars: that of {twice[0]} on {store.last} is there already{and_others(len(twice) - 1, verb=True)}",
            "give what is new alone, and a corrected bar as a revision that is known later",
        )


def _sids_on(path: Path, session: str) -> set[int]:
    """The sids that have a bar on a session."""
    sids = set()
    with open(path, "rb") as file, mmap.mmap(file.fileno(), 0, access=mmap.ACCESS_READ) as text:
        at = text.find(session.encode())
        while at >= 0:
            sid = text[text.rfind(b"\n", 0, at) + 1 : at].strip(b'",')
            sids.update([int(sid)] if sid.isdigit() else [])
            at = text.find(session.encode(), at + 1)
    return sids


def _next_sessions(store: Store, found: Bars, sessions: Optional[Iterable[Day]]) -> list[str]:
    """The sessions after the last one."""
    bars = [each for each in map(as_text, sorted(found.days)) if each > store.last]
    if sessions is None:
        return bars
    days = sorted(calendar(sessions))
    if days and days[0] <= store.last:
        raise DataFault(f"sessions: {days[0]} is not later than {store.last}, the last one")
    unknown = sorted({*bars} - {*days})
    if unknown:
        raise DataFault(
            f"bars: {unknown[0]} is none of the sessions that are given", "give it with them, or leave out its bars"
        )
    return days


def _lives(
    store: Store, found: Bars, own: Array, early: list[pd.DataFrame], sids: Sids, given: Optional[pd.DataFrame]
) -> pd.DataFrame:
    """The lifetimes that are new or others, where they change no row up to the last session."""
    there = found.first <= found.last
    starts = {
        **{int(sid): store.last for rows in early for sid in sids(rows.sid, "bars")},
        **{int(sid): as_text(first) for sid, first in zip(own[there], found.first[there])},
    }
    lives = {sid: (start, FOREVER) for sid, start in starts.items() if sid not in store.lives.index}
    if given is not None:
        given = require_unique(sids.records(given, "assets"), ["sid"], "assets")
        for sid, start, end in zip(given.sid, given.start, given.end):
            before = tuple(store.lives.loc[sid, ["start", "end"]]) if sid in store.lives.index else (FOREVER, FOREVER)
            for name, old, day in (("starts", before[0], start), ("ends", before[1], end)):
                if day != old and min(day, old) < store.last:
                    was = f" and not on {old}" if sid in store.lives.index else ""
                    raise DataFault(
                        f"assets: {_name(sids, sid)} {name} on {day}{was}, while rows of sessions up to {store.last} "
                        "were shown otherwise",
                        "an asset starts on the last session or later, and its end is changed before it is reached",
                    )
            if (start, end) != before:
                lives[int(sid)] = (start, end)
    return pd.DataFrame([(sid, *days) for sid, days in sorted(lives.items())], columns=HEADERS["assets"])


def _beside(
    store: Store,
    sids: Sids,
    days: list[str],
    labels: Union[pd.DataFrame, Mapping[Any, Any], None],
    revisions: Optional[pd.DataFrame],
    numbers: Union[pd.DataFrame, Mapping[Any, Any], None],
    after_close: Container[str],
    early: list[pd.DataFrame],
    late: Optional[Day],
) -> dict[str, pd.DataFrame]:
    """The new records of the other files, which are seen after the last session alone."""
    first = days[0] if days else as_text(as_number(store.last) + 1)
    files = beside_bars(sids, first, labels, revisions, numbers, after_close, news=True)
    if early:
        cells = pd.concat(early).melt(["sid", "session"], list(BARS), "column", "value").dropna(subset=["value"])
        cells = sids.records(
            cells.assign(known=read_day(late, "late"), value=pd.to_numeric(cells.value).astype("float64")), "bars"
        )
        files["revisions"] = pd.concat([*filter(None.__ne__, [files.get("revisions")]), cells])[HEADERS["revisions"]]
    for part, name in FIRST.items():
        if part not in files:
            continue
        wrong = files[part][files[part][name] <= store.last]
        if len(wrong):
            record, verb = wrong.iloc[0], "starts" if name == "start" else "is known"
            raise DataFault(
                f"{part}: a record of {_name(sids, record.sid)} {verb} on {record[name]}, and rows up to {store.last}, "
                "the last session, were shown without it",
                f"give the day from which on it was known here, which is later; there are {len(wrong)} such",
            )
    if "symbols" in files:
        there = set(store.data.symbols if store.data.symbols is not None else ())
        files["symbols"] = files["symbols"][[symbol not in there for symbol in files["symbols"].symbol]]
    return files


def _write_bars(store: Store, new: Path, found: Bars, sids: Array) -> int:
    """Write the bars after those that were there; their count."""
    copied(store.data.files["bars"], new / FILES["bars"])
    with open(new / FILES["bars"], "ab") as out:
        return found.write(out, sids)


def copied(source: Path, target: Path) -> None:
    """Copy a file, and end its last line."""
    shutil.copyfile(source, target)
    with open(target, "rb+") as file:
        if file.seek(0, os.SEEK_END) and (file.seek(-1, os.SEEK_END), file.read())[1] != b"\n":
            file.write(b"\n")


def _add(store: Store, new: Path, part: str, frame: Optional[pd.DataFrame], days: list[str]) -> int:
    """Write the records of a part after those that were there; lifetimes replace those of their assets. Their count."""
    path = new / FILES[part]
    if part == "assets" and frame is not None:
        lives = store.lives.reset_index()[HEADERS[part]]
        pd.concat([lives[~lives.sid.isin(frame.sid)], frame]).to_csv(path, index=False)
        return len(frame)
    if part in store.data.files:
        copied(store.data.files[part], path)
    elif frame is not None:
        path.write_text(",".join(HEADERS[part]) + "\n")
    if part == "sessions" or frame is not None:
        with open(path, "a", newline="") as out:
            if part == "sessions":
                out.writelines(f"{day}\n" for day in days)
            else:
                write_records(out, part, frame)
    return len(days) if part == "sessions" else 0 if frame is None else len(frame)


def _add_adjustments(
    store: Store, new: Path, given: Mapping[str, Optional[pd.DataFrame]], sids: Sids
) -> dict[str, int]:
    """Add rows to the tables of adjustments, which act after the last session alone. Their counts."""
    path = store.data.files["adjustments"]
    try:
        with readable(path) as name, closing(sqlite3.connect(name, uri=True)) as old:
            with closing(sqlite3.connect(new / FILES["adjustments"])) as copy:
                old.backup(copy)
                last = "SELECT coalesce(max(id), 0) FROM {}"
                newest = {table: copy.execute(last.format(table)).fetchone()[0] for table in TABLES}
    except sqlite3.Error as error:
        fault = StoreFault(f"store: {path}")
        fault.note = fault.note or str(error)
        raise fault from None
    add_adjustments(new, given, sids)
    counts = {}
    with adjustments(new) as added:
        for table, before in newest.items():
            rows = added.execute(
                f"SELECT sid, effective_date FROM {table} WHERE id > ? ORDER BY effective_date", (before,)
            ).fetchall()
            counts[table] = len(rows)
            if rows and as_text(rows[0][1] // SECONDS) <= store.last:
                raise DataFault(
                    f"{table}: that of {_name(sids, rows[0][0])} is effective on {as_text(rows[0][1] // SECONDS)}, and "
                    f"rows up to {store.last}, the last session, were shown without it",
                    "a later day is the first on which it can act here",
                )
            same = "" if table == "splits" else " AND a.num = b.num AND a.den = b.den"
            twice = added.execute(
                f"SELECT a.sid, a.effective_date FROM {table} a JOIN {table} b "
                "ON a.sid = b.sid AND a.id < b.id AND b.id > ? "
                f"AND a.effective_date / {SECONDS} = b.effective_date / {SECONDS}{same}",
                (before,),
            ).fetchone()
            if twice:
                raise DataFault(
                    f"{table}: that of {_name(sids, twice[0])} on {as_text(twice[1] // SECONDS)} is there already",
                    "give what is new alone",
                )
    return counts


def _judge(new: Path) -> None:
    """Let the program judge all files."""
    data = Data(new)
    try:
        with of_parts(new), program.file(PROBE) as name:
            program.call("run", name, *data.names, data.sessions[-1], data.sessions[-1], *data.options)
    except LimitFault:  # the files are past one run, and are run in pieces
        pass


def _warn(store: Store, sids: Sids, lives: pd.DataFrame, found: Bars, own: Array, days: list[str]) -> None:
    """Warn of assets whose end is reached, and of bars of those that have ended."""
    ends = store.lives["end"].to_dict()
    ends.update(zip(lives.sid, lives.end))  # an asset without any value has no lifetime
    reached = [_name(sids, sid) for sid, end in ends.items() if days and store.last <= end < days[-1]]
    if reached:
        warnings.warn(
            f"the end of these assets is reached, so that they have no row on {days[-1]}: {_some(reached)}; give "
            "those that still trade a later end on the day before",
            stacklevel=4,
        )
    gone = [
        _name(sids, sid)
        for sid, last in zip(own, found.last)
        if ends.get(int(sid), FOREVER) < store.last and as_text(max(last, 0)) > ends[int(sid)]
    ]
    if gone:
        warnings.warn(
            f"these assets have bars after their end, and no rows: {_some(gone)}; rows up to {store.last} were shown "
            "without them, so that only a new asset can go on",
            stacklevel=4,
        )


def _name(sids: Sids, sid: int) -> str:
    """The symbol of an asset, or its sid."""
    return next((symbol for symbol, own in (sids.known or {}).items() if own == sid), str(sid))


def _some(names: Sequence[str]) -> str:
    """The first ones of many.

    >>> _some("abcdefg")
    'a, b, c, d, e and 2 others'
    """
    return ", ".join(names[:LISTED]) + and_others(max(len(names) - LISTED, 0)).replace(", and", " and")
