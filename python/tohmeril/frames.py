"""Frames of pandas as the records of the program's files."""

from __future__ import annotations

import io
import re
import warnings
from fractions import Fraction
from pathlib import Path
from typing import Any, Callable, Iterable, Mapping, Optional, Sequence, Union

import numpy as np
import pandas as pd

from . import program
from .data import FILES, HEADERS, NEEDED
from .days import NoDay, read_day, read_day_numbers, read_days, read_known
from .faults import DataFault
from .pipeline.script import BARS, is_name
from .pipeline.term import GREATEST, TruthColumn
from .values import NARROW, and_others, is_narrow, ratio, rows_of, to_numbers, whole_number

OTHER = {
    "sid": ("asset", "symbol", "ticker"),
    "session": ("date", "day"),
    "start": ("start_date",),
    "end": ("end_date",),
    "effective_date": ("date", "ex_date"),
    "ex": ("ex_date", "date"),
    "amount": ("dividend",),
    "known": ("known_date",),
}
DAYS = ("session", "start", "end", "known", "ex", "effective_date")
FOREVER = "2199-12-31"  # the last day that the program knows
GREATEST_SID = 2**32 - 1
PUBLISHED = ("labels", "numbers", "revisions")  # what becomes known on a day, perhaps after the close
ADJUSTED = re.compile("adj|^raw|raw$")  # of names in small letters alone: another version of a price
EVENTS = re.compile("^(stock)?split|^div|^capitalgain")
NO_SYMBOL = "where the symbol is NA or NAN, read the file with keep_default_na=False"
FRAMES = "give a DataFrame of pandas: help(tohmeril.ingest.write) has its columns"
NEGATIVE = (
    "in CRSP such a price is a mean of bid and ask: give .abs()",
    "in CRSP a volume of -99 is a missing one: give NaN",
)


class Sids:
    """The sids of assets: a whole number is a sid, a text a symbol.

    Parameters
    ----------
    assets : array
        All that have bars or lifetimes. Other frames may have no others.
    symbols : mapping of str to int, optional
        The sids of symbols. Without it symbols are numbered in alphabetic order.
    """

    def __init__(self, assets: Iterable[Any], symbols: Optional[Mapping[str, int]]):
        assets = [read_asset(asset, "bars") for asset in assets]
        texts = sorted({asset for asset in assets if isinstance(asset, str)})
        if symbols is None and texts and len(texts) < len(assets):
            number = next(asset for asset in assets if not isinstance(asset, str))
            raise DataFault(
                f"bars: assets go by symbols, as {texts[0]!r}, and by numbers, as {number}",
                "make them of one kind, by .astype(str), or give symbols=",
            )
        numbered = {symbol: at for at, symbol in enumerate(texts)} if texts else None
        self.known = numbered if symbols is None else read_symbols(symbols)
        self.there = frozenset(self._sid(asset, "bars") for asset in assets)

    def __call__(self, assets: pd.Series, what: str) -> pd.Series:
        codes, distinct = pd.factorize(assets.to_numpy())  # of objects, too, without a guess at their type
        if (codes < 0).any():
            raise DataFault(f"{what}: an asset is missing", f"{rows_of(assets, codes < 0)}; {NO_SYMBOL}")
        sids = np.empty(len(distinct), dtype="int64")
        for at, asset in enumerate(distinct):
            try:
                sids[at] = self._sid(read_asset(asset, what), what)
                if sids[at] not in self.there:
                    raise DataFault(f"{what}: there is no asset {asset}, which has neither bars nor a lifetime")
            except DataFault as fault:
                fault.note = "; ".join(filter(None, (rows_of(assets, codes == at), fault.note)))
                raise
        return pd.Series(sids[codes], index=assets.index, name=assets.name)

    def _sid(self, asset: Union[int, str], what: str) -> int:
        if isinstance(asset, int):
            return asset
        if self.known is None:
            raise DataFault(
                f"{what}: {asset!r} is a symbol, and the bars go by sids", "give symbols=, with the sid of each symbol"
            )
        if asset not in self.known:
            raise DataFault(f"{what}: no asset has the symbol {asset!r}")
        return self.known[asset]

    def has(self, asset: Any) -> bool:
        """Whether there is an asset of this sid or symbol."""
        sid = self.known.get(asset) if isinstance(asset, str) and self.known is not None else whole_number(asset)
        return sid in self.there

    def records(self, frame: pd.DataFrame, what: str) -> pd.DataFrame:
        """A frame with sids and days as the program writes them."""
        days = {name: read_days(frame[name], what, seconds=name == "effective_date") for name in DAYS if name in frame}
        return frame.assign(sid=self(frame.sid, what), **days)


def read_asset(asset: Any, what: str) -> Union[int, str]:
    """A sid as an int, or a symbol. Whole floats are sids, as PERMNOs are in a frame with gaps.

    >>> read_asset(10001.0, "bars"), read_asset("AAPL", "bars")
    (10001, 'AAPL')
    """
    if isinstance(asset, str):
        if not asset.strip():
            raise DataFault(f"{what}: a symbol is empty")
        return str(asset)
    sid = whole_number(asset)
    if sid is None:
        if asset is None or asset is pd.NA or asset != asset:
            raise DataFault(f"{what}: an asset is missing", NO_SYMBOL)
        hint = f"a sid is a whole number from 0 to {GREATEST_SID}, a symbol is a text"
        raise DataFault(f"{what}: {asset!r} is neither a sid nor a symbol", hint)
    if not 0 <= sid <= GREATEST_SID:
        raise DataFault(f"{what}: {sid} is no sid", f"a sid is a whole number from 0 to {GREATEST_SID}")
    return sid


def read_symbols(symbols: Mapping[str, int]) -> dict[str, int]:
    """The sids of symbols, one for each."""
    if not isinstance(symbols, (Mapping, pd.Series)):
        raise DataFault(f"symbols: {type(symbols).__name__} is no mapping of symbols to sids", "as {'AAA': 7}")
    owners: dict[int, str] = {}
    for symbol, given in symbols.items():
        if not isinstance(symbol, str) or not symbol.strip():
            raise DataFault(f"symbols: {symbol!r} is no symbol", "a symbol is a text")
        sid = whole_number(given)
        if sid is None or not 0 <= sid <= GREATEST_SID:
            raise DataFault(
                f"symbols: {symbol} has {given!r} in place of a sid",
                f"a sid is a whole number from 0 to {GREATEST_SID}",
            )
        if sid in owners:
            raise DataFault(
                f"symbols: {owners[sid]} and {symbol} have the sid {sid}",
                "where the symbol changed, give sids in the frames and the newest symbol alone here",
            )
        owners[sid] = symbol
    return {symbol: sid for sid, symbol in owners.items()}


def either(names: Sequence[str]) -> str:
    """Names of which one is wanted.

    >>> either(["sid", "asset", "symbol"]), either(["end"])
    ('sid, asset or symbol', 'end')
    """
    return " or ".join(filter(None, (", ".join(names[:-1]), names[-1])))


def late_parts(after_close: Union[bool, str, Iterable[str]]) -> frozenset[str]:
    """The parts that `after_close` names: labels, numbers and revisions, where it is True.

    >>> sorted(late_parts(True)), sorted(late_parts("numbers")), sorted(late_parts(False))
    (['labels', 'numbers', 'revisions'], ['numbers'], [])
    """
    if isinstance(after_close, bool):
        return frozenset(PUBLISHED if after_close else ())
    if not isinstance(after_close, Iterable):
        raise DataFault(
            f"after_close: {after_close!r} is no name of a part", f"True, or some of {', '.join(PUBLISHED)}"
        )
    parts = [after_close] if isinstance(after_close, str) else list(after_close)
    for part in parts:
        if part not in PUBLISHED:
            raise DataFault(f"after_close: there is nothing called {part!r}", ", ".join(PUBLISHED))
    return frozenset(parts)


def require_frame(given: Any, what: str, hint: str = FRAMES) -> pd.DataFrame:
    """What was given, where it is a frame.

    >>> require_frame({"AAPL": 2}, "splits")
    Traceback (most recent call last):
    tohmeril.faults.DataFault: splits: dict is no frame
    give a DataFrame of pandas: help(tohmeril.ingest.write) has its columns
    """
    if isinstance(given, pd.DataFrame):
        return given
    raise DataFault(f"{what}: {type(given).__name__} is no frame", hint)


def has_column(frame: pd.DataFrame, name: str) -> bool:
    """Whether a frame has a column of this name or of another one for it."""
    return not {name, *OTHER.get(name, ())}.isdisjoint(str(each).lower() for each in frame.columns)


def select_columns(frame: pd.DataFrame, what: str, *wanted: str, optional: Iterable[str] = ()) -> pd.DataFrame:
    """These columns of a frame, or those of its file.

    They may have other names, in letters of any size, and may be in the frame's index. Those that are optional and not
    there are missing values. The own name of a column comes before another one for it; two other ones are a fault.
    """
    frame = require_frame(frame, what)
    frame = frame.reset_index() if any(name is not None for name in frame.index.names) else frame
    there: dict[str, list[Any]] = {}
    for name in frame.columns:
        there.setdefault(str(name).lower(), []).append(name)
    chosen = {}
    for name in wanted or HEADERS[what]:
        own = there.get(name) or [each for other in OTHER.get(name, ()) for each in there.get(other, [])]
        if len(own) > 1:
            raise DataFault(
                f"{what}: each of the columns {' and '.join(map(str, own))} may be {name}", "drop or rename all but one"
            )
        if not own and name not in optional:
            raise DataFault(
                f"{what}: there is no column {either([name, *OTHER.get(name, ())])}",
                f"there are {listed(frame.columns)}",
            )
        chosen[name] = frame[own[0]] if own else np.nan
    return pd.DataFrame(chosen, index=frame.index)


def listed(names: Iterable[Any]) -> str:
    return ", ".join(map(str, names)) or "none"


def require_unique(frame: pd.DataFrame, key: list[str], what: str) -> pd.DataFrame:
    """The frame, in which no two rows have one key."""
    doubled = frame[frame.duplicated(key, keep=False)]
    if len(doubled):
        same = (doubled[key] == doubled[key].iloc[0]).all(axis=1)
        others = and_others(len(doubled[~same].drop_duplicates(key)), verb=True)
        named = " ".join(map(str, doubled[key].iloc[0]))
        raise DataFault(f"{what}: {named} is there twice, in the rows {list(doubled.index[same])}{others}")
    return frame


def to_long(frame: pd.DataFrame, row: str, name: str) -> pd.DataFrame:
    """A wide frame, with a column for each asset, as rows of `row`, sid and value."""
    return frame.rename_axis(index=row, columns="sid").reset_index().melt(row, var_name="sid", value_name=name)


def by_day(frame: Any, part: str, name: Any, read: Callable[[pd.Series, str], pd.Series]) -> pd.DataFrame:
    """A wide frame with its days as `read` gives them, each once."""
    if not isinstance(frame, pd.DataFrame):
        raise DataFault(f"{part}: {name} is no frame", "one has a row for each day and a column for each asset")
    days = read(pd.Series(frame.index, dtype=frame.index.dtype, name=f"the index of {name}"), part)
    require_unique(pd.DataFrame({"day": days}), ["day"], f"{part}: {name}")
    return frame.set_axis(days.to_numpy(), axis=0)


def long_bars(bars: Union[pd.DataFrame, Mapping[str, pd.DataFrame]]) -> pd.DataFrame:
    """Bars of any of the forms as sid, session (in days since 1970-01-01) and the five columns."""
    if isinstance(bars, pd.DataFrame) and bars.columns.nlevels == 2:
        level = price_level(bars.columns)
        bars = {name: bars.xs(name, axis=1, level=level) for name in bars.columns.unique(level)}
    if isinstance(bars, pd.DataFrame):
        if not (has_column(bars, "open") or has_column(bars, "close")):
            raise DataFault("bars: there is neither open nor close", f"there are {listed(bars.columns)}")
        refuse_versions(bars.columns)
        frame = select_columns(bars, "bars", optional=BARS)
        frame = frame.assign(session=read_day_numbers(frame.session, "bars"))
    else:
        frame = bars_by_name(bars)
    if frame.empty:
        raise DataFault("bars: there is none", "the frame is empty")
    return frame


def price_level(columns: pd.MultiIndex) -> int:
    """Which of two levels has the names of prices; those of the other one are assets, and one may be called LOW."""
    first, second = ({str(name).lower() for name in columns.unique(level)} for level in (0, 1))
    if first | second <= set(BARS):
        raise DataFault(
            f"bars: both {listed(columns.unique(0))} and {listed(columns.unique(1))} may be names of prices",
            "give frames by name, as {name: bars.xs(name, axis=1, level=0) for name in bars.columns.unique(0)}",
        )
    return int((second <= set(BARS), len(second & set(BARS))) > (first <= set(BARS), len(first & set(BARS))))


def refuse_versions(columns: Iterable[Any]) -> None:
    """Refuse a frame of bars that has another version of a price, or splits and dividends, which would be dropped."""
    plain = {name: re.sub("[^a-z]", "", str(name).lower()) for name in columns}
    versions = [name for name, letters in plain.items() if ADJUSTED.search(letters)]
    if versions:
        raise DataFault(
            f"bars: beside the prices there is {versions[0]!r}, another version of them",
            f"keep the prices that were quoted on their day, as by frame.drop(columns={versions}); "
            "tohmeril.vendors has readers for vendors whose closes are adjusted",
        )
    events = [name for name, letters in plain.items() if EVENTS.search(letters)]
    if events:
        raise DataFault(
            f"bars: {events[0]!r} is no part of a bar",
            f"give splits= and dividends=, and frame.drop(columns={events}); tohmeril.vendors has readers that do it",
        )


def bars_by_name(bars: Mapping[str, pd.DataFrame]) -> pd.DataFrame:
    """Bars that are given by name, as wide frames, as one long frame."""
    wide: dict[str, pd.DataFrame] = {}
    for given, frame in bars.items():
        name = str(given).lower()
        if name not in BARS:
            refuse_versions([given])
            raise DataFault(f"bars: there is nothing called {given!r}", listed(BARS))
        if name in wide:
            raise DataFault(f"bars: {name} is there twice", f"there are {listed(bars)}")
        wide[name] = by_day(frame, "bars", given, read_days)
        twice = frame.columns[frame.columns.duplicated()]
        if len(twice):
            raise DataFault(
                f"bars: {given} has two columns of {twice[0]}{and_others(len(twice) - 1)}", "keep one of them"
            )
    if not wide:
        raise DataFault("bars: there is none", f"give frames by name: {listed(BARS)}")
    days, assets = (union([frame.axes[axis] for frame in wide.values()]) for axis in (0, 1))
    wide = {name: frame.reindex(index=days, columns=assets) for name, frame in wide.items()}
    rows = {
        "sid": np.tile(assets.to_numpy(), len(days)),
        "session": np.repeat(days.to_numpy().astype("datetime64[D]").astype("int32"), len(assets)),
    }
    cells = {name: wide[name].to_numpy().ravel() if name in wide else np.nan for name in BARS}
    return pd.DataFrame({**rows, **cells}, copy=False)


def union(axes: Sequence[pd.Index]) -> pd.Index:
    """All that stands on one of the axes, each once, in the order in which it comes."""
    first = axes[0]
    return first if all(axis.equals(first) for axis in axes) else first.append(list(axes[1:])).unique()


def as_labels(values: pd.Series) -> pd.Series:
    """Labels as texts, or as whole numbers where they are such, as codes are in a frame with gaps; empty for none.

    >>> as_labels(pd.Series([103.0, np.nan])).tolist()
    [103, '']
    """
    texts = values.astype(object).where(values.notna(), "")
    if pd.api.types.is_float_dtype(values.dtype) and (values.dropna() % 1 == 0).all():
        return texts.map(lambda value: value if value == "" else int(value))
    return texts


def long_labels(
    labels: Union[pd.DataFrame, Mapping[Any, Any]], first: str, late: bool = False, there: Optional[Sids] = None
) -> pd.DataFrame:
    """Labels of any of the forms as name, sid, start and label; those without a day start with the first session.

    The assets of `there` may have labels already, which an empty one in the first row ends.
    """

    def read(values: pd.Series, what: str) -> pd.Series:
        return read_known(values, what, late)

    if not isinstance(labels, Mapping):
        found = select_columns(labels, "labels")
        return found.assign(label=as_labels(found.label), start=read(found.start, "labels"))
    parts = []
    for key, given in labels.items():
        name = getattr(key, "name", key)  # of texts and of a DataSet's columns
        if not isinstance(name, str):
            raise DataFault(f"labels: {name!r} is no name", "a name is a text, as 'sector'")
        if not isinstance(given, (pd.DataFrame, pd.Series, Mapping)):
            raise DataFault(f"labels: {name} is no series by asset", "give a mapping, as {'AAA': 'Tech'}")
        frame = (
            by_day(given, "labels", name, read).sort_index()
            if isinstance(given, pd.DataFrame)
            else pd.Series(given).to_frame(first).T
        )
        rows = to_long(frame.apply(as_labels), "start", "label")
        changed = rows.label.ne(rows.groupby("sid", sort=False).label.shift(fill_value="")) | first_rows(rows, there)
        parts.append(rows[changed].sort_values("start", kind="stable").assign(name=name))
    return pd.concat(parts or [pd.DataFrame(columns=HEADERS["labels"])], ignore_index=True)[HEADERS["labels"]]


def long_revisions(revisions: pd.DataFrame, late: bool = False) -> pd.DataFrame:
    """Revisions as sid, session, column, value and known."""
    found = select_columns(revisions, "revisions")
    names = found.column.astype(str).str.lower()
    wrong = ~names.isin(BARS).to_numpy()
    if wrong.any():
        raise DataFault(
            f"revisions: there is nothing called {found.column.iloc[wrong.argmax()]!r}",
            f"{rows_of(found, wrong)}: {listed(BARS)}",
        )
    return found.assign(
        column=names, value=to_numbers(found.value, "revisions"), known=read_known(found.known, "revisions", late)
    )


def long_numbers(
    numbers: Union[pd.DataFrame, Mapping[Any, Any]], late: bool = False, there: Optional[Sids] = None
) -> pd.DataFrame:
    """Numbers of either form as name, sid, known and value.

    The assets of `there` may have numbers already, which a missing one in the first row ends.
    """
    if isinstance(numbers, pd.DataFrame):
        found = select_columns(numbers, "numbers")
        found = found.assign(known=read_known(found.known, "numbers", late))
    else:
        if not isinstance(numbers, Mapping):
            require_frame(numbers, "numbers")
        names = [getattr(key, "name", key) for key in numbers]  # of texts and of a DataSet's columns
        for name in names:
            if not isinstance(name, str):
                raise DataFault(f"numbers: {name!r} is no name", "give frames by name, or by the column of a DataSet")
        require_unique(pd.DataFrame({"name": names}), ["name"], "numbers")
        frames = [given.astype(float) if is_truth(key, given) else given for key, given in numbers.items()]
        parts = [changes(name, frame, late, there) for name, frame in zip(names, frames)]
        found = pd.concat(parts or [pd.DataFrame(columns=HEADERS["numbers"])], ignore_index=True)
    found = found.assign(value=to_numbers(found.value, "numbers"))
    names = [name for name in found["name"].unique() if isinstance(name, str) and is_name(name)]
    named, great = found["name"].isin(names).to_numpy(), (found.value.abs() > float(GREATEST)).to_numpy()
    if not named.all():
        told = "is no name; one is a letter or _, and then letters, digits or _, at most 32 in all"
        raise DataFault(f"numbers: {found['name'].iloc[named.argmin()]!r} {told}", rows_of(found, ~named))
    if great.any():
        row = found.iloc[great.argmax()]
        told = f"is {row.value:.12g}; the greatest is {GREATEST}: give it in thousands or millions"
        raise DataFault(f"numbers: {row['name']} of {row.sid}, known on {row.known}, {told}", rows_of(found, great))
    if isinstance(numbers, pd.DataFrame) and has_column(numbers, "period"):
        given = select_columns(numbers, "numbers", "known", "period")
        warn_of_periods(found.assign(known=read_days(given.known, "numbers"), period=given.period))
    return require_unique(found, ["name", "sid", "known"], "numbers")


def is_truth(key: Any, given: Any) -> bool:
    """Whether a frame of truth values is given for a column of such, which has them as numbers."""
    return isinstance(key, TruthColumn) and isinstance(given, pd.DataFrame) and bool((given.dtypes == bool).all())


def first_rows(rows: pd.DataFrame, there: Optional[Sids]) -> pd.Series:
    """Which rows are the first ones of the assets that may have records already."""
    first = ~rows.duplicated("sid")
    return first & rows.sid.isin([] if there is None else list(filter(there.has, rows.sid[first])))


def changes(name: str, frame: pd.DataFrame, late: bool = False, there: Optional[Sids] = None) -> pd.DataFrame:
    """The values of a wide frame that differ from those of its row before."""
    rows = to_long(
        by_day(frame, "numbers", name, lambda values, what: read_known(values, what, late)).sort_index(),
        "known",
        "value",
    )
    before = rows.groupby("sid", sort=False).value.shift()
    rows = rows[rows.value.ne(before) & (rows.value.notna() | before.notna()) | first_rows(rows, there)]
    return rows.sort_values("known", kind="stable").assign(name=name)[HEADERS["numbers"]]


def warn_of_periods(found: pd.DataFrame) -> None:
    """Warn of numbers that are known by the end of the period that they are of."""
    ends = {period: last_day(period) for period in found.period.dropna().drop_duplicates()}
    found = found.assign(end=found.period.map(ends).fillna(""))
    early = found[found.known <= found.end]
    if len(early):
        first = early.iloc[0]
        warnings.warn(
            f"{len(early)} of {len(found)} numbers are known by the last day of the period that they are of, as "
            f"{first['name']} of {first.sid} on {first.known}, of the period to {first.end}. So pipelines see them "
            "before anybody could: vendors often give the period's end in place of the day of publication. Give "
            "the latter as known, or the period's end and the longest time that publication takes, as "
            "pd.Timedelta(days=90)",
            stacklevel=5,
        )


def last_day(period: Any) -> str:
    """The last day of a period, which is one of pandas, its text or number, or a day; empty where it is none of these.

    >>> last_day("2024Q1"), last_day(pd.Period("2024-02")), last_day(20240430), last_day("FY")
    ('2024-03-31', '2024-02-29', '2024-04-30', '')
    """
    if isinstance(period, (str, int, float, np.number)):
        text = period.strip() if isinstance(period, str) else str(whole_number(period))
        if re.fullmatch("[0-9]{1,4}[./-][0-9]{1,2}[./-][0-9]{1,4}.*", text):
            try:
                return read_day(text)
            except NoDay as error:
                raise DataFault(f"numbers: period: {error.why}", error.instead) from None
        try:
            period = pd.Period(text)
        except ValueError:
            return ""
    return read_day(getattr(period, "end_time", period))


def ratios(frame: pd.DataFrame, what: str, sids: Sids) -> Iterable[tuple[int, int, int, int]]:
    """The rows of a table of adjustments: effective date in seconds since 1970, the ratio's two numbers, sid."""
    kinds = [kind for kind in (["num", "den"], ["split"], ["ratio"]) if all(has_column(frame, name) for name in kind)]
    if len(kinds) > 1:
        raise DataFault(
            f"{what}: there are both {listed(kinds[0])} and {listed(kinds[1])}", "drop or rename all but one"
        )
    kind = kinds[0] if kinds else ["ratio"]
    given = select_columns(frame, what, "sid", "effective_date", *kind)
    clean = sids.records(given, what)
    if what == "splits":
        require_unique(clean.assign(sid=given.sid), ["sid", "effective_date"], what)
    seconds = [int(pd.Timestamp(day).timestamp()) for day in clean.effective_date]
    values = zip(*(given[name].to_numpy() for name in kind))
    for at, asset, sid, date, value in zip(given.index, given.sid, clean.sid, seconds, values):
        try:
            exact = ratio(value[0]) / ratio(value[1]) if len(value) == 2 else ratio(value[0], kind == ["split"])
        except (TypeError, ValueError, ArithmeticError):
            exact = Fraction(0)
        if not 0 < exact or max(exact.numerator, exact.denominator) > 10**9:
            given_as = ":".join(map(str, value))
            hint = f"; {NARROW}" if any(map(is_narrow, value)) else ""
            raise DataFault(
                f"{what}: the ratio {given_as} of {asset} is none of numbers from 1 to 1,000,000,000", f"row {at}{hint}"
            )
        yield date, exact.numerator, exact.denominator, int(sid)


def payouts(folder: Path, frame: pd.DataFrame, sids: Sids) -> list[tuple[int, int, int, int]]:
    """Payouts in cash as rows of the table of dividends, by the program; a warning lists those that it skips."""
    given = select_columns(frame, "dividends", "sid", "ex", "amount")
    assets, given = given.sid, sids.records(given, "dividends").assign(amount=to_numbers(given.amount, "dividends"))
    wrong = ~given.amount.between(5e-7, float(GREATEST)).to_numpy()
    if wrong.any():
        at = wrong.argmax()
        raise DataFault(
            f"dividends: the amount of {assets.iloc[at]} on {given.ex.iloc[at]} is {given.amount.iloc[at]:.12g}",
            f"{rows_of(given, wrong)}; drop payouts of nothing",
        )
    with program.file(given.to_csv(index=False, float_format="%.6f"), ".csv") as name:
        try:
            answer = program.call("payouts", *(str(folder / FILES[part]) for part in NEEDED), name)
        except DataFault as fault:
            if fault.path != name or fault.record is None:
                raise
            at = fault.record - 2
            named = f"{assets.iloc[at]} {given.ex.iloc[at]}"
            raise DataFault(f"dividends: row {given.index[at]}: {fault.rule}", named) from None
    rows = pd.read_csv(io.BytesIO(answer), keep_default_na=False)
    kept, skipped = rows[rows.reason == ""], rows[rows.reason != ""]
    if len(skipped):
        reasons = ", ".join(f"{reason} {count}" for reason, count in skipped.reason.value_counts().items())
        shown = [f"row {given.index[at - 1]}: {reason}" for at, reason in zip(skipped.record[:5], skipped.reason)]
        warnings.warn(
            f"{len(skipped)} of {len(rows)} dividends are skipped: {reasons}\n" + "\n".join(shown), stacklevel=4
        )
    columns = (kept[name].astype(int) for name in ("effective_date", "num", "den", "sid"))
    return list(zip(*(column.tolist() for column in columns)))
