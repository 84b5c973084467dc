"""Frames of vendors as the keyword arguments of `Data.write`, as in ``Data.write(folder, **yfinance(prices))``.

docs/VENDORS.md says of each source what is point in time in it and what is not. No reader uses a network or a vendor's
package.
"""

from __future__ import annotations

import warnings
from fractions import Fraction
from pathlib import Path
from typing import Any, Iterable, Mapping, Optional, Union

import numpy as np
import pandas as pd

from .days import Day, read_day, read_days
from .faults import DataFault
from .folder import as_path
from .frames import FOREVER, listed, require_frame, to_long
from .pipeline.script import BARS
from .values import ratio, to_numbers, whole_number

PRICES = ("open", "high", "low", "close")
KEYS = ["symbol", "date"]
FRAMES = "give a DataFrame of pandas, with the columns that the source has"
AS_REPORTED = ("ARQ", "ARY", "ART")
BY_PERFORMANCE = range(500, 600)  # CRSP's codes of delistings for cause


def yfinance(
    prices: pd.DataFrame, symbol: Optional[str] = None, *, end: Optional[Day] = None
) -> dict[str, pd.DataFrame]:
    """The frame of ``yfinance.download(tickers, auto_adjust=False, actions=True)`` or of `Ticker.history`.

    Yahoo's prices, volumes and dividends are adjusted by all splits up to the day of the download. The reader undoes
    that, so download up to today, and let `end` cut. With ``auto_adjust=True``, its default, prices are adjusted by
    dividends as well: they are refused.

    Parameters
    ----------
    prices : DataFrame
        By day, with the columns Open, High, Low, Close, Adj Close, Volume, Dividends, Stock Splits and perhaps Capital
        Gains; or with columns of two levels, in any order, of these and the symbols.
    symbol : str, optional
        That of a frame with one level of columns.
    end : day, optional
        The last day that is kept.

    Returns
    -------
    dict
        bars, splits and dividends, as they were quoted on their days.

    Raises
    ------
    DataFault
        Adj Close or Stock Splits is not there.
    """
    rows = _of_symbols(prices, symbol, "yfinance")
    if "adj close" not in rows:
        raise DataFault(
            "yfinance: there is no 'Adj Close', so that these prices are adjusted by dividends, too",
            "download with auto_adjust=False and actions=True",
        )
    _need(rows, ["stock splits", "close"], "yfinance", "Close is adjusted by them: download with actions=True")
    splits = _events(rows, "stock splits", "split", 0)
    splits = splits[splits.split != 1]
    paid = sum(
        (to_numbers(rows[name], "yfinance").fillna(0) for name in ("dividends", "capital gains") if name in rows),
        pd.Series(0.0, index=rows.index),
    )
    # a payout on the day of a split is given in the shares before it, as the program asks for it
    dividends = rows[KEYS].assign(amount=paid * _later_splits(rows, splits, same_day=True))[paid != 0]
    parts = {"bars": unadjust(rows, splits), "splits": splits, "dividends": dividends}
    return parts if end is None else {part: frame[frame.date <= read_day(end, "end")] for part, frame in parts.items()}


def stooq(prices: pd.DataFrame, symbol: Optional[str] = None) -> dict[str, pd.DataFrame]:
    """Stooq's daily bars: a file of its database, with <TICKER>, <PER>, <DATE> .., or of its site, with Date, Open ...

    Parameters
    ----------
    prices : DataFrame
        Files of the database may be joined by `pandas.concat`.
    symbol : str, optional
        That of a file of the site.

    Returns
    -------
    dict
        bars alone. Stooq adjusts its prices by splits and dividends, and says neither, so give no splits with them.
    """
    plain = require_frame(prices, "stooq", FRAMES).rename(columns=lambda name: str(name).strip("<> ").lower())
    plain = plain.rename(columns={"vol": "volume", "ticker": "symbol"})
    if "per" in plain:
        other = plain.per.astype(str) != "D"
        if other.any():
            raise DataFault(f"stooq: the period of a bar is {plain.per[other].iloc[0]}", "only D, days, are read")
    _need(plain, ["date", *PRICES], "stooq")
    if "symbol" not in plain:
        plain = plain.assign(symbol=_given(symbol, "stooq"))
    return {"bars": plain[[*KEYS, *(name for name in BARS if name in plain)]]}


def sharadar(
    sep: pd.DataFrame,
    actions: pd.DataFrame,
    sf1: Optional[pd.DataFrame] = None,
    *,
    fields: Optional[Mapping[str, float]] = None,
    dimension: str = "ARQ",
    dividends: Optional[str] = None,
) -> dict[str, Any]:
    """Sharadar's SEP, ACTIONS and SF1.

    SEP's open, high, low, close and volume are adjusted by splits; the reader undoes that by the splits of ACTIONS, and
    takes `closeunadj` as the close. Rows of ACTIONS and SF1 of other tickers are left out. A figure of SF1 is known on
    the session after its `datekey`, the day of the filing, as most filings come after the close. Of two periods filed
    on one day the later one is taken, and an older period that is filed late is left out.

    Parameters
    ----------
    sep : DataFrame
        ticker, date, open, high, low, close, volume, closeunadj.
    actions : DataFrame
        date, action, ticker, value, with the splits up to the day of the download.
    sf1 : DataFrame, optional
        ticker, dimension, datekey, reportperiod, and the figures.
    fields : mapping of str to float
        The figures of SF1 to take, and what each is divided by, as ``{"eps": 1, "revenue": 1_000_000}``.
    dimension : str
        ARQ, ARY or ART, as reported. MRQ, MRY and MRT have later restatements: a pipeline would look ahead.
    dividends : str
        "paid" where the dividends of ACTIONS are as paid, "adjusted" where later splits divide them, "none" to leave
        them out. Apple paid 0.82 on 2020-05-08, and 0.205 is that after its split of 2020-08-31.

    Returns
    -------
    dict
        bars, splits, and perhaps dividends, numbers and after_close.

    Raises
    ------
    DataFault
        closeunadj is not what close and the splits make, to a cent or so; or an argument is none of those above.
    """
    rows = _plain(sep, "ticker", "SEP", ["close", "closeunadj"])
    events = _plain(actions, "ticker", "ACTIONS", ["action", "value"])
    events = events[events.symbol.isin(rows.symbol)]
    splits = _events(events[events.action.isin(("split", "adrratiosplit"))], "value", "split", 1)
    bars = unadjust(rows, splits)
    quoted = to_numbers(rows.closeunadj, "SEP")
    far = (bars.close - quoted).abs() > 0.006 * (1 + bars.close / to_numbers(rows.close, "SEP"))
    if far.any():
        row = rows[far].iloc[0]
        raise DataFault(
            f"SEP: closeunadj of {row.symbol} on {row.date} is {row.closeunadj}, and close by the later splits of "
            f"ACTIONS is {bars.close[far].iloc[0]:.12g}",
            "give all splits up to the day of the download",
        )
    parts: dict[str, Any] = {"bars": bars.assign(close=quoted), "splits": splits}
    spun = events.action.isin(("spinoff", "spinoffdividend"))
    if spun.any():
        row = events[spun].iloc[0]
        warnings.warn(
            f"ACTIONS: {spun.sum()} spin-offs are left out, as that of {row.symbol} on {row.date}: the price falls by "
            "their value; give mergers= with the ratio",
            stacklevel=2,
        )
    paid = _events(events[events.action == "dividend"], "value", "amount", 0)
    if len(paid) and dividends not in ("paid", "adjusted", "none"):
        raise DataFault(
            "ACTIONS: dividends may be as paid, or adjusted by later splits",
            'say dividends="paid", "adjusted" or "none"',
        )
    if dividends != "none":
        factor = _later_splits(paid, splits, same_day=True) if dividends == "adjusted" else 1
        parts["dividends"] = paid.assign(amount=paid.amount * factor)
    return parts if sf1 is None else {**parts, **_filings(sf1, rows.symbol, fields or {}, dimension)}


def _filings(sf1: pd.DataFrame, symbols: pd.Series, fields: Mapping[str, float], dimension: str) -> dict[str, Any]:
    """The figures of SF1 as numbers that are known after the close of their datekey."""
    if dimension not in AS_REPORTED:
        raise DataFault(
            f"SF1: the dimension {dimension} has later restatements, so that a pipeline would look ahead",
            listed(AS_REPORTED),
        )
    if not fields:
        raise DataFault(
            "SF1: fields is missing",
            'it has the figures to take, and what each is divided by, as {"eps": 1, "revenue": 1_000_000}',
        )
    plain = sf1.reset_index(drop=True).rename(columns=str.lower)
    _need(plain, ["ticker", "dimension", "datekey", "reportperiod", *fields], "SF1")
    rows = plain[plain.dimension.eq(dimension) & plain.ticker.isin(symbols)]
    rows = rows.assign(known=read_days(rows.datekey, "SF1"), period=read_days(rows.reportperiod, "SF1")).sort_values(
        ["known", "period"]
    )
    late = rows.period < _newest(rows.period, rows.ticker)
    rows = rows[~late].drop_duplicates(["ticker", "known"], keep="last")
    parts = [
        rows[["ticker", "known", "period"]].assign(name=name, value=to_numbers(rows[name], "SF1") / by)
        for name, by in fields.items()
    ]
    return {"numbers": pd.concat(parts, ignore_index=True), "after_close": "numbers"}


def crsp(
    daily: pd.DataFrame, delisting: Optional[pd.DataFrame] = None, *, unknown_return: Optional[float] = None
) -> dict[str, Any]:
    """CRSP's daily file, with its distributions and delistings, by PERMNO.

    A price below 0 is a mean of bid and ask and is taken without its sign; 0 is a missing price, and -99 a missing
    volume. After an asset's last bar there is one more, on the next session: its close is the last one and the
    delisting return, and the asset exists a session longer, so that one table shows it. SHROUT is the number `shrout`,
    in thousands, seen from the next session on. Assets without any price are left out.

    Parameters
    ----------
    daily : DataFrame
        PERMNO, date, PRC, and perhaps OPENPRC, ASKHI, BIDLO, VOL, SHROUT, DIVAMT; and for the splits FACPR and FACSHR,
        or CFACPR and CFACSHR. A day may have several rows with the same bar, one for each distribution.
    delisting : DataFrame, optional
        PERMNO, DLSTCD, DLRET; else these columns of `daily`, where they are there.
    unknown_return : float, optional
        For delistings for cause, codes 500 to 599, without a return. Studies take -0.3, or -0.55 on Nasdaq.

    Returns
    -------
    dict
        bars, assets, splits, mergers (factors of the price alone, as spin-offs have), dividends, and perhaps numbers
        and after_close.

    Warns
    -----
    UserWarning
        Delisting returns are left out, since they are missing, or no session follows.
    """
    rows = _plain(daily, "permno", "CRSP", ["prc"])
    named = {"openprc": "open", "askhi": "high", "bidlo": "low", "prc": "close", "vol": "volume"}
    cells = {own: to_numbers(rows[name], "CRSP") for name, own in named.items() if name in rows}
    cells = {
        own: cells[own].mask(cells[own] == -99) if own == "volume" else cells[own].abs().replace(0, np.nan)
        for own in cells
    }
    bars = rows[KEYS].assign(**cells).drop_duplicates()
    lives = _lives(bars)
    rows = rows[rows.symbol.isin(lives.symbol)]
    if delisting is not None or "dlret" in rows:
        ends = (
            rows
            if delisting is None
            else delisting.reset_index(drop=True).rename(columns=str.lower).rename(columns={"permno": "symbol"})
        )
        bars, lives = _delisted(bars, lives, ends, unknown_return)
    parts = {"bars": bars, "assets": lives, **_distributions(rows)}
    if "shrout" in rows:
        shares = rows.drop_duplicates(KEYS).assign(value=to_numbers(rows.shrout, "CRSP")).sort_values(KEYS)
        shares = shares[shares.value.notna() & shares.value.ne(shares.groupby("symbol").value.shift())]
        parts.update(
            numbers=shares[[*KEYS, "value"]].rename(columns={"date": "known"}).assign(name="shrout"),
            after_close="numbers",
        )
    return parts


def _distributions(rows: pd.DataFrame) -> dict[str, pd.DataFrame]:
    """Splits, other factors of the price, and dividends of CRSP's rows."""
    if "facpr" in rows:
        price, shares = (
            1 / (1 + to_numbers(rows[name], "CRSP").fillna(0))
            for name in ("facpr", "facshr" if "facshr" in rows else "facpr")
        )
        factors = rows[KEYS].assign(price=price, shares=shares)
        factors = factors[
            np.isfinite(price) & (price > 0) & np.isfinite(shares) & (shares > 0)
        ]  # -1 is the end of the shares
    else:
        _need(rows, ["cfacpr"], "CRSP", "give FACPR and FACSHR, or CFACPR and CFACSHR")
        factors = _changes(rows)
    factors = factors[(factors.price != 1) | (factors.shares != 1)]
    other = factors.assign(ratio=[ratio(price) / ratio(shares) for price, shares in zip(factors.price, factors.shares)])
    splits, other = factors[factors.shares != 1].rename(columns={"shares": "ratio"}), other[other.ratio != 1]
    parts = {
        "splits": splits[[*KEYS, "ratio"]],
        "mergers": other[[*KEYS, "ratio"]].assign(ratio=other.ratio.map(_small)),
    }
    if "divamt" in rows:
        paid = _events(rows, "divamt", "amount", 0)
        counted = pd.MultiIndex.from_frame(other[KEYS])  # the value of a spin-off is in its factor
        parts["dividends"] = paid[~pd.MultiIndex.from_frame(paid[KEYS]).isin(counted)]
    return parts


def _changes(rows: pd.DataFrame) -> pd.DataFrame:
    """The factors by which CFACPR and CFACSHR change, on the days of their changes."""
    shares = "cfacshr" if "cfacshr" in rows else "cfacpr"
    cells = {"price": to_numbers(rows.cfacpr, "CRSP"), "shares": to_numbers(rows[shares], "CRSP")}
    factors = rows[KEYS].assign(**cells).drop_duplicates(KEYS).sort_values(KEYS)
    factors = factors[(factors.price > 0) & (factors.shares > 0)]
    before = factors.groupby("symbol")[["price", "shares"]].shift()
    factors = factors.assign(old_price=before.price, old_shares=before.shares)
    factors = factors[before.price.notna() & ((factors.price != before.price) | (factors.shares != before.shares))]
    return factors[KEYS].assign(
        **{
            name: [_quotient(new, old) for new, old in zip(factors[name], factors["old_" + name])]
            for name in ("price", "shares")
        }
    )


def _delisted(
    bars: pd.DataFrame, lives: pd.DataFrame, ends: pd.DataFrame, unknown: Optional[float]
) -> tuple[pd.DataFrame, pd.DataFrame]:
    """The bars with one more for each delisting return, and the lifetimes that reach the session after it."""
    _need(ends, ["symbol", "dlstcd", "dlret"], "CRSP")
    codes = to_numbers(ends.dlstcd, "CRSP")
    ends = ends.assign(code=codes, made=pd.to_numeric(ends.dlret, errors="coerce"))[
        codes.notna() & (codes != 100)
    ]  # 100 still trades
    ends = ends.drop_duplicates("symbol", keep="last").set_index("symbol")
    ends = ends.assign(
        made=ends.made.where(
            ends.made.notna() | ~ends.code.isin(BY_PERFORMANCE), np.nan if unknown is None else unknown
        )
    )
    days = sorted(set(bars.date))
    lasts = bars[bars.close.notna()].sort_values("date").drop_duplicates("symbol", keep="last").set_index("symbol")
    ends = ends[ends.index.isin(lasts.index)]
    after = {day: follower for day, follower in zip(days, [*days[1:], None])}
    date = lasts.date.reindex(ends.index).map(after)
    added = pd.DataFrame({"date": date, "close": lasts.close.reindex(ends.index) * (1 + ends.made)}).rename_axis(
        "symbol"
    )
    kept = added[added.date.notna() & added.close.notna()].reset_index()
    if len(kept) < len(added):
        lost = added.index.difference(kept.symbol)
        warnings.warn(
            f"CRSP: {len(lost)} of {len(added)} delisting returns are left out, as that of {whole_number(lost[0]) or lost[0]}: they are "
            "missing, or no session follows the asset's last bar",
            stacklevel=3,
        )
    if kept.empty:
        return bars, lives
    kept = kept.merge(bars.drop(columns="close"), "left", KEYS)  # a bar without a price may be there already
    bars = bars[~pd.MultiIndex.from_frame(bars[KEYS]).isin(pd.MultiIndex.from_frame(kept[KEYS]))]
    ending = {
        symbol: after[day] or str(np.busday_offset(day, 1, "backward")) for symbol, day in zip(kept.symbol, kept.date)
    }
    return pd.concat([bars, kept], ignore_index=True), lives.assign(end=lives.symbol.map(ending).fillna(lives.end))


def _lives(bars: pd.DataFrame) -> pd.DataFrame:
    """The lifetimes that `Data.write` takes by itself: from the first bar to the last one, or on and on."""
    lives = (
        bars[bars[[name for name in BARS if name in bars]].notna().any(axis=1)]
        .groupby("symbol")
        .date.agg(start="min", end="max")
        .reset_index()
    )
    return lives.assign(end=lives.end.where(lives.end < bars.date.max(), FOREVER))


def sas_days(values: pd.Series) -> pd.Series:
    """Days that SAS counts from 1960-01-01, as Timestamps.

    Parameters
    ----------
    values : Series of int or float
        A missing one stays missing.

    Returns
    -------
    Series of Timestamp

    Examples
    --------
    >>> sas_days(pd.Series([23408.0])).dt.strftime("%Y-%m-%d").tolist()
    ['2024-02-02']
    """
    return pd.to_datetime(values, unit="D", origin="1960-01-01")


def csvdir(folder: Union[str, Path]) -> dict[str, pd.DataFrame]:
    """The bars, splits and dividends of a folder of Zipline's csvdir bundle.

    Parameters
    ----------
    folder : str or Path
        The bundle's folder, or the one of its files. Each file of ``folder/daily``, or of the folder itself, is named
        by its symbol and has date, open, high, low, close, volume, and perhaps dividend, in cash, and split, new shares
        for an old one.

    Returns
    -------
    dict of str to DataFrame
        bars, and splits and dividends where the files have them, for ``Data.write(target, **csvdir(source))``.

    Raises
    ------
    DataFault
        There is no file, or one has other columns.
    """
    folder = as_path(folder)
    folder = folder / "daily" if (folder / "daily").is_dir() else folder
    frames = []
    for path in sorted(folder.glob("*.csv")):
        frame = pd.read_csv(path)
        frame.columns = [
            "date",
            *(str(name).strip().lower() for name in frame.columns[1:]),
        ]  # Zipline does not ask for its name
        _need(frame, BARS, path.name)
        frames.append(frame.assign(symbol=path.stem, date=read_days(frame.date, path.name)))
    if not frames:
        raise DataFault(f"{folder}: there are no files of bars", "a csvdir folder has daily/SYMBOL.csv")
    rows = pd.concat(frames, ignore_index=True)
    events = {
        part: _events(rows, name, name, none)
        for part, name, none in (("splits", "split", 1), ("dividends", "dividend", 0))
        if name in rows
    }
    return {"bars": rows[[*KEYS, *BARS]], **events}


def unadjust(bars: pd.DataFrame, splits: pd.DataFrame) -> pd.DataFrame:
    """Bars as they were quoted, from bars that later splits have adjusted.

    Prices are multiplied by the shares that one of their day has become since, and volumes are divided by them.

    Parameters
    ----------
    bars : DataFrame
        symbol, date, and any of open, high, low, close and volume.
    splits : DataFrame
        symbol, date and split, new shares for an old one: all from the first bar to the day of the download.

    Returns
    -------
    DataFrame
        With the same rows.

    Examples
    --------
    >>> bars = pd.DataFrame({"symbol": "AAPL", "date": ["2020-08-28", "2020-08-31"], "close": [124.8075, 129.04]})
    >>> unadjust(bars, pd.DataFrame({"symbol": ["AAPL"], "date": ["2020-08-31"], "split": [4.0]})).close.tolist()
    [499.23, 129.04]
    """
    factor = _later_splits(bars, splits)
    cells = {name: to_numbers(bars[name], "bars") for name in BARS if name in bars}
    return bars[KEYS].assign(
        **{name: values / factor if name == "volume" else values * factor for name, values in cells.items()}
    )


def _later_splits(rows: pd.DataFrame, splits: pd.DataFrame, same_day: bool = False) -> pd.Series:
    """For each row the shares that one of its day has become since, or with `same_day` one of the day before."""
    places, factor = rows.groupby("symbol").indices, np.ones(len(rows))
    days, when = read_days(rows.date, "bars").to_numpy(), read_days(splits.date, "splits")
    for symbol, mine in splits.assign(date=when).sort_values("date").groupby("symbol"):
        if symbol in places:
            after = [Fraction(1)]  # the product of the splits from each one on
            for split in reversed(mine.split.tolist()):
                try:
                    old = ratio(split, inverse=True)
                except (TypeError, ValueError, ArithmeticError):
                    old = Fraction(0)
                if old <= 0:
                    raise DataFault(f"splits: {symbol} has {split} shares for an old one")
                after.append(after[-1] / old)
            products = np.array([float(each) for each in reversed(after)])
            at = places[symbol]
            factor[at] = products[
                np.searchsorted(mine.date.to_numpy(str), days[at].astype(str), side="left" if same_day else "right")
            ]
    return pd.Series(factor, index=rows.index)


def _of_symbols(prices: pd.DataFrame, symbol: Optional[str], what: str) -> pd.DataFrame:
    """A frame by day, of one symbol or with a level of symbols in its columns, as rows with small letters as names."""
    if require_frame(prices, what, FRAMES).columns.nlevels == 1:
        prices = prices.set_index([name for name in prices.columns if str(name).lower() == "date"] or prices.index)
    days = read_days(pd.Series(prices.index, dtype=prices.index.dtype, name="the index"), what).to_numpy()
    if prices.columns.nlevels == 1:
        return (
            prices.rename(columns=lambda name: str(name).lower())
            .assign(symbol=_given(symbol, what), date=days)
            .reset_index(drop=True)
        )
    level = int("close" in {str(name).lower() for name in prices.columns.unique(1)})
    wide = {
        str(name).lower(): prices.xs(name, axis=1, level=level).set_axis(days, axis=0)
        for name in prices.columns.unique(level)
    }
    tall = {
        name: to_long(frame, "date", name).rename(columns={"sid": "symbol"}).set_index(KEYS)[name]
        for name, frame in wide.items()
    }
    return pd.concat(tall, axis=1).reset_index()


def _plain(frame: pd.DataFrame, asset: str, what: str, needed: Iterable[str]) -> pd.DataFrame:
    """A frame with small letters as names, and symbol and date as they are here."""
    plain = (
        require_frame(frame, what, FRAMES)
        .reset_index(drop=all(name is None for name in frame.index.names))
        .rename(columns=lambda name: str(name).lower())
    )
    _need(plain, [asset, "date", *needed], what)
    return plain.rename(columns={asset: "symbol"}).assign(date=read_days(plain.date, what))


def _events(rows: pd.DataFrame, name: str, own: str, none: float) -> pd.DataFrame:
    """The rows of a column that say something, under a name of their own."""
    values = to_numbers(rows[name], name)
    return rows[KEYS].assign(**{own: values})[values.notna() & (values != none)].reset_index(drop=True)


def _need(frame: pd.DataFrame, names: Iterable[str], what: str, hint: str = "") -> None:
    for name in names:
        if name not in frame:
            raise DataFault(f"{what}: there is no column {name}", hint or f"there are {listed(frame.columns)}")


def _given(symbol: Optional[str], what: str) -> str:
    if not isinstance(symbol, str):
        raise DataFault(f"{what}: the frame names no symbol", 'give symbol="AAPL"')
    return symbol


def _newest(days: pd.Series, groups: pd.Series) -> pd.Series:
    """The newest of the days up to each row of its group."""
    return pd.to_datetime(days).groupby(groups).cummax().dt.strftime("%Y-%m-%d")


def _quotient(new: float, old: float) -> float:
    return float(Fraction(repr(new)) / Fraction(repr(old)))


def _small(value: Fraction) -> Fraction:
    return value.limit_denominator(10**6)
