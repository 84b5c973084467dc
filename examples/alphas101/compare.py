#!/usr/bin/env python3
"""Computes the alphas of this folder once more by the paper's formulas, with pandas and in floats, and compares
them with tables of the program.

Usage: compare.py MARKET TABLES. It needs pandas and nothing of the program. MARKET is the folder of the data, TABLES
that of correlations.csv and changes.csv. For each table it prints how many numbers there are, and the greatest
difference, of a number past 1 in proportion to it; above TOLERANCE it fails. The rows have to be the same, and so
does what is missing.
"""
import sqlite3
import sys
import warnings
from pathlib import Path
from typing import Any, Dict

import numpy as np
import pandas as pd
from numpy.typing import NDArray

TOLERANCE = 1e-4
RANKED, LONG, ROW = 61, 251, 90  # sessions with bars that an asset needs to be ranked, in a year's alphas, for a row
COLUMNS = ("open", "high", "low", "close", "volume")

# The paper's formulas, in Python's words for `?:`, `||` and `^`, over bars that are adjusted backwards. Three words are
# not the paper's: `seen` and `shares` turn an amount of money, or of shares, into that of its session, and `of_a_year`
# leaves out assets without the bars of a year.
FORMULAS = {
    2: "-1 * correlation(rank(delta(log(volume), 2)), rank((close - open) / open), 6)",
    3: "-1 * correlation(rank(seen(open)), rank(shares(volume)), 10)",
    4: "-1 * ts_rank(rank(seen(low)), 9)",
    6: "-1 * correlation(open, volume, 10)",
    8: "-1 * rank(seen((sum(open, 5) * sum(returns, 5)) - delay(sum(open, 5) * sum(returns, 5), 10)))",
    9: "seen(where(0 < ts_min(delta(close, 1), 5), delta(close, 1),"
    " where(ts_max(delta(close, 1), 5) < 0, delta(close, 1), -1 * delta(close, 1))))",
    10: "rank(seen(where(0 < ts_min(delta(close, 1), 4), delta(close, 1),"
    " where(ts_max(delta(close, 1), 4) < 0, delta(close, 1), -1 * delta(close, 1)))))",
    12: "sign(delta(volume, 1)) * (-1 * seen(delta(close, 1)))",
    13: "-1 * rank(covariance(rank(seen(close)), rank(shares(volume)), 5))",
    14: "(-1 * rank(delta(returns, 3))) * correlation(open, volume, 10)",
    15: "-1 * sum(rank(correlation(rank(seen(high)), rank(shares(volume)), 3)), 3)",
    16: "-1 * rank(covariance(rank(seen(high)), rank(shares(volume)), 5))",
    19: "(-1 * sign((close - delay(close, 7)) + delta(close, 7))) * (1 + rank(of_a_year(1 + sum(returns, 250))))",
    20: "((-1 * rank(seen(open - delay(high, 1)))) * rank(seen(open - delay(close, 1))))"
    " * rank(seen(open - delay(low, 1)))",
    21: "where((sum(close, 8) / 8) + stddev(close, 8) < sum(close, 2) / 2, -1,"
    " where(sum(close, 2) / 2 < (sum(close, 8) / 8) - stddev(close, 8), 1,"
    " where(1 <= volume / (sum(volume, 20) / 20), 1, -1)))",
    22: "-1 * (delta(correlation(high, volume, 5), 5) * rank(seen(stddev(close, 20))))",
    23: "where(sum(high, 20) / 20 < high, -1 * seen(delta(high, 2)), 0)",
    24: "of_a_year(seen(where(delta(sum(close, 100) / 100, 100) / delay(close, 100) <= 0.05,"
    " -1 * (close - ts_min(close, 100)), -1 * delta(close, 3))))",
    26: "-1 * ts_max(correlation(ts_rank(volume, 5), ts_rank(high, 5), 5), 3)",
    30: "((1 - rank((sign(close - delay(close, 1)) + sign(delay(close, 1) - delay(close, 2)))"
    " + sign(delay(close, 2) - delay(close, 3)))) * sum(volume, 5)) / sum(volume, 20)",
    33: "rank(-1 * (1 - (open / close)))",
    34: "rank((1 - rank(stddev(returns, 2) / stddev(returns, 5))) + (1 - rank(seen(delta(close, 1)))))",
    38: "(-1 * rank(ts_rank(close, 10))) * rank(close / open)",
    40: "(-1 * rank(seen(stddev(high, 10)))) * correlation(high, volume, 10)",
    44: "-1 * correlation(high, rank(shares(volume)), 5)",
    45: "-1 * ((rank(seen(sum(delay(close, 5), 20) / 20)) * correlation(close, volume, 2))"
    " * rank(correlation(sum(close, 5), sum(close, 20), 2)))",
    46: "where(0.25 < bend, -1, where(bend < 0, 1, -1 * seen(close - delay(close, 1))))",
    49: "where(bend < -0.1, 1, -1 * seen(close - delay(close, 1)))",
    51: "where(bend < -0.05, 1, -1 * seen(close - delay(close, 1)))",
    53: "-1 * delta(((close - low) - (high - close)) / (close - low), 9)",
    54: "(-1 * ((low - close) * open ** 5)) / ((low - high) * close ** 5)",
    55: "-1 * correlation(rank((close - ts_min(low, 12)) / (ts_max(high, 12) - ts_min(low, 12))),"
    " rank(shares(volume)), 6)",
    60: "0 - (1 * ((2 * scale(rank((((close - low) - (high - close)) / (high - low)) * shares(volume))))"
    " - scale(rank(ts_argmax(close, 10)))))",
    68: "where(ts_rank(correlation(rank(seen(high)), rank(seen(shares(adv15))), 8), 13)"
    " < rank(seen(delta((close * 0.518371) + (low * (1 - 0.518371)), 1))), 1, 0) * -1",
    101: "seen(close - open) / (seen(high - low) + 0.001)",
}
BEND = "seen(((delay(close, 20) - delay(close, 10)) / 10) - ((delay(close, 10) - close) / 10))"  # of 46, 49 and 51


def windows(x: pd.DataFrame, d: int) -> NDArray[np.float64]:
    """The windows of d sessions by session and asset, oldest first; before the first session values are missing."""
    before = np.full((d - 1, x.shape[1]), np.nan)
    return np.lib.stride_tricks.sliding_window_view(np.vstack([before, x.to_numpy(float)]), d, axis=0)


def like(x: pd.DataFrame, values: NDArray[np.float64]) -> pd.DataFrame:
    """The values with the sessions and assets of x."""
    return pd.DataFrame(values, x.index, x.columns)


def covariance(x: pd.DataFrame, y: pd.DataFrame, d: int) -> pd.DataFrame:
    """The mean product of what lies between the values and their means, of the sessions that have both."""
    left, right = windows(x + 0 * y, d), windows(y + 0 * x, d)
    left, right = (side - np.nanmean(side, axis=2, keepdims=True) for side in (left, right))
    return like(x, np.nanmean(left * right, axis=2))


def correlation(x: pd.DataFrame, y: pd.DataFrame, d: int) -> pd.DataFrame:
    """Pearson's, of the sessions that have both; missing where all x are equal, or all y."""
    sides = windows(x + 0 * y, d), windows(y + 0 * x, d)
    apart = [np.nanmax(side, axis=2) - np.nanmin(side, axis=2) > 1e-11 * np.nanmax(side, axis=2) for side in sides]
    squares = covariance(x + 0 * y, x + 0 * y, d) * covariance(y + 0 * x, y + 0 * x, d)
    return (covariance(x, y, d) / np.sqrt(squares)).where(apart[0] & apart[1])


def ts_rank(x: pd.DataFrame, d: int) -> pd.DataFrame:
    """The average rank of the newest value among those of its window, as a share."""
    whole = windows(x.round(9), d)
    newest = whole[:, :, -1:]
    rank = (whole < newest).sum(axis=2) + ((whole == newest).sum(axis=2) + 1) / 2
    return like(x, rank / (~np.isnan(whole)).sum(axis=2)).where(x.notna())


def ts_argmax(x: pd.DataFrame, d: int) -> pd.DataFrame:
    """The place of the first greatest value of the window, from 1 for the oldest."""
    whole = np.nan_to_num(windows(x, d), nan=-np.inf)
    return like(x, whole.argmax(axis=2) + 1.0).where(ts_max(x, d).notna())


def ts_max(x: pd.DataFrame, d: int) -> pd.DataFrame:
    return x.rolling(d, min_periods=1).max()


def where(test: pd.DataFrame, x: Any, y: Any) -> pd.DataFrame:
    """x where the test holds, else y: the paper's `test ? x : y`."""
    return like(test, np.where(test, x, y))


# The paper's operators, over frames of sessions by assets, and over what there is of a window.
OPERATORS = {
    "log": np.log,
    "sign": np.sign,
    "where": where,
    "delay": lambda x, d: x.shift(d),
    "delta": lambda x, d: x - x.shift(d),
    "sum": lambda x, d: like(x, np.nansum(windows(x, d), axis=2)).where(ts_max(x, d).notna()),
    "stddev": lambda x, d: like(x, np.nanstd(windows(x, d), axis=2, ddof=1)),
    "ts_min": lambda x, d: -ts_max(-x, d),
    "ts_max": ts_max,
    "ts_rank": ts_rank,
    "ts_argmax": ts_argmax,
    "covariance": covariance,
    "correlation": correlation,
    "scale": lambda x: x.div(x.abs().sum(axis=1), axis=0),
}


class Market:
    """The bars of a market, adjusted backwards by all that its file of adjustments has.

    Attributes
    ----------
    bars : dict
        A frame of sessions by assets for each column; NaN where there is no bar.
    prices, volumes : DataFrame
        What turns them into those that are seen on the next session, on which the program's row is.
    exists : DataFrame
        Whether the asset exists on the next session.
    """

    def __init__(self, market: Path) -> None:
        days = pd.DatetimeIndex(pd.read_csv(market / "sessions.csv", header=None, parse_dates=[0])[0])
        rows = pd.read_csv(market / "bars.csv", parse_dates=["session"])
        self.bars = {name: rows.pivot(index="session", columns="sid", values=name).reindex(days) for name in COLUMNS}
        self.bars = {name: frame.astype(float) for name, frame in self.bars.items()}
        self.prices, self.volumes = (like(self.bars["close"], np.ones(self.bars["close"].shape)) for _ in range(2))
        after = days[1:].append(days[-1:] + pd.Timedelta(days=1))
        with sqlite3.connect(":memory:") as store:
            store.executescript((market / "adjustments.sql").read_text())
            for table in ("splits", "mergers", "dividends"):
                for seconds, ratio, sid in store.execute(f"SELECT effective_date, 1.0 * num / den, sid FROM {table}"):
                    effective = pd.Timestamp(seconds, unit="s")
                    for name in COLUMNS[:4]:
                        self.bars[name].loc[days < effective, sid] *= ratio
                    self.prices.loc[after < effective, sid] /= ratio
                    if table == "splits":
                        self.bars["volume"].loc[days < effective, sid] /= ratio
                        self.volumes.loc[after < effective, sid] *= ratio
        assets = (
            pd.read_csv(market / "assets.csv", parse_dates=["start", "end"]).set_index("sid").loc[self.prices.columns]
        )
        later = after.to_numpy()[:, None]
        self.exists = like(self.prices, (assets.start.to_numpy() < later) & (later <= assets.end.to_numpy()))

    def has_bars(self, d: int) -> pd.DataFrame:
        """Whether the asset exists on the next session, and has the bars of the d sessions before it."""
        return self.exists & (self.bars["close"].notna().rolling(d).sum() == d)


def evaluate(market: Market) -> pd.DataFrame:
    """Evaluates the paper's formulas over a market.

    Parameters
    ----------
    market : Market

    Returns
    -------
    DataFrame
        A column for each alpha, by session and asset: the rows of the program, which see the bars before them.
    """
    ranked, of_a_year = market.has_bars(RANKED), market.has_bars(LONG)
    close, volume = market.bars["close"], market.bars["volume"]
    names = {
        **OPERATORS,
        **market.bars,
        "returns": close / close.shift(1) - 1,
        "adv15": (close * volume).rolling(15, min_periods=1).sum() / 15,
        "seen": lambda x: (x * market.prices).round(9),
        "shares": lambda x: x * market.volumes,
        "of_a_year": lambda x: x.where(of_a_year),
        "rank": lambda x: x.where(ranked).round(9).rank(axis=1, pct=True),
    }
    with warnings.catch_warnings():
        warnings.simplefilter("ignore", RuntimeWarning)  # of windows without a value, and of quotients by 0
        names["bend"] = eval(BEND, names)
        frames = {f"alpha_{number:03}": eval(formula, names) for number, formula in FORMULAS.items()}
    rows = market.has_bars(ROW).shift(1, fill_value=False).T.unstack()
    # one value for each session and asset, in the same order in all of them
    values = pd.DataFrame({name: frame.shift(1).T.unstack() for name, frame in frames.items()})
    return values[rows].replace([np.inf, -np.inf], np.nan).rename_axis(["session", "sid"])


def main(market: Path, tables: Path) -> None:
    own = evaluate(Market(market))
    for name in ("correlations", "changes"):
        table = pd.read_csv(tables / f"{name}.csv", parse_dates=["session"]).set_index(["session", "sid"])
        days = own.index.get_level_values("session")
        asked = own[(table.index[0][0] <= days) & (days <= table.index[-1][0])][table.columns]
        assert asked.index.equals(table.index), f"{name}: other rows"
        lacking = (asked.isna() != table.isna()).any()
        assert not lacking.any(), f"{name}: others are missing: {list(lacking[lacking].index)}"
        gaps = (asked - table).abs() / asked.abs().clip(lower=1)
        greatest = gaps.max()
        wrong = greatest[~(greatest < TOLERANCE)]
        assert wrong.empty, f"{name}: these differ: {wrong.to_dict()}"
        worst = greatest.idxmax()
        numbers = int(gaps.count().sum())
        print(f"{name}: {len(table)} rows, {numbers} numbers, {worst} differs most, by {greatest[worst]:.1e}")


if __name__ == "__main__":
    main(Path(sys.argv[1]), Path(sys.argv[2]))
