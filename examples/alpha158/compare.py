#!/usr/bin/env python3
"""Computes the features of this folder once more by Qlib's formulas, with pandas and in floats, and compares them
with tables of the program.

Usage: compare.py MARKET TABLES. It needs pandas and nothing of the program. MARKET is the folder of the data, TABLES
that of levels.csv, places.csv and changes.csv. For each table it prints how many numbers there are, and the greatest
difference, of a number past 1 in proportion to it; above TOLERANCE it fails. The rows have to be the same.
"""
import sqlite3
import sys
from pathlib import Path
from typing import Dict, Tuple

import numpy as np
import pandas as pd
from numpy.typing import NDArray

TOLERANCE = 1e-4
WINDOWS = (5, 10, 20, 30, 60)
LONGEST = 61  # sessions that a feature reads: 60 changes
COLUMNS = ("open", "high", "low", "close", "volume")

# The formulas of Qlib's loader of Alpha158 (qlib/contrib/data/loader.py), whose `$close` is `close` here.
OF_THE_BAR = {
    "KMID": "(close-open)/open",
    "KLEN": "(high-low)/open",
    "KMID2": "(close-open)/(high-low+1e-12)",
    "KUP": "(high-Greater(open, close))/open",
    "KUP2": "(high-Greater(open, close))/(high-low+1e-12)",
    "KLOW": "(Less(open, close)-low)/open",
    "KLOW2": "(Less(open, close)-low)/(high-low+1e-12)",
    "KSFT": "(2*close-high-low)/open",
    "KSFT2": "(2*close-high-low)/(high-low+1e-12)",
    "OPEN0": "open/close",
    "HIGH0": "high/close",
    "LOW0": "low/close",
}
OF_A_WINDOW = {
    "ROC": "Ref(close, d)/close",
    "MA": "Mean(close, d)/close",
    "STD": "Std(close, d)/close",
    "BETA": "Slope(close, d)/close",
    "RSQR": "Rsquare(close, d)",
    "RESI": "Resi(close, d)/close",
    "MAX": "Max(high, d)/close",
    "MIN": "Min(low, d)/close",
    "QTLU": "Quantile(close, d, 0.8)/close",
    "QTLD": "Quantile(close, d, 0.2)/close",
    "RANK": "Rank(close, d)",
    "RSV": "(close-Min(low, d))/(Max(high, d)-Min(low, d)+1e-12)",
    "IMAX": "IdxMax(high, d)/d",
    "IMIN": "IdxMin(low, d)/d",
    "IMXD": "(IdxMax(high, d)-IdxMin(low, d))/d",
    "CORD": "Corr(close/Ref(close, 1), Log(volume/Ref(volume, 1)+1), d)",
    "CNTP": "Mean(close>Ref(close, 1), d)",
    "CNTN": "Mean(close<Ref(close, 1), d)",
    "CNTD": "Mean(close>Ref(close, 1), d)-Mean(close<Ref(close, 1), d)",
    "SUMP": "Sum(Greater(close-Ref(close, 1), 0), d)/(Sum(Abs(close-Ref(close, 1)), d)+1e-12)",
    "SUMN": "Sum(Greater(Ref(close, 1)-close, 0), d)/(Sum(Abs(close-Ref(close, 1)), d)+1e-12)",
    "SUMD": "(Sum(Greater(close-Ref(close, 1), 0), d)-Sum(Greater(Ref(close, 1)-close, 0), d))"
    "/(Sum(Abs(close-Ref(close, 1)), d)+1e-12)",
    "VMA": "Mean(volume, d)/(volume+1e-12)",
    "VSTD": "Std(volume, d)/(volume+1e-12)",
    "VSUMP": "Sum(Greater(volume-Ref(volume, 1), 0), d)/(Sum(Abs(volume-Ref(volume, 1)), d)+1e-12)",
    "VSUMN": "Sum(Greater(Ref(volume, 1)-volume, 0), d)/(Sum(Abs(volume-Ref(volume, 1)), d)+1e-12)",
    "VSUMD": "(Sum(Greater(volume-Ref(volume, 1), 0), d)-Sum(Greater(Ref(volume, 1)-volume, 0), d))"
    "/(Sum(Abs(volume-Ref(volume, 1)), d)+1e-12)",
}


def fit_lines(x: pd.DataFrame, d: int) -> Tuple[NDArray[np.float64], NDArray[np.float64], NDArray[np.float64]]:
    """Fits lines of least squares to the windows of each asset.

    Parameters
    ----------
    x : DataFrame
        Values by session and asset.
    d : int
        The length of the windows, in sessions.

    Returns
    -------
    tuple of arrays
        Of each window the slope, by session; the share of the variance that the line explains; and the last value
        less the line. Windows that are not whole have NaN.
    """
    whole = np.lib.stride_tricks.sliding_window_view(x.to_numpy(), d, axis=0)
    values = np.full((*x.shape, d), np.nan)
    values[d - 1 :] = whole
    places = np.arange(d) - (d - 1) / 2
    apart = values - values.mean(axis=2, keepdims=True)
    slope = apart @ places / (places @ places)
    explained = slope**2 * (places @ places) / (apart**2).sum(axis=2)
    return slope, explained, apart[:, :, -1] - slope * places[-1]


def like(x: pd.DataFrame, values: NDArray[np.float64]) -> pd.DataFrame:
    """The values with the sessions and assets of x."""
    return pd.DataFrame(values, x.index, x.columns)


# What Qlib's operators (qlib/data/ops.py) compute, over frames of sessions by assets.
OPERATORS = {
    "Greater": np.maximum,
    "Less": np.minimum,
    "Abs": np.abs,
    "Log": np.log,
    "Ref": lambda x, d: x.shift(d),
    "Mean": lambda x, d: x.astype(float).rolling(d, min_periods=1).mean(),
    "Sum": lambda x, d: x.rolling(d, min_periods=1).sum(),
    "Std": lambda x, d: x.rolling(d, min_periods=1).std(),
    "Max": lambda x, d: x.rolling(d, min_periods=1).max(),
    "Min": lambda x, d: x.rolling(d, min_periods=1).min(),
    "Quantile": lambda x, d, share: x.rolling(d, min_periods=1).quantile(share),
    "Rank": lambda x, d: x.rolling(d, min_periods=1).rank(pct=True),
    "IdxMax": lambda x, d: x.rolling(d, min_periods=1).apply(lambda values: values.argmax() + 1, raw=True),
    "IdxMin": lambda x, d: x.rolling(d, min_periods=1).apply(lambda values: values.argmin() + 1, raw=True),
    "Slope": lambda x, d: like(x, fit_lines(x, d)[0]),
    "Rsquare": lambda x, d: like(x, fit_lines(x, d)[1]),
    "Resi": lambda x, d: like(x, fit_lines(x, d)[2]),
    "Corr": lambda x, y, d: x.rolling(d, min_periods=1).corr(y),
}


def adjusted_bars(market: Path) -> Dict[str, pd.DataFrame]:
    """Reads the bars of a market, adjusted backwards by all that the file of adjustments has, as Qlib's are.

    Parameters
    ----------
    market : Path
        A folder with bars.csv, sessions.csv and adjustments.sql.

    Returns
    -------
    dict
        A frame of sessions by assets for each column; NaN where there is no bar.
    """
    days = pd.DatetimeIndex(pd.read_csv(market / "sessions.csv", header=None, parse_dates=[0])[0])
    rows = pd.read_csv(market / "bars.csv", parse_dates=["session"])
    bars = {name: rows.pivot(index="session", columns="sid", values=name).reindex(days) for name in COLUMNS}
    bars = {name: frame.astype(float) for name, frame in bars.items()}
    with sqlite3.connect(":memory:") as store:
        store.executescript((market / "adjustments.sql").read_text())
        for table in ("splits", "mergers", "dividends"):
            for seconds, ratio, sid in store.execute(f"SELECT effective_date, 1.0 * num / den, sid FROM {table}"):
                before = days < pd.Timestamp(seconds, unit="s")
                for name in COLUMNS:
                    if name != "volume":
                        bars[name].loc[before, sid] *= ratio
                    elif table == "splits":
                        bars[name].loc[before, sid] /= ratio
    return bars


def evaluate(bars: Dict[str, pd.DataFrame]) -> pd.DataFrame:
    """Evaluates Qlib's formulas over bars.

    Parameters
    ----------
    bars : dict
        A frame of sessions by assets for each column.

    Returns
    -------
    DataFrame
        A column for each feature, by session and asset. Qlib's row of a session has that session's own bar; the
        program's row of the next session sees the same bars, and that is where it stands here.
    """
    frames = {name: eval(formula, {**OPERATORS, **bars}) for name, formula in OF_THE_BAR.items()}
    for name, formula in OF_A_WINDOW.items():
        for d in WINDOWS:
            frames[f"{name}{d}"] = eval(formula, {**OPERATORS, **bars, "d": d})
    # one value for each session and asset, in the same order in all of them
    return pd.DataFrame({name: frame.shift(1).T.unstack() for name, frame in frames.items()})


def rows_of(market: Path, close: pd.DataFrame) -> pd.Series:
    """Tells of each session and asset whether it has a row: the asset exists, and has the bars of 61 sessions."""
    assets = pd.read_csv(market / "assets.csv", parse_dates=["start", "end"]).set_index("sid").loc[close.columns]
    whole = close.notna().rolling(LONGEST).sum().shift(1) == LONGEST
    days = close.index.to_numpy()[:, None]
    return (whole & (assets.start.to_numpy() < days) & (days <= assets.end.to_numpy())).T.unstack()


def main(market: Path, tables: Path) -> None:
    bars = adjusted_bars(market)
    own = evaluate(bars)
    own = own[rows_of(market, bars["close"])].rename_axis(["session", "sid"])
    for name in ("levels", "places", "changes"):
        table = pd.read_csv(tables / f"{name}.csv", parse_dates=["session"]).set_index(["session", "sid"])
        days = own.index.get_level_values("session")
        asked = own[(table.index[0][0] <= days) & (days <= table.index[-1][0])][table.columns]
        assert asked.index.equals(table.index), f"{name}: other rows"
        gaps = (asked - table).abs() / asked.abs().clip(lower=1)
        greatest = gaps.max(skipna=False)
        wrong = greatest[~(greatest < TOLERANCE)]
        assert wrong.empty, f"{name}: these differ: {wrong.to_dict()}"
        worst = greatest.idxmax()
        print(f"{name}: {len(table)} rows, {gaps.size} numbers, {worst} differs most, by {greatest[worst]:.1e}")


if __name__ == "__main__":
    main(Path(sys.argv[1]), Path(sys.argv[2]))
