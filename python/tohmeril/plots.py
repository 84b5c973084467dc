"""Pictures of a factor. Each function takes a frame of `run_pipeline` and makes a figure of matplotlib.

Forward returns come from a column of the pipeline itself: ``Returns(window_length=n + 1)`` over closes, shifted back by
n sessions, is the return that begins at today's newest close, adjusted for all that becomes effective within it. Ratios
of raw closes are not: a split would count as a return. Run without a screen, since an asset that leaves the screen has
no later row.

>>> import matplotlib
>>> matplotlib.use("Agg")
>>> from tohmeril import Pipeline, run_pipeline
>>> from tohmeril.pipeline.factors import Returns
>>> month = Returns(window_length=22)
>>> pipe = Pipeline({"month": month, "fifth": month.quintiles(), "week": Returns(window_length=6)})
>>> frame = run_pipeline(pipe, "2023-06-01", "2023-12-29", data)
>>> figure = quantile_returns(frame, "fifth", "week", sessions=5)
>>> figure.axes[0].get_title()
'mean return of the next 5 sessions by fifth, percent'
"""

from __future__ import annotations

from numbers import Integral
from typing import TYPE_CHECKING, Hashable, Iterable, Optional

import numpy as np
import pandas as pd

if TYPE_CHECKING:
    from matplotlib.axes import Axes
    from matplotlib.figure import Figure


def forward_returns(frame: pd.DataFrame, returns: str, sessions: int) -> pd.Series:
    """Return of the next sessions, which begins at today's newest close; missing at the end of the frame.

    Parameters
    ----------
    frame : DataFrame
        Indexed by session and asset, with a row for each asset on each session of its life.
    returns : str
        The column ``Returns(window_length=sessions + 1)``.
    sessions : int
        How many sessions ahead.

    Returns
    -------
    Series
        Indexed as the frame, as 0.05 for 5 percent.
    """
    wide = _column(frame, returns).unstack("asset").shift(-_whole(sessions))
    row = wide.index.get_indexer(frame.index.get_level_values("session"))
    column = wide.columns.get_indexer(frame.index.get_level_values("asset"))
    return pd.Series(wide.to_numpy()[row, column], index=frame.index, name=f"next {sessions}")


def factor(frame: pd.DataFrame, column: str, assets: Optional[Iterable[Hashable]] = None) -> Figure:
    """A factor over time: a line for each asset, above the band of the middle half of all.

    Parameters
    ----------
    frame : DataFrame
        A frame of `run_pipeline`.
    column : str
        One of its factors.
    assets : iterable, optional
        Those that get a line, as the frame has them; by default the first five.

    Returns
    -------
    Figure
    """
    wide = _column(frame, column).unstack("asset").astype(float)
    shown = list(wide.columns[:5] if assets is None else assets)
    for asset in shown:
        if asset not in wide.columns:
            raise KeyError(f"the frame has no asset {asset!r}; there are {', '.join(map(str, wide.columns[:10]))} ..")
    figure, axes = _figure(
        f"{column} of {len(shown)} of {len(wide.columns)} assets, and where the middle half of all is"
    )
    axes.fill_between(
        wide.index, wide.quantile(0.25, axis=1), wide.quantile(0.75, axis=1), alpha=0.2, label="middle half"
    )
    for asset in shown:
        axes.plot(wide.index, wide[asset], label=str(asset))
    axes.set_ylabel(column)
    _read_days(axes)
    axes.legend(loc="upper left", bbox_to_anchor=(1, 1))  # beside the picture, where it covers nothing
    return figure


def quantile_returns(frame: pd.DataFrame, bins: str, returns: str, sessions: int) -> Figure:
    """Mean forward return of the assets of each bin: the mean over sessions of the means of each.

    Parameters
    ----------
    frame : DataFrame
        A frame of `run_pipeline`, with a row for each asset on each session of its life.
    bins : str
        A column of quantiles.
    returns : str
        The column ``Returns(window_length=sessions + 1)``.
    sessions : int
        How many sessions ahead.

    Returns
    -------
    Figure

    Raises
    ------
    TypeError
        Where `bins` is no column of quantiles.
    """
    ahead = forward_returns(frame, returns, sessions).astype(float)
    rows = pd.DataFrame({"bin": _bins(frame, bins), "return": ahead})
    rows = rows[(rows["bin"] >= 0) & rows["return"].notna()]
    means = rows.groupby(["session", "bin"])["return"].mean().groupby("bin").mean() * 100
    if not len(means):
        raise ValueError(f"no asset has both a bin of {bins!r} and a return of the next {sessions} sessions")
    figure, axes = _figure(f"mean return of the next {sessions} sessions by {bins}, percent")
    axes.bar(means.index.astype(str), means)
    axes.axhline(0, linewidth=0.8, color="black")
    days = rows.index.get_level_values("session").unique()
    axes.set_xlabel(
        f"bin of {bins}, from {means.index[0]}, the least values, to {means.index[-1]}, the greatest\n"
        f"mean of {len(days)} sessions from {days.min():%Y-%m-%d} to {days.max():%Y-%m-%d}"
    )
    axes.set_ylabel("percent")
    return figure


def turnover(frame: pd.DataFrame, bins: str, sessions: int = 1) -> Figure:
    """Share of the top bin's assets that were not in it some sessions before, over time.

    Parameters
    ----------
    frame : DataFrame
        A frame of `run_pipeline`.
    bins : str
        A column of quantiles.
    sessions : int
        How many sessions before.

    Returns
    -------
    Figure

    Raises
    ------
    TypeError
        Where `bins` is no column of quantiles.
    """
    wide = _bins(frame, bins).unstack("asset", fill_value=-1)
    greatest = frame[bins].max()
    top = wide == greatest
    new = (top & ~top.shift(_whole(sessions), fill_value=False)).sum(axis=1) / top.sum(axis=1).replace(0, np.nan) * 100
    figure, axes = _figure(
        f"turnover of the top bin of {bins}, {greatest}, within {sessions} session{'s' * (sessions > 1)}, percent"
    )
    axes.plot(new.index[sessions:], new.iloc[sessions:])
    axes.set_ylim(bottom=0)
    axes.set_ylabel("percent of its assets that are new")
    _read_days(axes)
    return figure


def _whole(sessions: int) -> int:
    if isinstance(sessions, bool) or not isinstance(sessions, Integral) or sessions < 1:
        raise ValueError(f"sessions is a whole number, 1 or more, and not {sessions!r}")
    return int(sessions)


def _column(frame: pd.DataFrame, name: str) -> pd.Series:
    if not isinstance(frame, pd.DataFrame):
        raise TypeError(f"{type(frame).__name__} is no frame: give what run_pipeline returns")
    if name not in frame.columns:
        raise KeyError(f"the frame has no column {name!r}; there are {', '.join(map(str, frame.columns))}")
    return frame[name]


def _bins(frame: pd.DataFrame, name: str) -> pd.Series:
    """A column of the numbers of bins."""
    bins = _column(frame, name)
    if bins.dtype != "int64":
        raise TypeError(
            f"{name!r} is a column of {bins.dtype}, and bins are whole numbers: give a column of quantiles, as "
            "y.quintiles()"
        )
    return bins


def _figure(title: str) -> tuple[Figure, Axes]:
    from matplotlib.figure import Figure  # no pyplot, so that a figure is freed with its last reference

    figure = Figure(figsize=(8, 4), layout="constrained")
    axes = figure.subplots()
    axes.set_title(title)
    return figure, axes


def _read_days(axes: Axes) -> None:
    """Write days under a picture so that none covers another."""
    from matplotlib.dates import AutoDateLocator, ConciseDateFormatter

    places = AutoDateLocator(minticks=3, maxticks=8)
    axes.xaxis.set_major_locator(places)
    axes.xaxis.set_major_formatter(ConciseDateFormatter(places))
