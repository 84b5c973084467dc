"""What code of one's own computes, over random worlds: the program's own factors written anew give the program's tables,
and the windows are those of the definitions.

`CUSTOM_CASES` says how many worlds are drawn, 500 where it is not set.
"""

import os
import random
import warnings
from concurrent.futures import ProcessPoolExecutor

import numpy as np
import pandas as pd
import pytest
import reference_windows
from test_look_ahead import Drawer, write
from test_pieces import cluster

from tohmeril import Data, program, run_pipeline, run_text
from tohmeril._windows import Windows, read_lines
from tohmeril.pipeline import CustomClassifier, CustomFactor, CustomFilter, Pipeline
from tohmeril.pipeline.data import Column, DataSet, EquityPricing, Labels
from tohmeril.pipeline.factors import (
    AverageDollarVolume,
    Returns,
    SimpleMovingAverage,
    WindowMax,
    WindowMin,
    WindowSum,
)
from tohmeril.pipeline.filters import All, AllPresent

CASES = int(os.environ.get("CUSTOM_CASES", "500"))
GROUPS = 20
BARS = [getattr(EquityPricing, name) for name in reference_windows.COLUMNS]
OPEN, HIGH, LOW, CLOSE, VOLUME = BARS
PARTS = ["sessions", "assets", "bars", "labels", "numbers", "adjustments", "revisions"]


class Numbers(DataSet):
    earnings = Column(float)


def some(values, function):
    """What a function of numpy gives, NaN where no value is present."""
    with warnings.catch_warnings():
        warnings.simplefilter("ignore", RuntimeWarning)
        return np.where(
            np.isnan(values).all(axis=0), np.nan, function(np.where(np.isnan(values).all(axis=0), 0, values))
        )


class Mean(CustomFactor):
    def compute(self, today, assets, out, values):
        out[:] = some(values, lambda cells: np.nanmean(cells, axis=0))


class Greatest(CustomFactor):
    def compute(self, today, assets, out, values):
        out[:] = some(values, lambda cells: np.nanmax(cells, axis=0))


class Change(CustomFactor):
    inputs = [CLOSE]
    window_safe = True

    def compute(self, today, assets, out, values):
        with np.errstate(divide="ignore", invalid="ignore"):
            out[:] = (values[-1] - values[0]) / values[0]


class Place(CustomFactor):
    window_length = 1
    dtype = np.int64
    missing_value = -7
    window_safe = True

    def compute(self, today, assets, out, values):
        assert list(assets) == sorted(assets) and len(assets) == values.shape[1] and isinstance(today, pd.Timestamp)
        order = np.argsort(np.where(np.isnan(values[0]), np.inf, values[0]), kind="stable")
        out[order] = np.arange(1, len(order) + 1)
        out[np.isnan(values[0])] = self.missing_value


class Ends(CustomFactor):
    inputs = [LOW]
    outputs = ["least", "newest"]

    def compute(self, today, assets, out, values):
        out.least[:] = some(values, lambda cells: np.nanmin(cells, axis=0))
        out.newest[:] = values[-1]


class Sum(CustomFactor):
    params = {"times": 1}

    def compute(self, today, assets, out, values, times):
        out[:] = times * some(values, lambda cells: np.nansum(cells, axis=0))


class Present(CustomFilter):
    def compute(self, today, assets, out, values):
        out[:] = ~np.isnan(values).any(axis=0)


class Whole(CustomFilter):
    def compute(self, today, assets, out, filters):
        assert filters.dtype == bool
        out[:] = filters.all(axis=0)


class Sector(CustomClassifier):
    inputs = [Labels.sector]
    window_length = 1
    dtype = object

    def compute(self, today, assets, out, labels):
        out[:] = labels[0]


class Bin(CustomClassifier):
    window_length = 1

    def compute(self, today, assets, out, bins):
        out[:] = bins[0]


def pairs(draw):
    """Terms of one's own, each with the program's own of the same values."""
    window, other, long = draw.randint(1, 6), draw.randint(2, 4), draw.randint(2, 7)
    bars, mask = draw.choice(BARS), draw.choice(
        [None, None, CLOSE.latest > 40, AverageDollarVolume(window_length=3).top(2)]
    )
    change = Returns(inputs=[bars], window_length=long)
    safe = Change([bars], window_length=long)
    every = [
        (Mean([bars], window_length=window, mask=mask), SimpleMovingAverage([bars], window_length=window, mask=mask)),
        (Greatest([bars], window_length=window, mask=mask), WindowMax([bars], window_length=window, mask=mask)),
        (Change([bars], window_length=long, mask=mask), Returns([bars], window_length=long, mask=mask)),
        (Place([change], mask=mask), change.rank(mask=mask)),
        (Ends(window_length=window).least, WindowMin([LOW], window_length=window)),
        (
            Ends(window_length=window, mask=mask).newest.fillna(-1),
            SimpleMovingAverage([LOW], window_length=1, mask=mask).fillna(-1),
        ),
        (Sum([change], window_length=other, times=2), WindowSum([change * 2], window_length=other)),
        (Sum([safe], window_length=other), WindowSum([change], window_length=other)),
        (WindowSum([safe], window_length=other), WindowSum([change], window_length=other)),
        (Place([safe]).downsample("week_start"), change.rank().downsample("week_start")),
        (safe.zscore(mask=mask, groupby=Sector()), change.zscore(mask=mask, groupby=Labels.sector.latest)),
        (safe.rank(groupby=Bin([change.quantiles(2)])), change.rank(groupby=change.quantiles(2))),
        (Sum([Numbers.earnings], window_length=other), WindowSum([Numbers.earnings], window_length=other)),
        (Present([bars], window_length=window), AllPresent([bars], window_length=window)),
        (Whole([CLOSE.latest > 50], window_length=window), All([CLOSE.latest > 50], window_length=window)),
        (
            All([Present([bars], window_length=1)], window_length=2),
            All([AllPresent([bars], window_length=1)], window_length=2),
        ),
        (safe.top(2, mask=Present([bars], window_length=2)), change.top(2, mask=AllPresent([bars], window_length=2))),
        (Sector(), Labels.sector.latest),
        (
            Sector(mask=mask).isnull(),
            Labels.sector.latest.isnull() if mask is None else ~(mask & Labels.sector.latest.notnull()),
        ),
        (Bin([change.quantiles(3, mask=mask)]), change.quantiles(3, mask=mask)),
    ]
    return draw.sample(every, draw.randint(1, 5))


def drawn(seed, folder):
    """A world of a seed as data, its market, and a range of its sessions."""
    drawer = Drawer(seed)
    market = drawer.market()
    write(folder, market, drawer.draw)
    first = drawer.draw.randint(10, len(drawer.days) - 1)
    last = drawer.draw.randint(first, len(drawer.days) - 1)
    return drawer, Data(folder), str(drawer.days[first]), str(drawer.days[last])


def reference(data):
    return reference_windows.World(
        *(data.files[part] for part in ("sessions", "assets", "bars", "adjustments", "revisions"))
    )


def compare_windows(draw, data, first, last):
    """The lines of the program are those of the definition, and the arrays that they make are the windows."""
    column, length, world = draw.choice(reference_windows.COLUMNS), draw.randint(1, 8), reference(data)
    options = [word for word in data.options if word.startswith(("--adjustments", "--revisions"))]
    words = ["windows", *data.names, column, first, last, str(length), *options]
    assert program.call(*words).decode().split() == list(world.lines(column, first, last, length))
    sids = np.array(sorted(world.lives))
    with program.stream(words) as out:
        windows = Windows(out, length, sids)
        for day, columns in windows:
            assert [sid for sid in sids if world.exists(sid, day)] == list(sids[columns])
            cells = windows.newest(length)[:, columns]
            wanted = [world.window(sid, column, length, world.days.index(day)) for sid in sids[columns]]
            np.testing.assert_array_equal(cells, np.array(wanted, float).T / 1e6)


def compare(seed, folder):
    """One world: the tables of both, whole and in pieces."""
    drawer, data, first, last = drawn(seed, folder)
    draw = drawer.draw
    if seed % 2:
        compare_windows(draw, data, first, last)
    terms = pairs(draw)
    screen = draw.choice([None, None, (CLOSE.latest > 20, Greatest([CLOSE], window_length=1) > 20)])
    own = Pipeline({f"c{at}": term for at, (_, term) in enumerate(terms)}, screen and screen[0])
    ours = Pipeline({f"c{at}": term for at, (term, _) in enumerate(terms)}, screen and screen[1])
    wanted, frame = run_pipeline(own, first, last, data), run_pipeline(ours, first, last, data)
    assert frame.index.equals(wanted.index)
    for name in wanted:
        left, right = frame[name], wanted[name]
        if str(right.dtype) == "category":
            left, right = left.astype(object).fillna(""), right.astype(object).fillna("")
        elif right.dtype == float:
            left = left.where(left != -7) if left.dtype == "int64" else left
            assert (left.isna() == right.isna()).all(), (seed, name, repr(ours))
            assert (left.fillna(0) - right.fillna(0)).abs().max() <= 1.01e-6 or not len(left), (seed, name, repr(ours))
            continue
        assert (left == right).all(), (seed, name, repr(ours))
    if seed % 5 == 0:
        text = run_text(ours, first, last, data)
        given = draw.choice(
            [{"pieces": 2}, {"pieces": 3, "cut": True}, {"chunksize": 2}, {"cut": True}, {"asof": last}]
        )
        assert run_text(ours, first, last, data, **given) == text, (seed, given, repr(ours))
    return len(frame)


@pytest.mark.parametrize("group", range(GROUPS))
def test_what_is_written_anew_is_the_same(group, tmp_path):
    rows = [compare(seed, tmp_path / str(seed)) for seed in range(group, CASES, GROUPS)]
    assert len(rows) < 9 or sum(rows) > 3 * len(rows)  # most have rows


@pytest.mark.parametrize("kind", ["processes", "dask"])
def test_pieces_of_worlds(kind, tmp_path):
    def compared(executor):
        for seed in range(1000, 1008):
            drawer, data, first, last = drawn(seed, tmp_path / str(seed))
            pipe = Pipeline({f"c{at}": ours for at, (ours, _) in enumerate(pairs(drawer.draw))})
            text = run_text(pipe, first, last, data)
            assert run_text(pipe, first, last, data, executor=executor, pieces=3, cut=seed % 2 == 0) == text

    if kind == "dask":
        with cluster() as client:
            compared(client)
    else:
        with ProcessPoolExecutor(2) as pool:
            compared(pool)


def test_lines_in_any_blocks(data, monkeypatch):
    from tohmeril import _windows

    words = ["windows", *data.names, "close", "2023-05-01", "2023-06-01", "7", *data.options[-1:]]
    for block in (1, 50, 997, 1 << 20):
        monkeypatch.setattr(_windows, "BLOCK", block)
        with program.stream(words) as out:
            rows = [(part.day, *map(np.ndarray.tolist, part[1:])) for part in read_lines(out)]
        found = [(day, sid) for day, sids, _, _ in rows for sid in sids]
        cells = np.concatenate([cells for _, _, _, cells in rows])
        if block == 1:
            first = found, cells
        assert found == first[0]
        np.testing.assert_array_equal(cells, first[1])
