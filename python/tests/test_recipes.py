"""The recipes in Python run as they are."""

import importlib.util
import io
import os
import subprocess
import sys

import numpy as np
import pandas as pd
import pytest
from conftest import CHECKOUT

from tohmeril import Data, run_pipeline
from tohmeril.pipeline import Pipeline
from tohmeril.pipeline.data import Labels
from tohmeril.pipeline.factors import Returns


def recipe(name, *words, folder="recipes", also=""):
    """The output of a recipe, with the package of this checkout."""
    done = subprocess.run(
        [sys.executable, CHECKOUT / "examples" / folder / name, *map(str, words)],
        stdout=subprocess.PIPE,
        check=True,
        env={**os.environ, "PYTHONPATH": f"{CHECKOUT / 'python'}:{also}"},
    )
    return done.stdout.decode()


def test_bars(tmp_path):
    (tmp_path / "close.csv").write_text("day,AAA,BBB\n2024-01-02,10,20\n2024-01-03,11,\n")
    assert "bars" in recipe("bars.py", tmp_path / "data", tmp_path / "close.csv")
    assert (
        Data(tmp_path / "data").sids(["AAA", "BBB"]) == [0, 1]
        and len((tmp_path / "data/bars.csv").read_text().splitlines()) == 4
    )


def test_table(market):
    shown = recipe("table.py", market / "liquidity.pl", market, "2023-12-01", "2023-12-08")
    assert "2023-12-01 101" in shown and "fifth      int64" in shown


def test_neutral(market):
    data, day, length = Data(market), "2023-12-04", 60
    first = data.sessions[data.sessions.index(day) - length + 1]
    seen = run_pipeline(Pipeline({"r": Returns(window_length=2), "sector": Labels.sector.latest}), first, day, data)
    returns = seen["r"].unstack()
    whole = returns.dropna(axis=1)
    spy = whole.columns[0]
    got = pd.read_csv(io.StringIO(recipe("neutral.py", market, day, day, spy, length)), index_col="asset")
    slopes = whole.apply(lambda own: np.polyfit(whole[spy], own, 1)[0])
    assert len(slopes) > 9 and np.allclose(got["beta"][slopes.index], slopes, atol=1e-4)
    left = got["return"] - got["beta"] * whole[spy].iloc[-1]
    assert np.allclose(got["left"], left, atol=3e-6, equal_nan=True)
    means = got["neutral"].groupby(seen["sector"].xs(pd.Timestamp(day)).astype(str)).mean()
    assert np.allclose(means.dropna(), 0, atol=2e-6)


def test_picture(market, tmp_path):
    pytest.importorskip("matplotlib")
    recipe("picture.py", market, "2023-10-02", "2023-11-30", 5, tmp_path)
    assert sorted(path.name for path in tmp_path.iterdir()) == ["factor.png", "fifths.png", "turnover.png"]


NEIGHBORS = """
import numpy as np

class KNeighborsRegressor:
    def __init__(self, count):
        self.count = count
    def fit(self, points, values):
        self.points, self.values = points, values
    def predict(self, points):
        apart = ((points[:, None] - self.points[None]) ** 2).sum(axis=2)
        return self.values[np.argsort(apart, axis=1, kind="stable")[:, : self.count]].mean(axis=1)
"""


@pytest.mark.parametrize(
    "name, columns",
    [
        ("residual_momentum", "momentum  place"),
        ("reversal", "reversal     score"),
        ("skew", "middle      skew  side  place"),
        ("neighbours", "week  place"),
    ],
)
def test_custom(name, columns, market, tmp_path):
    """Where there is no scikit-learn, a model of its form is in its place."""
    if importlib.util.find_spec("sklearn") is None:
        (tmp_path / "sklearn").mkdir()
        (tmp_path / "sklearn/neighbors.py").write_text(NEIGHBORS)
    shown = recipe(f"{name}.py", market, "2023-12-18", "2023-12-20", folder="custom", also=tmp_path)
    assert columns in shown and "2023-12-18 1" in shown
