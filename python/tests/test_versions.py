"""Python 3.9, and what pandas 2 has too.

The warnings by which pandas 1.5 tells of pandas 2 are errors in all tests (pyproject.toml).
"""

import ast

import pandas as pd
import pytest
from conftest import CHECKOUT
from test_data import CLOSE, DAYS, VOLUME, long
from test_results import bands, momentum

from tohmeril import Data, plots, run_pipeline

PYTHON = CHECKOUT / "python"
FILES = sorted(
    path for path in PYTHON.glob("**/*.py") if "build" not in path.relative_to(PYTHON).parts
)  # where pip may leave copies


@pytest.mark.parametrize("path", FILES, ids=lambda path: str(path.relative_to(CHECKOUT)))
def test_python_3_9(path):
    tree = ast.parse(path.read_text(), feature_version=(3, 9))
    if "tohmeril" in path.relative_to(CHECKOUT).parts and any(
        getattr(node, "returns", None) for node in ast.walk(tree)
    ):
        first = next(node for node in tree.body if not isinstance(node, ast.Expr))
        assert first.module == "__future__"  # annotations are not computed, so that they may have X | Y


def test_copies_on_write(data, tmp_path):
    """As they are in pandas 2 with that option, and always in pandas 3."""
    wanted = [run_pipeline(*make(), data) for make in (momentum, bands)]
    with pd.option_context("mode.copy_on_write", True):
        for make, frame in zip((momentum, bands), wanted):
            pd.testing.assert_frame_equal(run_pipeline(*make(), data), frame)
            pd.testing.assert_frame_equal(
                run_pipeline(*make(), data, pieces=2, cut=True, exact=True).astype(frame.dtypes), frame
            )
        bars = long()
        before = bars.copy()
        made = Data.write(
            tmp_path,
            bars,
            splits=pd.DataFrame({"sid": ["AAA"], "date": DAYS[2:3], "split": [2]}),
            labels={"sector": {"AAA": "x"}},
            assets=pd.DataFrame({"symbol": ["AAA", "BBB"], "start": DAYS[0], "end": DAYS[-1]}),
        )
        assert made.check(table=wanted[0])
        pd.testing.assert_frame_equal(bars, before)


def test_nullable_types(tmp_path):
    """Frames of pandas' own types with NA, as `convert_dtypes` and `dtype_backend` make them."""
    bars = long().reset_index().astype({"open": "Float64", "close": "Float64", "volume": "Int64", "symbol": "string"})
    bars.loc[1, ["open", "volume"]] = pd.NA
    text = (Data.write(tmp_path / "a", bars).folder / "bars.csv").read_text()
    plain = bars.astype({"open": float, "close": float, "symbol": object}).assign(volume=bars.volume.astype(float))
    assert text == (Data.write(tmp_path / "b", plain).folder / "bars.csv").read_text() and ",,2.000000" in text
    wide = {"close": CLOSE.astype("Float64"), "volume": VOLUME.astype("Int64")}
    labels = pd.DataFrame(
        {"name": "sector", "symbol": ["AAA", "BBB"], "start": DAYS[:2], "label": pd.Categorical(["x", None])}
    )
    made = Data.write(
        tmp_path / "c",
        wide,
        labels=labels,
        assets=pd.DataFrame({"symbol": ["AAA", "BBB"], "start": DAYS[0], "end": DAYS[-1]}, dtype=object),
    )
    assert (
        made.folder / "labels.csv"
    ).read_text() == "name,sid,start,label\nsector,0,2024-01-02,x\nsector,1,2024-01-03,\n"
    whole = bars.drop(columns="symbol").assign(sid=bars.symbol.map({"AAA": 7, "BBB": 3}).astype("Int64"))
    assert Data.write(tmp_path / "d", whole).symbols is None
