"""Pictures, and the forward returns that they show."""

import numpy as np
import pandas as pd
import pytest

from tohmeril import Data, run_pipeline
from tohmeril.pipeline import Pipeline
from tohmeril.pipeline.data import EquityPricing
from tohmeril.pipeline.factors import Returns

pytest.importorskip("matplotlib")
from tohmeril import plots  # noqa: E402

DAYS = pd.bdate_range("2024-01-01", periods=12)


@pytest.fixture(scope="module")
def frame(tmp_path_factory):
    """Two assets that rise by a tenth and fall by a tenth each day, the first with a split of 2:1 in the middle."""
    close = pd.DataFrame({1: 100 * 1.1 ** np.arange(12), 2: 100 * 0.9 ** np.arange(12)}, index=DAYS)
    close.loc[DAYS[6] :, 1] /= 2
    data = Data.write(
        tmp_path_factory.mktemp("data"),
        {"close": close},
        splits=pd.DataFrame({"sid": [1], "effective_date": DAYS[6:7], "ratio": [0.5]}),
    )
    change = Returns(window_length=2)
    pipe = Pipeline(
        {
            "change": change,
            "half": change.quantiles(2),
            "ahead": Returns(window_length=4),
            "price": EquityPricing.close.latest,
        }
    )
    return run_pipeline(pipe, DAYS[4], DAYS[11], data)


def test_forward_returns_are_adjusted(frame):
    ahead = plots.forward_returns(frame, "ahead", 3).unstack("asset")
    np.testing.assert_allclose(ahead[1].iloc[:5], 1.1**3 - 1, atol=1e-6)
    np.testing.assert_allclose(ahead[2].iloc[:5], 0.9**3 - 1, atol=1e-6)
    assert ahead.iloc[5:].isna().all(axis=None)
    raw = frame.price.unstack("asset")[1]
    assert raw.shift(-3).div(raw).sub(1).min() < -0.3  # what raw closes would show


def test_quantile_returns(frame):
    bars = plots.quantile_returns(frame, "half", "ahead", sessions=3).axes[0].patches
    np.testing.assert_allclose([bar.get_height() for bar in bars], [-27.1, 33.1], atol=1e-3)


def test_factor(frame):
    axes = plots.factor(frame, "change").axes[0]
    assert [line.get_label() for line in axes.get_lines()] == ["1", "2"]
    assert len(plots.factor(frame, "change", assets=[2]).axes[0].get_lines()) == 1


def test_turnover():
    rows = pd.MultiIndex.from_product([DAYS[:3], [1, 2, 3, 4]], names=["session", "asset"])
    frame = pd.DataFrame({"half": [0, 0, 1, 1, 0, 1, 0, 1, 1, 1, 0, -1]}, index=rows)
    [line] = plots.turnover(frame, "half").axes[0].get_lines()
    assert list(line.get_ydata()) == [50, 50]


def drawn(figure):
    """The figure as it is drawn on a canvas."""
    from matplotlib.backends.backend_agg import FigureCanvasAgg

    FigureCanvasAgg(figure).draw()
    return figure.axes[0]


@pytest.mark.parametrize("sessions", [12, 60, 250, 400, 2500])
def test_days_can_be_read(sessions):
    """No two days under the axis cover one another, and the legend covers nothing of the picture."""
    days = pd.bdate_range("2022-01-03", periods=sessions)
    rows = pd.MultiIndex.from_product([days, [1, 2]], names=["session", "asset"])
    frame = pd.DataFrame({"change": np.arange(len(rows)) % 7.0, "half": np.arange(len(rows)) % 2}, index=rows)
    for axes in (drawn(plots.factor(frame, "change")), drawn(plots.turnover(frame, "half", sessions=5))):
        boxes = [label.get_window_extent() for label in axes.get_xticklabels() if label.get_text()]
        assert len(boxes) > 1 and all(one.x1 < other.x0 for one, other in zip(boxes, boxes[1:]))
        legend = axes.get_legend()
        assert legend is None or legend.get_window_extent().x0 > axes.get_window_extent().x1


def test_titles_say_what_is_shown(frame):
    assert (
        plots.turnover(frame, "half", sessions=3).axes[0].get_title()
        == "turnover of the top bin of half, 1, within 3 sessions, percent"
    )
    assert plots.turnover(frame, "half").axes[0].get_title().endswith("within 1 session, percent")
    assert (
        plots.factor(frame, "change", [2]).axes[0].get_title()
        == "change of 1 of 2 assets, and where the middle half of all is"
    )
    below = plots.quantile_returns(frame, "half", "ahead", sessions=3).axes[0].get_xlabel()
    assert (
        below
        == "bin of half, from 0, the least values, to 1, the greatest\nmean of 5 sessions from 2024-01-05 to 2024-01-11"
    )


@pytest.mark.parametrize(
    "call, sort, told",
    [
        (
            lambda frame: plots.quantile_returns(frame, "change", "ahead", 3),
            TypeError,
            "'change' is a column of float64, and bins are whole numbers",
        ),
        (lambda frame: plots.turnover(frame, "price"), TypeError, "'price' is a column of float64"),
        (
            lambda frame: plots.factor(frame, "changes"),
            KeyError,
            "no column 'changes'; there are change, half, ahead, price",
        ),
        (lambda frame: plots.factor(frame, "change", [7]), KeyError, "no asset 7; there are 1, 2"),
        (
            lambda frame: plots.quantile_returns(frame.iloc[-2:], "half", "ahead", 3),
            ValueError,
            "no asset has both a bin of 'half' and a return",
        ),
        (lambda frame: plots.turnover(frame, "half", sessions=0), ValueError, "a whole number, 1 or more, and not 0"),
        (lambda frame: plots.forward_returns(frame, "ahead", -5), ValueError, "1 or more, and not -5"),
        (lambda frame: plots.factor(3, "change"), TypeError, "int is no frame: give what run_pipeline returns"),
    ],
)
def test_what_cannot_be_shown(call, sort, told, frame):
    with pytest.raises(sort, match=told):
        call(frame)


def test_a_picture_is_saved(frame, tmp_path):
    plots.turnover(frame, "half").savefig(tmp_path / "turnover.png")
    assert (tmp_path / "turnover.png").read_bytes().startswith(b"\x89PNG")
