"""The notebooks of examples/custom/notebooks, as tutorials, lectures and forums have them: each runs with its imports
changed, and nothing else.

In place of a vendor's data sets and of a research environment's `run_pipeline` there are a module of the reader's own,
vendor.py of that folder, whose numbers and labels are made up here, and `run_pipeline` over the data.
"""

import importlib.util
import re
import shutil
import sys
from types import ModuleType, SimpleNamespace

import numpy as np
import pandas as pd
import pytest
from conftest import CHECKOUT

from tohmeril import Data, run_pipeline
from tohmeril.pipeline import Pipeline
from tohmeril.pipeline.data import EquityPricing, Labels
from tohmeril.pipeline.factors import Returns, SimpleMovingAverage, WindowStd

FOLDER = CHECKOUT / "examples/custom/notebooks"
NOTEBOOKS = sorted(path.stem for path in FOLDER.glob("*.py") if path.stem != "vendor")
START, END = "2023-12-11", "2023-12-15"
SPY = 108
SIDS = range(101, 121)
close, price = EquityPricing.close, EquityPricing.close.latest
IMPORTS = {  # what the first of these that fits becomes
    r"from quantopian\.research import": "from research import",
    r"from \S+ import (?=Fundamentals$|morningstar$|stocktwits$|Sector$|IsPrimaryShare$|QTradableStocksUS$)": (
        "from vendor import "
    ),
    r"from (quantopian|zipline)\.": "from tohmeril.",
}
NUMBERS = {  # a vendor's numbers by the sid and the place of their names
    "shares_outstanding": lambda sid, at: 1e6 * (sid % 7 + 1),
    "market_cap": lambda sid, at: 1e8 * (sid % 23 + 1),
    "enterprise_value": lambda sid, at: 1e2 * (sid % 19 + 1),  # in millions, as the earnings before interest and taxes
    "limited_partnership": lambda sid, at: 1.0 if sid % 9 == 0 else np.nan,
    "is_primary_share": lambda sid, at: float(sid % 8 != 0),
    "is_depositary_receipt": lambda sid, at: float(sid % 11 == 0),
    **dict.fromkeys(
        "pb_ratio pe_ratio earnings ebit roe bull_minus_bear".split(), lambda sid, at: (sid * 37 + at * 11) % 23 + 0.5
    ),
}
LABELS = {
    "exchange_id": ("NYS", "OTCPK", "NAS"),
    "morningstar_sector_code": (101, 103, 206, 311, 103),
    "security_type": ("ST00000001", "ST00000001", "ST00000002", "ST00000001"),
    "symbol": ("AB", "CD", "EF.WI", "GH", "IJ", "KL", "MN"),
    "standard_name": ("A B Inc", "C L.P.", "D Corp"),
}


@pytest.fixture(scope="module")
def research(market, tmp_path_factory):
    """The market with a vendor's numbers and labels, which are made up, and with more shares traded."""
    folder = tmp_path_factory.mktemp("research") / "market"
    shutil.copytree(market, folder)
    bars = pd.read_csv(folder / "bars.csv")
    bars.assign(volume=bars.volume * 20).to_csv(folder / "bars.csv", index=False)
    days = dict.fromkeys(SIDS, "2022-01-15")
    numbers = [
        f"{name},{sid},{days[sid]},{value(sid, at)}\n".replace("nan", "")
        for at, (name, value) in enumerate(NUMBERS.items())
        for sid in SIDS
    ]
    (folder / "numbers.csv").write_text("name,sid,known,value\n" + "".join(numbers))
    labels = [f"{name},{sid},{days[sid]},{own[sid % len(own)]}\n" for name, own in LABELS.items() for sid in SIDS]
    (folder / "labels.csv").write_text((market / "labels.csv").read_text() + "".join(labels))
    return Data(folder, revisions=None)


def skew_of_scipy(monkeypatch):
    """In place of scipy, where it is not there, its skew."""

    def skew(values, nan_policy):
        apart = values - np.nanmean(values, axis=0)
        return np.nanmean(apart**3, axis=0) / np.nanmean(apart**2, axis=0) ** 1.5

    if importlib.util.find_spec("scipy") is None:
        monkeypatch.setitem(sys.modules, "scipy", ModuleType("scipy"))
        monkeypatch.setattr(sys.modules["scipy"], "stats", SimpleNamespace(skew=skew), raising=False)


def ran(name, data, monkeypatch):
    """The tables of a notebook with its imports changed."""
    frames = []

    def run(*words):
        frames.append(data.run_pipeline(*words))
        return frames[-1]

    monkeypatch.syspath_prepend(str(FOLDER))
    monkeypatch.setitem(sys.modules, "research", SimpleNamespace(run_pipeline=run))
    skew_of_scipy(monkeypatch)
    names = {
        "START": START,
        "END": END,
        "SPY": SPY,
        "RESTRICTED": SPY,
        "SECTOR": Labels.sector.latest,
        "Fundamentals": importlib.import_module("vendor").Fundamentals,
        "engine": SimpleNamespace(run_pipeline=run),
    }
    lines = (FOLDER / f"{name}.py").read_text().splitlines()
    for at, line in enumerate(lines):
        old = next((old for old in IMPORTS if re.match(old, line)), None)
        lines[at] = re.sub(old, IMPORTS[old], line) if old else line
    exec("\n".join(lines), names)
    return frames, names


@pytest.mark.filterwarnings("ignore::RuntimeWarning")
@pytest.mark.parametrize("name", NOTEBOOKS)
def test_a_notebook_runs(name, research, monkeypatch):
    frames, names = ran(name, research, monkeypatch)
    frame = frames[-1]
    assert len(frame) > 5 and frame.notna().any().all() and frame.index.names == ["session", "asset"]
    own = {
        "tutorial_10_custom": {
            "std_dev": WindowStd([close], window_length=5),
            "close_open_diff": SimpleMovingAverage([close], window_length=10)
            - SimpleMovingAverage([EquityPricing.open], window_length=10),
            "ten_day_momentum": 1 + Returns(window_length=10),
        },
        "lecture_factor_analysis": {"mom": (1 + Returns(window_length=252)) / (1 + Returns(window_length=20))},
        "custom_statistics": {"vol": WindowStd([Returns(window_length=2)], window_length=60)},
    }.get(name, {})
    wanted = run_pipeline(Pipeline({"none": price, **own}), START, END, research).reindex(frame.index)
    for column in own:
        both = frame[column].notna() & wanted[column].notna()
        assert both.sum() > 5 and (frame[column] - wanted[column])[both].abs().max() < 5e-6, column
    if name == "tutorial_8_classifiers":
        sid = frame.index.get_level_values("asset")
        assert frame.sector_code.dtype == "int64" and frame.sector_code.eq(103).any()
        assert (frame.sector_code == [LABELS["morningstar_sector_code"][each % 5] for each in sid]).all()
        assert (frame.exchange == [LABELS["exchange_id"][each % 3] for each in sid]).all()
    if name == "tutorial_11_together":
        kept = {sid for sid in SIDS if sid % 8 and sid % 11 and sid % 9 and sid % 4 != 2 and sid % 7 != 2}
        assert set(frame.index.get_level_values("asset")) <= {sid for sid in kept if sid % 3 != 1}
    if name == "tutorial_2_3_4":
        assert frames[0].shape[1] == 0 and len(frames[0]) > 5
