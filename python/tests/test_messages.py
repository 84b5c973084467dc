"""What is said to those who write something else than they mean."""

import importlib
import re
import shutil
import sqlite3
import warnings
from concurrent.futures import ThreadPoolExecutor

import numpy as np
import pandas as pd
import pytest
from conftest import CHECKOUT

from tohmeril import (
    Data,
    Fault,
    LimitFault,
    PipelineError,
    StoreFault,
    check,
    explain,
    first_session,
    plan,
    program,
    run_chunked_pipeline,
    run_pipeline,
    run_text,
    runs,
    show_graph,
    verify,
)
from tohmeril.faults import HINTS
from tohmeril.pipeline import Inexpressible, Pipeline, factors, filters
from tohmeril.pipeline.classifiers import Label
from tohmeril.pipeline.data import Column, DataSet, EquityPricing, Labels
from tohmeril.pipeline.engine import SimplePipelineEngine
from tohmeril.pipeline.factors import AverageDollarVolume, BollingerBands, Returns, SimpleMovingAverage
from tohmeril.pipeline.filters import AtLeastN, StaticSids
from tohmeril.pipeline.loaders.frame import DataFrameLoader

close = EquityPricing.close
y, sector = Returns(window_length=5), Labels.sector.latest
pipe = Pipeline({"y": y})
RANGE = "2023-12-18", "2023-12-29"


class Fundamentals(DataSet):
    earnings = Column(float)


@pytest.mark.parametrize(
    "make, sort, told",
    [
        (
            lambda: SimpleMovingAverage([close], window=10),
            TypeError,
            "SimpleMovingAverage: window is none of its parameters; it takes inputs, window_length",
        ),
        (
            lambda: SimpleMovingAverage([close]),
            TypeError,
            "SimpleMovingAverage: window_length is missing; it takes inputs",
        ),
        (
            lambda: BollingerBands(window_length=20),
            TypeError,
            "BollingerBands: k is missing; it takes inputs, window_length, mask, k",
        ),
        (
            lambda: factors.MACDSignal(period=9),
            TypeError,
            "period is none of its parameters; it takes .*, fast_period, slow_period, signal_period",
        ),
        (
            lambda: setattr(SimpleMovingAverage([close], window_length=5), "window_safe", True),
            AttributeError,
            "a window can be over Returns, ranks",
        ),
        (
            lambda: y.rank(groupby=Labels.sector),
            TypeError,
            "has to be a classifier, and is Labels.sector: write Labels.sector.latest",
        ),
        (lambda: y.rank(mask=y), TypeError, r"mask of rank has to be a filter, and is Returns\(close, 5\)$"),
        (
            lambda: Labels.sector.eq("Energy"),
            AttributeError,
            "Labels.sector is a column of labels and has no eq: write Labels.sector.latest",
        ),
        (
            lambda: filters.All([Labels.sector], window_length=3),
            TypeError,
            "Labels.sector can't be its input: write Labels.sector.latest",
        ),
        (
            lambda: Pipeline({"y": y}, screen=close.latest == y),
            TypeError,
            r"a screen is a filter, not False: == says .* write \.eq\(",
        ),
        (lambda: Pipeline({"sector": Labels.sector}), TypeError, "'sector' is Labels.sector and no factor"),
        (
            lambda: StaticSids(["AAPL", "IBM"]),
            TypeError,
            r"'AAPL' is a symbol: write StaticSids\(data.sids\(\['AAPL', 'IBM'\]\)\)",
        ),
        (lambda: filters.SingleAsset("AAPL"), TypeError, r"write StaticSids\(data.sids\(\['AAPL'\]\)\)"),
        (lambda: StaticSids([1.5]), TypeError, "1.5 is no sid, which is a whole number"),
        (lambda: y % 2, Inexpressible, "no y % z; nearest: / and clip"),
        (lambda: np.tanh(y), Inexpressible, "no tanh; nearest: y itself where its order counts"),
        (lambda: np.rint(y), Inexpressible, "no numpy.rint"),
        (lambda: np.log(close), AttributeError, "close is a column of bars and has no log: write close.latest"),
        (
            lambda: np.array([1.0, 2]) * y,
            TypeError,
            r"numpy's multiply takes no Returns\(close, 5\): a pipeline is computed later",
        ),
        (lambda: np.fmax(y, 0), TypeError, "numpy's fmax takes no Returns"),
        *(
            (
                lambda name=name: getattr(factors, name)(window_length=5),
                Inexpressible,
                f"the language has no {name}; nearest: ",
            )
            for name in ("BusinessDaysUntilNextEvent",)
        ),
        *(
            (lambda name=name: getattr(filters, name)(), Inexpressible, f"the language has no {name}; nearest: ")
            for name in ("NullFilter", "MaximumFilter")
        ),
        (
            lambda: SimplePipelineEngine(None, None),
            Inexpressible,
            "no SimplePipelineEngine here: write data = tohmeril.Data",
        ),
        (lambda: DataFrameLoader(None, None), Inexpressible, "no DataFrameLoader here: write tohmeril.Data.write"),
        (lambda: filters.Latest([close]), Inexpressible, "a column of floats that are 1 and 0"),
        (lambda: show_graph(pipe, "bmp"), ValueError, "drawn as svg, png, jpeg, and not as 'bmp'"),
    ],
)
def test_terms(make, sort, told):
    with pytest.raises(sort, match=told):
        make()


def test_numpy_is_the_operator_of_its_name():
    assert (
        np.abs(y) is y.abs() and np.isnan(y) is y.isnan() and np.multiply(2, y) is 2 * y and np.float64(2) * y is 2 * y
    )
    assert np.negative(y) is -y and (np.float32(0.5) < y) is (y > 0.5) and np.logical_not(y > 0) is ~(y > 0)


@pytest.mark.parametrize(
    "module, names",
    [
        ("factors.basic", "Returns SimpleMovingAverage VWAP EWMA"),
        ("factors.technical", "RSI MACDSignal TrueRange Returns"),
        ("factors.statistical", "SimpleBeta"),
        ("factors.events", "BusinessDaysSincePreviousEvent"),
        ("factors.factor", "CustomFactor Latest"),
        ("filters.smoothing", "All AtLeastN"),
        ("filters.filter", "StaticAssets"),
        ("classifiers.classifier", "Latest Everything"),
        ("engine", "SimplePipelineEngine"),
        ("loaders", "USEquityPricingLoader"),
        ("loaders.equity_pricing_loader", "USEquityPricingLoader"),
    ],
)
def test_modules_of_zipline(module, names):
    found = importlib.import_module(f"tohmeril.pipeline.{module}")
    above = importlib.import_module(f"tohmeril.pipeline.{module.split('.')[0]}")
    assert all(getattr(found, name) is getattr(above, name, getattr(found, name)) for name in names.split())


@pytest.mark.parametrize(
    "low, high, told",
    [(0.1, 0.9, [r"was \(10, 90\) meant"]), (0, 1, [r"was \(0, 100\) meant"]), (10, 90, []), (0, 5, [])],
)
def test_percentiles_below_1(low, high, told):
    with warnings.catch_warnings(record=True) as found:
        warnings.simplefilter("always")
        y.percentile_between(low, high)
    assert len(found) == len(told) and all(re.search(text, str(each.message)) for text, each in zip(told, found))
    assert all(each.filename == __file__ for each in found)


@pytest.mark.parametrize(
    "options, sort, told",
    [
        ({"executor": 4}, TypeError, r"executor is an Executor .* and not 4: for 4 processes ProcessPoolExecutor\(4\)"),
        ({"executor": "threads"}, TypeError, "executor is an Executor .* and not 'threads'$"),
        ({"chunksize": 0}, ValueError, "chunksize is from 1 to 4,096, and not 0"),
        ({"chunksize": 5000}, ValueError, "and not 5000"),
        ({"chunksize": -1}, ValueError, "and not -1"),
        ({"chunksize": 2.5}, TypeError, "chunksize is a whole number of sessions, and not 2.5"),
        ({"pieces": 0}, ValueError, "pieces is 1 or more, and not 0"),
        ({"pieces": -3}, ValueError, "and not -3"),
        ({"pieces": True}, TypeError, "pieces is a whole number of pieces, and not True"),
        ({"cut": 5}, TypeError, "cut is True or False, or a folder that all machines see, and not 5"),
        ({"cut": None}, TypeError, "and not None"),
        ({"symbols": True}, KeyError, "the data have no symbols, which symbols=True asks for"),
        ({"pieces_": 2}, TypeError, "pieces_"),
    ],
)
def test_options(options, sort, told, data):
    with pytest.raises(sort, match=told):
        run_pipeline(pipe, *RANGE, data, **options)
    if options.keys() <= {"executor", "pieces", "cut"}:
        with pytest.raises(sort, match=told):
            run_text(pipe, *RANGE, data, **options)


@pytest.mark.parametrize("asset", [101.5, True, None, float("nan"), [101]])
def test_an_asset_that_is_none(asset, data):
    with pytest.raises(TypeError, match="is neither a sid, which is a whole number, nor a symbol"):
        explain(pipe, RANGE[1], asset, "y", data)


def test_chunks_of_no_session(data):
    for size, sort in ((0, ValueError), (None, TypeError)):
        with pytest.raises(sort, match="chunksize is "):
            run_chunked_pipeline(pipe, *RANGE, size, data)


def test_a_folder_is_data(data):
    folder = data.folder
    why = explain(pipe, RANGE[1], 101, "y", folder)
    for given in (folder, str(folder)):
        assert run_pipeline(pipe, *RANGE, given).equals(run_pipeline(pipe, *RANGE, Data(folder)))
        assert (
            first_session(pipe, given) == first_session(pipe, data)
            and plan(pipe, *RANGE, given).text == plan(pipe, *RANGE, data).text
        )
        assert run_text(pipe, *RANGE, given).startswith(b"session,sid,y\n") and verify(pipe, why, given)
        assert len(run_chunked_pipeline(pipe, *RANGE, 2, given, progress=False))
    for call in (
        lambda: run_pipeline(pipe, *RANGE, {}),
        lambda: plan(pipe, *RANGE, None),
        lambda: first_session(pipe, pd.DataFrame()),
    ):
        with pytest.raises(
            TypeError, match="data is a Data or the path of its folder, and no (dict|NoneType|DataFrame): Data.write"
        ):
            call()


@pytest.mark.parametrize(
    "term, told",
    [
        (y.rank(method="first"), 'rank: the method is "ordinal", "min", "max", "average" or "dense"'),
        (y.top(0), "top: N is a whole number from 1"),
        (y.bottom(8001), "bottom: N is a whole number from 1 to 8,000"),
        (y.top(2.5), "top: N is a whole number"),
        (y.downsample("monthly"), 'downsample: the frequency is "year_start", "quarter_start"'),
        (y.clip(1, 0), "clip: the first bound is no greater"),
        (y.quantiles(101), "quantiles: the number of bins is a whole one from 2 to 100"),
        (y.percentile_between(0, 101), "percentiles are from 0 to 100"),
        (AtLeastN([y > 0], window_length=5, N=6), "AtLeastN: N is a whole number from 1 to the window"),
        (
            factors.EWMA([close], window_length=5, decay_rate=1),
            "ExponentialWeightedMovingMean: the decay rate is above 0 and below 1",
        ),
        (
            factors.EWMSTD([close], window_length=5, decay_rate=0),
            "ExponentialWeightedMovingStdDev: the decay rate is above 0 and below 1",
        ),
        (factors.WindowPercentile([close], window_length=5, percent=101), "WindowPercentile: the percent is from 0 to"),
        (y.winsorize(0.5, 0.5), "winsorize: both shares are from 0 to 1, the first below the second"),
        (BollingerBands(window_length=5, k=0).upper, "BollingerUpper: k is above 0"),
        (StaticSids([2**32]), "StaticSids: sids are whole numbers"),
        (Label("a" * 33), "label: a name is a letter or _"),
    ],
)
def test_arguments(term, told):
    for given in (Pipeline({"term": term.downsample("year_start") if "downsample" not in repr(term) else term}),):
        with pytest.raises(PipelineError, match="BadArgument") as fault:
            check(given)
        assert told in str(fault.value)
    with pytest.raises(PipelineError) as fault:  # the same of a text, where no term is known
        check(str(given))
    assert told in str(fault.value)


@pytest.mark.parametrize(
    "least, most, term",
    [
        (2, 100, "close.latest.quantiles({})"),
        (1, 8000, "close.latest.top({})"),
        (1, 8000, "close.latest.bottom({})"),
        (1, 1260, "SimpleMovingAverage(close, {})"),
        (2, 1260, "Returns(close, {})"),
        (0, 100, "close.latest.percentile_between({0}, {0})"),
        (0, 2**32 - 1, "StaticSids({})"),
        (1, 5, "AtLeastN(close.latest > 1, 5, {})"),
    ],
)
def test_limits_are_the_programs(least, most, term):
    """The numbers that hints tell."""
    name = re.findall(r"\w+(?=\()", term)[0]
    for number in (least, most):
        check(f"pipeline 1;\ncolumn a = {term.format(number)};\n")
    for number in (least - 1, most + 1):
        with pytest.raises(PipelineError) as told:
            check(f"pipeline 1;\ncolumn a = {term.format(number)};\n")
        assert all(
            f"{limit:,}" in str(told.value)
            for limit in (least, most)
            if (name, limit) not in (("AtLeastN", 5), ("Returns", 2))
        )


def test_limits_are_those_of_the_page():
    rows = (CHECKOUT / "docs/COMMANDS.md").read_text().split("| Limit |")[1].split("\n\n")[0].splitlines()[2:]
    limits = {}
    for names, numbers in (row.split("|")[1:3] for row in rows):
        found = re.findall(r"\d[\d,]*", numbers)
        limits.update(zip(re.findall(r"`(\w+)`", names), found if len(found) > 1 else found * 3))
    assert limits["bars"] == "4,000,000" and limits["columns"] == "64"
    assert all(limits[name] in hint for name, hint in HINTS.items() if name in limits)
    assert f"{runs.MOST_BARS:,}" == limits["bars"]


def substitute(folder, monkeypatch, text):
    """A program of one's own in place of the proved one."""
    path = folder / "program"
    path.write_text(f"#!/bin/sh\n{text}\n")
    path.chmod(0o755)
    monkeypatch.setenv("TOHMERIL", str(path))


@pytest.mark.parametrize("text", ["true", "echo session,sid,z", "echo; exec sleep 9", "exec yes"])
def test_a_foreign_program(text, data, tmp_path, monkeypatch):
    substitute(tmp_path, monkeypatch, text)
    derivation = "value 0 101 2023-12-29 1\n"
    for call in (
        lambda: run_pipeline(pipe, *RANGE, data),
        lambda: run_pipeline(Pipeline({"s": sector}), *RANGE, data),
        *(
            [
                lambda: run_text(pipe, *RANGE, data),
                lambda: check(pipe),
                lambda: plan(pipe, *RANGE, data),
                lambda: check(str(pipe)),
                lambda: first_session(pipe, data),
                lambda: explain(pipe, RANGE[1], 101, "y", data),
                lambda: verify(pipe, derivation, data),
            ]
            if text in ("true", "echo session,sid,z")
            else []
        ),
    ):
        with pytest.raises(
            Fault,
            match=f"the program {re.escape(str(tmp_path))}/program wrote (.|\n)*no tohmeril, or one of another version",
        ):
            call()


def test_an_older_program(data, tmp_path, monkeypatch):
    substitute(tmp_path, monkeypatch, "echo usage >&2; exit 2")
    with pytest.raises(
        Fault, match="usage\n(.|\n)*an option is out of its range, or the program is older than this package"
    ):
        run_pipeline(pipe, *RANGE, data)


@pytest.mark.parametrize("columns", [{"y": y}, {"s": sector, "y": y}])
def test_a_program_that_is_killed(columns, data, tmp_path, monkeypatch):
    """In the middle of a row, so that what came is no table."""
    substitute(tmp_path, monkeypatch, f'{program.find()} "$@" | head -c 2000; kill -9 $$')
    with pytest.raises(Fault, match="ended by SIGKILL, the signal 9\n.*where memory runs out"):
        run_pipeline(Pipeline(columns), *RANGE, data)


@pytest.mark.parametrize(
    "spoil, told",
    [
        ("DROP TABLE mergers", "there is no table mergers"),
        ("ALTER TABLE splits RENAME COLUMN den TO old", "the table splits has no column den"),
        (
            "DROP TABLE dividends; CREATE TABLE dividends (id, effective_date, num, den, sid); INSERT INTO dividends "
            "VALUES (1, 2, 'x', 4, 5)",
            "the table dividends has 'x' as num, which has to be an INTEGER",
        ),
    ],
)
def test_a_broken_store(spoil, told, market, tmp_path):
    shutil.copytree(market, tmp_path / "market")
    store = sqlite3.connect(tmp_path / "market/adjustments.db")
    store.executescript(spoil)
    store.close()
    for call in (lambda data: run_pipeline(pipe, *RANGE, data), lambda data: data.check()):
        with pytest.raises(StoreFault, match=told):
            call(Data(tmp_path / "market", revisions=None))
    (tmp_path / "market/adjustments.db").write_text(
        "no database, but a text that is long enough to be read as one, were it one " * 9
    )
    with pytest.raises(StoreFault, match="file is not a database"):
        run_pipeline(pipe, *RANGE, Data(tmp_path / "market", revisions=None))


def test_names_without_records(data, tmp_path):
    numbers = pd.DataFrame({"name": ["score"], "sid": [101], "known": ["2023-01-02"], "value": [1.0]})
    numbers.to_csv(tmp_path / "numbers.csv", index=False)
    whole = Data(data.folder, revisions=None, numbers=str(tmp_path / "numbers.csv"))
    wrong = Pipeline({"a": Labels.sectr.latest, "b": Fundamentals.earnings.latest, "c": sector})
    for call in (
        lambda: whole.run_pipeline(wrong, *RANGE),
        lambda: run_text(str(wrong), *RANGE, whole, pieces=2, cut=True),
    ):
        with warnings.catch_warnings(record=True) as told:
            warnings.simplefilter("always")
            call()
        assert [str(each.message) for each in told] == [
            (
                "no record has the label 'sectr', so that it is empty; there are listing, sector"
                if "listing" in str(told[0].message)
                else "no record has the label 'sectr', so that it is empty; there are sector"
            ),
            "no record has the number 'earnings', so that it is empty; there are score",
        ]
        assert all(each.filename == __file__ for each in told)
    with warnings.catch_warnings():
        warnings.simplefilter("error")
        run_pipeline(Pipeline({"c": sector, "d": y}), *RANGE, whole)
    with pytest.warns(UserWarning, match="'sector', so that it is empty; there are no labels"):
        run_pipeline(Pipeline({"c": sector}), *RANGE, Data(data.folder, revisions=None, labels=None))


def test_names_in_quotes(data, tmp_path):
    text = (data.folder / "labels.csv").read_text()
    (tmp_path / "labels.csv").write_text(text.replace("\nsector,", '\n"sector",'))
    with warnings.catch_warnings():
        warnings.simplefilter("error")
        run_pipeline(
            Pipeline({"c": sector}), *RANGE, Data(data.folder, revisions=None, labels=str(tmp_path / "labels.csv"))
        )


def test_pieces_by_the_size_of_the_bars(data, monkeypatch):
    wanted = run_pipeline(pipe, *RANGE, data)
    monkeypatch.setattr(runs, "MOST_BARS", 2000)
    seen = []
    monkeypatch.setattr(runs, "_piece", lambda *work, own=runs._piece: seen.append(1) or own(*work))
    assert run_pipeline(pipe, *RANGE, data, cut=True).equals(wanted)
    assert len(seen) == 1 + (len((data.folder / "bars.csv").read_text().splitlines()) - 1) // 2000


def test_too_many_bars_in_a_piece(data, monkeypatch):
    def full(*work):
        raise LimitFault("limit: bars")

    monkeypatch.setattr(runs, "_piece", full)
    with pytest.raises(LimitFault, match="in the piece from 2023-12-18 to 2023-12-21: give pieces=4"):
        run_pipeline(pipe, *RANGE, data, cut=True, pieces=2)
    told = "in the piece from 2023-12-18 to .*: give pieces=6"
    with ThreadPoolExecutor(2) as pool, pytest.raises(LimitFault, match=told):
        run_pipeline(pipe, *RANGE, data, cut=True, pieces=3, executor=pool)
