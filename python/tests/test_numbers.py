"""Numbers beside bars: columns of a DataSet, what `Data.write` makes of them, their values by pandas' as-of join."""

import pickle
import random
import re
import warnings

import numpy as np
import pandas as pd
import pytest

from tohmeril import Data, DataFault, PipelineError, check, cuts, explain, program, run_pipeline, run_text, runs, verify
from tohmeril.faults import fault
from tohmeril.pipeline import Inexpressible, Pipeline
from tohmeril.pipeline.data import BoundColumn, Column, DataSet, EquityPricing, Labels
from tohmeril.pipeline.factors import (
    AverageDollarVolume,
    BusinessDaysSincePreviousEvent,
    Latest,
    Returns,
    SimpleMovingAverage,
    WeightedAverageValue,
    WindowStd,
)
from tohmeril.pipeline.filters import AllPresent


class Fundamentals(DataSet):
    earnings = Column(float)
    short_interest = Column(np.float64, doc="shares sold short, in thousands")


class Scores(Fundamentals):
    value = Column("float64", name="value_score")


class Others(DataSet):
    earnings = Column(float)


earnings, interest = Fundamentals.earnings.latest, Fundamentals.short_interest.latest
price, sector = EquityPricing.close.latest, Labels.sector.latest
pipe = Pipeline({"earnings": earnings})

TEXTS = [
    (earnings, 'number("earnings")'),
    (Scores.value.latest, 'number("value_score")'),
    (Latest([Scores.earnings]), 'number("earnings")'),
    (earnings / price - 1, 'number("earnings") / close.latest - 1'),
    (-earnings > interest.fillna(0), '-number("earnings") > number("short_interest").fillna(0)'),
    (SimpleMovingAverage(inputs=[earnings], window_length=20), 'SimpleMovingAverage(number("earnings"), 20)'),
    (
        SimpleMovingAverage(inputs=[Fundamentals.earnings], window_length=20),
        'SimpleMovingAverage(number("earnings"), 20)',
    ),
    (
        WeightedAverageValue([Returns(window_length=2), interest], window_length=5),
        'WeightedAverageValue(Returns(close, 2), number("short_interest"), 5)',
    ),
    (AllPresent([Fundamentals.earnings], window_length=3), 'AllPresent(number("earnings"), 3)'),
    (
        earnings.rank(ascending=False, mask=price > 5, groupby=sector),
        'number("earnings").rank(order="descending", mask=close.latest > 5, groupby=label("sector"))',
    ),
    (
        earnings.zscore(mask=AverageDollarVolume(window_length=30).top(9), groupby=sector),
        'number("earnings").zscore(mask=AverageDollarVolume(30).top(9), groupby=label("sector"))',
    ),
    (earnings.quintiles().eq(4), 'number("earnings").quantiles(5) == 4'),
    (earnings.downsample("month_start"), 'number("earnings").downsample("month_start")'),
    (earnings.age(), 'number("earnings").age()'),
    (earnings.age("business_days") / interest, 'number("earnings").age("business_days") / number("short_interest")'),
    (BusinessDaysSincePreviousEvent([Scores.value]), 'number("value_score").age("business_days")'),
    (
        BusinessDaysSincePreviousEvent([Fundamentals.earnings], mask=price > 5),
        'number("earnings").age("business_days").where(close.latest > 5)',
    ),
]


@pytest.mark.parametrize("term, text", TEXTS, ids=[text for _, text in TEXTS])
def test_term(term, text):
    assert repr(term) == text and pickle.loads(pickle.dumps(term)) is term
    written = str(Pipeline({"x": term})) + "\n"
    first = "pipeline 4;\n" if ".age(" in text else "pipeline 3;\n"
    assert written.startswith(first)
    with program.file(written) as name:  # the text is the program's own canonical form
        assert program.call("fmt", name).decode() == written
    assert check(f"{first}column x = {text};\n") == check(Pipeline({"x": term}))


def test_texts_without_numbers_stay():
    pipe = Pipeline({"number": price, "a": (price.abs() + 1).alias("number").rank()})
    assert (
        str(pipe)
        == "pipeline 1;\nlet number = close.latest.abs() + 1;\ncolumn number = close.latest;\ncolumn a = number.rank();"
    )
    pipe.add(earnings, "b")
    assert str(pipe).startswith("pipeline 3;\nlet number_2 = close.latest.abs() + 1;")
    pipe.add(earnings.rank() - interest.alias("short").rank(), "c")
    assert 'let b = number("earnings");\nlet short = number("short_interest");\n' in str(pipe) and check(pipe) == (
        10,
        4,
    )
    assert str(Pipeline({"a": earnings.rank(), "b": earnings / price})).startswith(
        'pipeline 3;\nlet earnings = number("earnings");\n'
    )


def test_a_data_set():
    assert DataSet.columns == frozenset() and Scores.columns == {
        Fundamentals.earnings,
        Fundamentals.short_interest,
        Scores.value,
    }
    assert Scores.earnings is Fundamentals.earnings is Fundamentals.get_column("earnings") and isinstance(
        Scores.value, BoundColumn
    )
    assert (repr(Scores.value), Scores.value.name, Scores.value.dtype) == (
        "Scores.value",
        "value_score",
        np.dtype("float64"),
    )
    assert pickle.loads(pickle.dumps(Scores.value)) is Scores.value
    with pytest.raises(AttributeError, match="Scores has no column 'price'"):
        Scores.get_column("price")


@pytest.mark.parametrize(
    "make, told",
    [
        (
            lambda: Fundamentals.earnings > 3,
            "Fundamentals.earnings is a column of numbers and no factor: write .latest",
        ),
        (lambda: Fundamentals.earnings.rank(), "has no rank: write Fundamentals.earnings.latest"),
        (lambda: Fundamentals.earnings.alias("x"), "has no alias"),
        (lambda: Pipeline({"a": Fundamentals.earnings}), "no factor, filter or classifier"),
        (lambda: price.age(), "age: close.latest is no number of a DataSet: write Fundamentals.earnings.latest.age"),
        (lambda: earnings.age().age(), "is no number of a DataSet"),
        (lambda: BusinessDaysSincePreviousEvent([price]), "inputs has to be one column of numbers"),
        (lambda: BusinessDaysSincePreviousEvent(), "inputs has to be one column of numbers"),
        (lambda: Column("datetime64[ns]"), "no Column.datetime64.*whole days since 1970"),
        (lambda: Column(complex), "no Column.complex.; nearest: Column.float."),
        (lambda: Column(float, missing_value=0), "fillna"),
        (lambda: type("A", (DataSet,), {"é": Column(float)}), "A.é: 'é' can't be the name of a number"),
        (lambda: type("A", (DataSet,), {"a": Column(float, name="screen")}), "A.a: 'screen' can't be the name"),
        (
            lambda: str(Pipeline({"a": earnings, "b": Others.earnings.latest.rank()})),
            "both the number 'earnings': .*name='others_earnings'",
        ),
    ],
)
def test_mistakes_are_told_at_once(make, told):
    with pytest.raises((TypeError, AttributeError, ValueError, Inexpressible), match=told):
        make()


DAYS = pd.bdate_range("2024-01-01", periods=5)
CLOSE = pd.DataFrame({"AAA": [10.0, 11, 12, 13, 14], "BBB": [20.0, 21, 22, 23, 24]}, index=DAYS)
WIDE = pd.DataFrame(
    {"AAA": [1.5, 1.5, np.nan, np.nan, -2], "BBB": [np.nan, 3, 3, 4, 4]},
    index=pd.to_datetime(["2023-11-01", "2024-01-02", "2024-01-03", "2024-01-05", "2024-01-08"]),
)
CHANGES = [
    "earnings,0,2023-11-01,1.500000",
    "earnings,1,2024-01-02,3.000000",
    "earnings,0,2024-01-03,",
    "earnings,1,2024-01-05,4.000000",
    "earnings,0,2024-01-08,-2.000000",
]
LONG = pd.DataFrame(
    {
        "name": "earnings",
        "asset": ["AAA", "BBB", "AAA"],
        "known": ["2024-01-02", "2024-01-03", "2024-01-04"],
        "value": [1, -2.5, np.nan],
    }
)


def written(folder, numbers):
    return (Data.write(folder, {"close": CLOSE}, numbers=numbers).folder / "numbers.csv").read_text().splitlines()


@pytest.mark.parametrize(
    "numbers, records",
    [
        (LONG, ["earnings,0,2024-01-02,1.000000", "earnings,1,2024-01-03,-2.500000", "earnings,0,2024-01-04,"]),
        (LONG.set_index(["name", "asset", "known"]).iloc[:1], ["earnings,0,2024-01-02,1.000000"]),
        (LONG.rename(columns={"asset": "Ticker", "known": "known_date"}).iloc[2:], ["earnings,0,2024-01-04,"]),
        (
            LONG.assign(
                known=pd.to_datetime(LONG.known).dt.tz_localize("America/New_York"),
                value=pd.array([1, None, 3], "Int64"),
            ),
            ["earnings,0,2024-01-02,1.000000", "earnings,1,2024-01-03,", "earnings,0,2024-01-04,3.000000"],
        ),
        ({"earnings": WIDE}, CHANGES),
        (
            {Fundamentals.earnings: WIDE.iloc[::-1], "nan": WIDE.tail(1)},
            [*CHANGES, "nan,0,2024-01-08,-2.000000", "nan,1,2024-01-08,4.000000"],
        ),
        ({Scores.value: WIDE[["BBB"]].tail(2)}, ["value_score,1,2024-01-05,4.000000"]),
        ({"none": WIDE.iloc[2:3, :1]}, []),
        ({}, []),
    ],
)
def test_forms(numbers, records, tmp_path):
    assert written(tmp_path, numbers) == ["name,sid,known,value", *records]


@pytest.mark.parametrize(
    "numbers, told",
    [
        (
            pd.concat([LONG, LONG]),
            r"numbers: earnings AAA 2024-01-02 is there twice, in the rows \[0, 0\], and so are 2 others",
        ),
        ({"earnings": WIDE, Others.earnings: WIDE}, "numbers: earnings is there twice"),
        ({"earnings": WIDE.iloc[[0, 0]]}, "numbers: earnings: 2023-11-01 is there twice"),
        (
            LONG.assign(value=[1, 3.83e11, 1]),
            "numbers: earnings of BBB, known on 2024-01-03, is 383000000000; .*in thousands or millions\nrow 1",
        ),
        (LONG.assign(value=[1, 1, -np.inf]), "earnings of AAA, known on 2024-01-04, is -inf"),
        (LONG.assign(name="EPS (basic)"), r"'EPS \(basic\)' is no name"),
        (LONG.assign(name=["a", "let", None]), "'let' is no name; .*\nrow 1, and 1 other$"),
        (
            LONG.assign(known=["1899-12-31", *LONG.known[1:]]),
            "numbers: '1899-12-31' is not of the years 1900 to 2199\nrow 0 of known$",
        ),
        (LONG.assign(known=["2200-01-01", *LONG.known[1:]]), "numbers: '2200-01-01' is not of the years"),
        (
            LONG.assign(known=1714608000),
            r'numbers: 1714608000 is no day as YYYYMMDD\nrow 0 of known, and 2 others; .*unit="s"',
        ),
        ({"a": WIDE.reset_index(drop=True)}, "numbers: 0 is no day\nrow 0 of the index of a"),
        (LONG.assign(known=[None, *LONG.known[1:]]), "a day is missing in known"),
        (LONG.assign(asset="CCC"), "numbers: no asset has the symbol 'CCC'"),
        (LONG.drop(columns="known"), "numbers: there is no column known"),
        ({"a": WIDE.AAA}, "numbers: a is no frame"),
    ],
)
def test_spoilt_frames(numbers, told, tmp_path):
    with pytest.raises(DataFault, match=told):
        written(tmp_path, numbers)


@pytest.mark.parametrize(
    "period, count",
    [
        (["2024-01-01", "2024-01-03", "2024-02-29"], 2),
        (pd.to_datetime(["2023-12-31"] * 3), 0),
        (pd.PeriodIndex(["2024-01"] * 3, freq="M"), 3),
        (["2023Q4", "2024Q1", None], 1),
        (["FY", "Q1", "Q2"], 0),
        ([20231231, 20240103, None], 1),
        ([20231231, 20240102, 20240104], 1),
        (pd.to_datetime(["2024-01-03"] * 3).tz_localize("UTC"), 2),
    ],
)
def test_days_of_publication(period, count, tmp_path):
    with warnings.catch_warnings(record=True) as told:
        warnings.simplefilter("always")
        assert len(written(tmp_path, LONG.assign(period=period))) == 4
    assert [str(each.message).split(", as")[0] for each in told] == [
        f"{count} of 3 numbers are known by the last day of the period that they are of"
    ] * (count > 0)


@pytest.fixture(scope="module")
def reports(market):
    """Numbers of the market's assets that became known on some days, sessions or not; each eighth ends a value."""
    draw = random.Random(7)
    sids, days = (
        pd.read_csv(market / "assets.csv").sid.tolist(),
        pd.date_range("2022-06-01", "2024-01-31").strftime("%Y-%m-%d").tolist(),
    )
    keys = {
        (name, draw.choice(sids[1:]), draw.choice(days)) for name in ("earnings", "short_interest") for _ in range(400)
    }
    return pd.DataFrame(
        [
            (*key, np.nan if draw.random() < 0.125 else draw.randint(-5_000_000, 50_000_000) / 1e6)
            for key in sorted(keys)
        ],
        columns=["name", "asset", "known", "value"],
    ).sample(frac=1, random_state=7)


@pytest.fixture(scope="module")
def whole(market, reports, tmp_path_factory):
    """The market with these numbers."""
    path = tmp_path_factory.mktemp("numbers") / "numbers.csv"
    reports.set_axis(["name", "sid", "known", "value"], axis=1).to_csv(path, index=False, float_format="%.6f")
    return Data(market, revisions=None, adjustments=None, numbers=path)


def as_of(frame, reports, name, asof="2199-12-31"):
    """The numbers of a name over the rows of a frame, by `merge_asof`."""
    rows = frame.index.to_frame(index=False).astype({"session": "datetime64[ns]"}).sort_values("session", kind="stable")
    known = reports[reports["name"].eq(name) & reports.known.le(asof)]
    known = known.assign(session=pd.to_datetime(known.known)).sort_values("session", kind="stable")
    return (
        pd.merge_asof(rows, known[["session", "asset", "value"]], on="session", by="asset")
        .set_index(["session", "asset"])
        .value.reindex(frame.index)
        .to_numpy()
    )


def test_ages(whole, reports):
    """By pandas' as-of join of the days on which they became known, and numpy's count of business days."""
    ages = Pipeline({"days": earnings.age(), "business": earnings.age("business_days")})
    frame = run_pipeline(ages, "2023-01-03", "2023-12-29", whole)
    known = as_of(frame, reports.assign(value=pd.to_datetime(reports.known).where(reports.value.notna())), "earnings")
    sessions, there = frame.index.get_level_values("session").to_numpy(), ~np.isnat(known)
    np.testing.assert_array_equal(frame.days, (sessions - known) / np.timedelta64(1, "D"))
    assert 0 < there.sum() < len(frame) and np.array_equal(frame.business.notna(), there)
    np.testing.assert_array_equal(
        frame.business[there], np.busday_count(*(days[there].astype("datetime64[D]") for days in (known, sessions)))
    )


def test_values(whole, reports):
    many = Pipeline(
        {
            "earnings": earnings,
            "interest": interest,
            "yield": earnings / price,
            "mean": SimpleMovingAverage([interest], window_length=20),
            "spread": WindowStd([Fundamentals.earnings], window_length=10),
            "price": price,
            "sector": sector,
            "score": earnings.zscore(groupby=sector),
            "place": interest.rank(ascending=False),
        }
    )
    frame = run_pipeline(many, "2023-01-03", "2023-12-29", whole)
    for name, column in (("earnings", "earnings"), ("short_interest", "interest")):
        np.testing.assert_array_equal(frame[column], as_of(frame, reports, name))
    assert 0 < frame.earnings.isna().sum() < len(frame) and (frame.earnings < 0).any()
    np.testing.assert_allclose(frame["yield"], frame.earnings / frame.price, rtol=0, atol=5e-7)
    days = whole.days("2022-11-01", "2023-12-29")
    cells = pd.MultiIndex.from_product([pd.to_datetime(days), frame.index.levels[1]], names=["session", "asset"])
    before = {
        name: pd.Series(as_of(pd.DataFrame(index=cells), reports, name), cells).unstack()
        for name in ("earnings", "short_interest")
    }
    mean, spread = (
        before["short_interest"].rolling(20, min_periods=1).mean().stack(),
        before["earnings"].rolling(10, min_periods=1).std(ddof=0).stack(),
    )
    lives = pd.read_csv(whole.files["assets"]).set_index("sid").start
    old = frame.index[
        [lives[sid] < days[0] for sid in frame.index.get_level_values("asset")]
    ]  # numbers before its life are none of an asset's
    np.testing.assert_allclose(frame["mean"][old], mean.reindex(old), rtol=0, atol=1e-6)
    np.testing.assert_allclose(frame.spread[old], spread.reindex(old), rtol=0, atol=2e-6)
    groups = frame.assign(sector=frame.sector.astype(object)).groupby(["session", "sector"]).earnings
    np.testing.assert_allclose(
        frame.score,
        (frame.earnings - groups.transform("mean")) / groups.transform(lambda cells: cells.std(ddof=0)),
        rtol=0,
        atol=1e-4,
    )
    np.testing.assert_array_equal(frame.place, frame.interest.groupby("session").rank(method="first", ascending=False))


def test_as_of(whole, reports):
    frame = run_pipeline(pipe, "2023-11-01", "2023-12-29", whole, asof="2023-12-29")
    np.testing.assert_array_equal(frame.earnings, as_of(frame, reports, "earnings", asof="2023-12-29"))


@pytest.mark.parametrize(
    "options",
    [{"pieces": 3}, {"pieces": 3, "cut": True}, {"chunksize": 7}, {"asof": "2023-12-29", "pieces": 2, "cut": True}],
    ids=str,
)
def test_pieces(options, whole):
    wide = Pipeline(
        {
            "earnings": earnings,
            "trend": SimpleMovingAverage([interest], window_length=30),
            "old": interest.downsample("quarter_start"),
            "score": (earnings / price).zscore(groupby=sector),
        },
        interest.notnull(),
    )
    assert run_text(wide, "2023-10-02", "2023-12-29", whole, **options) == run_text(
        wide, "2023-10-02", "2023-12-29", whole
    )


def test_a_piece_has_no_more_than_it_reads(whole, reports, monkeypatch):
    made = []

    def look(*args):
        pieces = cuts.cut_files(*args)
        made.extend([pd.read_csv(piece.files[part]) for part in ("numbers", "assets")] for piece in pieces)
        return pieces

    monkeypatch.setattr(runs, "cut_files", look)
    run_text(pipe, "2023-10-02", "2023-12-29", whole, pieces=2, cut=True)
    for (numbers, assets), (first, last) in zip(made, whole.pieces("2023-10-02", "2023-12-29", 2)):
        mine = reports[reports.asset.isin(assets.sid) & (reports.known <= last)].sort_values("known")
        old = mine[mine.known <= first].drop_duplicates(["name", "asset"], keep="last")
        assert set(zip(numbers["name"], numbers.sid, numbers.known)) == set(
            zip(*(pd.concat([old, mine[mine.known > first]])[key] for key in ("name", "asset", "known")))
        )


def test_why_a_number_is_what_it_is(whole, reports):
    pipe = Pipeline({"yield": earnings / price, "mean": SimpleMovingAverage([interest], window_length=3)})
    frame = run_pipeline(pipe, "2023-12-20", "2023-12-20", whole, exact=True)
    for column in pipe.columns:
        sid = frame[column].dropna().index[0][1]
        derived = explain(pipe, "2023-12-20", sid, column, whole)
        assert derived.value == frame.loc[("2023-12-20", sid), column] and verify(pipe, derived, whole)
        assert not verify(pipe, derived, Data(whole.folder, revisions=None, adjustments=None, numbers=empty(whole)))
        undated = re.sub(r"^(value \S+ \S+ \S+ \S+) \S+$", r"\1", derived.text, flags=re.MULTILINE)
        assert undated != derived.text and not verify(pipe, undated, whole)
    lines = [line for line in str(derived).splitlines() if 'number("short_interest")' in line][1:]
    days = reports.known[reports["name"].eq("short_interest") & reports.asset.eq(sid)]
    assert len(lines) == 3 and all(line.endswith(f" since {days[days <= '2023-12-18'].max()}") for line in lines[:1])


def empty(whole):
    path = whole.files["numbers"].with_name("none.csv")
    path.write_text("name,sid,known,value\n")
    return path


@pytest.mark.parametrize(
    "header, fields, rule, shown",
    [
        (
            "name,sid,date,value",
            "earnings,101,2023-12-27,1.5",
            "BadHeader",
            "record 1: name,sid,date,value\nwrite the header",
        ),
        ("name,sid,known,value", "earnings,101,2023-12-27,1.5e3", "BadField", "^^^^^ value\nwrite plain decimals"),
        ("name,sid,known,value", "EPS basic,101,2023-12-27,1.5", "BadField", "^^^^^^^^^ name\n"),
        ("name,sid,known,value", "earnings,101,2023-12-2,1.5", "BadField", "^^^^^^^^^ known\n"),
        ("name,sid,known,value", "earnings,102,2023-12-27,", "Duplicate", "^^^^^^^^^^ known\nkeep one"),
        ("name,sid,known,value", "earnings,999,2023-12-27,1", "UnknownSid", "^^^ sid\nadd the asset to the assets"),
    ],
)
@pytest.mark.parametrize("options", [{}, {"pieces": 2, "cut": True}], ids=["whole files", "cut"])
def test_records(header, fields, rule, shown, options, market, tmp_path):
    path = tmp_path / "numbers.csv"
    path.write_text(
        f"{header}\nearnings,102,2023-12-20,-2\n\nearnings,101,2023-12-21,\nearnings,102,2023-12-27,2\n{fields}\n"
    )
    data = Data(market, revisions=None, adjustments=None, numbers=path)
    if options and rule == "UnknownSid":
        assert len(run_pipeline(pipe, "2023-12-18", "2023-12-29", data, **options))  # what no piece reads is not judged
        return
    with pytest.raises(DataFault, match=f"data {rule}") as told:
        run_pipeline(pipe, "2023-12-18", "2023-12-29", data, **options)
    assert shown in str(told.value) and (told.value.path, told.value.status) == (str(path), 4)
    assert told.value.record == (1 if rule == "BadHeader" else 5)


def test_no_numbers(market, whole):
    data = Data(market, revisions=None, adjustments=None, numbers=None)
    both = Pipeline({"price": price, "rank": 1 + earnings.rank()})
    assert check(both).columns == 2
    for call in (
        lambda: run_pipeline(both, "2023-12-18", "2023-12-29", data),
        lambda: explain(both, "2023-12-18", 105, "price", data),
    ):
        with pytest.raises(
            PipelineError, match="check NoNumbers\n(.*\n)*the data have no numbers; Data.write takes them"
        ) as told:
            call()
        assert told.value.term is earnings and told.value.place == (3, 19)
    frame = run_pipeline(
        Pipeline({"typo": type("Typos", (DataSet,), {"earning": Column(float)}).earning.latest}),
        "2023-12-18",
        "2023-12-29",
        whole,
    )
    assert frame.typo.isna().all()
    assert "2,000,000 numbers" in str(fault(6, "limit: numbers"))


def test_what_looks_odd(tmp_path):
    ends = pd.DataFrame(
        {"AAA": [1.0, 2, 3, 4]}, index=pd.to_datetime(["2023-03-31", "2023-06-30", "2023-09-30", "2023-12-31"])
    )
    data = Data.write(
        tmp_path,
        dict.fromkeys(["open", "high", "low", "close", "volume"], CLOSE),
        numbers={"earnings": WIDE, "sales": ends},
    )
    assert data.check() == [
        "numbers: 'sales' is known on the last days of months alone, as periods end: give the days of publication"
    ]
    assert data.check(Pipeline({"a": earnings, "b": interest}))[:2] == [
        "numbers: no pipeline names 'sales'",
        "numbers: there are none of the name 'short_interest', so that its column is empty",
    ]
