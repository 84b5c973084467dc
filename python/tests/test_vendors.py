"""Frames of vendors' forms, made small. The values are worked out by hand; Apple's of 2020 are its exchange's."""

import doctest
import sqlite3
import warnings

import numpy as np
import pandas as pd
import pytest
from conftest import CHECKOUT

from tohmeril import Data, DataFault, run_pipeline
from tohmeril.pipeline import Pipeline
from tohmeril.pipeline.data import EquityPricing
from tohmeril.pipeline.factors import Returns
from tohmeril.vendors import crsp, csvdir, sas_days, sharadar, stooq, unadjust, yfinance

pytestmark = pytest.mark.filterwarnings("ignore:(bars|splits|assets|table):UserWarning")  # of what looks odd
DAYS = ["2020-08-06", "2020-08-07", "2020-08-28", "2020-08-31"]
RAW = [455.61, 444.45, 499.23, 129.04]  # Apple paid 0.82 on 2020-08-07 and made four shares of one on 2020-08-31
ADJUSTED = [113.9025, 111.1125, 124.8075, 129.04]
SPLIT = 1598832000  # 2020-08-31
pipe = Pipeline({"close": EquityPricing.close.latest, "change": Returns(window_length=2)})


def rows(data, table):
    store = sqlite3.connect(data.folder / "adjustments.db")
    found = store.execute(f"SELECT effective_date, num, den, sid FROM {table}").fetchall()
    store.close()
    return found


def lines(data, part="bars"):
    return data.files[part].read_text().splitlines()[1:]


def closes(data):
    return [line.split(",")[5] for line in lines(data)]


def yahoo():
    other = pd.DataFrame(
        {
            "Open": np.nan,
            "High": np.nan,
            "Low": np.nan,
            "Close": [1.0, 2, 3, 4],
            "Adj Close": 1.0,
            "Volume": 10.0,
            "Dividends": [0, 0, np.nan, 0.5],
            "Stock Splits": [0, 0, np.nan, 0],
        },
        index=pd.to_datetime(DAYS).rename("Date"),
    )
    apple = other.assign(
        Close=ADJUSTED,
        Open=ADJUSTED,
        Volume=[4e6, 4e6, 187629600, 225702700],
        Dividends=[0, 0.205, 0, 0.1],
        **{"Stock Splits": [0, 0, 0, 4.0]},
    )
    return {"AAPL": apple, "ZZZ": other}


@pytest.mark.parametrize("form", ["by price", "by symbol", "one", "one, with a column of days"])
def test_yfinance(form, tmp_path):
    frames = yahoo()
    wide = pd.concat(frames, axis=1)
    given = {
        "by price": lambda: yfinance(wide.swaplevel(axis=1)),
        "by symbol": lambda: yfinance(wide),
        "one": lambda: yfinance(frames["AAPL"].tz_localize("America/New_York"), "AAPL"),
        "one, with a column of days": lambda: yfinance(frames["AAPL"].reset_index(), "AAPL"),
    }
    data = Data.write(tmp_path, **given[form]())
    bars = lines(data)
    assert bars[:4] == [
        "0,2020-08-06,455.610000,,,455.610000,1000000.000000",
        "0,2020-08-07,444.450000,,,444.450000,1000000.000000",
        "0,2020-08-28,499.230000,,,499.230000,46907400.000000",
        "0,2020-08-31,129.040000,,,129.040000,225702700.000000",
    ]
    assert rows(data, "splits") == [(SPLIT, 1, 4, 0)]
    # (455.61 - 0.82) / 455.61, and on the day of the split (499.23 - 0.4) / 499.23; (3 - 0.5) / 3 of the other
    assert rows(data, "dividends")[:2] == [(1596758400, 45479, 45561, 0), (SPLIT, 49883, 49923, 0)]
    assert rows(data, "dividends")[2:] == ([] if "one" in form else [(SPLIT, 5, 6, 1)])
    assert data.symbols.tolist() == (["AAPL"] if "one" in form else ["AAPL", "ZZZ"])


def test_yfinance_of_adjusted_prices(tmp_path):
    frame = yahoo()["AAPL"]
    for lacking, told in (
        ("Adj Close", "there is no 'Adj Close', .*\ndownload with auto_adjust=False"),
        ("Stock Splits", "no column stock splits\n.*actions=True"),
    ):
        with pytest.raises(DataFault, match=f"yfinance: .*{told}"):
            yfinance(frame.drop(columns=lacking), "AAPL")
    with pytest.raises(DataFault, match="yfinance: the frame names no symbol"):
        yfinance(frame)
    parts = yfinance(frame, "AAPL", end="2020-08-28")
    assert (
        parts["bars"].close.tolist() == RAW[:3]
        and parts["splits"].empty
        and parts["dividends"].amount.tolist() == [0.82]
    )
    with pytest.raises(DataFault, match="beside the prices there is 'Adj Close'"):
        Data.write(tmp_path, frame.assign(symbol="AAPL"))


def test_what_is_adjusted_as_yahoo_does_it(tmp_path):
    data = Data.write(
        tmp_path, **yfinance(yahoo()["AAPL"].assign(Dividends=0.0), "AAPL"), sessions=[*DAYS, "2020-09-01"]
    )
    frame = run_pipeline(pipe, "2020-08-31", "2020-09-01", data).droplevel("asset")
    assert frame.close.tolist() == [124.8075, 129.04] and frame.change.tolist() == [
        round(124.8075 / 111.1125 - 1, 6),
        round(129.04 / 124.8075 - 1, 6),
    ]


@pytest.mark.parametrize(
    "splits, raw",
    [
        ([("2024-01-03", 2), ("2024-01-05", 1.5)], [3.0, 1.5, 1.5, 1]),
        ([("2024-01-05", 0.1)], [0.1, 0.1, 0.1, 1]),
        ([("2024-01-01", 7)], [1, 1, 1, 1]),
        ([], [1, 1, 1, 1]),
        ([("2024-01-09", 3.0)], [3, 3, 3, 3]),
        ([("2024-01-05", "3:2"), ("2024-01-05", 2.0)], [3, 3, 3, 1]),
    ],
)
def test_unadjust(splits, raw):
    bars = pd.DataFrame(
        {
            "symbol": "A",
            "date": pd.to_datetime(["2024-01-02", "2024-01-03", "2024-01-04", "2024-01-05"]),
            "close": 1.0,
            "volume": 6.0,
        }
    )
    both = pd.concat([bars, bars.assign(symbol="B")]).sample(frac=1, random_state=1)
    found = unadjust(both, pd.DataFrame(splits, columns=["date", "split"]).assign(symbol="A")).sort_values(
        ["symbol", "date"]
    )
    assert found.close.tolist() == [*raw, 1, 1, 1, 1] and found.volume.tolist() == [*(6 / np.array(raw)), 6, 6, 6, 6]


def test_stooq(tmp_path):
    bulk = pd.DataFrame(
        [
            ["AAPL.US", "D", 20240102, "000000", 1.5, 2, 1, 1.75, 1000.5, 0],
            ["AAPL.US", "D", 20240103, "000000", 1.5, 2, 1, 1.5, 900, 0],
        ],
        columns=["<TICKER>", "<PER>", "<DATE>", "<TIME>", "<OPEN>", "<HIGH>", "<LOW>", "<CLOSE>", "<VOL>", "<OPENINT>"],
    )
    wanted = [
        "0,2024-01-02,1.500000,2.000000,1.000000,1.750000,1000.500000",
        "0,2024-01-03,1.500000,2.000000,1.000000,1.500000,900.000000",
    ]
    data = Data.write(tmp_path, **stooq(bulk))
    assert lines(data) == wanted and data.symbols.tolist() == ["AAPL.US"]
    site = pd.DataFrame(
        [["2024-01-02", 1.5, 2, 1, 1.75, 1000.5], ["2024-01-03", 1.5, 2, 1, 1.5, 900]],
        columns=["Date", "Open", "High", "Low", "Close", "Volume"],
    )
    assert lines(Data.write(tmp_path, **stooq(site, "AAPL.US"))) == wanted
    with pytest.raises(DataFault, match="stooq: the period of a bar is 60"):
        stooq(bulk.assign(**{"<PER>": ["D", 60]}))
    with pytest.raises(DataFault, match="stooq: the frame names no symbol"):
        stooq(site)


SEP = pd.DataFrame(
    {
        "ticker": "AAPL",
        "date": DAYS,
        "open": [113.9, 111.1, 124.8, 129.0],
        "high": 130.0,
        "low": 100.0,
        "close": [113.903, 111.113, 124.808, 129.04],
        "volume": [4e6, 4e6, 187629600, 225702700],
        "closeadj": 100.0,
        "closeunadj": RAW,
        "lastupdated": "2024-01-02",
    }
)
ACTIONS = pd.DataFrame(
    [
        ("2020-08-31", "split", "AAPL", 4.0),
        ("2020-08-07", "dividend", "AAPL", 0.82),
        ("2020-08-07", "dividend", "OTHER", 9.0),
        ("2020-08-07", "listed", "AAPL", np.nan),
    ],
    columns=["date", "action", "ticker", "value"],
)
SF1 = pd.DataFrame(
    [
        ("AAPL", "ARQ", "2020-07-31", "2020-06-27", 2.61, 59_685e6),
        ("AAPL", "MRQ", "2020-06-30", "2020-06-27", 0.65, 59_685e6),
        ("AAPL", "ARQ", "2020-05-01", "2020-03-28", 2.58, 58_313e6),
        ("AAPL", "ARQ", "2020-08-03", "2019-12-28", 5.0, 1e6),
        ("AAPL", "ARQ", "2020-05-01", "2019-06-29", 2.2, 1e6),
        ("OTHER", "ARQ", "2020-05-01", "2020-03-28", 1.0, 1e6),
    ],
    columns=["ticker", "dimension", "datekey", "reportperiod", "eps", "revenue"],
)


def test_sharadar(tmp_path):
    for dividends, actions in (("paid", ACTIONS), ("adjusted", ACTIONS.replace(0.82, 0.205))):
        data = Data.write(
            tmp_path, **sharadar(SEP, actions, SF1, fields={"eps": 1, "revenue": 1_000_000}, dividends=dividends)
        )
        assert closes(data) == ["455.610000", "444.450000", "499.230000", "129.040000"]
        assert lines(data)[2] == "0,2020-08-28,499.200000,520.000000,400.000000,499.230000,46907400.000000"
        assert rows(data, "splits") == [(SPLIT, 1, 4, 0)] and rows(data, "dividends") == [(1596758400, 45479, 45561, 0)]
    assert sorted(lines(data, "numbers")) == [
        "eps,0,2020-05-02,2.580000",
        "eps,0,2020-08-01,2.610000",
        "revenue,0,2020-05-02,58313.000000",
        "revenue,0,2020-08-01,59685.000000",
    ]
    assert "dividends" not in sharadar(SEP, ACTIONS, dividends="none")


@pytest.mark.parametrize(
    "call, told",
    [
        (lambda: sharadar(SEP, ACTIONS), 'ACTIONS: dividends may be as paid, .*\nsay dividends="paid"'),
        (
            lambda: sharadar(SEP, ACTIONS[1:], dividends="paid"),
            "SEP: closeunadj of AAPL on 2020-08-06 is 455.61, and close by the later splits of ACTIONS is 113.903",
        ),
        (lambda: sharadar(SEP.drop(columns="closeunadj"), ACTIONS), "SEP: there is no column closeunadj"),
        (
            lambda: sharadar(SEP, ACTIONS, SF1, fields={"eps": 1}, dimension="MRQ", dividends="paid"),
            "SF1: the dimension MRQ has later restatements, so that a pipeline would look ahead\nARQ, ARY, ART",
        ),
        (lambda: sharadar(SEP, ACTIONS, SF1, dividends="paid"), "SF1: fields is missing"),
        (
            lambda: sharadar(SEP, ACTIONS, SF1, fields={"ebit": 1}, dividends="paid"),
            "SF1: there is no column ebit\nthere are ticker",
        ),
        (
            lambda: sharadar(SEP.assign(date="08/06/2020"), ACTIONS),
            "SEP: '08/06/2020' may be a day of June or of August",
        ),
    ],
)
def test_sharadar_of_another_form(call, told):
    with pytest.raises(DataFault, match=told):
        call()


def test_sharadar_has_spin_offs():
    with pytest.warns(UserWarning, match="ACTIONS: 1 spin-offs are left out, as that of AAPL on 2020-08-07"):
        sharadar(SEP, pd.concat([ACTIONS, ACTIONS[1:2].assign(action="spinoff")]), dividends="paid")


def daily(**more):
    """Three PERMNOs over five days: 10001 splits 2:1 on the third and pays 0.5 on the fifth, 10002 spins off on the
    second, 10003 ends."""
    days = [20240102, 20240103, 20240104, 20240105, 20240108]
    one = pd.DataFrame(
        {
            "PERMNO": 10001.0,
            "date": days,
            "PRC": [50.0, -51.0, 26.0, 25.5, 0],
            "VOL": [100, 0, 210, 200, -99],
            "SHROUT": [1000, 1000, 2000, 2000, 2000],
            "OPENPRC": [49.0, np.nan, 25.5, np.nan, np.nan],
            "CFACPR": [2.0, 2, 1, 1, 1],
            "CFACSHR": [2.0, 2, 1, 1, 1],
            "FACPR": [np.nan, np.nan, 1, np.nan, 0],
            "FACSHR": [np.nan, np.nan, 1, np.nan, 0],
            "DIVAMT": [np.nan, np.nan, 0, np.nan, 0.5],
            "DLSTCD": np.nan,
            "DLRET": None,
        }
    )
    two = one.assign(
        PERMNO=10002,
        PRC=[20.0, 16, 16, 16, 16],
        VOL=10,
        OPENPRC=np.nan,
        SHROUT=500,
        CFACPR=[1.25, 1, 1, 1, 1],
        CFACSHR=1.0,
        FACPR=[np.nan, 0.25, np.nan, np.nan, np.nan],
        FACSHR=[np.nan, 0, np.nan, np.nan, np.nan],
        DIVAMT=[np.nan, 4, np.nan, np.nan, np.nan],
    )
    three = two.assign(
        PERMNO=10003,
        PRC=8.0,
        CFACPR=1.0,
        FACPR=np.nan,
        FACSHR=np.nan,
        DIVAMT=np.nan,
        DLSTCD=[np.nan, 574, np.nan, np.nan, np.nan],
        DLRET=[None, "-0.75", None, None, None],
    )[:2]
    return pd.concat([one, two, three], ignore_index=True).assign(**more)


@pytest.mark.parametrize("factors", [["FACPR", "FACSHR"], ["CFACPR", "CFACSHR"], []], ids=str)
def test_crsp(factors, tmp_path):
    rows_of_two = pd.concat([daily(), daily()[4:5].assign(DIVAMT=0.25)])  # a day with two distributions has two rows
    data = Data.write(tmp_path, **crsp(rows_of_two.drop(columns=factors)))
    assert lines(data)[:5] == [
        "10001,2024-01-02,49.000000,,,50.000000,100.000000",
        "10001,2024-01-03,,,,51.000000,0.000000",
        "10001,2024-01-04,25.500000,,,26.000000,210.000000",
        "10001,2024-01-05,,,,25.500000,200.000000",
        "10002,2024-01-02,,,,20.000000,10.000000",
    ]
    assert rows(data, "splits") == [(1704326400, 1, 2, 10001)] and rows(data, "mergers") == [(1704240000, 4, 5, 10002)]
    assert sorted(rows(data, "dividends")) == [(1704672000, 50, 51, 10001), (1704672000, 101, 102, 10001)]  # of 25.5
    assert lines(data)[-3:] == [
        "10003,2024-01-02,,,,8.000000,10.000000",
        "10003,2024-01-03,,,,8.000000,10.000000",
        "10003,2024-01-04,,,,2.000000,",
    ]
    assert lines(data, "assets") == [
        "10001,2024-01-02,2024-01-05",
        "10002,2024-01-02,2199-12-31",
        "10003,2024-01-02,2024-01-05",
    ]
    assert sorted(lines(data, "numbers")) == [
        "shrout,10001,2024-01-03,1000.000000",
        "shrout,10001,2024-01-05,2000.000000",
        "shrout,10002,2024-01-03,500.000000",
        "shrout,10003,2024-01-03,500.000000",
    ]
    frame = run_pipeline(pipe, "2024-01-05", "2024-01-08", data)
    assert frame.change["2024-01-05", 10003] == -0.75 and ("2024-01-08", 10003) not in frame.index


def test_crsp_of_texts_and_of_a_weekend():
    days = ["2024-01-05", "2024-01-06", "2024-01-05", "2024-01-06", "2024-01-07"]
    frame = pd.DataFrame({"PERMNO": list("ABCCC"), "date": ["2024-01-05", *days[1:]], "PRC": 10.0, "CFACPR": 1.0})
    ends = pd.DataFrame({"PERMNO": ["A", "B"], "DLSTCD": 574, "DLRET": [None, -0.5]})
    with pytest.warns(UserWarning, match="CRSP: 1 of 2 delisting returns are left out, as that of A: they"):
        lives = crsp(frame, ends)["assets"].set_index("symbol").end
    assert lives.to_dict() == {"A": "2024-01-05", "B": "2024-01-08", "C": "2199-12-31"}


@pytest.mark.parametrize("split", [np.inf, -2.0, 0.0, np.nan])
def test_unadjust_by_no_split(split):
    splits = pd.DataFrame({"symbol": ["AAA"], "date": ["2024-01-03"], "split": [split]})
    with pytest.raises(DataFault, match=f"^splits: AAA has {split} shares for an old one"):
        unadjust(pd.DataFrame({"symbol": ["AAA"], "date": ["2024-01-02"], "close": [1.0]}), splits)


@pytest.mark.parametrize("price, volume", [(np.nan, np.nan), (0, 0), (np.nan, 7)])
def test_crsp_with_a_delisting_on_a_day_without_a_price(price, volume, tmp_path):
    frame = daily()
    last = frame.PERMNO.eq(10003) & frame.DLSTCD.notna()
    frame.loc[last, ["PRC", "VOL"]] = [price, volume]
    bars = Data.write(tmp_path, **crsp(frame)).files["bars"].read_text().split()
    shown = "" if np.isnan(volume) else f"{volume}.000000"
    assert [line for line in bars if line.startswith("10003,")][1:] == [f"10003,2024-01-03,,,,2.000000,{shown}"]


def test_crsp_without_a_delisting_return(tmp_path):
    ends = pd.DataFrame({"PERMNO": [10001, 10002, 10003], "DLSTCD": [100, 233, 574], "DLRET": ["A", 0.02, "P"]})
    with pytest.warns(
        UserWarning,
        match="CRSP: 2 of 2 delisting returns are left out, as that of 10002: they are missing, or no session",
    ):
        parts = crsp(daily(), ends)
    assert len(parts["bars"]) == 12 and parts["assets"].end.tolist() == ["2024-01-05", "2199-12-31", "2024-01-03"]
    with warnings.catch_warnings():
        warnings.simplefilter("error")
        parts = crsp(daily(), ends[2:], unknown_return=-0.3)
    assert parts["bars"].close.iloc[-1] == pytest.approx(5.6) and parts["bars"].date.iloc[-1] == "2024-01-04"
    with pytest.raises(DataFault, match="CRSP: there is no column cfacpr\ngive FACPR"):
        crsp(daily().drop(columns=["FACPR", "CFACPR"]))
    last = crsp(daily().query("date <= 20240104"), ends[2:].assign(DLRET=-1.0))
    assert last["bars"].close.iloc[-1] == 0 and last["assets"].end.iloc[-1] == "2024-01-05"


def test_days_of_sas(tmp_path):
    days = pd.Series([0.0, 23408, np.nan, -1])
    assert sas_days(days).dt.strftime("%Y-%m-%d").tolist()[:2] == ["1960-01-01", "2024-02-02"] and sas_days(days)[
        3
    ] == pd.Timestamp("1959-12-31")
    with pytest.raises(DataFault, match="CRSP: 23408.* may be days since 1899, 1960 or 1970\n.*1960-01-01"):
        crsp(daily(date=23408))
    assert (
        crsp(daily(date=sas_days(daily().index.to_series() + 23408)).drop(columns="DLRET"))["bars"].date[0]
        == "2024-02-02"
    )


def test_csvdir(tmp_path):
    (tmp_path / "source/daily").mkdir(parents=True)
    (tmp_path / "source/daily/BBB.csv").write_text(
        "date,open,high,low,close,volume,dividend,split\n"
        "2024-01-02,1,1,1,10,100,0.0,1.0\n2024-01-03,1,1,1,5,200,0.0,2.0\n"
    )
    (tmp_path / "source/daily/NA.csv").write_text(
        ",Open,High,Low,Close,Volume,Dividend,Split\n"
        "2024-01-02 00:00:00,1,1,1,8,100,0.0,1.0\n2024-01-03,1,1,1,6,200,2.0,\n"
    )
    data = Data.write(tmp_path / "made", **csvdir(tmp_path / "source"))
    assert data.symbols.tolist() == ["BBB", "NA"] and closes(data) == ["10.000000", "5.000000", "8.000000", "6.000000"]
    assert rows(data, "splits") == [(1704240000, 1, 2, 0)] and rows(data, "dividends") == [(1704240000, 3, 4, 1)]
    (tmp_path / "source/daily/BBB.csv").write_text("date,open,high,low,close\n02/05/2024,1,1,1,10\n")
    with pytest.raises(DataFault, match="BBB.csv: there is no column volume"):
        csvdir(tmp_path / "source")
    (tmp_path / "source/daily/BBB.csv").write_text("date,open,high,low,close,volume\n02/05/2024,1,1,1,10,7\n")
    with pytest.raises(DataFault, match="BBB.csv: '02/05/2024' may be a day of May or of February"):
        csvdir(tmp_path / "source/daily")


def test_page(tmp_path):
    found = doctest.testfile(
        str(CHECKOUT / "docs/VENDORS.md"),
        module_relative=False,
        globs={"folder": tmp_path},
        optionflags=doctest.NORMALIZE_WHITESPACE,
    )
    assert found.attempted > 20 and not found.failed
