"""What `Data.write` refuses in frames, and what it takes, by the frames alone."""

import warnings
from pathlib import Path

import numpy as np
import pandas as pd
import pytest

from tohmeril import Data, DataFault
from tohmeril.frames import late_parts

pytestmark = pytest.mark.filterwarnings("ignore:(bars|splits|assets|table):UserWarning")  # of what looks odd
DAYS = pd.to_datetime(["2024-01-02", "2024-01-03", "2024-01-04"])
CLOSE = pd.DataFrame({"AAA": [10.0, 11, 12], "BBB": [20.0, 21, 22]}, index=DAYS)
BY_SID = CLOSE.set_axis([3, 7], axis=1)
LONG = pd.DataFrame({"symbol": ["AAA", "AAA", "BBB"], "date": DAYS[[0, 1, 0]], "close": [10.0, 11, 20]})
LABELS = pd.DataFrame({"name": "sector", "sid": ["AAA"], "start": DAYS[:1], "label": ["Tech"]})
NUMBERS = pd.DataFrame({"name": "earnings", "sid": ["AAA"], "known": DAYS[:1], "value": [1.5]})
REVISIONS = pd.DataFrame({"sid": ["AAA"], "session": DAYS[:1], "column": "close", "value": [1.5], "known": DAYS[2:]})
SPLITS = pd.DataFrame({"sid": ["AAA"], "date": DAYS[1:2], "split": ["2:1"]})
DIVIDENDS = pd.DataFrame({"sid": ["AAA"], "ex_date": DAYS[1:2], "amount": [1.0]})


def texts(folder, bars=None, **parts):
    data = Data.write(folder, {"close": CLOSE} if bars is None else bars, **parts)
    return {part: path.read_text().splitlines()[1:] for part, path in data.files.items() if part != "adjustments"}


REFUSED = {
    "a name that is none": (
        {"bars": {"close": CLOSE, "vol": CLOSE}},
        "bars: there is nothing called 'vol'\nopen, high, low, close, volume",
    ),
    "prices": ({"bars": {"prices": CLOSE}}, "bars: there is nothing called 'prices'"),
    "a mapping with another version": (
        {"bars": {"close": CLOSE, "adj_close": CLOSE}},
        "bars: beside the prices there is 'adj_close', another version of them\nkeep the prices that were quoted",
    ),
    "two levels with another version": (
        {"bars": pd.concat({"Close": CLOSE, "Adj Close": CLOSE}, axis=1)},
        "'Adj Close', another version of them\n.*tohmeril.vendors",
    ),
    "a column with another version": (
        {"bars": LONG.assign(closeunadj=1.0)},
        r"'closeunadj', another version .*\n.*frame.drop\(columns=\['closeunadj'\]\)",
    ),
    "splits among bars": (
        {"bars": LONG.assign(**{"Stock Splits": 0.0, "Dividends": 0.0})},
        r"bars: 'Stock Splits' is no part of a bar\ngive splits= .*'Dividends'",
    ),
    "a name twice": ({"bars": {"close": CLOSE, "Close": CLOSE}}, "bars: close is there twice"),
    "no frame": ({"bars": {"close": CLOSE.AAA}}, "bars: close is no frame"),
    "a path in place of bars": ({"bars": Path("bars.csv")}, "bars: PosixPath is no frame\n.*pd.read_csv"),
    "a text in place of bars": ({"bars": "bars.csv"}, "bars: str is no frame\n.*pd.read_csv"),
    "a text in place of labels": ({"bars": {"close": CLOSE}, "labels": "sector"}, "labels: str is no frame\ngive a"),
    "one label for all": (
        {"bars": {"close": CLOSE}, "labels": {"sector": "Tech"}},
        "labels: sector is no series by asset\ngive a mapping, as {'AAA': 'Tech'}",
    ),
    "labels in a list": ({"bars": {"close": CLOSE}, "labels": {"sector": ["Tech", "Energy"]}}, "is no series by asset"),
    "symbols in a list": ({"bars": {"close": CLOSE}, "symbols": ["AAA"]}, "symbols: list is no mapping of symbols"),
    "a list of numbers": ({"bars": {"close": CLOSE}, "numbers": [1.5]}, "numbers: list is no frame\ngive a"),
    "splits by symbol": ({"bars": {"close": CLOSE}, "splits": {"AAA": 2}}, "splits: dict is no frame\ngive a"),
    "a path of revisions": ({"bars": {"close": CLOSE}, "revisions": Path("x")}, "revisions: PosixPath is no frame"),
    "a list of assets": ({"bars": {"close": CLOSE}, "assets": ["AAA"]}, "assets: list is no frame"),
    "no bars": ({"bars": {}}, "bars: there is none"),
    "an empty frame": ({"bars": LONG[:0]}, "bars: there is none\nthe frame is empty"),
    "no value": ({"bars": {"close": CLOSE * np.nan}}, "bars: there is none\neach value is missing"),
    "a text among prices": (
        {"bars": LONG.assign(close=["10", "n/a", "20"])},
        "bars: close has 'n/a' in place of a number\nrow 1",
    ),
    "a negative price": (
        {"bars": LONG.assign(close=[10, -25.5, -1])},
        r"bars: the close of AAA on 2024-01-03 is -25.5\n"
        r"row 1, and 1 other; in CRSP .* a mean of bid and ask: give .abs\(\)",
    ),
    "a negative volume": (
        {"bars": LONG.assign(volume=[1, -99, 1])},
        "bars: the volume of AAA on 2024-01-03 is -99\nrow 1; in CRSP a volume of -99 is a missing one",
    ),
    "a NaN ticker": (
        {"bars": LONG.assign(symbol=["AAA", np.nan, None])},
        "bars: an asset is missing\n.*keep_default_na=False",
    ),
    "an empty ticker": ({"bars": LONG.assign(symbol=["AAA", "", "BBB"])}, "bars: a symbol is empty"),
    "half a sid": (
        {"bars": LONG.assign(symbol=[1, 1.5, 2])},
        "bars: 1.5 is neither a sid nor a symbol\na sid is a whole number from 0 to 4294967295",
    ),
    "a negative sid": ({"bars": LONG.assign(symbol=[1, -1, 2])}, "bars: -1 is no sid"),
    "a great sid": ({"bars": LONG.assign(symbol=[1, 2**32, 2])}, "bars: 4294967296 is no sid"),
    "symbols and numbers": (
        {"bars": LONG.assign(symbol=["AAA", "600000", 600000])},
        "bars: assets go by symbols, as '600000', and by numbers, as 600000",
    ),
    "two columns of assets": (
        {"bars": LONG.assign(ticker="AAA")},
        "bars: each of the columns symbol and ticker may be sid\ndrop or rename",
    ),
    "a column twice": ({"bars": LONG.assign(Close=1.0)}, "bars: each of the columns close and Close may be close"),
    "no assets": (
        {"bars": LONG.drop(columns="symbol")},
        "bars: there is no column sid, asset, symbol or ticker\nthere are date, close$",
    ),
    "no days": ({"bars": LONG.drop(columns="date")}, "bars: there is no column session, date or day\n"),
    "no amount": (
        {"dividends": DIVIDENDS.drop(columns="ex_date")},
        "dividends: there is no column ex, ex_date or date\n",
    ),
    "half a sid of a symbol": ({"symbols": {"AAA": 1.5, "BBB": 2}}, "symbols: AAA has 1.5 in place of a sid"),
    "two symbols of a sid": ({"symbols": {"AAA": 7, "BBB": 7.0}}, "symbols: AAA and BBB have the sid 7\n"),
    "a symbol that is none": ({"symbols": {np.nan: 7}}, "symbols: nan is no symbol"),
    "a label of no asset": (
        {"bars": {"close": BY_SID}, "labels": LABELS.assign(sid=8)},
        "labels: there is no asset 8, which has neither bars nor a lifetime\nrow 0$",
    ),
    "a number of no asset": (
        {"bars": {"close": BY_SID}, "numbers": NUMBERS.assign(sid=8)},
        "numbers: there is no asset 8",
    ),
    "a split of no asset": ({"bars": {"close": BY_SID}, "splits": SPLITS.assign(sid=8)}, "splits: there is no asset 8"),
    "a dividend of no asset": (
        {"bars": {"close": BY_SID}, "dividends": DIVIDENDS.assign(sid=8)},
        "dividends: there is no asset 8",
    ),
    "a revision of no asset": (
        {"bars": {"close": BY_SID}, "revisions": REVISIONS.assign(sid=8)},
        "revisions: there is no asset 8",
    ),
    "a label of a symbol without bars": (
        {"symbols": {"AAA": 1, "BBB": 2, "CCC": 3}, "labels": LABELS.assign(sid="CCC")},
        "labels: there is no asset CCC",
    ),
    "symbols beside sids": (
        {"bars": {"close": BY_SID}, "labels": LABELS},
        "labels: 'AAA' is a symbol, and the bars go by sids\nrow 0; give symbols=",
    ),
    "a split twice": (
        {"splits": pd.concat([SPLITS, SPLITS], ignore_index=True)},
        r"splits: AAA 2024-01-03 is there twice, in the rows \[0, 1\]$",
    ),
    "two ratios": ({"splits": SPLITS.assign(ratio=0.5)}, "splits: there are both split and ratio"),
    "a label twice": (
        {"labels": pd.concat([LABELS, LABELS, LABELS.assign(name="b"), LABELS.assign(name="b")])},
        r"labels: sector 0 2024-01-02 is there twice, in the rows \[0, 0\], and so is 1 other$",
    ),
    "a dividend of nothing": (
        {"dividends": DIVIDENDS.assign(amount=0.0)},
        "dividends: the amount of AAA on 2024-01-03 is 0\nrow 0; drop",
    ),
    "a missing dividend": (
        {"dividends": DIVIDENDS.assign(amount=np.nan)},
        "dividends: the amount of AAA on 2024-01-03 is nan\nrow 0",
    ),
    "a dividend in words": (
        {"dividends": DIVIDENDS.assign(amount="1,5")},
        "dividends: amount has '1,5' in place of a number\nrow 0",
    ),
    "a revision of nothing": (
        {"revisions": REVISIONS.assign(column="adj_close")},
        "revisions: there is nothing called 'adj_close'\nrow 0: open, high",
    ),
    "after_close of no part": (
        {"after_close": "bars"},
        "after_close: there is nothing called 'bars'\nlabels, numbers, revisions",
    ),
    "a time of a number": (
        {"numbers": NUMBERS.assign(known="2024-01-02 16:30")},
        r'''numbers: '2024-01-02 16:30' of known has a time of day, .*\nrow 0 of known; give after_close="numbers"''',
    ),
    "a time of a label": (
        {"labels": {"sector": pd.DataFrame({"AAA": ["x"]}, index=DAYS[:1] + pd.Timedelta(hours=16))}},
        "labels: 2024-01-02 16:00:00 of .* has a time of day",
    ),
    "a time of a revision": (
        {"revisions": REVISIONS.assign(known="2024-01-04T09:00")},
        "revisions: .* has a time of day",
    ),
    "a period of two days": (
        {"numbers": NUMBERS.assign(period="02/05/2024")},
        "numbers: period: '02/05/2024' may be a day of May or of February\nwrite",
    ),
}


@pytest.mark.parametrize("parts, told", REFUSED.values(), ids=REFUSED)
def test_refused(parts, told, tmp_path):
    with pytest.raises(DataFault, match=told) as fault:
        texts(tmp_path, **parts)
    assert str(tmp_path) not in str(fault.value) and ".csv" not in str(fault.value)


@pytest.mark.parametrize(
    "permnos",
    [
        [10001.0, 10001.0, 10002.0],
        pd.array([10001, 10001, 10002], "Int64"),
        np.array([10001, 10001, 10002], "int32"),
        [10001, 10001.0, 10002],
    ],
)
def test_whole_floats_are_sids(permnos, tmp_path):
    found = texts(
        tmp_path, LONG.assign(symbol=permnos).rename(columns={"symbol": "sid"}), labels=LABELS.assign(sid=10002.0)
    )
    assert [line.split(",")[0] for line in found["bars"]] == ["10001", "10001", "10002"] and "symbols" not in found
    assert found["labels"] == ["sector,10002,2024-01-02,Tech"]


def test_symbols(tmp_path):
    assert texts(tmp_path, symbols={"BBB": 3.0, "AAA": np.int64(7)})["symbols"] == ["3,BBB", "7,AAA"]
    assert texts(tmp_path, {"close": BY_SID}, symbols={"AAA": 3, "BBB": 7}, labels=LABELS)["labels"] == [
        "sector,3,2024-01-02,Tech"
    ]
    assert texts(tmp_path, labels=LABELS.assign(sid=1))["labels"] == [
        "sector,1,2024-01-02,Tech"
    ]  # a whole number is a sid


def test_other_columns_are_left_out(tmp_path):
    extra = LONG.assign(vwap=1.0, trades=5, exchange="N", individual=1, withdrawn=0)
    assert texts(tmp_path, extra) == texts(tmp_path, LONG)
    assert texts(tmp_path, LONG.assign(sid=[3, 3, 7]))["bars"][0].startswith(
        "3,"
    )  # the own name comes before another one for it


@pytest.mark.parametrize(
    "after_close, known, start",
    [
        ((), "2024-01-02", "2024-01-02"),
        (False, "2024-01-02", "2024-01-02"),
        ("numbers", "2024-01-03", "2024-01-02"),
        (["numbers", "labels"], "2024-01-03", "2024-01-03"),
        (True, "2024-01-03", "2024-01-03"),
    ],
)
def test_after_the_close(after_close, known, start, tmp_path):
    found = texts(tmp_path, numbers=NUMBERS, labels=LABELS, after_close=after_close)
    assert found["numbers"] == [f"earnings,0,{known},1.500000"] and found["labels"] == [f"sector,0,{start},Tech"]
    wide = texts(
        tmp_path,
        numbers={"earnings": pd.DataFrame({"AAA": [1.5]}, index=DAYS[:1])},
        after_close=after_close,
        labels={"sector": pd.DataFrame({"AAA": ["Tech"]}, index=DAYS[:1]), "first": {"AAA": "x"}},
    )
    assert wide["numbers"] == found["numbers"] and wide["labels"] == [*found["labels"], "first,0,2024-01-02,x"]


@pytest.mark.parametrize("names", [["AAA", "LOW"], ["LOW", "OPEN"], ["OPEN"]])
def test_symbols_that_are_names_of_prices(names, tmp_path):
    wide = {name: pd.concat({symbol: CLOSE.iloc[:, 0] for symbol in names}, axis=1) for name in ("close", "volume")}
    frame = pd.concat(wide, axis=1)
    for given in (frame, frame.swaplevel(axis=1)):
        if "AAA" in names:
            assert texts(tmp_path, given) == texts(tmp_path, wide)
            continue
        with pytest.raises(DataFault, match="may be names of prices\ngive frames by name"):
            texts(tmp_path, given)


def test_wide_labels_of_any_order(tmp_path):
    labels = pd.DataFrame({"AAA": ["x", "x", "y"]}, index=pd.to_datetime(["2024-01-09", "2024-01-02", "2024-01-05"]))
    assert texts(tmp_path, labels={"sector": labels})["labels"] == [
        "sector,0,2024-01-02,x",
        "sector,0,2024-01-05,y",
        "sector,0,2024-01-09,x",
    ]


def test_times_after_the_close(tmp_path):
    found = texts(
        tmp_path,
        numbers=NUMBERS.assign(known="2024-01-02 16:30"),
        revisions=REVISIONS.assign(known="2024-01-03 18:00"),
        after_close=("numbers", "revisions"),
    )
    assert found["numbers"] == ["earnings,0,2024-01-03,1.500000"] and found["revisions"] == [
        "0,2024-01-02,close,1.500000,2024-01-04"
    ]
    stamps = pd.Series(
        pd.to_datetime(["2024-01-02 09:29", "2024-01-02 09:30", "2024-01-03 20:00"])
    )  # of the docstring of `write`
    assert (stamps + pd.Timedelta("14:30:00")).dt.normalize().dt.strftime("%d").tolist() == ["02", "03", "04"]
    assert late_parts({"labels"}) == {"labels"}


def test_a_period_is_compared_with_the_day_of_publication(tmp_path):
    with pytest.warns(UserWarning, match="1 of 1 numbers are known by the last day of the period"):
        texts(tmp_path, numbers=NUMBERS.assign(period="2024-01-02"), after_close="numbers")
    with warnings.catch_warnings():
        warnings.filterwarnings("error", ".*numbers are known by")
        texts(tmp_path, numbers=NUMBERS.assign(period="2023Q4"))
