"""What looks odd though it is lawful. The folders are written by hand, since `Data.write` refuses some of it."""

import sqlite3
from contextlib import closing

import numpy as np
import pandas as pd
import pytest

from tohmeril import Data, DataFault, StoreFault, odd, run_pipeline
from tohmeril.pipeline import Pipeline
from tohmeril.pipeline.classifiers import Label
from tohmeril.pipeline.data import EquityPricing

DAYS = ["2024-01-02", "2024-01-03", "2024-01-04", "2024-01-05", "2024-01-08", "2024-01-09", "2024-01-10", "2024-01-11"]
UP, HALVED = [10.0, 10.5, 11, 11.5, 12, 12.5, 13, 13.5], [20.0, 21, 22, 23, 12, 12.5, 13, 13.5]
SPLIT = (2, "2024-01-08", 1, 2)  # of HALVED
FOREVER = "2199-12-31"
price, sector = EquityPricing.close.latest, Label("sector")


def made(
    folder,
    closes=(UP, HALVED),
    days=DAYS,
    assets=None,
    lines=None,
    volume=100,
    splits=(SPLIT,),
    mergers=(),
    dividends=(),
    labels=(),
    numbers=(),
    symbols=(),
):
    """A folder; the closes of the assets 1, 2, .. by session are all their prices, and an adjustment is sid, day, num
    and den.
    """
    assets = assets or [(sid, days[0], FOREVER) for sid in range(1, len(closes) + 1)]
    lines = lines or [
        f"{sid},{day},{close},{close},{close},{close},{volume}".replace("nan", "")
        for sid, row in enumerate(closes, 1)
        for day, close in zip(days, row)
    ]
    files = {
        "sessions": days,
        "assets": ["sid,start,end", *(",".join(map(str, row)) for row in assets)],
        "bars": ["sid,session,open,high,low,close,volume", *lines],
        "symbols": ["sid,symbol", *symbols] if symbols else None,
        "labels": ["name,sid,start,label", *labels] if labels else None,
        "numbers": ["name,sid,known,value", *numbers] if numbers else None,
    }
    for part, rows in files.items():
        if rows is not None:
            (folder / f"{part}.csv").write_text("".join(f"{row}\n" for row in rows))
    with closing(sqlite3.connect(folder / "adjustments.db")) as store, store:
        for table, rows in {"splits": splits, "mergers": mergers, "dividends": dividends}.items():
            store.execute(
                f"CREATE TABLE {table} (id INTEGER PRIMARY KEY, effective_date INTEGER, num INTEGER, den INTEGER, sid "
                "INTEGER)"
            )
            for sid, day, num, den in rows:
                seconds = day if isinstance(day, int) else int(pd.Timestamp(day).timestamp())
                store.execute(
                    f"INSERT INTO {table} (effective_date, num, den, sid) VALUES (?, ?, ?, ?)", (seconds, num, den, sid)
                )
    return Data(folder)


def test_nothing_is_odd(tmp_path):
    data = made(
        tmp_path,
        labels=["sector,1,2024-01-02,Tech", "sector,2,2024-01-02,Oil", "sector,2,2024-01-09,Gas"],
        dividends=[(1, "2024-01-05", 99, 100), (1, "2024-01-10", 99, 100)],
        symbols=["1,AAA", "2,BBB"],
    )
    pipe = Pipeline({"price": price, "sector": sector})
    assert (
        data.check()
        == data.check(pipe, str(pipe), table=run_pipeline(pipe, DAYS[1], DAYS[4], data))
        == odd.check(tmp_path)
        == []
    )


@pytest.mark.parametrize(
    "parts, told",
    [
        # adjustments
        ({"splits": [(2, "2023-06-01", 1, 2)]}, "splits: none of 1 falls within the bars"),
        ({"mergers": [(1, DAYS[0], 1, 2)]}, "mergers: none of 1 falls within the bars"),
        ({"splits": [SPLIT, (7, DAYS[3], 1, 2)]}, "splits: 1 of 2 are of unknown sids, as 7, and do nothing"),
        ({"splits": [(2, 19726, 1, 2)]}, "splits: effective dates as 19726 look like days"),
        (
            {"closes": (UP, UP), "symbols": ["1,AAA", "2,BBB"]},
            "splits: 1 of 1 show no fall or rise on their day, as BBB on 2024-01-08 from 11.5 to 12, with 2:1: these "
            "prices are adjusted already",
        ),
        (
            {"closes": (UP, HALVED), "splits": [SPLIT, (1, DAYS[2], 1, 3)]},
            "splits: 1 of 2 show no fall or rise on their day, as 1 on 2024-01-04 from 10.5 to 11, with 3:1: is the "
            "day another",
        ),
        (
            {"splits": [(2, DAYS[4], 2, 1)]},
            "splits: 1 of 1 show no fall or rise on their day, as 2 on 2024-01-08 from 23 to 12, with 1:2",
        ),
        (
            {"splits": [SPLIT, SPLIT]},
            "splits: 1 of 2 are there twice, as that of 2 on 2024-01-08, so that it acts twice",
        ),
        ({"splits": [SPLIT, (2, DAYS[4], 1, 3)]}, "splits: 1 of 2 are there twice"),
        ({"mergers": [(1, DAYS[3], 9, 10)] * 2}, "mergers: 1 of 2 are there twice, as that of 1 on 2024-01-05"),
        ({"dividends": [(1, DAYS[3], 99, 100)] * 3}, "dividends: 2 of 3 are there twice, as that of 1 on 2024-01-05"),
        # bars
        (
            {"splits": []},
            "bars: once a close falls to about a half, a third, .. or rises to the double, the triple, .. without a split, "
            "as that of 2 on "
            "2024-01-08 from 23 to 12: give the splits",
        ),
        (
            {"closes": (UP, [10.0, 10, 10, 99, 101, 98, 99, 98]), "splits": []},
            "bars: once a close falls to about a half, a third, .. or rises",
        ),
        ({"closes": (UP, [10.0, np.nan, 10, np.nan, 3.4, 3.3, 3.3, 3.3]), "splits": []}, "bars: once a close falls"),
        ({"closes": (UP, HALVED), "splits": [(2, DAYS[3], 1, 2)]}, "bars: once a close falls"),  # a day too soon
        (
            {"closes": (UP, [20.0, 0, 22, 23, 12, 0, 13, 13.5])},
            "bars: 2 with a price of 0, as that of 2 on 2024-01-03: leave a missing one empty",
        ),
        ({"volume": 48_000_000_000}, "bars: volume goes up to 48000000000"),
        ({"volume": 2_000_000_000}, "bars: close * volume goes up to 46000000000"),
        ({"lines": [f"1,{day},,,,{close},9" for day, close in zip(DAYS, UP)]}, "bars: the column high is empty"),
        # assets, sessions, symbols
        (
            {"assets": [(1, DAYS[0], FOREVER), (2, DAYS[0], DAYS[-1])]},
            "assets: 1 of 2 end on the last session, 2024-01-11",
        ),
        (
            {"assets": [(1, DAYS[0], FOREVER), (2, DAYS[0], DAYS[-2])], "symbols": ["2,BBB"]},
            "assets: 1 of 2 end within the five sessions before the last one, as BBB on 2024-01-10: if trading was "
            "halted",
        ),
        (
            {"assets": [(1, DAYS[0], FOREVER), (2, "1970-08-22", "1970-08-23")]},
            "assets: 1 of 2 exist on no session, as 2 after 1970-08-22 up to 1970-08-23",
        ),
        (
            {"days": ["2024-01-01", *DAYS[:3], "2024-01-07", *DAYS[5:]]},
            "sessions: 1 of 8 are a Sunday, as 2024-01-07: a day in UTC is another one",
        ),
        ({"symbols": ["1,nan", "2,BBB"]}, "symbols: the sid 1 is called 'nan', as a missing value is"),
        ({"symbols": ["1,FB", "1,META", "2,BBB"]}, "symbols: FB and META have the sid 1"),
        ({"symbols": ["1,BBB", "2,BBB"]}, "symbols: BBB has the sids 1 and 2"),
        # labels and numbers
        ({"labels": ["industry,1,2024-01-02,Tech"]}, "labels: no pipeline names 'industry'"),
        ({}, "labels: there are none of the name 'sector'"),
        (
            {
                "labels": [
                    f"index,1,{day},in"
                    for day in ("2023-10-31", "2024-01-02", "2024-01-31", "2024-02-29", "2024-03-31")
                ]
            },
            "labels: 'index' is known on the last days of months alone, as periods end: give the days of publication",
        ),
        (
            {"numbers": [f"eps,1,{day},1" for day in ("2023-09-30", "2023-12-31", "2024-03-31")]},
            "numbers: 'eps' is known on the last days of months alone",
        ),
        (
            {"numbers": ["eps,1,1970-08-23,1"]},
            "numbers: 'eps' has days of 1970 alone: whole numbers as 20240202 may have been read as seconds",
        ),
        (
            {"labels": ["sector,1,2030-01-02,Tech"]},
            "labels: 'sector' begins after the last session, so that none sees it",
        ),
    ],
)
def test_odd(parts, told, tmp_path):
    data = made(tmp_path, **parts)
    found = data.check(Pipeline({"price": price, "sector": sector}))
    assert any(line.startswith(told) for line in found), found


@pytest.mark.parametrize(
    "parts",
    [
        {
            "days": pd.date_range("2024-01-01", periods=8).strftime("%Y-%m-%d").tolist(),
            "splits": [(2, "2024-01-05", 1, 2)],
        },  # trades on all days
        {"closes": (UP, [20.0, 21, 14, 14.5, 15, 15, 16, 16]), "splits": []},  # by a third, and not to a third
        {
            "closes": (UP, [20.0, 21, 5.5, 5.6, 5.5, 5.4, 5.5, 5.5]),
            "splits": [],
            "mergers": [(2, DAYS[2], 1, 4)],
        },  # a payout of shares
        {"closes": (UP, [20.0, np.nan, np.nan, np.nan, 10.1, 10, 10, 10])},  # a split while there are no bars
        {"closes": (UP, HALVED), "splits": [SPLIT, (1, DAYS[4], 20, 21)]},  # too small to show
        {"dividends": [(1, DAYS[3], 99, 100), (1, DAYS[3], 98, 100)]},  # two on a day
        {
            "lines": [
                f"{sid},{day},1,1,1,{close},9"
                for day, *row in zip(DAYS, UP, HALVED)
                for sid, close in enumerate(row, 1)
            ]
        },  # by session
    ],
)
def test_not_odd(parts, tmp_path):
    assert made(tmp_path, **parts).check() == []


@pytest.mark.parametrize("size", [1, 3, 5, 7])
def test_blocks_are_the_whole(size, tmp_path, monkeypatch):
    """What is told does not change with the blocks in which bars are read, by asset or by session."""
    parts = {
        "closes": (UP, HALVED, UP[::-1], HALVED[::-1]),
        "splits": [(1, DAYS[2], 1, 2), (2, DAYS[4], 1, 2), (3, DAYS[0], 1, 2), (4, DAYS[7], 3, 1)],
    }
    wanted = made(tmp_path, **parts).check()
    assert len(wanted) == 2
    monkeypatch.setattr(odd, "BLOCK", size)
    assert Data(tmp_path).check() == wanted
    rows = (tmp_path / "bars.csv").read_text().splitlines()
    (tmp_path / "bars.csv").write_text(
        "\n".join([rows[0], *sorted(rows[1:], key=lambda row: row.split(",")[1])]) + "\n"
    )
    assert Data(tmp_path).check() == wanted


def test_columns_that_may_be_empty(tmp_path):
    data = made(tmp_path, lines=[f"1,{day},,,,{close},9" for day, close in zip(DAYS, UP)], splits=())
    assert odd.check(data) == [f"bars: the column {name} is empty" for name in ("open", "high", "low")]
    assert odd.check(data, lacking=["open", "low"]) == ["bars: the column high is empty"]


def test_columns_without_a_value(tmp_path):
    data = made(tmp_path)
    pipe = Pipeline(
        {"price": price, "none": price / 0, "sector": sector, "never": price > 1e9, "bin": (price / 0).quartiles()}
    )
    with pytest.warns(UserWarning, match="'sector', so that it is empty"):
        table = run_pipeline(pipe, DAYS[1], DAYS[4], data)
    assert data.check(table=table) == [
        f"table: the column {name!r} has no value" for name in ("none", "sector", "never", "bin")
    ]


@pytest.mark.parametrize(
    "file, text, told",
    [
        ("assets.csv", "sid,start,end\n1,2024-01-01,2023-01-01\n", "StartAfterEnd"),
        ("assets.csv", "sid;start;end\n", "BadHeader"),
        ("assets.csv", "", "BadHeader"),
        ("bars.csv", "sid,session,open,high,low,close,volume\n1,2024-01-02,1,x,1,1,1\n", "BadField"),
        (
            "bars.csv",
            "sid,session,open,high,low,close,volume\n1,2024-01-02,1,1,1,-1,1\n",
            "data Negative\n(.|\n)*In CRSP a minus",
        ),
        ("bars.csv", "", "BadHeader"),
        ("labels.csv", "sid,start\n", "BadHeader"),
        ("sessions.csv", "", "data Empty"),
    ],
)
def test_a_fault_comes_first(file, text, told, tmp_path):
    made(tmp_path)
    (tmp_path / file).write_text(text)
    with pytest.raises(DataFault, match=told):
        Data(tmp_path).check()


def test_a_store_that_cannot_be_read(tmp_path):
    data = made(tmp_path)
    (tmp_path / "adjustments.db").write_text("no database")
    with pytest.raises(StoreFault, match="store: .*adjustments.db\n.*file is not a database"):
        data.check()
