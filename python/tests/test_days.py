"""Days: what is read, and that everything else is refused, wherever a day is given."""

import datetime as dt
import time

import numpy as np
import pandas as pd
import pytest

from tohmeril import Data, DataFault, explain, plan, run_pipeline
from tohmeril.days import NoDay, read_day, read_days, read_known
from tohmeril.pipeline import Pipeline
from tohmeril.pipeline.data import EquityPricing

pytestmark = pytest.mark.filterwarnings("ignore:(bars|splits|assets|table):UserWarning")  # of what looks odd
pipe = Pipeline({"close": EquityPricing.close.latest})
EAST = dt.timezone(dt.timedelta(hours=9))

TAKEN = [
    "2024-05-02",
    " 2024-05-02 ",
    "2024-05-02 16:30",
    "2024-05-02T16:30:00",
    "2024-05-02 23:59:59.999999",
    "2024-05-02T00:00:00Z",
    "2024-05-02 00:00:00-05:00",
    "2024-05-02 16:30 EST",
    "20240502",
    np.str_("2024-05-02"),
    20240502,
    np.int32(20240502),
    20240502.0,
    np.float64(20240502),
    dt.date(2024, 5, 2),
    dt.datetime(2024, 5, 2, 16, 30),
    dt.datetime(2024, 5, 2, 1, tzinfo=EAST),
    pd.Timestamp("2024-05-02 00:00", tz="Asia/Tokyo"),
    pd.Timestamp("2024-05-02 23:00", tz="America/New_York"),
    np.datetime64("2024-05-02"),
    np.datetime64("2024-05-02T23:59", "ns"),
    np.datetime64("2024-05-02T05", "h"),
]


@pytest.mark.parametrize("value", TAKEN, ids=repr)
def test_taken(value):
    assert read_day(value) == "2024-05-02"
    assert read_days(pd.Series([value, value], index=[5, 6]), "bars").to_dict() == {5: "2024-05-02", 6: "2024-05-02"}
    assert read_days(pd.Series([value, "1900-01-01"], dtype=object), "bars").tolist() == ["2024-05-02", "1900-01-01"]


REFUSED = [
    ("02/05/2024", "'02/05/2024' may be a day of May or of February; write 2024-05-02 or 2024-02-05"),
    ("01.12.2023", "may be a day of December or of January; write 2023-12-01 or 2023-01-12"),
    ("5/2/24", "may be a day of February or of May; write 2024-02-05 or 2024-05-02"),
    ("13/05/2024", "is not read as a day; write 2024-05-13"),
    ("02/02/2024", "write 2024-02-02"),
    ("2024/05/02", "write 2024-05-02"),
    ("2024-5-2", "write 2024-05-02"),
    ("2024-02-30", "'2024-02-30' is no day of the calendar"),
    ("20241301", "is no day of the calendar"),
    (20240230, "20240230 is no day of the calendar"),
    ("May 2, 2024", "write YYYY-MM-DD or YYYYMMDD"),
    ("", "'' is not read"),
    ("1714608000", "is not read as a day"),
    ("2024-05-02T24:00", "is not read"),
    ("2024-05", "is not read"),
    (45000, 'days since 1899, 1960 or 1970; .*origin="1960-01-01"'),
    (2024, "2024 is no day"),
    (0, "0 is no day"),
    (-20240502, "is no day"),
    (1.5, "1.5 is no day"),
    (1714608000, 'is no day as YYYYMMDD; .*unit="s"'),
    (1714608000000, 'unit="ms"'),
    (1714608000000000, 'unit="us"'),
    (1714608000000000000, 'unit="ns"'),
    (None, "is missing"),
    (pd.NaT, "is missing"),
    (np.nan, "is missing"),
    (pd.NA, "is missing"),
    (np.datetime64("NaT"), "is missing"),
    (True, "True is no day"),
    (np.float32(20240502), "a number of 32 bits"),
    (pd.Period("2024-05"), "2024-05 is a period; .*end_time"),
    (np.datetime64("2024-05"), "is a period"),
    (b"20240502", "is no day"),
    ("1850-01-01", "is not of the years 1900 to 2199"),
    (22000101, "22000101 is not of the years"),
    (dt.date(1899, 12, 31), "1899-12-31 is not of the years"),
    (pd.Timestamp("1850-01-01"), "is not of the years"),
    (np.datetime64("20000-01-01"), "20000-01-01 is not of the years"),
    (["2024-05-02"], "a list is no day"),
    (dt.timedelta(1), "is no day"),
]


@pytest.mark.parametrize("value, told", REFUSED, ids=lambda value: repr(value)[:30])
def test_refused(value, told):
    with pytest.raises(NoDay, match=f"^start_date: .*{told}"):
        read_day(value, "start_date")
    column = pd.Series(["2024-05-01", value], index=[7, 9], name="date", dtype=object)
    with pytest.raises(DataFault, match="^bars: ") as fault:
        read_days(column, "bars")
    assert (
        "row 9 of date" in fault.value.note
        and told.split(";")[0].split("'")[-1] in f"{fault.value.line}; {fault.value.note}"
    )


@pytest.mark.parametrize(
    "values, days",
    [
        ([1704153600, 1704239999, 20240102], ["2024-01-02", "2024-01-02", "2024-01-02"]),
        ([1704153600.0], ["2024-01-02"]),
        ([10**8], ["1973-03-03"]),
        ([7258118399], ["2199-12-31"]),
        ([20240823, "2024-01-02"], ["2024-08-23", "2024-01-02"]),
        ([7258118400], None),
        ([99_999_999], None),
        ([19726], None),
        ([True], None),
        ([-86400], None),
    ],
)
def test_seconds(values, days):
    column = pd.Series(values, name="effective_date")
    if days:
        assert read_days(column, "splits", seconds=True).tolist() == days
    else:
        with pytest.raises(DataFault, match="^splits: "):
            read_days(column, "splits", seconds=True)


def test_one_moment_on_two_clocks():
    stamps = pd.Series(
        [pd.Timestamp("2024-01-02 00:30", tz="Asia/Tokyo"), pd.Timestamp("2024-01-01 15:30", tz="UTC")], dtype=object
    )
    assert stamps[0] == stamps[1] and read_days(stamps, "bars").tolist() == ["2024-01-02", "2024-01-01"]


def test_columns_of_any_type():
    days, wanted = pd.Series(pd.to_datetime(["2024-05-03", "2024-05-02", "2024-05-03"])), [
        "2024-05-03",
        "2024-05-02",
        "2024-05-03",
    ]
    texts = days.dt.strftime("%Y-%m-%d")
    for column in (
        days,
        days + pd.Timedelta(hours=3),
        days.dt.tz_localize("America/New_York"),
        texts,
        texts.astype("string"),
        texts.astype("category"),
        days.astype("category"),
        days.dt.date,
        texts.str.replace("-", "").astype(int),
        texts.str.replace("-", "").astype("Int64"),
        texts.str.replace("-", "").astype(float),
    ):
        assert read_days(column, "bars").tolist() == wanted
    some = texts.astype("category").cat.set_categories(["2024-05-02", "2024-05-03", "none"])
    assert read_days(some, "bars").tolist() == wanted and read_days(texts[:0], "bars").empty


def test_millions_of_rows_within_a_second():
    days = pd.bdate_range("2004-01-01", periods=5000).strftime("%Y-%m-%d").to_numpy(object)
    column = pd.Series(np.tile(days, 800))
    began = time.process_time()
    read_days(column, "bars")
    assert time.process_time() - began < 2  # half a second on an idle machine


@pytest.mark.parametrize(
    "known, late",
    [
        ("2024-05-02", "2024-05-03"),
        ("2024-05-02 16:30", "2024-05-03"),
        (pd.Timestamp("2024-05-03 23:00", tz="UTC"), "2024-05-04"),
        (20241231, "2025-01-01"),
        (dt.date(2024, 2, 28), "2024-02-29"),
    ],
)
def test_known_after_the_close(known, late):
    assert read_known(pd.Series([known, known]), "numbers", True).tolist() == [late, late]
    with pytest.raises(DataFault, match="^numbers: '9999-12-31' is not of the years"):
        read_known(pd.Series([known, "9999-12-31"], dtype=object), "numbers", True)


@pytest.mark.parametrize(
    "known",
    [
        "2024-05-02 16:30",
        "2024-05-02T09:00Z",
        pd.Timestamp("2024-05-02 09:00"),
        dt.datetime(2024, 5, 2, 0, 0, 1),
        np.datetime64("2024-05-02T01"),
    ],
)
def test_a_time_of_day_is_of_one_meaning(known):
    column = pd.Series(["2024-05-01", "2024-05-02 00:00:00", known], name="known", dtype=object)
    with pytest.raises(
        DataFault,
        match=r"numbers: .*2024-05-02.* of known has a time of day.*\n"
        'row 2 of known; give after_close="numbers".* or the day alone',
    ):
        read_known(column, "numbers", False)
    with pytest.raises(DataFault, match="has a time of day"):
        read_known(
            pd.Series([pd.Timestamp("2024-05-01", tz="UTC"), pd.Timestamp("2024-05-02 16:30", tz="UTC")], name="known"),
            "numbers",
            False,
        )
    assert read_known(column[:2], "numbers", False).tolist() == ["2024-05-01", "2024-05-02"]


CLOSE = pd.DataFrame(
    {"AAA": [10.0, 11, 12], "BBB": [20.0, 21, 22]}, index=pd.to_datetime(["2024-05-01", "2024-05-02", "2024-05-03"])
)


def mixed(*values):
    return pd.Series(values, dtype=object)


def asset(**cells):
    return pd.DataFrame({"sid": ["AAA"], **{name: [cell] for name, cell in cells.items()}})


PLACES = {  # the parts of Data.write that hold a day
    "bars": lambda day: {
        "bars": pd.DataFrame({"sid": ["AAA", "AAA"], "date": mixed("2024-05-01", day), "close": [1.0, 2.0]})
    },
    "bars, wide": lambda day: {"bars": {"close": CLOSE.iloc[:2].set_axis(pd.Index(mixed("2024-05-01", day)), axis=0)}},
    "sessions": lambda day: {"sessions": ["2024-05-01", day, "2024-05-03"]},
    "assets, start": lambda day: {
        "assets": pd.DataFrame({"sid": ["AAA", "BBB"], "start": mixed("2024-04-30", day), "end": "2199-12-31"})
    },
    "assets, end": lambda day: {
        "assets": pd.DataFrame({"sid": ["AAA", "BBB"], "start": "2024-04-30", "end": mixed("2199-12-31", day)})
    },
    "labels": lambda day: {"labels": asset(name="sector", start=day, label="x")},
    "labels, wide": lambda day: {"labels": {"sector": pd.DataFrame({"AAA": ["x"]}, index=[day])}},
    "numbers": lambda day: {"numbers": asset(name="earnings", known=day, value=1.0)},
    "numbers, wide": lambda day: {"numbers": {"earnings": pd.DataFrame({"AAA": [1.0]}, index=[day])}},
    "splits": lambda day: {"splits": asset(date=day, split="2:1")},
    "mergers": lambda day: {"mergers": asset(effective_date=day, ratio=0.5)},
    "dividends": lambda day: {"dividends": asset(ex_date=day, amount=1.0)},
    "revisions, session": lambda day: {"revisions": asset(session=day, column="close", value=1.0, known="2024-05-03")},
    "revisions, known": lambda day: {"revisions": asset(session="2024-05-01", column="close", value=1.0, known=day)},
}


def files(folder, parts):
    data = Data.write(folder, **{"bars": {"close": CLOSE}, **parts})
    return {part: path.read_text() for part, path in data.files.items() if part != "adjustments"}


@pytest.mark.parametrize("place", PLACES)
def test_all_places_read_days_alike(place, tmp_path):
    whole = files(tmp_path, PLACES[place]("2024-05-02"))
    for day in (
        20240502.0,
        "20240502",
        dt.date(2024, 5, 2),
        pd.Timestamp("2024-05-02", tz="Asia/Tokyo"),
        np.datetime64("2024-05-02"),
    ):
        assert files(tmp_path, PLACES[place](day)) == whole
    for day in ("02/05/2024", "2024/05/02", 45000, True, pd.Period("2024-05"), "1850-01-01", pd.NaT):
        with pytest.raises(DataFault, match=f"^{place.split(',')[0]}: "):
            Data.write(tmp_path, **{"bars": {"close": CLOSE}, **PLACES[place](day)})


@pytest.mark.parametrize("day", ["05/12/2023", 45264, pd.NaT, True, "20231305"], ids=repr)
def test_runs_read_days_alike(day, data):
    calls = {
        "start_date": lambda: run_pipeline(pipe, day, "2023-12-29", data),
        "end_date": lambda: plan(pipe, "2023-12-05", day, data),
        "asof": lambda: run_pipeline(pipe, "2023-12-04", "2023-12-05", data, asof=day),
        "session": lambda: explain(pipe, day, 101, "close", data),
    }
    for name, call in calls.items():
        with pytest.raises(ValueError, match=f"^{name}: "):
            call()


def test_runs_take_days_of_any_form(data):
    frame = run_pipeline(pipe, "2023-12-04", "2023-12-05", data)
    assert frame.equals(run_pipeline(pipe, 20231204, dt.date(2023, 12, 5), data, asof="20231205"))
    assert explain(pipe, 20231205, 101, "close", data).value is not None
