"""What can't be read in one way is refused with the value, the reason and what to write, and never by a bare error."""

import importlib
import os
import shutil
import sqlite3
import subprocess
import sys
from contextlib import closing
from datetime import timedelta
from decimal import Decimal
from fractions import Fraction

import numpy as np
import pandas as pd
import pytest

from tohmeril import Data, DataFault, ReadFault, StoreFault, explain, run_pipeline, vendors, verify
from tohmeril.data import readable
from tohmeril.pipeline import Pipeline
from tohmeril.pipeline.factors import Returns
from tohmeril.values import read_numbers

pytestmark = pytest.mark.filterwarnings("ignore:(bars|splits|labels|numbers):UserWarning")
DAYS = pd.bdate_range("2024-01-02", periods=30)
CLOSE = pd.DataFrame({"AAA": np.arange(10.0, 40), "BBB": np.arange(50.0, 80)}, index=DAYS)
NEXT = pd.DataFrame({"AAA": [41.0], "BBB": [81.0]}, index=["2024-02-13"])
PIPE = Pipeline({"y": Returns(window_length=3)})


@pytest.mark.parametrize(
    "name, told",
    [
        ("research", r"run_pipeline\(pipe, start, end, Data\(folder\)\)"),
        ("algorithm", "no orders and no backtest"),
        ("optimize.api", "no orders and no backtest"),
        ("data.bundles", "Data.write makes a folder of frames"),
        ("utils.calendar_utils", "Data\\(folder\\).sessions"),
        ("errors", "tohmeril.faults"),
        ("pipeline.data.morningstar", r"class Fundamentals\(DataSet\)"),
        ("pipeline.data.psychsignal.stocktwits", r"class Fundamentals\(DataSet\)"),
        ("pipeline.factors.morningstar", "docs/ZIPLINE.md lists what there is; .* whose latest is a factor"),
        ("pipeline.filters.fundamentals", "as labels="),
        ("pipeline.classifiers.morningstar", "as labels="),
        ("pipeline.experimental", "no model of risk"),
        ("pipeline.loaders.blaze", "Data.write takes frames"),
        ("pipeline.mixins", "in tohmeril.pipeline"),
    ],
)
def test_modules_that_are_none(name, told):
    with pytest.raises(ModuleNotFoundError, match=rf"there is no tohmeril\.\S+ here: .*{told}"):
        importlib.import_module(f"tohmeril.{name}")


def test_names_that_are_no_modules():
    with pytest.raises(
        ImportError, match="no tohmeril.pipeline.filters.QTradableStocksUS here: .*a universe is a filter"
    ):
        from tohmeril.pipeline.filters import QTradableStocksUS  # noqa: F401
    with pytest.raises(ModuleNotFoundError, match="No module named 'tohmeril.nonsense'"):
        importlib.import_module("tohmeril.nonsense")
    from tohmeril.pipeline.data import builtin

    assert builtin.USEquityPricing is importlib.import_module("tohmeril.pipeline.data").USEquityPricing


@pytest.mark.parametrize(
    "values, told",
    [
        (CLOSE.AAA > 20, "False"),
        ((CLOSE.AAA > 20).astype("boolean"), "False"),
        (CLOSE.AAA * 1j, "10j"),
        (pd.Series([1.5, True], dtype=object), "True"),
        (pd.Series([1.5, np.bool_(False)], dtype=object), "False"),
        (pd.Series([None, 2j], dtype=object), "2j"),
        (pd.Series([1.5, timedelta(2)], dtype=object), "datetime.timedelta"),
        (pd.to_timedelta(CLOSE.AAA), "Timedelta"),
        (pd.to_datetime(CLOSE.AAA), "Timestamp"),
        (pd.Series(["1.5", "1,500"]), "'1,500'"),
        (pd.Series(["1.5", "x"], dtype="category"), "'x'"),
    ],
)
def test_what_is_no_number(values, told, tmp_path):
    """In a column of a long frame, in a wide one, and wherever else numbers are read."""
    values = values.set_axis(DAYS[: len(values)])
    rows = pd.DataFrame({"sid": 1, "date": values.index, "close": values.array})
    fault = f"close has .*{told}.* in place of a number\n.*give numbers, or texts as 187.25"
    for bars in (rows, {"close": pd.DataFrame({1: values})}):
        with pytest.raises(DataFault, match=f"bars: {fault}"):
            Data.write(tmp_path / "made", bars)
    records = pd.DataFrame({"name": "score", "asset": "AAA", "known": values.index, "value": values.array})
    amounts = pd.DataFrame({"symbol": "AAA", "date": values.index, "amount": values.array})
    for part, frame in (("numbers", records), ("dividends", amounts)):
        with pytest.raises(DataFault, match=f"{part}: .*{told}.* in place of a number"):
            Data.write(tmp_path / "made", {"close": CLOSE}, **{part: frame})
    assert not (tmp_path / "made").exists()


@pytest.mark.parametrize(
    "values",
    [
        pd.Series([1, 25, None], dtype="Int64"),
        pd.Series([1, 25, np.nan], dtype="float32"),
        pd.Series([1.0, 25.0, pd.NA], dtype="Float64"),
        pd.Series(["1", " 25 ", None]),
        pd.Series(["1.0", "2.5e1", pd.NA], dtype="string"),
        pd.Series([1, 25, np.nan], dtype="category"),
        pd.Series([Decimal(1), np.int8(25), None], dtype=object),
    ],
)
def test_what_is_a_number(values):
    numbers, wrong = read_numbers(values)
    assert numbers.dtype == "float64" and numbers.tolist()[:2] == [1, 25] and np.isnan(numbers[2]) and not wrong.any()


def split(value, name="ratio", kind=object):
    return pd.DataFrame({"symbol": ["AAA"], "date": ["2024-01-10"], name: pd.Series([value], dtype=kind)})


@pytest.mark.parametrize(
    "value, kind, wanted",
    [
        (1 / 3, "float32", Fraction(1, 3)),
        (2 / 3, "float32", Fraction(2, 3)),
        (0.05, "float32", Fraction(1, 20)),
        (1.5, "float32", Fraction(3, 2)),
        (1001 / 1000, "float32", Fraction(1001, 1000)),
        (0.25, "float16", Fraction(1, 4)),
        (np.float32(1 / 3), object, Fraction(1, 3)),
        (7514 / 7609, "float64", Fraction(7514, 7609)),
    ],
)
def test_ratios_have_no_error_of_their_float(value, kind, wanted, tmp_path):
    data = Data.write(tmp_path, {"close": CLOSE}, splits=split(value, kind=kind))
    with closing(sqlite3.connect(data.files["adjustments"])) as store:
        assert store.execute("SELECT num, den FROM splits").fetchall() == [wanted.as_integer_ratio()]


@pytest.mark.parametrize(
    "frame, told",
    [
        (
            split(0.98751, kind="float32"),
            "the ratio 0.98751 of AAA is none .*\nrow 0; floats of 32 bits do not hold it",
        ),
        (split(0.1001, kind="float16"), "the ratio 0.1.* of AAA is none .*\nrow 0; floats of 32 bits"),
        (split(True), "the ratio True of AAA is none"),
        (split(2 + 0j), r"the ratio \(2\+0j\) of AAA is none"),
        (split(True, "split"), "the ratio True of AAA is none"),
    ],
)
def test_ratios_that_are_none(frame, told, tmp_path):
    with pytest.raises(DataFault, match=f"splits: {told}"):
        Data.write(tmp_path, {"close": CLOSE}, splits=frame)


@pytest.mark.parametrize(
    "options, told",
    [
        ({"sessions": 5}, "sessions: int is no list of days\ngive each day, as pd.bdate_range"),
        ({"sessions": "2024-01-02"}, "sessions: str is no list of days"),
        ({"sessions": pd.Timestamp("2024-01-02")}, "sessions: Timestamp is no list of days"),
        ({"sessions": CLOSE}, "sessions: DataFrame is no list of days"),
        ({"after_close": 5}, "after_close: 5 is no name of a part\nTrue, or some of labels, numbers, revisions"),
        ({"after_close": None}, "after_close: None is no name of a part"),
    ],
)
def test_options(options, told, tmp_path):
    with pytest.raises(DataFault, match=told):
        Data.write(tmp_path / "made", {"close": CLOSE}, **options)
    data = Data.write(tmp_path / "there", {"close": CLOSE})
    with pytest.raises(DataFault, match=told):
        data.append({"close": NEXT}, **options)
    assert Data(tmp_path / "there").sessions[-1] == "2024-02-12"


def test_columns_of_one_asset(tmp_path):
    twice = pd.concat([CLOSE, CLOSE.AAA], axis=1)
    for bars in ({"close": twice}, pd.concat({"close": twice}, axis=1)):
        with pytest.raises(DataFault, match="bars: close has two columns of AAA\nkeep one of them"):
            Data.write(tmp_path / "made", bars)


def test_what_is_no_path(tmp_path):
    for call in (lambda: Data(5), lambda: Data(None), lambda: Data.write(5, {"close": CLOSE})):
        with pytest.raises(TypeError, match="a folder is given by its path, and not by (5|None)"):
            call()


@pytest.mark.parametrize("given", [5, "frame.csv", [1], {"close": CLOSE}, None])
@pytest.mark.parametrize(
    "reader, what",
    [
        (vendors.yfinance, "yfinance"),
        (vendors.stooq, "stooq"),
        (lambda given: vendors.sharadar(given, given), "SEP"),
        (vendors.crsp, "CRSP"),
    ],
    ids=["yfinance", "stooq", "sharadar", "crsp"],
)
def test_frames_of_vendors(reader, what, given):
    with pytest.raises(DataFault, match=f"{what}: {type(given).__name__} is no frame\ngive a DataFrame of pandas"):
        reader(given)


@pytest.mark.parametrize(
    "call, sort, told",
    [
        (lambda data: data.check(table=5), TypeError, "table is a frame of run_pipeline, and not 5"),
        (lambda data: data.sids(5), TypeError, r"symbols are given as a list, as \['AAPL'\], and not as 5"),
        (lambda data: data.sids("AAA"), TypeError, "and not as 'AAA'"),
        (lambda data: explain(PIPE, DAYS[9], "AAA", ["y"], data), TypeError, "column is the name of one of the pipe"),
        (lambda data: verify(PIPE, 5, data), TypeError, "derivation is one of explain, its text or the Path .* not 5"),
        (
            lambda data: run_pipeline(PIPE, DAYS[9], DAYS[10], data, cut="/nowhere"),
            FileNotFoundError,
            "cut: there is no folder /nowhere: make it, where all machines see it, or give cut=True",
        ),
        (lambda data: vendors.csvdir(5), TypeError, "a folder is given by its path, and not by 5"),
        (
            lambda data: Data.write(data.folder, {"close": CLOSE}, sessions=[]),
            DataFault,
            "sessions: there is none\nwithout sessions= they are the days of the bars",
        ),
        (
            lambda data: Data.write(data.folder, {"close": CLOSE}, labels={("a", "b"): {"AAA": "x"}}),
            DataFault,
            r"labels: \('a', 'b'\) is no name\na name is a text",
        ),
        (
            lambda data: Data.write(data.folder, {"close": CLOSE}, numbers={5: CLOSE}),
            DataFault,
            "numbers: 5 is no name\ngive frames by name, or by the column of a DataSet",
        ),
    ],
)
def test_arguments(call, sort, told, tmp_path):
    with pytest.raises(sort, match=told):
        call(Data.write(tmp_path, {"close": CLOSE}))


def link(path):
    path.symlink_to("nowhere")


@pytest.mark.parametrize(
    "spoil, told",
    [
        (link, "folder is a link to nowhere, which is not there\ngive another folder, or remove it"),
        (lambda folder: folder.write_text("x"), "folder is a file\ngive another folder"),
        (lambda folder: (folder.mkdir(), link(folder / "versions")), "versions is a link to nowhere, which is not"),
        (lambda folder: (folder.mkdir(), (folder / "versions").write_text("x")), "versions is a file"),
        (lambda folder: (folder / "bars.csv").mkdir(parents=True), "bars.csv is a folder"),
    ],
)
def test_folders_that_can_not_be_made(spoil, told, tmp_path):
    folder = tmp_path / "folder"
    spoil(folder)
    with pytest.raises(DataFault, match=f"folder: {tmp_path}/.*{told}"):
        Data.write(folder, {"close": CLOSE})
    assert spoil is not link or not (tmp_path / "nowhere").exists()


def test_a_link_in_place_of_a_file_is_replaced(tmp_path):
    link(tmp_path / "bars.csv")
    assert len(Data.write(tmp_path, {"close": CLOSE}).sessions) == 30 and not (tmp_path / "nowhere").exists()


def test_a_version_that_is_gone(tmp_path):
    Data.write(tmp_path, {"close": CLOSE})
    (tmp_path / "versions/current").unlink()
    (tmp_path / "versions/current").symlink_to("99")
    told = "versions/current leads to 99, which is not there: let it lead to one that is; there are 1"
    with pytest.raises(ReadFault, match=told):
        run_pipeline(PIPE, DAYS[9], DAYS[10], Data(tmp_path))
    with pytest.raises(ReadFault, match=told):
        Data(tmp_path).append({"close": NEXT})


@pytest.fixture
def plain(tmp_path):
    """A folder with plain files."""
    (tmp_path / "plain").mkdir()
    for path in Data.write(tmp_path / "made", {"close": CLOSE}).files.values():
        shutil.copy(path, tmp_path / "plain" / path.name)
    return tmp_path / "plain"


@pytest.mark.parametrize("text", ["", "nonsense\n1,2,3\n"], ids=["empty", "another header"])
@pytest.mark.parametrize(
    "part, told",
    [
        ("bars.csv", "bars.csv:1: data BadHeader\n(.*\n)?write the header of docs/FILES.md"),
        ("assets.csv", "assets.csv:1: data BadHeader"),
        ("symbols.csv", "symbols: .*symbols.csv can't be read: .*\nit has the header sid,symbol"),
    ],
)
def test_files_that_are_none(part, told, text, plain):
    (plain / part).write_text(text)
    last = CLOSE[-1:].assign(CCC=7.0)[["CCC"]]
    for call in (lambda: Data(plain).append({"close": NEXT}), lambda: Data(plain).append({"close": last})):
        with pytest.raises(DataFault, match=told):
            call()
    with pytest.raises(DataFault, match=told):
        Data(plain).check()
    assert not (plain / "versions").exists()


def test_a_database_that_is_not_there(plain):
    data = Data(plain, adjustments="nowhere.db")
    for call in (data.check, lambda: run_pipeline(PIPE, DAYS[9], DAYS[10], data, cut=True, pieces=2)):
        with pytest.raises((ReadFault, StoreFault), match="nowhere.db\n.*there is no such file"):
            call()


def ended(path, mode):
    """Let a process that writes to a database end in the middle."""
    lines = [
        f"store = sqlite3.connect({str(path)!r}, isolation_level=None)",
        f"store.execute('PRAGMA journal_mode={mode}'); store.execute('PRAGMA cache_size=1')",
        "store.execute('INSERT INTO splits (effective_date, num, den, sid) VALUES (1706054400, 1, 2, 0)')",
        "store.execute('BEGIN')",
        "insert = 'INSERT INTO mergers (effective_date, num, den, sid) VALUES (1706054400, 1, 2, 0)'",
        "store.executemany(insert, [()] * 20_000)",
        "os.kill(os.getpid(), 9)",
    ]
    subprocess.run([sys.executable, "-c", "import os, sqlite3\n" + "\n".join(lines)], check=False)


def test_a_write_that_was_broken_off(plain):
    """The journal says so; to write a folder anew plays it back, so that the version that is kept is right."""
    ended(plain / "adjustments.db", "DELETE")
    assert (plain / "adjustments.db-journal").exists()
    told = "a write of it was broken off, as the journal beside it says: open it once with sqlite3"
    for call in (
        lambda: Data(plain).append({"close": NEXT}),
        lambda: Data(plain).check(),
        lambda: run_pipeline(PIPE, DAYS[9], DAYS[10], Data(plain), cut=True, pieces=2),
    ):
        with pytest.raises(StoreFault, match=told):
            call()
    Data.write(plain, {"close": CLOSE})
    assert not (plain / "adjustments.db-journal").exists()
    with closing(sqlite3.connect(plain / "versions/1/adjustments.db")) as store:
        assert store.execute("SELECT (SELECT count(*) FROM splits), (SELECT count(*) FROM mergers)").fetchone() == (
            1,
            0,
        )


def test_a_database_with_a_log_where_nothing_may_be_written(plain, monkeypatch):
    """sqlite3 opens none there; a copy is read, with the newest rows of the log."""
    ended(plain / "adjustments.db", "WAL")
    assert (plain / "adjustments.db-wal").exists()

    def connect(name, own=sqlite3.connect, **options):
        if str(plain) in str(name):
            raise sqlite3.OperationalError("unable to open database file")
        return own(name, **options)

    monkeypatch.setattr(sqlite3, "connect", connect)
    with readable(plain / "adjustments.db") as name, closing(connect(name, uri=True)) as store:
        assert store.execute("SELECT count(*) FROM splits").fetchone() == (1,)
    assert any("splits: 1 of 1 show no fall" in line for line in Data(plain).check())
    wanted = run_pipeline(PIPE, DAYS[14], DAYS[20], Data(plain))
    assert run_pipeline(PIPE, DAYS[14], DAYS[20], Data(plain), cut=True, pieces=2).equals(wanted)
    assert sorted(os.listdir(plain))[:2] == ["adjustments.db", "adjustments.db-shm"]
