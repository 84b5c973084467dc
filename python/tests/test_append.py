"""What comes after the last session: rows that were shown stay, and the rows of all mornings are those of one write."""

import shutil

import numpy as np
import pandas as pd
import pytest

from tohmeril import Data, DataFault, ReadFault, __main__, run_text
from tohmeril.pipeline import Pipeline
from tohmeril.pipeline.classifiers import Label
from tohmeril.pipeline.data import Column, DataSet, EquityPricing
from tohmeril.pipeline.factors import AverageDollarVolume, Returns

DAYS = pd.bdate_range("2024-01-01", periods=30)
FIRST, WINDOW = 12, 6  # sessions of the first write, and the longest window


class Figures(DataSet):
    score = Column(float)


sector = Label("sector")
pipe = Pipeline(
    {
        "close": EquityPricing.close.latest,
        "sector": sector,
        "score": Figures.score.latest,
        "week": Returns(window_length=WINDOW),
        "money": AverageDollarVolume(window_length=4).rank(groupby=sector),
    }
)


@pytest.fixture(scope="module")
def parts():
    """All that a small market has, with days on which assets begin and end, halts, and events of all kinds."""
    chance = np.random.default_rng(5)
    names = ["BBB", "AAA", "DDD", "CCC", "EEE"]
    close = pd.DataFrame(chance.lognormal(3, 0.1, (30, 5)).round(2), index=DAYS, columns=names)
    close.loc[: DAYS[17], "EEE"] = np.nan  # it begins later
    close.loc[DAYS[21] :, "DDD"] = np.nan  # it ends
    close.loc[DAYS[11], "AAA"] = np.nan  # a halt
    close.loc[DAYS[15:17], "CCC"] = np.nan  # another, on the last session of the first write too
    bars = close.rename_axis("date").reset_index().melt("date", var_name="symbol", value_name="close").dropna()
    bars = bars.assign(open=1.5, high=2.5, low=np.nan, volume=chance.integers(100, 10**6, len(bars)))
    open_end = pd.Timestamp("2199-12-31")
    lives = pd.DataFrame(
        {
            "symbol": names,
            "start": [DAYS[0]] * 4 + [DAYS[18]],
            "end": [open_end, open_end, DAYS[20], open_end, open_end],
        }
    )

    def events(**columns):
        return pd.DataFrame(columns)

    return {
        "bars": bars,
        "assets": lives,
        "symbols": {name: at for at, name in enumerate(names)},
        "splits": events(symbol=["AAA", "BBB", "AAA"], date=DAYS[[8, 14, 23]], ratio=["2:1", "1:3", "3:2"]),
        "mergers": events(symbol=["CCC", "CCC"], date=DAYS[[5, 19]], ratio=[0.9, 0.8]),
        "dividends": events(symbol=["BBB", "BBB", "AAA"], ex_date=DAYS[[9, 16, 23]], amount=[0.5, 0.25, 1]),
        "labels": events(
            name="sector",
            symbol=["AAA", "BBB", "CCC", "BBB", "EEE"],
            start=DAYS[[0, 3, 7, 15, 18]],
            label=list("xyxxy"),
        ),
        "numbers": events(
            name="score", symbol=["AAA", "CCC", "AAA", "EEE"], known=DAYS[[2, 13, 16, 25]], value=[1, 2.5, np.nan, -3]
        ),
        "revisions": events(
            symbol=["AAA", "BBB", "AAA"],
            session=DAYS[[4, 13, 16]],
            column="close",
            value=[30, np.nan, 31.5],
            known=DAYS[[9, 15, 20]],
        ),
    }


KEYS = {
    "bars": "date",
    "splits": "date",
    "mergers": "date",
    "dividends": "ex_date",
    "labels": "start",
    "numbers": "known",
    "revisions": "known",
}


def between(parts, after, last):
    """What of each part is later than one day and no later than another."""
    return {part: parts[part][(parts[part][key] > after) & (parts[part][key] <= last)] for part, key in KEYS.items()}


def rows(data, day, **options):
    return run_text(pipe, day, day, data, **options)


@pytest.mark.filterwarnings("ignore:(bars|splits|the end):UserWarning")
@pytest.mark.parametrize("steps", [[*range(FIRST, 30)], [FIRST, 13, 20, 29]])
def test_appends_are_one_write(steps, parts, tmp_path):
    whole = Data.write(tmp_path / "whole", **parts)
    first = between(parts, DAYS[0] - pd.Timedelta(days=1), DAYS[steps[0]])
    lives = parts["assets"]
    data = Data.write(
        tmp_path / "grown", **first, symbols=parts["symbols"], assets=lives[lives.start <= DAYS[steps[0]]]
    )
    seen = []
    for before, at in zip(steps, steps[1:]):
        news = {part: frame for part, frame in between(parts, DAYS[before], DAYS[at]).items() if len(frame)}
        data = data.append(**news, sessions=DAYS[before + 1 : at + 1], symbols=parts["symbols"])
        assert data.added["sessions"] == at - before and data.added.get("bars") == len(news["bars"])
        seen += [(day, rows(data, day)) for day in DAYS[max(before + 1, WINDOW) : at + 1]]
    for day, shown in seen:
        assert rows(data, day, asof=day) == shown == rows(whole, day, asof=day)
    assert data.symbols.to_dict() == whole.symbols.to_dict() and data.check() == whole.check()


@pytest.mark.filterwarnings("ignore:(bars|splits|the end):UserWarning")
def test_the_bars_of_the_session_before(parts, tmp_path):
    """The calendar is a session ahead of the bars, as on a morning."""
    whole = Data.write(tmp_path / "whole", **parts)
    first = between(parts, DAYS[0] - pd.Timedelta(days=1), DAYS[FIRST - 1])
    lives = parts["assets"]
    data = Data.write(
        tmp_path / "grown",
        **first,
        symbols=parts["symbols"],
        sessions=DAYS[:FIRST],
        assets=lives[lives.start < DAYS[FIRST]],
    )
    for at in range(FIRST, 30):
        news = {**between(parts, DAYS[at - 1], DAYS[at]), "assets": lives[lives.start == DAYS[at]]}
        news["bars"] = between(parts, DAYS[at - 2], DAYS[at - 1])["bars"][: None if at > FIRST else 0]
        data = data.append(
            **{part: frame for part, frame in news.items() if len(frame)}, sessions=[DAYS[at]], symbols=parts["symbols"]
        )
        assert rows(data, DAYS[at]) == rows(whole, DAYS[at], asof=DAYS[at])


@pytest.fixture
def store(tmp_path, recwarn):
    close = pd.DataFrame({"AAA": [10.0, 11, 12], "BBB": [20.0, 21, 22]}, index=DAYS[:3])
    return Data.write(tmp_path / "store", {"close": close, "volume": close * 100}, labels={"sector": {"AAA": "Tech"}})


def news(*rows, columns=("symbol", "date", "close")):
    return pd.DataFrame(rows, columns=list(columns))


def test_lifetimes(store):
    data = store.append(news(("AAA", DAYS[3], 13.0)))  # BBB is halted
    data = data.append(news(("AAA", DAYS[4], 14.0), ("BBB", DAYS[4], 24.0), ("NEW", DAYS[4], 1.0)))
    lines = data.files["assets"].read_text().split()
    assert lines[1:] == ["0,2024-01-01,2199-12-31", "1,2024-01-01,2199-12-31", "2,2024-01-05,2199-12-31"]
    assert data.added == {"sessions": 1, "bars": 3, "assets": 1, "symbols": 1} and data.sids(["NEW", "AAA"]) == [2, 0]
    data = data.append(
        assets=pd.DataFrame({"symbol": ["BBB"], "start": [DAYS[0]], "end": [DAYS[5]]}), sessions=[DAYS[5]]
    )
    with pytest.warns(
        UserWarning, match=r"the end of these assets is reached, so that they have no row on 2024-01-09: BBB; give"
    ):
        data = data.append(sessions=[DAYS[6]])
    with pytest.warns(UserWarning, match="these assets have bars after their end, and no rows: BBB;"):
        data.append(news(("BBB", DAYS[7], 24.0)))
    assert store.sessions[-1] == "2024-01-03" and rows_of_sector(store) == rows_of_sector(
        Data(store.folder)
    )  # the old data stay as they were


def rows_of_sector(data):
    return run_text(Pipeline({"sector": sector, "close": EquityPricing.close.latest}), DAYS[1], DAYS[2], data)


def test_symbols(tmp_path):
    close = pd.DataFrame({3: [1.0, 1.1], 7: [4.0, 4.1]}, index=DAYS[:2])
    by_sid = ("sid", "date", "close")
    data = Data.write(tmp_path / "named", {"close": close}, symbols={"AAA": 3, "BBB": 7})
    grown = data.append(news((9, DAYS[2], 1.0), columns=by_sid), symbols={"AAA": 3, "CCC": 9})
    assert grown.sids(["AAA", "BBB", "CCC"]) == [3, 7, 9] and grown.added["symbols"] == 1
    grown = grown.append(news((11, DAYS[3], 1.0), columns=by_sid))  # one without a symbol
    assert grown.added == {"sessions": 1, "bars": 1, "assets": 1}
    for symbols in ({"AAA": 7, "BBB": 3}, {"AAA": 8}):
        with pytest.raises(DataFault, match="symbols: 'AAA' has the sid 3, not [78]\n"):
            grown.append(sessions=[DAYS[4]], symbols=symbols)
    with pytest.raises(DataFault, match="symbols: the sid 7 of 'DDD' is of another"):
        grown.append(news((7, DAYS[4], 1.0), columns=by_sid), symbols={"DDD": 7})
    data = Data.write(tmp_path / "plain", {"close": close})
    with pytest.raises(DataFault, match="symbols: the data have none"):
        data.append(news((9, DAYS[2], 1.0), columns=by_sid), symbols={"CCC": 9})


def test_a_new_asset_without_any_value(store):
    data = store.append(news(("AAA", DAYS[3], 1.0), ("NEW", DAYS[3], np.nan)))
    assert data.added == {"sessions": 1, "bars": 1, "symbols": 1}


def test_late_bars(store):
    data = store.append(sessions=[DAYS[3], DAYS[4]])
    data = data.append(
        news(("AAA", DAYS[2], 12.5), ("BBB", DAYS[3], 23.0), ("AAA", DAYS[4], 14.0)), sessions=[DAYS[5]], late=DAYS[5]
    )
    assert data.added == {"sessions": 1, "bars": 1, "revisions": 2}
    close = Pipeline({"close": EquityPricing.close.latest, "three": Returns(window_length=2)})
    assert run_text(close, DAYS[4], DAYS[4], data).decode().split()[1:] == ["2024-01-05,0,,", "2024-01-05,1,,"]
    assert data.files["revisions"].read_text().split()[1:] == [
        "0,2024-01-03,close,12.500000,2024-01-08",
        "1,2024-01-04,close,23.000000,2024-01-08",
    ]


def test_a_missing_value_ends_what_the_folder_has(store):
    def wide(cells, day):
        return pd.DataFrame(cells, index=[day])

    data = store.append(numbers={"score": wide({"AAA": [5.0]}, DAYS[3])}, sessions=[DAYS[3]])
    empty = {"AAA": [np.nan], "BBB": [np.nan], "ZZZ": [np.nan]}
    data = data.append(
        numbers={"score": wide(empty, DAYS[4])}, labels={"sector": wide(empty, DAYS[4])}, sessions=[DAYS[4]]
    )
    table = data.run_pipeline(Pipeline({"score": Figures.score.latest, "sector": sector}), DAYS[3], DAYS[4])
    table = table.xs(0, level="asset")
    assert table.score.tolist()[0] == 5 and table.sector.tolist()[0] == "Tech" and table.iloc[1].isna().all()


@pytest.mark.parametrize(
    "parts, told",
    [
        (
            {"bars": news(("BBB", DAYS[1], 9.0))},
            "bars: that of BBB on 2024-01-02 is before 2024-01-03, the last session.*\n.*as a revision; late=DAY",
        ),
        (
            {"bars": news(("BBB", DAYS[2], 22.0), ("AAA", DAYS[3], 1.0))},
            "bars: that of BBB on 2024-01-03 is there already\n",
        ),
        (
            {"bars": news(("AAA", DAYS[3], 1.0), ("AAA", DAYS[3], 1.0))},
            r"bars: AAA 2024-01-04 is there twice, in the rows \[0, 1\]",
        ),
        (
            {"bars": news(("AAA", DAYS[4], 1.0)), "sessions": [DAYS[3]]},
            "bars: 2024-01-05 is none of the sessions that are given",
        ),
        ({"bars": news(("AAA", DAYS[3]), columns=["symbol", "date"])}, "bars: there is neither open nor close"),
        ({"sessions": ["2024-01-03"]}, "sessions: 2024-01-03 is not later than 2024-01-03"),
        (
            {"splits": news(("AAA", DAYS[2], "2:1"), columns=["symbol", "date", "ratio"])},
            "splits: that of AAA is effective on 2024-01-03, and rows up to",
        ),
        (
            {"splits": news(*[("AAA", DAYS[9], "2:1")] * 2, columns=["symbol", "date", "ratio"])},
            "splits: AAA 2024-01-12 is there twice",
        ),
        (
            {"labels": news(("sector", "BBB", DAYS[2], "x"), columns=["name", "symbol", "start", "label"])},
            "labels: a record of BBB starts on 2024-01-03",
        ),
        (
            {"labels": news(("sector", "BBB", DAYS[3], "é"), columns=["name", "symbol", "start", "label"])},
            "labels: data BadField\n.*é",
        ),
        (
            {"numbers": news(("score", "BBB", DAYS[0], 1), columns=["name", "symbol", "known", "value"])},
            "numbers: a record of BBB is known on 2024-01-01",
        ),
        (
            {
                "revisions": news(
                    ("AAA", DAYS[0], "close", 1.0, DAYS[1]), columns=["symbol", "session", "column", "value", "known"]
                )
            },
            "revisions: a record of AAA is known on 2024-01-02",
        ),
        (
            {"assets": news(("BBB", DAYS[0], DAYS[1]), columns=["symbol", "start", "end"])},
            "assets: BBB ends on 2024-01-02 and not on 2199-12-31",
        ),
        (
            {"assets": news(("BBB", DAYS[1], "2199-12-31"), columns=["symbol", "start", "end"])},
            "assets: BBB starts on 2024-01-02 and not on 2024-01-01",
        ),
        (
            {"assets": news(("NEW", DAYS[1], DAYS[9]), columns=["symbol", "start", "end"])},
            "assets: NEW starts on 2024-01-02, while rows",
        ),
        ({"labels": {"sector": {"ZZZ": "Tech"}}}, "labels: no asset has the symbol 'ZZZ'"),
        ({"bars": news(("NEW", DAYS[3], 1.0)), "symbols": {"NEW": 1}}, "symbols: the sid 1 of 'NEW' is of another"),
        ({"bars": news(("NEW", DAYS[3], 1.0)), "symbols": {"OLD": 9}}, "symbols: there is no sid of 'NEW'"),
    ],
)
def test_refused(parts, told, store):
    before = {part: path.read_bytes() for part, path in Data(store.folder).files.items()}
    with pytest.raises(DataFault, match=told):
        store.append(**parts)
    assert {part: path.read_bytes() for part, path in Data(store.folder).files.items()} == before


def test_an_adjustment_that_is_there_already(store):
    split = news(("AAA", DAYS[9], "2:1"), columns=["symbol", "date", "ratio"])
    data = store.append(splits=split, mergers=split)
    with pytest.raises(DataFault, match="splits: that of AAA on 2024-01-12 is there already"):
        data.append(splits=split.assign(ratio="3:1"))
    with pytest.raises(DataFault, match="mergers: that of AAA on 2024-01-12 is there already"):
        data.append(mergers=split)
    assert data.append(mergers=split.assign(ratio="3:1")).added == {"mergers": 1}  # another one on the same day


def test_folders_that_are_none(tmp_path, store):
    with pytest.raises(ReadFault, match="append adds to a folder that is there: Data.write makes one"):
        Data(tmp_path / "nowhere").append(sessions=[DAYS[3]])
    with pytest.raises(TypeError, match="usual names"):
        Data(store.folder, bars="others.csv").append(sessions=[DAYS[3]])
    assert [path.name for path in tmp_path.iterdir()] == ["store"]


@pytest.fixture
def command(store, tmp_path, capsys):
    """The command over the store and one file of bars; its status and what it says."""

    def run(text, day, *options):
        shutil.rmtree(tmp_path / "news", ignore_errors=True)
        (tmp_path / "news").mkdir()
        if text:
            (tmp_path / "news/bars.csv").write_text(text)
        status = __main__.main(["append", str(store.folder), str(tmp_path / "news"), day, *options])
        return status, capsys.readouterr().err

    return run


@pytest.mark.parametrize("folder", ["nowhere", "news"])
def test_the_command_over_no_data(folder, tmp_path, capsys):
    (tmp_path / "news").mkdir()
    assert __main__.main(["append", str(tmp_path / folder), str(tmp_path / "news"), "2024-01-05"]) == 7
    assert "append adds to a folder that is there: Data.write makes one" in capsys.readouterr().err
    assert [path.name for path in tmp_path.iterdir()] == ["news"] and not list((tmp_path / "news").iterdir())


def test_files_that_the_command_cannot_read(command, store, tmp_path):
    for text, told in (
        ("\n", "bars.csv: No columns to parse from file"),
        ("symbol,date,close\nAAA,2024-01-03,1\nAAA,2024-01-03,1,2,3\n", "Expected 3 fields in line 3, saw 5"),
        ("symbol,date,close\nAAA,,1\n", "bars: a day is missing in session"),
        ("symbol,date,close\nAAA,03/01/2024,1\n", "bars: '03/01/2024' may be a day of January or of March"),
    ):
        status, said = command(text, "2024-01-05")
        assert status == 4 and told in said
    (tmp_path / "news/bars.csv").write_bytes(b"symbol,date,close\nAAA\xe9,2024-01-03,1\n")
    with pytest.raises(DataFault, match="bars.csv: 'utf-8' codec can't decode"):
        __main__.read(tmp_path / "news/bars.csv")
    assert command("sid,date,close\nNEW,2024-01-03,13\n", "2024-01-05")[0] == 0  # symbols under the name of sids
    assert Data(store.folder).sids(["NEW"]) == [2]


def test_the_command(command, store):
    status, said = command(
        "volume,symbol,date,close\n5,AAA,2024-01-04,13", "2024-01-05"
    )  # no bars of the 3rd, and no last line end
    assert status == 4 and "has no bars of 2024-01-03, the last session; there are those of 2024-01-04" in said
    status, said = command(None, "2024-01-04")
    assert status == 4 and "has no bars of 2024-01-03, the last session\n" in said and "--without-bars" in said
    assert command(None, "2024-01-04", "--without-bars") == (0, "append: 1 sessions\n")
    assert command("volume,symbol,date,close\n5,AAA,2024-01-04,13", "2024-01-05")[0] == 0
    assert Data(store.folder).files["bars"].read_text().endswith("\n0,2024-01-04,,,,13.000000,5.000000\n")
    assert command(None, "2024-01-05") == (0, "append: 2024-01-05 is the last session already, so nothing is added\n")
    status, said = command("symbol,date,close\nAAA,2024-01-05,14\n", "2024-01-06")
    assert status == 4 and "2024-01-06 is a Saturday, and no session is one" in said and "--weekend" in said
    assert command("symbol,date,close\nAAA,2024-01-05,14\nBBB,2024-01-04,24\n", "2024-01-08")[0] == 4  # one is late
    assert (
        command("symbol,date,close\nAAA,2024-01-05,14\nBBB,2024-01-04,24\n", "2024-01-06", "--weekend", "--late")[0]
        == 0
    )
    for day, told in (
        ("2024-01-02", "is no day after 2024-01-06"),
        ("08.01.2024", "may be a day of January or of August"),
    ):
        status, said = command(None, day)
        assert status == 4 and told in said
