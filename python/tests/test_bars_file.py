"""Bars of one frame or of many as one file."""

import numpy as np
import pandas as pd
import pytest

from tohmeril import Data, DataFault, bars_file
from tohmeril.bars_file import MISSING, millionths
from tohmeril.pipeline.script import BARS

pytestmark = pytest.mark.filterwarnings("ignore:bars:UserWarning")


def test_values_are_written_as_before():
    """Whole millionths are those of ``%.6f``, near a half and past 2^53 too."""
    chance = np.random.default_rng(1)
    values = np.concatenate(
        [
            chance.lognormal(3, 2, 20_000),
            chance.integers(0, 10**9, 40_000) / 1e7,
            chance.random(20_000) * 1e11,
            chance.integers(0, 2**40, 20_000) / 2**20,
            [0, 5e-324, 0.0000005, 1.0000005, 1e11, 99_999_999_999.999_999_5],
        ]
    )
    for signed in (values, -values):
        assert millionths(signed).tolist() == [int(f"{value:.6f}".replace(".", "")) for value in signed.tolist()]
    assert millionths(np.array([np.nan])).tolist() == [MISSING]


@pytest.fixture(scope="module")
def frame():
    """Bars of 30 symbols in no order, with values missing and rows that have none."""
    chance = np.random.default_rng(3)
    days = pd.bdate_range("1969-06-02", periods=400)
    rows = pd.DataFrame({"symbol": np.repeat([f"S{at}" for at in range(30)], 400), "date": np.tile(days, 30)})
    cells = pd.DataFrame({name: chance.lognormal(2, 4, len(rows)) for name in BARS}).where(
        chance.random((len(rows), 5)) > 0.1
    )
    cells[chance.random(len(rows)) < 0.02] = np.nan
    return pd.concat([rows, cells], axis=1).sample(frac=0.9, random_state=1, ignore_index=True)


@pytest.fixture(scope="module")
def wanted(frame):
    """The file, line by line."""
    rows = frame.dropna(how="all", subset=list(BARS)).assign(
        symbol=lambda rows: rows.symbol.map({name: at for at, name in enumerate(sorted(set(frame.symbol)))})
    )
    rows = rows.assign(date=rows.date.dt.strftime("%Y-%m-%d")).sort_values(["symbol", "date"])
    lines = ["%d,%s,%.6f,%.6f,%.6f,%.6f,%.6f\n" % row for row in rows.itertuples(index=False)]
    return "sid,session,open,high,low,close,volume\n" + "".join(lines).replace("nan", "")


@pytest.mark.parametrize(
    "memory, batch, group",
    [(1 << 22, 1 << 17, 1 << 17), (1 << 22, 1000, 200), (4000, 1000, 1000), (2000, 2000, 200)],
    ids=["one batch", "many", "in a file", "each in a file"],
)
@pytest.mark.parametrize("pieces", [1, 7], ids=["one frame", "seven"])
def test_frames_one_after_the_other(pieces, memory, batch, group, frame, wanted, tmp_path, monkeypatch):
    monkeypatch.setattr(bars_file, "MEMORY", memory)
    monkeypatch.setattr(bars_file, "BATCH", batch)
    monkeypatch.setattr(bars_file, "GROUP", group)
    monkeypatch.setattr(bars_file, "BLOCK", min(group, 1 << 13))
    parts = [frame.iloc[at::pieces] for at in range(pieces)]
    data = Data.write(tmp_path, parts[0] if pieces == 1 else iter(parts))
    assert data.files["bars"].read_text() == wanted
    lives = pd.read_csv(data.files["assets"])
    days = frame.dropna(how="all", subset=list(BARS)).groupby("symbol").date
    assert lives.start.tolist() == days.min().dt.strftime("%Y-%m-%d").tolist()
    assert data.sessions == sorted(set(wanted.replace("\n", ",").split(",")[8::7]))
    assert sorted(path.name for path in data.files["bars"].parent.iterdir()) == [
        "adjustments.db",
        "assets.csv",
        "bars.csv",
        "lock",
        "sessions.csv",
        "symbols.csv",
    ]


def test_a_reader_of_parts(frame, wanted, tmp_path):
    frame.to_csv(tmp_path / "bars.csv", index=False)
    with pd.read_csv(tmp_path / "bars.csv", chunksize=1000) as parts:
        data = Data.write(tmp_path / "made", parts)
    assert data.files["bars"].read_text() == wanted


def test_wide_frames_are_long_ones(frame, wanted, tmp_path):
    wide = {name: frame.pivot(index="date", columns="symbol", values=name) for name in BARS}
    assert Data.write(tmp_path / "names", wide).files["bars"].read_text() == wanted
    other = {**wide, "close": wide["close"][::-1], "low": wide["low"].iloc[:, ::-1]}
    assert Data.write(tmp_path / "other", other).files["bars"].read_text() == wanted
    assert Data.write(tmp_path / "levels", pd.concat(wide, axis=1)).files["bars"].read_text() == wanted
    some = {**wide, "volume": wide["volume"].iloc[100:, 3:]}
    fewer = frame.assign(volume=frame.volume.where((frame.date >= wide["close"].index[100]) & (frame.symbol >= "S11")))
    wanted = Data.write(tmp_path / "fewer", fewer).files["bars"].read_text()
    assert wide["close"].columns[3] == "S11"
    assert Data.write(tmp_path / "some", some).files["bars"].read_text() == wanted


@pytest.mark.parametrize(
    "spoil, told",
    [
        (
            lambda rows: rows.assign(close=np.inf),
            r"bars: the close of S\d+ on \d+-\d+-\d+ is inf\nrow 0 of frame 1, and \d+ others",
        ),
        (
            lambda rows: rows.assign(volume=[1e12, *rows.volume[1:]]),
            r"bars: the volume of S\d+ on .* is 1e\+12\nrow 0 of frame 1; the greatest",
        ),
        (lambda rows: rows.assign(low=-1.0), "bars: the low of .* is -1\nrow 0 of frame 1"),
        (lambda rows: rows.assign(open="x"), "bars: open has 'x' in place of a number"),
        (lambda rows: rows.assign(symbol=None), "an asset is missing"),
        (lambda rows: rows.assign(date="02/05/2024"), "may be a day of May or of February"),
        (lambda rows: rows.rename(columns={"date": "when"}), "bars: there is no column session"),
        (lambda rows: rows.symbol, "bars: Series is no frame"),
    ],
)
def test_faults_name_the_frame(spoil, told, frame, tmp_path):
    with pytest.raises(DataFault, match=told):
        Data.write(tmp_path / "made", iter([frame[:100], spoil(frame[100:200].reset_index(drop=True))]))
    assert not (tmp_path / "made").exists()


def test_a_bar_that_is_there_twice(frame, tmp_path):
    again = pd.concat([frame[7:9], frame[:1]], ignore_index=True)
    with pytest.raises(
        DataFault,
        match=r"bars: S\d+ [\d-]+ is there twice, in the rows \[\d of frame 0, \d of frame 1\], and so are 2 others",
    ):
        Data.write(tmp_path, iter([frame[:100], again]))


def test_progress(frame, tmp_path, capsys):
    pytest.importorskip("tqdm")
    Data.write(tmp_path, frame, progress=True)
    said = capsys.readouterr().err
    assert "bars read" in said and "bars written: 100%" in said
