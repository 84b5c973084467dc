"""A piece's files, over random small data: the definition `cut` of crates/pl_cut, and the rows of the whole.

`PIECE_CASES` says how many folders are drawn whose pieces are compared with the whole, 12 where it is not set.
"""
import csv
import os
import random
import sqlite3
from datetime import date, timedelta
from types import SimpleNamespace

import numpy as np
import pytest

from tohmeril import Data, cuts, run_text
from tohmeril.data import CREATE, HEADERS, SECONDS, TABLES
from tohmeril.pipeline import Pipeline
from tohmeril.pipeline.classifiers import Label
from tohmeril.pipeline.data import Column, DataSet, EquityPricing
from tohmeril.pipeline.factors import Returns, SimpleMovingAverage
from tohmeril.pipeline.filters import All
from tohmeril.pipeline.script import Script
from tohmeril.plans import as_script, ask_program

DAYS = [str(date(2024, 1, 1) + timedelta(n)) for n in range(40)]
SIDS = range(1, 7)
CASES = int(os.environ.get("PIECE_CASES", "12"))


class Fundamentals(DataSet):
    earnings = Column(float)


def number_of(day: str) -> int:
    """The days since 1970-01-01."""
    return (date.fromisoformat(day) - date(1970, 1, 1)).days


def drawn(draw: random.Random) -> dict[str, list[tuple]]:
    """Rows of each part in any order. Days of lives, labels, numbers and adjustments need not be sessions."""
    sessions = sorted(draw.sample(DAYS, 14))
    since = [
        (name, sid, day)
        for name in ("sector", "earnings")
        for sid in SIDS
        for day in draw.sample(DAYS, draw.randint(0, 5))
    ]
    bars = [(sid, day, *draw.choices(range(1, 99), k=5)) for sid in SIDS for day in sessions if draw.random() < 0.8]
    revised = {
        (sid, day, draw.choice(["open", "close", "volume"]), known)
        for sid, day, *_ in draw.sample(bars, 12)
        for known in DAYS
        if known > day and draw.random() < 0.1
    }
    rows = {
        "sessions": [(day,) for day in sessions],
        "assets": [(sid, *sorted(draw.sample(DAYS, 2))) for sid in SIDS],
        "labels": [(*row, draw.choice(["tech", "oil", ""])) for row in since if row[0] == "sector"],
        "numbers": [(*row, draw.choice([1, 2.5, ""])) for row in since if row[0] == "earnings"],
        "bars": bars,
        "revisions": [(sid, day, column, draw.choice([7, ""]), known) for sid, day, column, known in sorted(revised)],
        **{
            table: [
                (
                    at,
                    number_of(draw.choice(DAYS)) * SECONDS + draw.choice([0, 50_000, SECONDS - 1]),
                    *draw.choices(range(1, 4), k=2),
                    draw.choice([*SIDS, 99]),
                )
                for at in range(12)
            ]
            for table in TABLES
        },
    }
    for part in rows.keys() - {"sessions", *TABLES}:
        draw.shuffle(rows[part])
    return rows


def written(rows: dict[str, list[tuple]], folder, end: str = "\r\n") -> Data:
    folder.mkdir()
    for part in rows.keys() - set(TABLES):
        with open(folder / f"{part}.csv", "w", newline="") as file:
            csv.writer(file, lineterminator=end).writerows([*([HEADERS[part]] if part in HEADERS else []), *rows[part]])
    store = sqlite3.connect(folder / "adjustments.db")
    with store:
        for table in TABLES:
            store.execute(CREATE.format(table))
            store.executemany(f"INSERT INTO {table} VALUES (?, ?, ?, ?, ?)", rows[table])
    store.close()
    return Data(folder)


def read(data: Data) -> dict[str, list[tuple]]:
    rows = {}
    for part, path in data.files.items():
        if part == "adjustments":
            store = sqlite3.connect(path)
            for table in TABLES:
                query = f"SELECT id, effective_date, num, den, sid FROM {table} ORDER BY id"
                rows[table] = store.execute(query).fetchall()
            store.close()
        else:
            with open(path, newline="") as file:
                rows[part] = [tuple(row) for row in csv.reader(file)][part in HEADERS :]
    return rows


def cut(rows: dict[str, list[tuple]], first: str, last: str) -> dict[str, list[tuple]]:
    """The definition: what is read of the rows from a first session on, up to a last one."""
    kept = {sid for sid, start, end in rows["assets"] if start < last and first <= end}

    def counts(row, all_rows):
        newest = all(other[2] <= row[2] for other in all_rows if other[:2] == row[:2] and other[2] <= first)
        return row[1] in kept and row[2] <= last and (first < row[2] or newest)

    return {
        "sessions": rows["sessions"],
        "assets": [row for row in rows["assets"] if row[0] in kept],
        "labels": [row for row in rows["labels"] if counts(row, rows["labels"])],
        "numbers": [row for row in rows["numbers"] if counts(row, rows["numbers"])],
        "bars": [row for row in rows["bars"] if row[0] in kept and first <= row[1] < last],
        "revisions": [
            row for row in rows["revisions"] if row[0] in kept and first <= row[1] < last and first < row[4] <= last
        ],
        **{
            table: [
                row for row in rows[table] if row[4] in kept and number_of(first) < row[1] // SECONDS <= number_of(last)
            ]
            for table in TABLES
        },
    }


def as_text(rows: dict[str, list[tuple]]) -> dict[str, list[tuple]]:
    return {part: [tuple(map(str, row)) for row in part_rows] for part, part_rows in rows.items()}


@pytest.mark.parametrize("seed", range(40))
def test_the_files_of_a_piece_are_the_cut(seed, tmp_path, monkeypatch):
    """Several spans in one pass over short blocks; of adjustments, those of the piece's assets."""
    draw = random.Random(seed)
    rows = drawn(draw)
    spans = [sorted(draw.sample([day for day, in rows["sessions"]], 2)) for _ in range(5)]
    monkeypatch.setattr(cuts, "BLOCK", 300)
    monkeypatch.setattr(
        cuts, "order_of", lambda script, start, end, data: SimpleNamespace(reach=data.sessions.index(start))
    )
    (tmp_path / "pieces").mkdir()
    pieces = cuts.cut_files(Script(""), written(rows, tmp_path / "whole"), spans, tmp_path / "pieces")
    for piece, (first, last) in zip(pieces, spans):
        wanted, found = cut(rows, first, last), read(piece)
        sids = {row[0] for row in wanted["assets"]}
        found.update((table, [row for row in found[table] if row[4] in sids]) for table in TABLES)
        assert as_text(found) == as_text(wanted), (first, last)


LINE = "7,2024-01-02,1,2,3,4,5\n"


@pytest.mark.parametrize(
    "lines, plain",
    [
        (LINE * 3, True),
        (LINE + "4294967295,1999-12-31,,,,,\n" + "0,2024-13-99,a,b,c,d,e\n", True),
        (LINE.replace("\n", "\r\n") * 2, True),
        (LINE + "\n", False),
        (LINE + "07,2024-01-02,1,2,3,4,5\n", False),
        (LINE + '"7",2024-01-02,1,2,3,4,5\n', False),
        (LINE + '7,"2024-01-02",1,2,3,4,5\n', False),
        (LINE + "7,2024/01/02,1,2,3,4,5\n", False),
        (LINE + "7,2024-01-2x,1,2,3,4,5\n", False),
        (LINE + ",2024-01-02,1,2,3,4,5\n", False),
        (LINE + " 7,2024-01-02,1,2,3,4,5\n", False),
        (LINE + "12345678901,2024-01-02,1,2,3,4,5\n", False),
        (LINE + "7,2024-01-02,1,2,3,4\n" + "7,2024-01-02,1,2,3,4,5,6\n", False),
        (LINE + "7\n" + "7,2024-01-02,1,2,3,4,5,6,7,8,9,10\n", False),
        ("sid,session,open,high,low,close,volume\n" + LINE, False),
    ],
)
def test_keys_of_lines(lines, plain):
    """Those of lines that the program writes are read as those of any lines."""
    text = np.frombuffer(lines.encode(), "u1")
    ends = np.flatnonzero(text == ord("\n"))
    quick = cuts._plain_keys(text, ends, np.diff(ends, prepend=-1))
    assert (quick is not None) == plain
    for key, wanted in zip(quick or (), cuts._any_keys(lines.encode())):
        assert [key.texts[code] for code in key.codes] == [wanted.texts[code] for code in wanted.codes]


def reading():
    """Terms that read each part, over windows, ranks, labels and calendars."""
    close, sector, earned = EquityPricing.close.latest, Label("sector"), Fundamentals.earnings.latest
    mean = SimpleMovingAverage([EquityPricing.close], window_length=3)
    return Pipeline(
        {
            "mean": mean,
            "place": Returns(window_length=2).rank(groupby=sector),
            "earned": earned,
            "sector": sector,
            "old": close.downsample("week_start"),
            "often": All([earned > 1], window_length=2),
            "peers": sector.peer_count(),
            "places": SimpleMovingAverage([mean.rank()], window_length=2),
            "money": EquityPricing.volume.latest.demean(),
        }
    )


@pytest.mark.parametrize("seed", range(CASES))
def test_pieces_of_random_data_give_the_whole(seed, tmp_path):
    rows = drawn(random.Random(seed))
    data, (first, last) = written(rows, tmp_path / "whole"), (rows["sessions"][8][0], rows["sessions"][-1][0])
    whole = run_text(reading(), first, last, data)
    lives = any(start < day <= end for _, start, end in rows["assets"] for day, in rows["sessions"][8:])
    assert (whole.count(b"\n") > 1) == lives
    assert all(run_text(reading(), first, last, data, pieces=pieces, cut=True) == whole for pieces in (1, 4))


def in_its_form(rows: dict[str, list[tuple]]) -> dict[str, list[tuple]]:
    """The rows in the order and with the decimals in which the program writes them."""

    def cell(value) -> str:
        return "" if value == "" else f"{value:.6f}"

    return {
        **rows,
        "assets": sorted(rows["assets"]),
        "labels": [(*row, label and 'a, "' + label) for *row, label in rows["labels"]],
        "numbers": [(*row, cell(value)) for *row, value in sorted(rows["numbers"], key=lambda row: row[:3])],
        "bars": [(sid, day, *map(cell, cells)) for sid, day, *cells in sorted(rows["bars"])],
        "revisions": [
            (sid, day, column, cell(value), known)
            for sid, day, column, value, known in sorted(rows["revisions"], key=lambda row: (row[0], row[4]))
        ],
    }


def table_text(rows: list[tuple], sids: set[int]) -> str:
    """The rows of these assets, by asset and day, with ids from 1, from midnight on."""
    ordered = sorted((row for row in rows if row[4] in sids), key=lambda row: (row[4], row[1] // SECONDS, row[0]))
    lines = [
        ",".join(map(str, (at, seconds // SECONDS * SECONDS, *rest)))
        for at, (_, seconds, *rest) in enumerate(ordered, 1)
    ]
    return "\n".join(["id,effective_date,num,den,sid", *lines, ""])


@pytest.mark.parametrize("seed", range(12))
def test_the_command_cut_writes_the_same_bytes(seed, tmp_path):
    rows, script = in_its_form(drawn(random.Random(seed))), as_script(reading())
    data, (first, last) = written(rows, tmp_path / "whole", "\n"), (rows["sessions"][8][0], rows["sessions"][-1][0])
    (tmp_path / "pieces").mkdir()
    (piece,) = cuts.cut_files(script, data, [(first, last)], tmp_path / "pieces")
    sids = {int(line.split(",")[0]) for line in piece.files["assets"].read_text().splitlines()[1:]}
    wanted = {part: path.read_text() for part, path in piece.files.items() if part != "adjustments"}
    wanted.update({table: table_text(read(piece)[table], sids) for table in TABLES})
    got = {
        part: ask_program("cut", script, *data.names, first, last, f"--part={part}", *data.options, data=data)
        for part in wanted
    }
    assert got == wanted
