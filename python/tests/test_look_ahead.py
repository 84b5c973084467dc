"""No look-ahead: whatever the files and tables hold later than a session, the bytes of a table up to it are the same.

`LOOK_AHEAD_CASES` says how many markets are drawn, 300 where it is not set.
"""

import os
import random
import sqlite3
from datetime import date, timedelta
from pathlib import Path
from typing import Dict, List, Tuple

import pytest

from tohmeril import program
from tohmeril.faults import DataFault

CASES = int(os.environ.get("LOOK_AHEAD_CASES", "300"))
GROUPS = 20  # a test each, so that a failure names few cases
EPOCH = date(1970, 1, 1)
FIRST = date(2024, 1, 2)
FAR = date(2199, 12, 31)
SIDS = [3, 7, 11, 20, 41, 57]
PRICES = ["open", "high", "low", "close", "volume"]
TABLES = ["splits", "mergers", "dividends"]
HEADERS = {
    "assets": "sid,start,end",
    "labels": "name,sid,start,label",
    "numbers": "name,sid,known,value",
    "bars": "sid,session,open,high,low,close,volume",
    "revisions": "sid,session,column,value,known",
}
TERMS = [
    "close.latest",
    "volume.latest",
    "SimpleMovingAverage(close, 5)",
    "VWAP(4)",
    "WindowStd(close, 3)",
    "Returns(close, 3)",
    'Returns(close, 3).rank(order="descending", groupby=label("sector"))',
    "AverageDollarVolume(4).top(2)",
    "close.latest.quantiles(3)",
    'label("sector")',
    'label("sector").peer_count()',
    'label("sector") == "tech"',
    'number("earnings") / close.latest',
    'SimpleMovingAverage(number("earnings"), 4)',
    'close.latest.downsample("week_start")',
    "Returns(close, 2).zscore()",
    "All(close.latest > 50, 3)",
    'number("score").demean(groupby=label("country"))',
    "AllPresent(close, 3)",
    "close.latest.log().zscore()",
    "WindowSum(Returns(close, 3).sign(), 3)",
]

Row = Tuple[object, ...]
Market = Dict[str, List[Row]]


def seconds(day: date, second: int) -> int:
    return (day - EPOCH).days * 86400 + second


class Drawer:
    """Draws a market, and another one that is the same up to a day."""

    def __init__(self, seed: int):
        self.draw = random.Random(seed)
        self.days = [
            FIRST + timedelta(k) for k in range(36) if (FIRST + timedelta(k)).weekday() < 5 and self.draw.random() < 0.9
        ]
        self.index = self.draw.randrange(10, len(self.days) - 4)
        self.day = self.days[self.index]

    def a_day(self, after: date = FIRST - timedelta(9)) -> date:
        return after + timedelta(self.draw.randint(1, 30))

    def decimal(self) -> str:
        return "" if self.draw.random() < 0.06 else str(round(self.draw.uniform(1, 99), self.draw.choice([0, 2, 6])))

    def asset(self, sid: int, start: date) -> Row:
        return sid, start, self.draw.choice([FAR, FAR, start + timedelta(self.draw.randint(0, 40))])

    def unlike(self, rows: List[Row], key) -> List[Row]:
        """The rows, the first of each key."""
        return list({key(row): row for row in reversed(rows)}.values())[::-1]

    def rows(self, days: List[date], sids: List[int], after: date) -> Market:
        """Random rows of these sids, all of them later than the day `after`; the bars are of these sessions."""
        draw, a_day = self.draw, self.a_day
        many = range(3 * len(sids))
        market: Market = {
            "labels": [
                (
                    draw.choice(["sector", "country"]),
                    draw.choice(sids),
                    a_day(after),
                    draw.choice(["tech", "food", "", "US", "a, b"]),
                )
                for _ in many
            ],
            "numbers": [
                (draw.choice(["earnings", "score"]), draw.choice(sids), a_day(after), self.decimal()) for _ in many
            ],
            "bars": [
                (sid, day, *(self.decimal() for _ in PRICES)) for sid in sids for day in days if draw.random() < 0.93
            ],
        }
        for table in TABLES:
            acts = [(draw.choice(sids), a_day(after)) for _ in range(draw.randint(0, 4))]
            market[table] = [
                (*act, draw.randint(1, 9), draw.randint(1, 9)) for act in acts for _ in range(draw.choice([1, 1, 3]))
            ]
        return market

    def revisions(self, days: List[date], sids: List[int], after: date, many: int) -> List[Row]:
        """Random revisions of bars of these sessions, all of them known later than the day `after`."""
        drawn = []
        for _ in range(many):
            bar = self.draw.choice(days)
            drawn.append(
                (self.draw.choice(sids), bar, self.draw.choice(PRICES), self.decimal(), self.a_day(max(bar, after)))
            )
        return drawn

    def once(self, market: Market) -> Market:
        """The market without the rows that a reader would refuse as duplicates."""
        keys = {
            "labels": lambda r: r[:3],
            "numbers": lambda r: r[:3],
            "bars": lambda r: r[:2],
            "revisions": lambda r: (r[:3], r[4]),
        }
        return {name: self.unlike(rows, keys[name]) if name in keys else rows for name, rows in market.items()}

    def market(self) -> Market:
        early = FIRST - timedelta(9)
        sids = self.draw.sample(SIDS, self.draw.randint(2, 5))
        market = self.rows(self.days, sids, early)
        market["sessions"] = [(day,) for day in self.days]
        market["assets"] = [self.asset(sid, self.draw.choice([early, early, self.a_day()])) for sid in sids]
        market["revisions"] = self.revisions(self.days, sids, early, 12)
        return self.once(market)

    def known(self, market: Market) -> Market:
        """What is known on the session: of the assets those that have started, and those that some row names."""
        day = self.day
        known = {
            "sessions": [r for r in market["sessions"] if r[0] <= day],
            "labels": [r for r in market["labels"] if r[2] <= day],
            "numbers": [r for r in market["numbers"] if r[2] <= day],
            "bars": [r for r in market["bars"] if r[1] < day],
            "revisions": [r for r in market["revisions"] if r[4] <= day],
            **{t: [r for r in market[t] if r[1] <= day] for t in TABLES},
        }
        named = {
            r[k]
            for name, k in {"labels": 1, "numbers": 1, "bars": 0, "revisions": 0, **{t: 0 for t in TABLES}}.items()
            for r in known[name]
        }
        known["assets"] = [r for r in market["assets"] if r[1] < day or r[0] in named]
        return known

    def other(self, market: Market) -> Market:
        """The same up to the day, with other data later, and all in another order."""
        draw, day = self.draw, self.day
        known = self.known(market)
        later = [day + timedelta(k) for k in range(1, 30) if draw.random() < 0.5]
        # an asset that has not started by then may start on any later day, one that has not ended may end on any
        lives = [
            (
                sid,
                start if start < day else self.a_day(day - timedelta(1)),
                end if end < day else FAR if draw.random() < 0.5 else day + timedelta(draw.randint(0, 30)),
            )
            for sid, start, end in known["assets"]
        ]
        lives = [(sid, start, max(start, end)) for sid, start, end in lives]
        taken = [sid for sid, *_ in lives]
        lives += [
            self.asset(sid, self.a_day(day - timedelta(1)))
            for sid in SIDS + [1, 99]
            if sid not in taken and draw.random() < 0.5
        ]
        sids = [sid for sid, *_ in lives]
        days = [r[0] for r in known["sessions"]] + later
        added = self.rows([day] + later, sids, day)
        added.update(sessions=[(d,) for d in later], assets=[], revisions=self.revisions(days, sids, day, 8))
        known["assets"] = lives
        return self.shuffled(self.once({name: rows + added[name] for name, rows in known.items()}))

    def shuffled(self, market: Market) -> Market:
        """Records in any order, but for the sessions; of one asset and day the rows of a table keep theirs."""
        moved = {
            name: rows if name == "sessions" else self.draw.sample(rows, len(rows)) for name, rows in market.items()
        }
        for table in TABLES:
            left = list(market[table])
            for k, row in enumerate(moved[table]):
                moved[table][k] = left.pop(next(i for i, r in enumerate(left) if r[:2] == row[:2]))
        return moved


def write(folder: Path, market: Market, draw: random.Random) -> Path:
    folder.mkdir(parents=True)
    quoted = {"a, b": '"a, b"'}
    for name, rows in market.items():
        if name not in TABLES:
            lines = ([HEADERS[name]] if name in HEADERS else []) + [
                ",".join(quoted.get(str(x), str(x)) for x in row) for row in rows
            ]
            (folder / f"{name}.csv").write_text("".join(line + draw.choice(["\n", "\r\n"]) for line in lines))
    store = sqlite3.connect(folder / "adjustments.db", isolation_level=None)
    store.execute("PRAGMA synchronous = off")
    store.execute("BEGIN")
    for table in TABLES:
        store.execute(
            f"CREATE TABLE {table} (id INTEGER PRIMARY KEY, effective_date INTEGER NOT NULL, "
            "num INTEGER NOT NULL, den INTEGER NOT NULL, sid INTEGER NOT NULL) STRICT"
        )
        store.executemany(
            f"INSERT INTO {table} VALUES (?, ?, ?, ?, ?)",
            [
                (3 * k, seconds(day, draw.randrange(86400)), num, den, sid)
                for k, (sid, day, num, den) in enumerate(market[table])
            ],
        )
    store.execute("COMMIT")
    store.close()
    return folder


def pipeline(draw: random.Random) -> str:
    columns = [f"column c{k} = {term};" for k, term in enumerate(draw.sample(TERMS, draw.randint(2, 5)))]
    screens = [
        "",
        "",
        "",
        'screen label("sector").notnull();',
        "screen close.latest > 20;",
        "screen AverageDollarVolume(3).top(3);",
    ]
    return "\n".join(["pipeline 4;", *columns, draw.choice(screens), ""])


def words(folder: Path) -> List[str]:
    options = {
        "labels": "labels.csv",
        "numbers": "numbers.csv",
        "adjustments": "adjustments.db",
        "revisions": "revisions.csv",
    }
    return [str(folder / f"{name}.csv") for name in ("sessions", "assets", "bars")] + [
        word for name, file in options.items() for word in (f"--{name}", str(folder / file))
    ]


def compare(seed: int, folder: Path) -> bytes:
    drawer = Drawer(seed)
    draw, market = drawer.draw, drawer.market()
    one, other = write(folder / "one", market, draw), write(folder / "other", drawer.other(market), draw)
    script = folder / "p.pl"
    script.write_text(pipeline(draw))
    to = draw.randrange(9, drawer.index + 1)
    first, last = drawer.days[draw.randrange(9, to + 1)], drawer.days[to]
    form = ["--format", draw.choice(["csv", "fixed", "cells"])]

    def table(name: str, data: Path) -> bytes:
        """The table by a command, in chunks of any size, as of a session from the end of the range to the day."""
        chunk = ["--chunk", str(draw.randint(1, 9))] if name == "run" else []
        as_of = (
            ["--asof", str(draw.choice(drawer.days[to : drawer.index + 1]))]
            if name == "run" and draw.random() < 0.5
            else []
        )
        return program.call(name, str(script), *words(data), str(first), str(last), *form, *chunk, *as_of)

    text = table("run", one)
    assert table("run", other) == text, f"run, case {seed}"
    assert table("daily", other) == text, f"daily, case {seed}"
    if form[1] == "cells":
        text = program.call("run", str(script), *words(one), str(first), str(last))
    rows = [line.replace(b",", b" ").split() for line in text.splitlines()[1:]]
    if (
        rows and "label" not in script.read_text()
    ):  # a derivation has labels by their codes, which go by the order of the labels file
        session, sid = draw.choice(rows)[:2]
        one_lines, other_lines = (
            program.call("explain", str(script), *words(data), sid.decode(), session.decode(), "c1")
            for data in (one, other)
        )
        assert one_lines == other_lines, f"explain, case {seed}"
    return text


@pytest.mark.parametrize("group", range(GROUPS))
def test_later_data_change_no_byte(group, tmp_path):
    texts = [compare(seed, tmp_path / str(seed)) for seed in range(group, CASES, GROUPS)]
    assert len(texts) < 9 or sum(text.count(b"\n") for text in texts) > 3 * len(texts)  # most have rows


AFTER = FIRST + timedelta(50)


@pytest.mark.parametrize(
    "name, row",
    [
        ("assets", (3, AFTER, FIRST)),
        ("labels", ("sector", 999, AFTER, "tech")),
        ("numbers", ("earnings", 999, AFTER, "1")),
        ("bars", (999, FIRST, "1", "1", "1", "1", "1")),
        ("revisions", (999, FIRST, "close", "1", AFTER)),
        ("splits", (3, AFTER, 0, 1)),
    ],
)
def test_a_fault_of_later_data_is_seen(name, row, tmp_path):
    drawer = Drawer(1)
    market = drawer.market()
    market[name] = market[name] + [row]
    folder = write(tmp_path / "data", market, drawer.draw)
    with program.file("pipeline 1;\ncolumn a = close.latest;\n") as script, pytest.raises(DataFault):
        program.call("run", script, *words(folder), *[str(drawer.days[9])] * 2)
