"""The command `windows` by its definition, cell by cell: the oracle of tests.

Run as a program it stands in for one without the command: it answers `windows` itself, and hands all else on to the
program that TOHMERIL_BEHIND names.
"""

import csv
import os
import sqlite3
import sys
from bisect import bisect_right
from contextlib import closing
from datetime import date, timedelta
from decimal import ROUND_HALF_UP, Decimal

MISSING, LIMIT = None, 10**17
COLUMNS = ("open", "high", "low", "close", "volume")


def rows_of(path):
    with open(path, newline="", encoding="utf-8-sig") as file:
        return [row for row in csv.reader(file) if row]


def cell(text):
    return int((Decimal(text) * 10**6).quantize(Decimal(1), ROUND_HALF_UP)) if text else MISSING


def nearest(num, den):
    """num / den as a whole number, ties away from zero."""
    sign = -1 if num < 0 else 1
    return sign * ((2 * abs(num) + den) // (2 * den))


class World:
    def __init__(self, sessions, assets, bars, adjustments=None, revisions=None):
        self.days = [row[0] for row in rows_of(sessions)]
        self.lives = {int(sid): (start, end) for sid, start, end in rows_of(assets)[1:]}
        self.bars = {(int(row[0]), row[1]): dict(zip(COLUMNS, map(cell, row[2:]))) for row in rows_of(bars)[1:]}
        self.events = {sid: [] for sid in self.lives}
        if adjustments:
            with closing(sqlite3.connect(f"file:{adjustments}?mode=ro", uri=True)) as store:
                for place, table in enumerate(("splits", "mergers", "dividends")):
                    for seconds, num, den, sid in store.execute(
                        f"SELECT effective_date, num, den, sid FROM {table} ORDER BY id"
                    ):
                        day = str(date(1970, 1, 1) + timedelta(seconds // 86_400))
                        self.events.get(sid, []).append((day, place, (table, num, den)))
        for sid, session, column, value, known in rows_of(revisions)[1:] if revisions else ():
            self.events[int(sid)].append((known, 3, ("revision", session, column, cell(value))))
        for events in self.events.values():
            events.sort(key=lambda event: event[:2])  # stable: in the order of the table or the file

    def exists(self, sid, day):
        start, end = self.lives[sid]
        return start < day <= end

    def seen(self, sid, column, session, day):
        """The cell of a bar as a session sees it."""
        value = self.bars.get((sid, session), {}).get(column, MISSING)
        for effective, _, event in self.events[sid]:
            if not session < effective <= day:
                continue
            if event[0] == "revision":
                value = event[3] if event[1:3] == (session, column) else value
            elif value is not MISSING:
                num, den = event[1:] if column != "volume" else event[:0:-1] if event[0] == "splits" else (1, 1)
                value = nearest(value * num, den)
                value = value if abs(value) <= LIMIT else MISSING
        return value

    def window(self, sid, column, length, at):
        return [self.seen(sid, column, session, self.days[at]) for session in self.days[at - length : at]]

    def lines(self, column, first, last, length):
        yield "session,sid,count,cells"
        for at in range(self.days.index(first), self.days.index(last) + 1):
            before, day = self.days[at - 1] if at else "", self.days[at]
            for sid in sorted(self.lives):
                if self.exists(sid, day):
                    whole = day == first or not self.exists(sid, before)
                    whole |= any(before < effective <= day for effective, _, _ in self.events[sid])
                    cells = self.window(sid, column, length, at)[0 if whole else -1 :]
                    yield f"{day},{sid},{len(cells)},{';'.join(map(shown, cells))}"


def shown(value):
    return "" if value is MISSING else f"{'-' * (value < 0)}{abs(value) // 10**6}.{abs(value) % 10**6:06}"


def main(words):
    options = dict(word[2:].split("=", 1) for word in words if word.startswith("--"))
    sessions, assets, bars, column, first, last, length = [word for word in words if not word.startswith("--")]
    world = World(sessions, assets, bars, **options)
    begin = bisect_right(world.days, first) - 1 - int(length)
    if begin < 0:
        print(f"range: TooEarly {begin}", file=sys.stderr)
        return 5
    print("\n".join(world.lines(column, first, last, int(length))))
    return 0


if __name__ == "__main__":
    if sys.argv[1:2] == ["windows"]:
        sys.exit(main(sys.argv[2:]))
    os.execv(os.environ["TOHMERIL_BEHIND"], ["tohmeril", *sys.argv[1:]])
