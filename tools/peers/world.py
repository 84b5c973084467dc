#!/usr/bin/env python3
"""Writes a made-up world: the files of a run, and its adjustments once more as CSV, for peers without SQLite.

Usage: world.py FOLDER SESSIONS ASSETS ADJUSTMENTS [holes]

Closes go up or down by 2 percent at most a session, opens, highs and lows lie about them, all to the cent. With `holes`
there are lifetimes, missing bars and fields, bars of assets in any order, and sectors that change. The same words write
the same files.
"""
import datetime
import os
import sqlite3
import sys
from random import Random

KINDS = ("splits", "mergers", "dividends")
HEADER = "sid,session,open,high,low,close,volume\n"


def weekdays(count):
    """So many days from 2015 on."""
    days, day = [], datetime.date(2015, 1, 1)
    while len(days) < count:
        if day.weekday() < 5:
            days.append(day)
        day += datetime.timedelta(1)
    return days


def bars_of(sid, days, draw, holes):
    """The records of an asset."""
    close = 2000 + 8000 * draw.random()  # in cents
    for day in days:
        rest = draw.random()
        close = max(close * (0.98 + 0.04 * rest), 100)
        opened = close * (0.99 + 0.02 * draw.random())
        high, low = max(opened, close) * (1 + 0.01 * rest), min(opened, close) * (0.99 + 0.01 * rest)
        cells = [f"{int(each) // 100}.{int(each) % 100:02}" for each in (opened, high, low, close)]
        cells.append(str(1000 + int(draw.random() * 100_000)))
        if holes and rest < 0.03:
            continue
        if holes and rest > 0.97:
            cells[int(draw.random() * 5)] = ""
        yield f"{sid},{day},{','.join(cells)}\n"


def adjustments(draw, days, sids, count):
    """Rows of sid, effective date, kind, num and den: of each asset in the order in which they count."""
    rows = []
    for _ in range(count):
        kind, day = int(draw.random() * 3), days[1 + int(draw.random() * (len(days) - 1))]
        ratio = [(1, 2), (2, 1), (1, 3)][int(draw.random() * 3)] if kind == 0 else (990 + int(draw.random() * 10), 1000)
        rows.append((sids[int(draw.random() * len(sids))], (day - datetime.date(1970, 1, 1)).days * 86400, kind, *ratio))
    return sorted(rows, key=lambda row: row[:3])


def write(folder, sessions, assets, count, holes):
    """Write the files into a new folder."""
    os.makedirs(folder)
    draw, days, sids = Random(7), weekdays(sessions), list(range(1, assets + 1))

    def put(name, header, lines):
        with open(os.path.join(folder, name), "w", newline="") as file:
            file.write(header)
            file.writelines(lines)

    lives = {sid: (days[0], days[-1]) for sid in sids}
    sectors = {sid: [(days[0], f"S{int(draw.random() * 10)}")] for sid in sids}
    for sid in sids[::3] if holes else ():
        lives[sid] = tuple(sorted(draw.sample(days, 2)))
        sectors[sid].append((draw.choice(days[1:]), draw.choice(["", "S1", "S9"])))
    put("sessions.csv", "", (f"{day}\n" for day in days))
    put("assets.csv", "sid,start,end\n", (f"{sid},{first},{last}\n" for sid, (first, last) in lives.items()))
    put("labels.csv", "name,sid,start,label\n", (f"sector,{sid},{day},{label}\n" for sid in sids for day, label in sectors[sid]))
    order = draw.sample(sids, len(sids)) if holes else sids
    put("bars.csv", HEADER, (line for sid in order for line in bars_of(sid, map(str, days), draw, holes)))
    rows = adjustments(draw, days, sids, count)
    put("adjustments.csv", "sid,effective_date,kind,num,den\n", (",".join(map(str, row)) + "\n" for row in rows))
    store = sqlite3.connect(os.path.join(folder, "adjustments.db"))
    for at, kind in enumerate(KINDS):
        store.execute(f"CREATE TABLE {kind} (id INTEGER PRIMARY KEY, effective_date INTEGER NOT NULL, num INTEGER NOT NULL, den INTEGER NOT NULL, sid INTEGER NOT NULL) STRICT")
        own = [(date, num, den, sid) for sid, date, which, num, den in rows if which == at]
        store.executemany(f"INSERT INTO {kind} (effective_date, num, den, sid) VALUES (?, ?, ?, ?)", own)
    store.commit()
    store.close()


if __name__ == "__main__":
    write(sys.argv[1], *map(int, sys.argv[2:5]), sys.argv[5:] == ["holes"])
