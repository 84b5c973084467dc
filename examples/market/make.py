#!/usr/bin/env python3
"""Writes the files of a small made-up market: 20 assets over a year and a half of sessions.

Usage: make.py FOLDER. The same files come out each time. Prices are in whole cents, as they were quoted on
their day, so that a split or a dividend shows in them as a fall.
"""
import datetime
import random
import sys
from pathlib import Path

FIRST_DAY = datetime.date(2022, 7, 1)
LAST_DAY = datetime.date(2023, 12, 29)
HOLIDAYS = {"2022-07-04", "2022-09-05", "2022-11-24", "2022-12-26", "2023-01-02", "2023-01-16", "2023-02-20",
            "2023-04-07", "2023-05-29", "2023-06-19", "2023-07-04", "2023-09-04", "2023-11-23", "2023-12-25"}
SECTORS = ["Energy", "Financials", "Health Care", "Technology"]
# sid: the first session, the last session, by number, where these are not those of the calendar
LATE = {113: 120, 118: 40}
EARLY = {104: 300, 109: 210}
SPLITS = [(103, 150, 1, 2), (111, 260, 1, 3), (116, 200, 10, 1)]       # sid, session, num, den
MERGERS = [(107, 220, 9, 10)]
DIVIDENDS = [(101, 60), (101, 123), (101, 186), (101, 249), (106, 90), (106, 216), (114, 140), (114, 266)]
SECTOR_CHANGES = [(105, 180, "Technology"), (112, 240, "")]
QUARTERS = ["2022-03-31", "2022-06-30", "2022-09-30", "2022-12-31", "2023-03-31", "2023-06-30", "2023-09-30"]
SILENT = 120             # an asset that publishes nothing
ENDED = (112, 5)         # sid and quarter, by number, from which on an asset has no earnings


def sessions():
    day = FIRST_DAY
    while day <= LAST_DAY:
        if day.weekday() < 5 and day.isoformat() not in HOLIDAYS:
            yield day
        day += datetime.timedelta(days=1)


def seconds(day):
    return (day - datetime.date(1970, 1, 1)).days * 86400


def cents(amount):
    return f"{amount // 100}.{amount % 100:02d}"


def signed_cents(amount):
    return f"{'-' * (amount < 0)}{cents(abs(amount))}"


def main(folder):
    rng = random.Random(20220701)
    days = list(sessions())
    sids = list(range(101, 121))
    ratios = {(sid, session): (num, den) for sid, session, num, den in SPLITS + MERGERS}
    bars, closes = [], {}
    for sid in sids:
        price = 1500 + 400 * rng.randrange(30)
        volume = 20_000 * (1 + rng.randrange(60))
        drift = rng.randrange(-3, 8)
        for number, day in enumerate(days):
            if number < LATE.get(sid, 0) or number > EARLY.get(sid, len(days)):
                continue
            num, den = ratios.get((sid, number), (1, 1))
            price = max(100, price * num // den)
            volume = volume * den // num if (sid, number) in ratios and (num, den) != (9, 10) else volume
            step = rng.gauss(drift / 10_000, 0.016)
            if (sid, number) in DIVIDENDS:
                price -= price // 80
            opening = max(100, round(price * (1 + rng.gauss(0, 0.004))))
            price = max(100, round(price * (1 + step)))
            high = max(opening, price) + rng.randrange(1 + price // 100)
            low = max(1, min(opening, price) - rng.randrange(1 + price // 100))
            traded = max(100, round(volume * rng.lognormvariate(0, 0.4)))
            if rng.random() < 0.004:
                continue  # a session without a bar
            bars.append((sid, day, opening, high, low, price, traded))
            closes[sid, number] = price
    write_files(Path(folder), days, sids, bars, closes)


def write_files(folder, days, sids, bars, closes):
    (folder / "sessions.csv").write_text("".join(f"{day}\n" for day in days))
    with open(folder / "assets.csv", "w") as file:
        file.write("sid,start,end\n")
        for sid in sids:
            first = days[LATE.get(sid, 0)] - datetime.timedelta(days=1)
            last = days[EARLY.get(sid, len(days) - 1)]
            file.write(f"{sid},{first},{last}\n")
    with open(folder / "labels.csv", "w") as file:
        file.write("name,sid,start,label\n")
        for place, sid in enumerate(sids):
            file.write(f"sector,{sid},{days[0]},{SECTORS[place % 4]}\n")
        for sid, number, label in SECTOR_CHANGES:
            file.write(f"sector,{sid},{days[number]},{label}\n")
    with open(folder / "bars.csv", "w") as file:
        file.write("sid,session,open,high,low,close,volume\n")
        for sid, day, opening, high, low, close, volume in bars:
            file.write(f"{sid},{day},{cents(opening)},{cents(high)},{cents(low)},{cents(close)},{volume}\n")
    with open(folder / "payouts.csv", "w") as file:
        file.write("sid,ex,amount\n")
        for sid, number in DIVIDENDS:
            before = max(n for (s, n) in closes if s == sid and n < number)
            file.write(f"{sid},{days[number]},{cents(max(1, closes[sid, before] // 80))}\n")
    write_adjustments(folder, days, closes)
    write_numbers(folder, days, sids, closes)


def earnings(days, sids, closes):
    """Yields sid, day and cents, or None: the earnings per share of a year, published 25 to 55 days after
    each quarter, in the shares of that day. On the day of a split a row has them in the new shares."""
    rng = random.Random(20220331)
    for sid in sids:
        level, rows = rng.gauss(0.05, 0.03), []
        for number, text in enumerate(QUARTERS):
            level += rng.gauss(0, 0.01)
            end = datetime.date.fromisoformat(text)
            known = end + datetime.timedelta(days=rng.randrange(25, 56))
            if is_published(sid, number, end, known, days):
                amount = level * close_on(sid, end, days, closes) * shares(sid, end, known, days)
                rows.append((known, None if (sid, number) == ENDED else round(amount)))
        for _, number, _, _ in (split for split in SPLITS if split[0] == sid):
            before, amount = max(row for row in rows if row[0] < days[number])
            rows.append((days[number], round(amount * shares(sid, before, days[number], days))))
        yield from ((sid, known, amount) for known, amount in sorted(rows))


def is_published(sid, number, end, known, days):
    first, last = days[LATE.get(sid, 0)], days[EARLY.get(sid, len(days) - 1)]
    ended = sid == ENDED[0] and number > ENDED[1]
    return sid != SILENT and not ended and known <= last and end >= first - datetime.timedelta(days=95)


def close_on(sid, day, days, closes):
    """The last close of an asset by a day, or its first one."""
    numbers = sorted(number for s, number in closes if s == sid)
    return closes[sid, max((n for n in numbers if days[n] <= day), default=numbers[0])]


def shares(sid, after, upto, days):
    """What the splits after one day, up to another, make of a figure per share."""
    ratio = 1.0
    for asset, number, num, den in SPLITS:
        if asset == sid and after < days[number] <= upto:
            ratio = ratio * num / den
    return ratio


def write_numbers(folder, days, sids, closes):
    with open(folder / "numbers.csv", "w") as file:
        file.write("name,sid,known,value\n")
        for sid, known, amount in earnings(days, sids, closes):
            file.write(f"earnings,{sid},{known},{'' if amount is None else signed_cents(amount)}\n")


def write_adjustments(folder, days, closes):
    with open(folder / "adjustments.sql", "w") as file:
        for table in ("splits", "mergers", "dividends"):
            file.write(f"DROP TABLE IF EXISTS {table};\nCREATE TABLE {table} (id INTEGER PRIMARY KEY, effective_date INTEGER NOT NULL,\n"
                       "  num INTEGER NOT NULL, den INTEGER NOT NULL, sid INTEGER NOT NULL) STRICT;\n")
        rows = [("splits", SPLITS), ("mergers", MERGERS)]
        for table, listed in rows:
            for identity, (sid, number, num, den) in enumerate(listed, 1):
                file.write(f"INSERT INTO {table} VALUES ({identity}, {seconds(days[number])}, {num}, {den}, {sid});\n")
        for identity, (sid, number) in enumerate(DIVIDENDS, 1):
            before = max(n for (s, n) in closes if s == sid and n < number)
            close = closes[sid, before]
            paid = max(1, close // 80)
            file.write(f"INSERT INTO dividends VALUES ({identity}, {seconds(days[number])}, {close - paid}, {close}, {sid});\n")


if __name__ == "__main__":
    main(sys.argv[1])
