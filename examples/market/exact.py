#!/usr/bin/env python3
"""Computes momentum.csv, value.csv and size.csv once more with fractions, by the rules of docs/TERMS.md, and
compares them to the byte.

Usage: exact.py FOLDER, a folder with the files of this one. It uses nothing but Python itself and nothing of
the program. Each step is exact and rounded once, to the nearest millionth, ties away from zero; a standard
deviation is rounded down.
"""
import csv
import datetime
import math
import sqlite3
import sys
from decimal import Context, Decimal
from fractions import Fraction
from pathlib import Path

RANGES = {"momentum": ("2023-12-18", "2023-12-29"), "value": ("2023-10-26", "2023-11-07"),
          "size": ("2023-06-12", "2023-06-16")}
HEADERS = {"momentum": "session,sid,sector,momentum,place,score",
           "value": "session,sid,sector,earnings,yield,place,score",
           "size": "session,sid,sector,size,score,place"}
MILLION = 1_000_000


def rounded(value):
    """The nearest whole number, ties away from zero."""
    number = math.floor(abs(value) + Fraction(1, 2))
    return number if value >= 0 else -number


def millionths(value):
    return Fraction(rounded(value * MILLION), MILLION)


def rows(path):
    with open(path, newline="") as file:
        return list(csv.DictReader(file))


class Market:
    def __init__(self, folder):
        self.days = (folder / "sessions.csv").read_text().split()
        self.assets = {int(row["sid"]): (row["start"], row["end"]) for row in rows(folder / "assets.csv")}
        self.bars = {(int(row["sid"]), row["session"]): row for row in rows(folder / "bars.csv")}
        self.labels = sorted((row["start"], int(row["sid"]), row["label"]) for row in rows(folder / "labels.csv"))
        self.numbers = sorted((row["known"], int(row["sid"]), row["value"]) for row in rows(folder / "numbers.csv")
                              if row["name"] == "earnings")
        store = sqlite3.connect(":memory:")
        store.executescript((folder / "adjustments.sql").read_text())
        self.events = sorted((datetime.date.fromordinal(719163 + seconds // 86400).isoformat(), at, number, sid, table, Fraction(num, den))
                             for at, table in enumerate(("splits", "mergers", "dividends"))
                             for number, seconds, num, den, sid in store.execute(f"SELECT id, effective_date, num, den, sid FROM {table}"))

    def seen(self, sid, name, session, day):
        """The bar of a session as a later day sees it, None where there is none."""
        text = self.bars.get((sid, session), {}).get(name)
        if not text:
            return None
        value = millionths(Fraction(text))
        for effective, _, _, asset, table, ratio in self.events:
            if asset == sid and session < effective <= day:
                if name != "volume":
                    value = millionths(value * ratio)
                elif table == "splits":
                    value = millionths(value / ratio)
        return value

    def window(self, sid, name, size, day):
        at = self.days.index(day)
        return [self.seen(sid, name, session, day) for session in self.days[at - size:at]]

    def label(self, sid, day):
        held = [label for start, asset, label in self.labels if asset == sid and start <= day]
        return held[-1] if held else ""

    def earnings(self, sid, day):
        """What was known last by a day, None where nothing was or its field is empty."""
        known = [value for start, asset, value in self.numbers if asset == sid and start <= day]
        return millionths(Fraction(known[-1])) if known and known[-1] else None

    def existing(self, day):
        return sorted(sid for sid, (start, end) in self.assets.items() if start < day <= end)

    def liquid(self, day):
        """The 15 assets of the greatest dollar volume over 30 sessions."""
        money = {sid: self.money(sid, 30, day) for sid in self.existing(day)}
        return sorted(sorted(money, key=lambda sid: (-money[sid], sid))[:15])

    def money(self, sid, size, day):
        """The mean of close times volume over so many sessions."""
        pairs = zip(self.window(sid, "close", size, day), self.window(sid, "volume", size, day))
        return millionths(sum(close * volume for close, volume in pairs if None not in (close, volume)) / Fraction(size))


def returns(window):
    oldest, newest = window[0], window[-1]
    return None if oldest is None or newest is None or oldest == 0 else millionths((newest - oldest) / oldest)


def spread(values):
    """The root of the mean square of what lies between the values and their mean, rounded down twice."""
    mean = millionths(sum(values) / len(values))
    squares = sum(((value - mean) * MILLION) ** 2 for value in values)
    return Fraction(math.isqrt(math.floor(squares / len(values))), MILLION)


def text(value):
    if value is None:
        return ""
    whole = rounded(value * MILLION)
    return f"{'-' * (whole < 0)}{abs(whole) // MILLION}.{abs(whole) % MILLION:06}"


def places(market, day, values, liquid):
    """The sector of each liquid asset, its place in it by descending value, and the z-score among all."""
    listed = [sid for sid in liquid if values[sid] is not None]
    sector = {sid: market.label(sid, day) for sid in liquid}
    mean = millionths(sum(values[sid] for sid in listed) / len(listed))
    deviation = spread([values[sid] for sid in listed])
    for sid in liquid:
        place = score = None
        if sid in listed:
            peers = [other for other in listed if sector[other] == sector[sid] != ""]
            place = sum((-values[other], other) <= (-values[sid], sid) for other in peers) or None
            score = millionths((values[sid] - mean) / deviation) if deviation else None
        yield sid, sector[sid], place, score


def momentum(market, day):
    liquid, values = market.liquid(day), {}
    for sid in liquid:
        year, month = returns(market.window(sid, "close", 252, day)), returns(market.window(sid, "close", 22, day))
        values[sid] = None if None in (year, month) or month == -1 else millionths((1 + year) / (1 + month)) - 1
    for sid, sector, place, score in places(market, day, values, liquid):
        yield ",".join([day, str(sid), sector, text(values[sid]), text(place), text(score)])


def value(market, day):
    liquid, values = market.liquid(day), {}
    for sid in liquid:
        earned, close = market.earnings(sid, day), market.window(sid, "close", 1, day)[0]
        values[sid] = None if earned is None or not close else millionths(earned / close)
    for sid, sector, place, score in places(market, day, values, liquid):
        numbers = (market.earnings(sid, day), values[sid], place, score)
        yield ",".join([day, str(sid), sector, *map(text, numbers)])


def logarithm(value):
    """The natural one of a number of millionths, of which 60 digits say how it is rounded."""
    exact = Context(60)
    return millionths(Fraction(exact.ln(exact.divide(Decimal(rounded(value * MILLION)), MILLION))))


def size(market, day):
    sids, scores = market.existing(day), {}
    money = {sid: market.money(sid, 60, day) for sid in sids}
    sizes = {sid: logarithm(money[sid]) for sid in sids if money[sid] > 0}
    listed, count = sorted(sizes.values()), len(sizes)
    low, high = listed[math.floor(Fraction(count, 10))], listed[math.ceil(Fraction(9 * count, 10)) - 1]
    drawn = {sid: min(max(value, low), high) for sid, value in sizes.items()}
    sector = {sid: market.label(sid, day) for sid in sids}
    for sid in drawn:
        peers = [drawn[other] for other in drawn if sector[other] == sector[sid] != ""]
        deviation = spread(peers) if peers else 0
        if deviation:
            scores[sid] = millionths((drawn[sid] - millionths(sum(peers) / len(peers))) / deviation)
    ranked = sorted(scores, key=lambda sid: (-scores[sid], sid))
    for sid in sids:
        place = ranked.index(sid) + 1 if sid in scores else None
        yield ",".join([day, str(sid), sector[sid], text(sizes.get(sid)), text(scores.get(sid)), text(place)])


def main(folder):
    market = Market(folder)
    for name, (first, last) in RANGES.items():
        lines = [HEADERS[name]]
        for day in market.days:
            if first <= day <= last:
                lines += globals()[name](market, day)
        stored = (folder / f"{name}.csv").read_text().splitlines()
        wrong = [(mine, theirs) for mine, theirs in zip(lines, stored) if mine != theirs]
        if wrong or len(lines) != len(stored):
            sys.exit(f"{name}: {len(lines)} lines beside {len(stored)}, {len(wrong)} differ: {wrong[:3]}")
        print(f"{name}: {len(lines) - 1} rows, the same to the byte")


if __name__ == "__main__":
    main(Path(sys.argv[1]))
