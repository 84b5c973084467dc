#!/usr/bin/env python3
"""Computes the tables of this folder once more with pandas, in floats, and compares them with those beside
it.

Usage: compare.py FOLDER. It needs pandas and nothing of the program. For each table it prints how many
numbers there are, how many differ in the sixth decimal, and the greatest difference; texts, truth values and
rows have to be the same.
"""
import sqlite3
import sys
from pathlib import Path

import numpy as np
import pandas as pd

RANGES = {"momentum": ("2023-12-18", "2023-12-29"), "crossings": ("2023-01-03", "2023-12-29"),
          "bands": ("2023-10-02", "2023-12-29"), "liquidity": ("2023-12-01", "2023-12-08"),
          "value": ("2023-10-26", "2023-11-07"), "size": ("2023-06-12", "2023-06-16"),
          "revised": ("2023-10-02", "2023-12-29")}
KINDS = ["splits", "mergers", "dividends", "revisions"]


class Market:
    def __init__(self, folder, revised=False):
        self.days = pd.to_datetime(pd.read_csv(folder / "sessions.csv", header=None)[0])
        self.assets = pd.read_csv(folder / "assets.csv", parse_dates=["start", "end"]).set_index("sid")
        bars = pd.read_csv(folder / "bars.csv", parse_dates=["session"])
        self.raw = {name: bars.pivot(index="session", columns="sid", values=name).reindex(self.days)
                    for name in ("open", "high", "low", "close", "volume")}
        self.labels = pd.read_csv(folder / "labels.csv", parse_dates=["start"], keep_default_na=False)
        self.numbers = pd.read_csv(folder / "numbers.csv", parse_dates=["known"])
        store = sqlite3.connect(":memory:")
        store.executescript((folder / "adjustments.sql").read_text())
        self.events = []
        for table in ("splits", "mergers", "dividends"):
            for seconds, num, den, sid in store.execute(f"SELECT effective_date, num, den, sid FROM {table}"):
                self.events.append((pd.Timestamp(seconds, unit="s"), table, num / den, sid, None, None))
        if revised:
            rows = pd.read_csv(folder / "revisions.csv", parse_dates=["session", "known"])
            self.events += [(r.known, "revisions", r.value, r.sid, r.column, r.session) for r in rows.itertuples()]
        self.events.sort(key=lambda event: (event[0], KINDS.index(event[1])))

    def seen(self, name, day, window):
        """The bars of the sessions before a day, as they are seen on it."""
        frame = self.raw[name][self.days.values < day].tail(window).copy()
        for effective, table, number, sid, column, session in self.events:
            if effective > day or sid not in frame:
                continue
            if table == "revisions":
                if column == name and session in frame.index:
                    frame.loc[session, sid] = number
            else:
                factor = number if name != "volume" else (1 / number if table == "splits" else 1.0)
                frame.loc[frame.index < effective, sid] *= factor
        return frame

    def existing(self, day):
        return self.assets.index[(self.assets.start < day) & (day <= self.assets.end)]

    def label(self, day):
        held = self.labels[self.labels.start <= day].sort_values("start").groupby("sid").label.last()
        return held.where(held != "")

    def number(self, name, day):
        rows = self.numbers[(self.numbers["name"] == name) & (self.numbers.known <= day)]
        return rows.sort_values("known").drop_duplicates("sid", keep="last").set_index("sid").value


def dollars(market, day, window):
    money = market.seen("close", day, window) * market.seen("volume", day, window)
    return money.sum() / window


def deviation(frame):
    return frame.std(ddof=0)


def momentum(market, day, before):
    sids = market.existing(day)
    close = market.seen("close", day, 252)
    year = close.iloc[-1] / close.iloc[0] - 1
    month = close.iloc[-1] / close.iloc[-22] - 1
    liquid = dollars(market, day, 30)[sids].rank(ascending=False, method="first") <= 15
    value = ((1 + year) / (1 + month) - 1)[sids]
    listed = value[liquid].dropna()
    sector = market.label(day).reindex(sids)
    place = listed.groupby(sector.reindex(listed.index)).rank(ascending=False, method="first")
    score = (listed - listed.mean()) / listed.std(ddof=0)
    return pd.DataFrame({"sector": sector, "momentum": value, "place": place, "score": score}, index=sids)[liquid]


def crossings(market, day, before):
    sids = market.existing(day)

    def above(at):
        close = market.seen("close", at, 40)
        on = market.existing(at)
        return (close.tail(10).mean() > close.mean()).where(close.columns.isin(on), False)

    close = market.seen("close", day, 40)
    now, then = above(day), above(before)
    kept = sids[((now ^ then) & close.notna().all())[sids]]
    return pd.DataFrame({"close": close.iloc[-1], "fast": close.tail(10).mean(), "slow": close.mean(), "upwards": now}).loc[kept]


def bands(market, day, before):
    sids = market.existing(day)
    close = market.seen("close", day, 20)
    lower, upper = close.mean() - 2 * deviation(close), close.mean() + 2 * deviation(close)
    last = close.iloc[-1]
    steps = market.seen("close", day, 15).diff().iloc[1:]
    rises, falls = steps.clip(lower=0).sum(), -steps.clip(upper=0).sum()
    table = pd.DataFrame({"lower": lower, "close": last, "upper": upper, "place": (last - lower) / (upper - lower),
                          "strength": 100 * rises / (rises + falls)})
    return table.loc[sids[((last < lower) | (last > upper))[sids]]]


def liquidity(market, day, before):
    sids = market.existing(day)
    money = dollars(market, day, 21)[sids]
    close = market.seen("close", day, 21)
    traded = (money > 1_000_000) & close.notna().all()[sids]
    listed = money[traded]
    share = (money >= np.percentile(listed, 50)) & traded
    edges = np.percentile(listed, [20, 40, 60, 80])
    fifth = pd.Series(np.searchsorted(edges, listed), index=listed.index)
    sector = market.label(day).reindex(sids)
    peers = sector.map(sector[traded].value_counts())
    last = close.iloc[-1][sids]
    low, high = np.nanpercentile(last, [10, 90])
    kept = traded & (low <= last) & (last <= high)
    return pd.DataFrame({"money": money, "share": share, "fifth": fifth, "peers": peers})[kept]


def value(market, day, before):
    sids = market.existing(day)
    liquid = dollars(market, day, 30)[sids].rank(ascending=False, method="first") <= 15
    earned = market.number("earnings", day).reindex(sids)
    ratio = earned / market.seen("close", day, 1).iloc[-1].reindex(sids)
    listed = ratio[liquid].dropna()
    sector = market.label(day).reindex(sids)
    place = listed.groupby(sector.reindex(listed.index)).rank(ascending=False, method="first")
    score = (listed - listed.mean()) / listed.std(ddof=0)
    columns = {"sector": sector, "earnings": earned, "yield": ratio, "place": place, "score": score}
    return pd.DataFrame(columns, index=sids)[liquid]


def size(market, day, before):
    sids = market.existing(day)
    logs = np.log(dollars(market, day, 60)[sids].where(lambda money: money > 0))
    listed = np.sort(logs.dropna())
    count = len(listed)
    drawn = logs.clip(listed[count // 10], listed[-(-9 * count // 10) - 1])
    sector = market.label(day).reindex(sids)
    peers = drawn.groupby(sector)
    score = (drawn - peers.transform("mean")) / peers.transform(lambda values: values.std(ddof=0))
    place = score.rank(ascending=False, method="first")
    return pd.DataFrame({"sector": sector, "size": logs, "score": score, "place": place}, index=sids)


def revised(market, day, before):
    return bands(market, day, before)


def main(folder):
    for name, (first, last) in RANGES.items():
        compute = globals()[name]
        market = Market(folder, revised=name == "revised")
        frames = {}
        for number, day in enumerate(market.days):
            if pd.Timestamp(first) <= day <= pd.Timestamp(last):
                frames[day] = compute(market, day, market.days[number - 1])
        own = pd.concat(frames, names=["session", "sid"])
        table = pd.read_csv(folder / f"{name}.csv", parse_dates=["session"]).set_index(["session", "sid"])
        assert own.index.equals(table.index), f"{name}: other rows"
        numbers = [c for c in table if table[c].dtype == float]
        for column in table.columns.difference(numbers):
            same = table[column].fillna("") == own[column].fillna("")
            assert same.all(), f"{name}: {column} differs"
        assert (own[numbers].isna() == table[numbers].isna()).all(axis=None), f"{name}: other values are missing"
        gaps = (own[numbers] - table[numbers]).abs()
        differ = int((gaps > 5.1e-7).sum().sum())
        print(f"{name}: {len(table)} rows, {gaps.size} numbers, {differ} differ in the sixth decimal, by {gaps.max().max():.1e} at most")


if __name__ == "__main__":
    main(Path(sys.argv[1]))
