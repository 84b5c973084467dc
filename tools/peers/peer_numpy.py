#!/usr/bin/env python3
"""The three pipelines of this folder in floats, by numpy and pandas, as Zipline does it: a buffer for each column of bars,
which is multiplied in place as the sessions pass, and windows that are views of it. It judges nothing.

Usage: peer_numpy.py NAME FOLDER FROM TO
"""
import sys
import warnings

import numpy as np
import pandas as pd

COLUMNS = {
    "latest": ["c", "v"],
    "means": ["percent_difference", "latest"],
    "twenty": "sma_50 sma_200 lwma_30 ewma_60 std_63 high_252 low_252 bb_low bb_up month rsi_15 vwap_30 adv_20 stoch_14 "
    "range aroon_25 rank demean z decile".split(),
}
USED = {"latest": ["close", "volume"], "means": ["close", "volume"], "twenty": ["high", "low", "close", "volume"]}
FADING = 0.97 ** np.arange(59, -1, -1)


class World:
    """The files of a folder, as arrays with a row for each session and a column for each asset."""

    def __init__(self, folder, used):
        self.days = pd.read_csv(f"{folder}/sessions.csv", header=None)[0].to_numpy("datetime64[D]")
        assets = pd.read_csv(f"{folder}/assets.csv", parse_dates=["start", "end"]).sort_values("sid")
        self.sids = assets.sid.to_numpy()
        day, start, end = self.days[:, None], assets.start.to_numpy(), assets.end.to_numpy()
        self.exists = (start < day) & (day <= end)
        bars = pd.read_csv(f"{folder}/bars.csv", usecols=["sid", "session", *used], dtype={"session": "category"})
        at = np.searchsorted(self.days, bars.session.cat.categories.to_numpy("datetime64[D]"))[bars.session.cat.codes]
        column = np.searchsorted(self.sids, bars.sid.to_numpy())
        self.bars = {name: np.full(self.exists.shape, np.nan) for name in used}
        for name in used:
            self.bars[name][at, column] = bars[name]
        rows = pd.read_csv(f"{folder}/adjustments.csv")
        self.events = [[] for _ in range(len(self.days) + 1)]
        seen = np.searchsorted(self.days, pd.to_datetime(rows.effective_date, unit="s").to_numpy("datetime64[D]"))
        for session, row in zip(seen, rows.itertuples()):
            self.events[session].append((np.searchsorted(self.sids, row.sid), row.num / row.den, row.kind == 0))
        labels = pd.read_csv(f"{folder}/labels.csv", keep_default_na=False)
        codes, texts = pd.factorize(labels.label)
        self.sectors = np.full(self.exists.shape, -1)
        for sid, day, code in zip(labels.sid, labels.start.to_numpy("datetime64[D]"), np.where(labels.label == "", -1, codes)):
            self.sectors[np.searchsorted(self.days, day) :, np.searchsorted(self.sids, sid)] = code

    def adjust(self, session):
        """Multiply what lies before a session."""
        for column, ratio, is_split in self.events[session]:
            for name, cells in self.bars.items():
                if name != "volume" or is_split:
                    cells[:session, column] *= 1 / ratio if name == "volume" else ratio

    def window(self, name, session, length):
        return self.bars[name][session - length : session]


def first_greatest(values):
    values = np.where(np.isnan(values), -np.inf, values)
    return values.argmax(axis=0)


def order(values, mask):
    """Places from the least on, of equal ones by sid."""
    found = np.full(len(values), np.nan)
    listed = np.flatnonzero(mask & ~np.isnan(values))
    found[listed[np.argsort(values[listed], kind="stable")]] = np.arange(1, len(listed) + 1)
    return found


def top(values, count, mask):
    return order(-values, mask) <= count


def by_sector(values, mask, sectors, function):
    found = np.full(len(values), np.nan)
    for sector in range(sectors.max() + 1):
        own = mask & (sectors == sector) & ~np.isnan(values)
        if own.any():
            found[own] = function(values[own])
    return found


def latest(world, d):
    return world.exists[d], [world.window(name, d, 1)[0] for name in ("close", "volume")]


def means(world, d):
    close, volume = world.window("close", d, 30), world.window("volume", d, 30)
    thirty = np.nanmean(close, axis=0)
    apart = (np.nanmean(close[-10:], axis=0) - thirty) / thirty
    liquid = world.exists[d] & (np.nansum(close * volume, axis=0) / 30 > 2_000_000)
    return top(apart, 100, liquid), [apart, close[-1]]


def twenty(world, d):
    high, low, close, volume = (world.window(name, d, 252) for name in USED["twenty"])
    exists, sectors = world.exists[d], world.sectors[d]
    traded = np.nansum(close[-20:] * volume[-20:], axis=0) / 20
    liquid, month = top(traded, 200, exists), close[-1] / close[-21] - 1
    middle, spread = np.nanmean(close[-20:], axis=0), np.nanstd(close[-20:], axis=0)
    moves = np.diff(close[-15:], axis=0)
    rises, falls = np.nansum(np.maximum(moves, 0), axis=0), -np.nansum(np.minimum(moves, 0), axis=0)
    highest, lowest = np.nanmax(high[-14:], axis=0), np.nanmin(low[-14:], axis=0)
    aroon = np.where(np.isnan(high[-25:]).all(axis=0), np.nan, first_greatest(high[-25:]) * 100 / 24)
    edges = np.nanpercentile(month[exists], np.arange(10, 100, 10)) if exists.any() else np.zeros(9)
    decile = np.where(np.isnan(month), np.nan, np.searchsorted(edges, month))
    gaps = [high[-1] - low[-1], np.abs(high[-1] - close[-2]), np.abs(low[-1] - close[-2])]
    values = [np.nanmean(close[-50:], axis=0), np.nanmean(close[-200:], axis=0)]
    values += [np.arange(1, 31) @ np.nan_to_num(close[-30:]) / 465, FADING @ close[-60:] / FADING.sum()]
    values += [np.nanstd(close[-63:], axis=0), np.nanmax(high, axis=0), np.nanmin(low, axis=0)]
    values += [middle - 2 * spread, middle + 2 * spread, month, 100 * rises / (rises + falls)]
    values += [np.nansum(close[-30:] * volume[-30:], axis=0) / np.nansum(volume[-30:], axis=0), traded]
    values += [100 * (close[-1] - lowest) / (highest - lowest), np.nanmax(gaps, axis=0), aroon, order(month, liquid)]
    values += [by_sector(month, exists, sectors, lambda own: own - own.mean())]
    values += [by_sector(month, liquid, sectors, lambda own: (own - own.mean()) / own.std()), decile]
    return exists, values


def main(name, folder, start, end):
    world = World(folder, USED[name])
    first, last = np.searchsorted(world.days, np.array([start, end], "datetime64[D]"))
    form = ",".join(["%s,%d", *["%d" if column == "decile" else "%.6f" for column in COLUMNS[name]]]) + "\n"
    sys.stdout.write(f"session,sid,{','.join(COLUMNS[name])}\n")
    for d in range(last + 1):
        world.adjust(d)
        if d < first:
            continue
        kept, values = globals()[name](world, d)
        rows, day = zip(world.sids[kept].tolist(), *(each[kept].tolist() for each in values)), str(world.days[d])
        if any(np.isnan(each[kept]).any() for each in values):
            cells = ",".join(form.split(",")[2:]).strip().split(",")
            told = (",".join(cell % x if x == x else "" for cell, x in zip(cells, row)) for _, *row in rows)
            sys.stdout.writelines(f"{day},{sid},{text}\n" for sid, text in zip(world.sids[kept].tolist(), told))
        else:
            sys.stdout.writelines(form % (day, *row) for row in rows)


if __name__ == "__main__":
    warnings.simplefilter("ignore", RuntimeWarning)  # of windows without a value
    np.seterr(all="ignore")
    main(*sys.argv[1:])
