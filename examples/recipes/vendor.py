#!/usr/bin/env python3
"""The program's files from a vendor's, checked against the vendor's adjusted closes.

Usage: vendor.py SOURCE TARGET. SOURCE is a folder as examples/vendor, with these files, of which the last
four may be left out. Days as 02/06/2024 are of February, which is said below, since they may be of June too:
  prices.csv      date,ticker,open,high,low,close,volume,adjClose: raw bars, dates with or without a time
  splits.csv      date,ticker,split: 20:1 is twenty new shares for an old one
  dividends.csv   ex_date,ticker,amount: cash, in the money of the prices
  sectors.csv     date,ticker,sector: from the date on
  numbers.csv     known,ticker,name,value: a figure, as its earnings, from the day of publication on
TARGET becomes the folder of a run. Tickers get sids in alphabetic order, which are in TARGET/symbols.csv.
Where the vendor's columns have other names, rename them below. It needs the package in python/.
"""
import sys
from pathlib import Path

import pandas as pd

from tohmeril import Data, Pipeline, run_pipeline
from tohmeril.pipeline.factors import Returns

source, target = map(Path, sys.argv[1:])


def read(name, day=None):
    """A file of the vendor; `day` is its column of days with the month first."""
    if not (source / f"{name}.csv").exists():
        return None
    frame = pd.read_csv(source / f"{name}.csv")
    return frame if day is None else frame.assign(**{day: pd.to_datetime(frame[day], format="%m/%d/%Y")})


prices, sectors = read("prices"), read("sectors", "date")
labels = None if sectors is None else sectors.rename(columns={"date": "start", "sector": "label"}).assign(name="sector")
bars = prices.drop(columns="adjClose")  # the prices that were quoted on their day
data = Data.write(target, bars, splits=read("splits", "date"), dividends=read("dividends", "ex_date"), labels=labels,
                  numbers=read("numbers"))
print(*data.check() or ["nothing looks odd"], sep="\n")

# The change of each close as the program adjusts it, beside that of the vendor's adjusted closes. A session
# sees the one before it.
own = run_pipeline(Pipeline({"change": Returns(window_length=2)}), data.sessions[2], data.sessions[-1], data, symbols=True).change.unstack()
adjusted = prices.assign(day=prices.date.str[:10]).pivot(index="day", columns="ticker", values="adjClose")
theirs = adjusted.pct_change(fill_method=None).shift().set_axis(pd.to_datetime(adjusted.index))
gaps = (own - theirs.loc[own.index, own.columns]).abs().stack()
print(f"{len(gaps)} changes of closes are compared with the vendor's, the greatest gap is {gaps.max():.7f}")
far = gaps[gaps > 0.0005]
if len(far):
    print(f"{len(far)} are farther apart than 0.0005:", far.sort_values().tail(10).to_string(), sep="\n")
