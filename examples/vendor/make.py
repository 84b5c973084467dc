#!/usr/bin/env python3
"""Writes the files of a made-up vendor: four tickers over 80 sessions, as many vendors give them.

Usage: make.py FOLDER. The same files come out each time. Bars are raw, in whole cents; adjusted closes are
computed backward from the last session in floats, as vendors do. One ticker is listed late, one has sessions
without a bar, one splits 20:1, two pay dividends, one changes its sector.
"""
import datetime
import random
import sys
from pathlib import Path

SPLITS = {("IVY", 50): 20}
DIVIDENDS = {("ASH", 25): 0.45, ("ASH", 65): 0.45, ("ELM", 40): 1.20}
SECTORS = [("ASH", 0, "Utilities"), ("ELM", 0, "Energy"), ("FIR", 0, "Technology"), ("IVY", 0, "Technology"), ("ELM", 45, "Utilities")]
LISTED = {"FIR": 20}
HALTS = {("ELM", 33), ("ELM", 34)}
FIRST_PRICES = {"ASH": 41.0, "ELM": 88.0, "FIR": 23.0, "IVY": 2400.0}


def main(folder):
    draw = random.Random(20240102)
    days = [datetime.date(2024, 1, 2) + datetime.timedelta(days=n) for n in range(120)]
    days = [day for day in days if day.weekday() < 5][:80]
    lines = ["date,ticker,open,high,low,close,volume,adjClose"]
    for ticker, price in FIRST_PRICES.items():
        bars = []
        for at, day in enumerate(days):
            price = price / SPLITS.get((ticker, at), 1) - DIVIDENDS.get((ticker, at), 0)
            opening = round(price * (1 + draw.gauss(0, 0.004)), 2)
            price = round(price * (1 + draw.gauss(0.0006, 0.014)), 2)
            high, low = max(opening, price) + draw.randrange(40) / 100, min(opening, price) - draw.randrange(20) / 100
            bars.append((at, day, opening, high, low, price, draw.randrange(20_000, 90_000)))
        bars = [bar for bar in bars if bar[0] >= LISTED.get(ticker, 0) and (ticker, bar[0]) not in HALTS]
        factor, adjusted = 1.0, []
        for number in range(len(bars) - 1, -1, -1):
            at, close = bars[number][0], bars[number][5]
            adjusted.append(close * factor)
            if number:
                factor *= (1 - DIVIDENDS.get((ticker, at), 0) / bars[number - 1][5]) / SPLITS.get((ticker, at), 1)
        for (at, day, opening, high, low, close, volume), own in zip(bars, reversed(adjusted)):
            lines.append(f"{day}T00:00:00.000Z,{ticker},{opening:.2f},{high:.2f},{low:.2f},{close:.2f},{volume},{own:.6f}")
    folder = Path(folder)
    (folder / "prices.csv").write_text("\n".join(lines) + "\n")
    us = [f"{day:%m/%d/%Y}" for day in days]
    (folder / "splits.csv").write_text("date,ticker,split\n" + "".join(f"{us[at]},{ticker},{new}:1\n" for (ticker, at), new in SPLITS.items()))
    (folder / "dividends.csv").write_text("ex_date,ticker,amount\n" + "".join(f"{us[at]},{ticker},{paid:.2f}\n"
                                                                              for (ticker, at), paid in DIVIDENDS.items()))
    (folder / "sectors.csv").write_text("date,ticker,sector\n" + "".join(f"{us[at]},{ticker},{sector}\n" for ticker, at, sector in SECTORS))


if __name__ == "__main__":
    main(sys.argv[1])
