#!/usr/bin/env python3
"""Returns neutral to the market and to sectors, from one pipeline: what is left of an asset's daily return after beta
times the return of one asset, which stands for the market, and then after the mean of its sector.

Usage: neutral.py FOLDER FROM TO MARKET SESSIONS writes the table as CSV; beta is over so many SESSIONS. It needs the
package in python/.
"""
import sys

from tohmeril import Data, run_pipeline
from tohmeril.pipeline import Pipeline
from tohmeril.pipeline.data import Labels
from tohmeril.pipeline.factors import Returns, SimpleBeta

folder, start, end, market, sessions = sys.argv[1:]
daily = Returns(window_length=2)
beta = SimpleBeta(int(market), int(sessions))
left = daily - beta * daily[int(market)]
columns = {"return": daily, "beta": beta, "left": left, "neutral": left.demean(groupby=Labels.sector.latest)}
run_pipeline(Pipeline(columns), start, end, Data(folder)).to_csv(sys.stdout)
