#!/usr/bin/env python3
"""Momentum of what the market does not explain: each asset's daily returns are regressed on the mean return of all, and
what is left over, summed and over its deviation, is ranked within sectors.

Usage: residual_momentum.py DATA FROM TO
"""
import sys

import numpy as np

from tohmeril import Data, run_pipeline
from tohmeril.pipeline import CustomFactor, Pipeline
from tohmeril.pipeline.classifiers import Label
from tohmeril.pipeline.data import EquityPricing
from tohmeril.pipeline.factors import AverageDollarVolume


class ResidualMomentum(CustomFactor):
    inputs = [EquityPricing.close]
    window_length = 127  # a half year of returns

    def compute(self, today, assets, out, close):
        returns = close[1:] / close[:-1] - 1
        whole = ~np.isnan(returns).any(axis=0)  # assets without a gap
        if not whole.any():
            return
        market = returns[:, whole].mean(axis=1)
        lines = np.column_stack([np.ones_like(market), market])
        factors, *_ = np.linalg.lstsq(lines, returns[:, whole], rcond=None)
        residuals = returns[:, whole] - lines @ factors
        newest = residuals[:-21]  # without the newest month
        out[whole] = newest.sum(axis=0) / newest.std(axis=0)


folder, start, end = sys.argv[1:]
liquid = AverageDollarVolume(window_length=30).top(15)
momentum = ResidualMomentum()
place = momentum.rank(ascending=False, mask=liquid, groupby=Label("sector"))
print(run_pipeline(Pipeline({"momentum": momentum, "place": place}, screen=liquid), start, end, Data(folder)))
