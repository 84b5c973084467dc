#!/usr/bin/env python3
"""A model of scikit-learn: what the assets with the most similar quarter did in the week after it.

Each session it learns from the windows that it is given alone: from the first 58 returns the shape of each asset's
quarter, and what came in the next five. Then it says of the newest 58 what may come.

Usage: neighbours.py DATA FROM TO
"""
import sys

import numpy as np

from tohmeril import Data, run_pipeline
from tohmeril.pipeline import CustomFactor, Pipeline
from tohmeril.pipeline.factors import DailyReturns

try:
    from sklearn.neighbors import KNeighborsRegressor
except ImportError:
    sys.exit("neighbours.py: there is no scikit-learn: install python3-sklearn")


class Neighbours(CustomFactor):
    inputs = [DailyReturns()]
    window_length = 63
    params = {"ahead": 5, "neighbours": 3}

    def compute(self, today, assets, out, returns, ahead, neighbours):
        whole = ~np.isnan(returns).any(axis=0)
        if whole.sum() < neighbours:
            return
        known = returns[:, whole].T
        model = KNeighborsRegressor(neighbours)
        model.fit(shapes(known[:, :-ahead]), known[:, -ahead:].sum(axis=1))
        out[whole] = model.predict(shapes(known[:, ahead:]))


def shapes(returns):
    """Quarters that can be compared: without their mean, in units of their deviation."""
    apart = returns - returns.mean(axis=1, keepdims=True)
    return apart / apart.std(axis=1, keepdims=True)


folder, start, end = sys.argv[1:]
week = Neighbours()
print(run_pipeline(Pipeline({"week": week, "place": week.rank(ascending=False)}), start, end, Data(folder)))
