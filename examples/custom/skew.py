#!/usr/bin/env python3
"""Mean and skew of a quarter's daily returns, as two outputs of one factor, and a bin of the skew as a classifier.

Usage: skew.py DATA FROM TO
"""
import sys

import numpy as np

from tohmeril import Data, run_pipeline
from tohmeril.pipeline import CustomClassifier, CustomFactor, Pipeline
from tohmeril.pipeline.factors import DailyReturns, Returns


class Moments(CustomFactor):
    inputs = [DailyReturns()]
    window_length = 63
    outputs = ["middle", "skew"]
    window_safe = True

    def compute(self, today, assets, out, returns):
        out.middle[:] = np.nanmean(returns, axis=0)
        apart = returns - out.middle
        out.skew[:] = np.nanmean(apart**3, axis=0) / np.nanmean(apart**2, axis=0) ** 1.5


class Side(CustomClassifier):
    """0 where losses are the rarer and larger ones, 1 where gains are."""

    inputs = [Moments().skew]
    window_length = 1
    dtype = np.int64

    def compute(self, today, assets, out, skew):
        out[:] = np.where(np.isnan(skew[0]), self.missing_value, skew[0] > 0)


folder, start, end = sys.argv[1:]
middle, skew = Moments()
place = Returns(window_length=22).rank(groupby=Side())  # within those of the same side
pipe = Pipeline({"middle": middle, "skew": skew, "side": Side(), "place": place})
print(run_pipeline(pipe, start, end, Data(folder)))
