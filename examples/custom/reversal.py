#!/usr/bin/env python3
"""Reversal to the median: how far the newest close is from the median of its month, in median distances, and less the
mean of its sector.

One day with a wrong or a wild price moves a mean and a deviation, and hardly a median.

Usage: reversal.py DATA FROM TO
"""
import sys

import numpy as np

from tohmeril import Data, run_pipeline
from tohmeril.pipeline import CustomFactor, CustomFilter, Pipeline
from tohmeril.pipeline.classifiers import Label
from tohmeril.pipeline.data import EquityPricing


class Whole(CustomFilter):
    """No close is missing."""

    inputs = [EquityPricing.close]
    window_length = 21

    def compute(self, today, assets, out, close):
        out[:] = ~np.isnan(close).any(axis=0)


class Distance(CustomFactor):
    """Of closes alone, so that no split changes it: the mask leaves out what has gaps."""

    inputs = [EquityPricing.close]
    window_length = 21
    mask = Whole()
    window_safe = True

    def compute(self, today, assets, out, close):
        middle = np.median(close, axis=0)
        usual = np.median(np.abs(close - middle), axis=0)
        np.divide(close[-1] - middle, usual, out=out, where=usual > 0)


folder, start, end = sys.argv[1:]
reversal = -Distance()
score = reversal.clip(-5, 5).demean(groupby=Label("sector"))
print(run_pipeline(Pipeline({"reversal": reversal, "score": score}, screen=score.top(5)), start, end, Data(folder)))
