"""Spearman's correlation with a market, and returns beyond its own, by code of one's own."""
import numpy as np
import pandas as pd
from zipline.pipeline import Pipeline, CustomFactor
from zipline.pipeline.factors import Returns

class Spearman(CustomFactor):
    inputs = [Returns(window_length=2)]
    window_length = 30
    params = {'target': SPY}
    def compute(self, today, assets, out, returns, target):
        ranks = pd.DataFrame(returns, columns=assets).rank()
        out[:] = ranks.corrwith(ranks[target])

class Excess(CustomFactor):
    inputs = [Returns(window_length=2)]
    window_length = 20
    def compute(self, today, assets, out, returns):
        out[:] = np.nanmean(returns - returns[:, assets.get_loc(SPY)][:, None], axis=0)

result = engine.run_pipeline(Pipeline({'spearman': Spearman(), 'excess': Excess()}), START, END)
