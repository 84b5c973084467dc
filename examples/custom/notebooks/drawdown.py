"""Low volatility: a drawdown, a Sharpe ratio and the distance from the year's high."""
import numpy as np
from zipline.pipeline import Pipeline, CustomFactor
from zipline.pipeline.data import EquityPricing
from zipline.pipeline.factors import DailyReturns

class MaxDrawdown(CustomFactor):
    inputs = [EquityPricing.close]
    window_length = 126
    def compute(self, today, assets, out, close):
        filled = np.where(np.isnan(close), -np.inf, close)
        peaks = np.maximum.accumulate(filled, axis=0)
        out[:] = np.nanmax((peaks - close) / peaks, axis=0)

class Sharpe(CustomFactor):
    inputs = [DailyReturns()]
    window_length = 126
    def compute(self, today, assets, out, returns):
        out[:] = np.nanmean(returns, axis=0) / np.nanstd(returns, axis=0) * np.sqrt(252)

class NearHigh(CustomFactor):
    inputs = [EquityPricing.close, EquityPricing.high]
    window_length = 252
    def compute(self, today, assets, out, close, high):
        out[:] = close[-1] / np.nanmax(high, axis=0)

low_volatility = 1 / Sharpe()
pipe = Pipeline({'drawdown': MaxDrawdown(), 'sharpe': Sharpe(), 'near': NearHigh()}, screen=NearHigh().percentile_between(20, 100))
result = engine.run_pipeline(pipe, START, END)
