"""Amihud's illiquidity and a shock of the volume."""
import numpy as np
from zipline.pipeline import Pipeline, CustomFactor
from zipline.pipeline.data import EquityPricing

class Amihud(CustomFactor):
    inputs = [EquityPricing.close, EquityPricing.volume]
    window_length = 22
    def compute(self, today, assets, out, close, volume):
        change = np.abs(close[1:] / close[:-1] - 1)
        out[:] = np.nanmean(change / (close[1:] * volume[1:]), axis=0) * 1e9

class VolumeShock(CustomFactor):
    inputs = [EquityPricing.volume]
    window_length = 22
    def compute(self, today, assets, out, volume):
        out[:] = np.log(volume[-1] / np.nanmean(volume[:-1], axis=0))

illiquid = Amihud().rank()
pipe = Pipeline({'amihud': Amihud(), 'rank': illiquid, 'shock': VolumeShock(), 'calm': VolumeShock().quintiles()},
                screen=illiquid > 3)
result = engine.run_pipeline(pipe, START, END)
