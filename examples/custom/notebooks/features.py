"""Features for machine learning: scores of returns, and slopes of these."""
import numpy as np
from zipline.pipeline import Pipeline, CustomFactor
from zipline.pipeline.data import EquityPricing
from zipline.pipeline.factors import Returns

class ZScored(CustomFactor):
    window_safe = True
    window_length = 60
    def compute(self, today, assets, out, values):
        out[:] = (values[-1] - np.nanmean(values, axis=0)) / np.nanstd(values, axis=0, ddof=1)

class Slope(CustomFactor):
    window_length = 20
    def compute(self, today, assets, out, values):
        x = np.arange(len(values)) - (len(values) - 1) / 2
        out[:] = x @ values / (x @ x)

features = {f'z_{length}': ZScored(inputs=[Returns(window_length=length)]) for length in (2, 6, 11, 22)}
features.update({f'slope_{name}': Slope(inputs=[feature]) for name, feature in list(features.items())})
features['target'] = Returns(window_length=6)
pipe = Pipeline({name: feature.rank() for name, feature in features.items()})
result = engine.run_pipeline(pipe, START, END)
