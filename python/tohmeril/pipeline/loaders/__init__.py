"""Zipline's module of this name: its loaders, in whose place `tohmeril.Data.write` takes frames.

>>> DataFrameLoader(None, None)
Traceback (most recent call last):
tohmeril.pipeline.term.Inexpressible: there is no DataFrameLoader here: write tohmeril.Data.write(folder, bars,
numbers={Signals.score: frame}), where frame has a row for each day on which values became known, and a column for each
asset
"""

from ..term import Elsewhere

DataFrameLoader = Elsewhere(
    "DataFrameLoader",
    "write tohmeril.Data.write(folder, bars, numbers={Signals.score: frame}), where frame has a "
    "row for each day on which values became known, and a column for each asset",
)
EquityPricingLoader, USEquityPricingLoader = Elsewhere.each(
    "EquityPricingLoader USEquityPricingLoader",
    "write tohmeril.Data.write(folder, bars, splits=.., dividends=..), and then Data(folder)",
)
