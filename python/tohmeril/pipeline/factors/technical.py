"""Zipline's module of this name: what of it is here."""

from . import (
    RSI,
    Aroon,
    BollingerBands,
    FastStochasticOscillator,
    IchimokuKinkoHyo,
    MACDSignal,  # noqa: F401
    MovingAverageConvergenceDivergenceSignal,
    RateOfChangePercentage,
    TrueRange,
)
from .basic import *  # noqa: F401,F403
