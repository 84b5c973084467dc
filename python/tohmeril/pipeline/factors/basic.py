"""Zipline's module of this name: what of it is here."""

from . import (
    EWMA,
    EWMSTD,
    VWAP,
    AnnualizedVolatility,
    AverageDollarVolume,
    DailyReturns,  # noqa: F401
    ExponentialWeightedMovingAverage,
    ExponentialWeightedMovingStdDev,
    LinearWeightedMovingAverage,
    MaxDrawdown,
    PeerCount,
    PercentChange,
    Returns,
    SimpleMovingAverage,
    WeightedAverageValue,
)
