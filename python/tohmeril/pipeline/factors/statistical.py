"""Zipline's module of this name: its names, which say what comes nearest."""

from . import (
    RollingLinearRegression,
    RollingLinearRegressionOfReturns,
    RollingPearson,
    RollingPearsonOfReturns,  # noqa: F401
    RollingSpearman,
    RollingSpearmanOfReturns,
    SimpleBeta,
)
