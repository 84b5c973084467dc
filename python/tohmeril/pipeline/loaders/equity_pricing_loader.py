"""Zipline's module of this name."""

from . import EquityPricingLoader, USEquityPricingLoader  # noqa: F401
