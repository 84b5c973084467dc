"""Quantopian's module of this name."""

from . import EquityPricing, USEquityPricing  # noqa: F401
