"""Zipline's module of this name."""

from . import DataFrameLoader  # noqa: F401
