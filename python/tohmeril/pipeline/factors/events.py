"""Zipline's module of this name: its names, which say what comes nearest."""

from . import BusinessDaysSincePreviousEvent, BusinessDaysUntilNextEvent  # noqa: F401
