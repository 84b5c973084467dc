"""Zipline's module of this name."""

from . import All, Any, AtLeastN  # noqa: F401
