"""Zipline's module of this name: what of it is here."""

from ..term import Factor  # noqa: F401
from . import CustomFactor, Latest  # noqa: F401
