"""Zipline's module of this name: what of it is here."""

from ..term import Classifier  # noqa: F401
from . import CustomClassifier, Everything, Latest, Quantiles, Relabel  # noqa: F401
