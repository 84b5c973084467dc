"""Zipline's module of this name: what of it is here."""

from ..term import Filter  # noqa: F401
from . import (
    AllPresent,
    ArrayPredicate,
    CustomFilter,
    Latest,
    MaximumFilter,
    NotNullFilter,
    NullFilter,
    PercentileFilter,  # noqa: F401
    SingleAsset,
    StaticAssets,
    StaticSids,
)
