"""Zipline's filters; all are exact.

>>> from tohmeril.pipeline.data import EquityPricing
>>> AtLeastN(inputs=[EquityPricing.volume.latest > 0], window_length=20, N=15)
AtLeastN(volume.latest > 0, 20, 15)
"""

from __future__ import annotations

import typing
from numbers import Integral
from typing import Iterable

from ..custom import CustomFilter as CustomFilter
from ..factors import windowed
from ..term import CALL, Absent, Filter, joined_by_or

_FILTER: dict[str, typing.Any] = {"units": "true or false", "rounding": "none", "sort": Filter, "module": __name__}
All = windowed("All", "true on each of the W sessions up to today", takes=(Filter,), **_FILTER)
Any = windowed("Any", "true on one of the W sessions up to today", takes=(Filter,), **_FILTER)
AllPresent = windowed("AllPresent", "each x_k is present", **_FILTER)
AtLeastN = windowed(
    "AtLeastN", "true on N of the W sessions up to today, or on more", takes=(Filter,), params=("N",), **_FILTER
)


def StaticSids(sids: Iterable[int]) -> Filter:
    """True of exactly these assets, by their sids; `Data.sids` has those of symbols.

    >>> StaticSids([24, 5])
    StaticSids(5, 24)
    """
    listed: list[typing.Any] = [sids] if isinstance(sids, str) else list(sids)
    for sid in listed:
        if isinstance(sid, str):
            raise TypeError(
                f"StaticSids: {sid!r} is a symbol: write "
                f"StaticSids(data.sids({[each for each in listed if isinstance(each, str)]!r}))"
            )
        if isinstance(sid, bool) or not isinstance(sid, Integral):
            raise TypeError(f"StaticSids: {sid!r} is no sid, which is a whole number")
    return joined_by_or(lambda some: Filter(CALL, "StaticSids", *some), sorted(map(int, listed)), 500)


def StaticAssets(assets: Iterable[object]) -> Filter:
    """True of exactly these assets, given by their sids or as objects with a `sid`."""
    sids: list[typing.Any] = [getattr(asset, "sid", asset) for asset in assets]
    return StaticSids(sids)


def SingleAsset(asset: object) -> Filter:
    """True of exactly this asset."""
    return StaticAssets([asset])


ArrayPredicate, NullFilter, NotNullFilter = Absent.each(
    "ArrayPredicate NullFilter NotNullFilter", "isnull(), notnull(), comparisons"
)
PercentileFilter = Absent("PercentileFilter", "percentile_between(low, high)")
MaximumFilter = Absent("MaximumFilter", "top(1, groupby=classifier)")
Latest = Absent("Latest of a filter", "a column of floats that are 1 and 0, and .latest.eq(1)")
