"""What pipelines read: the columns of bars, numbers beside them, and the labels of assets."""

from __future__ import annotations

from typing import NoReturn

from ..script import BARS
from ..term import CALL, WORD, Absent, BoundColumn, Text
from .dataset import Column, DataSet


class EquityPricing:
    """The bars. A missing volume stays missing, where Zipline's reader makes it 0.

    >>> EquityPricing.close.latest
    close.latest
    """

    open, high, low, close, volume = (BoundColumn(WORD, name) for name in BARS)


USEquityPricing = EquityPricing


class LabelColumn:
    """The labels of one name; `latest` is a classifier."""

    holds = "labels"

    def __init__(self, name: str):
        self.name = name

    @property
    def latest(self) -> Text:
        """The label that holds today."""
        return Text(CALL, "label", self.name)

    def __getattr__(self, name: str) -> NoReturn:
        raise AttributeError(
            f"{self!r} is a column of labels and has no {name}: write {self!r}.latest for the one that holds today"
        )

    def __repr__(self) -> str:
        return f"Labels.{self.name}"


class _Labels:
    """The names of the labels file, as columns of a DataSet.

    >>> Labels.sector.latest.eq("Energy")
    label("sector") == "Energy"
    """

    def __getattr__(self, name: str) -> LabelColumn:
        if name.startswith("__"):
            raise AttributeError(name)
        return LabelColumn(name)


Labels = _Labels()
DataSetFamily = Absent(
    "DataSetFamily", "a DataSet for each member of the family, whose columns have names of their own"
)
