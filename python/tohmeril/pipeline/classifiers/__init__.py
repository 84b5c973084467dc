"""Zipline's classifiers, and the labels of the labels file; all are exact."""

from __future__ import annotations

from typing import Sequence

from ..custom import CustomClassifier as CustomClassifier
from ..data import LabelColumn, Labels
from ..term import Absent, Bins, Classifier, Factor, Mask, Text, as_factor  # noqa: F401


def Label(name: str) -> Text:
    """Text that each asset has under a name of the labels file, by the newest record up to today; `Labels.NAME.latest`.
    Ours.

    >>> Label("sector").peer_count()
    label("sector").peer_count()
    """
    label: Text = getattr(Labels, name).latest
    return label


def Latest(inputs: Sequence[LabelColumn]) -> Text:
    """`inputs[0].latest`."""
    return inputs[0].latest


def Quantiles(inputs: Sequence[Factor], bins: int, mask: Mask = None) -> Bins:
    """`inputs[0].quantiles(bins, mask)`."""
    return inputs[0].quantiles(bins, mask)


def Everything() -> Bins:
    """One class for all assets, 0: the bin of equal values."""
    return as_factor(1).quantiles(2)


Relabel = Absent("Relabel", "labels of another name in the labels file")
