"""Numbers beside the bars, as columns of a DataSet: fundamentals, estimates, scores, signals of one's own.

>>> class Fundamentals(DataSet):
...     earnings = Column(float)
...     short_interest = Column(float)
>>> Fundamentals.earnings.latest
number("earnings")

`Data.write` takes the numbers of such a column under its name, with the days on which they became known.
"""

from __future__ import annotations

from typing import Any, Mapping, Optional

import numpy as np
from pandas.api.types import pandas_dtype

from ..script import is_name
from ..term import TEXT, Absent, BoundColumn, CodeColumn, DataColumn, NumberColumn, TextColumn, TruthColumn

__all__ = ["BoundColumn", "Column", "DataSet"]


KINDS: Mapping[str, tuple[type[DataColumn], Any, str]] = {  # by numpy's kind of the type, with the missing value
    "f": (NumberColumn, np.nan, "NaN, and .latest.fillna(value)"),
    "b": (TruthColumn, False, "False"),
    "i": (CodeColumn, -1, "a whole number, as -1"),
    "O": (TextColumn, None, "None"),
}
_NONE: Any = object()  # in place of that of the kind


class Column:
    """What there is of each asset within a DataSet.

    Parameters
    ----------
    dtype : type
        float, for a factor; bool, for a filter; int, for a classifier of whole numbers; object or str, for one of
        texts; each also as a text or as numpy's type. The program has floats and truth values as numbers, the others
        as labels.
    missing_value : object, optional
        NaN, false, -1 or another whole number, None or an empty text, by the type; `fillna` puts another number in
        place of NaN.
    doc, metadata : str and mapping, optional
        Words for readers of the class.
    currency_aware : bool
        Zipline's, and false: there are no currencies.
    name : str, optional
        The name that it has in the data, where it is not the attribute's. Ours.

    Examples
    --------
    >>> class Scores(DataSet):
    ...     value = Column(float, name="value_score")
    ...     sector = Column(int, missing_value=-1)
    ...     exchange = Column(object)
    ...     is_primary = Column(bool)
    >>> Scores.value.latest.rank(mask=Scores.is_primary.latest & Scores.sector.latest.eq(103))
    number("value_score").rank(mask=number("is_primary") == 1 & label("sector") == "103")
    >>> Column("datetime64[ns]")
    Traceback (most recent call last):
    tohmeril.pipeline.term.Inexpressible: the language has no Column(datetime64[ns]); nearest: Column(float) of whole
    days since 1970-01-01
    """

    def __init__(
        self,
        dtype: Any,
        missing_value: Any = _NONE,
        doc: Optional[str] = None,
        metadata: Optional[Mapping[str, Any]] = None,
        currency_aware: bool = False,
        *,
        name: Optional[str] = None,
    ):
        kind = pandas_dtype(object if dtype in (str, "category") else dtype).kind
        if kind not in KINDS:
            Absent(
                f"Column({getattr(dtype, '__name__', dtype)})",
                "Column(float) of whole days since 1970-01-01" if kind == "M" else "Column(float)",
            )()
        self.kind, usual, instead = KINDS[kind]
        self.missing_value = usual if missing_value is _NONE or kind == "O" and missing_value == "" else missing_value
        is_usual = self.missing_value is usual or kind == "f" and self.missing_value != self.missing_value
        is_whole = isinstance(missing_value, (int, np.integer)) and not isinstance(missing_value, bool)
        if not is_usual and not (kind == "i" and is_whole):
            Absent(f"missing_value={missing_value!r}", instead)()
        if currency_aware:
            Absent("currency_aware=True", "numbers in one currency")()
        self.name, self.doc, self.metadata = name, doc, dict(metadata or {})

    def bind(self, dataset: str, attribute: str) -> DataColumn:
        """The column of a DataSet."""
        name = attribute if self.name is None else self.name
        if not is_name(name):
            raise ValueError(
                f"{dataset}.{attribute}: {name!r} can't be the name of a number or label, which is a letter or _ and "
                "then letters, digits or _, at most 32 in all, and no keyword of the language"
            )
        code = [str(int(self.missing_value))] if self.kind is CodeColumn else []
        return self.kind(TEXT, name, f"{dataset}.{attribute}", *code)


class DataSet:
    """Columns beside the bars, as Zipline has it. A DataSet below another one has its columns, too, which are the same
    ones.

    A column's numbers or labels go by the attribute's name, in the pipeline file and in the data. Two columns of one
    name can't be in one pipeline, since both would be the same: `Column(float, name=..)` tells them apart.

    Attributes
    ----------
    columns : frozenset of BoundColumn
    """

    columns: frozenset[DataColumn] = frozenset()

    def __init_subclass__(cls) -> None:
        for name, column in list(vars(cls).items()):
            if isinstance(column, Column):
                setattr(cls, name, column.bind(cls.__name__, name))
        cls.columns = frozenset(
            column for column in (getattr(cls, name) for name in dir(cls)) if isinstance(column, DataColumn)
        )

    @classmethod
    def get_column(cls, name: str) -> DataColumn:
        """The column of a name."""
        column = getattr(cls, name, None)
        if not isinstance(column, DataColumn):
            raise AttributeError(f"{cls.__name__} has no column {name!r}")
        return column
