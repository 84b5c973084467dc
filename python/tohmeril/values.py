"""Numbers and ratios, of any type that has one meaning alone."""

from __future__ import annotations

from datetime import date, timedelta
from fractions import Fraction
from numbers import Integral
from typing import Any, Optional, Union

import numpy as np
import pandas as pd
from numpy.typing import NDArray
from pandas.api.types import is_bool_dtype, is_complex_dtype, is_numeric_dtype, is_string_dtype

from .faults import DataFault

FORMS_OF_NUMBERS = "give numbers, or texts as 187.25; NaN or None for a missing one"
NARROW = "floats of 32 bits do not hold it: give num and den as whole numbers, or ratios that were never of 32 bits"
NO_NUMBERS = (bool, np.bool_, complex, np.complexfloating, date, timedelta, np.datetime64, np.timedelta64)


def whole_number(value: Any) -> Optional[int]:
    """A whole number, which may be a float, as an int; None for all else.

    >>> whole_number(7), whole_number(10001.0), whole_number(1.5), whole_number(True), whole_number("7")
    (7, 10001, None, None, None)
    """
    if isinstance(value, (bool, np.bool_)):
        return None
    if isinstance(value, Integral) or isinstance(value, float) and value.is_integer():
        return int(value)
    return None


def rows_of(rows: Union[pd.Series, pd.DataFrame], wrong: NDArray[Any]) -> str:
    """The first wrong row of a column, and how many others there are."""
    return f"row {rows.index[wrong.argmax()]}{and_others(int(wrong.sum()) - 1)}"


def shown(values: pd.Series, wrong: NDArray[Any]) -> str:
    """The first wrong value of a column, as Python writes it."""
    return repr(values.iloc[[int(wrong.argmax())]].tolist()[0])


def and_others(count: int, verb: bool = False) -> str:
    """The end of a message that names one of several.

    >>> and_others(0), and_others(1), and_others(2, verb=True)
    ('', ', and 1 other', ', and so are 2 others')
    """
    if not count:
        return ""
    many = count > 1
    return f", and {('so is ', 'so are ')[many] * verb}{count} other{'s' * many}"


def to_numbers(values: pd.Series, what: str) -> pd.Series:
    """Values of any type as floats, with missing ones as NaN."""
    numbers, wrong = read_numbers(values)
    if wrong.any():
        raise DataFault(
            f"{what}: {values.name} has {shown(values, wrong)} in place of a number",
            f"{rows_of(values, wrong)}; {FORMS_OF_NUMBERS}",
        )
    return pd.Series(numbers, index=values.index, name=values.name)


def read_numbers(values: pd.Series) -> tuple[NDArray[Any], NDArray[Any]]:
    """Values of any type as floats, with missing ones as NaN, and which of them are none: no text is, unless it is one
    of a number, and neither a truth value, a complex number, a day nor a length of time.

    >>> [part.tolist() for part in read_numbers(pd.Series([1, "2.5", True, 1j, None], dtype=object))]
    [[1.0, 2.5, nan, nan, nan], [False, False, True, True, False]]
    """
    if isinstance(values.dtype, pd.CategoricalDtype):
        values = values.astype(object)
    if isinstance(values.dtype, np.dtype) and values.dtype.kind in "fiu":
        numbers: NDArray[Any] = values.to_numpy("float64")
        return numbers, np.zeros(len(values), dtype=bool)
    there = values.notna().to_numpy()
    if values.dtype == object:
        odd = np.fromiter((isinstance(value, NO_NUMBERS) for value in values), bool, len(values)) & there
        values = values.mask(odd)
    else:
        odd = np.full(
            len(values), is_bool_dtype(values) or not is_numeric_dtype(values) and not is_string_dtype(values)
        )
        odd |= is_complex_dtype(values)
    if odd.all():
        return np.full(len(values), np.nan), there & odd
    numbers = pd.to_numeric(values, errors="coerce").astype("float64").to_numpy()
    return numbers, np.isnan(numbers) & there


def ratio(value: Any, inverse: bool = False) -> Fraction:
    """The ratio that multiplies prices. With `inverse` a number gives new shares for an old one.

    >>> ratio("2:1"), ratio(0.5), ratio(3.0, inverse=True), ratio(1 / 3), ratio("7514/7609")
    (Fraction(1, 2), Fraction(1, 2), Fraction(1, 3), Fraction(1, 3), Fraction(7514, 7609))
    """
    if isinstance(value, (bool, np.bool_)):
        raise TypeError(f"{value} is no ratio")
    if isinstance(value, str) and ":" in value:
        new, old = map(Fraction, value.split(":"))
        return old / new
    if is_narrow(value):
        value = _of_narrow(value)
    if isinstance(value, float):
        value = Fraction(value).limit_denominator(int(10**9 / max(1, value)))
    exact = Fraction(int(value) if isinstance(value, np.integer) else value)
    return 1 / exact if inverse else exact


def is_narrow(value: Any) -> bool:
    """Whether a value is a float of 32 or 16 bits."""
    return isinstance(value, np.floating) and value.itemsize < 8


def _of_narrow(value: Any) -> Fraction:
    """The fraction that a float of 32 or 16 bits stands for: the only one of numbers up to 2,048, or up to 16.

    >>> _of_narrow(np.float32(1 / 3)), _of_narrow(np.float32(1.5)), _of_narrow(np.float16(0.1))
    (Fraction(1, 3), Fraction(3, 2), Fraction(1, 10))
    """
    most = 2 ** ((np.finfo(type(value)).nmant - 1) // 2)
    exact = Fraction(float(value))
    found = exact.limit_denominator(most) if exact <= 1 else 1 / (1 / exact).limit_denominator(most)
    if found.numerator > most or type(value)(found.numerator / found.denominator) != value:
        raise ValueError(f"{value} is none of numbers up to {most}")
    return found
