"""Terms: immutable Python objects with Zipline's methods and operators, which the program's language can say.

A term is what it is written as: a form, a name, what it is of, and its named arguments. Equal terms are one object, as
in Zipline, so that what is used twice is computed once. Python decides only what kind a thing is; windows, ranges and
what may be in a window are judged by the program.

Unless a docstring says otherwise, a value has the units of its input, the rule is Zipline's of the same name, and the
result is the exact one rounded once to the nearest millionth, ties away from zero: half a millionth from a float's at
most.

>>> from tohmeril.pipeline.data import EquityPricing
>>> price = EquityPricing.close.latest
>>> (price > 5) & price.notnull()
close.latest > 5 & close.latest.notnull()
>>> price.rank(ascending=False) is EquityPricing.close.latest.rank(ascending=False)
True
"""

from __future__ import annotations

import math
import operator
import re
import warnings
from decimal import ROUND_HALF_UP, Decimal
from functools import partial, reduce
from numbers import Integral, Real
from typing import Any, Callable, Iterable, Mapping, NamedTuple, NoReturn, Optional, TypeVar, Union
from weakref import WeakValueDictionary

import numpy as np

CALL, MEMBER, PROPERTY, INFIX, PREFIX, WORD, TEXT, ALIAS, COMPUTED = (
    "call",
    "member",
    "property",
    "infix",
    "prefix",
    "word",
    "text",
    "alias",
    "computed",
)
OPERATORS: Mapping[str, Callable[..., Any]] = {  # Python's operators by numpy's names
    "add": operator.add,
    "subtract": operator.sub,
    "multiply": operator.mul,
    "divide": operator.truediv,
    "true_divide": operator.truediv,
    "negative": operator.neg,
    "absolute": operator.abs,
    "power": operator.pow,
    "remainder": operator.mod,
    "floor_divide": operator.floordiv,
    "less": operator.lt,
    "less_equal": operator.le,
    "greater": operator.gt,
    "greater_equal": operator.ge,
    "equal": operator.eq,
    "not_equal": operator.ne,
    "bitwise_and": operator.and_,
    "logical_and": operator.and_,
    "bitwise_or": operator.or_,
    "logical_or": operator.or_,
    "invert": operator.invert,
    "logical_not": operator.invert,
}
GREATEST = Decimal(10) ** 11  # no cell has a greater magnitude
Number = Union[int, float, Decimal]
Value = Union["Factor", Number]
Mask = Optional["Filter"]
Group = Optional["Classifier"]


Same = TypeVar("Same", bound="Term")
Item = TypeVar("Item")


class Inexpressible(NotImplementedError):
    """The language has no such thing; the message names the nearest one that it has."""


class NonWindowSafeInput(ValueError):
    """A window over a factor whose values must not be in one, as that of Zipline's errors."""


class Absent:
    """A name of Zipline's that the language cannot say. Whoever calls it, or subclasses it, learns what comes nearest.

    >>> Absent("MaxDrawdown", "WindowMax and arithmetic")()
    Traceback (most recent call last):
    tohmeril.pipeline.term.Inexpressible: the language has no MaxDrawdown; nearest: WindowMax and arithmetic
    """

    def __init__(self, name: str, nearest: str):
        self.name, self.nearest = name, nearest

    @classmethod
    def each(cls, names: str, nearest: str) -> list[Absent]:
        """One for each of some names, which have one nearest thing."""
        return [cls(name, nearest) for name in names.split()]

    def __call__(self, *args: object, **kwargs: object) -> NoReturn:
        raise Inexpressible(f"the language has no {self.name}; nearest: {self.nearest}")

    __mro_entries__ = __call__  # as a base class

    def __repr__(self) -> str:
        return f"<no {self.name} in the language; nearest: {self.nearest}>"

    def __getattr__(self, name: str) -> Absent:  # as EWMSTD.from_span
        if name.startswith("_"):
            raise AttributeError(name)
        return self


class Elsewhere(Absent):
    """A name of Zipline's for what is done in another way here."""

    def __call__(self, *args: object, **kwargs: object) -> NoReturn:
        raise Inexpressible(f"there is no {self.name} here: {self.nearest}")

    __mro_entries__ = __call__

    def __repr__(self) -> str:
        return f"<no {self.name} here: {self.nearest}>"


def as_decimal(value: Number) -> Decimal:
    """A number as the program reads it: whole millionths, rounded once, ties away from zero.

    >>> as_decimal(0.1), as_decimal(1.0000005), as_decimal(-3)
    (Decimal('0.1'), Decimal('1.000001'), Decimal('-3'))
    """
    if isinstance(value, bool) or not isinstance(value, (Real, Decimal)):
        raise TypeError(f"{value!r} is no number")
    if not abs(value) <= GREATEST:
        raise Inexpressible(f"the language has no number {value!r}; nearest: {GREATEST:f}, the greatest there is")
    exact = value if isinstance(value, Decimal) else Decimal(int(value) if value == int(value) else repr(float(value)))
    return Decimal(f"{exact.quantize(Decimal('0.000001'), ROUND_HALF_UP):f}".rstrip("0").rstrip("."))


def as_factor(value: Value) -> Factor:
    """A factor, or a number in place of one; a NaN becomes a division by zero, which is missing."""
    if isinstance(value, Factor):
        return value
    if isinstance(value, BoundColumn):
        raise TypeError(f"{value!r} is a column of {value.holds} and no factor: write .latest for its newest value")
    if isinstance(value, float) and math.isnan(value):
        return Factor(INFIX, "/", as_factor(1), as_factor(0))
    return Factor(WORD, f"{as_decimal(value):f}")


class Term:
    """What a pipeline is made of. `args` are terms, numbers and texts in the language's order, `options` its named
    arguments.
    """

    __slots__ = ("form", "name", "args", "options", "__weakref__")
    form: str
    name: str
    args: tuple[Union[Term, Decimal, str], ...]
    options: tuple[tuple[str, Union[Term, str]], ...]
    sort = ""
    is_computed = False  # whether code of one's own computes it (tohmeril.pipeline.custom)
    _known: WeakValueDictionary[tuple[object, ...], Any] = WeakValueDictionary()

    def __new__(
        cls: type[Same], form: str, name: str, *args: Union[Term, Number, str], **options: Union[Term, str, None]
    ) -> Same:
        given = tuple((key, value) for key, value in options.items() if value is not None)
        for key, value in given:
            wanted = {"mask": Filter, "groupby": Classifier}.get(key, object)
            if not isinstance(value, wanted):
                column = f": write {value!r}.latest" if getattr(value, "holds", "") == "labels" else ""
                raise TypeError(f"{key} of {name} has to be a {wanted.__name__.lower()}, and is {value!r}{column}")
        for arg in args if form == CALL else ():
            require_window_safe(name, arg)
        parts = form, name, tuple(arg if isinstance(arg, (Term, str)) else as_decimal(arg) for arg in args), given
        known: Optional[Same] = Term._known.get((cls, *parts))
        if known is not None:
            return known
        term = super().__new__(cls)
        for slot, part in zip(Term.__slots__, parts):
            object.__setattr__(term, slot, part)
        found: Same = Term._known.setdefault((cls, *parts), term)
        return found

    @property
    def terms(self) -> list[Term]:
        """The terms that this one is of, from left to right."""
        return [part for part in (*self.args, *(value for _, value in self.options)) if isinstance(part, Term)]

    @property
    def _kind(self: Same) -> type[Same]:
        """The class of what is made of it by `alias` and `downsample`."""
        return type(self)

    def alias(self: Same, name: str) -> Same:
        """The same term, under this name in the text of the pipeline."""
        return self._kind(ALIAS, name, self)

    def downsample(self: Same, frequency: str) -> Same:
        """Value on the first session of the year, quarter, month or week, kept through all of it, as it was seen then.

        `frequency` is "year_start", "quarter_start", "month_start" or "week_start"; weeks begin on Monday. Exact.
        """
        return self._kind(MEMBER, "downsample", self, frequency)

    def __setattr__(self, name: str, value: object) -> None:
        if name == "window_safe":
            raise AttributeError(
                "terms do not change, nor does what may be in a window: a window can be over Returns, ranks, "
                'zscores and what the column "In a window" of docs/TERMS.md says'
            )
        raise AttributeError("terms do not change")

    def __array_ufunc__(self, ufunc: np.ufunc, method: str, *inputs: object, **options: object) -> Any:
        """A function of numpy is the operator or the method of its name: ``np.log(y)`` is ``y.log()``."""
        given = [
            each.item() if isinstance(each, (np.generic, np.ndarray)) and not each.ndim else each for each in inputs
        ]
        if method == "__call__" and not options and not any(isinstance(each, np.ndarray) for each in given):
            if ufunc.__name__ in OPERATORS:
                return OPERATORS[ufunc.__name__](*given)
            if ufunc.__name__ in ("maximum", "minimum"):  # of two, in either order
                return getattr(self, ufunc.__name__)(given[given[0] is self])
            if len(given) == 1:
                absent = Absent(f"numpy.{ufunc.__name__}", "the methods and operators of a factor")
                return (
                    getattr(self, ufunc.__name__, absent) if isinstance(self, Factor) else getattr(self, ufunc.__name__)
                )()
        raise TypeError(
            f"numpy's {ufunc.__name__} takes no {self!r}: a pipeline is computed later, so that it has no values yet"
        )

    def __reduce__(self) -> tuple[Callable[[], Term], tuple[()]]:
        return partial(type(self), self.form, self.name, *self.args, **dict(self.options)), ()

    def __repr__(self) -> str:
        from .script import expression

        return expression(self)

    def __bool__(self) -> NoReturn:
        raise TypeError(
            f"{self!r} is true or false only in a table: join filters by & | ~, and compare twice for a < b < c"
        )

    def __eq__(self, other: object) -> bool:
        if isinstance(other, (Real, str)):
            raise TypeError(f"== says whether two terms are one; write .eq({other!r}) for a filter")
        return self is other

    __hash__ = object.__hash__


def _infix(sign: str, doc: str, result: Optional[type[Term]] = None, turned: bool = False) -> Callable[[Any, Any], Any]:
    def infix(self: Factor, other: Value) -> Any:
        if not isinstance(other, (Factor, Real, Decimal)):
            return NotImplemented
        left, right = (other, self) if turned else (self, other)
        return (result or Factor)(INFIX, sign, as_factor(left), as_factor(right))

    infix.__doc__ = doc
    return infix


def _arithmetic(sign: str, doc: str) -> tuple[Callable[[Any, Any], Any], Callable[[Any, Any], Any]]:
    return _infix(sign, doc), _infix(sign, doc, turned=True)


class BoundColumn(Term):
    """A column of bars, such as `EquityPricing.close`: an input of windows, and by `latest` a factor."""

    __slots__ = ()
    holds = "bars"

    @property
    def latest(self) -> Factor:
        """Newest value, that of the session before, as today sees it. Missing where there is no bar. Exact."""
        return Factor(PROPERTY, "latest", self)

    def __getattr__(self, name: str) -> NoReturn:
        raise AttributeError(
            f"{self!r} is a column of {self.holds} and has no {name}: write {self!r}.latest for its newest value"
        )


class DataColumn(BoundColumn):
    """A column of a DataSet, which goes by `name` in the data.

    Attributes
    ----------
    qualname : str
        The names of the DataSet and of the attribute.
    dtype : numpy.dtype
    missing_value : object
    """

    __slots__ = ()
    dtype: np.dtype[Any]
    missing_value: Any
    alias: Any = property()  # that of `latest`, as the next one
    downsample: Any = property()

    @property
    def qualname(self) -> str:
        """The names of the DataSet and of the attribute."""
        return str(self.args[0])

    def __repr__(self) -> str:
        return self.qualname


class NumberColumn(DataColumn):
    """A column of numbers, such as `Fundamentals.earnings`: those that go by `name` in the data.

    As an input of windows it is its `latest`, so that a window of W holds today's value and those of the W - 1 sessions
    before.
    """

    __slots__ = ()
    holds = "numbers"
    dtype = np.dtype("float64")
    missing_value = np.nan

    @property
    def latest(self) -> Factor:
        """The value that became known last, of those known by today. Missing where there is none, or where it ended.
        Exact.
        """
        return Factor(CALL, "number", self)


class TruthColumn(DataColumn):
    """A column of truth values: numbers, of which 1 is true."""

    __slots__ = ()
    holds = "truth values"
    dtype = np.dtype("bool")
    missing_value = False

    @property
    def latest(self) -> Filter:  # type: ignore[override]
        """Whether the number that became known last is 1; false where there is none. Exact."""
        return Factor(CALL, "number", self).eq(1)


class TextColumn(DataColumn):
    """A column of texts: the labels that go by `name` in the data."""

    __slots__ = ()
    holds = "labels"
    dtype = np.dtype("O")
    missing_value = None

    @property
    def latest(self) -> Text:  # type: ignore[override]
        """The label that holds today. Exact."""
        return Text(CALL, "label", self)


class CodeColumn(DataColumn):
    """A column of whole numbers, such as codes of sectors: labels that are such. Their `latest` is a classifier, as in
    Zipline.
    """

    __slots__ = ()
    holds = "labels"
    dtype = np.dtype("int64")

    @property
    def missing_value(self) -> int:
        """What the table has where there is none."""
        return int(str(self.args[1]))

    @property
    def latest(self) -> Whole:  # type: ignore[override]
        """The number that holds today. Exact."""
        return Whole(CALL, "label", self)


class Filter(Term):
    """True or false for each asset and session; false where the asset does not exist."""

    __slots__ = ()
    sort = "filter"

    def __and__(self, other: Filter) -> Filter:
        """True where both are."""
        return Filter(INFIX, "&", self, other) if isinstance(other, Filter) else NotImplemented

    def __or__(self, other: Filter) -> Filter:
        """True where one of the two is."""
        return Filter(INFIX, "|", self, other) if isinstance(other, Filter) else NotImplemented

    def __invert__(self) -> Filter:
        """True where this one is false, for an asset that exists."""
        return Filter(PREFIX, "~", self)

    def if_else(self, if_true: Value, if_false: Value) -> Factor:
        """`if_true` where the filter is true, else `if_false`. Zipline's, for factors and numbers alone. Exact."""
        if isinstance(if_true, Classifier) or isinstance(if_false, Classifier):
            Absent("if_else of classifiers", "if_else of factors, or labels of another name in the labels file")()
        return Factor(MEMBER, "if_else", self, as_factor(if_true), as_factor(if_false))


class Factor(Term):
    """A number for each asset and session, in whole millionths, or none."""

    __slots__ = ()
    sort = "factor"

    __add__, __radd__ = _arithmetic("+", "x + y, missing where one is. Exact.")
    __sub__, __rsub__ = _arithmetic("-", "x - y, missing where one is. Exact.")
    __mul__, __rmul__ = _arithmetic("*", "x y, missing where one is. Units: those of x times those of y. Rounds once.")
    __truediv__, __rtruediv__ = _arithmetic(
        "/", "x / y, missing where one is or y is 0. Units: those of x over those of y. " "Rounds once."
    )
    __lt__, __le__, __gt__, __ge__ = (
        _infix(sign, f"True where x {sign} y and both are present. Exact.", Filter) for sign in ("<", "<=", ">", ">=")
    )
    __ne__ = _infix(
        "!=", "True where both are present and differ: false where one is missing, which is ours. Exact.", Filter
    )

    def eq(self, other: Value) -> Filter:
        """True where both are present and equal, to the millionth: floats are seldom equal, whole millionths often."""
        return Filter(INFIX, "==", self, as_factor(other))

    def __neg__(self) -> Factor:
        """-x. Exact."""
        return Factor(PREFIX, "-", self)

    def __pow__(self, power: float) -> Factor:
        """x * x * .., for a whole power from 1 to 32; ours rounds at each multiplication. ``y ** 0.5`` is its `sqrt`."""
        if power == 0.5:
            return self.sqrt()
        if power not in range(1, 33):
            Absent(f"** {power!r}", "0.5 and whole powers from 1 to 32; (y.log() * p).exp() of values above 0")()
        product = self
        for _ in range(int(power) - 1):
            product = product * self
        return product

    def abs(self) -> Factor:
        """Magnitude. Exact."""
        return Factor(MEMBER, "abs", self)

    def log(self) -> Factor:
        """Natural logarithm; missing unless x is above 0, where Zipline's is -inf or NaN. Rounds once."""
        return Factor(MEMBER, "log", self)

    def log1p(self) -> Factor:
        """``(1 + x).log()``. Rounds once."""
        return Factor.log(1 + self)

    def log10(self) -> Factor:
        """``x.log() / 2.302585``, the logarithm to base 10, to two millionths."""
        base_ten: Factor = self.log() / 2.302585
        return base_ten

    def exp(self) -> Factor:
        """e to the power of x; missing above 25.328436, where it is past 100,000,000,000. Rounds once."""
        return Factor(MEMBER, "exp", self)

    def expm1(self) -> Factor:
        """``x.exp() - 1``. Rounds once."""
        less_one: Factor = self.exp() - 1
        return less_one

    def sqrt(self) -> Factor:
        """Square root; missing below 0. Rounds once."""
        return Factor(MEMBER, "sqrt", self)

    def sign(self) -> Factor:
        """-1, 0 or 1. Ours, as numpy's of the same name; a window can be over it. Exact."""
        return Factor(MEMBER, "sign", self)

    def age(self, unit: str = "days") -> Factor:
        """Days from the one on which the newest number became known, which counts, to the session's, which does not.

        Of the `latest` of a `Column(float)`. With "business_days" Mondays to Fridays count alone. Missing where the
        number is. Ours; a window can be over it. Exact.
        """
        if self.form != CALL or self.name != "number":
            raise TypeError(f"age: {self!r} is no number of a DataSet: write Fundamentals.earnings.latest.age()")
        return Factor(MEMBER, "age", self, *([] if unit == "days" else [unit]))

    def maximum(self, other: Value) -> Factor:
        """The greater of x and y, missing where one is. Ours, as numpy's of the same name. Exact."""
        return Factor(MEMBER, "maximum", self, as_factor(other))

    def minimum(self, other: Value) -> Factor:
        """The lesser of x and y, missing where one is. Ours, as numpy's of the same name. Exact."""
        return Factor(MEMBER, "minimum", self, as_factor(other))

    def isnull(self) -> Filter:
        """True where there is no value, for an asset that exists."""
        return Filter(MEMBER, "isnull", self)

    def notnull(self) -> Filter:
        """True where there is a value."""
        return Filter(MEMBER, "notnull", self)

    # there are no infinities: what is too great is missing
    __abs__, isnan, notnan, isfinite = abs, isnull, notnull, notnull

    def clip(self, min_bound: float, max_bound: float) -> Factor:
        """`min_bound` where x is below it, `max_bound` where x is above it, else x. Exact; the bounds round to
        millionths.
        """
        low, high = (math.copysign(GREATEST, bound) if math.isinf(bound) else bound for bound in (min_bound, max_bound))
        return Factor(MEMBER, "clip", self, low, high)

    def fillna(self, fill_value: Value) -> Factor:
        """x, and `fill_value` where x is missing. Exact."""
        return Factor(MEMBER, "fillna", self, as_factor(fill_value))

    def rank(self, method: str = "ordinal", ascending: bool = True, mask: Mask = None, groupby: Group = None) -> Factor:
        """Place from 1 among the session's values, of the asset's own label with `groupby`. Units: places. Exact.

        Of equal values "ordinal" counts on by ascending sid in both orders, "min" and "max" give the least and the
        greatest of their places, "average" the mean of these two, "dense" counts distinct values. Values equal to the
        millionth are equal.
        """
        return Factor(
            MEMBER,
            "rank",
            self,
            method=None if method == "ordinal" else method,
            order=None if ascending else "descending",
            mask=mask,
            groupby=groupby,
        )

    def demean(self, mask: Mask = None, groupby: Group = None) -> Factor:
        """x less the mean of the session's values, of the asset's own label with `groupby`. Rounds once."""
        return Factor(MEMBER, "demean", self, mask=mask, groupby=groupby)

    def zscore(self, mask: Mask = None, groupby: Group = None) -> Factor:
        """(x - mean) / s, s = sqrt(sum of (v - mean)^2 / n) over the session's values. Units: deviations.

        Missing where s is 0. s is rounded down to millionths before the division, so that a small s shows in the fifth
        decimal.
        """
        return Factor(MEMBER, "zscore", self, mask=mask, groupby=groupby)

    def quantiles(self, bins: int, mask: Mask = None) -> Bins:
        """Bin from 0: how many of the edges 1 to bins - 1 are below x, edge k being k / bins of the way through the
        session's sorted values, on a line between neighbors. Units: number of the bin. Edges are exact, where Zipline's
        are floats.
        """
        return Bins(MEMBER, "quantiles", self, bins, mask=mask)

    def quartiles(self, mask: Mask = None) -> Bins:
        """`quantiles(4)`."""
        return self.quantiles(4, mask)

    def quintiles(self, mask: Mask = None) -> Bins:
        """`quantiles(5)`."""
        return self.quantiles(5, mask)

    def deciles(self, mask: Mask = None) -> Bins:
        """`quantiles(10)`."""
        return self.quantiles(10, mask)

    def winsorize(
        self, min_percentile: float, max_percentile: float, mask: Mask = None, groupby: Group = None
    ) -> Factor:
        """x, drawn in to the value `min_percentile` of the way through the session's sorted values where it is below
        it, and to that at `max_percentile` where it is above.

        Percentiles are shares of 1, to the millionth, as 0.05 and 0.95. The two are values themselves: of n values
        number floor(min n), from 0, and ceil(max n) - 1, where Zipline's products are floats. Missing outside of the
        mask. Exact.
        """
        for share in (min_percentile, max_percentile):
            if not 0 <= as_decimal(share) <= 1:
                raise ValueError(f"winsorize: {share!r} is no share of 1: write {share / 100!r} for {share!r} percent")
        return Factor(MEMBER, "winsorize", self, min_percentile, max_percentile, mask=mask, groupby=groupby)

    def scale(self, mask: Mask = None, groupby: Group = None) -> Factor:
        """x over the sum of the magnitudes of the session's values, so that magnitudes add up to 1. Units: 1.

        Missing where all values are 0. Ours, as scale of the formulaic alphas. Rounds once.
        """
        return Factor(MEMBER, "scale", self, mask=mask, groupby=groupby)

    def where(self, condition: Filter) -> Factor:
        """x where the condition is true, else missing. Ours, as pandas' of the same name. Exact."""
        if not isinstance(condition, Filter):
            raise TypeError(f"where: {condition!r} is no filter: write a comparison, or notnull()")
        return Factor(MEMBER, "where", self, condition)

    def mean(self, mask: Mask = None, groupby: Group = None) -> Factor:
        """Mean of the session's values where the mask is true, of the asset's own label with `groupby`.

        Each asset that exists has it, as in Zipline: also where it has no value, and where the mask is false. Missing
        where there is no value. Rounds once.
        """
        return self._told("mean", mask, groupby)

    def stddev(self, mask: Mask = None, groupby: Group = None) -> Factor:
        """Standard deviation over n of the values, as `mean` is of them. Rounded down to millionths."""
        return self._told("stddev", mask, groupby)

    def sum(self, mask: Mask = None, groupby: Group = None) -> Factor:
        """Sum of the values, as `mean` is of them; of none it is missing, where Zipline's is 0. Exact."""
        return self._told("sum", mask, groupby)

    def min(self, mask: Mask = None, groupby: Group = None) -> Factor:
        """The least of the values, as `mean` is of them. Exact."""
        return self._told("min", mask, groupby)

    def max(self, mask: Mask = None, groupby: Group = None) -> Factor:
        """The greatest of the values, as `mean` is of them. Exact."""
        return self._told("max", mask, groupby)

    def median(self, mask: Mask = None, groupby: Group = None) -> Factor:
        """The value in the middle of the sorted ones, or the mean of the two there, as `mean` is of them. Rounds once."""
        return self._told("median", mask, groupby)

    def percentile(self, percent: float, mask: Mask = None, groupby: Group = None) -> Factor:
        """The point `percent` of the way from the least of the values to the greatest, on a line between neighbors.

        As `mean` is of them; `percent` is whole hundredths from 0 to 100. Ours, as numpy's nanpercentile. Rounds once.
        """
        return self._told("percentile", mask, groupby, percent)

    def notnull_count(self, mask: Mask = None, groupby: Group = None) -> Factor:
        """How many values there are, as `mean` is of them; 0 where there is none. Units: assets. Exact."""
        return self._told("notnull_count", mask, groupby)

    def _told(self, name: str, mask: Mask, groupby: Group, *args: Number) -> Factor:
        """What is told of the session's values where the mask is true: in the language, of `where`."""
        if mask is not None and not isinstance(mask, Filter):
            raise TypeError(f"mask of {name} has to be a filter, and is {mask!r}")
        return Factor(MEMBER, name, self if mask is None else self.where(mask), *args, groupby=groupby)

    def __getitem__(self, asset: object) -> Factor:
        """The value of one asset, by its sid, for each asset that exists: ``returns[8554]``.

        Missing where that asset does not exist. Exact.
        """
        from .filters import SingleAsset

        return self.max(mask=SingleAsset(asset))

    def top(self, N: int, mask: Mask = None, groupby: Group = None) -> Filter:
        """True of the N greatest values of the session; equal ones by ascending sid. Exact."""
        return Filter(MEMBER, "top", self, N, mask=mask, groupby=groupby)

    def bottom(self, N: int, mask: Mask = None, groupby: Group = None) -> Filter:
        """True of the N least values of the session; equal ones by ascending sid. Exact."""
        return Filter(MEMBER, "bottom", self, N, mask=mask, groupby=groupby)

    def percentile_between(self, min_percentile: float, max_percentile: float, mask: Mask = None) -> Filter:
        """True from `min_percentile` of the way through the session's sorted values to `max_percentile`, both ends
        included.

        Percentiles are whole hundredths from 0 to 100. Edges are exact, where Zipline's are floats.
        """
        if isinstance(max_percentile, Real) and max_percentile <= 1:
            warnings.warn(
                f"percentile_between({min_percentile!r}, {max_percentile!r}) is the part of a hundredth of the values "
                f"or less, since percentiles are from 0 to 100: was ({100 * min_percentile:g}, "
                f"{100 * max_percentile:g}) meant?",
                stacklevel=2,
            )
        return Filter(MEMBER, "percentile_between", self, min_percentile, max_percentile, mask=mask)

    def pearsonr(self, target: Factor, correlation_length: int, mask: Mask = None) -> Factor:
        """Pearson's correlation with `target` over so many sessions, 2 or more, where all values of both are present.

        Units: 1. Missing where one of the two does not change, where Zipline has noise. `factors.Correlation` takes
        the pairs of which both are present.
        """
        mask = _all_present(self, target, correlation_length, mask)
        return Factor(CALL, "Correlation", self, target, correlation_length, mask=mask)

    def spearmanr(self, target: Factor, correlation_length: int, mask: Mask = None) -> Factor:
        """`pearsonr` of the ranks of both, equal values having the average of their ranks: Spearman's. Units: 1.

        Missing where one of the two does not change. `factors.RankCorrelation` takes the pairs of which both are
        present.
        """
        mask = _all_present(self, target, correlation_length, mask)
        return Factor(CALL, "RankCorrelation", self, target, correlation_length, mask=mask)

    def linear_regression(self, target: Factor, regression_length: int, mask: Mask = None) -> Regression:
        """`alpha`, `beta`, `r_value`, `p_value`, `stderr` of the line that gives the values from those of `target`.

        Over so many sessions, 2 or more, where all values of both are present; `stderr` is missing for 2. Units: of
        alpha those of the factor, of beta and stderr those of the factor by those of the target. `p_value` is not in
        the language.
        """
        mask = _all_present(self, target, regression_length, mask)

        def made(name: str) -> Factor:
            return Factor(CALL, name, self, target, regression_length, mask=mask)

        return Regression(
            made("RegressionIntercept"), made("RegressionSlope"), made("Correlation"), _P_VALUE, made("RegressionError")
        )


def _all_present(dependent: Factor, target: Factor, length: int, mask: Mask) -> Filter:
    """Where all values of two factors are present over so many sessions, and the mask is true."""
    if not isinstance(target, Factor):
        raise TypeError(f"{target!r} is no factor: the target has to be one")
    present = Filter(CALL, "AllPresent", dependent, length) & Filter(CALL, "AllPresent", target, length)
    return present if mask is None else present & mask


class Regression(NamedTuple):
    """The outputs of `linear_regression`, in Zipline's order."""

    alpha: Factor
    beta: Factor
    r_value: Factor
    p_value: Absent
    stderr: Factor


class Classifier(Term):
    """A label for each asset and session, or none: a text, or the number of a bin."""

    __slots__ = ()
    label: type = str
    isnull, notnull = Factor.isnull, Factor.notnull

    def eq(self, other: Union[str, int], sign: str = "==") -> Filter:
        """True where the label is this one."""
        if not isinstance(other, self.label):
            raise TypeError(f"{self!r} {sign} {other!r}: the labels are of type {self.label.__name__.lower()}")
        return Filter(INFIX, sign, self, other)

    def __ne__(self, other: Union[str, int]) -> Filter:  # type: ignore[override]
        """True where there is a label and it is another one."""
        return self.eq(other, "!=")

    def peer_count(self, mask: Mask = None) -> Factor:
        """How many assets of the session have the asset's own label; missing without one. Units: assets. Exact."""
        return Factor(MEMBER, "peer_count", self, mask=mask)


class Text(Classifier):
    """A text for each asset and session, or none, as its sector. A test of it is false where there is none."""

    __slots__ = ()
    sort = "label"

    def startswith(self, prefix: str) -> Filter:
        """True where the label begins with `prefix`."""
        return Filter(MEMBER, "startswith", self, prefix)

    def endswith(self, suffix: str) -> Filter:
        """True where the label ends with `suffix`."""
        return Filter(MEMBER, "endswith", self, suffix)

    def has_substring(self, substring: str) -> Filter:
        """True where the label holds `substring`."""
        return Filter(MEMBER, "has_substring", self, substring)

    def matches(self, pattern: Union[str, re.Pattern[str]]) -> Filter:
        """True where a regular expression matches from the label's first sign on, as by `re.match`.

        Python computes it, as a `CustomFilter`.
        """
        from .custom import Matches

        found: Filter = Matches(inputs=[self], pattern=re.compile(pattern))
        return found

    def element_of(self, choices: Iterable[str]) -> Filter:
        """True where the label is one of `choices`."""
        return joined_by_or(lambda some: Filter(MEMBER, "element_of", self, *some), choices, 100)


class Whole(Classifier):
    """A whole number for each asset and session, or none; the program has it as a label."""

    __slots__ = ()
    sort = "label"
    label = Integral

    def eq(self, other: Any, sign: str = "==") -> Filter:
        """True where the number is this one."""
        if isinstance(other, bool) or not isinstance(other, Integral):
            raise TypeError(f"{self!r} {sign} {other!r}: the classes are whole numbers")
        return Filter(INFIX, sign, self, str(int(other)))

    def element_of(self, choices: Iterable[int]) -> Filter:
        """True where the number is one of `choices`."""
        listed = list(choices)
        for choice in listed:
            self.eq(choice)
        return joined_by_or(lambda some: Filter(MEMBER, "element_of", self, *map(str, map(int, some))), listed, 100)


class Bins(Classifier):
    """The number of a bin, from 0, for each asset and session, or none."""

    __slots__ = ()
    sort = "number"
    label = Real

    def element_of(self, choices: Iterable[int]) -> Filter:
        """True where the bin is one of `choices`."""
        return joined_by_or(lambda one: self.eq(one[0]), choices, 1)


KEEPING = {"rank", "zscore", "peer_count", "sign", "scale", "notnull_count", "age"}  # values that no adjustment changes


def unsafe_part(term: Term) -> Optional[Term]:
    """The computed factor without `window_safe` by which a term must not be in a window, where there is one."""
    waiting, seen = [term], {term}
    while waiting:
        part = waiting.pop()
        if not isinstance(part, Factor) or part.form == CALL or part.form == MEMBER and part.name in KEEPING:
            continue
        if part.is_computed and not getattr(part, "window_safe", False):
            return part
        new = [each for each in part.terms if each not in seen]
        seen.update(new)
        waiting += new
    return None


def require_window_safe(name: str, term: object) -> None:
    """Refuse a window over a computed factor that is not said to be safe in one."""
    unsafe = unsafe_part(term) if isinstance(term, Factor) else None
    if unsafe is not None:
        raise NonWindowSafeInput(
            f"{name} can't have a window over {term!r}, since {unsafe!r} is not window-safe: a value of it may depend "
            "on adjustments that come between. Give its rank() or zscore(), or let its class say window_safe = True "
            "where no split or dividend changes it, as with a ratio of two prices of its window"
        )


def joined_by_or(make: Callable[[list[Item]], Filter], items: Iterable[Item], size: int) -> Filter:
    """A filter of a list of any length, as filters of at most `size` items joined by |."""
    listed = list(dict.fromkeys(items))
    if not listed:
        Absent("filter of no choices", "~(1 == 1)")()
    return reduce(Filter.__or__, (make(listed[start : start + size]) for start in range(0, len(listed), size)))


for (
    _name
) in (
    "add radd sub rsub mul rmul truediv rtruediv lt le gt ge ne".split()
):  # which say that a column of bars is no factor
    setattr(BoundColumn, f"__{_name}__", getattr(Factor, f"__{_name}__"))

_P_VALUE = Absent(
    "p_value", "beta / stderr over the table, and scipy's t distribution with window - 2 degrees of freedom"
)
_MONOTONE = "y itself where its order counts: rank, top and quantiles of y and of a rising function of it are the same"
_ABSENT = {
    Factor: {
        "__mod__ __floordiv__": "/ and clip",
        "sinh tanh arctan arcsinh": _MONOTONE,
        "sin cos tan cosh arcsin arccos arccosh arctanh": "arithmetic",
    },
    Classifier: {
        "relabel": "labels of another name in the labels file",
        "fillna": "isnull()",
        "__getitem__": "a filter of the label, and the asset's rows of the table",
    },
    Filter: {"__getitem__": "f.if_else(1, 0)[asset], which is 1 where the filter is true of the asset"},
}
_SIGNS = {"__getitem__": "y[asset]", "__mod__": "y % z", "__floordiv__": "y // z"}
for _sort, _names in _ABSENT.items():
    for _each, _nearest in _names.items():
        for _name in _each.split():
            setattr(_sort, _name, Absent(_SIGNS.get(_name, _name), _nearest))
