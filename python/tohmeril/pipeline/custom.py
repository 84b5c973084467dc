"""Terms that code of one's own computes: Zipline's CustomFactor, CustomFilter and CustomClassifier.

What `compute` is given is the program's: windows as the session sees them, and the assets that exist on it and pass the
mask. What it writes is a number beside bars, or a label, that is known on that very session, so that ranks, screens,
groups and windows over it are the program's again. What `compute` does in between is not proved, and it has to be a
function of what it is given alone: then a range in pieces is the whole one.

>>> from tohmeril.pipeline.data import EquityPricing
>>> class Momentum(CustomFactor):
...     inputs = [EquityPricing.close]
...     window_length = 252
...     def compute(self, today, assets, out, close):
...         out[:] = close[-22] / close[0] - 1
>>> Momentum(), Momentum(window_length=126).rank()
(Momentum(close, 252), Momentum(close, 126).rank())
>>> Momentum() is Momentum()
True
"""

from __future__ import annotations

import inspect
from collections.abc import Mapping
from numbers import Integral, Real
from typing import Any, Iterable, Iterator, Optional, Sequence, TypeVar, Union
from weakref import WeakValueDictionary

import numpy as np

from .data import LabelColumn
from .term import (
    COMPUTED,
    INFIX,
    Absent,
    BoundColumn,
    Classifier,
    DataColumn,
    Factor,
    Filter,
    Term,
    Text,
    Whole,
    as_factor,
    require_window_safe,
)

MOST = 1260  # sessions of a window
Own = TypeVar("Own", bound="Custom")
_CLASS = object()  # in place of what the class has
_NONE = object()  # in place of what has no default
TAKEN = {"form", "args", "options", "sort", "terms", "leaves", "is_computed"}  # which no class may have for itself
FIXED = ("inputs", "outputs", "window_length", "mask", "dtype", "missing_value", "window_safe", "params")


class Custom(Term):
    """What is common to the three: how a term of a class with `compute` is made. Class attributes are defaults.

    Attributes
    ----------
    inputs : sequence of Term
        Columns of bars, labels, and terms that may be in a window.
    window_length : int
        How many sessions each input has, from 1 to 1,260.
    params : sequence of str or mapping
        Names of what `compute` takes beside its inputs, with defaults in a mapping.
    window_safe : bool
        Whether a window may be over it, as no split or dividend changes its values.
    """

    inputs: Any = ()
    outputs: Any = ()
    window_length: Any = None
    mask: Any = None
    dtype: Any = None
    missing_value: Any = None
    window_safe: Any = False
    params: Any = ()
    leaves: tuple[Term, ...]  # what the program is given: numbers, or labels
    is_computed = True
    _made: WeakValueDictionary[tuple[Any, ...], Any] = WeakValueDictionary()

    def __init_subclass__(cls) -> None:
        for name in TAKEN & cls.__dict__.keys():
            if not cls.__module__.startswith("tohmeril."):
                raise TypeError(f"{cls.__name__}.{name}: a term has something of this name already: choose another one")

    def __new__(
        cls: type[Own],
        inputs: Any = _CLASS,
        outputs: Any = _CLASS,
        window_length: Any = _CLASS,
        mask: Any = _CLASS,
        dtype: Any = _CLASS,
        missing_value: Any = _CLASS,
        **params: Any,
    ) -> Own:
        if not callable(getattr(cls, "compute", None)):
            raise TypeError(
                f"{cls.__name__} has no compute: write a class below it with def compute(self, today, assets, out, ..)"
            )
        own = {
            "inputs": inputs,
            "outputs": outputs,
            "window_length": window_length,
            "mask": mask,
            "dtype": dtype,
            "missing_value": missing_value,
            "window_safe": params.pop("window_safe", _CLASS),
        }
        given = {name: getattr(cls, name) if value is _CLASS else value for name, value in own.items()}
        parts = {
            "inputs": _inputs(cls, given["inputs"]),
            "outputs": _outputs(cls, given["outputs"]),
            "window_length": _length(cls, given["window_length"]),
            "mask": _mask(cls, given["mask"]),
            **_type(cls, given["dtype"], given["missing_value"]),
            "window_safe": bool(given["window_safe"]),
            "params": _params(cls, params),
        }
        _require_places(cls, parts)
        return cls._one(parts)

    @classmethod
    def _one(cls: type[Own], parts: dict[str, Any]) -> Own:
        """The term of these parts, which is one object however often it is made."""
        params = tuple(sorted(parts["params"].items()))
        key = (cls, *(repr(parts[name]) if name == "missing_value" else parts[name] for name in FIXED[:-1]), params)
        try:
            known: Optional[Own] = Custom._made.get(key)
        except TypeError:
            wrong = next(name for name, value in params if not _is_hashable(value))
            raise TypeError(
                f"{cls.__name__}: {wrong} is {parts['params'][wrong]!r}, which may change: give a tuple, a number, a text"
            ) from None
        if known is not None:
            return known
        term: Own = object.__new__(cls)
        for name, value in {**parts, "form": COMPUTED, "name": cls.__name__, "args": (), "options": ()}.items():
            object.__setattr__(term, name, value)
        object.__setattr__(term, "leaves", term._leaves())
        made: Own = Custom._made.setdefault(key, term)
        return made

    def _leaves(self) -> tuple[Term, ...]:
        return (self,)

    def __setattr__(self, name: str, value: object) -> None:
        if name == "window_safe":
            raise AttributeError(
                "terms do not change: write window_safe = True into the class, or "
                f"{type(self).__name__}(window_safe=True)"
            )
        if name in FIXED or name in Term.__slots__ or name == "leaves":
            raise AttributeError("terms do not change")
        object.__setattr__(self, name, value)  # what compute keeps for itself

    def __repr__(self) -> str:
        listed = [*map(repr, self.inputs), str(self.window_length)]
        listed += [f"{name}={value!r}" for name, value in self.params.items()]
        listed += [f"mask={self.mask!r}"] * (self.mask is not None)
        return f"{type(self).__name__}({', '.join(listed)})"

    def __reduce__(self) -> Any:
        return _again, (type(self), {name: getattr(self, name) for name in FIXED})


def _again(cls: type[Custom], parts: dict[str, Any]) -> Custom:
    """The same term in another process."""
    return cls._one(parts)


class CustomFactor(Custom, Factor):
    """A factor of one's own. Zipline's of this name: a class below it has `compute`, and most have `inputs` and
    `window_length`.

    ``compute(self, today, assets, out, *inputs, **params)`` is called for each session, in their order, with the sids
    of the assets that exist on it and pass the mask. Each input is an array with a row for each session of the window,
    oldest first, and a column for each of these assets: of a column of bars the `window_length` sessions before today,
    as today sees them; of a term its values of today and of the sessions before. Factors are floats with NaN for a
    missing value, filters booleans, labels texts with None, bins whole numbers with -1. What is written into `out` is
    rounded to millionths, ties away from zero; NaN and infinities are missing, and so is what is beyond
    100,000,000,000, of which a warning tells. An asset outside of the mask has the missing value.

    Parameters
    ----------
    inputs, window_length, mask, dtype, missing_value, outputs, window_safe
        In place of those of the class. `dtype` is float64 or int64; `outputs` are names, each of them a factor.
    **params
        The values of `params`.

    Examples
    --------
    >>> from tohmeril.pipeline.data import EquityPricing
    >>> class Spread(CustomFactor):
    ...     inputs = [EquityPricing.high, EquityPricing.low]
    ...     window_length = 20
    ...     params = {"part": 0.5}
    ...     outputs = ["usual", "widest"]
    ...     def compute(self, today, assets, out, high, low, part):
    ...         out.usual[:] = np.nanquantile(high - low, part, axis=0)
    ...         out.widest[:] = np.nanmax(high - low, axis=0)
    >>> usual, widest = Spread()
    >>> usual.rank()
    Spread(high, low, 20, part=0.5).usual.rank()
    """

    dtype = np.float64
    missing_value = _NONE

    @property
    def _kind(self) -> Any:
        return Factor

    def _leaves(self) -> tuple[Term, ...]:
        return tuple(Output(self, name) for name in self.outputs) or (self,)

    def __iter__(self) -> Iterator[Term]:
        if not self.outputs:
            raise TypeError(f"{self!r} has one output; outputs = [..] in its class gives it several")
        return iter(self.leaves)

    def __getattr__(self, name: str) -> Any:
        outputs: tuple[str, ...] = object.__getattribute__(self, "outputs")
        if name in outputs:
            return self.leaves[outputs.index(name)]
        raise AttributeError(f"{type(self).__name__} has no {name}")


class CustomFilter(Custom, Filter):
    """A filter of one's own, whose `compute` writes truth values; as `CustomFactor` otherwise. A window may be over it.

    >>> from tohmeril.pipeline.data import EquityPricing
    >>> class Rising(CustomFilter):
    ...     inputs = [EquityPricing.close]
    ...     window_length = 3
    ...     def compute(self, today, assets, out, close):
    ...         out[:] = (np.diff(close, axis=0) > 0).all(axis=0)
    >>> Rising() & ~Rising(window_length=5)
    Rising(close, 3) & ~Rising(close, 5)
    """

    dtype = np.bool_
    missing_value = False
    window_safe = True

    @property
    def _kind(self) -> Any:
        return Filter

    def _leaves(self) -> tuple[Term, ...]:
        leaf = Output(self, "")  # a number, which is 1 where the filter is true
        for name, value in {"form": INFIX, "name": "==", "args": (leaf, as_factor(1))}.items():
            object.__setattr__(self, name, value)
        return (leaf,)


class Matches(CustomFilter):
    """True where a regular expression matches from a label's first sign on."""

    window_length = 1
    params = ("pattern",)

    def compute(self, today: Any, assets: Any, out: Any, names: Any, pattern: Any) -> None:
        found = {name: name is not None and pattern.match(name) is not None for name in set(names[0])}
        out[:] = [found[name] for name in names[0]]


class CustomClassifier(Custom, Classifier):
    """A classifier of one's own; that of `CustomFactor` otherwise. A window may be over it.

    Parameters
    ----------
    dtype
        int64, where `compute` writes whole numbers and -1, or another `missing_value`, for none; or object, where it
        writes texts, and None or an empty one for none. The program has either as a label, of which a run reads
        200,000: one for each asset and session on which it changes.

    Examples
    --------
    >>> from tohmeril.pipeline.data import EquityPricing
    >>> class Half(CustomClassifier):
    ...     inputs = [EquityPricing.volume]
    ...     window_length = 20
    ...     dtype = np.int64
    ...     def compute(self, today, assets, out, volume):
    ...         total = np.nansum(volume, axis=0)
    ...         out[:] = total > np.median(total)
    >>> Half().eq(1)
    Half(volume, 20) == "1"
    """

    sort = "label"
    dtype = np.int64
    missing_value = _NONE
    window_safe = True

    @property
    def _kind(self) -> Any:
        return Whole if np.dtype(self.dtype).kind == "i" else Text

    def eq(self, other: Any, sign: str = "==") -> Filter:
        """True where the label is this one."""
        found: Filter = self._kind.eq(self, other, sign)
        return found

    def element_of(self, choices: Iterable[Any]) -> Filter:
        """True where the label is one of `choices`."""
        found: Filter = self._kind.element_of(self, choices)
        return found

    def startswith(self, prefix: str) -> Filter:
        """True where the label begins with `prefix`."""
        return Text.startswith(self._text(), prefix)

    def endswith(self, suffix: str) -> Filter:
        """True where the label ends with `suffix`."""
        return Text.endswith(self._text(), suffix)

    def has_substring(self, substring: str) -> Filter:
        """True where the label holds `substring`."""
        return Text.has_substring(self._text(), substring)

    def matches(self, pattern: Any) -> Filter:
        """True where a regular expression matches from the label's first sign on, as by `re.match`."""
        return Text.matches(self._text(), pattern)

    def _text(self) -> Any:
        if self._kind is Whole:
            raise TypeError(f"{self!r} has whole numbers, which have no beginning and no end: write .eq or .element_of")
        return self


class Output(Factor):
    """One of the outputs of a custom factor, or the number of a custom filter."""

    __slots__ = ("custom", "output")
    custom: Custom
    output: str
    is_computed = True

    def __new__(cls, custom: Custom, output: str) -> Output:
        term = object.__new__(cls)
        name = "_".join([type(custom).__name__, output][: 1 + bool(output)])
        made = {"form": COMPUTED, "name": name, "args": (), "options": (), "custom": custom, "output": output}
        for slot, value in made.items():
            object.__setattr__(term, slot, value)
        return term

    @property
    def window_safe(self) -> bool:
        """Whether a window may be over it."""
        return bool(self.custom.window_safe)

    @property
    def _kind(self) -> Any:
        return Factor

    def __repr__(self) -> str:
        return f"{self.custom!r}.{self.output}" if self.output else repr(self.custom)

    def __reduce__(self) -> Any:
        return _output, (self.custom, self.output)


def _output(custom: Custom, output: str) -> Term:
    """The same output in another process."""
    return next(leaf for leaf in custom.leaves if getattr(leaf, "output", "") == output)


def custom_of(leaf: Term) -> Custom:
    """The term of which something that the program is given is a result."""
    found = leaf.custom if isinstance(leaf, Output) else leaf
    assert isinstance(found, Custom), leaf
    return found


def output_of(leaf: Term) -> str:
    """Its name among the outputs; empty for the only one."""
    return leaf.output if isinstance(leaf, Output) else ""


def piece_of(leaf: Term) -> str:
    """What is computed, as it is written without what it is of."""
    custom = custom_of(leaf)
    params = [f"{name}={value!r}" for name, value in custom.params.items()]
    own = f"{type(custom).__name__}({', '.join([str(custom.window_length), *params])})"
    return f"{own}.{output_of(leaf)}" if output_of(leaf) else own


def bars_of(custom: Custom) -> list[str]:
    """The columns of bars that it is given, each once."""
    return list(dict.fromkeys(part.name for part in custom.inputs if isinstance(part, BoundColumn)))


def parts_of(custom: Custom) -> list[Term]:
    """The terms whose values it is given, each once."""
    return list(dict.fromkeys(part for part in custom.inputs if not isinstance(part, BoundColumn)))


def new_out(custom: Custom, count: int) -> Any:
    """An array for the results of so many assets, filled with the missing value; with outputs a record array."""
    if not custom.outputs:
        return np.full(count, custom.missing_value, custom.dtype)
    out = np.recarray((count,), dtype=[(name, custom.dtype) for name in custom.outputs])
    for name in custom.outputs:
        out[name] = custom.missing_value
    return out


def require_one(term: Term) -> None:
    """Refuse a term of several outputs where one of them is meant."""
    if isinstance(term, CustomFactor) and term.outputs:
        raise TypeError(f"{term!r} has the outputs {', '.join(term.outputs)}: give one, as {term!r}.{term.outputs[0]}")


def _is_hashable(value: object) -> bool:
    try:
        hash(value)
    except TypeError:
        return False
    return True


def _inputs(cls: type[Custom], given: Any) -> tuple[Term, ...]:
    """The inputs as terms: columns of bars, and the newest values of numbers and labels."""
    listed = [given] if isinstance(given, (Term, LabelColumn)) else given
    if not isinstance(listed, (list, tuple)):
        raise TypeError(
            f"{cls.__name__}: inputs are a list of columns and terms, as [EquityPricing.close], not {given!r}"
        )
    found = []
    for part in listed:
        term = part.latest if isinstance(part, (DataColumn, LabelColumn)) else part
        if not isinstance(term, Term):
            raise TypeError(
                f"{cls.__name__}: {part!r} can't be its input, which is a column of bars, of numbers or of labels, or "
                "a factor, filter or classifier"
            )
        require_one(term)
        require_window_safe(cls.__name__, term)
        found.append(term)
    return tuple(found)


def _require_places(cls: type[Custom], parts: dict[str, Any]) -> None:
    """Refuse as many inputs as `compute` has no places for."""
    try:
        places = list(inspect.signature(getattr(cls, "compute")).parameters.values())[4:]
    except (TypeError, ValueError):  # it is no function of Python
        return
    kinds = inspect.Parameter.POSITIONAL_ONLY, inspect.Parameter.POSITIONAL_OR_KEYWORD
    named = [each for each in places if each.kind in kinds and each.name not in parts["params"]]
    least, count = sum(each.default is each.empty for each in named), len(parts["inputs"])
    some = any(each.kind is inspect.Parameter.VAR_POSITIONAL for each in places)
    if count < least or count > len(named) and not some:
        taken = ", ".join(each.name for each in named) or "none"
        raise TypeError(
            f"{cls.__name__}: its compute takes {taken} behind out, and there are {count} inputs: write inputs = [..], "
            "as [EquityPricing.close], into the class or the call"
        )


def _outputs(cls: type[Custom], given: Any) -> tuple[str, ...]:
    if not given:
        return ()
    if not issubclass(cls, CustomFactor):
        raise TypeError(f"{cls.__name__}: a filter and a classifier have one output, and no outputs = {given!r}")
    names = (given,) if isinstance(given, str) else tuple(given)
    for name in names:
        if not isinstance(name, str) or not name.isidentifier() or hasattr(CustomFactor, name) or names.count(name) > 1:
            raise ValueError(
                f"{cls.__name__}: {name!r} can't be one of its outputs, which are different names, and none that a "
                "factor has already"
            )
    return names


def _length(cls: type[Custom], given: Any) -> int:
    if given is None:
        raise TypeError(
            f"{cls.__name__}: window_length is missing: write it into the class, or {cls.__name__}(window_length=20)"
        )
    if isinstance(given, bool) or not isinstance(given, Integral):
        raise TypeError(f"{cls.__name__}: window_length is a whole number of sessions, and not {given!r}")
    if not 1 <= int(given) <= MOST:
        raise ValueError(f"{cls.__name__}: window_length is from 1 to {MOST:,} sessions, and not {given}")
    return int(given)


def _mask(cls: type[Custom], given: Any) -> Optional[Filter]:
    if given is not None and not isinstance(given, Filter):
        raise TypeError(f"{cls.__name__}: mask has to be a filter, and is {given!r}")
    return given


def _type(cls: type[Custom], dtype: Any, missing: Any) -> dict[str, Any]:
    """The type of what is computed, and its missing value."""
    try:
        kind = np.dtype(object) if dtype in ("category", str) else np.dtype(dtype)
    except TypeError:
        kind = np.dtype("V")
    allowed = {
        CustomFactor: ("fi", "float64 or int64"),
        CustomFilter: ("b", "bool"),
        CustomClassifier: ("iO", "int64 or object"),
    }
    base = next(base for base in allowed if issubclass(cls, base))
    kinds, names = allowed[base]
    if kind.kind not in kinds or kind.kind in "fi" and kind.itemsize != 8:
        Absent(
            f"dtype {dtype!r} of {cls.__name__}", f"{names}; a day can be a whole number, as of days since 1970-01-01"
        )()
    if missing is _NONE and kind.kind == "i" and base is CustomFactor:
        raise TypeError(f"{cls.__name__}: missing_value is missing: write a whole number that is no result, as -1")
    defaults: dict[str, Any] = {"f": np.nan, "i": -1, "b": False, "O": None}
    missing = defaults[kind.kind] if missing is _NONE else missing
    if kind.kind in "fi" and (isinstance(missing, bool) or not isinstance(missing, Real)):
        raise TypeError(f"{cls.__name__}: missing_value is a number, and not {missing!r}")
    if kind.kind == "i" and int(missing) != missing:
        raise TypeError(f"{cls.__name__}: missing_value is a whole number, as its results are, and not {missing!r}")
    if kind.kind == "b" and missing is not False:
        raise TypeError(
            f"{cls.__name__}: missing_value is False, since a filter is false where it has no value; not {missing!r}"
        )
    return {"dtype": kind, "missing_value": missing}


def _params(cls: type[Custom], given: dict[str, Any]) -> dict[str, Any]:
    """The values of the parameters, in their order."""
    listed: Union[Sequence[str], Mapping[str, Any]] = cls.params
    defaults = dict(listed) if isinstance(listed, Mapping) else dict.fromkeys(listed, _NONE)
    takes = f"it takes {', '.join([*FIXED[:-1], *defaults])}"
    for name in given:
        if name not in defaults:
            raise TypeError(f"{cls.__name__}: {name} is none of its parameters; {takes}")
    found = {**defaults, **given}
    for name, value in found.items():
        if value is _NONE:
            raise TypeError(f"{cls.__name__}: {name} is missing; {takes}")
    return found
