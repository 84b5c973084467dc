"""Zipline's factors, with its names, inputs and keyword arguments.

In the formulas x_1 to x_W is the window, oldest first: of a column of bars the W sessions before today as today sees
them, of a term today's value and the W - 1 before it. n is how many values are present, that is not missing.

>>> SimpleMovingAverage(inputs=[EquityPricing.close], window_length=10)
SimpleMovingAverage(close, 10)
>>> class Quarter(Returns):
...     window_length = 64
>>> Quarter()
Returns(close, 64)
>>> print(WindowSum.__doc__)
sum of the present x_k; missing where n is 0
<BLANKLINE>
Units: those of the input. Source: ours. Rounding: none.
"""

from __future__ import annotations

import math
from functools import reduce
from typing import Any, Mapping, NamedTuple, Optional, Sequence, Union

import numpy as np

from ..custom import CustomFactor as CustomFactor
from ..data import EquityPricing
from ..term import CALL, Absent, BoundColumn, Classifier, DataColumn, Factor, Filter, Mask, NumberColumn, Term

_HIGH, _LOW, _CLOSE, _VOLUME = (getattr(EquityPricing, name) for name in ("high", "low", "close", "volume"))


Inputs = Sequence[Term]
_ASKED = object()  # in place of a default


class Windowed:
    """A function of the language over a window. Calling the class makes a term; class attributes are defaults, as in
    Zipline.
    """

    inputs: Sequence[Term] = ()
    window_length: Optional[int] = None
    params: Union[
        Sequence[str], Mapping[str, Any]
    ] = ()  # what it takes beside these and `mask`, with defaults in a mapping, as in Zipline
    function = ""  # its name in the language
    sort: type[Term] = Factor
    takes: tuple[type[Term], ...] = (BoundColumn, Factor)
    fixed = False  # whether the function is of its own inputs alone
    windowless = False  # whether it is of its own window, too

    def __init_subclass__(cls) -> None:
        if Windowed in cls.__bases__:
            cls.function = cls.__name__
        if "compute" in cls.__dict__:
            Absent(
                f"compute below {cls.__mro__[1].__name__}",
                f"class {cls.__name__}(CustomFactor), with inputs and window_length of its own",
            )()

    def __new__(
        cls,
        inputs: Union[Term, Sequence[Term], None] = None,
        *,
        window_length: Optional[int] = None,
        mask: Mask = None,
        **params: Any,
    ) -> Any:
        defaults = dict(cls.params if isinstance(cls.params, Mapping) else dict.fromkeys(cls.params, _ASKED))
        takes = f"it takes {', '.join(['inputs', 'window_length', 'mask', *defaults])}"
        for name in params.keys() - defaults.keys():
            raise TypeError(f"{cls.__name__}: {name} is none of its parameters; {takes}")
        listed = cls.inputs if inputs is None else (inputs,) if isinstance(inputs, Term) else inputs
        terms: tuple[Any, ...] = tuple(listed) if isinstance(listed, (list, tuple)) else (listed,)
        window_length = cls.window_length if window_length is None else window_length
        given: dict[str, Any] = {
            "inputs": terms or _ASKED,
            "window_length": _ASKED if window_length is None else window_length,
            **defaults,
            **params,
        }
        for name, value in given.items():
            if value is _ASKED:
                raise TypeError(f"{cls.__name__}: {name} {'are' if name == 'inputs' else 'is'} missing; {takes}")
        for term in terms:
            if not isinstance(term, cls.takes) or isinstance(term, DataColumn) and term.holds != "numbers":
                latest = f": write {term!r}.latest" if getattr(term, "holds", "") in ("labels", "truth values") else ""
                raise TypeError(f"{cls.__name__}: {term!r} can't be its input{latest}")
        if cls.fixed and terms != tuple(cls.inputs):
            Absent(f"{cls.__name__} of {', '.join(map(repr, terms))}", f"that of {', '.join(map(repr, cls.inputs))}")()
        terms = tuple(term.latest if isinstance(term, DataColumn) else term for term in terms)
        return cls.term(() if cls.fixed else terms, given["window_length"], mask, *(given[name] for name in defaults))

    @classmethod
    def term(cls, inputs: Inputs, window: int, mask: Mask, /, *params: Any) -> Any:
        """The term of these, in the language's order."""
        return cls.sort(CALL, cls.function, *inputs, *(() if cls.windowless else (window,)), *params, mask=mask)


def windowed(
    name: str,
    formula: str,
    units: str = "those of the input",
    source: str = "Zipline",
    rounding: str = "once, to the nearest millionth",
    base: type = Windowed,
    **defaults: Any,
) -> Any:
    """A class of the language's function of this name."""
    doc = f"{formula}\n\nUnits: {units}. Source: {source}. Rounding: {rounding}."
    return type(name, (base,), {"__doc__": doc, "__module__": defaults.pop("module", __name__), **defaults})


_OURS: dict[str, Any] = {"source": "ours", "rounding": "none"}
SimpleMovingAverage = windowed("SimpleMovingAverage", "sum of the present x_k / n; missing where n is 0")
LinearWeightedMovingAverage = windowed(
    "LinearWeightedMovingAverage", "(1 x_1 + .. + W x_W) / (W (W + 1) / 2), missing values counting 0"
)
WeightedAverageValue = windowed(
    "WeightedAverageValue", "sum of x_k w_k where both are present / sum of the present w_k", "those of the first input"
)
_PAIRS: dict[str, Any] = {"source": "ours, as numpy's of the pairs of which both are present"}
Correlation = windowed(
    "Correlation",
    "Pearson's correlation of the pairs (x_k, y_k) of two inputs of which both are present; missing where all x_k or "
    "all y_k of them are equal",
    "1, from -1 to 1",
    **_PAIRS,
)
Covariance = windowed(
    "Covariance",
    "sum of (x_k - mean x) (y_k - mean y) over the pairs of two inputs of which both are present / their number n",
    "those of x times those of y: of daily returns take them times 100 first",
    **_PAIRS,
)
RegressionSlope = windowed(
    "RegressionSlope",
    "slope of the line of least squares that gives the first input y from the second one x, over the pairs of which "
    "both are present; missing where all x_k of them are equal",
    "those of y by those of x",
    **_PAIRS,
)
RegressionIntercept = windowed(
    "RegressionIntercept", "y of the line of `RegressionSlope` at x = 0", "those of the first input", **_PAIRS
)
RegressionError = windowed(
    "RegressionError",
    "standard error of the `RegressionSlope`, with n - 2 degrees of freedom; missing where n < 3, too",
    "those of the slope",
    **_PAIRS,
)
RankCorrelation = windowed(
    "RankCorrelation",
    "`Correlation` of the ranks of the x_k of the pairs and of the ranks of the y_k, equal ones having the average of "
    "their ranks: Spearman's",
    "1, from -1 to 1",
    **_PAIRS,
)
WindowSum = windowed("WindowSum", "sum of the present x_k; missing where n is 0", **_OURS)
WindowMax = windowed("WindowMax", "greatest present x_k; missing where n is 0", **_OURS)
WindowMin = windowed("WindowMin", "least present x_k; missing where n is 0", **_OURS)
WindowStd = windowed(
    "WindowStd",
    "sqrt(sum of (x_k - mean)^2 over the present x_k / n); missing where n is 0",
    source="ours, as numpy's nanstd",
    rounding="down, of the variance and of the root: up to a millionth below a float",
)
WindowPercentile = windowed(
    "WindowPercentile",
    "the point percent / 100 of the way through the sorted present x_k, on a line between neighbors; missing where n "
    "is 0. `percent` is a whole number of hundredths from 0 to 100",
    source="ours, as numpy's nanpercentile",
    params=("percent",),
)
WindowRank = windowed(
    "WindowRank",
    "rank of x_W among the present x_k, from 1 for the least, equal ones having the average of their ranks / n; "
    "missing where x_W is",
    "1, above 0 and up to 1",
    source="ours, as pandas' rank(pct=True)",
)
WindowArgMax = windowed(
    "WindowArgMax",
    "place, from 1 for the oldest, of the first greatest present x_k; missing where n is 0",
    "sessions",
    **_OURS,
)
WindowArgMin = windowed(
    "WindowArgMin",
    "place, from 1 for the oldest, of the first least present x_k; missing where n is 0",
    "sessions",
    **_OURS,
)
WindowFirst = windowed("WindowFirst", "x_1, the value W - 1 sessions ago; missing where it is", **_OURS)
MaxDrawdown = windowed(
    "MaxDrawdown",
    "(p - v) / v, v the value that lies deepest below p, the greatest one up to it, the first of equal ones; missing "
    "where n is 0 or v is",
    "1, as 0.25 where the peak is 1.25 times the value",
)
_LINE: dict[str, Any] = {"source": "ours, as numpy's polyfit of the present values at their places 1 to W"}
WindowSlope = windowed(
    "WindowSlope",
    "slope of the line of least squares through the points (k, x_k) whose x_k are present; missing where n < 2",
    "those of the input, a session",
    **_LINE,
)
WindowResidual = windowed(
    "WindowResidual", "x_W less the line of `WindowSlope` at W; missing where x_W is or n < 2", **_LINE
)
WindowRSquared = windowed(
    "WindowRSquared",
    "square of the correlation of k and the present x_k; missing where n < 2 or all of them are equal",
    "1, from 0 to 1",
    **_LINE,
)
_MOMENTS: dict[str, Any] = {"source": "ours, as scipy's, over n"}
WindowSkewness = windowed(
    "WindowSkewness",
    "m3 / m2^1.5, m_j the mean of (x_k - mean)^j over the present x_k; missing where all of them are equal",
    "1",
    **_MOMENTS,
)
WindowKurtosis = windowed(
    "WindowKurtosis", "m4 / m2^2 - 3, of the moments of `WindowSkewness`; likewise", "1, 0 for a normal one", **_MOMENTS
)
Returns = windowed(
    "Returns", "(x_W - x_1) / x_1; missing where either is", "1, as 0.05 for 5 percent", inputs=(_CLOSE,)
)
DailyReturns = windowed(
    "DailyReturns", "`Returns` over two sessions", "1, as 0.05 for 5 percent", base=Returns, window_length=2
)
PercentChange = windowed("PercentChange", "(x_W - x_1) / abs(x_1); missing where either is", "1, as 0.05 for 5 percent")
RateOfChangePercentage = windowed("RateOfChangePercentage", "100 (x_W - x_1) / x_1; missing where either is", "percent")
RSI = windowed(
    "RSI",
    "100 U / (U + D), U the sum of the rises and D of the falls between neighbors that are both present; missing "
    "where nothing moved",
    "percent",
    inputs=(_CLOSE,),
    window_length=15,
)
AverageDollarVolume = windowed(
    "AverageDollarVolume",
    "sum of close_k volume_k where both are present / W; 0 where none is, and missing " "above 10^11",
    "money per session",
    inputs=(_CLOSE, _VOLUME),
    fixed=True,
)
FastStochasticOscillator = windowed(
    "FastStochasticOscillator",
    "100 (c - l) / (h - l): the last close, the least low, the greatest high; " "missing where one is",
    "percent",
    inputs=(_CLOSE, _LOW, _HIGH),
    window_length=14,
    fixed=True,
)
TrueRange = windowed(
    "TrueRange",
    "greatest present one of high - low, abs(high - previous close), abs(low - previous close)",
    "those of the close",
    rounding="none",
    inputs=(_HIGH, _LOW, _CLOSE),
    window_length=2,
    fixed=True,
    windowless=True,
)


class VWAP(Windowed):
    """sum of close_k volume_k where both are present / sum of the present volume_k; of other inputs a
    `WeightedAverageValue`

    Units: those of the close. Source: Zipline. Rounding: once, to the nearest millionth.
    """

    inputs = (_CLOSE, _VOLUME)

    @classmethod
    def term(cls, inputs: Inputs, window: int, mask: Mask) -> Any:  # type: ignore[override]
        return (
            super().term((), window, mask)
            if inputs == (_CLOSE, _VOLUME)
            else WeightedAverageValue.term(inputs, window, mask)
        )


class ExponentialWeightedMovingAverage(Windowed):
    """sum of w_k x_k / sum of w_k, w_W = 1 and w_(k-1) = w_k decay_rate; missing where any value is

    Units: those of the input. Source: Zipline. Rounding: of `decay_rate` and of each weight to millionths, then once.
    A small weight stops fading at 0.5 / (1 - decay_rate) millionths: at 0.94 by up to 2 10^-5 of the value from a
    float over 252 sessions, 10^-3 over 1,260. `EWMA` has finer weights.

    >>> ExponentialWeightedMovingAverage.from_span([EquityPricing.close], window_length=30, span=15)
    ExponentialWeightedMovingAverage(close, 30, 0.875)
    """

    params = ("decay_rate",)

    @classmethod
    def from_span(cls, inputs: Inputs, window_length: int, span: float, mask: Mask = None) -> Any:
        """With `decay_rate` 1 - 2 / (1 + span)."""
        return cls(inputs, window_length=window_length, decay_rate=1 - 2 / (1 + span), mask=mask)

    @classmethod
    def from_halflife(cls, inputs: Inputs, window_length: int, halflife: float, mask: Mask = None) -> Any:
        """With `decay_rate` 0.5 ** (1 / halflife)."""
        return cls(inputs, window_length=window_length, decay_rate=0.5 ** (1 / halflife), mask=mask)

    @classmethod
    def from_center_of_mass(cls, inputs: Inputs, window_length: int, center_of_mass: float, mask: Mask = None) -> Any:
        """With `decay_rate` 1 - 1 / (1 + center_of_mass)."""
        return cls(inputs, window_length=window_length, decay_rate=1 - 1 / (1 + center_of_mass), mask=mask)


class ExponentialWeightedMovingMean(ExponentialWeightedMovingAverage):
    """`ExponentialWeightedMovingAverage` with weights that go on fading; this is `EWMA`

    Units: those of the input. Source: Zipline. Rounding: of `decay_rate` to millionths, of each weight to 10^-12, then
    once: by 10^-10 of the value and half a millionth from a float at that rate.

    >>> EWMA.from_span([EquityPricing.close], window_length=30, span=15)
    ExponentialWeightedMovingMean(close, 30, 0.875)
    """

    function = "ExponentialWeightedMovingMean"


class ExponentialWeightedMovingStdDev(ExponentialWeightedMovingAverage):
    """sqrt(V sum of w_k (x_k - m)^2 / (V^2 - sum of w_k^2)), w_k and m those of `EWMA` and V the sum of w_k; missing
    where any value is

    Units: those of the input. Source: Zipline. Rounding: of `decay_rate` to millionths, of each weight to 10^-12, then
    once: by a millionth from a float at that rate, and by 2 10^-6 of the value at rates of 0.5 and below.

    >>> EWMSTD.from_halflife([EquityPricing.close], window_length=30, halflife=15)
    ExponentialWeightedMovingStdDev(close, 30, 0.954842)
    """

    function = "ExponentialWeightedMovingStdDev"


class Bands(NamedTuple):
    """The outputs of `BollingerBands`."""

    lower: Factor
    middle: Factor
    upper: Factor


class BollingerBands(Windowed):
    """`lower`, `middle`, `upper`: mean - k s, mean, mean + k s, with s the `WindowStd`

    Units: those of the input. Source: Zipline. Rounding: s down to millionths, so that a band is up to k + 1 millionths
    off.

    >>> lower, middle, upper = BollingerBands(window_length=20, k=2)
    >>> upper
    BollingerUpper(close, 20, 2)
    """

    inputs = (_CLOSE,)
    params = ("k",)

    @classmethod
    def term(cls, inputs: Inputs, window: int, mask: Mask, k: float) -> Bands:  # type: ignore[override]
        return Bands(
            Factor(CALL, "BollingerLower", *inputs, window, k, mask=mask),
            Factor(CALL, "BollingerMiddle", *inputs, window, mask=mask),
            Factor(CALL, "BollingerUpper", *inputs, window, k, mask=mask),
        )


class WindowMedian(Windowed):
    """middle one of the sorted present x_k, of an even number the mean of the two middle ones; missing where n is 0

    Units: those of the input. Source: ours, as numpy's nanmedian. Rounding: once, to the nearest millionth.

    >>> WindowMedian(inputs=[EquityPricing.close], window_length=20)
    WindowPercentile(close, 20, 50)
    """

    @classmethod
    def term(cls, inputs: Inputs, window: int, mask: Mask) -> Any:  # type: ignore[override]
        return WindowPercentile.term(inputs, window, mask, 50)


class Ichimoku(NamedTuple):
    """The outputs of `IchimokuKinkoHyo`."""

    tenkan_sen: Factor
    kijun_sen: Factor
    senkou_span_a: Factor
    senkou_span_b: Factor
    chikou_span: Factor


class IchimokuKinkoHyo(Windowed):
    """`tenkan_sen`, `kijun_sen`: (greatest high + least low) / 2 of that many sessions; `senkou_span_a`: their mean;
    `senkou_span_b`: the same of the window; `chikou_span`: the close that has `chikou_span_length` of the window
    before it

    A line is missing where a high or a low of its sessions is. Units: those of the close. Source: Zipline.
    Rounding: each quotient once, to the nearest millionth.

    >>> IchimokuKinkoHyo().chikou_span
    WindowFirst(close, 26)
    """

    inputs = (_HIGH, _LOW, _CLOSE)
    window_length = 52
    params = {"tenkan_sen_length": 9, "kijun_sen_length": 26, "chikou_span_length": 26}
    fixed = True

    @classmethod
    def term(  # type: ignore[override]
        cls,
        inputs: Inputs,
        window: int,
        mask: Mask,
        tenkan_sen_length: int,
        kijun_sen_length: int,
        chikou_span_length: int,
    ) -> Ichimoku:
        lengths = {"tenkan_sen_length": tenkan_sen_length, "kijun_sen_length": kijun_sen_length}
        for name, length in {**lengths, "chikou_span_length": chikou_span_length + 1}.items():
            if length > window:
                most = window if name in lengths else window - 1
                raise ValueError(
                    f"IchimokuKinkoHyo: {name} has to be at most {most}, for a window of {window} sessions"
                )

        def middle(length: int) -> Factor:
            whole = Filter(CALL, "AllPresent", _HIGH, length) & Filter(CALL, "AllPresent", _LOW, length)
            whole = whole if mask is None else whole & mask
            high = WindowMax([_HIGH], window_length=length, mask=whole)
            low = WindowMin([_LOW], window_length=length, mask=whole)
            line: Factor = (high + low) / 2
            return line

        tenkan_sen, kijun_sen = middle(tenkan_sen_length), middle(kijun_sen_length)
        chikou_span = WindowFirst([_CLOSE], window_length=window - chikou_span_length, mask=mask)
        return Ichimoku(tenkan_sen, kijun_sen, (tenkan_sen + kijun_sen) / 2, middle(window), chikou_span)


class DownUp(NamedTuple):
    """The outputs of `Aroon`."""

    down: Factor
    up: Factor


class Aroon(Windowed):
    """`down`, `up`: 100 i / (W - 1), i from 0 the place of the first least low, of the first greatest high

    Units: percent. Source: Zipline. Rounding: once, to the nearest millionth.

    >>> Aroon(window_length=25).up
    AroonUp(25)
    """

    inputs = (_LOW, _HIGH)
    fixed = True

    @classmethod
    def term(cls, inputs: Inputs, window: int, mask: Mask) -> DownUp:  # type: ignore[override]
        return DownUp(Factor(CALL, "AroonDown", window, mask=mask), Factor(CALL, "AroonUp", window, mask=mask))


class AnnualizedVolatility(Windowed):
    """`WindowStd` of the daily returns * sqrt(annualization_factor)

    Units: 1 per root of a year. Source: Zipline. Rounding: deviation and root to millionths before the product: by
    0.00002 from a float.

    >>> AnnualizedVolatility(window_length=63)
    WindowStd(Returns(close, 2), 63) * 15.874508
    """

    inputs = (DailyReturns(),)
    window_length = 252
    params = {"annualization_factor": 252.0}

    @classmethod
    def term(  # type: ignore[override]
        cls, inputs: Inputs, window: int, mask: Mask, annualization_factor: float
    ) -> Any:
        return WindowStd(inputs, window_length=window, mask=mask) * math.sqrt(annualization_factor)


class MovingAverageConvergenceDivergenceSignal(Windowed):
    """exponential mean of the differences between a fast and a slow exponential mean of closes, all as today sees the
    closes

    Units: those of the close. Source: Zipline. Rounding: the language has no window over exponential means, but the
    signal is a weighted sum of closes, and so one of exact sums over windows; their weights are given to ten decimals:
    by about 10^-6 from a float for prices up to 1,000. With the usual periods it takes 138 of the 256 terms that a
    pipeline may have.
    """

    inputs = (_CLOSE,)
    window_length = 0  # set by the periods
    params = {"fast_period": 12, "slow_period": 26, "signal_period": 9}

    @classmethod
    def term(  # type: ignore[override]
        cls, inputs: Inputs, window: int, mask: Mask, fast_period: int, slow_period: int, signal_period: int
    ) -> Any:
        def means(period: int) -> Any:  # the weights of an exponential mean, newest first
            weights = (1 - 2 / (1 + period)) ** np.arange(period)
            return weights / weights.sum()

        if slow_period <= fast_period:
            raise ValueError("slow_period has to be greater than fast_period")
        weights = np.convolve(
            means(signal_period), np.pad(means(fast_period), (0, slow_period - fast_period)) - means(slow_period)
        )
        whole = Filter(CALL, "AllPresent", *inputs, len(weights))
        whole = whole if mask is None else whole & mask
        steps = (weights - np.append(weights[1:], 0)) * 10_000
        sums = (WindowSum(inputs, window_length=at, mask=whole) * step for at, step in enumerate(steps, 1))
        return reduce(Factor.__add__, sums) / 10_000


EWMA, EWMSTD = ExponentialWeightedMovingMean, ExponentialWeightedMovingStdDev
MACDSignal = MovingAverageConvergenceDivergenceSignal


def Latest(inputs: Sequence[BoundColumn]) -> Factor:
    """`inputs[0].latest`."""
    return inputs[0].latest


def PeerCount(inputs: Sequence[Classifier], mask: Mask = None) -> Factor:
    """`inputs[0].peer_count(mask)`."""
    return inputs[0].peer_count(mask)


def RollingPearson(base_factor: Factor, target: Factor, correlation_length: int, mask: Mask = None) -> Factor:
    """`base_factor.pearsonr(target, correlation_length, mask)`."""
    return base_factor.pearsonr(target, correlation_length, mask)


def RollingSpearman(base_factor: Factor, target: Factor, correlation_length: int, mask: Mask = None) -> Factor:
    """`base_factor.spearmanr(target, correlation_length, mask)`."""
    return base_factor.spearmanr(target, correlation_length, mask)


def RollingLinearRegression(dependent: Factor, independent: Factor, regression_length: int, mask: Mask = None) -> Any:
    """`dependent.linear_regression(independent, regression_length, mask)`."""
    return dependent.linear_regression(independent, regression_length, mask)


def SimpleBeta(target: object, regression_length: int, allowed_missing_percentage: float = 0.25) -> Factor:
    """Slope of the line of least squares that gives an asset's daily returns from those of one asset, `target`.

    Over so many sessions, 2 or more; missing where one of the two returns is missing on more than that share of them.
    Units: 1. Missing where `target` does not move, where Zipline has noise. Rounds once.

    >>> SimpleBeta(24, 252).args[1]
    Returns(close, 2).where(StaticSids(24)).max()
    """
    if not 0 <= allowed_missing_percentage <= 1:
        raise ValueError(
            f"SimpleBeta: allowed_missing_percentage={allowed_missing_percentage!r} is no share of 1: write "
            f"{allowed_missing_percentage / 100!r} for {allowed_missing_percentage!r} percent"
        )
    daily = Returns(window_length=2)
    market = daily[target]
    least = regression_length - int(allowed_missing_percentage * regression_length)
    present = Filter(CALL, "AtLeastN", daily.notnull() & market.notnull(), regression_length, least) if least else None
    return Factor(CALL, "RegressionSlope", daily, market, regression_length, mask=present)


def RollingPearsonOfReturns(target: object, returns_length: int, correlation_length: int, mask: Mask = None) -> Factor:
    """`pearsonr` of an asset's returns over `returns_length` sessions with those of one asset, `target`."""
    returns: Factor = Returns(window_length=returns_length)
    return returns.pearsonr(returns[target], correlation_length, mask)


def RollingSpearmanOfReturns(target: object, returns_length: int, correlation_length: int, mask: Mask = None) -> Factor:
    """`spearmanr` of an asset's returns over `returns_length` sessions with those of one asset, `target`."""
    returns: Factor = Returns(window_length=returns_length)
    return returns.spearmanr(returns[target], correlation_length, mask)


def RollingLinearRegressionOfReturns(
    target: object, returns_length: int, regression_length: int, mask: Mask = None
) -> Any:
    """`linear_regression` of an asset's returns over `returns_length` sessions on those of one asset, `target`."""
    returns: Factor = Returns(window_length=returns_length)
    return returns.linear_regression(returns[target], regression_length, mask)


class BusinessDaysSincePreviousEvent:
    """Mondays to Fridays from the day on which the newest number became known, which counts, to today, which does not.

    The numbers are those of events, each known on the day of its event, as 1. In Zipline the column holds these days.
    Missing before the first one. Exact.

    >>> from tohmeril.pipeline.data import Column, DataSet
    >>> class Earnings(DataSet):
    ...     announced = Column(float)
    >>> class DaysSinceEarnings(BusinessDaysSincePreviousEvent):
    ...     inputs = [Earnings.announced]
    >>> DaysSinceEarnings()
    number("announced").age("business_days")
    """

    inputs: Inputs = ()

    def __new__(cls, inputs: Optional[Inputs] = None, *, mask: Mask = None) -> Any:
        given = cls.inputs if inputs is None else inputs
        if len(given) != 1 or not isinstance(given[0], NumberColumn):
            raise TypeError(f"{cls.__name__}: inputs has to be one column of numbers, as [Earnings.announced]")
        age = given[0].latest.age("business_days")
        return age if mask is None else age.where(mask)


BusinessDaysUntilNextEvent = Absent("BusinessDaysUntilNextEvent", "a label that changes on the day of the event")
