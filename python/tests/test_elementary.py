"""Logarithms, exponentials, roots, signs, the greater and the lesser: their texts, and their values beside numpy's."""
import pickle

import numpy as np
import pandas as pd
import pytest

from tohmeril import PipelineError, check, program, run_pipeline
from tohmeril.pipeline import Inexpressible, Pipeline
from tohmeril.pipeline.data import EquityPricing, Labels
from tohmeril.pipeline.factors import Returns, SimpleMovingAverage

price, change = EquityPricing.close.latest, Returns(window_length=5)

TEXTS = [
    (price.log(), "close.latest.log()"),
    (change.exp(), "Returns(close, 5).exp()"),
    (price.sqrt(), "close.latest.sqrt()"),
    (price**0.5, "close.latest.sqrt()"),
    (change.sign(), "Returns(close, 5).sign()"),
    (price.maximum(change), "close.latest.maximum(Returns(close, 5))"),
    (change.minimum(0), "Returns(close, 5).minimum(0)"),
    (price.log1p(), "(1 + close.latest).log()"),
    (price.log10(), "close.latest.log() / 2.302585"),
    (change.log().zscore(), "Returns(close, 5).log().zscore()"),
    (SimpleMovingAverage(inputs=[change.sign()], window_length=9), "SimpleMovingAverage(Returns(close, 5).sign(), 9)"),
    (
        SimpleMovingAverage([SimpleMovingAverage([change], window_length=5)], window_length=9),
        "SimpleMovingAverage(SimpleMovingAverage(Returns(close, 5), 5), 9)",
    ),
    (Labels.sector.latest.has_substring("y"), 'label("sector").has_substring("y")'),
]


@pytest.mark.parametrize("term, text", TEXTS, ids=[text for _, text in TEXTS])
def test_term(term, text):
    assert repr(term) == text and pickle.loads(pickle.dumps(term)) is term
    written = str(Pipeline({"x": term})) + "\n"
    assert written.startswith("pipeline 4;\n")
    with program.file(written) as name:  # the text is the program's own canonical form
        assert program.call("fmt", name).decode() == written
    assert check(f"pipeline 4;\ncolumn x = {text};\n") == check(Pipeline({"x": term}))


def test_numpy_is_the_member_of_its_name():
    for name in ("log", "log1p", "log10", "exp", "expm1", "sqrt", "sign"):
        assert getattr(np, name)(change) is getattr(change, name)()
    assert np.abs(change) is change.abs() and np.power(price, 0.5) is price.sqrt()
    assert np.maximum(change, price) is change.maximum(price) and np.minimum(change, price) is change.minimum(price)
    assert np.maximum(0, change) is np.maximum(change, np.float64(0)) is change.maximum(0)


@pytest.mark.parametrize(
    "make, sort, told",
    [
        (lambda: change**1.5, Inexpressible, r"no \*\* 1.5; nearest: 0.5 and whole powers"),
        (lambda: np.sinh(change), Inexpressible, "no sinh; nearest: y itself where its order counts"),
        (lambda: np.cbrt(change), Inexpressible, "no numpy.cbrt"),
        (lambda: np.hypot(change, price), TypeError, "numpy's hypot takes no Returns"),
        (lambda: np.maximum(change, np.zeros(3)), TypeError, "numpy's maximum takes no Returns"),
        (lambda: np.maximum(change, EquityPricing.close), TypeError, "close is a column of bars and no factor"),
        (lambda: np.sqrt(EquityPricing.close), AttributeError, "has no sqrt: write close.latest"),
        (lambda: change.maximum("x"), TypeError, "'x' is no number"),
        (lambda: check("pipeline 3;\ncolumn x = close.latest.log();\n"), PipelineError, "log"),
    ],
)
def test_what_is_refused(make, sort, told):
    with pytest.raises(sort, match=told):
        make()


def test_a_number_keeps_its_name():
    """`number` is a function of the language from version 3 on, so no line of version 4 has that name."""
    pipe = Pipeline({"a": price.log().alias("number").rank(), "b": price.log().alias("number") * 2})
    assert str(pipe).startswith("pipeline 4;\nlet number_2 = close.latest.log();")
    check(pipe)


def test_values(market):
    pipe = Pipeline(
        {
            "price": price,
            "change": change,
            "log": price.log(),
            "exp": change.exp(),
            "sqrt": price.sqrt(),
            "sign": change.sign(),
            "none": change.sqrt(),
            "greater": change.maximum(0.01),
            "lesser": change.minimum(price.log() - 4),
            "place": price.log().zscore(),
        }
    )
    frame = run_pipeline(pipe, "2023-06-01", "2023-06-30", market)
    assert (frame.change < 0).any() and (frame.change > 0).any() and len(frame) > 100
    wanted = pd.DataFrame(
        {
            "log": np.log(frame.price),
            "exp": np.exp(frame.change),
            "sqrt": np.sqrt(frame.price),
            "sign": np.sign(frame.change),
            "none": np.sqrt(frame.change.where(frame.change >= 0)),
            "greater": np.maximum(frame.change, 0.01),
            "lesser": np.minimum(frame.change, frame.log - 4),
        }
    )
    np.testing.assert_allclose(frame[wanted.columns], wanted, rtol=0, atol=5.1e-7)
    within = frame.log.groupby(level=0)
    np.testing.assert_allclose(
        frame.place, (frame.log - within.transform("mean")) / within.transform("std", ddof=0), atol=2e-5
    )
