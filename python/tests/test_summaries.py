"""Summaries of a session, winsorized values, shares, one asset's value: their texts, and their values beside pandas'."""
import pickle

import numpy as np
import pandas as pd
import pytest

from tohmeril import PipelineError, check, explain, program, run_pipeline, show_graph, verify
from tohmeril.pipeline import Inexpressible, Pipeline
from tohmeril.pipeline.data import EquityPricing, Labels
from tohmeril.pipeline.factors import (
    Returns,
    RollingLinearRegressionOfReturns,
    RollingPearsonOfReturns,
    SimpleBeta,
)

price, change = EquityPricing.close.latest, Returns(window_length=5)
dear, sector = price > 60, Labels.sector.latest

TEXTS = [
    (change.mean(), "Returns(close, 5).mean()"),
    (change.stddev(groupby=sector), 'Returns(close, 5).stddev(groupby=label("sector"))'),
    (change.sum(mask=dear), "Returns(close, 5).where(close.latest > 60).sum()"),
    (change.min(dear, sector), 'Returns(close, 5).where(close.latest > 60).min(groupby=label("sector"))'),
    (change.max(), "Returns(close, 5).max()"),
    (change.median(), "Returns(close, 5).median()"),
    (change.percentile(2.5), "Returns(close, 5).percentile(2.5)"),
    (change.notnull_count(), "Returns(close, 5).notnull_count()"),
    (change.where(dear), "Returns(close, 5).where(close.latest > 60)"),
    (change.winsorize(0.05, 0.95), "Returns(close, 5).winsorize(0.05, 0.95)"),
    (change.winsorize(0, 1, mask=dear), "Returns(close, 5).winsorize(0, 1, mask=close.latest > 60)"),
    (change.scale(groupby=sector), 'Returns(close, 5).scale(groupby=label("sector"))'),
    (change[24], "Returns(close, 5).where(StaticSids(24)).max()"),
]


@pytest.mark.parametrize("term, text", TEXTS, ids=[text for _, text in TEXTS])
def test_term(term, text):
    assert repr(term) == text and pickle.loads(pickle.dumps(term)) is term
    written = str(Pipeline({"x": term})) + "\n"
    assert written.startswith("pipeline 4;\n")
    with program.file(written) as name:  # the text is the program's own canonical form
        assert program.call("fmt", name).decode() == written
    assert check(f"pipeline 4;\ncolumn x = {text};\n") == check(Pipeline({"x": term}))


def test_terms_of_one_asset():
    daily = Returns(window_length=2)
    beta = SimpleBeta(24, 252)
    assert beta.name == "RegressionSlope" and beta.args[:2] == (daily, daily[24])
    assert str(dict(beta.options)["mask"]).endswith("252, 189)")
    assert not SimpleBeta(24, 252, 1).options and "252, 252)" in str(SimpleBeta(24, 252, 0).options)
    assert RollingPearsonOfReturns(24, 2, 20) is daily.pearsonr(daily[24], 20)
    assert RollingLinearRegressionOfReturns(24, 2, 20).beta is daily.linear_regression(daily[24], 20).beta
    check(Pipeline({"x": beta}))


@pytest.mark.parametrize(
    "short, long",
    [
        ("mean(mask=close.latest > 60)", "where(close.latest > 60).mean()"),
        ("of(24)", "where(StaticSids(24)).max()"),
    ],
)
def test_short_forms_of_the_language(short, long):
    lines = (f"pipeline 4;\ncolumn x = Returns(close, 5).{each};\n" for each in (short, long))
    assert len({check(text) for text in lines}) == 1


@pytest.mark.parametrize(
    "make, sort, told",
    [
        (lambda: change["SPY"], TypeError, r"'SPY' is a symbol: write StaticSids\(data.sids"),
        (lambda: change[1.5], TypeError, "1.5 is no sid"),
        (lambda: dear[24], Inexpressible, r"no y\[asset\]; nearest: f.if_else\(1, 0\)\[asset\]"),
        (lambda: change.winsorize(5, 95), ValueError, "5 is no share of 1: write 0.05 for 5 percent"),
        (lambda: change.mean(mask=price), TypeError, "mask of mean has to be a filter"),
        (lambda: change.mean(groupby=dear), TypeError, "groupby of mean has to be a classifier"),
        (lambda: change.where(1), TypeError, "where: 1 is no filter"),
        (lambda: SimpleBeta(24, 252, 25), ValueError, "25 is no share of 1: write 0.25 for 25 percent"),
        (lambda: check(Pipeline({"x": change.winsorize(0.5, 0.5)})), PipelineError, "winsorize"),
        (lambda: check(Pipeline({"x": change.percentile(0.005)})), PipelineError, "percentile"),
        (lambda: EquityPricing.close.mean(), AttributeError, "has no mean: write close.latest"),
        (lambda: check("pipeline 3;\ncolumn x = close.latest.mean();\n"), PipelineError, "mean"),
    ],
)
def test_what_is_refused(make, sort, told):
    with pytest.raises(sort, match=told):
        make()


def test_what_a_summary_rests_on(market):
    """The values of the other assets of its sector are below it, and a graph says which side of `where` is which."""
    listed = run_pipeline(Pipeline({"x": price, "s": sector}), "2023-06-01", "2023-06-01", market)
    sid = int(listed.index[0][1])
    peers = [int(other) for _, other in listed.index[listed.s == listed.s.iloc[0]] if other != sid]
    for term in (change.mean(groupby=sector), change.winsorize(0.1, 0.9, groupby=sector), change.scale(groupby=sector)):
        pipe = Pipeline({"x": term})
        why = explain(pipe, "2023-06-01", sid, "x", market)
        told = why.tree(most=40)
        assert all(f"Returns(close, 5) of {peer} = " in told for peer in peers) and peers, term
        assert verify(pipe, why, market)
    graph = show_graph(Pipeline({"x": change.sum(mask=dear)}))
    assert 'label="of"' in graph and 'label="if"' in graph and '[label="sum"]' in graph


def test_values(market):
    sid = int(run_pipeline(Pipeline({"x": price}), "2023-06-01", "2023-06-01", market).index[0][1])
    pipe = Pipeline(
        {
            "change": change,
            "dear": dear.if_else(1, 0),
            "mean": change.mean(),
            "stddev": change.stddev(),
            "sum": change.sum(mask=dear),
            "least": change.min(),
            "most": change.max(mask=dear),
            "median": change.median(),
            "tenth": change.percentile(10),
            "count": change.notnull_count(),
            "kept": change.where(dear),
            "drawn": change.winsorize(0.1, 0.9),
            "share": change.scale(),
            "one": change[sid],
            "beta": SimpleBeta(sid, 20),
        }
    )
    frame = run_pipeline(pipe, "2023-06-01", "2023-06-30", market)
    assert len(frame) > 100 and 0 < frame.dear.mean() < 1
    within, kept = frame.change.groupby(level=0), frame.change.where(frame.dear == 1)
    wanted = pd.DataFrame(
        {
            "mean": within.transform("mean"),
            "sum": kept.groupby(level=0).transform("sum"),
            "least": within.transform("min"),
            "most": kept.groupby(level=0).transform("max"),
            "median": within.transform("median"),
            "tenth": within.transform(lambda values: np.nanpercentile(values, 10)),
            "count": within.transform("count").astype(float),
            "kept": kept,
            "share": frame.change / frame.change.abs().groupby(level=0).transform("sum"),
            "one": within.transform(lambda values: values.xs(sid, level=1).iloc[0]),
        }
    )
    np.testing.assert_allclose(frame[wanted.columns], wanted, rtol=0, atol=5.1e-7)
    np.testing.assert_allclose(frame.stddev, within.transform("std", ddof=0), rtol=0, atol=1.1e-6)

    def drawn(values: "pd.Series[float]") -> "pd.Series[float]":
        listed = np.sort(values.dropna())
        low, high = listed[int(0.1 * len(listed))], listed[-int(0.1 * len(listed)) - 1]
        return values.clip(low, high)

    np.testing.assert_allclose(frame.drawn, within.transform(drawn), rtol=0, atol=1e-9)
    assert np.allclose(frame.beta.xs(sid, level=1), 1)
