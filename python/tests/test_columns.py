"""Columns of a DataSet that are no floats: truth values, whole numbers and texts."""

import pickle
import re

import numpy as np
import pandas as pd
import pytest

from tohmeril import Data, DataFault, explain, program, run_pipeline, verify
from tohmeril.pipeline import Classifier, CustomFactor, Filter, Inexpressible, Pipeline
from tohmeril.pipeline.data import Column, DataSet
from tohmeril.pipeline.factors import SimpleMovingAverage
from tohmeril.pipeline.filters import All


class Fundamentals(DataSet):
    is_primary = Column(bool, missing_value=False)
    sector_code = Column(np.int64, missing_value=-99)
    exchange = Column(object, missing_value="")
    name_of = Column(str, name="standard_name")
    shares = Column(float, doc="of common stock", metadata={"in": "thousands"}, currency_aware=False)


class Others(DataSet):
    exchange = Column("category")


is_primary, sector, exchange = (
    getattr(Fundamentals, name).latest for name in ("is_primary", "sector_code", "exchange")
)
TEXTS = [
    (is_primary, 'number("is_primary") == 1', Filter),
    (~is_primary & sector.eq(103), '~number("is_primary") == 1 & label("sector_code") == "103"', Filter),
    (All([is_primary], window_length=3), 'All(number("is_primary") == 1, 3)', Filter),
    (sector, 'label("sector_code")', Classifier),
    (sector != 103, 'label("sector_code") != "103"', Filter),
    (sector.element_of([101, 206]), 'label("sector_code").element_of("101", "206")', Filter),
    (sector.isnull(), 'label("sector_code").isnull()', Filter),
    (sector.downsample("month_start"), 'label("sector_code").downsample("month_start")', Classifier),
    (exchange.startswith("OTC"), 'label("exchange").startswith("OTC")', Filter),
    (Fundamentals.name_of.latest.notnull(), 'label("standard_name").notnull()', Filter),
    (
        Fundamentals.shares.latest.demean(mask=is_primary, groupby=sector),
        'number("shares").demean(mask=number("is_primary") == 1, groupby=label("sector_code"))',
        object,
    ),
]


@pytest.mark.parametrize("term, text, kind", TEXTS, ids=[text for _, text, _ in TEXTS])
def test_term(term, text, kind):
    assert repr(term) == text and isinstance(term, kind) and pickle.loads(pickle.dumps(term)) is term
    written = str(Pipeline({"x": term})) + "\n"
    with program.file(written) as name:  # the text is the program's own canonical form
        assert program.call("fmt", name).decode() == written


def test_columns():
    assert {column.name for column in Fundamentals.columns} == {
        "is_primary",
        "sector_code",
        "exchange",
        "standard_name",
        "shares",
    }
    told = [(column.dtype.kind, column.missing_value) for column in (Fundamentals.is_primary, Fundamentals.sector_code)]
    assert told == [("b", False), ("i", -99)] and repr(Fundamentals.exchange) == "Fundamentals.exchange"
    assert pickle.loads(pickle.dumps(Fundamentals.sector_code)) is Fundamentals.sector_code


@pytest.mark.parametrize(
    "make, told",
    [
        (lambda: Column(bool, missing_value=True), "no missing_value=True; nearest: False"),
        (lambda: Column(int, missing_value=0.5), "a whole number, as -1"),
        (lambda: Column(float, currency_aware=True), "nearest: numbers in one currency"),
        (lambda: Column(object, missing_value="none"), "nearest: None"),
        (
            lambda: Fundamentals.is_primary.eq(1),
            "column of truth values and has no eq: write Fundamentals.is_primary.l",
        ),
        (lambda: SimpleMovingAverage([Fundamentals.sector_code], window_length=3), "write Fundamentals.sector_code.la"),
        (lambda: All([Fundamentals.is_primary], window_length=3), "write Fundamentals.is_primary.latest"),
        (lambda: sector.eq("103"), "the classes are whole numbers"),
        (lambda: exchange.matches("("), "unterminated"),
        (lambda: str(Pipeline({"a": exchange, "b": Others.exchange.latest})), "are both the label 'exchange': .*name="),
    ],
)
def test_mistakes_are_told_at_once(make, told):
    with pytest.raises((TypeError, AttributeError, ValueError, Inexpressible, re.error), match=told):
        make()


DAYS = pd.bdate_range("2024-01-01", periods=6)
CLOSE = pd.DataFrame({name: np.arange(6.0) + at for at, name in enumerate(("AAA", "BBB", "CCC"), 10)}, index=DAYS)


@pytest.fixture
def store(tmp_path):
    codes = pd.DataFrame({"AAA": [103.0, 206.0], "BBB": [np.nan, 311.0]}, index=DAYS[[1, 3]])
    primary = pd.DataFrame({"AAA": [True, False], "BBB": [False, True]}, index=DAYS[[1, 4]])
    names = {"AAA": "A B Inc", "BBB": "C L.P."}
    labels = {Fundamentals.sector_code: codes, Fundamentals.name_of: names, "exchange": {"AAA": "NYS", "CCC": "OTC"}}
    return Data.write(tmp_path / "data", {"close": CLOSE}, labels=labels, numbers={Fundamentals.is_primary: primary})


class Given(CustomFactor):
    """Of the first asset what it is given: the code, a thousand where it is primary, the length of its texts."""

    inputs = [Fundamentals.sector_code, Fundamentals.is_primary, Fundamentals.name_of]
    window_length = 2

    def compute(self, today, assets, out, codes, primary, names):
        assert codes.dtype == "int64" and primary.dtype == bool and names.dtype == object
        out[:] = codes[0] + 1000 * primary[1] + [0 if name is None else len(name) / 10 for name in names[1]]


def test_values(store):
    """What holds by hand: AAA has the code 103 from the second day on and 206 from the fourth, and BBB 311."""
    columns = {"code": sector, "primary": is_primary, "lp": Fundamentals.name_of.latest.matches(r".* L[. ]?P.?$")}
    columns.update(given=Given(), some=sector.element_of([103, 311]), exchange=exchange)
    pipe = Pipeline(columns)
    frame = run_pipeline(pipe, DAYS[2], DAYS[4], store, symbols=True)
    assert frame.dtypes.astype(str).to_dict() == {
        "code": "int64",
        "primary": "bool",
        "lp": "bool",
        "given": "float64",
        "some": "bool",
        "exchange": "category",
    }
    wanted = {
        "AAA": [(103, True, 1103.7), (206, True, 1103.7), (206, False, 206.7)],
        "BBB": [(-99, False, -98.4), (311, False, -98.4), (311, True, 1311.6)],
        "CCC": [(-99, False, -99)] * 3,
    }
    for asset, rows in wanted.items():
        own = frame.xs(asset, level="asset")
        assert list(zip(own.code, own.primary, own.given)) == rows, asset
        assert own.lp.eq(asset == "BBB").all() and own.some.tolist() == [code in (103, 311) for code, *_ in rows]
    assert frame.exchange.xs("CCC", level="asset").eq("OTC").all()
    why = explain(pipe, DAYS[3], "BBB", "code", store)
    assert why.value == 311 and verify(pipe, why, store)
    for asset, told in (("AAA", ("103", "206")), ("BBB", ("missing", "311"))):
        tree = explain(pipe, DAYS[3], asset, "given", store).tree(most=9)
        assert re.findall(r'label\("sector_code"\)(?: on 2024-01-03)? = (\S+)\n', tree) == list(told), tree


def test_a_label_that_is_no_number(tmp_path):
    store = Data.write(tmp_path, {"close": CLOSE}, labels={"sector_code": {"AAA": "Energy"}})
    with pytest.raises(
        DataFault, match="'Energy' is no whole number, as those of Column.int. are\nwrite Column.object"
    ):
        run_pipeline(Pipeline({"code": sector}), DAYS[2], DAYS[4], store)
