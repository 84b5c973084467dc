"""The user's own numbers beside what is computed: they are read where they are, or where they have no room beside it the
names that are read are kept.
"""

import io
from decimal import Decimal

import pytest

from tohmeril import Data, DataFault, LimitFault, _results, derivations, explain, program, run_text
from tohmeril.pipeline import CustomFactor, Pipeline
from tohmeril.pipeline.data import Column, DataSet, EquityPricing

FIRST, LAST = "2023-05-10", "2023-05-19"
LINES = ["name,sid,known,value", "other,101,2022-07-05,1", "", '"earnings",101,2022-07-05,2.5']
LINES += ["earnings_2,101,2022-07-05,3", "earnings,102,2022-07-05,4"]


class Fundamentals(DataSet):
    earnings = Column(float)


class Newest(CustomFactor):
    inputs = [EquityPricing.close]
    window_length = 1

    def compute(self, today, assets, out, close):
        out[:] = close[0]


PIPE = Pipeline({"a": Newest(), "e": Fundamentals.earnings.latest})


@pytest.fixture
def numbers(tmp_path):
    path = tmp_path / "numbers.csv"
    path.write_text("\n".join(LINES))
    return path


@pytest.fixture
def kept(monkeypatch):
    """The numbers of the records that were kept, each time where not all were."""
    found, put = [], _results._put_some
    monkeypatch.setattr(_results, "_put_some", lambda *words: found.append(put(*words)) or found[-1])
    return found


def test_a_file_is_read_where_it_is(market, numbers, kept):
    data = Data(market, revisions=None, numbers=numbers)
    text = run_text(PIPE, FIRST, LAST, data)
    assert b",2.500000\n" in text and run_text(PIPE, FIRST, LAST, data) == text
    assert run_text(Pipeline({"a": Newest()}), FIRST, LAST, data).count(b"\n") == text.count(b"\n") and not kept
    numbers.write_text("\n".join([*LINES, "other,101,nothing,1\n"]))
    with pytest.raises(DataFault, match=f"{numbers}:6: data "):
        run_text(PIPE, FIRST, LAST, data)


def test_numbers_beyond_what_a_run_reads(market, numbers, kept, monkeypatch):
    """Of a file that has no room beside the results there are the names that are read, with their faults."""

    def is_full(words):
        if f"--numbers={numbers}" in words:
            raise LimitFault("limit: numbers")

    stream, ask = program.stream, derivations.ask_program
    monkeypatch.setattr(program, "stream", lambda words: is_full(words) or stream(words))
    monkeypatch.setattr(derivations, "ask_program", lambda *words, **of: is_full(words) or ask(*words, **of))
    data = Data(market, revisions=None, numbers=numbers)
    text = run_text(PIPE, FIRST, LAST, data)
    assert [each.tolist() for each in kept] == [[1, 3, 5]] and b",2.500000\n" in text and b",4.000000\n" in text
    assert explain(PIPE, LAST, 101, "e", data).value == Decimal("2.5")
    numbers.write_text("\n".join([*LINES, "earnings,103,nothing,1"]))
    with pytest.raises(DataFault, match=f"{numbers}:6: data "):
        run_text(PIPE, FIRST, LAST, data)


def test_names_of_a_text():
    """Names that begin alike, quoted ones, carriage returns, empty lines, a last line without its end."""
    text = b'name,sid\r\n\r\nab,1\r\nabc,2\r\n"ab",3\r\n\n"abc",4\na,5\nab,6'
    out = io.BytesIO()
    assert _results._put_some(text, out, ["ab", "zz"]).tolist() == [1, 2, 4, 7]
    assert out.getvalue() == b'name,sid\r\nab,1\r\n"ab",3\r\nab,6\n'
