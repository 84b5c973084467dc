"""The pages for readers: their examples, and the rows of their tables."""

import doctest
import re
import textwrap
from concurrent.futures import ThreadPoolExecutor
from types import SimpleNamespace

import pytest
from conftest import CHECKOUT

from tohmeril import plots, run_chunked_pipeline, run_pipeline
from tohmeril.pipeline import Inexpressible, Pipeline, classifiers, factors, filters
from tohmeril.pipeline.data import Column, DataSet, DataSetFamily, EquityPricing, Labels

PAGES = [CHECKOUT / "python/README.md", CHECKOUT / "docs/ZIPLINE.md"]
ZIPLINE = PAGES[1].read_text()
NAMES = {
    **vars(factors),
    **vars(filters),
    **vars(classifiers),
    "Labels": Labels,
    "c": Labels.sector.latest,
    "y": factors.Returns(window_length=5),
    "z": factors.RSI(),
    **{name: getattr(EquityPricing, name) for name in ("open", "high", "low", "close", "volume")},
}
NAMES.update(
    Column=Column,
    DataSetFamily=DataSetFamily,
    Fundamentals=type(
        "Fundamentals",
        (DataSet,),
        {
            "earnings": Column(float),
            "is_primary": Column(bool),
            "sector": Column(int),
            "exchange": Column(object),
        },
    ),
    Events=type("Events", (DataSet,), {"call": Column(float)}),
    f=NAMES["close"].latest > 5,
    g=NAMES["volume"].latest > 0,
    abs=abs,
    len=len,
)


def cells(heading):
    """The code of each row of the tables below a heading, cell by cell."""
    part = ZIPLINE.split(f"## {heading}\n")[1].split("\n## ")[0]
    rows = [re.split(r"(?<!\\)\|", line)[1:-1] for line in part.splitlines() if line.startswith("| ")]
    return [[[code.replace(r"\|", "|") for code in re.findall(r"`([^`]+)`", cell)] for cell in row] for row in rows]


@pytest.mark.parametrize("page", PAGES, ids=lambda page: page.name)
def test_examples(page, data, tmp_path):
    found = doctest.testfile(
        str(page),
        module_relative=False,
        globs={"data": data, "folder": tmp_path},
        optionflags=doctest.NORMALIZE_WHITESPACE | doctest.REPORT_NDIFF,
    )
    assert found.attempted and not found.failed


@pytest.mark.parametrize(
    "code", [code for code in re.findall(r"\n\n((?:    .+\n)+)", PAGES[0].read_text()) if "pip install" not in code]
)
def test_code_without_its_output(code, data, tmp_path, monkeypatch):
    pytest.importorskip("matplotlib")
    monkeypatch.chdir(tmp_path)
    names = {
        **NAMES,
        "Pipeline": Pipeline,
        "run_pipeline": run_pipeline,
        "run_chunked_pipeline": run_chunked_pipeline,
        "plots": plots,
        "data": data,
        "start": "2023-12-01",
        "end": "2023-12-29",
        "momentum": NAMES["y"],
        "pipe": Pipeline({"y": NAMES["y"]}),
        "dask": SimpleNamespace(distributed=SimpleNamespace(Client=lambda address: ThreadPoolExecutor(2))),
    }
    exec(textwrap.dedent(code), names)
    assert len(names["frame"])


@pytest.mark.parametrize(
    "python, text", [(python, text) for row in cells("What is here") for python, text in [row[:2]] if python]
)
def test_what_is_here(python, text):
    for code, wanted in zip(python, text or python):
        assert repr(eval(code, dict(NAMES))) == (wanted if text else repr(eval(wanted, dict(NAMES))))


@pytest.mark.parametrize("python, text", [row[1:] for row in cells("What is written otherwise") if row[1] and row[2]])
def test_what_is_written_otherwise(python, text):
    assert [repr(eval(code, dict(NAMES))) for code in python] == text


@pytest.mark.parametrize("code", [code for row in cells("What is left out") for code in row[0] if not code.islower()])
def test_what_is_left_out(code):
    with pytest.raises(Inexpressible, match="nearest: "):
        found = eval(code, dict(NAMES))
        found()  # a class of Zipline's
