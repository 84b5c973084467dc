"""The form of the package: types, layout, and what docstrings say."""

import inspect
import re
import subprocess
import sys
from pathlib import Path

import pytest
from conftest import CHECKOUT, LEFT_OUT

import tohmeril
from tohmeril import plots
from tohmeril.odd import check as check_data

PYTHON = CHECKOUT / "python"


def told(*words):
    done = subprocess.run(
        [sys.executable, "-m", *words], cwd=PYTHON, stdout=subprocess.PIPE, stderr=subprocess.STDOUT, text=True
    )
    return (done.stdout or f"{words[0]} ended with status {done.returncode}") if done.returncode else ""


@pytest.mark.skipif("mypy" in LEFT_OUT, reason="left out")
def test_types(tmp_path):
    """By mypy 1.0 and numpy 1.24, of Debian 12, as by mypy 1.15 and numpy 2.2, of Debian 13."""
    assert told("mypy", "--strict", "--no-error-summary", f"--cache-dir={tmp_path}", "tohmeril") == ""


@pytest.mark.skipif("black" in LEFT_OUT, reason="left out")
def test_layout():
    """A layout that black 23, of Debian 12, leaves as it is, and black 25, of Debian 13, too."""
    assert told("black", "--check", "--quiet", "--diff", "tohmeril", "tests", "conftest.py") == ""


FUNCTIONS = [getattr(tohmeril, name) for name in tohmeril.__all__ if inspect.isfunction(getattr(tohmeril, name))]


@pytest.mark.parametrize(
    "function",
    [*FUNCTIONS, tohmeril.Pipeline, tohmeril.Data, plots.factor, plots.quantile_returns, plots.turnover, check_data],
    ids=lambda function: f"{function.__module__}.{function.__name__}",
)
def test_sections(function):
    """What is exported says of each parameter what it is, and what comes of it."""
    text = inspect.getdoc(function)
    parts = dict(re.findall(r"^(\w+)\n-+\n(.*?)(?=\n\n\w+\n-+\n|\Z)", text, re.M | re.S))
    names = {
        name.strip().lstrip("*")
        for line in re.findall(r"^(\S.*)$", parts["Parameters"], re.M)
        for name in line.split(" : ")[0].split(",")
    }
    assert {name for name in inspect.signature(function).parameters} == names
    assert inspect.isclass(function) or "Returns" in parts
    assert set(parts) <= {
        "Parameters",
        "Returns",
        "Raises",
        "Warns",
        "Attributes",
        "Notes",
        "Examples",
        "Yields",
        "See Also",
    }


def test_keywords_are_written_out():
    for function in (tohmeril.Data.run_pipeline, tohmeril.Data.run_chunked_pipeline, *FUNCTIONS):
        kinds = {each.kind for each in inspect.signature(function).parameters.values()}
        assert inspect.Parameter.VAR_KEYWORD not in kinds, function
    for method, function in (
        (tohmeril.Data.run_pipeline, tohmeril.run_pipeline),
        (tohmeril.Data.run_chunked_pipeline, tohmeril.run_chunked_pipeline),
    ):
        own, wanted = (inspect.signature(each).parameters for each in (method, function))
        defaults = {name: each.default for name, each in wanted.items() if name != "data"}
        assert {name: each.default for name, each in own.items() if name != "self"} == defaults


def test_all_is_typed():
    assert (Path(tohmeril.__file__).parent / "py.typed").exists()
