"""The package installs without a network into a fresh environment."""

import importlib.util
import shutil
import subprocess
import sys

import pytest
from conftest import CHECKOUT


@pytest.mark.skipif(
    not all(map(importlib.util.find_spec, ("ensurepip", "setuptools", "wheel"))),
    reason="there is no venv, setuptools or wheel",
)
def test_install(tmp_path):
    source = shutil.copytree(
        CHECKOUT / "python", tmp_path / "python", ignore=shutil.ignore_patterns("build", "*.egg-info")
    )
    subprocess.run([sys.executable, "-m", "venv", "--system-site-packages", tmp_path / "fresh"], check=True)
    python = tmp_path / "fresh/bin/python"
    subprocess.run([python, "-m", "pip", "install", "-q", "--no-index", "--no-build-isolation", source], check=True)
    shown = subprocess.check_output(
        [python, "-c", "import tohmeril.pipeline.data, tohmeril as t; print(t.__file__)"], cwd=tmp_path
    )
    assert str(tmp_path / "fresh") in shown.decode()
