"""Modules of Zipline and Quantopian that are none here: who imports one learns what to write."""

from __future__ import annotations

import re
import sys
from importlib.abc import MetaPathFinder
from typing import Any

LISTED = "docs/ZIPLINE.md lists what there is"
VENDOR = (
    "what a vendor has is class Fundamentals(DataSet): pe_ratio = Column(float), with DataSet and Column of "
    "tohmeril.pipeline.data, and Data.write takes its records as numbers="
)
LABEL = (
    "a vendor's sectors and lists are class Fundamentals(DataSet): sector = Column(int), or Column(object) for texts, "
    "whose latest is a classifier, and Data.write takes them as labels=; a universe is a filter, as "
    "AverageDollarVolume(window_length=200).top(500)"
)
NEAREST = {  # by the name after that of the package
    r"(research|interactive)(\..*)?": (
        "write from tohmeril import Data, run_pipeline, and run_pipeline(pipe, start, end, Data(folder))"
    ),
    r"(algorithm|api|optimize|finance|gens|sources|protocol|examples)(\..*)?": (
        "there are no orders and no backtest; run_pipeline makes the frame that one of your own takes"
    ),
    r"(data|extensions)\.bundles(\..*)?": "Data.write makes a folder of frames, tohmeril.csvdir reads Zipline's csvdir",
    r"utils(\..*)?": "the calendar is that of the data, Data(folder).sessions",
    r"errors": (
        "the exceptions are in tohmeril.faults, and Inexpressible and NonWindowSafeInput are in tohmeril.pipeline"
    ),
    r"pipeline\.data\..*": VENDOR,
    r"pipeline\.factors\..*": f"{LISTED}; {VENDOR}, whose latest is a factor",
    r"pipeline\.(filters|classifiers)\..*": f"{LISTED}; {LABEL}",
    r"pipeline\.loaders\..*": "Data.write takes frames: help(tohmeril.ingest.write)",
    r"pipeline\.experimental(\..*)?": "there is no model of risk; demean, zscore and rank take mask= and groupby=",
    r"pipeline\.(mixins|sentinels|dtypes|expression|graph|hooks|visualize|common)(\..*)?": (
        "Pipeline, Factor, Filter and Classifier are in tohmeril.pipeline"
    ),
}


class Finder(MetaPathFinder):
    """Who is asked last for a module, which then is none."""

    def find_spec(self, fullname: str, path: Any = None, target: Any = None) -> None:
        """Refuse what Zipline or Quantopian has there. Without a name the fault passes ``from .. import ..`` too."""
        package, _, name = fullname.partition(".")
        for names, nearest in NEAREST.items() if package == __package__ else ():
            if re.fullmatch(names, name):
                raise ModuleNotFoundError(f"there is no {fullname} here: {nearest}")


def install() -> None:
    """Be asked for the modules of this package that are not there."""
    if not any(isinstance(each, Finder) for each in sys.meta_path):
        sys.meta_path.append(Finder())
