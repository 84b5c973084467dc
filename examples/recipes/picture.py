#!/usr/bin/env python3
"""Pictures of a factor: its course, mean returns of the next sessions by its fifths, and the turnover of the
top fifth.

Usage: picture.py DATA FROM TO SESSIONS PICTURES, DATA being a folder of data and PICTURES the one for the
files. The returns are adjusted, since they are a column of the pipeline. It needs the package in python/ and
for matplotlib.
"""
import sys
from pathlib import Path

from tohmeril import Data, Pipeline, plots, run_pipeline
from tohmeril.pipeline.factors import Returns

folder, start, end, sessions, pictures = sys.argv[1:]
factor = Returns(window_length=22)  # put yours here
pipe = Pipeline({"factor": factor, "fifth": factor.quintiles(), "ahead": Returns(window_length=int(sessions) + 1)})
frame = run_pipeline(pipe, start, end, Data(folder))
plots.factor(frame, "factor").savefig(Path(pictures) / "factor.png")
plots.quantile_returns(frame, "fifth", "ahead", int(sessions)).savefig(Path(pictures) / "fifths.png")
plots.turnover(frame, "fifth").savefig(Path(pictures) / "turnover.png")
