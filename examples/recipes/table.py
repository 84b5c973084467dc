#!/usr/bin/env python3
"""The table of a pipeline file over a folder of data in pandas, as Zipline's run_pipeline gives it.

Usage: table.py PIPELINE FOLDER FROM TO prints its head and the types of its columns. It needs the package in
python/.
"""
import sys
from pathlib import Path

from tohmeril import Data, run_pipeline

pipeline, folder, start, end = sys.argv[1:]
frame = run_pipeline(Path(pipeline), start, end, Data(folder))
print(frame.head())
print(frame.dtypes)
