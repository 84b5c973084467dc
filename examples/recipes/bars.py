#!/usr/bin/env python3
"""The files of a run from wide CSV files, as most data comes: a row for each session, a column for each
symbol.

Usage: bars.py FOLDER close.csv volume.csv .. Each file is named by what it holds: open, high, low, close or
volume. Prices are as they were quoted on their day; an empty field is a missing value. It needs the package
in python/, whose Data.write takes splits, dividends, labels, numbers and revisions too.
"""
import sys
from pathlib import Path

import pandas as pd

from tohmeril import Data

folder, *files = sys.argv[1:]
print(Data.write(folder, {Path(file).stem: pd.read_csv(file, index_col=0) for file in files}))
