#!/usr/bin/env python3
"""Files cut for each piece of a range: the way past 4,000,000 bars and 8,000 assets, and to pieces that hold
few bars each.

Usage: cut.py PIPELINE FOLDER FROM TO PIECES TARGET. It makes the folders TARGET/0, TARGET/1 .. with the bars,
assets, labels, numbers, adjustments and revisions that a piece reads (`plan` says from which session on), and
prints a line for each piece: its folder, its first and its last session. A run of each piece and their tables
joined in order give the table of the whole. It needs the package in python/.
"""
import sys
from pathlib import Path

from tohmeril import Data
from tohmeril.cuts import cut_files

pipeline, folder, start, end, pieces, target = sys.argv[1:]
data = Data(folder)
ranges = data.pieces(*data.between(start, end), int(pieces))
Path(target).mkdir(parents=True)
for part, (first, last) in zip(cut_files(Path(pipeline).read_text(), data, ranges, Path(target)), ranges):
    print(part.folder, first, last)
