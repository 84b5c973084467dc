#!/usr/bin/env python3
"""A range in pieces on the workers of a Dask cluster, joined to the table of the whole.

Usage: cluster.py PIPELINE FOLDER FROM TO [SCHEDULER]. Without the address of a scheduler it starts two
workers of its own. It asks for the package in python/ and for dask.distributed. Workers on other machines
need the package, the program and the data under the same paths. `run_pipeline` with the same `executor` gives
a frame in place of the text.
"""
import sys
from pathlib import Path

from dask.distributed import Client

from tohmeril import Data, run_text


def main(pipeline, folder, start, end, scheduler=None):
    with Client(scheduler) if scheduler else Client(n_workers=2, threads_per_worker=1, dashboard_address=None) as client:
        sys.stdout.buffer.write(run_text(Path(pipeline), start, end, Data(folder), executor=client))


if __name__ == "__main__":
    main(*sys.argv[1:])
