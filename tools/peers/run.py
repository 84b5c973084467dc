#!/usr/bin/env python3
"""Runs the program beside its peers, in turns on one core, and prints a table.

Usage: run.py PROGRAM [--sessions N] [--assets N] [--adjustments N] [--holes] [--rounds N] [--pipelines latest,means,twenty]
              [--folder FOLDER]

The peers are peer.c, whose table has to be the program's to the byte, and peer_numpy.py, whose numbers may be apart by a
few millionths, as floats are; else the status is 1. The folder keeps the world, the built peer and the tables. Processor
time is the user's and the system's, memory the greatest of the rounds. It needs gcc, and numpy and pandas.
"""
import argparse
import os
import statistics
import subprocess
import sys
import tempfile
from pathlib import Path

HERE = Path(__file__).resolve().parent
sys.path.insert(0, str(HERE))
import world  # noqa: E402

REACH = 252  # sessions before the first one of a run


def words_of(program, name, folder, first, last):
    """The command lines of the program and of its peers."""
    files = [f"{folder}/{part}.csv" for part in ("sessions", "assets", "bars")]
    options = [f"--labels={folder}/labels.csv", f"--adjustments={folder}/adjustments.db"]
    words = [name, str(folder), first, last]
    return {
        "program": [program, "run", f"{HERE}/{name}.pl", *files, first, last, *options],
        "peer.c": [f"{folder}/peer", *words],
        "numpy": [sys.executable, f"{HERE}/peer_numpy.py", *words],
    }


def measured(words, path, core):
    """Seconds of processor time, and megabytes, of a command that writes into a file."""
    with open(path, "wb") as out:
        child = subprocess.Popen(words, stdout=out, env={**os.environ, "OMP_NUM_THREADS": "1", "OPENBLAS_NUM_THREADS": "1"})
        os.sched_setaffinity(child.pid, {core})
        _, status, used = os.wait4(child.pid, 0)
        child.returncode = os.waitstatus_to_exitcode(status)
    if child.returncode:
        sys.exit(f"{' '.join(words)}: status {child.returncode}")
    return used.ru_utime + used.ru_stime, used.ru_maxrss / 1024


def apart(one, other):
    """Of how many rows of two tables, and by how much at most numbers are apart; ranks and bins are left out, since a
    rounding that decides one moves all that come after it.
    """
    rows, most = 0, 0.0
    with open(one) as mine, open(other) as theirs:
        names = next(mine).rstrip().split(",")
        left, right = next(theirs) and next(mine, ""), next(theirs, "")
        while left or right:
            cells, others = left.rstrip("\n").split(","), right.rstrip("\n").split(",")
            first, second = ((row[0], int(row[1])) if len(row) > 1 else ("~", 0) for row in (cells, others))
            if left != right and first != second:
                rows += 1
            elif left != right:
                for name, cell, number in list(zip(names, cells, others))[2:]:
                    if name not in ("rank", "decile", "z") and cell and number:
                        most = max(most, abs(float(cell) - float(number)) / max(1, abs(float(cell))))
            left, right = next(mine, "") if first <= second else left, next(theirs, "") if second <= first else right
    return rows, most


def seconds(figures):
    times = [time for time, _ in figures]
    return f"{statistics.median(times):.2f} ({min(times):.2f} to {max(times):.2f})"


def main():
    parser = argparse.ArgumentParser(usage=__doc__.split("Usage: ")[1].split("\n\n")[0])
    parser.add_argument("program")
    for name, default in (("sessions", 600), ("assets", 400), ("adjustments", 300), ("rounds", 3)):
        parser.add_argument(f"--{name}", type=int, default=default)
    parser.add_argument("--holes", action="store_true")
    parser.add_argument("--pipelines", default="latest,means,twenty")
    parser.add_argument("--folder")
    given = parser.parse_args()
    with tempfile.TemporaryDirectory() as made:
        folder = Path(given.folder or f"{made}/world")
        if not folder.exists():
            world.write(folder, given.sessions, given.assets, given.adjustments, given.holes)
        subprocess.run(["gcc", "-O3", "-march=native", "-o", folder / "peer", HERE / "peer.c", "-lm"], check=True)
        sys.exit(compare(given, folder))


def compare(given, folder):
    """Run all, print the table, and say what is not equal; the status."""
    days = (folder / "sessions.csv").read_text().split()
    core, failed, load = max(os.sched_getaffinity(0)), 0, os.getloadavg()[0]
    print(f"{len(days)} sessions x {given.assets} assets, {given.rounds} rounds, load {load:.1f}\n")
    print("| Pipeline | Program, s | MB | peer.c, s | MB | Program over it | numpy, s | MB | Program over it |")
    print("|---|---|---|---|---|---|---|---|---|")
    for name in given.pipelines.split(","):
        commands = words_of(given.program, name, folder, days[REACH], days[-1])
        figures = {who: [] for who in commands}
        for _ in range(given.rounds):
            for who, words in commands.items():
                figures[who].append(measured(words, folder / f"{name}.{who}", core))
        cells, middle = [], {who: statistics.median(time for time, _ in found) for who, found in figures.items()}
        for who, found in figures.items():
            cells += [seconds(found), f"{max(size for _, size in found):.0f}"]
            cells += [f"{middle['program'] / max(middle[who], 1e-9):.2f}"] * (who != "program")
        print(f"| {name} | {' | '.join(cells)} |", flush=True)
        if (folder / f"{name}.program").read_bytes() != (folder / f"{name}.peer.c").read_bytes():
            failed = print(f"{name}: the table of peer.c is another one", file=sys.stderr) or 1
        others, most = apart(folder / f"{name}.program", folder / f"{name}.numpy")
        rows = (folder / f"{name}.program").read_bytes().count(b"\n") - 1
        if others > rows / 100 or most > 2e-5:
            failed = print(f"{name}: numpy's has {others} other rows, and numbers {most:.1e} apart", file=sys.stderr) or 1
    return failed


if __name__ == "__main__":
    main()
