"""Two commands: the job of each morning, ``python3 -m tohmeril append STORE NEWS TODAY``, and ``version``.

The first adds the CSV files of the folder NEWS to the folder STORE and makes TODAY its last session, by the rules of
`tohmeril.news.append`. The second prints which version this is, and whether the program is that of its release.
"""

from __future__ import annotations

import argparse
import sys
import warnings
from pathlib import Path
from typing import Any, Callable, Optional, Sequence

import pandas as pd

from . import version
from .data import Data
from .days import NoDay, read_day, read_days
from .faults import DataFault, Fault, ReadFault
from .frames import select_columns

PARTS = ("bars", "assets", "labels", "numbers", "revisions", "splits", "mergers", "dividends")


def parser() -> argparse.ArgumentParser:
    """The words of the commands."""
    parser = argparse.ArgumentParser(prog="python3 -m tohmeril")
    commands = parser.add_subparsers(required=True, metavar="COMMAND")
    told = commands.add_parser(
        "version", help="print the version, the program with its sum, and whether the release names it"
    )
    told.set_defaults(call=tell_version)
    append = commands.add_parser(
        "append",
        help="add what came since the last session",
        description="Adds the files of NEWS to STORE and makes TODAY its last "
        "session: bars.csv (those of the session before), assets.csv, labels.csv, numbers.csv, revisions.csv, "
        "splits.csv, mergers.csv, dividends.csv, as far as they are there. Where something is wrong, STORE stays as it "
        "was. A second call adds nothing.",
    )
    append.add_argument("store", type=Path, metavar="STORE")
    append.add_argument("news", type=Path, metavar="NEWS")
    append.add_argument("today", metavar="TODAY")
    append.add_argument(
        "--without-bars", action="store_true", help="go on though no bars of the session before have come"
    )
    append.add_argument(
        "--late", action="store_true", help="take bars of earlier sessions as revisions that are known TODAY"
    )
    append.add_argument(
        "--weekend", action="store_true", help="TODAY is a session though no other one falls on its day of the week"
    )
    append.set_defaults(call=add_news)
    return parser


def tell_version() -> int:
    """Print the version; the status is 1 where the program is another than the release names."""
    text, agrees = version.describe()
    print(text)
    return 0 if agrees else 1


def read(path: Path) -> pd.DataFrame:
    """A file of the news; fields are texts, and an empty one is missing."""
    try:
        frame = pd.read_csv(path, dtype=str, keep_default_na=False, na_values=[""], encoding="utf-8-sig")
    except ValueError as error:  # of pandas and of the encoding
        raise DataFault(f"append: {path}: {str(error).strip()}", "a file is CSV in UTF-8 with a header") from None
    name = next((name for name in frame.columns if str(name).lower() == "sid"), None)
    if name is not None:
        numbers = pd.to_numeric(frame[name], errors="coerce")
        if numbers.notna().equals(frame[name].notna()):  # else there are symbols
            frame[name] = numbers
    return frame


def append(store: Path, news: Path, today: str, without_bars: bool, late: bool, weekend: bool) -> Optional[Data]:
    """Add the news, where TODAY is none of the sessions yet."""
    data = Data(store)
    try:
        today = read_day(today)
    except NoDay as error:
        raise DataFault(f"append: {error.why}", error.instead) from None
    if not data.sessions:
        raise ReadFault(
            f"read: {data.files['sessions']}", "append adds to a folder that is there: Data.write makes one"
        )
    if today == data.sessions[-1]:
        print(f"append: {today} is the last session already, so nothing is added", file=sys.stderr)
        return None
    if today < data.sessions[-1]:
        raise DataFault(f"append: {today} is no day after {data.sessions[-1]}, the last session")
    name = pd.Timestamp(today).day_name()
    if (
        name in ("Saturday", "Sunday")
        and not weekend
        and all(pd.Timestamp(day).day_name() != name for day in data.sessions)
    ):
        raise DataFault(
            f"append: {today} is a {name}, and no session is one", "where there is trade on it, say so by --weekend"
        )
    frames = {part: read(news / f"{part}.csv") for part in PARTS if (news / f"{part}.csv").exists()}
    days = (
        set(read_days(select_columns(frames["bars"], "bars", "session").session, "bars")) if "bars" in frames else set()
    )
    if data.sessions[-1] not in days and not without_bars:
        there = f"; there are those of {max(days)}" if days else ""
        raise DataFault(
            f"append: {news} has no bars of {data.sessions[-1]}, the last session{there}",
            "the vendor may be late: call again when they have come, or go on by --without-bars; then they can come by "
            "--late",
        )
    return data.append(**frames, sessions=[today], late=today if late else None)


def add_news(**options: Any) -> int:
    """Run `append`; the status is that of the fault, with which the program would end."""
    warnings.showwarning = lambda message, *place: print(f"append: {message}", file=sys.stderr)
    try:
        data = append(**options)
    except Fault as fault:
        print(fault, file=sys.stderr)
        return fault.status
    if data is not None:
        print("append: " + ", ".join(f"{count} {part}" for part, count in data.added.items()), file=sys.stderr)
    return 0


def main(words: Optional[Sequence[str]] = None) -> int:
    """Run the command of these words, by default those of the process, and return its status."""
    options = vars(parser().parse_args(words))
    call: Callable[..., int] = options.pop("call")
    return call(**options)


if __name__ == "__main__":
    sys.exit(main())
