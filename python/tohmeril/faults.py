"""The program's statuses as exceptions. Each carries the line that the program printed, and says how to mend it."""

from __future__ import annotations

import csv
import os
import re
import signal
import sqlite3
from contextlib import closing
from itertools import islice
from pathlib import Path
from typing import TYPE_CHECKING, Callable, Optional, Sequence

from .data import TABLES, readable, records

if TYPE_CHECKING:
    from .pipeline.script import Script
    from .pipeline.term import Term

CUT = "; run in pieces, or in more of them, with cut=True"
HINTS = {  # by the last word of the line; docs/FILES.md and docs/LANGUAGE.md in short
    "BadByte": "a byte that no token can hold; texts are in double quotes",
    "Unexpected": "the text up to here begins no pipeline; give the name of a file as a Path",
    "UnknownName": "the language has no such name",
    "usage": (
        "the words above are of no command's form: an option is out of its range, or the program is older than this "
        "package"
    ),
    "WrongKind": "one of bar column, factor, filter, classifier, number and text is where another is asked for",
    "BadArgument": "an argument is missing, unknown, given twice, out of its range or none of its list",
    "BadWindow": "a window is from 1 to 1,260 sessions, or from 2 where its term compares two values",
    "NotWindowSafe": (
        "a window can't be over this factor, which depends on adjustments that come between; it can be over "
        "Returns and ranks"
    ),
    "Redefined": "a column, a let or the screen is there twice, or a let has a name of the language",
    "NoColumn": "a pipeline has one column at least",
    "NoNumbers": "the data have no numbers; Data.write takes them as numbers=, or write numbers.csv into the folder",
    "BadHeader": "write the header of docs/FILES.md",
    "BadDate": "write YYYY-MM-DD; the sessions have no header",
    "NotAscending": "sort the sessions, each once",
    "Empty": "there is no session",
    "BadField": (
        "write plain decimals, dates as YYYY-MM-DD, sids as digits, labels in ASCII; leave a missing value empty"
    ),
    "StartAfterEnd": "an asset starts the day before its first session and ends on its last",
    "DuplicateSid": "keep one lifetime for an asset",
    "NotSession": "add the day to the sessions, or drop the record",
    "UnknownSid": "add the asset to the assets, or drop the record",
    "Negative": (
        "a bar has no values below 0; leave a missing one empty. In CRSP a minus says that the price is a mean of "
        "bid and ask: give it without its sign"
    ),
    "Duplicate": "keep one of the two records",
    "LabelTooLong": "a label has at most 64 bytes",
    "DuplicateStart": "keep one label for an asset, a name and a day",
    "TooSoon": "a revision is known after the day of its bar; what was known on that day belongs in the bars",
    "NotPositive": "drop payouts of nothing",
    "BadEffective": "give seconds since 1970-01-01 UTC, of the years 1900 to 2199",
    "BadRatio": "num and den are from 1 to 1,000,000,000; reduce the fraction",
    "Backwards": "there is no session from the first day to the last, or asof is before the last",
    "pipeline": "the text of a pipeline has at most 262,144 bytes",
    "terms": "a pipeline has at most 256 different terms",
    "columns": "a pipeline has at most 64 columns",
    "extra": "a term is needed more than 4,096 sessions before the range",
    "sessions": "a calendar has at most 16,000 sessions; leave out the oldest",
    "assets": "a run reads at most 8,000 assets" + CUT,
    "labels": "a run reads at most 200,000 labels; leave out those that change nothing, or" + CUT[1:],
    "numbers": "a run reads at most 2,000,000 numbers; leave out those that change nothing, or" + CUT[1:],
    "bars": "a run reads at most 4,000,000 bars" + CUT,
    "adjustments": "a run reads at most 1,000,000 adjustments" + CUT,
    "revisions": "a run reads at most 200,000 revisions" + CUT,
    "file": "a file has at most 536,870,912 bytes" + CUT,
    "memory": "it ran out" + CUT,
}
ARGUMENTS = {  # what the arguments of a function or a member may be, for BadArgument
    "rank": 'the method is "ordinal", "min", "max", "average" or "dense", the order "ascending" or "descending"',
    "quantiles": "the number of bins is a whole one from 2 to 100",
    **dict.fromkeys(("top", "bottom"), "N is a whole number from 1 to 8,000"),
    "percentile_between": "percentiles are from 0 to 100, whole hundredths, the first no greater than the second",
    "clip": "the first bound is no greater than the second",
    "downsample": 'the frequency is "year_start", "quarter_start", "month_start" or "week_start"',
    "AtLeastN": "N is a whole number from 1 to the window",
    **dict.fromkeys(
        [f"ExponentialWeightedMoving{end}" for end in ("Average", "Mean", "StdDev")],
        "the decay rate is above 0 and below 1",
    ),
    **dict.fromkeys(("WindowPercentile", "percentile"), "the percent is from 0 to 100, whole hundredths"),
    "winsorize": "both shares are from 0 to 1, the first below the second",
    **dict.fromkeys(("BollingerLower", "BollingerUpper"), "k is above 0"),
    "StaticSids": "sids are whole numbers from 0 to 4,294,967,295",
    **dict.fromkeys(("label", "number"), "a name is a letter or _, and then letters, digits or _, at most 32 in all"),
    "latest": "latest has no parentheses",
}
DATE, SID, DECIMAL = r"\d{4}-\d\d-\d\d", r"0|[1-9]\d{0,9}", r"-?\d+(\.\d{1,18})?"
FORMS = {
    "sid": SID,
    **dict.fromkeys(("session", "start", "end", "known", "ex"), DATE),
    "column": "open|high|low|close|volume",
    "name": r"[A-Za-z_]\w{0,31}",
    "label": r"[ -~]{0,64}",
    "amount": DECIMAL,
    **dict.fromkeys(("open", "high", "low", "close", "volume", "value"), f"({DECIMAL})?"),
}
WRONG = {
    "NotSession": "session",
    "UnknownSid": "sid",
    "DuplicateSid": "sid",
    "Duplicate": "session known",
    "StartAfterEnd": "start",
    "LabelTooLong": "label",
    "DuplicateStart": "start",
    "TooSoon": "known",
    "NotPositive": "amount",
    "BadEffective": "effective_date",
}


COLUMNS = ("id", "effective_date", "num", "den", "sid")  # of the tables of adjustments


class Fault(Exception):
    """The program ended with a status other than 0.

    Attributes
    ----------
    line : str
        What the program printed.
    note : str
        What is known beside it: the line of the pipeline, the record, the first session.
    """

    status = 0

    def __init_subclass__(cls, status: int):
        cls.status = status

    def __init__(self, line: str, note: str = ""):
        super().__init__(line, note)
        self.line, self.note = line, note

    def __str__(self) -> str:
        return "\n".join(filter(None, (self.line, self.note, self._hint())))

    def _hint(self) -> str:
        """How to mend it."""
        named = re.search(r"(?:^|(?:syntax|check|data|range:|limit:) )(\w+)$", self.line)
        return HINTS.get(named[1], "") if named else ""


class UsageError(Fault, status=2):
    """The words are of no command's form: an option out of its range, or a fault of this package."""


class PipelineError(Fault, status=3):
    """The text of a pipeline is not in the language, or breaks one of its rules.

    Attributes
    ----------
    place : tuple of int
        Line and column, from 1.
    term : Term or None
        The Python term that was written there.
    word : str
        The word of the text there, as the name of a function.
    """

    term: Optional[Term] = None
    word = ""

    @property
    def place(self) -> tuple[int, int]:
        found = re.search(r":(\d+):(\d+): (?:syntax|check) ", self.line)
        assert found is not None, self.line  # the form of status 3
        return int(found[1]), int(found[2])

    def within(self, script: Script) -> PipelineError:
        """The same fault with its line of the text, a caret under the place, and the term."""
        line, column = self.place
        self.term = script.term_at(line, column)
        self.line = re.sub(r"^.*?(?=:\d+:\d+: )", "pipeline", self.line)
        text = dict(enumerate(script.text.splitlines(), 1)).get(line, "")
        word = re.match(r"\w+", text[column - 1 :])
        self.word = word[0] if word else ""
        self.note = f"    {text}\n    {'^':>{column}}" + (
            f"\nin the term {self.term!r}" if self.term is not None else ""
        )
        return self

    def _hint(self) -> str:
        hint = super()._hint()
        return (
            f"{self.word}: {ARGUMENTS[self.word]}; or {hint}"
            if self.line.endswith("BadArgument") and self.word in ARGUMENTS
            else hint
        )


class DataFault(Fault, status=4):
    """A record of a data file, or a row of the adjustments, breaks a rule; `note` shows its fields and the wrong one.

    Attributes
    ----------
    path, rule : str
        The file, and the name of the rule; None in a fault of a frame that `Data.write` is given, as the next two are.
    record : int
        The number of the record in the file, where the header is 1 and empty lines do not count; or the row's id.
    table : str or None
        The table of the row.
    """

    path: Optional[str] = None
    rule: Optional[str] = None
    record: Optional[int] = None
    table: Optional[str] = None

    def __init__(self, line: str, note: str = ""):
        place = re.fullmatch(r"(.*?)(?::(splits|mergers|dividends))?:(\d+): data (\w+)", line)
        if place:
            self.path, self.table, self.rule, self.record = *place.group(1, 2, 4), int(place[3])
        super().__init__(line, note or (self._shown() if place else ""))

    def moved(self, path: Path, record: int) -> DataFault:
        """The fault of the same record in the larger file that this one is cut from."""
        indent = " " * (len(str(record)) - len(str(self.record)))
        note = self.note.replace(str(self.record), str(record), 1).replace("\n", "\n" + indent)
        return DataFault(":".join(filter(None, (str(path), self.table, f"{record}: data {self.rule}"))), note)

    def _shown(self) -> str:
        """The record or the row as it is, with a caret under the field that breaks the rule."""
        assert self.path is not None and self.record is not None and self.rule is not None
        try:
            names, fields = _row(self.path, self.table, self.record) if self.table else _record(self.path, self.record)
        except (OSError, csv.Error, sqlite3.Error, StopIteration):
            return ""
        rules: dict[str, Callable[[str, str], object]] = {
            "BadField": lambda name, field: not re.fullmatch(FORMS.get(name, ".*"), field),
            "Negative": lambda name, field: field.startswith("-"),
            "BadRatio": lambda name, field: name in ("num", "den") and not 1 <= int(field) <= 10**9,
        }
        rules.setdefault(self.rule, lambda name, field: name in WRONG.get(self.rule or "", "").split())
        breaks = rules[self.rule]
        shown = f"    {'row' if self.table else 'record'} {self.record}: {','.join(fields)}"
        for at, (name, field) in enumerate(zip(names, fields)):
            if breaks(name, field):
                return f"{shown}\n{'':{len(shown) - len(','.join(fields[at:]))}}{'^' * max(len(field), 1)} {name}"
        return shown


def _record(path: str, number: int) -> tuple[Sequence[str], Sequence[str]]:
    """The header of a CSV file and one of its records."""
    rows = records(path)
    first = next(rows)
    return first, first if number == 1 else next(islice(rows, number - 2, None))


def _row(path: str, table: str, number: int) -> tuple[Sequence[str], Sequence[str]]:
    """The names and the fields of a row of the adjustments."""
    with readable(path) as name, closing(sqlite3.connect(name, uri=True)) as store:
        row = store.execute(f"SELECT {', '.join(COLUMNS)} FROM {table} WHERE id = ?", (number,)).fetchone()
        return COLUMNS, [str(field) for field in row or ()]


class RangeFault(Fault, status=5):
    """The range, or the cell of `explain`, is none of the data; `first_session` is the first that can be asked for."""

    first_session: Optional[str] = None


class LimitFault(Fault, status=6):
    """A limit is passed."""


class ReadFault(Fault, status=7):
    """A file can't be read; `note` says that it is not there."""

    def __init__(self, line: str, note: str = ""):
        super().__init__(line, note or _absent(line.partition("read: ")[2]))


def _absent(path: str) -> str:
    """What of a path is not there."""
    folder = os.path.dirname(path)
    if not folder or os.path.exists(path):
        return ""
    return "there is no such file" if os.path.isdir(folder) else f"there is no folder {folder}: Data.write makes one"


class StoreFault(Fault, status=8):
    """The adjustments can't be loaded; `note` says which table is why."""

    def __init__(self, line: str, note: str = ""):
        super().__init__(line, note or _broken(line.partition("store: ")[2]))


def _broken(path: str) -> str:
    """What is wrong with a database of adjustments."""
    if not os.path.exists(path) or not os.path.getsize(path):
        return "there is no such file, or it is empty" if path else ""
    if os.path.exists(f"{path}-journal"):
        return "a write of it was broken off, as the journal beside it says: open it once with sqlite3, which mends it"
    table = ""
    try:
        with readable(path) as name, closing(sqlite3.connect(name, uri=True)) as store:
            for table in TABLES:
                there = {row[1] for row in store.execute(f"PRAGMA table_info({table})")}
                lacking = [name for name in COLUMNS if name not in there]
                if lacking:
                    return f"the table {table} has no column {lacking[0]}" if there else f"there is no table {table}"
                kinds = ", ".join(f"typeof({name})" for name in COLUMNS)
                for row in store.execute(f"SELECT {', '.join(COLUMNS)}, {kinds} FROM {table}"):
                    for name, value, kind in zip(COLUMNS, row, row[len(COLUMNS) :]):
                        if kind != "integer":
                            return f"the table {table} has {value!r} as {name}, which has to be an INTEGER"
    except sqlite3.Error as error:
        return f"{table and f'the table {table}: '}{error}"
    return ""


class WriteFault(Fault, status=9):
    """The output could not be written."""


class MemoryFault(Fault, status=10):
    """Memory ran out."""


class ComputeFault(Fault, status=0):
    """Code of one's own, the `compute` of a custom term, has raised; `__cause__` is what it has raised, here.

    Attributes
    ----------
    term, session : str
        The term that was computed, as it is written, and the day.
    """

    term = ""
    session = ""


def fault(status: int, line: str, note: str = "") -> Fault:
    """The exception of a status.

    >>> fault(6, "limit: terms")
    LimitFault('limit: terms', '')
    """
    sort = {each.status: each for each in Fault.__subclasses__()}.get(status, Fault)
    if status < 0:
        name = signal.Signals(-status).name if -status in set(signal.Signals) else "a signal"
        line = f"the program was ended by {name}, the signal {-status}"
        note = note or (
            "as the system does where memory runs out, and jobs that are stopped: give less to one run, by pieces= and "
            "cut=True, or use fewer workers"
            if -status == signal.SIGKILL
            else ""
        )
    return sort(line.strip() or f"the program ended with status {status}", note)
