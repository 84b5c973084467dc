"""What code of one's own computes, as numbers and labels of a run.

The program makes the windows that `compute` is given: those of bars by its command `windows`, those of terms by a run
over the sessions that are needed. The results become records of files beside the user's own, which a run then reads.
"""

from __future__ import annotations

import copy
import traceback
import warnings
from bisect import bisect_left, bisect_right
from contextlib import ExitStack, contextmanager, suppress
from pathlib import Path
from tempfile import TemporaryDirectory
from typing import IO, TYPE_CHECKING, Any, Callable, ContextManager, Iterator, Mapping, NamedTuple, Optional, Sequence

import numpy as np
import pandas as pd

from . import program, table
from ._order import Need, fitting, names_in, order_of
from ._results import MISSING, MOST, Records, Stamp, TooMany, as_labels, stamp, to_millionths
from ._windows import Windows
from .data import HEADERS, Data, records
from .faults import ComputeFault, DataFault, LimitFault
from .pipeline.custom import Custom, bars_of, custom_of, new_out, output_of, parts_of
from .pipeline.script import Script, without_alias
from .pipeline.term import COMPUTED, BoundColumn, CodeColumn, Term, Whole, as_factor

if TYPE_CHECKING:
    Array = np.ndarray[Any, Any]

Tick = Callable[[float], None]  # told how much is computed, from 0 to 1
Ends = tuple[str, str]  # the first and the last session of a range
_known: set[tuple[Stamp, ...]] = set()  # files of users that are judged, or that have no room beside results
EMPTY: dict[str, Any] = {"factor": np.nan, "filter": False, "number": -1, "label": None}  # by the sort of a term


class Request(NamedTuple):
    """Windows of a column of bars, from a session on."""

    column: str
    first: int
    length: int


class Values(NamedTuple):
    """The values of terms on the sessions from `first` on, and where assets exist; with a column for each asset."""

    first: int
    terms: Mapping[Term, Array]
    exist: Array

    def window(self, term: Term, at: int, length: int) -> Array:
        """The values of a term on the sessions up to this one."""
        rows: Array = self.terms[term][at + 1 - length - self.first : at + 1 - self.first]
        return rows


def tables(
    script: Script,
    names: Mapping[Term, str],
    data: Data,
    ends: Ends,
    run: Callable[[Data, Ends], Any],
    move: Callable[[float], None] = lambda days: None,
) -> list[Any]:
    """What `run` makes of the data with what is computed for a range; of its parts, where its results are more than a
    run reads. `move` is told how many sessions of the range are done.
    """
    first = bisect_left(data.sessions, ends[0])
    waiting, found = _parts(script, names, data, ends)[::-1], []
    while waiting:
        part = waiting.pop()
        days = data.days(*part)
        done = bisect_left(data.sessions, part[0]) - first

        def tick(portion: float, done: int = done, count: int = len(days)) -> None:
            move(done + portion * count)

        try:
            with computed(script, names, data, part, tick) as whole:
                found.append(run(whole, part))
        except TooMany as error:
            if make_room(data, error.part):
                waiting.append(part)
                continue
            if len(days) < 2:
                raise LimitFault(
                    f"limit: {error.part}", f"what is computed for {part[0]} alone is more, with the sessions before it"
                ) from None
            middle = len(days) // 2
            waiting += [(days[middle], days[-1]), (days[0], days[middle - 1])]
    return found


def _parts(script: Script, names: Mapping[Term, str], data: Data, ends: Ends) -> list[Ends]:
    """A range in so many parts that the numbers computed for each are no more than a run reads, as far as that is known
    before.
    """
    days = data.days(*ends)
    leaves = [leaf for leaf in names if custom_of(leaf).sort == "factor"]
    assets = len(_sids(data))
    if len(days) * len(leaves) * assets <= MOST["results"] or len(days) < 2:
        return [ends]
    order, first = order_of(script, *ends, data), bisect_left(data.sessions, ends[0])
    before = {need.custom: first - need.first for level in order.levels for need in level}
    rows = _existing(data, ends) / len(days)  # of a session
    free = MOST["results"] / max(rows, 1) - sum(before[custom_of(leaf)] for leaf in leaves)
    return data.pieces(*ends, -(-len(days) // max(int(free / len(leaves)), 1)))


def _existing(data: Data, ends: Ends) -> int:
    """How many assets exist on the sessions of a range, in all."""
    low, high = bisect_left(data.sessions, ends[0]), bisect_right(data.sessions, ends[1])
    lives = [row[1:] for row in list(records(data.files["assets"]))[1:]]
    spans = [
        (max(bisect_right(data.sessions, start), low), min(bisect_right(data.sessions, end), high))
        for start, end in lives
    ]
    return sum(max(end - start, 0) for start, end in spans)


@contextmanager
def computed(
    script: Script, names: Mapping[Term, str], data: Data, ends: Ends, tick: Tick = lambda portion: None
) -> Iterator[Data]:
    """The data with what is computed for a range, within the block.

    Numbers stand in a file of results, beside the user's own. The user's labels come first in the file with those that
    are computed, so that the program judges them. Where it has judged them before, or labels or numbers have no room
    beside results (`make_room`), there are those of the names that the pipeline reads.

    Raises
    ------
    ComputeFault
        Where `compute` raises, with the session and the term.
    TooMany
        Where there are more results than a run reads.
    """
    order = order_of(script, ends[0], ends[1], data)
    with TemporaryDirectory() as folder:
        users = {part: data.files[part] for part in ("numbers", "labels") if part in data.files}
        stamps = {part: _stamps(data, part) for part in users}
        kept = {part: names_in(script, part) for part in users if stamps[part] in _known}
        found = Records(Path(folder), users, _sids(data), kept)
        for leaf in names:
            found.open("labels" if leaf.sort == "label" else "results")
        whole = copy.copy(data)
        whole.files = {**data.files, **found.files}
        sessions = bisect_right(data.sessions, ends[1])
        count, every = 0, sum(sessions - min(need.first for need in level) for level in order.levels)
        with _of_user(users, found):
            for level in order.levels:
                for _ in _Level(whole, ends[1], names, found).compute(level):
                    count += 1
                    tick(count / every)
                found.flush()
            if not order.has_bars and any(bars_of(need.custom) for level in order.levels for need in level):
                whole.files["bars"] = _no_bars(Path(folder))
            yield whole
        _known.update(stamps[part] for part in users.keys() & found.files.keys() - kept.keys())


def _stamps(data: Data, part: str) -> tuple[Stamp, ...]:
    """What tells a file of the user's, with those against which it is judged."""
    return tuple(stamp(data.files[each]) for each in ("sessions", "assets", part))


def make_room(data: Data, part: str) -> bool:
    """Take of a file of the user's, from now on, only what pipelines read. Whether that leaves more room than before."""
    if part not in data.files or (stamps := _stamps(data, part)) in _known:
        return False
    _known.add(stamps)
    return True


def _no_bars(folder: Path) -> Path:
    """A file without bars, for a pipeline that reads none: the windows' file was judged, and need not be read again."""
    path = folder / "bars.csv"
    path.write_text(",".join(HEADERS["bars"]) + "\n")
    return path


@contextmanager
def _of_user(users: Mapping[str, Path], found: Records) -> Iterator[None]:
    """Say a fault of a file with the results as one of the user's own, whose records are its first; and that the
    user's numbers have no room beside the results.
    """
    try:
        yield
    except LimitFault as fault:
        if fault.line == "limit: numbers" and found.count.get("results"):
            raise TooMany("numbers") from None
        raise
    except DataFault as fault:
        for part, path in found.files.items():
            if fault.path == str(path) and fault.record is not None and part in users:
                kept = found.kept.get(part)
                record = fault.record if kept is None else int(kept[fault.record - 1])
                raise fault.moved(users[part], record) from None
        raise


def _sids(data: Data) -> Array:
    """The sids of the assets, ascending; of a file that can't be read none, which the program then says."""
    with suppress(OSError, ValueError):
        sids: Array = np.unique(np.array([int(row[0]) for row in list(records(data.files["assets"]))[1:]], "i8"))
        return sids
    return np.zeros(0, "i8")


class _Level:
    """What is computed at once, since all that it is of is there."""

    def __init__(self, data: Data, last: str, names: Mapping[Term, str], found: Records):
        self.data, self.last, self.names, self.found = data, last, names, found

    def compute(self, needs: Sequence[Need]) -> Iterator[str]:
        """Compute it, session by session."""
        days, values = self.data.sessions, self._values(needs)
        with ExitStack() as stack:
            walks = {
                request: _Walk(program.stream(self._words(request)), request, self.found.sids, stack)
                for request in requested(needs)
            }
            works = [_Work(need, values, walks, self.found, self.names) for need in needs]
            for at in range(min(need.first for need in needs), bisect_right(days, self.last)):
                for request, walk in walks.items():
                    if at >= request.first:
                        walk.go(days[at])
                for work in works:
                    if at >= work.first:
                        work.go(at, days[at])
                yield days[at]
            for walk in walks.values():
                walk.end()
        for work in works:
            work.warn()

    def _words(self, request: Request) -> list[str]:
        """The words of the command for some windows."""
        begin, length = self.data.sessions[request.first], str(request.length)
        options = [word for word in self.data.options if word.startswith(("--adjustments=", "--revisions="))]
        return ["windows", *self.data.names, request.column, begin, self.last, length, *options]

    def _values(self, needs: Sequence[Need]) -> dict[tuple[Term, int], Values]:
        """The values of the terms that are given and of the masks, by the session from which they are needed."""
        wanted: dict[int, dict[Term, None]] = {}
        for custom, first in needs:
            for term, begin in _sources(custom, first):
                wanted.setdefault(begin, {})[term] = None
        return {
            (term, begin): values
            for begin, terms in wanted.items()
            for script in fitting(list(terms), self.names)
            for values in [self._run(script, begin)]
            for term in values.terms
        }

    def _run(self, script: Script, begin: int) -> Values:
        """The values of a pipeline's columns from a session on."""
        sorts, data = list(script.sorts.values()), self.data
        with program.file(script.text) as name:
            words = ["run", name, *data.names, data.sessions[begin], self.last, table.FORM, *data.options]
            with program.stream(words) as out:
                frame = table.read_table(out, list(script.columns), sorts)
        days = [bisect_left(data.sessions, f"{day:%Y-%m-%d}") - begin for day in frame[0].cat.categories]
        places = (
            np.array(days, int)[frame[0].cat.codes.to_numpy()],
            np.searchsorted(self.found.sids, frame[1].to_numpy()),
        )
        shape = bisect_right(data.sessions, self.last) - begin, len(self.found.sids)
        found = {}
        for at, (term, sort) in enumerate(zip(script.source[0].values(), sorts), 2):
            cells = _of_labels(frame[at], term) if sort == "label" else frame[at].to_numpy()
            found[term] = np.full(shape, missing_of(term), cells.dtype)
            found[term][places] = cells
        exist = np.zeros(shape, bool)
        exist[places] = True
        return Values(begin, found, exist)


def _sources(custom: Custom, first: int) -> list[tuple[Term, int]]:
    """The terms whose values are needed, and from which session on; without any, one that says where assets exist."""
    found = [(part, first - custom.window_length + 1) for part in parts_of(custom)]
    found += [] if custom.mask is None else [(custom.mask, first)]
    return found if found or custom.inputs else [(as_factor(1), first)]


def requested(needs: Sequence[Need]) -> list[Request]:
    """The windows of bars that are needed: of a column one, where there are bars for the longest from the first session
    on.
    """
    found: dict[str, list[Request]] = {}
    for custom, first in needs:
        for column in bars_of(custom):
            found.setdefault(column, []).append(Request(column, first, custom.window_length))
    requests: list[Request] = []
    for column, some in found.items():
        one = Request(column, min(each.first for each in some), max(each.length for each in some))
        requests += [one] if one.length <= one.first else dict.fromkeys(some)
    return requests


def missing_of(term: Term) -> Any:
    """What stands for a missing value of a term, where it is given to `compute`."""
    if not is_whole(term):
        return EMPTY[term.sort]
    while not isinstance(term, (Custom, CodeColumn)):
        term = term.terms[0]
    return term.missing_value


def is_whole(term: Optional[Term]) -> bool:
    """Whether a term is a classifier of whole numbers, which the program has as labels."""
    return isinstance(term, Whole) or isinstance(term, Custom) and term.sort == "label" and term.dtype.kind == "i"


def _of_labels(cells: pd.Series, term: Term) -> Array:
    """Labels as texts with None for none, or as whole numbers."""
    texts = list(cells.cat.categories)
    missing = missing_of(term)
    if is_whole(term):
        numbers: Array = np.array([*map(table.whole_number, texts), missing], "i8")[cells.cat.codes.to_numpy()]
        return numbers
    labels: Array = np.array([*texts, None], object)[cells.cat.codes.to_numpy()]
    return labels


class _Walk:
    """The windows of a column from one session to the next."""

    def __init__(self, stream: ContextManager[IO[bytes]], request: Request, sids: Array, stack: ExitStack):
        self.stream, self.request = stream, request
        self.windows = Windows(stack.enter_context(stream), request.length, sids)
        self.steps = iter(self.windows)
        self.day, self.next = "", np.zeros(0, int)
        self.columns = self.next  # of the assets that exist

    def go(self, day: str) -> None:
        """Go to a session; on one without any asset there is nothing."""
        if self.day < day:
            self._step()
        self.columns = self.next if self.day == day else self.next[:0]

    def end(self) -> None:
        """Read on to the end."""
        while self.day < "9":
            self._step()

    def _step(self) -> None:
        try:
            self.day, self.next = next(self.steps, ("9", self.next[:0]))
        except ValueError as error:  # the fault of this program, and of no other one that runs beside it
            self.stream.__exit__(type(error), error, error.__traceback__)
            raise


class _Work:
    """What one term is computed of."""

    def __init__(
        self,
        need: Need,
        values: Mapping[tuple[Term, int], Values],
        walks: Mapping[Request, _Walk],
        found: Records,
        names: Mapping[Term, str],
    ):
        self.custom, self.first = need
        self.found, self.names = found, names
        self.leaves = [leaf for leaf in self.custom.leaves if leaf in names]  # those that are used
        length = self.custom.window_length
        self.values = {part: values[part, self.first - length + 1] for part in parts_of(self.custom)}
        self.mask = self.custom.mask if self.custom.mask is None else values[self.custom.mask, self.first]
        self.some = next((values[source] for source in _sources(*need)), None)  # which say where assets exist
        self.walks = {
            column: next(
                walk
                for request, walk in walks.items()
                if request.column == column and request.first <= self.first and request.length >= length
            )
            for column in bars_of(self.custom)
        }
        none = np.full(1, self.custom.missing_value, self.custom.dtype)
        self.empty = MISSING if self.custom.sort == "label" else in_millionths(self.custom, none)[0][0]
        self.columns, self.assets = np.zeros(0, int), pd.Index([])  # those of the session before
        self.great, self.since = 0, ""  # how many results were too great, and from which session on

    def go(self, at: int, day: str) -> None:
        """Compute it on a session."""
        custom, exist = self.custom, self._exist(at)
        columns = exist
        if self.mask is not None:
            columns = exist[self.mask.window(custom.mask, at, 1)[0][exist]]
        out = new_out(custom, len(columns))
        if len(columns):
            given = [_of_columns(self._window(part, at), columns) for part in custom.inputs]
            if not np.array_equal(columns, self.columns):
                self.columns, self.assets = columns, pd.Index(self.found.sids[columns])
            call(custom, day, self.assets, out, given)
        inside = slice(None) if len(columns) == len(exist) else np.isin(exist, columns, assume_unique=True)
        for leaf in self.leaves:
            results = np.asarray(out[output_of(leaf)] if custom.outputs else out)
            self._keep(leaf, day, exist, (inside, results))

    def _exist(self, at: int) -> Array:
        """The columns of the assets that exist on a session."""
        if self.some is None:
            return next(iter(self.walks.values())).columns
        return np.flatnonzero(self.some.exist[at - self.some.first])

    def _window(self, part: Term, at: int) -> Array:
        """The window of an input, of all assets."""
        length = self.custom.window_length
        if isinstance(part, BoundColumn):
            return self.walks[part.name].windows.newest(length)
        return self.values[part].window(part, at, length)

    def _keep(self, leaf: Term, day: str, exist: Array, results: tuple[Any, Array]) -> None:
        """Keep the results of some assets that exist; the others, outside of the mask, have the missing value."""
        inside, out = results
        if leaf.sort == "label":
            labels = np.full(len(exist), None, dtype=object)
            with told(self.custom, day):
                labels[inside] = as_labels(out, self.custom.missing_value)
            self.found.put_labels(self.names[leaf], day, exist, labels)
            return
        values, great = in_millionths(self.custom, out)
        if len(values) < len(exist):
            every = np.full(len(exist), self.empty)
            every[inside] = values
            values = every
        if great.any():
            self.great, self.since = self.great + int(great.sum()), self.since or day
        self.found.put(self.names[leaf], day, exist, values)

    def warn(self) -> None:
        """Warn of results that were too great."""
        from .runs import outside

        if self.great:
            warnings.warn(
                f"{self.custom!r}: {self.great} results beyond 100,000,000,000 are missing, the first on {self.since}: "
                "give them in thousands or millions",
                stacklevel=outside(),
            )


def whole_columns(script: Script) -> dict[int, int]:
    """The missing values of the columns of a table that are whole numbers, by their places."""
    found = {}
    for at, given in enumerate(script.source[0].values(), 2):
        term = without_alias(given)
        if is_whole(term):
            found[at] = missing_of(term)
        elif term.form == COMPUTED and custom_of(term).dtype.kind == "i":
            found[at] = custom_of(term).missing_value
    return found


def _of_columns(rows: Array, columns: Array) -> Array:
    """Some columns of a window, as an array of its own."""
    return rows.copy() if len(columns) == rows.shape[1] else np.take(rows, columns, axis=1)


def call(custom: Custom, day: str, assets: pd.Index, out: Any, given: Sequence[Array]) -> None:
    """Let it be computed for a session."""
    compute: Callable[..., Any] = getattr(custom, "compute")
    with told(custom, day):
        answer = compute(pd.Timestamp(day), assets, out, *given, **custom.params)
        if answer is not None and answer is not out:
            raise TypeError(
                f"compute returned {type(answer).__name__}: it has to write its results into out, as out[:] = .."
            )


@contextmanager
def told(custom: Custom, day: str) -> Iterator[None]:
    """Say of an error on which session it came, of which term, and in which line."""
    try:
        yield
    except Exception as error:
        lines = [frame for frame in traceback.extract_tb(error.__traceback__) if frame.filename != __file__]
        shown = [f"    {line.filename}:{line.lineno}, in {line.name}: {line.line}" for line in lines[-3:]]
        fault = ComputeFault(f"compute: {custom!r} on {day}: {type(error).__name__}: {error}", "\n".join(shown))
        fault.term, fault.session = repr(custom), day
        raise fault from error


def in_millionths(custom: Custom, out: Array) -> tuple[Array, Array]:
    """Results in whole millionths, and which of them are too great."""
    kind = custom.dtype.kind
    if kind == "f":
        return to_millionths(out)
    if kind == "b":
        return np.where(out, 10**6, MISSING), np.zeros(len(out), bool)
    missing = out == custom.missing_value
    great = ~missing & (np.abs(np.where(missing, 0, out)) > 10**11)
    return np.where(missing | great, MISSING, np.where(great, 0, out) * 10**6), great
