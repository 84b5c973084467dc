"""In which order what code of one's own computes is computed for a range, and from which session on.

A term that is computed may be of terms that are of others that are computed. What one needs before it is found from the
terms, and how many sessions before the range from the program's plans.
"""

from __future__ import annotations

import mmap
import os
from bisect import bisect_left
from dataclasses import dataclass
from typing import Iterable, Iterator, Mapping, NamedTuple, Optional, Sequence
from weakref import WeakSet

from .data import Data
from .faults import LimitFault, PipelineError, RangeFault
from .pipeline.custom import Custom, bars_of, custom_of, parts_of
from .pipeline.script import Script, free_name, make_script, named_in, parts_first
from .pipeline.term import CALL, Factor, NonWindowSafeInput, Term
from .plans import Plan, ask_program

PARTS = ("numbers", "labels")
COLUMNS = 64  # of a pipeline, at most
_steady: WeakSet[Custom] = WeakSet()  # what was found to be right


class Need(NamedTuple):
    """A term that is computed, and the number of the first session on which it is."""

    custom: Custom
    first: int


@dataclass(frozen=True)
class Order:
    """What is computed for a range: level by level, since each is of what the levels before it have. `reach` is the
    number of the first session whose bars are read, and `has_bars` says whether the pipeline itself reads any.
    """

    levels: tuple[tuple[Need, ...], ...]
    reach: int
    has_bars: bool


def script_of(terms: Iterable[Term], computed: Optional[Mapping[Term, str]] = None) -> Script:
    """Terms as the columns of a pipeline."""
    return make_script({f"t{at}": term for at, term in enumerate(terms)}, None, computed)


def fitting(terms: Sequence[Term], computed: Optional[Mapping[Term, str]] = None) -> list[Script]:
    """Terms as the columns of as many pipelines as they need."""
    script = script_of(terms, computed)
    try:
        if len(terms) <= COLUMNS:
            ask_program("check", script)
            return [script]
    except LimitFault:
        if len(terms) == 1:
            raise
    middle = len(terms) // 2
    return [*fitting(terms[:middle], computed), *fitting(terms[middle:], computed)]


def inside(custom: Custom) -> list[Term]:
    """The terms that are computed by the program for one that code of one's own computes: its inputs and its mask."""
    return parts_of(custom) + ([] if custom.mask is None else [custom.mask])


def customs_of(script: Script) -> list[Custom]:
    """All that is computed for a pipeline, each after what it is of itself."""

    def within(custom: Term) -> list[Term]:
        assert isinstance(custom, Custom)
        return _customs(script_of(inside(custom)))

    return [each for each in parts_first(_customs(script), within) if isinstance(each, Custom)]


def _customs(script: Script) -> list[Term]:
    return list(dict.fromkeys(map(custom_of, script.computed)))


def scripts_of(script: Script) -> Iterator[Script]:
    """A pipeline, and those of what is inside its computed terms."""
    yield script
    for custom in customs_of(script) if script.computed else ():
        yield script_of(inside(custom))


def names_in(script: Script, part: str) -> set[str]:
    """The names of labels or numbers that a pipeline reads from the user's data, for what it computes, too."""
    found: set[str] = set()
    for each in scripts_of(script):
        own = {each.computed[leaf] for leaf in each.computed}
        found |= named_in(each.text, part) - own
    return found


def with_own_names(script: Script, data: Data) -> tuple[Script, dict[Term, str]]:
    """The pipeline, where what it computes goes by names that nothing in the data has; and all these names."""
    leaves = dict.fromkeys(leaf for each in scripts_of(script) for leaf in each.computed)
    taken = {name for part in PARTS for name in names_in(script, part)}
    names: dict[Term, str] = {}
    for leaf in leaves:
        name = script.computed.get(leaf, "")
        if not name or name in taken or _is_in(data, name):
            name = free_name(leaf.name, taken)
            while _is_in(data, name):
                name = free_name(leaf.name, taken)
        taken.add(name)
        names[leaf] = name
    same = all(names[leaf] == name for leaf, name in script.computed.items())
    return (script if same else make_script(*script.source, names)), names


def _is_in(data: Data, name: str) -> bool:
    """Whether a name is anywhere in the user's numbers or labels."""
    for path in (data.files[part] for part in PARTS if part in data.files):
        if os.access(path, os.R_OK) and os.path.getsize(path):
            with open(path, "rb") as file, mmap.mmap(file.fileno(), 0, access=mmap.ACCESS_READ) as text:
                if text.find(name.encode()) >= 0:
                    return True
    return False


def order_of(script: Script, first: str, last: str, data: Data) -> Order:
    """What is computed for a range, from the session `first` to `last`.

    Raises
    ------
    RangeFault
        Where a window would begin before the first session.
    NonWindowSafeInput
        Where a window would be over a term that must not be in one.
    """
    plan = _plan(script, first, last, data)
    has_bars = any(isinstance(part, str) for term in plan.terms.values() for part in term.inputs)
    reach, needed = plan.reach, _needed(plan, bisect_left(data.sessions, first))
    levels: dict[Custom, int] = {}
    customs = customs_of(script) if script.computed else []
    for custom in reversed(customs):
        require_steady(custom)
        start = needed[custom]
        bars, terms = start - custom.window_length, start - custom.window_length + 1
        for begin in [bars] * bool(bars_of(custom)) + [terms] * bool(parts_of(custom)):
            if begin < 0:
                raise RangeFault(f"range: TooEarly {begin}")
        reach = min(reach, bars) if bars_of(custom) else reach
        for some, begin in ((parts_of(custom), terms), ([custom.mask] if custom.mask is not None else [], start)):
            for part in fitting(some) if some else ():
                plan = _plan(part, data.sessions[begin], last, data)
                reach = min(reach, plan.reach)
                for other, at in _needed(plan, begin).items():
                    needed[other] = min(at, needed.get(other, at))
    for custom in customs:
        below = _customs(script_of(inside(custom)))
        levels[custom] = max((levels[other] + 1 for other in below if isinstance(other, Custom)), default=0)
    return Order(
        tuple(
            tuple(Need(custom, needed[custom]) for custom in customs if levels[custom] == level)
            for level in range(max(levels.values(), default=-1) + 1)
        ),
        reach,
        has_bars,
    )


def _plan(script: Script, first: str, last: str, data: Data) -> Plan:
    return Plan(ask_program("plan", script, data.names[0], first, last), script)


def _needed(plan: Plan, begin: int) -> dict[Custom, int]:
    """From which session on a plan needs what is computed, where its range begins at this one."""
    numbers = plan.script.numbers()
    found: dict[Custom, int] = {}
    for leaf in plan.script.computed:
        custom, term = custom_of(leaf), plan.terms.get(numbers[leaf])
        at = begin - (term.extra if term is not None else 0)
        found[custom] = min(at, found.get(custom, at))
    return found


def require_steady(custom: Custom) -> None:
    """Refuse a factor as an input whose values depend on adjustments that come between.

    The program says which: it has a window over `demean` of what keeps its values, and over no other.
    """
    for part in parts_of(custom) if custom not in _steady else ():
        if isinstance(part, Factor):
            probe = script_of([Factor(CALL, "WindowSum", part.demean(), 2)])
            try:
                ask_program("check", probe)
            except PipelineError as fault:
                if not fault.line.endswith("NotWindowSafe"):
                    raise
                raise NonWindowSafeInput(
                    f"{custom!r} can't have a window over {part!r}, which depends on adjustments that come between: "
                    "give its rank() or zscore(), or the columns of bars that it is of, and compute it from their windows"
                ) from None
    _steady.add(custom)
