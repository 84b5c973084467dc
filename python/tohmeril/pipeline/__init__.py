"""Zipline's Pipeline API, as far as the program's language says it."""

from __future__ import annotations

from typing import TYPE_CHECKING, Mapping, Optional

from .custom import CustomClassifier, CustomFactor, CustomFilter, require_one
from .script import Script, make_script
from .term import BoundColumn, Classifier, Factor, Filter, Inexpressible, NonWindowSafeInput, Term

if TYPE_CHECKING:
    from ..plans import Graph

__all__ = [
    "Pipeline",
    "Term",
    "Factor",
    "Filter",
    "Classifier",
    "BoundColumn",
    "Inexpressible",
    "NonWindowSafeInput",
    "CustomFactor",
    "CustomFilter",
    "CustomClassifier",
]


class Pipeline:
    """Columns by name, and a filter that says which assets are shown.

    Parameters
    ----------
    columns : mapping of str to Term, optional
        The columns of the frame by their names.
    screen : Filter, optional
        Assets for which it is false have no row.
    domain : object, optional
        Zipline's, which is ignored, since the calendar is that of the sessions file.

    Examples
    --------
    >>> from tohmeril.pipeline.factors import AverageDollarVolume, Returns
    >>> pipe = Pipeline({"year": Returns(window_length=252)})
    >>> pipe.set_screen(AverageDollarVolume(window_length=30).top(15))
    >>> print(pipe)
    pipeline 1;
    column year = Returns(close, 252);
    screen AverageDollarVolume(30).top(15);
    """

    def __init__(
        self, columns: Optional[Mapping[str, Term]] = None, screen: Optional[Filter] = None, domain: object = None
    ):
        self._columns: dict[str, Term] = {}
        self._screen: Optional[Filter] = None
        for name, term in (columns or {}).items():
            self.add(term, name)
        if screen is not None:
            self.set_screen(screen)

    @property
    def columns(self) -> dict[str, Term]:
        return dict(self._columns)

    @property
    def screen(self) -> Optional[Filter]:
        return self._screen

    def add(self, term: Term, name: str, overwrite: bool = False) -> None:
        """Add a column.

        Parameters
        ----------
        term : Factor, Filter or Classifier
        name : str
        overwrite : bool
            Whether the name may be that of a column that is there.

        Raises
        ------
        TypeError
            Where the term is none, as a column of bars is.
        KeyError
            Where there is a column of the name.
        """
        if not isinstance(name, str):
            raise TypeError(f"the name of a column is a text, not {name!r}")
        if isinstance(term, BoundColumn) or not isinstance(term, Term):
            raise TypeError(
                f"column {name!r} is {term!r} and no factor, filter or classifier; .latest is the newest value of a "
                "column"
            )
        require_one(term)
        if name in self._columns and not overwrite:
            raise KeyError(f"Column {name!r} already exists.")
        self._columns[name] = term

    def remove(self, name: str) -> Term:
        """Remove a column, and return its term."""
        return self._columns.pop(name)

    def set_screen(self, screen: Filter, overwrite: bool = False) -> None:
        """Set the filter that says which assets are shown.

        Parameters
        ----------
        screen : Filter
        overwrite : bool
            Whether there may be a screen already.
        """
        if not isinstance(screen, Filter):
            equal = ": == says whether two terms are one; write .eq(..)" if isinstance(screen, bool) else ""
            raise TypeError(f"a screen is a filter, not {screen!r}{equal}")
        if self._screen is not None and not overwrite:
            raise ValueError("set_screen() called with overwrite=False and screen already set.")
        self._screen = screen

    def script(self) -> Script:
        """The text of the pipeline, with what leads back from it."""
        return make_script(self._columns, self._screen)

    def show_graph(self, format: str = "svg") -> Graph:
        """The graph of its terms, which a notebook draws; see `tohmeril.show_graph`."""
        from ..plans import show_graph

        return show_graph(self, format)

    def __repr__(self) -> str:
        return self.script().text.rstrip()
