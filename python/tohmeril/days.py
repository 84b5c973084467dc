"""Days: the one place that reads them, from any form that has one meaning alone."""

from __future__ import annotations

import calendar
import re
from datetime import date, datetime, time, timedelta
from numbers import Integral
from typing import TYPE_CHECKING, Any, Callable, Sequence, Union

import numpy as np
import pandas as pd
from numpy.typing import NDArray
from pandas.api.types import infer_dtype, is_datetime64_any_dtype, is_numeric_dtype, is_scalar

if TYPE_CHECKING:
    from .faults import DataFault

Day = Union[str, int, date, datetime, pd.Timestamp, np.datetime64]
YEARS = range(1900, 2200)  # of the days that the program knows
EPOCH = date(1970, 1, 1).toordinal()
FIRST_SECOND = 10**8  # of 1973: smaller numbers are no seconds since 1970
LAST_SECOND = 7_258_118_400  # the first second of 2200
TIME = r"(?:[01][0-9]|2[0-3]):[0-5][0-9](?::[0-5][0-9](?:[.,][0-9]+)?)?"
ZONE = r" ?(?:[A-Z]{1,5}|[+-][0-9]{2}(?::?[0-9]{2}){0,2})"
ISO = re.compile(rf"([0-9]{{4}})-([0-9]{{2}})-([0-9]{{2}})(?:[ T]({TIME})(?:{ZONE})?)?")
COMPACT = re.compile("([0-9]{4})([0-9]{2})([0-9]{2})")
PARTS = re.compile(r"([0-9]{1,4})[./ -]+([0-9]{1,2})[./ -]+([0-9]{1,4})(?:[ T].*)?")
FORMS = "write YYYY-MM-DD or YYYYMMDD, or give a date"
SINCE = 'give pd.to_datetime(days, unit="D", origin="1960-01-01") for days of SAS, "1899-12-30" for those of Excel'
UNITS = {10**17: "ns", 10**14: "us", 10**11: "ms", FIRST_SECOND: "s"}  # of whole numbers from so many on


class NoDay(ValueError):
    """A value that is no day, or may be several.

    Attributes
    ----------
    why : str
        The value, and what is wrong with it.
    instead : str
        What to write instead; it may be empty.
    """

    def __init__(self, why: str, instead: str = "", what: str = ""):
        super().__init__("; ".join(filter(None, (f"{what}: {why}" if what else why, instead))))
        self.why, self.instead = why, instead


def read_day(value: Day, what: str = "") -> str:
    """A day as the program writes it, `YYYY-MM-DD`.

    Parameters
    ----------
    value : date, datetime, Timestamp, datetime64, str or int
        A text is ``2024-05-02``, with or without a time after a blank or a T, or ``20240502``. A whole number is
        ``20240502`` too, and so is a whole float, since a column of numbers with a gap elsewhere is one of floats in
        pandas and SAS. A time zone is dropped: the day is the one on the value's own clock.
    what : str
        What the day is, for the message.

    Raises
    ------
    NoDay
        A ValueError: the value is missing, may be several days as ``02/05/2024``, is no day, or is not of the years
        1900 to 2199.

    Examples
    --------
    >>> read_day(pd.Timestamp("2024-01-02 00:00", tz="Asia/Tokyo")), read_day(20240502), read_day("2024-05-02T16:30Z")
    ('2024-01-02', '2024-05-02', '2024-05-02')
    >>> read_day("02/05/2024", "start_date")
    Traceback (most recent call last):
    tohmeril.days.NoDay: start_date: '02/05/2024' may be a day of May or of February; write 2024-05-02 or 2024-02-05
    """
    try:
        return _known(_date(value), value).isoformat()
    except NoDay as error:
        raise NoDay(error.why, error.instead, what) from None


def read_days(values: pd.Series, what: str, *, seconds: bool = False) -> pd.Series:
    """The days of a column as the program writes them, each as `read_day` reads it.

    Parameters
    ----------
    values : Series
    what : str
        The part of the data, for the message.
    seconds : bool
        Whole numbers from 10**8 on are seconds since 1970-01-01, as in Zipline's tables of splits and mergers. Those
        that can be read as YYYYMMDD are days all the same; as seconds they would be of August and September 1970.

    Returns
    -------
    Series of str
        With the same index.

    Raises
    ------
    DataFault
        It names the value, the column and the row.
    """
    codes, distinct = _distinct(values, what)
    return _taken(codes, distinct, _second if seconds else _date, values, what)


def read_day_numbers(values: pd.Series, what: str) -> NDArray[Any]:
    """The days of a column as `read_days` reads them, as numbers of days since 1970-01-01."""
    codes, distinct = _distinct(values, what)
    days = _read_each(codes, distinct, _date, values, what)
    found: NDArray[Any] = np.array([day.toordinal() - EPOCH for day in days], dtype="int32")[codes]
    return found


def read_known(values: pd.Series, what: str, after_close: bool) -> pd.Series:
    """The first days whose tables may show what became known on the days of a column.

    A table is as of the morning. So what became known during a session or after it is first seen by the next one, and
    with `after_close` the result is the day after each one: no session is between a day and the next one.

    Raises
    ------
    DataFault
        As `read_days`, and where a value has a time of day, but for midnight, without `after_close`: it may be before
        the open of that session or after it.
    """
    if after_close:
        return _taken(*_distinct(values, what), _day_after, values, what)
    codes, distinct = _distinct(values, what, keep_times=True)
    timed = np.array([_has_time(value) for value in distinct], dtype=bool)
    if timed.any():
        at = timed[codes].argmax()
        shown = _shown(distinct[codes[at]])
        raise _fault(
            f"{what}: {shown} of {values.name} has a time of day, and a table is as of the morning",
            f'give after_close="{what}" where it comes during the session or after it, and the next session '
            "sees it; or the day alone where all come before the open",
            values,
            timed[codes],
        )
    return read_days(values, what)


def _date(value: Any) -> date:
    """The day of a value, or NoDay."""
    if not is_scalar(value):
        raise NoDay(f"a {type(value).__name__} is no day", FORMS)
    if pd.isna(value):
        raise NoDay("the day is missing")
    if isinstance(value, datetime):  # a Timestamp too
        return value.date()
    if isinstance(value, date):
        return value
    if isinstance(value, np.datetime64):
        return _datetime64(value)
    if isinstance(value, str):
        return _text(value)
    if isinstance(value, (bool, np.bool_)):
        raise NoDay(f"{value} is no day", FORMS)
    if isinstance(value, Integral) or isinstance(value, float) and value.is_integer():
        return _number(int(value))
    if isinstance(value, pd.Period):
        raise NoDay(f"{value} is a period", "give its first day, .start_time, or its last one, .end_time")
    if isinstance(value, np.floating) and not isinstance(value, float):
        raise NoDay(
            f"{value} is a number of {8 * value.itemsize} bits, which do not hold all days as YYYYMMDD",
            "give days as float64, int64 or texts",
        )
    raise NoDay(f"{value!r} is no day", FORMS)


def _known(day: date, value: Any) -> date:
    if day.year not in YEARS:
        raise NoDay(f"{_shown(value)} is not of the years {YEARS[0]} to {YEARS[-1]}")
    return day


def _day_after(value: Any) -> date:
    return _known(_date(value), value) + timedelta(days=1)


def _datetime64(value: np.datetime64) -> date:
    if np.datetime_data(value.dtype)[0] in ("Y", "M", "W"):
        raise NoDay(f"{value} is a period", "give one of its days")
    day: Any = np.asarray(value, "datetime64[D]").tolist()
    if isinstance(day, int):  # of a year that no date has
        raise NoDay(f"{value} is not of the years {YEARS[0]} to {YEARS[-1]}")
    found: date = day
    return found


def _text(value: str) -> date:
    text = value.strip()
    found = ISO.fullmatch(text) or COMPACT.fullmatch(text)
    if found:
        try:
            return date(*map(int, found.group(1, 2, 3)))
        except ValueError:
            raise NoDay(f"{value!r} is no day of the calendar") from None
    parts = PARTS.fullmatch(text)
    senses = _senses(*parts.groups()) if parts else []
    if len(senses) > 1:
        months = " or of ".join(dict.fromkeys(calendar.month_name[day.month] for day in senses))
        raise NoDay(f"{value!r} may be a day of {months}", "write " + " or ".join(map(str, senses)))
    raise NoDay(f"{value!r} is not read as a day", f"write {senses[0]}" if senses else FORMS)


def _senses(first: str, second: str, third: str) -> list[date]:
    """The days that three numbers may be: day, month and year, month, day and year, or year, month and day."""
    forms = []
    if len(first) <= 2 and len(third) in (2, 4):
        forms += [(_year(third), int(second), int(first)), (_year(third), int(first), int(second))]
    if len(first) in (2, 4) and len(third) <= 2:
        forms.append((_year(first), int(second), int(third)))
    found = []
    for form in forms:
        try:
            found.append(date(*form))
        except ValueError:
            continue
    return list(dict.fromkeys(found))


def _year(text: str) -> int:
    return int(text) + 2000 * (len(text) == 2)


def _number(value: int) -> date:
    """The day of a whole number, YYYYMMDD."""
    if 10**7 <= value < 10**8:
        try:
            return date(value // 10_000, value // 100 % 100, value % 100)
        except ValueError:
            raise NoDay(f"{value} is no day of the calendar", "a whole number is a day as YYYYMMDD") from None
    unit = next((unit for least, unit in UNITS.items() if value >= least), "")
    if unit:
        raise NoDay(
            f"{value} is no day as YYYYMMDD", f'if it counts since 1970, give pd.to_datetime(days, unit="{unit}")'
        )
    if 10_000 <= value < 100_000:
        raise NoDay(f"{value} may be days since 1899, 1960 or 1970", SINCE)
    raise NoDay(f"{value} is no day", FORMS)


def _second(value: Any) -> date:
    """The day of a value of which whole numbers may be seconds since 1970."""
    whole = isinstance(value, Integral) or isinstance(value, float) and value.is_integer()
    if whole and FIRST_SECOND <= int(value) < LAST_SECOND:
        return (datetime(1970, 1, 1) + timedelta(seconds=int(value))).date()
    return _date(value)


def _has_time(value: Any) -> bool:
    """Whether a day comes with a time, other than midnight."""
    if isinstance(value, str):
        found = ISO.fullmatch(value.strip())
        return bool(found and found[4] and found[4].strip("0:.,"))
    if isinstance(value, np.datetime64):
        return bool(value != value.astype("datetime64[D]"))
    return isinstance(value, datetime) and value.time() != time()


def _distinct(values: pd.Series, what: str, keep_times: bool = False) -> tuple[NDArray[Any], Sequence[Any]]:
    """The codes of a column's values, and the values that they stand for.

    Stamps with time zones are first set on their own clocks, since two of one moment may be of two days.
    """
    missing = values.isna().to_numpy()
    if missing.any():
        hint = 'give "2199-12-31" for an asset that still trades' if values.name == "end" else ""
        raise _fault(f"{what}: a day is missing in {values.name}", hint, values, missing)
    if isinstance(values.dtype, pd.CategoricalDtype):
        values = values.cat.remove_unused_categories()
        codes, distinct = _distinct(values.cat.categories.to_series(name=values.name), what, keep_times)
        return codes[values.cat.codes.to_numpy()], distinct
    if is_datetime64_any_dtype(values):
        values = values.dt.tz_localize(None)
        values = values if keep_times else values.dt.normalize()
    elif not is_numeric_dtype(values):
        values = values.astype(object)
        if infer_dtype(values) not in ("string", "date", "integer"):  # equal values of other types may be other days
            return np.arange(len(values)), values.to_numpy()
    codes, distinct = pd.factorize(values)
    return codes, distinct


def _taken(
    codes: NDArray[Any], distinct: Sequence[Any], read: Callable[[Any], date], values: pd.Series, what: str
) -> pd.Series:
    """The days that `read` makes of the values of a column, as texts."""
    texts: NDArray[Any] = np.empty(len(distinct), dtype=object)
    texts[:] = [day.isoformat() for day in _read_each(codes, distinct, read, values, what)]
    return pd.Series(texts[codes], index=values.index, name=values.name, dtype=object)


def _read_each(
    codes: NDArray[Any], distinct: Sequence[Any], read: Callable[[Any], date], values: pd.Series, what: str
) -> list[date]:
    """The days that `read` makes of the distinct values of a column."""
    days = []
    for at, value in enumerate(distinct):
        try:
            days.append(_known(read(value), value))
        except NoDay as error:
            raise _fault(f"{what}: {error.why}", error.instead, values, codes == at) from None
    return days


def _shown(value: Any) -> str:
    return repr(value) if isinstance(value, str) else str(value)


def _fault(told: str, instead: str, values: pd.Series, wrong: NDArray[Any]) -> DataFault:
    """The fault of a column, with its first wrong row."""
    from .faults import DataFault  # which needs this module first

    others = int(wrong.sum()) - 1
    more = f", and {others} other{'s' * (others > 1)}" if others else ""
    place = f"row {values.index[wrong.argmax()]} of {values.name}{more}"
    return DataFault(told, "; ".join(filter(None, (place, instead))))
