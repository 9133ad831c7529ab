"""How times come into a call and go out of it: whole numbers, or NumPy's times with a unit."""
from __future__ import annotations

import array
import datetime
from fractions import Fraction
from typing import Any, Optional

from . import _numbers
from ._failures import Failure
from ._library import HORIZON, NEVER

SECONDS = {"h": Fraction(3600), "m": Fraction(60), "s": Fraction(1), "ms": Fraction(1, 1000), "us": Fraction(1, 10**6), "ns": Fraction(1, 10**9),
           "W": Fraction(604800), "D": Fraction(86400)}


class Times:
    """What a call was told of its times.

    `unit` is the unit of the road's times as NumPy writes it: "s", "ms", "m", "10ms". With it departures may be timedelta64 or
    datetime.timedelta, and results are timedelta64 of that unit, NaT for a node that is not reached. With `origin` as well, the moment of
    time 0, departures may be datetime64, datetime.datetime or pandas' Timestamp, and results are datetime64. `as_float` makes results
    float64, inf for a node that is not reached: seconds if there is a unit, else as they are. `masked` makes masked arrays.
    """

    def __init__(self, unit: Optional[str] = None, origin: Any = None, masked: bool = False, as_float: bool = False):
        self.unit, self.origin, self.masked, self.as_float = unit, None, masked, as_float
        if unit is not None or origin is not None or masked or as_float:
            _numbers.need_numpy("unit=, origin=, masked= and as_float=")
        if unit is not None:
            self._check_unit(unit)
        if origin is not None:
            if unit is None:
                raise TypeError("origin= needs unit=, the unit of the road's times, as unit=\"s\"")
            moment = _moment(origin)
            counted = moment.astype(f"datetime64[{unit}]")
            self.origin = counted if counted == moment else moment

    def _check_unit(self, unit):
        try:
            name, count = _numbers.numpy.datetime_data(f"timedelta64[{unit}]")
        except TypeError:
            name, count = None, 0
        if name not in SECONDS:
            raise ValueError(f"the unit {unit!r} is none of time: use \"s\", \"ms\", \"m\", \"10ms\" or another of NumPy's units from weeks to nanoseconds")
        self.seconds = SECONDS[name] * count

    # In

    def departures(self, values: Any, count: Optional[int], what: str = "a departure"):
        """Departures as an array of 64 bits: `count` members if one value is given or none, else those given."""
        if values is None:
            return _numbers.filled("Q", 0, count or 0)
        values = self._timeless(values, what)
        if _numbers.is_one(values):
            return _numbers.filled("Q", _within(_numbers.whole(values, what), what), 1 if count is None else count)
        try:
            found = _numbers.listed("Q", values, "departures")
        except OverflowError as error:
            raise _beyond(getattr(error, "outside", None), what) from None
        beyond = _above_horizon(found)
        if beyond is not None:
            raise _beyond(beyond, what)
        return found

    def _timeless(self, values, what):
        """Times of NumPy, Python or pandas as whole numbers of the unit; other values as they are."""
        numpy = _numbers.numpy
        if isinstance(values, (datetime.datetime, datetime.timedelta)) and numpy is None:
            _numbers.need_numpy("a departure of datetime")
        if numpy is None:
            return values
        if hasattr(values, "to_numpy") and not isinstance(values, (datetime.datetime, datetime.timedelta)):
            values = values.to_numpy()
        if isinstance(values, (datetime.datetime, datetime.timedelta)):
            values = _of_python(values, what)
        elif isinstance(values, datetime.date):
            raise TypeError(f"{what} has to be a moment, not a date: {values}")
        elif isinstance(values, (list, tuple)) or (isinstance(values, numpy.ndarray) and values.dtype.kind == "O" and values.ndim == 1):
            if len(values) and all(isinstance(it, (datetime.datetime, datetime.timedelta, numpy.datetime64, numpy.timedelta64)) for it in values):
                values = numpy.array([_of_python(it, what) for it in values])
        if getattr(values, "dtype", None) is None or values.dtype.kind not in "mM":
            return values
        if self.unit is None:
            raise TypeError(f"{what} with a unit needs unit=, the unit of the road's times, as unit=\"s\"")
        if values.dtype.kind == "M" and self.origin is None:
            raise TypeError(f"{what} with a date needs origin=, the moment of time 0, as origin=\"2026-11-23\"")
        if numpy.isnat(values).any():
            raise ValueError(f"{what} is NaT, which is no time")
        spans = values - self.origin if values.dtype.kind == "M" else values
        counted = spans.astype(f"timedelta64[{self.unit}]")
        wrong = counted.astype(spans.dtype) != spans
        if wrong.any():
            raise ValueError(f"{what} has to be a whole number of the unit {self.unit}, not {numpy.atleast_1d(spans)[numpy.atleast_1d(wrong)][0]}")
        return counted.astype(numpy.int64)

    # Out

    def told(self, raw):
        """Times of the engine as the call wants them; an array of uint64 without any wish, and the same array then."""
        numpy = _numbers.numpy
        if not (self.unit or self.masked or self.as_float):
            return raw
        never = raw == NEVER
        if self.as_float:
            told = raw.astype(numpy.float64)
            if self.unit:
                told = told * float(self.seconds.numerator) / float(self.seconds.denominator)
            told[never] = numpy.inf
        elif self.unit:
            told = raw.astype(numpy.int64)
            told[never] = numpy.iinfo(numpy.int64).min
            told = told.view(f"timedelta64[{self.unit}]")
            if self.origin is not None:
                told = self.origin + told
        else:
            told = raw
        return numpy.ma.masked_array(told, mask=never) if self.masked else told

    def told_one(self, raw: int):
        """One time; None if there is none."""
        if raw == NEVER:
            return None
        if not (self.unit or self.as_float):
            return raw
        numpy = _numbers.numpy
        if self.as_float:
            return float(raw * self.seconds) if self.unit else float(raw)
        told = numpy.timedelta64(raw, _pair(self.unit))
        return told if self.origin is None else self.origin + told


def _pair(unit):
    """A unit as timedelta64 takes it."""
    name, count = _numbers.numpy.datetime_data(f"timedelta64[{unit}]")
    return (name, count)


def _moment(origin):
    """The moment of time 0."""
    numpy = _numbers.numpy
    if isinstance(origin, datetime.datetime):
        origin = _of_python(origin, "origin")
    moment = numpy.datetime64(origin)
    if numpy.isnat(moment):
        raise ValueError("origin is NaT, which is no time")
    return moment


def _of_python(value, what):
    """A time of Python or pandas as one of NumPy."""
    numpy = _numbers.numpy
    if isinstance(value, (numpy.datetime64, numpy.timedelta64)):
        return value
    if getattr(value, "tzinfo", None) is not None:
        raise TypeError(f"{what} has a time zone: give it in the local time of the timetables, without one")
    if value != value:
        raise ValueError(f"{what} is NaT, which is no time")
    for name in ("to_datetime64", "to_timedelta64"):
        if hasattr(value, name):
            return getattr(value, name)()
    return numpy.datetime64(value) if isinstance(value, datetime.datetime) else numpy.timedelta64(value)


def is_one_time(values: Any) -> bool:
    """Whether this is one time and no list of them."""
    if hasattr(values, "to_numpy") and not hasattr(values, "__len__"):
        return True
    return not (hasattr(values, "__len__") or hasattr(values, "__iter__")) or (_numbers.numpy is not None and getattr(values, "ndim", 1) == 0)


def _above_horizon(found) -> Optional[int]:
    """The first time above the horizon, if there is one."""
    if isinstance(found, array.array):
        return next((value for value in found if value > HORIZON), None)
    return int(found[found > HORIZON][0]) if len(found) and int(found.max()) > HORIZON else None


def _within(value: int, what: str) -> int:
    if not 0 <= value <= HORIZON:
        raise _beyond(value, what)
    return value


def _beyond(value, what):
    return Failure(19, f"{what} is a time from 0 to {HORIZON}, not {value}", value)


PLAIN = Times()
