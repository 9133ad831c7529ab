"""Lists of whole numbers for the calls of C. Each is copied, so that nothing changes it while threads search."""
from __future__ import annotations

import array
import ctypes
import operator
from typing import Any, Iterable, Tuple

try:
    import numpy
except ImportError:
    numpy = None  # type: ignore[assignment]

TYPES = {"I": "uint32", "Q": "uint64"}
_NOTHING = ctypes.c_uint64()


def need_numpy(what: str):
    """NumPy, or a sentence that says what to install."""
    if numpy is None:
        raise ImportError(f"{what} needs NumPy: install it by `pip install numpy` or `apt-get install python3-numpy`")
    return numpy


def whole(value: Any, what: str) -> int:
    """A whole number of Python or of NumPy; fractions and truth values are refused."""
    if type(value) is int:
        return value
    if not isinstance(value, bool):
        try:
            return operator.index(value)
        except TypeError:
            pass
    raise TypeError(f"{what} has to be a whole number, not {value!r}")


def is_one(values: Any) -> bool:
    """Whether this is a single number, and no list of them."""
    if isinstance(values, (int, float)):
        return True
    if numpy is not None and isinstance(values, (numpy.generic, numpy.ndarray)):
        return values.ndim == 0
    return hasattr(values, "__index__")


def listed(code: str, values: Iterable[Any], what: str):
    """A list of whole numbers as an array of C with `code` "I" (32 bits) or "Q" (64 bits), copied. A number that doesn't fit is an
    OverflowError with `outside` as an attribute, another value a TypeError."""
    if isinstance(values, (str, bytes, bytearray, set, frozenset, dict)):
        raise TypeError(f"{what} have to be a list of whole numbers, not {type(values).__name__}")
    if hasattr(values, "to_numpy"):
        values = values.to_numpy()
    most = 2 ** (32 if code == "I" else 64) - 1
    if numpy is not None and isinstance(values, numpy.ndarray):
        if values.ndim != 1:
            raise ValueError("the array has to have one dimension")
        if values.dtype.kind in "ui" or not len(values):
            if len(values) and (int(values.min()) < 0 or int(values.max()) > most):
                refuse_outside(what, values, most)
            return numpy.array(values, dtype=TYPES[code], order="C", copy=True)
        if values.dtype.kind != "O":
            raise TypeError("the array has to be one of whole numbers")
    try:
        found = [whole(value, what) for value in values]
    except TypeError as error:
        if "whole number" in str(error):
            raise
        raise TypeError(f"{what} have to be a list of whole numbers, not {values!r}") from None
    refuse_outside(what, found, most)
    return numpy.array(found, dtype=TYPES[code]) if numpy is not None else array.array(code, found)


def refuse_outside(what: str, values: Iterable[Any], most: int):
    """Refuses the first number that is beyond a range, by its place."""
    for place, value in enumerate(values):
        if not 0 <= value <= most:
            error = OverflowError(f"{what}: a number is not within 0 to {most}: {int(value)}, at place {place}")
            error.outside = int(value)  # type: ignore[attr-defined]
            raise error


def address(values: Any) -> int:
    """Where an array lies; an array without members has an address too."""
    if isinstance(values, array.array):
        return values.buffer_info()[0] or ctypes.addressof(_NOTHING)
    return (values.ctypes.data if len(values) else 0) or ctypes.addressof(_NOTHING)


def room(shape: Tuple[int, ...]):
    """Room for times: an array of uint64, or without NumPy an array.array("Q") for each row."""
    if numpy is not None:
        return numpy.empty(shape, dtype=numpy.uint64)
    if len(shape) == 1:
        return array.array("Q", bytes(8 * shape[0]))
    return [array.array("Q", bytes(8 * shape[1])) for _ in range(shape[0])]


def given_room(out: Any, shape: Tuple[int, ...], rows: int, columns: int):
    """The array of a result's shape that a caller gives for its times, as rows and columns over the same memory."""
    need_numpy("out=")
    if not isinstance(out, numpy.ndarray) or isinstance(out, numpy.ma.MaskedArray) or out.dtype != numpy.uint64:
        raise TypeError(f"out has to be an array of uint64, not {getattr(out, 'dtype', None) or type(out).__name__}")
    if out.shape != shape:
        raise ValueError(f"out has the shape {out.shape}, and the result {shape}")
    if not out.flags.carray:
        raise ValueError("out has to be writeable, aligned and without gaps, in C's order")
    return out.reshape((rows, columns))


def filled(code: str, value: int, count: int):
    """An array with one value in all places."""
    if numpy is not None:
        return numpy.full(count, value, dtype=TYPES[code])
    return array.array(code, [value]) * count
