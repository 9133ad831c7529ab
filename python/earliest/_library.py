"""The shared library and its calls, which are those of include/earliest.h. Calls by ctypes.CDLL release the interpreter's lock."""
from __future__ import annotations

import ctypes
import functools
import os

HORIZON = 2**48 - 1
"""The greatest time."""
NEVER = 2**64 - 1
"""The arrival at a node that no walk reaches within the horizon."""


class Handle(ctypes.Structure):
    _fields_ = [("at", ctypes.c_void_p)]


class Fault(ctypes.Structure):
    _fields_ = [("line", ctypes.c_uint64), ("number", ctypes.c_uint32), ("text", ctypes.c_uint32)]


class Starts(ctypes.Structure):
    _fields_ = [("depart", ctypes.c_uint64), ("gap", ctypes.c_uint64), ("joint", ctypes.c_uint32)]


_size, _handle, _number, _fault = ctypes.c_size_t, ctypes.POINTER(Handle), ctypes.c_uint32, ctypes.POINTER(Fault)
CALLS = (
    ("road_read", _number, [ctypes.c_char_p, _size, ctypes.c_char_p, _size, _handle, _fault]),
    ("road_of_lists", _number, [_number, *[ctypes.c_void_p, _size] * 4, ctypes.c_char_p, _size, _handle, _fault]),
    ("road_nodes", _number, [_handle]),
    ("road_arcs", _number, [_handle]),
    ("road_free", None, [_handle]),
    ("road_laid_out", _number, [_handle, _handle]),
    ("road_prepared", _number, [_handle, _handle]),
    ("road_prepared_by", _number, [_handle, ctypes.c_void_p, _size, _handle]),
    ("road_prepared_like", _number, [_handle, _handle, _handle]),
    ("search_new", _number, [_handle, _number, _handle]),
    ("search_from", _number, [_handle, ctypes.c_void_p, _size, ctypes.c_void_p, _size]),
    ("search_pair", _number, [_handle, _number, ctypes.c_uint64, _number]),
    ("search_arrival", _number, [_handle, _number, ctypes.POINTER(ctypes.c_uint64)]),
    ("search_arrivals", _number, [_handle, ctypes.c_void_p, _size]),
    ("search_walk", _number, [_handle, _number, ctypes.c_void_p, _size, ctypes.POINTER(ctypes.c_uint64)]),
    ("search_asking", _number, [_handle, *[ctypes.c_void_p, _size] * 3]),
    ("search_answers", _number, [_handle, ctypes.c_void_p, _size]),
    ("search_free", None, [_handle]),
    ("road_turned", _number, [_handle, _handle]),
    ("search_new_until", _number, [_handle, _number, _handle]),
    ("search_until", _number, [_handle, ctypes.c_void_p, _size, ctypes.c_void_p, _size]),
    ("search_pair_until", _number, [_handle, _number, _number, ctypes.c_uint64]),
    ("search_departure", _number, [_handle, _number, ctypes.POINTER(ctypes.c_uint64)]),
    ("search_departures", _number, [_handle, ctypes.c_void_p, _size]),
    ("check", _number, [_handle, ctypes.c_void_p, _size, ctypes.POINTER(Starts), ctypes.c_char_p, _size, _fault]),
)


def place() -> str:
    """Where the library is: EARLIEST_LIBRARY, or beside this file."""
    return os.environ.get("EARLIEST_LIBRARY") or os.path.join(os.path.dirname(os.path.abspath(__file__)), "libearliest.so")


@functools.lru_cache(maxsize=None)
def library():
    """The library, loaded when the first call needs it."""
    path = place()
    try:
        loaded = ctypes.CDLL(path)
    except OSError as error:
        why = str(error) if os.path.exists(path) else "there is no such file"
        raise ImportError(f"the library {path} can't be loaded ({why}): run `make lib` in the repository, or set EARLIEST_LIBRARY to its path") from error
    for name, result, words in CALLS:
        try:
            call = getattr(loaded, "earliest_" + name)
        except AttributeError:
            raise ImportError(f"{path} is not the library of this package: it has no call earliest_{name}") from None
        call.restype, call.argtypes = result, words
    return loaded
