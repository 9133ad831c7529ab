"""Earliest arrivals in road networks whose travel times depend on the departure, by a proved engine.

    road = earliest.Road.read("x.gr", "x.tp")
    found = road.search(1, departures=28800)
    found.arrivals      # a place for each node, the first for node 1
    found.walk(4)       # the numbers of the arcs of its walk
    road.arrivals([1, 2, 3], departures=28800)      # a row for each source, by all processors

Nodes and arcs are numbered from 1. Times are whole numbers from 0 to HORIZON, in the unit of the travel times. A call of the engine
releases the interpreter's lock, so several threads search on one road at the same time. `python -m earliest` has commands for files.
"""
from ._answers import Answer, Answers
from ._engine import Road
from ._failures import Busy, Failure, InputFailure
from ._library import HORIZON, NEVER
from ._names import Names
from ._searches import Search
from ._version import VERSION as __version__

__all__ = ["HORIZON", "NEVER", "Answer", "Answers", "Busy", "Failure", "InputFailure", "Names", "Road", "Search", "__version__"]

# What is shown of these, in a traceback and in a pickle, is the name that users know.
for _kind in (Answer, Answers, Busy, Failure, InputFailure, Names, Road, Search):
    _kind.__module__ = __name__
del _kind
