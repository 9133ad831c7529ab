"""Many searches by several threads, each with its own arrays, straight into the memory of the result."""
from __future__ import annotations

import ctypes
import os
import threading
from typing import Any, Callable, Optional

from . import _numbers
from ._failures import test
from ._library import library
from ._numbers import numpy

MOST = 16
"""The most threads that search by default."""
CHUNK = 64
"""How many pairs a thread takes at once."""
FEW, PART = 16, 64
"""Up to `FEW` nodes, or one in `PART` of the road's, are asked for by searches that end when they are settled; as in `earliest run --nodes`."""


LAID_OUT = 6
"""From this many rows for each thread on a road is laid out first, if it is large and numbered out of order: a layout takes as long as some rows."""


def processors() -> int:
    """How many processors this process may use."""
    if hasattr(os, "sched_getaffinity"):
        return max(1, len(os.sched_getaffinity(0)))
    return os.cpu_count() or 1


def counted(threads: Optional[int], parts: int) -> int:
    """The number of threads for a number of parts."""
    if threads is None:
        threads = min(processors(), MOST)
    elif _numbers.whole(threads, "threads") < 1:
        raise ValueError(f"threads has to be at least 1, not {threads}")
    return max(1, min(int(threads), parts))


def by_threads(parts: int, threads: Optional[int], worker: Callable[[], Callable[[int], None]]) -> None:
    """Does each of some parts, counted from 0. `worker` is called once in each thread, and what it returns once for each part that the thread
    takes. The first exception of a thread ends all of them and is raised."""
    if parts == 0:
        return
    count, untaken, alone, stop, raised = counted(threads, parts), iter(range(parts)), threading.Lock(), threading.Event(), []

    def run():
        try:
            do = worker()
            while not stop.is_set():
                with alone:
                    part = next(untaken, None)
                if part is None:
                    return
                do(part)
        except BaseException as error:  # It is raised by the thread that called.
            raised.append(error)
            stop.set()

    others = [threading.Thread(target=run, name="earliest") for _ in range(count - 1)]
    started = []
    try:
        for other in others:
            other.start()
            started.append(other)
    except RuntimeError:
        pass  # The system starts no more threads: those that there are do the work.
    try:
        run()
    finally:
        try:
            for other in started:
                other.join()
        except BaseException:
            stop.set()
            for other in started:
                other.join()
            raise
    if raised:
        raise raised[0]


def are_few(chosen: int, nodes: int) -> bool:
    """Whether searches for this number of chosen nodes end when these are settled."""
    return chosen <= max(FEW, nodes // PART)


def _lay_out(road: Any, parts: int, threads: Optional[int]) -> None:
    """Lays a road out if there are many rows. Without memory for it the rows are searched as they are."""
    if road._core.may_lay_out and parts >= LAID_OUT * counted(threads, parts):
        number = road._core.lay_out()
        if number not in (13, 26):
            test(number)


def rows(road: Any, sources: Any, departures: Any, picks: Any, threads: Optional[int], out: Any = None):
    """The arrivals at all nodes, or at those of `picks`, one row for each source; in the rows of `out`, if it is given."""
    from ._searches import Search

    first_node, first_time = _numbers.address(sources), _numbers.address(departures)
    few = picks is not None and are_few(len(picks), road.nodes)
    if not few:
        _lay_out(road, len(sources), threads)

    def begin():
        search, calls = Search(road, False), library()

        def fill(row, into):
            test(calls.earliest_search_from(search._handle, first_node + 4 * row, 1, first_time + 8 * row, 1))
            test(calls.earliest_search_arrivals(search._handle, _numbers.address(into), road.nodes))

        def fill_few(row, into):
            test(calls.earliest_search_asking(search._handle, first_node + 4 * row, 1, first_time + 8 * row, 1, _numbers.address(picks), len(picks)))
            test(calls.earliest_search_answers(search._handle, _numbers.address(into), len(picks)))

        return fill_few if few else fill

    return _each_row(len(sources), len(picks) if few else road.nodes, None if few else picks, threads, begin, out)


def rows_until(road: Any, targets: Any, times: Any, picks: Any, threads: Optional[int], out: Any = None):
    """The latest departures of all nodes, or of those of `picks`, one row for each target; in the rows of `out`, if it is given."""
    from ._searches import LatestSearch

    _lay_out(road, len(targets), threads)

    def begin():
        search = LatestSearch(road)
        return lambda row, into: search.until(int(targets[row]), int(times[row]), into)

    return _each_row(len(targets), road.nodes, picks, threads, begin, out)


def _each_row(count, nodes, picks, threads, begin, out):
    """A row of times for each problem, in `out` if it isn't None. `begin` is called in each thread, and what it returns for each row that the
    thread takes, with the array that it fills for all nodes."""
    counted(threads, 1)
    if out is None:
        out = _numbers.room((count, nodes if picks is None else len(picks)))
    places = None if picks is None else (picks.astype(numpy.intp) - 1 if numpy is not None else [node - 1 for node in picks])

    def worker():
        fill = begin()
        whole = None if picks is None else _numbers.room((nodes,))

        def do(row):
            fill(row, out[row] if whole is None else whole)
            if whole is not None:
                _pick(whole, places, out, row)

        return do

    by_threads(count, threads, worker)
    if count == 0:
        begin()  # A road that is closed is refused here too.
    return out


def _pick(whole, places, out, row):
    """The members of a whole row at some places."""
    if numpy is not None:
        numpy.take(whole, places, out=out[row], mode="clip")
    else:
        for at, place in enumerate(places):
            out[row][at] = whole[place]


def pairs(road: Any, sources: Any, targets: Any, departures: Any, threads: Optional[int]):
    """The arrivals of pairs."""
    from ._searches import Search

    def begin():
        search, calls, found = Search(road, False), library(), ctypes.c_uint64()

        def one(at):
            target = int(targets[at])
            test(calls.earliest_search_pair(search._handle, int(sources[at]), int(departures[at]), target))
            test(calls.earliest_search_arrival(search._handle, target, found))
            return found.value

        return one

    return _each_pair(len(sources), threads, begin)


def latest(road: Any, sources: Any, targets: Any, arrivals: Any, threads: Optional[int]):
    """The latest departures of pairs, each by a search from its target in the road turned round."""
    from ._searches import LatestSearch

    def begin():
        search = LatestSearch(road)
        return lambda at: search.pair(int(sources[at]), int(targets[at]), int(arrivals[at]))

    return _each_pair(len(sources), threads, begin)


def _each_pair(count, threads, begin):
    """A number for each pair. `begin` is called in each thread, and what it returns for each pair that the thread takes."""
    counted(threads, 1)
    out = _numbers.room((count,))

    def worker():
        one = begin()

        def do(part):
            for at in range(part * CHUNK, min(count, (part + 1) * CHUNK)):
                out[at] = one(at)

        return do

    by_threads(-(-count // CHUNK), threads, worker)
    if count == 0:
        begin()  # A road that is closed is refused here too.
    return out
