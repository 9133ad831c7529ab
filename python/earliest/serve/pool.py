"""Threads that search, each with its own arrays, and the limits on what they are given."""
from __future__ import annotations

import asyncio
import concurrent.futures
import math
import threading
import time
from typing import Any, Callable

import numpy

from .. import _threads
from .._engine import Road
from .._library import NEVER
from .._searches import LatestSearch, Search
from .asked import Problem


class Work:
    """One request in a thread: its searches, and whether it still has time."""

    def __init__(self, road: Road, own: Any, until: float):
        self.road, self.own, self.until, self.stopped, self.searches = road, own, until, False, 0

    def search(self, walks: bool = False) -> Search:
        """The thread's search, made when it is first needed."""
        name = "walks" if walks else "plain"
        if not hasattr(self.own, name):
            setattr(self.own, name, Search(self.road, walks))
        return getattr(self.own, name)

    def test(self) -> None:
        """Ends the work if its deadline has passed or no reader is left. One search is never cut short."""
        if self.stopped or time.monotonic() > self.until:
            raise Problem(503, "DeadlinePassed", "the request took longer than the service allows", 1)
        self.searches += 1

    def row(self, source: int, departure: int) -> Any:
        """The arrivals at all nodes."""
        self.test()
        return self.search().find(source, departure).arrivals

    def pair(self, source: int, target: int, departure: int) -> int:
        """One arrival."""
        self.test()
        found = self.search().pair(source, departure, target)
        return NEVER if found is None else found

    def latest(self) -> LatestSearch:
        """The thread's search for latest departures, made when it is first needed. The first of all turns the road round."""
        if not hasattr(self.own, "latest"):
            self.own.latest = LatestSearch(self.road)
        return self.own.latest

    def row_until(self, target: int, by: int) -> Any:
        """The latest departures of all nodes."""
        self.test()
        into = numpy.empty(self.road.nodes, dtype=numpy.uint64)
        self.latest().until(target, by, into)
        return into

    def pair_until(self, source: int, target: int, by: int) -> int:
        """One latest departure."""
        self.test()
        return self.latest().pair(source, target, by)

    def walk(self, source: int, target: int, departure: int) -> Any:
        """One arrival, and the arcs of its walk, None if there is none."""
        self.test()
        search = self.search(walks=True)
        found = search.pair(source, departure, target)
        return (NEVER, None) if found is None else (found, search._walk(search._turn, target))


class Pool:
    """A number of threads with a queue of limited length."""

    def __init__(self, road: Road, threads: Any, queue: int, deadline: float):
        self.road, self.threads, self.queue, self.deadline = road, _threads.counted(threads, 1 << 30), queue, deadline
        self.executor = concurrent.futures.ThreadPoolExecutor(self.threads, "earliest-serve")
        self.own, self.lock, self.inside, self.searches = threading.local(), threading.Lock(), 0, 0

    async def run(self, job: Callable[[Work], Any]) -> Any:
        """Runs a job in a thread: its result. A full queue and a deadline are refusals."""
        work = Work(self.road, self.own, time.monotonic() + self.deadline)
        with self.lock:
            if self.inside >= self.threads + self.queue:
                raise Problem(503, "QueueFull", f"{self.queue} requests are waiting", self.retry())
            self.inside += 1
        done = self.executor.submit(self._run, job, work)
        done.add_done_callback(lambda _: self._left(work))
        try:
            return await asyncio.wait_for(asyncio.wrap_future(done), self.deadline)
        except asyncio.TimeoutError:
            raise Problem(503, "DeadlinePassed", f"the request took longer than {self.deadline:g} seconds", self.retry()) from None
        finally:
            work.stopped = True

    def _run(self, job: Callable[[Work], Any], work: Work) -> Any:
        return job(work)

    def _left(self, work: Work) -> None:
        with self.lock:
            self.inside -= 1
            self.searches += work.searches

    def retry(self) -> int:
        """Seconds after which a refused request may come again."""
        return max(1, math.ceil(min(self.deadline, 60) / 4))

    def close(self) -> None:
        self.executor.shutdown(wait=True)


def held(values: Any) -> bytes:
    """Times as bytes: unsigned 64 bits, least byte first."""
    return numpy.asarray(values, dtype=numpy.uint64).astype("<u8").tobytes()
