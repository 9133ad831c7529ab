"""Arrivals over the workers of a Dask cluster.

    from distributed import Client
    from earliest import cluster
    matrix = cluster.arrivals(Client("scheduler:8786"), road, sources, departures=28800)     # a Dask array

A road goes to a worker once and is read there once, by its paths if it was read from files that the workers see under the same paths. Rows go
in blocks whose size follows a first measurement. If a worker dies, Dask does its blocks again on another one.
"""
from __future__ import annotations

import contextlib
import hashlib
import os
import pickle
import sys
import threading
import time
from collections import Counter
from typing import Any, Callable, List, NamedTuple, Optional

from . import _numbers
from ._engine import Road

SECONDS = 5.0
"""How long a block takes, by the first measurement."""
FIRST = 4
"""The rows of the block that is measured."""
MOST_BYTES = 256 * 2**20
"""The most bytes of a block."""
RETRIES = 5
"""How often Dask repeats a block that failed. Each death of a worker counts once for the blocks that it was at."""

_roads: Any = {}
_alone = threading.Lock()


class Block(NamedTuple):
    """Rows of a matrix that are found together."""

    first: int
    rows: int


def arrivals(client: Any, road: Any, sources: Any, departures: Any = None, nodes: Any = None, *, folder: Optional[str] = None, rows: Optional[int] = None,
             seconds: float = SECONDS, threads: int = 1, progress: Any = None) -> Any:
    """The matrix of earliest arrivals as `Road.arrivals` has it, a row for each source, over the workers of a client of `distributed`.

    `road` is a Road, or a path of a network, or a pair of paths (gr, tp) that workers can read. Without `folder` the result is a Dask
    array of uint64 whose blocks stay with the workers: keep the client, and compute parts of it. With `folder`, which all workers have to
    see, each block is written there as .npy, and the result is the list of their paths in the order of the rows.

    A block has `rows` rows, or as many as take `seconds` seconds by a first measurement. `threads` threads search in a block. `progress`
    is called with the number of rows that are done and their total; True writes them to standard error.
    """
    numpy = _numbers.need_numpy("earliest.cluster")
    _need_dask()
    from distributed import as_completed

    if not isinstance(road, Road):
        road = Road.read(*([road] if isinstance(road, (str, os.PathLike)) else road))
    starts, when = road._starts(sources, departures, _plain())
    picks = None if nodes is None else road._list(nodes)
    wide, total = road.nodes if picks is None else len(picks), len(starts)
    told = _shown if progress is True else progress or (lambda done, all: None)
    if folder is not None:
        folder = os.path.abspath(folder)
        os.makedirs(folder, exist_ok=True)
    packed = pickle.dumps(road.numbered)
    key = hashlib.sha256(packed).hexdigest()
    # The nodes of the columns go with the road, once a worker.
    shared = client.scatter((packed, picks), broadcast=True, hash=False)

    def submitted(block: Block) -> Any:
        part = slice(block.first, block.first + block.rows)
        return client.submit(_block, key, shared, starts[part], when[part], threads, None if folder is None else _path(folder, block), pure=False, retries=RETRIES)

    blocks, futures, done = [], {}, 0
    if total:
        first = Block(0, min(rows or FIRST, total))
        future = submitted(first)
        blocks, futures = [first], {future: first}
        if rows is None:
            taken = client.gather(client.submit(_seconds, future))
            rows = _rows(total - first.rows, taken / first.rows, seconds, sum(client.nthreads().values()), wide)
        for at in range(first.rows, total, rows):
            blocks.append(Block(at, min(rows, total - at)))
            futures[submitted(blocks[-1])] = blocks[-1]
    completed, lost = as_completed(list(futures)), Counter()
    for future in completed:
        lost[future] += future.status == "lost"
        if future.status == "lost" and lost[future] <= RETRIES:
            # Its worker died with the block, which Dask makes again.
            completed.add(future)
            continue
        if future.status != "finished":
            raised = future.exception() if future.status == "error" else RuntimeError(f"a block is {future.status}")
            client.cancel(list(futures))
            raise raised
        done += futures[future].rows
        told(done, total)
    of_block = {block: future for future, block in futures.items()}
    if folder is not None:
        found = [it[1] for it in client.gather([of_block[block] for block in blocks])]
        _tidied(folder, set(found))
        return found
    return _array(numpy, [(of_block[block], block.rows) for block in blocks], wide)


def _plain() -> Any:
    from ._times import Times

    return Times()


def _rows(left: int, row: float, seconds: float, workers: int, wide: int) -> int:
    """The rows of a block: as many as take the seconds, yet four blocks for each worker, within the bytes of a block."""
    by_time = int(seconds / max(row, 1e-7))
    return max(1, min(by_time, -(-left // max(1, 4 * workers)), MOST_BYTES // max(1, 8 * wide)))


def _array(numpy: Any, parts: List[Any], wide: int) -> Any:
    """The blocks as one Dask array."""
    import dask
    from dask import array

    if not parts:
        return array.from_array(numpy.empty((0, wide), dtype=numpy.uint64))
    # The arrays are taken out of what the tasks returned when a part is asked for.
    rows = [array.from_delayed(dask.delayed(_rows_of)(dask.delayed(future)), (count, wide), dtype=numpy.uint64) for future, count in parts]
    return array.concatenate(rows, axis=0)


def _rows_of(found: Any) -> Any:
    return found[1]


def _seconds(found: Any) -> float:
    return found[0]


def _path(folder: str, block: Block) -> str:
    """The file of a block: the names of blocks are in the order of their rows."""
    return os.path.join(folder, f"rows-{block.first:012}-{block.first + block.rows - 1:012}.npy")


def _tidied(folder: str, paths: Any) -> None:
    """Removes what workers that died have left of blocks."""
    for name in os.listdir(folder):
        path = os.path.join(folder, name)
        if name.endswith(".part") and path.rsplit(".", 3)[0] in paths:
            with contextlib.suppress(FileNotFoundError):
                os.unlink(path)


def _shown(done: int, total: int) -> None:
    sys.stderr.write(f"\r{done} of {total} rows{chr(10) if done == total else ''}")
    sys.stderr.flush()


def _need_dask() -> None:
    missing = []
    for name in ("dask.array", "distributed"):
        try:
            __import__(name)
        except ImportError:
            missing.append(name)
    if missing:
        raise ImportError(f"earliest.cluster needs {' and '.join(missing)}: install Dask by `apt-get install python3-dask python3-distributed`, or `pip install \"dask[array,distributed]\"`")


# In the workers

def _road(key: str, packed: bytes) -> Road:
    """The road of a pickle, read once in a process."""
    with _alone:
        if key not in _roads:
            _roads[key] = pickle.loads(packed)
        return _roads[key]


def _block(key: str, shared: Any, sources: Any, departures: Any, threads: int, path: Optional[str]) -> Any:
    """Finds a block of rows: the seconds that it took, without reading the road, and the rows or the path of the file that has them."""
    packed, picks = shared
    road = _road(key, packed)
    began = time.perf_counter()
    found = road.arrivals(sources, departures, picks, threads)
    taken = time.perf_counter() - began
    if path is None:
        return taken, found
    # The file is whole or absent. A block that is done twice is written twice, with the same bytes.
    part = f"{path}.{os.getpid()}.{threading.get_ident()}.part"
    try:
        with open(part, "wb") as file:
            _numbers.numpy.save(file, found)
        os.replace(part, path)
    finally:
        if os.path.exists(part):
            os.unlink(part)
    return taken, path
