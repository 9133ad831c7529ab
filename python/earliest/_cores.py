"""What a road is of: its handle in the library, its lock, and how it is made again, here or in another process."""
from __future__ import annotations

import array
import os
import threading
import weakref
import zlib
from typing import Any, Callable, Dict, List, Optional, Sequence, Tuple

from . import _numbers, _texts
from ._failures import InputFailure, test
from ._library import Fault, Handle, library
from ._numbers import numpy

_all: "weakref.WeakSet[Core]" = weakref.WeakSet()


def _forked():
    """A lock that another thread held at a fork is nobody's in the child."""
    for core in list(_all):
        core.lock = threading.Lock()


if hasattr(os, "register_at_fork"):
    os.register_at_fork(after_in_child=_forked)


class Core:
    """A road of the library: its handle, the lock under which one thread at a time calls with it, and how it is made again."""

    def __init__(self, again: "Again", fill: Callable[[Any, Any], int], refused: Callable[[Any], Exception]):
        self.handle, self.turned, self.lock, self.again, fault = Handle(), Handle(), threading.Lock(), again, Fault()
        number = fill(self.handle, fault)
        if number and number != 13 and fault.text:
            raise refused(fault)
        test(number)
        self.nodes: int = library().earliest_road_nodes(self.handle)
        self.arcs: int = library().earliest_road_arcs(self.handle)
        self.found_ends: Any = None
        self.closed = self.prepared = self.laid_out = False
        self.may_lay_out = True
        _all.add(self)

    def ends(self) -> Tuple[Any, Any]:
        """The tails and the heads of all arcs, in arrays that nobody writes to."""
        if self.found_ends is None:
            again = self.again
            if again.lists:
                self.found_ends = again.lists[0], again.lists[1]
            else:
                text = again.texts[0] if again.texts else _texts.text_of(again.paths[0], "gr")[0]
                if again.paths and checksum(text) != again.sums[0]:
                    raise OSError(f"{again.paths[0]} has changed since the road was read from it")
                self.found_ends = ends_of_text(text)
        if numpy is None:
            return self.found_ends[0][:], self.found_ends[1][:]
        for it in self.found_ends:
            it.flags.writeable = False
        return self.found_ends

    def fill_latest(self, handle: Handle) -> None:
        """Makes a search for latest departures, without walks, in a handle. The road is turned round when this is first asked for."""
        with self.lock:
            if not self.turned.at:
                test(library().earliest_road_turned(self.handle, self.turned))
            test(library().earliest_search_new_until(self.turned, 0, handle))

    def prepare(self, order: Any) -> None:
        """Puts a preparation beside the road, over an order of its nodes if there is one, for the searches that are made from now on."""
        with self.lock:
            if self.prepared and order is None and not self.closed:
                return
            prepared = Handle()
            if order is None:
                test(library().earliest_road_prepared(self.handle, prepared))
            else:
                test(library().earliest_road_prepared_by(self.handle, _numbers.address(order), len(order), prepared))
            self._put_prepared(prepared)

    def prepare_like(self, other: "Core") -> None:
        """Puts a preparation beside the road, over the order of another prepared road with as many nodes."""
        first, second = sorted((self, other), key=id)
        if first is second:
            return self.prepare(None)
        with first.lock, second.lock:
            prepared = Handle()
            test(library().earliest_road_prepared_like(self.handle, other.handle, prepared))
            self._put_prepared(prepared)

    def lay_out(self) -> int:
        """Puts a layout beside the road for the searches that are made from now on; a prepared road has one. Returns the library's number: 26 if
        a layout isn't likely to pay, and then it isn't asked again."""
        with self.lock:
            if (self.prepared or self.laid_out) and not self.closed:
                return 0
            laid = Handle()
            number = library().earliest_road_laid_out(self.handle, laid)
            if number == 0:
                self._put(laid)
                self.laid_out = True
            elif number == 26:
                self.may_lay_out = False
            return number

    def _put_prepared(self, prepared: Handle) -> None:
        self._put(prepared)
        self.prepared, self.laid_out = True, False

    def _put(self, handle: Handle) -> None:
        # The road that was turned round goes, too: what is turned next is this one.
        self._free()
        self.handle, self.turned = handle, Handle()

    def close(self):
        with self.lock:
            self._free()
            self.closed = True

    def _free(self):
        for handle in (self.handle, self.turned):
            library().earliest_road_free(handle)

    def __del__(self):
        if getattr(self, "handle", None) is not None and self.handle.at:
            self._free()


class Again:
    """What a road was made of: paths of files with the checksums of what was read, or texts, or lists."""

    def __init__(self, **parts: Any):
        self.parts = parts

    def __getattr__(self, name):
        if name.startswith("__") or name == "parts":
            raise AttributeError(name)
        return self.parts.get(name)


def checksum(text: Optional[bytes]) -> Optional[Tuple[int, int]]:
    return None if text is None else (len(text), zlib.crc32(text))


def of_texts(gr: bytes, tp: Optional[bytes], files: Sequence[str], paths: Optional[Sequence[Optional[str]]] = None) -> Core:
    """The road of two texts. To make it again, it keeps the paths of the files if both have one, else the texts."""
    if paths and paths[0] and (tp is None or paths[1]):
        again = Again(paths=tuple(paths), files=tuple(files), sums=(checksum(gr), checksum(tp)))
    else:
        again = Again(texts=(gr, tp), files=tuple(files))
    # To the library an empty text means that there is none: a line without fields has the fault that an empty file has.
    times = b"" if tp is None else tp or b"\n"

    def refused(fault):
        return InputFailure(files[fault.text - 1], fault.line, fault.number, _texts.line_of((gr, times)[fault.text - 1], fault.line))

    return Core(again, lambda handle, fault: library().earliest_road_read(gr, len(gr), times, len(times), handle, fault), refused)


def of_lists(nodes: int, lists: Sequence[Any], tp: Optional[bytes]) -> Core:
    """The road of arrays of tails, heads, weights and classes, which are kept."""
    times = b"" if tp is None else tp or b"\n"
    words = [word for it in lists for word in (_numbers.address(it), len(it))]

    def refused(fault):
        value: Any = _texts.line_of(times, fault.line)
        if fault.text == 1:
            at = fault.line - 2
            value = tuple(int(it[at]) for it in lists if len(it) > at) if at >= 0 else f"{nodes} nodes"
        return InputFailure(("gr", "tp")[fault.text - 1], fault.line, fault.number, value)

    again = Again(nodes=nodes, lists=tuple(lists), tp=tp)
    return Core(again, lambda handle, fault: library().earliest_road_of_lists(nodes, *words, times, len(times), handle, fault), refused)


def made_again(cls, parts: Dict[str, Any], names: Any, edges: Any, places: Any = None) -> Any:
    """The road that a pickle is of."""
    again = Again(**parts)
    if again.paths:
        texts: List[Optional[bytes]] = []
        for path, name, told in zip(again.paths, again.files, again.sums):
            text = None if told is None else _texts.text_of(path, name)[0]
            if checksum(text) != told:
                raise OSError(f"{path} has changed since the road that was pickled was read from it")
            texts.append(text)
        core = of_texts(texts[0], texts[1], again.files, again.paths)  # type: ignore[arg-type]
    elif again.texts:
        core = of_texts(again.texts[0], again.texts[1], again.files)
    else:
        core = of_lists(again.nodes, again.lists, again.tp)
    return cls._over(core, names, edges, places)


def ends_of_text(text: bytes):
    """The tails and the heads of a network's text, which the engine has read without fault."""
    tails, heads = array.array("I"), array.array("I")
    for line in text.split(b"\n"):
        fields = line.split()
        if fields and fields[0] == b"a":
            tails.append(int(fields[1]))
            heads.append(int(fields[2]))
    if numpy is not None:
        return numpy.array(tails, dtype=numpy.uint32), numpy.array(heads, dtype=numpy.uint32)
    return tails, heads
