"""Names of nodes."""
from __future__ import annotations

import collections.abc
from typing import Any, Dict, Hashable, Iterable, Optional, Sequence

from . import _numbers
from ._failures import Failure


class Names(collections.abc.Sequence):
    """The names of a road's nodes in the order of their numbers: `names[0]` is that of node 1. Names are hashable, each once."""

    def __init__(self, names: Iterable[Hashable]):
        self._number: Optional[Dict[Hashable, int]] = None
        if isinstance(names, range):
            self._names: Sequence[Hashable] = names
            if len(names) > 1 and names.step != 1:
                self._names = list(names)
        else:
            self._names = list(names.tolist() if hasattr(names, "tolist") else names)
        if isinstance(self._names, list):
            self._number = {}
            for number, name in enumerate(self._names, 1):
                try:
                    first = self._number.setdefault(name, number)
                except TypeError:
                    raise TypeError(f"a node's name has to be hashable, not {name!r}") from None
                if first != number:
                    raise ValueError(f"names have to be different, and nodes {first} and {number} are both called {name!r}")

    def __len__(self):
        return len(self._names)

    def __getitem__(self, at):
        return self._names[at]

    def __contains__(self, name):
        return self._find(name) is not None

    def __eq__(self, other):
        if not isinstance(other, Names):
            return NotImplemented
        return len(self) == len(other) and all(mine == its for mine, its in zip(self, other))

    def __hash__(self):
        return hash(("Names", len(self)))

    def __repr__(self):
        shown = ", ".join(map(repr, self._names[:3]))
        return f"<earliest.Names of {len(self)} nodes: {shown}{', ..' if len(self) > 3 else ''}>"

    def __reduce__(self):
        return Names, (self._names,)

    def _find(self, name: Any) -> Optional[int]:
        if isinstance(name, bool):
            return None
        if self._number is None:
            try:
                at = _numbers.whole(name, "a name") - self._names[0] if len(self) else -1  # type: ignore[operator]
            except TypeError:
                return None
            return at + 1 if 0 <= at < len(self) else None
        try:
            return self._number.get(name)
        except TypeError:
            return None

    def is_name(self, value: Any) -> bool:
        """Whether this is the name of a node, and no list of them."""
        return self._find(value) is not None

    def number(self, name: Hashable) -> int:
        """The number of the node with this name. A name that no node has is a Failure (18 NoSuchNode)."""
        found = self._find(name)
        if found is None:
            raise Failure(18, f"no node is called {name!r}", name)
        return found

    def numbers(self, names: Iterable[Hashable]) -> Any:
        """The numbers of the nodes with these names, as an array of uint32 (array.array("I") without NumPy)."""
        if isinstance(names, (set, frozenset)):
            raise TypeError("nodes have to be in an order, and a set has none: pass a list")
        if hasattr(names, "to_numpy"):
            names = names.to_numpy()
        if hasattr(names, "tolist"):
            names = names.tolist()
        return _numbers.listed("I", [self.number(name) for name in names], "nodes")
