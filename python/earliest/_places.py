"""Files beside a network: coordinates and names of nodes; and files that are written whole."""
from __future__ import annotations

import array
import contextlib
import math
import os
import stat
from typing import Any, Dict, Iterable, List, Tuple

from .importing.maps import Places
from .importing.telling import Refused
from .report import _is_stream, _part_beside

__all__ = ["Refused", "coordinates_of", "names_of", "places_of", "write_whole"]


def places_of(path: str, nodes: int, degrees: bool) -> Places:
    """The places of a road's nodes in a `.co` or a `.nodes.csv`, in degrees or metres."""
    known = Places.read(path, "degrees" if degrees else None)
    if known.unit == "plain":
        raise Refused(f"{path} doesn't tell its unit; degrees=True takes it as millionths of a degree")
    wrong = next((node for node in known.nodes if not 1 <= node <= nodes), None)
    if wrong is not None:
        raise Refused(f"{path} has a place for {wrong}, which is no node of the road, whose nodes are 1 to {nodes}")
    return known


def coordinates_of(path: str, nodes: int, degrees: bool) -> Tuple[Any, bool, Dict[str, Any]]:
    """The coordinates of a `.co` or a `.nodes.csv`, x and y of each node in turn, NaN for a node that has none, whether they are degrees, and
    by "start" and "end" the nodes that can't be one, those of crossings and stops that are split. With `degrees` a `.co` whose first comment
    says no unit has millionths of a degree."""
    known = Places.read(path, "degrees" if degrees else None)
    found = array.array("d", [math.nan]) * (2 * nodes)
    for node, (x, y) in zip(known.nodes, known.points):
        if not 1 <= node <= nodes:
            raise Refused(f"{path} has a place for {node}, which is no node of the road, whose nodes are 1 to {nodes}")
        found[2 * node - 2], found[2 * node - 1] = x, y
    unfit = {use: [node for node, its in zip(known.nodes, known.uses or []) if its not in ("both", use)] for use in ("start", "end")}
    return found, known.unit == "degrees", unfit


def names_of(path: str, nodes: int) -> List[str]:
    """The names of nodes: a line for each, in the order of their numbers, each name once."""
    with open(path, encoding="utf-8-sig") as text:
        names = text.read().splitlines()
    if len(names) != nodes:
        raise Refused(f"{path} has {len(names)} names, and the road has {nodes} nodes")
    if len(set(names)) != nodes:
        raise Refused(f"{path} has a name twice")
    return names


def write_whole(path: str, parts: Iterable[bytes]) -> None:
    """Writes a file that is complete or absent. A device or a pipe is written to, and never replaced."""
    if _is_stream(path):
        with open(path, "ab") as file:
            file.writelines(parts)
        return
    path = os.path.realpath(path)
    with _part_beside(path) as part:
        try:
            part.writelines(parts)
            part.close()
            if os.path.exists(path):
                os.chmod(part.name, stat.S_IMODE(os.stat(path).st_mode))
            os.replace(part.name, path)
        except BaseException:
            with contextlib.suppress(OSError):
                os.unlink(part.name)
            raise
