"""What the service knows of a road beside its arcs: coordinates, names and the unit of time."""
from __future__ import annotations

import math
import re
from typing import Any, List, Optional, Tuple

import numpy

from .._engine import Road
from .._failures import Failure
from .._places import Refused, coordinates_of, names_of
from ..importing.geography import RADIUS
from ..importing.writing import unit_of

__all__ = ["Ground", "Refused"]

TILES = re.compile(r"(https?://[A-Za-z0-9.-]+(?::[0-9]{1,5})?)/[A-Za-z0-9{}/._~?=&%@-]*")


class Ground:
    """A road with its ends, coordinates (NaN for a node without them), names and unit of time."""

    tiles: Optional[str] = None
    """The address of map tiles, with {z}, {x} and {y}; None for a map without them."""
    credit: Optional[str] = None
    """Whom the tiles' owner wants to be named."""

    def __init__(self, road: Road, coordinates: Any = None, degrees: bool = False, names: Optional[List[str]] = None, per_second: Optional[int] = None, unfit: Any = None):
        self.unfit = {use: numpy.array(nodes, dtype=numpy.intp) - 1 for use, nodes in (unfit or {}).items() if nodes}
        self.road, self.coordinates, self.degrees, self.names, self.per_second = road, coordinates, degrees, names, per_second
        self.tails, self.heads = road.ends()
        self.numbers = {name: number for number, name in enumerate(names, 1)} if names else {}

    @classmethod
    def read(cls, gr: str, tp: Optional[str] = None, co: Optional[str] = None, names: Optional[str] = None, degrees: bool = False, per_second: Optional[int] = None) -> "Ground":
        """Reads the files."""
        road = Road.read(gr, tp)
        coordinates, unfit = None, None
        if co is None:
            degrees = False
        else:
            places, degrees, unfit = coordinates_of(co, road.nodes, degrees)
            coordinates = numpy.array(places).reshape(road.nodes, 2)
        return cls(road, coordinates, degrees, None if names is None else names_of(names, road.nodes), per_second or unit_of(gr), unfit)

    def put_on(self, tiles: str, credit: Optional[str]) -> None:
        """Draws the map on tiles. Refuses an address that is no template, and coordinates that aren't degrees."""
        bare = tiles.replace("{z}", "", 1).replace("{x}", "", 1).replace("{y}", "", 1)
        if not TILES.fullmatch(tiles) or len(bare) != len(tiles) - 9 or "{" in bare or "}" in bare:
            raise Refused("--tiles takes an address as https://tile.example.org/{z}/{x}/{y}.png, with each of {z}, {x} and {y} once")
        if self.coordinates is None or not self.degrees:
            raise Refused("map tiles need coordinates in degrees: --co, and --degrees for those of DIMACS")
        self.tiles, self.credit = tiles, credit

    @property
    def host_of_tiles(self) -> str:
        """The address of the host of the tiles; empty if there are none."""
        found = TILES.fullmatch(self.tiles or "")
        return found[1] if found else ""

    def nearest(self, x: float, y: float, use: str = "start") -> Tuple[int, float]:
        """The node nearest to a place, the lowest of several, and its distance: metres if coordinates are degrees, else their own unit. `use`
        is "start" or "end": of a crossing or stop that is split only the nodes to start from or to end at."""
        distances = self.distances(x, y)
        if use in self.unfit:
            distances[self.unfit[use]] = math.nan
        if numpy.isnan(distances).all():
            raise Refused(f"no node is there to {use} at")
        place = int(numpy.nanargmin(distances))
        return place + 1, float(distances[place])

    def distances(self, x: float, y: float) -> Any:
        """The distance of each node from a place: on the sphere (the haversine formula) if coordinates are degrees, else in the plane."""
        xs, ys = self.coordinates[:, 0], self.coordinates[:, 1]
        if not self.degrees:
            return numpy.hypot(xs - x, ys - y)
        across, along = numpy.radians(ys - y), numpy.radians(xs - x)
        chord = numpy.sin(across / 2) ** 2 + numpy.cos(numpy.radians(ys)) * math.cos(math.radians(y)) * numpy.sin(along / 2) ** 2
        return 2 * RADIUS * numpy.arcsin(numpy.sqrt(numpy.minimum(chord, 1)))

    def number(self, text: str) -> int:
        """The node that a request names: by its number, or by its name."""
        if text in self.numbers:
            return self.numbers[text]
        if not re.fullmatch(r"[0-9]{1,10}", text):
            raise Failure(18, f"no node is called {text[:60]!r}", text[:60])
        number = int(text)
        if not 1 <= number <= self.road.nodes:
            raise Failure(18, f"{number} is no node of the road, whose nodes are 1 to {self.road.nodes}", number)
        return number
