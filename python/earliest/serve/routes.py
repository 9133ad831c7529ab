"""The routes: for each its parameters, and how its reply is found and written."""
from __future__ import annotations

import json
from typing import Any, Callable, Dict, List, NamedTuple, Optional

import numpy

from .._failures import Failure
from .._library import HORIZON, NEVER
from .asked import Asked, Parameter, Problem
from .ground import Ground, Refused
from .pool import Work, held

JSON, GEO, BINARY = "application/json", "application/geo+json", "application/octet-stream"


class Reply(NamedTuple):
    """A reply in each of its forms. One that is asked for is written in the thread that searched."""

    json: Callable[[], Any]
    binary: Optional[Callable[[], bytes]] = None
    geo: Optional[Callable[[], List[Any]]] = None

    def text(self, kind: str) -> bytes:
        """The body in one of the forms."""
        if kind == BINARY and self.binary:
            return self.binary()
        if kind == GEO and self.geo:
            return _dumped({"type": "FeatureCollection", "features": self.geo()})
        return _dumped(self.json())


def _dumped(value: Any) -> bytes:
    return json.dumps(value, separators=(",", ":"), ensure_ascii=False).encode()


class Route(NamedTuple):
    """A route."""

    path: str
    about: str
    parameters: List[Parameter]
    kinds: List[str]
    find: Callable[[Ground, Asked, Work], Reply]
    schema: Dict[str, Any]
    """The JSON form, as OpenAPI has it."""


def told(values: Any) -> List[Optional[int]]:
    """Times for JSON: null for one that is never."""
    return [None if it == NEVER else it for it in numpy.asarray(values).tolist()]


def _point(ground: Ground, node: int) -> List[float]:
    return [float(it) for it in ground.coordinates[node - 1]]


def _is_placed(ground: Ground, node: int) -> bool:
    return not bool(numpy.isnan(ground.coordinates[node - 1]).any())


def _feature(kind: str, coordinates: Any, **properties: Any) -> Dict[str, Any]:
    return {"type": "Feature", "geometry": {"type": kind, "coordinates": coordinates}, "properties": properties}


def _number_array(items: Dict[str, Any]) -> Dict[str, Any]:
    return {"type": "array", "items": items}


def _object(**properties: Any) -> Dict[str, Any]:
    return {"type": "object", "required": sorted(properties), "properties": properties}


WHOLE = {"type": "integer", "minimum": 0}
TIME = {"type": "integer", "minimum": 0, "maximum": HORIZON}
LATER = {**TIME, "nullable": True}
NUMBER = {"type": "number"}


def _arrivals(ground: Ground, asked: Asked, work: Work) -> Reply:
    departure = asked.departure or 0
    asked.fits(ground.road.nodes if asked.nodes is None else len(asked.nodes))
    found = work.row(asked.source, departure)
    nodes = None if asked.nodes is None else asked.nodes
    found = found if nodes is None else found[nodes.astype(numpy.intp) - 1]

    def as_json():
        listed = {} if nodes is None else {"nodes": nodes.tolist()}
        return {"source": asked.source, "departure": departure, **listed, "arrivals": told(found)}

    def as_geo():
        listed = range(1, ground.road.nodes + 1) if nodes is None else nodes.tolist()
        return [_feature("Point", _point(ground, node), node=node, arrival=time, duration=None if time is None else time - departure)
                for node, time in zip(listed, told(found)) if _is_placed(ground, node)]

    return Reply(as_json, lambda: held(found), as_geo)


def _lists(asked: Asked, times: Any):
    """Sources, targets and times of pairs, of one length."""
    sources, targets = asked.sources, asked.targets
    count = max(len(sources), len(targets))
    if len(sources) != len(targets) and 1 not in (len(sources), len(targets)):
        raise Failure(23, f"there are {len(sources)} sources and {len(targets)} targets", [len(sources), len(targets)])
    if times is not None and len(times) > 1 and count == 1:
        count = len(times)
    asked.fits(count)
    spread = [numpy.full(count, it[0], dtype=it.dtype) if len(it) == 1 else it for it in (sources, targets)]
    return spread[0].tolist(), spread[1].tolist(), asked.times_for(times, count).tolist()


def _pairs(ground: Ground, asked: Asked, work: Work) -> Reply:
    sources, targets, departures = _lists(asked, asked.given["departures"])
    walks: List[Any] = []
    if asked.walks:
        both = [work.walk(*it) for it in zip(sources, targets, departures)]
        found, walks = [it[0] for it in both], [_walk_of(ground, *it) for it in zip(sources, [it[1] for it in both])]
    else:
        found = [work.pair(*it) for it in zip(sources, targets, departures)]

    def as_json():
        more = {"walks": walks} if asked.walks else {}
        return {"sources": sources, "targets": targets, "departures": departures, "arrivals": told(numpy.array(found, dtype=numpy.uint64)), **more}

    def as_geo():
        told_of = told(numpy.array(found, dtype=numpy.uint64))
        lines = [it["nodes"] if it else [source, target] if time is not None else [] for it, source, target, time in zip(walks or [None] * len(found), sources, targets, told_of)]
        return [_feature(*_line(ground, nodes), source=source, target=target, departure=departure, arrival=time, **({"arcs": walk and walk["arcs"]} if asked.walks else {}))
                for nodes, source, target, departure, time, walk in zip(lines, sources, targets, departures, told_of, walks or [None] * len(found))]

    return Reply(as_json, lambda: held(numpy.array(found, dtype=numpy.uint64)), as_geo)


def _walk_of(ground: Ground, source: int, arcs: Any) -> Any:
    """The arcs and the nodes of a walk."""
    if arcs is None:
        return None
    return {"arcs": list(arcs), "nodes": [source, *(int(ground.heads[arc - 1]) for arc in arcs)]}


def _line(ground: Ground, nodes: List[int]):
    """The kind and the coordinates of a line through nodes; a line has two points at least."""
    points = [_point(ground, node) for node in nodes if _is_placed(ground, node)]
    return "LineString", points * 2 if len(points) == 1 else points


def _latest(ground: Ground, asked: Asked, work: Work) -> Reply:
    sources, targets, by = _lists(asked, asked.given["arrivals"])
    found = numpy.array([work.pair_until(*it) for it in zip(sources, targets, by)], dtype=numpy.uint64)
    return Reply(lambda: {"sources": sources, "targets": targets, "arrivals": by, "departures": told(found)}, lambda: held(found))


def _departures(ground: Ground, asked: Asked, work: Work) -> Reply:
    nodes = asked.nodes
    asked.fits(ground.road.nodes if nodes is None else len(nodes))
    found = work.row_until(asked.target, asked.arrival)
    found = found if nodes is None else found[nodes.astype(numpy.intp) - 1]

    def as_json():
        listed = {} if nodes is None else {"nodes": nodes.tolist()}
        return {"target": asked.target, "arrival": asked.arrival, **listed, "departures": told(found)}

    def as_geo():
        listed = range(1, ground.road.nodes + 1) if nodes is None else nodes.tolist()
        return [_feature("Point", _point(ground, node), node=node, departure=time, duration=None if time is None else asked.arrival - time)
                for node, time in zip(listed, told(found)) if _is_placed(ground, node)]

    return Reply(as_json, lambda: held(found), as_geo)


def _matrix(ground: Ground, asked: Asked, work: Work) -> Reply:
    sources, nodes = asked.sources, asked.nodes
    asked.fits(len(sources) * (ground.road.nodes if nodes is None else len(nodes)))
    departures = asked.times_for(asked.given["departures"], len(sources))
    places = slice(None) if nodes is None else nodes.astype(numpy.intp) - 1
    rows = numpy.empty((len(sources), ground.road.nodes if nodes is None else len(nodes)), dtype=numpy.uint64)
    for at, (source, departure) in enumerate(zip(sources.tolist(), departures.tolist())):
        rows[at] = work.row(source, departure)[places]

    def as_json():
        listed = {} if nodes is None else {"nodes": nodes.tolist()}
        return {"sources": sources.tolist(), "departures": departures.tolist(), **listed, "arrivals": [told(row) for row in rows]}

    return Reply(as_json, lambda: held(rows))


def _need_coordinates(ground: Ground) -> None:
    if ground.coordinates is None:
        raise Problem(404, "NoCoordinates", "the service was started without coordinates (--co)")


def _nearest(ground: Ground, asked: Asked, work: Work) -> Reply:
    _need_coordinates(ground)
    if ground.degrees and not (-180 <= asked.x <= 180 and -90 <= asked.y <= 90):
        raise Problem(400, "BadParameter", f"{asked.x:g}, {asked.y:g} are no degrees of longitude and latitude")
    try:
        node, distance = ground.nearest(asked.x, asked.y, "end" if asked.end else "start")
    except Refused as error:
        raise Problem(404, "NoSuchPlace", str(error)) from None
    x, y = _point(ground, node)
    more = {"name": ground.names[node - 1]} if ground.names else {}
    return Reply(lambda: {"node": node, "x": x, "y": y, "distance": distance, **more}, lambda: held([node]),
                 lambda: [_feature("Point", [x, y], node=node, distance=distance, **more)])


def _isochrones(ground: Ground, asked: Asked, work: Work) -> Reply:
    departure = asked.departure or 0
    asked.fits(ground.road.nodes)
    found = work.row(asked.source, departure)
    reached = found != NEVER
    durations = numpy.where(reached, found - numpy.uint64(departure), 0)
    longest = int(durations.max())
    band = asked.band or max(1, -(-(longest + 1) // 8))
    if longest // band >= 1000:
        raise Problem(413, "TooLarge", f"a band of {band} makes {longest // band + 1} bands, and the limit is 1000", value=longest // band + 1)
    places = numpy.where(reached, durations // numpy.uint64(band), numpy.uint64(NEVER))
    groups = [numpy.flatnonzero(places == at) + 1 for at in range(longest // band + 1)]

    def as_json():
        return {"source": asked.source, "departure": departure, "band": band,
                "bands": [{"from": at * band, "to": (at + 1) * band, "nodes": nodes.tolist()} for at, nodes in enumerate(groups)],
                "never": (numpy.flatnonzero(~reached) + 1).tolist()}

    def as_geo():
        return [_feature("MultiPoint", [_point(ground, node) for node in nodes.tolist() if _is_placed(ground, node)],
                         **{"from": at * band, "to": (at + 1) * band, "nodes": nodes.tolist()}) for at, nodes in enumerate(groups)]

    return Reply(as_json, lambda: held(places), as_geo)


def _network(ground: Ground, asked: Asked, work: Work) -> Reply:
    return Reply(lambda: {"nodes": ground.road.nodes, "arcs": ground.road.arcs, "per_second": ground.per_second, "horizon": HORIZON,
                          "coordinates": ground.coordinates is not None, "degrees": ground.degrees, "names": ground.names is not None,
                          "tiles": ground.tiles, "credit": ground.credit})


def _coordinates(ground: Ground, asked: Asked, work: Work) -> Reply:
    _need_coordinates(ground)

    def as_json():
        return {"coordinates": [_point(ground, node) if _is_placed(ground, node) else None for node in range(1, ground.road.nodes + 1)]}

    def as_geo():
        return [_feature("Point", _point(ground, node), node=node) for node in range(1, ground.road.nodes + 1) if _is_placed(ground, node)]

    return Reply(as_json, lambda: ground.coordinates.astype("<f8").tobytes(), as_geo)


def _arcs(ground: Ground, asked: Asked, work: Work) -> Reply:
    return Reply(lambda: {"tails": ground.tails.tolist(), "heads": ground.heads.tolist()},
                 lambda: numpy.stack([ground.tails, ground.heads], axis=1).astype("<u4").tobytes())


def _names(ground: Ground, asked: Asked, work: Work) -> Reply:
    return Reply(lambda: {"names": ground.names or []})


def _p(name: str, kind: str, needed: bool, about: str, example: str) -> Parameter:
    return Parameter(name, kind, needed, about, example)


SOURCE = _p("source", "node", True, "the node to depart from", "1")
SOURCES = _p("sources", "nodes", True, "the nodes to depart from", "1,2")
TARGETS = _p("targets", "nodes", True, "the nodes to arrive at, as many as sources, or one for all", "2,3")
DEPARTURE = _p("departure", "time", False, "when the source is left, 0 if it is not given", "28800")
DEPARTURES = _p("departures", "times", False, "when each source is left, 0 if it is not given", "28800")
NODES = _p("nodes", "nodes", False, "the nodes whose arrivals are returned, all if they are not given", "1-3")
POINT = {"type": "array", "items": NUMBER, "nullable": True}

ROUTES = [
    Route("/v1/arrivals", "The earliest arrivals from one node. The binary form has a time for each node.", [SOURCE, DEPARTURE, NODES], [JSON, GEO, BINARY], _arrivals,
          _object(source=WHOLE, departure=TIME, arrivals=_number_array(LATER))),
    Route("/v1/pairs", "The earliest arrivals of pairs, with walks if they are asked for. The binary form has a time for each pair.",
          [SOURCES, TARGETS, DEPARTURES, _p("walks", "flag", False, "whether the arcs and nodes of each walk are returned", "true")], [JSON, GEO, BINARY], _pairs,
          _object(sources=_number_array(WHOLE), targets=_number_array(WHOLE), departures=_number_array(TIME), arrivals=_number_array(LATER))),
    Route("/v1/latest", "The latest departures of pairs that have to arrive by a time, null if no departure is in time. The binary form has a time for each pair.",
          [SOURCES, TARGETS, _p("arrivals", "times", True, "when each target has to be reached", "40000")], [JSON, BINARY], _latest,
          _object(sources=_number_array(WHOLE), targets=_number_array(WHOLE), arrivals=_number_array(TIME), departures=_number_array(LATER))),
    Route("/v1/departures", "The latest departures from all nodes that are in time at one node, null if no departure is. The binary form has a time for each node.",
          [_p("target", "node", True, "the node to be reached", "2"), _p("arrival", "time", True, "when it has to be reached", "40000"), NODES], [JSON, GEO, BINARY], _departures,
          _object(target=WHOLE, arrival=TIME, departures=_number_array(LATER))),
    Route("/v1/matrix", "The earliest arrivals from each source at each node. The binary form has one row after the other.", [SOURCES, DEPARTURES, NODES], [JSON, BINARY], _matrix,
          _object(sources=_number_array(WHOLE), departures=_number_array(TIME), arrivals=_number_array(_number_array(LATER)))),
    Route("/v1/nearest", "The node nearest to a place, with the distance in metres if coordinates are degrees, else in their own unit. The binary form is the node.",
          [_p("x", "number", True, "the place's x, or its longitude", "100"), _p("y", "number", True, "the place's y, or its latitude", "200"),
           _p("end", "flag", False, "of a crossing or stop that is split: whether the node to arrive at is returned, in place of the one to start from", "false")], [JSON, GEO, BINARY], _nearest,
          _object(node=WHOLE, x=NUMBER, y=NUMBER, distance=NUMBER)),
    Route("/v1/isochrones", "Nodes by bands of time after the departure. The binary form has the band of each node, from 0.",
          [SOURCE, DEPARTURE, _p("band", "length", False, "the length of a band, an eighth of the longest time if it is not given", "600")], [JSON, GEO, BINARY], _isochrones,
          _object(source=WHOLE, departure=TIME, band=TIME, bands=_number_array({"type": "object"}), never=_number_array(WHOLE))),
    Route("/v1/network", "How large the network is, and what is known of it.", [], [JSON], _network,
          _object(nodes=WHOLE, arcs=WHOLE, per_second={**WHOLE, "nullable": True}, horizon=WHOLE, coordinates={"type": "boolean"}, degrees={"type": "boolean"}, names={"type": "boolean"},
                  tiles={"type": "string", "nullable": True}, credit={"type": "string", "nullable": True})),
    Route("/v1/network/coordinates", "The place of each node. The binary form has x and y as 64-bit floats.", [], [JSON, GEO, BINARY], _coordinates, _object(coordinates=_number_array(POINT))),
    Route("/v1/network/arcs", "The tail and the head of each arc. The binary form has both as unsigned 32 bits.", [], [JSON, BINARY], _arcs,
          _object(tails=_number_array(WHOLE), heads=_number_array(WHOLE))),
    Route("/v1/network/names", "The names of the nodes, none if the service was started without them.", [], [JSON], _names, _object(names=_number_array({"type": "string"}))),
]
