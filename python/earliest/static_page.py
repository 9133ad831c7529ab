"""One HTML file that shows arrivals on a map, to be opened without a service: `python -m earliest isochrones REPORT CO --html OUT.html`."""
from __future__ import annotations

import array
import base64
import html
import json
import os
import sys
from typing import Any, Dict, List, Optional, Sequence, Tuple

from ._library import NEVER
from .importing.maps import Places
from .importing.telling import Refused

PAGE = os.path.join(os.path.dirname(os.path.abspath(__file__)), "serve", "page")


def page(known: Places, arcs: Sequence[Tuple[int, int]], problem: Any, per_second: Optional[int]) -> str:
    """The text of the page: where nodes lie, the tail and head of each arc, a problem of a report, and how many units of time a second has, None if
    nobody knows."""
    sources: List[Tuple[int, int]] = problem.sources
    arrivals: Dict[int, Optional[int]] = problem.arrivals
    nodes = max([*known.nodes, *arrivals, *(node for node, _ in sources), *(node for arc in arcs for node in arc)])
    departure = problem.start
    places, times = array.array("d", [float("nan")]) * (2 * nodes), array.array("Q", [NEVER]) * nodes
    for node, (x, y) in zip(known.nodes, known.points):
        places[2 * node - 2], places[2 * node - 1] = x, y
    for node, arrival in arrivals.items():
        if arrival is not None:
            if problem.span([arrival]) < 0:
                raise Refused(f"node {node} is left at {arrival} in the report, after {departure}" if problem.is_turned else
                              f"node {node} is reached at {arrival} in the report, before the departure at {departure}")
            times[node - 1] = arrival
    data = {"coordinates": packed(places), "arcs": packed(array.array("I", [node for arc in arcs for node in arc])), "arrivals": packed(times),
            "departure": departure, "until": problem.is_turned, "sources": [node for node, _ in sources], "degrees": known.unit == "degrees", "per_second": per_second}
    shown = ", ".join(str(node) for node, _ in sources[:5]) + (" and others" if len(sources) > 5 else "")
    named = f"node{'s' if len(sources) > 1 else ''} {shown}"
    title = f"Latest departures for {named}, to be there by {departure}" if problem.is_turned else f"Earliest arrivals from {named}, departure {departure}"
    if per_second:
        seconds = departure // per_second
        title = f"{title} ({seconds // 3600}:{seconds // 60 % 60:02}:{seconds % 60:02})"
    return filled({"title": html.escape(title), "data": json.dumps(data)})


def packed(values: Any) -> str:
    """An array as base64 of its bytes, least byte first."""
    if sys.byteorder == "big":
        values.byteswap()
    return base64.b64encode(values.tobytes()).decode()


def filled(values: Dict[str, str]) -> str:
    """The page's form, in which `@NAME@` is a value or a file beside it."""
    def part(name):
        with open(os.path.join(PAGE, name), encoding="utf-8") as file:
            return file.read()

    pieces = part("static.html").split("@")
    return "".join(piece if at % 2 == 0 else values[piece] if piece in values else part(piece) for at, piece in enumerate(pieces))
