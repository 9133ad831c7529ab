"""Serves a road over HTTP, with a page that shows arrivals on a map.

    python -m earliest serve NET [--tp F] [--co F] [--names F] [--port N] [--threads N]

reads the network once, listens on 127.0.0.1 and prints the address of the page. The routes are described at /openapi.json. SIGTERM and SIGINT
stop the service after the requests in flight.
"""
from __future__ import annotations

import argparse
import sys
from typing import List, Optional

__all__ = ["main"]


def parser() -> argparse.ArgumentParser:
    """The words of the command."""
    words = argparse.ArgumentParser(prog="python -m earliest serve", description=__doc__, formatter_class=argparse.RawDescriptionHelpFormatter)
    words.add_argument("network", metavar="NET", help="the network (.gr)")
    words.add_argument("--tp", metavar="F", help="its timetables (.tp)")
    words.add_argument("--co", metavar="F", help="its coordinates (.co, or the .nodes.csv of an importer), without which there is no map")
    words.add_argument("--degrees", action="store_true", help="the coordinates are millionths of a degree, as those of the 9th DIMACS Challenge")
    words.add_argument("--tiles", metavar="URL", help="draw the map on tiles of this address with {z}, {x} and {y}; the browser asks their host then (default: none)")
    words.add_argument("--credit", metavar="TEXT", help="whom the owner of the tiles wants to be named on the map")
    words.add_argument("--names", metavar="F", help="names of nodes: a line for each, in the order of their numbers")
    words.add_argument("--per-second", metavar="N", type=int, help="how many units of time a second has (default: what the first comment of the network says)")
    words.add_argument("--host", default="127.0.0.1", help="the address to listen on (default: %(default)s)")
    words.add_argument("--port", type=int, default=8330, help="the port, 0 for a free one (default: %(default)s)")
    words.add_argument("--threads", type=int, help="how many threads search (default: the number of processors, at most 16)")
    words.add_argument("--queue", type=int, default=256, help="how many requests may wait for a thread; one more gets 503 (default: %(default)s)")
    words.add_argument("--client", type=int, default=256, help="how many requests of one address may be in flight; one more gets 429 (default: %(default)s)")
    words.add_argument("--deadline", type=float, default=30.0, help="seconds after which a request gets 503 (default: %(default)s)")
    words.add_argument("--values", type=int, default=4_000_000, help="the most numbers that one reply may have (default: %(default)s)")
    return words


def main(words: Optional[List[str]] = None) -> int:
    """Runs the service until it is stopped: the status."""
    command = parser()
    asked = command.parse_args(words)
    for name, least in (("port", 0), ("queue", 0), ("client", 1), ("deadline", 0.001), ("values", 1)):
        if getattr(asked, name) < least:
            command.error(f"--{name} has to be at least {least}")
    for name in ("threads", "per_second"):
        if getattr(asked, name) is not None and getattr(asked, name) < 1:
            command.error(f"--{name.replace('_', '-')} has to be at least 1")
    missing = [name for name, package in (("aiohttp", "aiohttp"), ("NumPy", "numpy")) if not _is_there(package)]
    if missing:
        packages = [it.lower() for it in missing]
        sys.stderr.write(f"serve: {' and '.join(missing)} isn't installed: apt-get install {' '.join('python3-' + it for it in packages)}, or pip install {' '.join(packages)}\n")
        return 1
    from . import app
    from .ground import Ground, Refused
    from .._failures import Failure

    try:
        ground = Ground.read(asked.network, asked.tp, asked.co, asked.names, asked.degrees, asked.per_second)
        if asked.tiles:
            ground.put_on(asked.tiles, asked.credit)
        return app.serve(ground, asked)
    except (Refused, Failure, OSError, ImportError) as error:
        sys.stderr.write(f"serve: {error}\n")
        return 1


def _is_there(package: str) -> bool:
    import importlib

    try:
        importlib.import_module(package)
    except ImportError:
        return False
    return True
