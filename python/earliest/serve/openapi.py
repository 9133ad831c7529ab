"""The OpenAPI description of the routes."""
from __future__ import annotations

from typing import Any, Dict

from .._library import HORIZON
from .._version import VERSION
from .asked import KINDS, Parameter
from .routes import BINARY, GEO, JSON, ROUTES, Route

SCHEMAS = {
    "node": {"type": "string"}, "nodes": {"type": "string"}, "times": {"type": "string"}, "number": {"type": "number"}, "flag": {"type": "boolean"},
    "time": {"type": "integer", "minimum": 0, "maximum": HORIZON}, "length": {"type": "integer", "minimum": 1, "maximum": HORIZON},
}
FAULTS = {
    "400": "a parameter is wrong: number and name of the engine, if the engine has one",
    "404": "the service has no such data",
    "406": "the reply has none of the forms that Accept names",
    "413": "the reply would be too large",
    "429": "too many requests of this address are in flight; Retry-After says when to come again",
    "500": "the service failed",
    "503": "the queue is full, the deadline has passed, or the service stops; Retry-After says when to come again",
}
OTHERS = {
    "/": ("The page with the map", "text/html"),
    "/healthz": ("Whether the service runs", JSON),
    "/metrics": ("Counts and times for Prometheus", "text/plain"),
    "/openapi.json": ("This description", JSON),
    "/page/{name}": ("The parts of the page", "text/javascript"),
}


def described() -> Dict[str, Any]:
    """The description."""
    paths = {it.path: {"get": _operation(it)} for it in ROUTES}
    for path, (about, kind) in OTHERS.items():
        words = [{"name": "name", "in": "path", "required": True, "schema": {"type": "string"}, "example": "map.js"}] if "{name}" in path else []
        paths[path] = {"get": {"summary": about, "parameters": words, "responses": {"200": {"description": about, "content": {kind: {}}}}}}
    return {
        "openapi": "3.0.3",
        "info": {"title": "earliest", "version": VERSION, "description": "Earliest arrivals in a road network whose travel times depend on the departure."},
        "paths": paths,
        "components": {"schemas": {"Problem": _problem()}},
    }


def _operation(route: Route) -> Dict[str, Any]:
    forms: Dict[str, Any] = {}
    for kind in route.kinds:
        forms[kind] = {"schema": {JSON: route.schema, GEO: {"type": "object"}, BINARY: {"type": "string", "format": "binary"}}[kind]}
    responses = {"200": {"description": route.about, "content": forms}}
    for status, about in FAULTS.items():
        responses[status] = {"description": about, "content": {"application/problem+json": {"schema": {"$ref": "#/components/schemas/Problem"}}}}
    return {"summary": route.about, "parameters": [_parameter(it) for it in route.parameters], "responses": responses}


def _parameter(it: Parameter) -> Dict[str, Any]:
    return {"name": it.name, "in": "query", "required": it.needed, "description": f"{it.about} ({KINDS[it.kind]})", "schema": SCHEMAS[it.kind], "example": it.example}


def _problem() -> Dict[str, Any]:
    return {
        "type": "object",
        "required": ["type", "title", "status", "detail", "name"],
        "properties": {
            "type": {"type": "string"}, "title": {"type": "string"}, "status": {"type": "integer"}, "detail": {"type": "string"},
            "number": {"type": "integer", "description": "the engine's number of the refusal"}, "name": {"type": "string", "description": "its name"},
            "value": {"description": "what was refused"},
        },
    }
