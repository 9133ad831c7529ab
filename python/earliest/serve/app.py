"""The service over aiohttp."""
from __future__ import annotations

import asyncio
import ipaddress
import json
import os
import signal
import sys
import time
import traceback
from http import HTTPStatus
from typing import Any, Dict

from aiohttp import web

from .._failures import Failure
from . import openapi
from .asked import Asked, Problem
from .counts import Counts, resident
from .ground import Ground
from .pool import Pool
from .routes import BINARY, GEO, JSON, ROUTES, Route

PAGE = os.path.join(os.path.dirname(os.path.abspath(__file__)), "page")
PARTS = {"index.html": "text/html", "page.css": "text/css", "map.js": "text/javascript", "page.js": "text/javascript"}
LONGEST_LINE = 65_536
"""The longest line of a request, in bytes."""
SMALL = 65_536
"""The most bytes of a small reply."""
HEADERS = {
    "Content-Security-Policy": "default-src 'none'; script-src 'self'; style-src 'self'; connect-src 'self'; img-src 'self' data:; base-uri 'none'; form-action 'none'; frame-ancestors 'none'",
    "X-Content-Type-Options": "nosniff",
    "Referrer-Policy": "no-referrer",
    "Cross-Origin-Resource-Policy": "same-origin",
    "Cache-Control": "no-cache",
}


def headers_with(tiles: str) -> Dict[str, str]:
    """The headers of each reply; with tiles the page may load images of their host, which learns the page's host."""
    if not tiles:
        return HEADERS
    policy = HEADERS["Content-Security-Policy"].replace("img-src 'self' data:", f"img-src 'self' data: {tiles}")
    return {**HEADERS, "Content-Security-Policy": policy, "Referrer-Policy": "strict-origin-when-cross-origin"}


class Service:
    """A ground, its pool, its counts and its limits."""

    def __init__(self, ground: Ground, pool: Pool, values: int, client: int, is_local: bool):
        self.ground, self.pool, self.values, self.client, self.is_local = ground, pool, values, client, is_local
        self.counts, self.stopping, self.of_client = Counts(), False, {}  # type: Counts, bool, Dict[str, int]
        self.headers = headers_with(ground.host_of_tiles)
        self.parts: Dict[str, bytes] = {}
        for name in PARTS:
            with open(os.path.join(PAGE, name), "rb") as file:
                self.parts[name] = file.read()

    def app(self) -> web.Application:
        """The application with its routes."""
        app = web.Application(middlewares=[self.guarded])
        for route in ROUTES:
            app.router.add_get(route.path, self.handler(route))
        app.router.add_get("/", self.page)
        app.router.add_get("/page/{name}", self.part)
        app.router.add_get("/healthz", self.health)
        app.router.add_get("/metrics", self.metrics)
        app.router.add_get("/openapi.json", self.openapi)
        return app

    # Around each request

    @web.middleware
    async def guarded(self, request: web.Request, handler: Any) -> web.StreamResponse:
        """Counts a request, and turns each refusal into a problem (RFC 9457)."""
        began, client = time.monotonic(), request.remote or ""
        resource = request.match_info.route.resource
        name = resource.canonical if resource is not None else "other"
        self.counts.in_flight += 1
        self.of_client[client] = self.of_client.get(client, 0) + 1
        try:
            try:
                self.let_in(request, client)
                response = await handler(request)
            except Exception as error:
                response = self.refused(error)
            response.headers.update({key: value for key, value in self.headers.items() if key not in response.headers})
            if self.stopping:
                response.force_close()
            self.counts.add(name, response.status, time.monotonic() - began)
            await self.sent(request, response)
            return response
        finally:
            self.counts.in_flight -= 1
            self.of_client[client] -= 1
            if not self.of_client[client]:
                del self.of_client[client]

    async def sent(self, request: web.Request, response: Any) -> None:
        """Sends a large reply while its request still counts as in flight, so that readers who don't read take no more memory than the limits
        say. A reader who takes longer than the deadline loses the connection. aiohttp sends a small reply, which the system takes at once."""
        if not isinstance(response.body, bytes) or len(response.body) <= SMALL:
            return
        try:
            await response.prepare(request)
            await asyncio.wait_for(response.write_eof(), self.pool.deadline)
        except (asyncio.TimeoutError, ConnectionError):
            # aiohttp would wait for the next request of a connection that is gone.
            response.force_close()
            if request.transport is not None:
                request.transport.abort()

    def let_in(self, request: web.Request, client: str) -> None:
        """Refuses a request before anything is done for it."""
        if self.is_local and not is_name_of_this_machine(request.host):
            raise Problem(421, "WrongHost", "this service listens on the loopback alone, and the request names another host")
        if request.path in ("/healthz", "/metrics"):
            return
        if self.stopping:
            raise Problem(503, "Stopping", "the service stops", 5)
        if self.of_client[client] > self.client:
            raise Problem(429, "TooManyRequests", f"{self.client} requests of this address are in flight", 1)

    def refused(self, error: Exception) -> web.Response:
        """The reply to a request that failed."""
        if isinstance(error, Problem):
            return problem(error.status, error.name, error.detail, value=error.value, retry=error.retry)
        if isinstance(error, Failure):
            status = 400 if error.number in (18, 19, 23) else 500
            return problem(status, error.name, error._why or error.args[0], number=error.number, value=error.value)
        if isinstance(error, MemoryError):
            return problem(503, "OutOfMemory", "there is not enough memory", number=13, retry=self.pool.retry())
        if isinstance(error, web.HTTPException):
            headers = {"Allow": error.headers["Allow"]} if "Allow" in error.headers else {}
            return problem(error.status, HTTPStatus(error.status).phrase.replace(" ", ""), HTTPStatus(error.status).description or error.reason, headers=headers)
        traceback.print_exception(type(error), error, error.__traceback__)
        return problem(500, "Internal", "the service failed; its log says how")

    # Routes

    def handler(self, route: Route) -> Any:
        """The handler of a route."""
        async def handle(request: web.Request) -> web.Response:
            kind = chosen(request.headers.get("Accept", ""), route.kinds)
            if kind == GEO and self.ground.coordinates is None:
                raise Problem(404, "NoCoordinates", "the service was started without coordinates (--co)")

            def job(work):
                asked = Asked(request.query, route.parameters, self.ground, self.values)
                return route.find(self.ground, asked, work).text(kind)

            body = await self.pool.run(job)
            return web.Response(body=body, content_type=kind, headers={"Vary": "Accept"})

        return handle

    async def page(self, request: web.Request) -> web.Response:
        return web.Response(body=self.parts["index.html"], content_type="text/html", charset="utf-8")

    async def part(self, request: web.Request) -> web.Response:
        name = request.match_info["name"]
        if name not in self.parts:
            raise web.HTTPNotFound()
        return web.Response(body=self.parts[name], content_type=PARTS[name], charset="utf-8")

    async def health(self, request: web.Request) -> web.Response:
        return web.json_response({"status": "stopping" if self.stopping else "ok"}, status=503 if self.stopping else 200)

    async def metrics(self, request: web.Request) -> web.Response:
        pool = self.pool
        text = self.counts.text({
            "earliest_requests_in_flight": ("Requests without a reply yet.", "gauge", self.counts.in_flight),
            "earliest_jobs_inside": ("Requests that search or wait for a thread.", "gauge", pool.inside),
            "earliest_searches_total": ("Searches, those of refused requests too.", "counter", pool.searches),
            "earliest_threads": ("Threads that search.", "gauge", pool.threads),
            "earliest_road_nodes": ("Nodes of the road.", "gauge", self.ground.road.nodes),
            "earliest_road_arcs": ("Arcs of the road.", "gauge", self.ground.road.arcs),
            "process_resident_memory_bytes": ("Memory in use.", "gauge", resident()),
        })
        return web.Response(body=text.encode(), headers={"Content-Type": "text/plain; version=0.0.4; charset=utf-8"})

    async def openapi(self, request: web.Request) -> web.Response:
        return web.json_response(openapi.described())


def problem(status: int, name: str, detail: str, number: Any = None, value: Any = None, retry: int = 0, headers: Any = None) -> web.Response:
    """Problem details."""
    title = HTTPStatus(status).phrase
    told = {"type": "about:blank", "title": title, "status": status, "detail": detail, "name": name}
    for key, it in (("number", number), ("value", value)):
        if it is not None:
            told[key] = it
    more = {**(headers or {}), **({"Retry-After": str(retry)} if retry else {})}
    return web.Response(body=json.dumps(told, default=str).encode(), status=status, content_type="application/problem+json", headers=more)


def chosen(accept: str, kinds: Any) -> str:
    """The form of the reply that `Accept` likes best; the first of equals in the order of the route."""
    if not accept.strip():
        return kinds[0]
    likes = []
    for part in accept.split(","):
        words = [it.strip() for it in part.split(";")]
        quality = 1.0
        for word in words[1:]:
            if word.startswith("q="):
                try:
                    quality = float(word[2:])
                except ValueError:
                    quality = 0.0
        likes.append((words[0].lower(), quality))

    def liked(kind):
        # The most exact of the ranges counts (RFC 9110, section 12.5.1).
        for name in (kind, kind.split("/")[0] + "/*", "*/*"):
            found = [quality for it, quality in likes if it == name]
            if found:
                return max(found)
        return 0.0

    best = max(kinds, key=liked)
    if liked(best) <= 0:
        raise Problem(406, "NotAcceptable", f"the reply is one of {', '.join(kinds)}")
    return best


def is_name_of_this_machine(host: str) -> bool:
    """Whether a Host header names the loopback. Any other name has been made to lead here, by a page of another host (DNS rebinding)."""
    name = host[: host.index("]") + 1] if host.startswith("[") and "]" in host else host.rsplit(":", 1)[0] if ":" in host else host
    return name.lower() == "localhost" or is_loopback(name.strip("[]"))


def is_loopback(host: str) -> bool:
    """Whether an address is one of the loopback."""
    try:
        return ipaddress.ip_address(host).is_loopback
    except ValueError:
        return host.lower() == "localhost"


def serve(ground: Ground, asked: Any) -> int:
    """Runs the service with the words of the command line until a signal stops it."""
    return asyncio.run(_run(ground, asked))


async def _run(ground: Ground, asked: Any) -> int:
    pool = Pool(ground.road, asked.threads, asked.queue, asked.deadline)
    service = Service(ground, pool, asked.values, asked.client, is_loopback(asked.host))
    runner = web.AppRunner(service.app(), access_log=None, handle_signals=False, max_line_size=LONGEST_LINE, max_field_size=8190)
    await runner.setup()
    stop, loop = asyncio.Event(), asyncio.get_running_loop()
    for number in (signal.SIGTERM, signal.SIGINT):
        loop.add_signal_handler(number, stop.set)
    try:
        await web.TCPSite(runner, asked.host, asked.port).start()
        host, port = runner.addresses[0][:2]
        print(f"http://{f'[{host}]' if ':' in host else host}:{port}/", flush=True)
        if not service.is_local:
            sys.stderr.write("serve: anyone who reaches this address may ask; see the guide's page on the service\n")
        await stop.wait()
        service.stopping = True
        # Requests in flight finish; each ends by its deadline.
        until = time.monotonic() + asked.deadline + 1
        while (service.counts.in_flight or pool.inside) and time.monotonic() < until:
            await asyncio.sleep(0.02)
    finally:
        await runner.cleanup()
        pool.close()
    return 0
