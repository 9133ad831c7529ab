"""A service in a process, requests to it, and what the program reports for the same files."""
import functools
import http.client
import importlib
import json
import os
import re
import shutil
import signal
import subprocess
import sys
import tempfile
import unittest
import warnings
from urllib.parse import urlencode

ROOT = os.path.normpath(os.path.join(os.path.dirname(os.path.abspath(__file__)), "..", ".."))
EXAMPLES = os.path.join(ROOT, "examples")
LIBRARIES = ("numpy", "aiohttp", "selenium", "dask", "distributed")
BROWSERS = ("chromium", "chromedriver")
NEVER = 2**64 - 1
LONG = 60
"""Seconds after which a test gives up on a service: long enough for a machine with other work."""


@functools.lru_cache(maxsize=None)
def module(name):
    """A library, or None if it is missing."""
    try:
        with warnings.catch_warnings():
            warnings.simplefilter("ignore")
            return importlib.import_module(name)
    except ImportError:
        return None


def found():
    """A line with the libraries and programs that were found."""
    lines = [f"{name} {getattr(module(name), '__version__', '')}" if module(name) else f"no {name}" for name in LIBRARIES]
    return "with " + ", ".join([f"Python {sys.version.split()[0]}", *lines, *(it if shutil.which(it) else f"no {it}" for it in BROWSERS)])


def needs(*names):
    """A decorator of tests that need these libraries and programs."""
    missing = [it for it in names if not (shutil.which(it) if it in BROWSERS else module(it))]
    packages = [{"chromedriver": "chromium-driver", "chromium": "chromium"}.get(it, "python3-" + it) for it in missing]
    return unittest.skipIf(missing, f"no {', '.join(missing)} (apt-get install {' '.join(packages)})")


def example(name):
    return os.path.join(EXAMPLES, name)


COMMUTER = (example("commuter.gr"), "--tp", example("commuter.tp"), "--co", example("commuter.co"), "--per-second", "1")


class Served:
    """`python -m earliest serve` with some words, on a free port."""

    def __init__(self, *words):
        self.errors = tempfile.TemporaryFile()
        self.process = subprocess.Popen([sys.executable, "-m", "earliest", "serve", *words, "--port", "0"], stdout=subprocess.PIPE, stderr=self.errors, text=True)
        self.url = self.process.stdout.readline().strip()
        self.port = int(self.url.rstrip("/").rsplit(":", 1)[1]) if self.url else None
        if not self.url:
            self.stop()
            raise AssertionError(f"the service didn't start: {self.log()}")

    def __enter__(self):
        return self

    def __exit__(self, *_):
        self.stop()

    def log(self):
        """What it wrote to standard error."""
        self.errors.seek(0)
        return self.errors.read().decode(errors="replace")

    def stop(self, number=signal.SIGTERM):
        """Stops it: its status."""
        if self.process.poll() is None:
            self.process.send_signal(number)
        try:
            return self.process.wait(LONG)
        except subprocess.TimeoutExpired:
            self.process.kill()
            raise
        finally:
            self.process.stdout.close()

    def get(self, path, accept=None, method="GET", headers=None, **query):
        """A request: status, headers and body."""
        line = http.client.HTTPConnection("127.0.0.1", self.port, timeout=LONG)
        try:
            line.request(method, path + ("?" + urlencode(query, doseq=True) if query else ""), headers={**({"Accept": accept} if accept else {}), **(headers or {})})
            reply = line.getresponse()
            return reply.status, reply.headers, reply.read()
        finally:
            line.close()

    def json(self, path, **query):
        """The value of a reply that has to be good."""
        status, _, body = self.get(path, **query)
        if status != 200:
            raise AssertionError(f"{path} {query}: {status} {body[:300]!r}")
        return json.loads(body)

    def problem(self, path, **query):
        """The problem details of a request that has to be refused: status, headers, value."""
        status, headers, body = self.get(path, **query)
        if headers.get_content_type() != "application/problem+json":
            raise AssertionError(f"{path} {query}: {status} {headers.get_content_type()}")
        return status, headers, json.loads(body)

    def metric(self, name):
        """A number of /metrics."""
        text = self.get("/metrics")[2].decode()
        return float(re.search(rf"(?m)^{re.escape(name)} (\S+)$", text)[1])


def program(*words):
    """What the program writes."""
    return subprocess.run([os.environ["EARLIEST_PROGRAM"], *words], cwd=EXAMPLES, stdin=subprocess.DEVNULL, capture_output=True, text=True, check=True, timeout=LONG).stdout


@functools.lru_cache(maxsize=None)
def commuter(source, departure):
    """The arrivals in the commuter town by the program: None for a node that is not reached, the first for node 1."""
    with tempfile.TemporaryDirectory(prefix="serve-") as room:
        sources = os.path.join(room, "one.ss")
        with open(sources, "w", encoding="ascii") as file:
            file.write(f"p aux sp ss 1\ns {source}\n")
        report = program("run", "commuter.gr", sources, "--tp", "commuter.tp", "--depart", str(departure))
    return [None if it == "inf" else int(it) for it in re.findall(r"(?m)^d \d+ (\S+)$", report)]


@functools.lru_cache(maxsize=None)
def commuter_until(target, arrival):
    """The latest departures in the commuter town by the program: None if no departure is in time, the first for node 1."""
    with tempfile.TemporaryDirectory(prefix="serve-") as room:
        targets = os.path.join(room, "one.ss")
        with open(targets, "w", encoding="ascii") as file:
            file.write(f"p aux sp ss 1\ns {target}\n")
        report = program("run", "commuter.gr", targets, "--tp", "commuter.tp", "--arrive", str(arrival))
    return [None if it == "none" else int(it) for it in re.findall(r"(?m)^d \d+ (\S+)$", report)]


@functools.lru_cache(maxsize=None)
def places(name="commuter.co"):
    """The coordinates of an example: a pair for each node, the first that of node 1."""
    with open(example(name), encoding="ascii") as file:
        rows = [line.split() for line in file if line.startswith("v ")]
    found = {int(row[1]): (int(row[2]), int(row[3])) for row in rows}
    return [found[node] for node in range(1, len(found) + 1)]
