"""The HTTP service under load: python3 bench/serve.py [--nodes N] [--seconds S] [--flight F] [--threads T] [--soak COUNT] [--page]

Makes a grid of about N nodes with a morning rush, serves it on the loopback, and asks by wrk for random pairs with F requests in flight for S
seconds. It prints requests in a second, and the latency at the 50th, 99th and 99.9th of 100 in milliseconds. --soak sends COUNT requests with
faults among them to the commuter town and compares each reply with the program's report. --page drags the departure in chromium, and prints
the milliseconds of a step: the request, and the painting. Needs python3-aiohttp, python3-numpy and wrk, with --page python3-selenium and
chromium-driver. Run it on a machine that does nothing else.
"""
import argparse
import asyncio
import os
import random
import re
import shutil
import statistics
import subprocess
import sys
import tempfile
import time

HERE = os.path.dirname(os.path.abspath(__file__))
ROOT = os.path.normpath(os.path.join(HERE, ".."))
sys.path[:0] = [os.path.join(ROOT, "python"), os.path.join(ROOT, "tests", "serve")]
MOST_SECONDS = 60

LUA = """
local nodes, low = {nodes}, 0
function init(args) math.randomseed(os.time()) end
function request()
  return wrk.format("GET", string.format("/v1/pairs?sources=%d&targets=%d&departures=%d", math.random(nodes), math.random(nodes), math.random(0, 86399)))
end
function done(summary, latency, requests)
  local wrong = summary.errors.connect + summary.errors.read + summary.errors.write + summary.errors.status + summary.errors.timeout
  io.write(string.format("result %d %d %d %.0f %.0f %.0f\\n", summary.requests, wrong, summary.duration, latency:percentile(50), latency:percentile(99), latency:percentile(99.9)))
end
"""


def written(folder, side):
    """Writes a grid of streets both ways with its coordinates, of which each third arc is slower in the morning rush."""
    rolls, arcs, slow = random.Random(side), [], []
    for node in range(1, side * side + 1):
        for other in ([node + 1] if node % side else []) + ([node + side] if node + side <= side * side else []):
            for tail, head in ((node, other), (other, node)):
                arcs.append(f"a {tail} {head} {rolls.randint(5, 90)}\n")
                if len(arcs) % 3 == 0:
                    slow.append(len(arcs))
    texts = {
        "net.gr": f"c time unit: 1/1 s\np sp {side * side} {len(arcs)}\n" + "".join(arcs),
        "net.co": f"p aux sp co {side * side}\n" + "".join(f"v {node} {(node - 1) % side * 100} {(node - 1) // side * 100}\n" for node in range(1, side * side + 1)),
        "net.tp": f"p tp 1 {len(slow)}\nk 1 speeds 86400 4\nv 0 1000\nv 25200 400\nv 30600 700\nv 34200 1000\n" + "".join(f"t {arc} 1\n" for arc in slow),
    }
    for name, text in texts.items():
        with open(os.path.join(folder, name), "w", encoding="ascii") as file:
            file.write(text)
    return side * side


def loaded(room, nodes, asked, served):
    """The figures of wrk."""
    script = os.path.join(room, "pairs.lua")
    with open(script, "w", encoding="ascii") as file:
        file.write(LUA.replace("{nodes}", str(nodes)))
    words = ["wrk", "-t", "2", "-c", str(asked.flight), "-d", f"{asked.seconds}s", "--timeout", "60s", "-s", script, served.url]
    ran = subprocess.run(words, capture_output=True, text=True, check=True, timeout=asked.seconds + 120)
    requests, wrong, micros, *latencies = map(int, re.search(r"(?m)^result (.*)$", ran.stdout)[1].split())
    print(f"{asked.flight} pairs in flight, {asked.seconds} s: {requests / (micros / 1e6):.0f} requests in a second, {wrong} failed")
    for at, latency in zip(("50", "99", "99.9"), latencies):
        print(f"latency at the {at}th of 100: {latency / 1000:.1f} ms")
    return wrong


def soaked(count, served_of):
    """Requests with faults among them: none wrong, none lost, no memory gained."""
    import test_soak

    with served_of.Served(*served_of.COMMUTER) as service:
        asyncio.run(test_soak.soak(service.port, 2000, 600))
        before, began = service.metric("process_resident_memory_bytes"), time.monotonic()
        right, wrong, faults = asyncio.run(test_soak.soak(service.port, count, 3600))
        gained = service.metric("process_resident_memory_bytes") - before
        print(f"soak: {right} right replies, {wrong} wrong, {count - right - wrong} lost, {faults} connections cut, {gained / 2**20:.1f} MiB gained, {time.monotonic() - began:.0f} s")
        return wrong + (count - right - wrong)


def dragged(service, nodes):
    """The milliseconds of a step of the departure in chromium."""
    import test_browser

    with tempfile.TemporaryDirectory(prefix="browser-", ignore_cleanup_errors=True) as room:
        driver = test_browser.browser(room)
        try:
            page = test_browser.Page(driver)
            page.open(service.url + f"#source={nodes // 2}&departure=0")
            steps = []
            for departure in range(25200, 32400, 240):
                page.run("const it = document.getElementById('departure'); it.value = arguments[0]; it.dispatchEvent(new Event('input'))", departure)
                page.ready(departure)
                time.sleep(0.1)
                steps.append(page.run("const it = window.earliest.times(); return [it.taken, it.painted]"))
        finally:
            driver.quit()
    for at, what in enumerate(("request", "painting")):
        found = sorted(step[at] for step in steps)
        print(f"page, {what}: {statistics.median(found):.0f} ms, at most {found[-1]:.0f} ms, over {len(found)} steps")


def main():
    words = argparse.ArgumentParser(description=__doc__.split("\n")[0])
    for name, value in (("nodes", 10**5), ("seconds", 10), ("flight", 100), ("soak", 0)):
        words.add_argument("--" + name, type=int, default=value)
    words.add_argument("--threads", type=int)
    words.add_argument("--page", action="store_true")
    asked = words.parse_args()
    if not 0 <= asked.seconds <= MOST_SECONDS:
        words.error(f"--seconds is at most {MOST_SECONDS}")
    os.environ.update(PYTHONPATH=os.path.join(ROOT, "python"), PYTHONDONTWRITEBYTECODE="1")
    os.environ.setdefault("EARLIEST_LIBRARY", os.path.join(ROOT, "python", "earliest", "libearliest.so"))
    os.environ.setdefault("EARLIEST_PROGRAM", os.path.join(ROOT, "bin", "earliest"))
    if not shutil.which("wrk"):
        sys.exit("wrk isn't installed: apt-get install wrk")
    import served

    wrong = 0
    with tempfile.TemporaryDirectory(prefix="serve-") as room:
        nodes = written(room, round(asked.nodes**0.5))
        paths = {it: os.path.join(room, "net." + it) for it in ("gr", "tp", "co")}
        with served.Served(paths["gr"], "--tp", paths["tp"], "--co", paths["co"], *(["--threads", str(asked.threads)] if asked.threads else [])) as service:
            print(f"{nodes} nodes, {service.json('/v1/network')['arcs']} arcs, {service.metric('earliest_threads'):.0f} threads")
            if asked.seconds:
                wrong += loaded(room, nodes, asked, service)
            if asked.page:
                dragged(service, nodes)
    if asked.soak:
        wrong += soaked(asked.soak, served)
    return 1 if wrong else 0


if __name__ == "__main__":
    sys.exit(main())
