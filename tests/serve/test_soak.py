"""Thousands of requests over some connections with faults among them: none wrong, none lost, no memory gained."""
import asyncio
import json
import random
import time
import unittest

from served import COMMUTER, Served, commuter, needs

COUNT = 10_000
LIMIT = 20.0
"""Seconds after which no further request is sent."""
LINES = 8
MOST_GAINED = 24 * 2**20
"""Bytes: a leak of 5 KB a request would be 50 MB."""


def questions(count):
    """Requests with what their replies have to be: a path, and the status with the body or with the name of the problem."""
    rolls, starts = random.Random(62), [(source, time) for source in (1, 100, 225) for time in (0, 27600, 29400)]
    for _ in range(count):
        (source, departure), kind = rolls.choice(starts), rolls.randrange(10)
        node = rolls.randrange(1, 301)
        arrival = commuter(source, departure)[node - 1]
        if kind < 4:
            yield f"/v1/pairs?sources={source}&targets={node}&departures={departure}", 200, {"sources": [source], "targets": [node], "departures": [departure], "arrivals": [arrival]}
        elif kind < 7:
            yield f"/v1/arrivals?source={source}&departure={departure}", 200, {"source": source, "departure": departure, "arrivals": commuter(source, departure)}
        elif kind == 7:
            yield f"/v1/arrivals?source={300 + node}&departure={departure}", 400, "NoSuchNode"
        elif kind == 8:
            yield f"/v1/pairs?sources={source}&targets={node}&departures=x{departure}", 400, "BadParameter"
        else:
            yield f"/v1/matrix?sources={source},{source}&departures=1,2,{node}", 400, "LengthsDiffer"


async def ask(port, untaken, until, faults):
    """Sends requests over one connection until none is left: how many had the right reply, how many a wrong one. Every 50th connection is
    closed in the middle of a request."""
    right = wrong = sent = 0
    reader = writer = None
    for path, status, wanted in untaken:
        if time.monotonic() > until:
            break
        if writer is None:
            reader, writer = await asyncio.open_connection("127.0.0.1", port)
        sent += 1
        if sent % 50 == 0:
            writer.write(f"GET {path} HTTP/1.1\r\nHost: local".encode())
            writer.close()
            faults.append("cut")
            reader, writer = await asyncio.open_connection("127.0.0.1", port)
        elif sent % 53 == 0:
            writer.write(f"GET {path} HTTP/1.1\r\nHost: localhost\r\n\r\n".encode())
            await writer.drain()
            writer.close()
            faults.append("left")
            reader, writer = await asyncio.open_connection("127.0.0.1", port)
        writer.write(f"GET {path} HTTP/1.1\r\nHost: localhost\r\n\r\n".encode())
        head = (await reader.readuntil(b"\r\n\r\n")).decode().lower()
        length = int(head.split("content-length:")[1].split("\r\n")[0])
        body = json.loads(await reader.readexactly(length))
        good = int(head.split()[1]) == status and (body == wanted if status == 200 else body["name"] == wanted)
        right, wrong = right + good, wrong + (not good)
        if "connection: close" in head:
            writer.close()
            writer = None
    if writer is not None:
        writer.close()
    return right, wrong


async def soak(port, count, limit, lines=LINES):
    """Many requests: those with the right reply, those with a wrong one, and connections that were cut."""
    untaken, until, faults = iter(list(questions(count))), time.monotonic() + limit, []
    ends = await asyncio.gather(*(ask(port, untaken, until, faults) for _ in range(lines)))
    return sum(it[0] for it in ends), sum(it[1] for it in ends), len(faults)


@needs("aiohttp", "numpy")
class Soak(unittest.TestCase):
    def test_none_wrong_none_lost_no_memory_gained(self):
        with Served(*COMMUTER, "--threads", "2") as service:
            asyncio.run(soak(service.port, 400, LIMIT))
            before = service.metric("process_resident_memory_bytes")
            began = time.monotonic()
            right, wrong, faults = asyncio.run(soak(service.port, COUNT, LIMIT))
            print(f"soak: {right} right replies, {wrong} wrong, {faults} connections cut, {time.monotonic() - began:.0f} s", flush=True)
            gained = service.metric("process_resident_memory_bytes") - before
            self.assertEqual(wrong, 0)
            self.assertGreater(faults, 0)
            self.assertTrue(right == COUNT or right > 0 and time.monotonic() - began >= LIMIT)
            self.assertLess(gained, MOST_GAINED)
            self.assertEqual(service.metric("earliest_jobs_inside"), 0)
            self.assertEqual(service.stop(), 0)
            # aiohttp may write a message about a connection that was cut; the service has nothing to say.
            self.assertNotIn("earliest", service.log())
