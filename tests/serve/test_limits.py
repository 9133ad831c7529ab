"""Limits: sizes, deadlines, the queue, requests of one address."""
import concurrent.futures
import socket
import time
import unittest

from served import COMMUTER, LONG, Served, commuter, example, needs

ROAD = (example("road.gr"), "--tp", example("road.tp"), "--threads", "1")


def at_once(service, count, path, **query):
    """Requests at the same time: their statuses, and the headers of those that were refused."""
    with concurrent.futures.ThreadPoolExecutor(count) as many:
        replies = list(many.map(lambda _: service.get(path, "application/octet-stream", **query), range(count)))
    return [it[0] for it in replies], [it[1] for it in replies if it[0] != 200], replies


@needs("aiohttp", "numpy")
class Limits(unittest.TestCase):
    def test_sizes(self):
        with Served(*COMMUTER, "--values", "600") as service:
            self.assertEqual(len(service.json("/v1/matrix", sources="1,2")["arrivals"]), 2)
            for path, query in (("/v1/matrix", {"sources": "1-3"}), ("/v1/arrivals", {"source": 1, "nodes": ["1-300", "1-300", "1"]}),
                                ("/v1/pairs", {"sources": 1, "targets": ["1-300", "1-300", "1"]}), ("/v1/matrix", {"sources": "1-300", "nodes": "1-3"})):
                status, _, told = service.problem(path, **query)
                self.assertEqual((status, told["name"]), (413, "TooLarge"), path)
            status, _, _ = service.get("/v1/arrivals?source=1&nodes=" + "1," * 40_000 + "1")
            self.assertEqual(status, 400)
            self.assertEqual(service.json("/healthz"), {"status": "ok"})

    def test_a_deadline(self):
        with Served(*ROAD, "--deadline", "0.2") as service:
            status, headers, told = service.problem("/v1/matrix", sources="1-1900")
            self.assertEqual((status, told["name"]), (503, "DeadlinePassed"))
            self.assertGreaterEqual(int(headers["Retry-After"]), 1)
            # The thread has left the request, and serves the next ones, on a busy machine not at once.
            until = time.monotonic() + LONG
            while service.get("/v1/network")[0] != 200:
                self.assertLess(time.monotonic(), until)

    def test_a_full_queue(self):
        with Served(*ROAD, "--queue", "2") as service:
            statuses, refused, _ = at_once(service, 12, "/v1/matrix", sources="1-800")
            self.assertEqual(set(statuses), {200, 503})
            self.assertGreaterEqual(statuses.count(200), 3)
            for headers in refused:
                self.assertGreaterEqual(int(headers["Retry-After"]), 1)
                self.assertEqual(headers.get_content_type(), "application/problem+json")
            self.assertEqual(service.metric("earliest_jobs_inside"), 0)

    def test_requests_of_one_address(self):
        with Served(*ROAD, "--client", "3") as service:
            statuses, refused, _ = at_once(service, 12, "/v1/matrix", sources="1-800")
            self.assertEqual(set(statuses), {200, 429})
            self.assertTrue(all(int(it["Retry-After"]) >= 1 for it in refused))
            self.assertEqual(service.get("/v1/network")[0], 200)

    def test_a_reader_who_does_not_read(self):
        with Served(*ROAD, "--deadline", "8") as service, socket.create_connection(("127.0.0.1", service.port), LONG) as line:
            # More than the buffers of the system hold.
            line.sendall(b"GET /v1/arrivals?source=1" + b"&nodes=1-2025" * 1900 + b" HTTP/1.1\r\nHost: localhost\r\nAccept: application/octet-stream\r\n\r\n")
            self.assertTrue(line.recv(15).startswith(b"HTTP/1.1 200"))
            self.assertEqual(service.metric("earliest_jobs_inside"), 0)
            # The last request in flight is that for the metrics.
            until = time.monotonic() + LONG
            while service.metric("earliest_requests_in_flight") > 1:
                self.assertLess(time.monotonic(), until)
                time.sleep(0.1)
            count = 15
            try:
                while count < 8 * 1900 * 2025:
                    found = len(line.recv(1 << 20))
                    if not found:
                        break
                    count += found
            except ConnectionError:
                pass
            self.assertLess(count, 8 * 1900 * 2025)

    def test_threads_share_the_road(self):
        with Served(*COMMUTER, "--threads", "4") as service:
            _, _, replies = at_once(service, 24, "/v1/arrivals", source=225, departure=29400)
            wanted = b"".join(it.to_bytes(8, "little") for it in commuter(225, 29400))
            self.assertEqual([it[2] == wanted for it in replies], [True] * 24)
