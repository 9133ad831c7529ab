"""What the routes return: equal to the program's reports, in each form."""
import array
import json
import math
import os
import signal
import socket
import subprocess
import sys
import tempfile
import threading
import time
import unittest

from served import COMMUTER, LONG, NEVER, ROOT, Served, commuter, commuter_until, example, needs, places, program

JSON, GEO, BINARY = "application/json", "application/geo+json", "application/octet-stream"


def times_of(body):
    """The times of a binary reply."""
    found = array.array("Q", body)
    if sys.byteorder == "big":
        found.byteswap()
    return [None if it == NEVER else it for it in found]


@needs("aiohttp", "numpy")
class Routes(unittest.TestCase):
    @classmethod
    def setUpClass(cls):
        cls.service = Served(*COMMUTER, "--threads", "2")

    @classmethod
    def tearDownClass(cls):
        status, log = cls.service.stop(), cls.service.log()
        assert (status, log) == (0, ""), (status, log)

    def test_arrivals_in_each_form(self):
        for source, departure in ((225, 29400), (1, 0), (300, 64800)):
            wanted = commuter(source, departure)
            got = self.service.json("/v1/arrivals", source=source, departure=departure)
            self.assertEqual((got["source"], got["departure"], got["arrivals"]), (source, departure, wanted))
            status, headers, body = self.service.get("/v1/arrivals", BINARY, source=source, departure=departure)
            self.assertEqual((status, headers["Content-Type"], len(body)), (200, BINARY, 8 * 300))
            self.assertEqual(times_of(body), wanted)
            status, headers, body = self.service.get("/v1/arrivals", GEO, source=source, departure=departure)
            features = json.loads(body)["features"]
            self.assertEqual((status, headers["Content-Type"]), (200, GEO))
            self.assertEqual([(it["properties"]["arrival"], it["properties"]["duration"]) for it in features], [(it, it - departure) for it in wanted])
            self.assertEqual([tuple(it["geometry"]["coordinates"]) for it in features], places())

    def test_arrivals_at_some_nodes(self):
        got = self.service.json("/v1/arrivals", source=225, departure=29400, nodes="236,5-7,236")
        wanted = commuter(225, 29400)
        self.assertEqual(got["nodes"], [236, 5, 6, 7, 236])
        self.assertEqual(got["arrivals"], [wanted[node - 1] for node in got["nodes"]])
        repeated = self.service.json("/v1/arrivals", source=225, departure=29400, nodes=["236", "5-7", "236"])
        self.assertEqual(repeated, got)

    def test_a_node_that_is_not_reached(self):
        with Served(example("loop-and-unreached.gr")) as service:
            report = program("run", "loop-and-unreached.gr", "four-nodes.ss")
            wanted = [None if line.endswith("inf") else int(line.split()[2]) for line in report.splitlines() if line.startswith("d")]
            self.assertIn(None, wanted)
            self.assertEqual(service.json("/v1/arrivals", source=1)["arrivals"], wanted)
            self.assertEqual(times_of(service.get("/v1/arrivals", BINARY, source=1)[2]), wanted)
            node = wanted.index(None) + 1
            self.assertEqual(service.json("/v1/pairs", sources=1, targets=node, walks="true")["walks"], [None])
            self.assertIn(node, service.json("/v1/isochrones", source=1)["never"])
            for path, accept in (("/v1/nearest", None), ("/v1/network/coordinates", None), ("/v1/arrivals", GEO)):
                query = {"x": 1, "y": 2} if path == "/v1/nearest" else {} if accept is None else {"source": 1}
                status, _, told = service.problem(path, accept=accept, **query)
                self.assertEqual((status, told["name"]), (404, "NoCoordinates"))

    def test_pairs_and_walks(self):
        report = program("pairs", "commuter.gr", "commuter.p2p", "--tp", "commuter.tp", "--depart", "27600", "--gap", "1800", "--walks")
        wanted, arcs = [], []
        for line in report.splitlines():
            fields = line.split()
            if fields[0] == "d":
                wanted.append(int(fields[2]))
            elif fields[0] == "w":
                arcs.append([int(it) for it in fields[3:]])
        got = self.service.json("/v1/pairs", sources="225,225", targets="236,236", departures="27600,29400", walks="true")
        self.assertEqual((got["arrivals"], [it["arcs"] for it in got["walks"]]), (wanted, arcs))
        with open(example("commuter.gr"), encoding="ascii") as file:
            ends = [tuple(map(int, line.split()[1:3])) for line in file if line.startswith("a ")]
        for walk in got["walks"]:
            self.assertEqual([tuple(it) for it in zip(walk["nodes"], walk["nodes"][1:])], [ends[arc - 1] for arc in walk["arcs"]])
            self.assertEqual((walk["nodes"][0], walk["nodes"][-1]), (225, 236))
        self.assertEqual(times_of(self.service.get("/v1/pairs", BINARY, sources=225, targets=236, departures="27600,29400")[2]), wanted)
        lines = json.loads(self.service.get("/v1/pairs", GEO, sources=225, targets=236, departures="27600,29400", walks="true")[2])["features"]
        self.assertEqual([[tuple(it) for it in line["geometry"]["coordinates"]] for line in lines], [[places()[node - 1] for node in walk["nodes"]] for walk in got["walks"]])

    def test_one_value_for_all_pairs(self):
        got = self.service.json("/v1/pairs", sources=225, targets="1-300", departures=29400)
        self.assertEqual((got["sources"], got["arrivals"]), ([225] * 300, commuter(225, 29400)))
        got = self.service.json("/v1/pairs", sources="225,1", targets=236, departures=29400)
        self.assertEqual(got["arrivals"], [commuter(225, 29400)[235], commuter(1, 29400)[235]])

    def test_latest(self):
        got = self.service.json("/v1/latest", sources=225, targets=236, arrivals="30600,500,50000")
        self.assertEqual(got["departures"], [commuter_until(236, by)[224] for by in (30600, 500, 50000)])
        self.assertEqual(got["departures"][1], None)
        for by, departure in ((30600, got["departures"][0]), (50000, got["departures"][2])):
            self.assertLessEqual(commuter(225, departure)[235], by)
            self.assertGreater(commuter(225, departure + 1)[235], by)
        self.assertGreater(commuter(225, 0)[235], 500)

    def test_departures(self):
        for target, by in ((236, 30600), (1, 0), (300, 86399)):
            wanted = commuter_until(target, by)
            got = self.service.json("/v1/departures", target=target, arrival=by)
            self.assertEqual((got["target"], got["arrival"], got["departures"]), (target, by, wanted))
            self.assertEqual(times_of(self.service.get("/v1/departures", BINARY, target=target, arrival=by)[2]), wanted)
            features = json.loads(self.service.get("/v1/departures", GEO, target=target, arrival=by)[2])["features"]
            self.assertEqual([(it["properties"]["departure"], it["properties"]["duration"]) for it in features], [(it, None if it is None else by - it) for it in wanted])
        got = self.service.json("/v1/departures", target=236, arrival=30600, nodes="225,1-2")
        self.assertEqual((got["nodes"], got["departures"]), ([225, 1, 2], [commuter_until(236, 30600)[node - 1] for node in (225, 1, 2)]))
        self.assertIn(None, commuter_until(1, 0))
        for words, name in (({"target": 236}, "MissingParameter"), ({"target": 301, "arrival": 5}, "NoSuchNode"), ({"target": 1, "arrival": 2**48}, "BeyondHorizon")):
            self.assertEqual(self.service.problem("/v1/departures", **words)[2]["name"], name)

    def test_matrix(self):
        got = self.service.json("/v1/matrix", sources="225,1,100", departures="29400,0,64800", nodes="236,300")
        wanted = [[commuter(source, time)[node - 1] for node in (236, 300)] for source, time in ((225, 29400), (1, 0), (100, 64800))]
        self.assertEqual(got["arrivals"], wanted)
        body = self.service.get("/v1/matrix", BINARY, sources="225,1", departures=29400)[2]
        self.assertEqual(times_of(body), commuter(225, 29400) + commuter(1, 29400))

    def test_nearest(self):
        for x, y in ((0, 0), (1234.5, 678.9), (-50, 2000), (950, 950)):
            distances = [math.hypot(x - its[0], y - its[1]) for its in places()]
            got = self.service.json("/v1/nearest", x=x, y=y)
            self.assertEqual(got["node"], distances.index(min(distances)) + 1)
            self.assertAlmostEqual(got["distance"], min(distances), places=6)
            self.assertEqual(times_of(self.service.get("/v1/nearest", BINARY, x=x, y=y)[2]), [got["node"]])

    def test_isochrones(self):
        wanted = commuter(225, 29400)
        got = self.service.json("/v1/isochrones", source=225, departure=29400, band=300)
        bands = {}
        for node, arrival in enumerate(wanted, 1):
            bands.setdefault((arrival - 29400) // 300, []).append(node)
        self.assertEqual({it["from"] // 300: it["nodes"] for it in got["bands"] if it["nodes"]}, bands)
        self.assertEqual(times_of(self.service.get("/v1/isochrones", BINARY, source=225, departure=29400, band=300)[2]), [(it - 29400) // 300 for it in wanted])
        features = json.loads(self.service.get("/v1/isochrones", GEO, source=225, departure=29400, band=300)[2])["features"]
        self.assertEqual([len(it["geometry"]["coordinates"]) for it in features], [len(it["nodes"]) for it in got["bands"]])
        self.assertEqual(len(self.service.json("/v1/isochrones", source=225, departure=29400)["bands"]), 8)

    def test_network(self):
        got = self.service.json("/v1/network")
        self.assertEqual((got["nodes"], got["arcs"], got["per_second"], got["coordinates"], got["degrees"]), (300, 1104, 1, True, False))
        with open(example("commuter.gr"), encoding="ascii") as file:
            ends = [int(it) for line in file if line.startswith("a ") for it in line.split()[1:3]]
        body = self.service.get("/v1/network/arcs", BINARY)[2]
        self.assertEqual([int.from_bytes(body[at : at + 4], "little") for at in range(0, len(body), 4)], ends)
        body = array.array("d", self.service.get("/v1/network/coordinates", BINARY)[2])
        self.assertEqual([tuple(body[at : at + 2]) for at in range(0, len(body), 2)], places())

    def test_the_form_follows_accept(self):
        for accept, wanted in ((None, JSON), ("*/*", JSON), ("text/html,application/xml;q=0.9,*/*;q=0.8", JSON), ("application/octet-stream, application/json;q=0.5", BINARY),
                               ("application/json;q=0.1, application/geo+json", GEO), ("application/*;q=0.2, application/json;q=0", GEO)):
            status, headers, _ = self.service.get("/v1/arrivals", accept, source=1)
            self.assertEqual((status, headers["Content-Type"].split(";")[0]), (200, wanted), accept)
        status, _, told = self.service.problem("/v1/matrix", accept="text/csv", sources=1)
        self.assertEqual((status, told["name"]), (406, "NotAcceptable"))

    def test_refusals_have_the_numbers_and_names_of_the_engine(self):
        for path, query, status, number, name in (
            ("/v1/arrivals", {"source": 301}, 400, 18, "NoSuchNode"), ("/v1/arrivals", {"source": 0}, 400, 18, "NoSuchNode"), ("/v1/arrivals", {"source": "mill"}, 400, 18, "NoSuchNode"),
            ("/v1/arrivals", {"source": 1, "departure": 2**48}, 400, 19, "BeyondHorizon"), ("/v1/arrivals", {"source": 1, "departure": -1}, 400, 19, "BeyondHorizon"),
            ("/v1/pairs", {"sources": "1,2", "targets": "1,2,3"}, 400, 23, "LengthsDiffer"), ("/v1/matrix", {"sources": "1,2", "departures": "1,2,3"}, 400, 23, "LengthsDiffer"),
            ("/v1/arrivals", {}, 400, None, "MissingParameter"), ("/v1/arrivals", {"source": 1, "depart": 2}, 400, None, "UnknownParameter"),
            ("/v1/arrivals", {"source": [1, 2]}, 400, None, "BadParameter"), ("/v1/arrivals", {"source": 1, "departure": "8:10"}, 400, None, "BadParameter"),
            ("/v1/arrivals", {"source": 1, "nodes": "5-2"}, 400, None, "BadParameter"), ("/v1/arrivals", {"source": 1, "nodes": "1,,2"}, 400, 18, "NoSuchNode"),
            ("/v1/pairs", {"sources": 1, "targets": 2, "walks": "yes"}, 400, None, "BadParameter"), ("/v1/nearest", {"x": "nan", "y": 1}, 400, None, "BadParameter"),
            ("/v1/isochrones", {"source": 1, "band": 0}, 400, None, "BadParameter"), ("/v1/isochrones", {"source": 1, "departure": 29400, "band": 1}, 413, None, "TooLarge"),
            ("/v1/none", {}, 404, None, "NotFound"), ("/page/none.js", {}, 404, None, "NotFound"),
        ):
            got, _, told = self.service.problem(path, **query)
            self.assertEqual((got, told["status"], told.get("number"), told["name"]), (status, status, number, name), (path, query))
            self.assertTrue(told["title"] and told["detail"])

    def test_no_path_of_the_file_system(self):
        for path in ("/page/../app.py", "/page/..%2fapp.py", "/page/%2e%2e/%2e%2e/app.py", "//etc/passwd", "/page/%2fetc%2fpasswd", "/../../etc/passwd", "/page/index.html%00.js"):
            status, _, body = self.service.get(path)
            self.assertIn(status, (400, 404), path)
            self.assertNotIn(b"root:", body)
            self.assertNotIn(ROOT.encode(), body)
        for query in ({"source": "/etc/passwd"}, {"source": 1, "nodes": "file:///etc/passwd"}):
            self.assertEqual(self.service.problem("/v1/arrivals", **query)[0], 400)

    def test_other_methods_and_hosts(self):
        for method in ("POST", "PUT", "DELETE"):
            status, headers, _ = self.service.get("/v1/network", method=method)
            self.assertEqual(status, 405)
            self.assertIn("GET", headers["Allow"])
        status, _, body = self.service.get("/v1/network", method="HEAD")
        self.assertEqual((status, body), (200, b""))
        for host in ("evil.example", "evil.example:80", "127.0.0.1.evil.example", "localhost.evil.example"):
            self.assertEqual(self.service.get("/v1/network", headers={"Host": host})[0], 421, host)
        for host in ("localhost", "LOCALHOST:1234", "127.0.0.1", "[::1]:80"):
            self.assertEqual(self.service.get("/v1/network", headers={"Host": host})[0], 200, host)

    def test_headers_keep_other_hosts_out(self):
        for path in ("/", "/page/page.js", "/v1/network", "/nothing"):
            _, headers, _ = self.service.get(path)
            self.assertEqual(headers["X-Content-Type-Options"], "nosniff")
            self.assertIn("default-src 'none'", headers["Content-Security-Policy"])
            self.assertIn("img-src 'self' data:;", headers["Content-Security-Policy"])
            self.assertIsNone(headers["Access-Control-Allow-Origin"])

    def test_openapi_is_what_the_routes_do(self):
        described = self.service.json("/openapi.json")
        from earliest.serve import app

        class Empty:
            road, host_of_tiles = None, ""

        service = app.Service(Empty(), None, 1, 1, True)
        routes = {it.canonical for it in service.app().router.resources()}
        self.assertEqual(set(described["paths"]), routes)
        for path, it in described["paths"].items():
            words = it["get"]["parameters"]
            forms = set(it["get"]["responses"]["200"]["content"])
            at = path
            for word in words:
                at = at.replace("{" + word["name"] + "}", str(word["example"]))
            query = {word["name"]: word["example"] for word in words if word["in"] == "query"}
            for form in forms:
                status, headers, body = self.service.get(at, form, **query)
                self.assertEqual((status, headers.get_content_type()), (200, form), at)
                self.assertTrue(body)
                if form == JSON and "schema" in it["get"]["responses"]["200"]["content"][form]:
                    for name in it["get"]["responses"]["200"]["content"][form]["schema"]["required"]:
                        self.assertIn(name, json.loads(body), path)
            if path.startswith("/v1/"):
                self.assertEqual(self.service.get(at, **query, other="1")[0], 400, f"{path} takes a parameter that isn't described")
                for word in words:
                    less = {name: value for name, value in query.items() if name != word["name"]}
                    self.assertEqual(self.service.get(at, **less)[0], 400 if word["required"] else 200, f"{path} without {word['name']}")

    def test_health_and_metrics(self):
        self.assertEqual(self.service.json("/healthz"), {"status": "ok"})
        name = 'earliest_requests_total{route="/v1/network",status="200"}'
        self.service.json("/v1/network")
        before = self.service.metric(name)
        searches = self.service.metric("earliest_searches_total")
        self.service.json("/v1/network")
        self.service.json("/v1/matrix", sources="1-7")
        self.assertEqual((self.service.metric(name) - before, self.service.metric("earliest_searches_total") - searches), (1, 7))
        self.assertEqual(self.service.metric("earliest_threads"), 2)
        text = self.service.get("/metrics")
        self.assertIn("version=0.0.4", text[1]["Content-Type"])
        for line in text[2].decode().splitlines():
            self.assertRegex(line, r'^(# (HELP|TYPE) [a-z_]+ .+|[a-z_]+(\{[a-z]+="[^"]*"(,[a-z]+="[^"]*")*\})? [0-9.e+]+)$')


@needs("aiohttp", "numpy")
class Words(unittest.TestCase):
    def refused(self, *words):
        ran = subprocess.run([sys.executable, "-m", "earliest", "serve", *words], stdin=subprocess.DEVNULL, capture_output=True, text=True, timeout=LONG)
        self.assertNotEqual(ran.returncode, 0)
        self.assertNotIn("Traceback", ran.stderr)
        return ran.stderr

    def test_files_with_faults(self):
        with tempfile.TemporaryDirectory(prefix="serve-") as room:
            def file(text):
                path = os.path.join(room, "file")
                with open(path, "w", encoding="utf-8") as out:
                    out.write(text)
                return path

            gr = example("four-nodes.gr")
            self.assertIn("2 SecondProblemLine", self.refused(file("p sp 1 0\np sp 1 0\n")))
            self.assertIn("no-such", self.refused(os.path.join(room, "no-such.gr")))
            self.assertIn("line 2", self.refused(gr, "--co", file("p aux sp co 4\nv 1 x 2\n")))
            self.assertIn("a place for 5, which is no node", self.refused(gr, "--co", file("v 5 1 2\n")))
            self.assertIn("no place", self.refused(gr, "--co", file("p aux sp co 4\n")))
            self.assertIn("no degrees", self.refused(gr, "--degrees", "--co", file("v 1 181000000 2\n")))
            for tiles in ("https://tile.example.org/{z}/{x}.png", "https://tile.example.org/{z}/{x}/{y}/{y}.png", "https://a b/{z}/{x}/{y}", "file:///{z}/{x}/{y}", "https://e.org/{z}/{x}/{y}; script-src *"):
                self.assertIn("--tiles takes an address", self.refused(gr, "--degrees", "--co", file("v 1 11000000 2\n"), "--tiles", tiles))
            self.assertIn("need coordinates in degrees", self.refused(gr, "--co", file("v 1 11 2\n"), "--tiles", "https://e.org/{z}/{x}/{y}.png"))
            self.assertIn("3 names", self.refused(gr, "--names", file("a\nb\nc\n")))
            self.assertIn("a name twice", self.refused(gr, "--names", file("a\nb\nc\na\n")))
            self.assertIn("--queue", self.refused(gr, "--queue", "-1"))
            self.assertIn("--threads", self.refused(gr, "--threads", "0"))

    def test_names_and_units(self):
        with tempfile.TemporaryDirectory(prefix="serve-") as room:
            names, co, gr = (os.path.join(room, it) for it in ("names", "x.co", "x.gr"))
            with open(names, "w", encoding="utf-8") as out:
                out.write("Mühle\nHof, oben\n1-2\nEnde\n")
            with open(co, "w", encoding="utf-8") as out:
                out.write("c coordinate unit: 1/1000000 degree\nv 1 11000000 44000000\nv 2 11001000 44000000\nv 3 11000000 44002000\n")
            with open(gr, "w", encoding="utf-8") as out:
                with open(example("four-nodes.gr"), encoding="utf-8") as text:
                    out.write("c time unit: 1/100 s (hundredths of a second); made of nothing\n" + text.read())
            with Served(gr, "--names", names, "--co", co) as service:
                self.assertEqual(service.json("/v1/arrivals", source="Mühle"), service.json("/v1/arrivals", source=1))
                got = service.json("/v1/pairs", sources="Mühle", targets=["Hof, oben", "1-2", "4"], walks="true")
                self.assertEqual((got["targets"], got["arrivals"]), ([2, 3, 4], [5, 2, 6]))
                self.assertEqual(service.problem("/v1/arrivals", source="Hof")[2]["number"], 18)
                network = service.json("/v1/network")
                self.assertEqual((network["per_second"], network["degrees"], network["names"]), (100, True, True))
                near = service.json("/v1/nearest", x=11.0001, y=44.0)
                # A degree of longitude is as much shorter as the cosine of the latitude.
                metres = math.radians(0.0001) * 6371008.8 * math.cos(math.radians(44))
                self.assertEqual((near["node"], near["name"]), (1, "Mühle"))
                self.assertAlmostEqual(near["distance"], metres, delta=0.01)
                self.assertEqual(service.problem("/v1/nearest", x=200, y=1)[0], 400)
                # A node without a place is in no GeoJSON.
                features = json.loads(service.get("/v1/arrivals", GEO, source=1)[2])["features"]
                self.assertEqual([it["properties"]["node"] for it in features], [1, 2, 3])
                self.assertIsNone(service.json("/v1/network/coordinates")["coordinates"][3])


    def test_the_table_of_an_importer(self):
        with tempfile.TemporaryDirectory(prefix="serve-") as room:
            table = os.path.join(room, "x.nodes.csv")
            with open(table, "w", encoding="utf-8") as out:
                out.write("node,id,longitude,latitude,use\n1,a,11.0,44.0,end\n2,a,11.0,44.0,start\n3,b,11.002,44.0,both\n4,,11.0,44.0,turn\n")
            with Served(example("four-nodes.gr"), "--co", table) as service:
                self.assertTrue(service.json("/v1/network")["degrees"])
                for query, node in (({}, 2), ({"end": "false"}, 2), ({"end": "true"}, 1)):
                    self.assertEqual(service.json("/v1/nearest", x=11.0001, y=44.0, **query)["node"], node)
                self.assertEqual(service.json("/v1/nearest", x=11.0019, y=44.0)["node"], 3)


@needs("aiohttp", "numpy")
class Stops(unittest.TestCase):
    def test_requests_in_flight_finish(self):
        for number in (signal.SIGTERM, signal.SIGINT):
            service = Served(example("road.gr"), "--tp", example("road.tp"), "--threads", "1", "--values", "9000000")
            got = []
            asked = threading.Thread(target=lambda: got.append(service.get("/v1/matrix", BINARY, sources=["1-2025", "1-2025"], departures=1000)))
            try:
                asked.start()
                until = time.monotonic() + LONG
                while not service.metric("earliest_jobs_inside") and asked.is_alive() and time.monotonic() < until:
                    time.sleep(0.005)
                waiting = bool(service.metric("earliest_jobs_inside"))
            finally:
                status = service.stop(number)
            asked.join(LONG)
            self.assertEqual((status, service.log()), (0, ""))
            self.assertEqual((got[0][0], len(got[0][2])), (200, 8 * 4050 * 2025))
            self.assertTrue(waiting, "the request was over before the signal")
            with self.assertRaises(OSError):
                socket.create_connection(("127.0.0.1", service.port), 5)


class Missing(unittest.TestCase):
    def test_a_sentence_says_what_to_install(self):
        with tempfile.TemporaryDirectory(prefix="serve-") as room:
            with open(os.path.join(room, "aiohttp.py"), "w", encoding="ascii") as out:
                out.write("raise ImportError('none')\n")
            path = os.pathsep.join([room, os.environ["PYTHONPATH"]])
            ran = subprocess.run([sys.executable, "-m", "earliest", "serve", example("four-nodes.gr")], env={**os.environ, "PYTHONPATH": path}, capture_output=True, text=True, timeout=LONG)
            self.assertEqual((ran.returncode, ran.stdout), (1, ""))
            self.assertIn("apt-get install python3-aiohttp", ran.stderr)
            self.assertEqual(ran.stderr.count("\n"), 1)
