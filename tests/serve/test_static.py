"""The page of a report: its data are those of the report, and chromium shows them."""
import base64
import json
import os
import re
import struct
import subprocess
import sys
import tempfile
import unittest

from served import LONG, NEVER, commuter, commuter_until, example, needs, places, program


def command(*words):
    """`python -m earliest isochrones`: status and standard error."""
    ran = subprocess.run([sys.executable, "-m", "earliest", "isochrones", *words], stdin=subprocess.DEVNULL, capture_output=True, text=True, timeout=LONG)
    return ran.returncode, ran.stderr


class Static(unittest.TestCase):
    @classmethod
    def setUpClass(cls):
        cls.room = tempfile.TemporaryDirectory(prefix="static-")
        cls.report, cls.page = (os.path.join(cls.room.name, it) for it in ("report", "map.html"))
        with open(cls.report, "w", encoding="ascii") as out:
            out.write(program("run", "commuter.gr", "commuter.ss", "--tp", "commuter.tp", "--depart", "29400", "--walks"))
        cls.ran = command(cls.report, example("commuter.co"), "--html", cls.page, "--graph", example("commuter.gr"), "--units", "1")
        with open(cls.page, encoding="utf-8") as file:
            cls.text = file.read()

    @classmethod
    def tearDownClass(cls):
        cls.room.cleanup()

    def test_the_data_are_the_report(self):
        self.assertEqual(self.ran, (0, ""))
        data = json.loads(re.search(r'id="data">(.*?)</script>', self.text)[1])
        read = {name: base64.b64decode(data[name]) for name in ("arrivals", "coordinates", "arcs")}
        self.assertEqual([None if it == NEVER else it for it in struct.unpack("<300Q", read["arrivals"])], commuter(225, 29400))
        flat = struct.unpack("<600d", read["coordinates"])
        self.assertEqual(list(zip(flat[::2], flat[1::2])), places())
        with open(example("commuter.gr"), encoding="ascii") as file:
            ends = [int(it) for line in file if line.startswith("a ") for it in line.split()[1:3]]
        self.assertEqual(list(struct.unpack(f"<{len(ends)}I", read["arcs"])), ends)
        self.assertEqual((data["departure"], data["until"], data["sources"], data["per_second"], data["degrees"]), (29400, False, [225], 1, False))

    def test_latest_departures(self):
        with tempfile.TemporaryDirectory(prefix="static-") as room:
            targets, report, out = (os.path.join(room, it) for it in ("one.ss", "report", "out.html"))
            with open(targets, "w", encoding="ascii") as file:
                file.write("p aux sp ss 1\ns 236\n")
            with open(report, "w", encoding="ascii") as file:
                file.write(program("run", "commuter.gr", targets, "--tp", "commuter.tp", "--arrive", "30600"))
            self.assertEqual(command(report, example("commuter.co"), "--html", out, "--units", "1"), (0, ""))
            with open(out, encoding="utf-8") as file:
                text = file.read()
            data = json.loads(re.search(r'id="data">(.*?)</script>', text)[1])
            times = [None if it == NEVER else it for it in struct.unpack("<300Q", base64.b64decode(data["arrivals"]))]
            self.assertEqual((data["until"], data["departure"], data["sources"], times), (True, 30600, [236], commuter_until(236, 30600)))
            self.assertIn("Latest departures for node 236, to be there by 30600 (8:30:00)", text)

    def test_one_file_without_other_hosts(self):
        self.assertNotRegex(self.text, r'(?:src|href)="(?!data:)|https?://|@import|url\(')
        self.assertNotIn("@", re.sub(r"@media", "", self.text))
        self.assertIn("default-src 'none'", self.text)
        self.assertEqual(sorted(os.listdir(self.room.name)), ["map.html", "report"])

    def test_the_problem_that_is_asked_for(self):
        with tempfile.TemporaryDirectory(prefix="static-") as room:
            sources, report, out = (os.path.join(room, it) for it in ("two.ss", "report", "out.html"))
            with open(sources, "w", encoding="ascii") as file:
                file.write("p aux sp ss 2\ns 225\ns 1\n")
            with open(report, "w", encoding="ascii") as file:
                file.write(program("run", "commuter.gr", sources, "--tp", "commuter.tp", "--depart", "29400"))
            self.assertEqual(command(report, example("commuter.co"), "--html", out, "--problem", "2"), (0, ""))
            with open(out, encoding="utf-8") as file:
                data = json.loads(re.search(r'id="data">(.*?)</script>', file.read())[1])
            self.assertEqual((data["sources"], list(struct.unpack("<300Q", base64.b64decode(data["arrivals"])))), ([1], commuter(1, 29400)))
            status, told = command(report, example("commuter.co"), "--html", out, "--problem", "3")
            self.assertEqual((status, "there is no problem 3; it has 2" in told), (1, True))

    def test_wrong_inputs(self):
        with tempfile.TemporaryDirectory(prefix="static-") as room:
            out = os.path.join(room, "out.html")
            for words, told in (
                ((os.path.join(room, "none"), example("commuter.co")), "none"), ((self.report, example("commuter.gr")), "a place needs"), ((example("commuter.gr"), example("commuter.co")), "there is no problem 1"),
                ((example("four-nodes.p2p.report"), example("commuter.co")), "there is no problem 1"),
            ):
                status, said = command(*words, "--html", out)
                self.assertEqual((status, said.count("\n"), told in said), (1, 1, True), said)
                self.assertFalse(os.path.exists(out))

    @needs("selenium", "chromium", "chromedriver")
    def test_chromium_shows_it(self):
        from test_browser import Page, browser

        with tempfile.TemporaryDirectory(prefix="browser-", ignore_cleanup_errors=True) as room:
            driver = browser(room)
            try:
                page = Page(driver)
                driver.get("file://" + self.page)
                page.wait("window.earliest && window.earliest.map.painted")
                page.canvas = driver.find_element("id", "map")
                for node in (1, 236, 300):
                    arrival, words = page.hover(node)
                    wanted = commuter(225, 29400)[node - 1]
                    minutes, seconds = divmod(wanted - 29400, 60)
                    self.assertEqual(int(arrival), wanted)
                    self.assertIn(f"after {minutes}:{seconds:02} min", words)
                self.assertIn("minutes", driver.find_element("id", "legend").text)
                self.assertIn("from node 225, departure 29400 (8:10:00)", driver.title)
                self.assertEqual([it["message"] for it in driver.get_log("browser") if it["level"] == "SEVERE"], [])
            finally:
                driver.quit()
