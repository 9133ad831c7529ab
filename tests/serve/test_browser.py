"""The page in chromium, without a window: what it shows is equal to the program's reports. With EARLIEST_PICTURE, the path of a PNG, it takes a
picture of the commuter town in the morning rush."""
import http.server
import math
import os
import re
import struct
import tempfile
import threading
import time
import unittest
import zlib

from served import COMMUTER, LONG, Served, commuter, commuter_until, example, needs, program


def browser(room, width=1180, height=640):
    """A chromium that selenium drives."""
    from selenium import webdriver
    from selenium.webdriver.chrome.service import Service

    words = webdriver.ChromeOptions()
    words.binary_location = "/usr/bin/chromium"
    for word in ("--headless=new", "--no-sandbox", "--disable-gpu", "--disable-dev-shm-usage", "--disable-background-networking", "--disable-component-update", "--no-first-run",
                 "--disable-sync", "--disable-extensions", "--hide-scrollbars", "--force-device-scale-factor=1", f"--window-size={width},{height}", f"--user-data-dir={room}"):
        words.add_argument(word)
    words.set_capability("goog:loggingPrefs", {"browser": "ALL"})
    return webdriver.Chrome(service=Service("/usr/bin/chromedriver"), options=words)


class Page:
    """The page, and what a user does with it."""

    def __init__(self, driver):
        self.driver = driver
        self.canvas = None

    def run(self, script, *words):
        return self.driver.execute_script(script, *words)

    def wait(self, script, *words):
        """Waits until a script returns something true."""
        until = time.monotonic() + LONG
        while time.monotonic() < until:
            found = self.run("return " + script, *words)
            if found:
                return found
            time.sleep(0.03)
        raise AssertionError(f"the page didn't come to {script}: {self.run('return document.body.innerText')[:500]}")

    def open(self, url):
        self.driver.get(url)
        self.wait("window.earliest && document.body.dataset.state === 'ready'")
        self.canvas = self.driver.find_element("id", "map")

    def ready(self, departure=None):
        """Waits until the map shows a departure."""
        self.wait("document.body.dataset.state === 'ready' && (arguments[0] === null || document.body.dataset.departure === arguments[0])", None if departure is None else str(departure))

    def actions(self):
        from selenium.webdriver.common.action_chains import ActionChains

        return ActionChains(self.driver, duration=20)

    def over(self, node):
        """Actions with the pointer over a node."""
        x, y = self.run("return window.earliest.map.at(arguments[0])", node)
        box = self.canvas.size
        return self.actions().move_to_element_with_offset(self.canvas, round(x - box["width"] / 2), round(y - box["height"] / 2))

    def click(self, node):
        self.over(node).click().perform()

    def hover(self, node):
        """The arrival that the page shows for a node: its data and its words."""
        self.over(node).perform()
        self.wait("document.getElementById('hover').dataset.node === arguments[0]", str(node))
        hover = self.driver.find_element("id", "hover")
        return hover.get_attribute("data-arrival"), hover.text

    def press(self, *keys, to=None):
        (to or self.canvas).send_keys(*keys)

    def pixels(self, count):
        """The colour in the middle of each of the first nodes."""
        return self.run("""const map = window.earliest.map, pen = map.canvas.getContext("2d"); map.paint();
            return Array.from({length: arguments[0]}, (_, at) => { const [x, y] = map.at(at + 1);
                return Array.from(pen.getImageData(Math.round(x * map.ratio), Math.round(y * map.ratio), 1, 1).data.slice(0, 3)); });""", count)


class TileHost(http.server.ThreadingHTTPServer):
    """A host of map tiles, all of one colour, that keeps what it was asked for."""

    def __init__(self):
        def chunk(kind, body):
            return struct.pack(">I", len(body)) + kind + body + struct.pack(">I", zlib.crc32(kind + body))

        rows = (b"\0" + bytes((200, 120, 40)) * 256) * 256
        picture = b"\x89PNG\r\n\x1a\n" + chunk(b"IHDR", struct.pack(">IIBBBBB", 256, 256, 8, 2, 0, 0, 0)) + chunk(b"IDAT", zlib.compress(rows)) + chunk(b"IEND", b"")
        asked = self.asked = set()

        class Handler(http.server.BaseHTTPRequestHandler):
            def do_GET(self):
                asked.add(self.path)
                self.send_response(200)
                self.send_header("Content-Type", "image/png")
                self.send_header("Content-Length", str(len(picture)))
                self.end_headers()
                self.wfile.write(picture)

            def log_message(self, *_):
                pass

        super().__init__(("127.0.0.1", 0), Handler)
        threading.Thread(target=self.serve_forever, daemon=True).start()

    @property
    def url(self):
        return f"http://127.0.0.1:{self.server_address[1]}"


@needs("aiohttp", "numpy", "selenium", "chromium", "chromedriver")
class OnTiles(unittest.TestCase):
    """The map on tiles of another host."""

    def test_tiles_lie_under_their_places(self):
        places = [(11.30 + 0.01 * (at % 5), 44.45 + 0.008 * (at // 5)) for at in range(20)]
        with tempfile.TemporaryDirectory(prefix="tiles-", ignore_cleanup_errors=True) as room, TileHost() as host:
            gr, co = os.path.join(room, "net.gr"), os.path.join(room, "net.co")
            with open(gr, "w", encoding="ascii") as file:
                file.write("p sp 20 19\n" + "".join(f"a {at} {at + 1} 60\n" for at in range(1, 20)))
            with open(co, "w", encoding="ascii") as file:
                file.write("p aux sp co 20\n" + "".join(f"v {at} {round(x * 1e6)} {round(y * 1e6)}\n" for at, (x, y) in enumerate(places, 1)))
            words = (gr, "--co", co, "--degrees", "--tiles", host.url + "/{z}/{x}/{y}.png", "--credit", "a map by the tests")
            with Served(*words) as service:
                driver = browser(os.path.join(room, "profile"))
                try:
                    page = Page(driver)
                    page.open(service.url)
                    page.wait("window.earliest.map.tiles && window.earliest.map.tiles.drawn >= 4")
                    self.assertEqual(driver.find_element("id", "credit").text, "a map by the tests")
                    zooms = {int(it.split("/")[1]) for it in host.asked}
                    self.assertEqual(len(zooms), 1)
                    zoom = zooms.pop()
                    asked = {tuple(map(int, it[:-4].split("/")[2:])) for it in host.asked}
                    for at, (longitude, latitude) in enumerate(places, 1):
                        # The tile of a place and its point in it, by the usual formula of web maps.
                        x = (longitude + 180) / 360 * 2**zoom
                        y = (1 - math.asinh(math.tan(math.radians(latitude))) / math.pi) / 2 * 2**zoom
                        self.assertIn((int(x), int(y)), asked)
                        first = page.run("return window.earliest.map.at(1)")
                        shown = page.run("return window.earliest.map.at(arguments[0])", at)
                        origin = (places[0][0] + 180) / 360 * 2**zoom, (1 - math.asinh(math.tan(math.radians(places[0][1]))) / math.pi) / 2 * 2**zoom
                        tile = page.run("const map = window.earliest.map; return 360 / 2 ** arguments[0] * map.scale / map.ratio", zoom)
                        self.assertTrue(128 <= tile <= 512, tile)
                        self.assertAlmostEqual(shown[0] - first[0], (x - origin[0]) * tile, delta=0.5)
                        self.assertAlmostEqual(shown[1] - first[1], (y - origin[1]) * tile, delta=0.5)
                    wrong = [it["message"] for it in driver.get_log("browser") if it["level"] == "SEVERE"]
                    self.assertEqual(wrong, [])
                finally:
                    driver.quit()


def clock(time):
    return f"{time // 3600 % 24:02}:{time // 60 % 60:02}:{time % 60:02}"


@needs("aiohttp", "numpy", "selenium", "chromium", "chromedriver")
class Browser(unittest.TestCase):
    @classmethod
    def setUpClass(cls):
        cls.room = tempfile.TemporaryDirectory(prefix="browser-", ignore_cleanup_errors=True)
        cls.service = Served(*COMMUTER, "--threads", "2")
        cls.driver = browser(cls.room.name)

    @classmethod
    def tearDownClass(cls):
        cls.driver.quit()
        status = cls.service.stop()
        cls.room.cleanup()
        assert status == 0

    def setUp(self):
        self.page = Page(self.driver)
        self.driver.get("about:blank")
        self.page.open(self.service.url)

    def tearDown(self):
        wrong = [it["message"] for it in self.driver.get_log("browser") if it["level"] == "SEVERE"]
        self.assertEqual(wrong, [])

    def departure(self):
        return int(self.page.run("return document.getElementById('departure').value"))

    def test_click_a_source_and_hover(self):
        page = self.page
        page.click(225)
        page.ready(28800)
        wanted = commuter(225, 28800)
        for node in (1, 236, 300, 110):
            arrival, words = page.hover(node)
            self.assertEqual(int(arrival), wanted[node - 1])
            minutes, seconds = divmod(wanted[node - 1] - 28800, 60)
            self.assertEqual(words, f"node {node}: {clock(wanted[node - 1])}, after {minutes}:{seconds:02} min")
        self.assertEqual(page.driver.find_element("id", "source").get_attribute("value"), "225")
        self.assertIn("not reached", page.driver.find_element("id", "legend").text)
        self.assertIn("min", page.driver.find_element("id", "legend").text)

    def test_drag_the_departure(self):
        page = self.page
        page.click(225)
        page.ready(28800)
        before = page.pixels(300)
        slider = page.driver.find_element("id", "departure")
        width = slider.size["width"]
        page.run("""const map = window.earliest.map; window.seen = [];
            map.onpaint = () => { if (map.arrivals) window.seen.push([map.departure, map.arrivals[235], map.arrivals[299]]); }""")
        seen, pause = {}, 0.4
        while len(seen) < 3 and pause < LONG / 5:
            # A slow machine gets more time for each step.
            at = round((self.departure() / 86400 - 0.5) * (width - 16))
            drag = page.actions().move_to_element_with_offset(slider, at, 0).click_and_hold()
            for step in (6, 5, 8, -9, 30):
                drag.move_by_offset(step, 0).pause(pause)
            drag.release().perform()
            page.ready(self.departure())
            # What was painted while the button was down, each departure once.
            seen.update({it[0]: it[1:] for it in page.run("return window.seen")})
            pause *= 3
        self.assertGreaterEqual(len(seen), 3)
        for departure, shown in seen.items():
            wanted = commuter(225, int(departure))
            self.assertEqual([int(it) for it in shown], [wanted[235], wanted[299]])
        page.wait("window.seen.some((it) => it[0] === arguments[0])", self.departure())
        self.assertNotEqual(page.pixels(300), before)
        arrival, _ = page.hover(236)
        self.assertEqual(int(arrival), commuter(225, self.departure())[235])
        # What is shown for the node under the pointer follows the departure.
        later = self.departure() + 600
        page.run("const it = document.getElementById('departure'); it.value = arguments[0]; it.dispatchEvent(new Event('input'))", later)
        page.ready(later)
        self.assertEqual(int(page.driver.find_element("id", "hover").get_attribute("data-arrival")), commuter(225, later)[235])
        # By keyboard: an arrow key is a minute.
        from selenium.webdriver.common.keys import Keys

        now = self.departure()
        page.press(Keys.ARROW_RIGHT, Keys.ARROW_RIGHT, to=slider)
        page.ready(now + 120)
        self.assertEqual(page.driver.find_element("id", "when").text, clock(now + 120))
        self.assertEqual(int(page.hover(300)[0]), commuter(225, now + 120)[299])

    def test_colours_darken_with_the_time(self):
        page = self.page
        page.click(225)
        page.ready(28800)
        page.run("window.earliest.map.source = 0")
        found = page.pixels(300)
        light = [0.2126 * r + 0.7152 * g + 0.0722 * b for r, g, b in found]
        order = sorted(range(300), key=lambda at: commuter(225, 28800)[at])
        steps = [light[one] - light[other] for one, other in zip(order, order[1:])]
        self.assertGreaterEqual(min(steps), -0.5)
        self.assertGreater(light[order[0]] - light[order[-1]], 100)

    def test_click_a_target_for_the_walk(self):
        page = self.page
        page.click(225)
        page.ready(28800)
        page.click(236)
        page.wait("document.body.dataset.state === 'ready' && document.getElementById('found').textContent && document.getElementById('latest').textContent")
        with tempfile.TemporaryDirectory(prefix="serve-") as room:
            pairs = os.path.join(room, "one.p2p")
            with open(pairs, "w", encoding="ascii") as file:
                file.write("p aux sp p2p 1\nq 225 236\n")
            report = program("pairs", "commuter.gr", pairs, "--tp", "commuter.tp", "--depart", "28800", "--walks")
        found = page.driver.find_element("id", "found")
        arcs = re.search(r"(?m)^w 236 \d+ (.*)$", report)[1]
        arrival = int(re.search(r"(?m)^d 236 (\d+)$", report)[1])
        self.assertEqual((found.get_attribute("data-arrival"), found.get_attribute("data-arcs")), (str(arrival), arcs))
        self.assertIn(f"arrive at {clock(arrival)}", found.text)
        self.assertIn(f"over {len(arcs.split())} arcs", found.text)
        late = int(page.driver.find_element("id", "latest").get_attribute("data-departure"))
        self.assertEqual((commuter(225, late)[235], commuter(225, late + 1)[235] > arrival), (arrival, True))
        from selenium.webdriver.common.keys import Keys

        page.press(Keys.ESCAPE)
        page.wait("document.getElementById('found').textContent === ''")
        self.assertEqual(page.run("return window.earliest.map.walk.length"), 0)

    def test_latest_departures(self):
        page = self.page
        page.driver.find_element("id", "until").click()
        self.assertEqual(page.driver.find_element("id", "clock").text, "Be there by")
        page.click(236)
        page.ready(28800)
        wanted = commuter_until(236, 28800)
        for node in (1, 225, 300):
            departure, words = page.hover(node)
            self.assertEqual(int(departure), wanted[node - 1])
            minutes, seconds = divmod(28800 - wanted[node - 1], 60)
            self.assertEqual(words, f"node {node}: leave at {clock(wanted[node - 1])}, {minutes}:{seconds:02} min before")
        self.assertIn("before the arrival", page.driver.find_element("id", "legend").text)
        # The walk from a node, and another time.
        page.press("s")
        page.click(225)
        page.wait("document.body.dataset.state === 'ready' && document.getElementById('found').textContent")
        slider = page.driver.find_element("id", "departure")
        page.run("const it = document.getElementById('departure'); it.value = arguments[0]; it.dispatchEvent(new Event('input'))", 30600)
        page.ready(30600)
        with tempfile.TemporaryDirectory(prefix="serve-") as room:
            pairs = os.path.join(room, "one.p2p")
            with open(pairs, "w", encoding="ascii") as file:
                file.write("p aux sp p2p 1\nq 225 236\n")
            report = program("pairs", "commuter.gr", pairs, "--tp", "commuter.tp", "--arrive", "30600", "--walks")
        departure, arcs = re.search(r"(?m)^d 225 (\d+)\nw 225 \d+ (.*)$", report).groups()
        page.wait("document.getElementById('found').dataset.departure === arguments[0]", departure)
        found = page.driver.find_element("id", "found")
        page.wait("document.getElementById('found').dataset.arcs === arguments[0]", arcs)
        self.assertIn(f"leave at {clock(int(departure))}", found.text)
        # Back by keyboard: arrivals from the source at the time of the slider.
        page.press("l")
        page.wait("document.body.dataset.departure === '30600' && window.earliest.map.until === false")
        self.assertEqual(int(page.hover(300)[0]), commuter(225, 30600)[299])
        self.assertEqual(int(slider.get_attribute("value")), 30600)

    def test_keyboard(self):
        page = self.page
        from selenium.webdriver.common.keys import Keys

        field = page.driver.find_element("id", "source")
        field.send_keys("225", Keys.ENTER)
        page.ready(28800)
        self.assertEqual(int(page.hover(236)[0]), commuter(225, 28800)[235])
        scale = page.run("return window.earliest.map.scale")
        left = page.run("return window.earliest.map.left")
        page.press("+")
        self.assertGreater(page.run("return window.earliest.map.scale"), scale)
        page.press("-", "0")
        self.assertEqual(page.run("return window.earliest.map.scale"), scale)
        page.press(Keys.ARROW_RIGHT)
        self.assertLess(page.run("return window.earliest.map.left"), left)
        self.assertEqual(int(page.hover(300)[0]), commuter(225, 28800)[299])
        page.press("t")
        self.assertEqual(page.run("return document.querySelector('input[name=sets]:checked').value"), "target")
        field = page.driver.find_element("id", "target")
        field.send_keys("301", Keys.ENTER)
        page.wait("document.getElementById('note').textContent")
        self.assertEqual(page.driver.find_element("id", "note").text, "No node is called 301.")

    def test_zoom_and_drag(self):
        page = self.page
        before = page.run("return [window.earliest.map.scale, window.earliest.map.left]")
        page.over(150).click_and_hold().move_by_offset(40, 10).release().perform()
        self.assertAlmostEqual(page.run("return window.earliest.map.left"), before[1] + 40, delta=1)
        self.assertEqual(page.driver.find_element("id", "source").get_attribute("value"), "")
        at = page.run("return window.earliest.map.at(150)")
        page.run("""const map = window.earliest.map, box = map.canvas.getBoundingClientRect();
            map.canvas.dispatchEvent(new WheelEvent("wheel", {deltaY: -200, clientX: box.left + arguments[0], clientY: box.top + arguments[1], cancelable: true}))""", *at)
        self.assertGreater(page.run("return window.earliest.map.scale"), before[0])
        now = page.run("return window.earliest.map.at(150)")
        # An event's place is a whole number of pixels.
        self.assertAlmostEqual(now[0], at[0], delta=1)
        self.assertAlmostEqual(now[1], at[1], delta=1)

    def test_the_address_keeps_what_is_chosen(self):
        page = self.page
        page.driver.get("about:blank")
        page.open(self.service.url + "#source=225&target=236&departure=29400")
        page.ready(29400)
        self.assertEqual(int(page.hover(300)[0]), commuter(225, 29400)[299])
        page.wait("document.getElementById('found').dataset.arrival === arguments[0]", str(commuter(225, 29400)[235]))
        page.wait("document.getElementById('latest').textContent")
        path = os.environ.get("EARLIEST_PICTURE")
        if path:
            page.over(300).perform()
            time.sleep(0.3)
            self.assertTrue(self.driver.save_screenshot(path))

    def test_no_other_host(self):
        page = self.page
        page.click(225)
        page.ready(28800)
        asked = page.run("return performance.getEntriesByType('resource').map((it) => it.name)")
        self.assertGreaterEqual(len(asked), 6)
        self.assertEqual([it for it in asked if not it.startswith(self.service.url)], [])
        for name in ("index.html", "page.js", "map.js", "page.css"):
            with open(os.path.join(os.path.dirname(example("")), "..", "python", "earliest", "serve", "page", name), encoding="utf-8") as file:
                self.assertNotRegex(file.read(), r"https?://")
