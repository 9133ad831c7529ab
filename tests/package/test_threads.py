"""Several threads and processes: one search is never used by two at once, one road by as many as like, and calls let other threads run."""
import concurrent.futures
import multiprocessing
import os
import pickle
import re
import subprocess
import sys
import tempfile
import threading
import time
import unittest

import earliest
import plain
from earliest._failures import test
from earliest._library import library
from earliest._numbers import address, filled
from optional import joblib, needs
from test_engine import Case, flat

NETWORK = plain.network(11, 60, 200)


NODE, TIME = filled("I", 7, 1), filled("Q", 0, 1)
"""A source at its departure, and an asked node."""


class Large:
    """A grid of 250,000 nodes, whose calls take long enough to be met by another thread, made when the first test asks for it."""

    made = None

    @classmethod
    def text(cls):
        if cls.made is None:
            nodes, tails, heads, weights = plain.grid(500)
            gr = f"p sp {nodes} {len(tails)}\n" + "".join(f"a {u} {v} {w}\n" for u, v, w in zip(tails, heads, weights))
            cls.made = gr.encode(), earliest.Road(gr.encode())
        return cls.made[0]

    @classmethod
    def road(cls):
        cls.text()
        return cls.made[1]


def row_of(both):
    """A problem in another process."""
    road, source = both
    return flat(road.search(source, 10).arrivals)


class OneSearch(Case):
    """A search that several threads use."""

    def test_a_second_thread_is_refused(self):
        """While one thread is in a long call, every call of another one is refused and changes nothing."""
        search = Large.road().searcher(walks=False)
        answer = search.find(1)
        want = flat(answer.arrivals[:50])
        refused, inside = [], threading.Event()

        def long():
            inside.set()
            search.find(1)

        calls = (lambda: search.find(2), lambda: search.pair(1, 0, 2), lambda: answer.arrival(2), lambda: answer.arrivals, lambda: answer.walk(2), search.close)
        for call in calls:
            for _ in range(50):
                inside.clear()
                other = threading.Thread(target=long)
                other.start()
                inside.wait()
                while not search._alone.lock.locked() and other.is_alive():
                    time.sleep(0)
                try:
                    call()
                except earliest.Busy as busy:
                    refused.append(busy)
                    other.join()
                    break
                except RuntimeError:
                    pass  # The other thread's query ended before this call.
                other.join()
            else:
                self.fail("no call met another thread in 50 rounds")
        self.assertEqual([it.number for it in refused], [25] * len(calls))
        self.assertEqual(flat(search.find(1).arrivals[:50]), want)

    def test_four_threads_on_one_search(self):
        """Each answer is right or refused."""
        search = earliest.Road(NETWORK.gr(), NETWORK.tp()).searcher()
        want = {source: NETWORK.least([(source, 7 * source)]) for source in range(1, 21)}
        wrong, right, refused = [], [], []
        until = time.monotonic() + 1.5

        def ask(source):
            while time.monotonic() < until:
                source = source % 20 + 1
                try:
                    found = search.find(source, 7 * source)
                    got, one = flat(found.arrivals), found.arrival(source)
                except (earliest.Busy, RuntimeError) as error:
                    refused.append(error)
                    continue
                (right if got == want[source] and one == 7 * source else wrong).append((source, got))
                try:
                    arrival = search.pair(source, 7 * source, 5)
                except earliest.Busy as error:
                    refused.append(error)
                    continue
                if (plain.NEVER if arrival is None else arrival) != want[source][4]:
                    wrong.append((source, arrival))

        threads = [threading.Thread(target=ask, args=(it,)) for it in (1, 6, 11, 16)]
        for thread in threads:
            thread.start()
        for thread in threads:
            thread.join()
        self.assertEqual(wrong, [])
        self.assertGreater(len(right), 0)
        self.assertGreater(len(right) + len(refused), 1000)
        self.assertEqual({str(it) for it in refused if not isinstance(it, earliest.Busy)} - {"the search has answered a later query"}, set())

    def test_a_search_that_waits(self):
        """Answers of a road serve any number of threads at once."""
        road = earliest.Road(NETWORK.gr(), NETWORK.tp())
        found, several = road.search(3, 20), road.search([3, 9], 20)
        walks = [found.walk(node) for node in range(1, 61)]
        others = [several[1].walk(node) for node in range(1, 61)]

        def ask(_):
            return all((found.walk(node), found.arrival(node), several[1].walk(node), several[0].walk(node)) == (walks[node - 1], found.arrival(node), others[node - 1], walks[node - 1]) for node in range(1, 61))

        with concurrent.futures.ThreadPoolExecutor(8) as pool:
            self.assertEqual(list(pool.map(ask, range(16))), [True] * 16)
            search = earliest.Search(road, waits=True)
            want = {source: NETWORK.least([(source, 5)])[7] for source in range(1, 61)}
            found = pool.map(lambda source: search.pair(source, 5, 8), list(want) * 20)
            self.assertEqual([plain.NEVER if it is None else it for it in found], list(want.values()) * 20)


class OneRoad(Case):
    """A road that several threads use."""

    def test_searches_made_by_many_threads(self):
        """Eight threads make searches and check reports on one road, in their own process: without a lock the library refuses them."""
        text = "import threading, earliest, plain\n" \
               "road, failed = earliest.Road(plain.FOUR), []\n" \
               "def make():\n" \
               "    try:\n" \
               "        for _ in range(1500):\n" \
               "            assert list(road.searcher(False).find(1).arrivals) == [0, 5, 2, 6]\n" \
               "            road.check([1], b's 1 0\\nd 1 0\\nd 2 5\\nd 3 2\\nd 4 6\\n')\n" \
               "    except BaseException as error:\n" \
               "        failed.append(error)\n" \
               "threads = [threading.Thread(target=make) for _ in range(8)]\n" \
               "[it.start() for it in threads]\n" \
               "[it.join() for it in threads]\n" \
               "print(failed)\n"
        environment = {**os.environ, "PYTHONPATH": os.pathsep.join((os.environ["PYTHONPATH"], plain.HERE))}
        ran = subprocess.run([sys.executable, "-c", text], env=environment, capture_output=True, text=True, timeout=80)
        self.assertEqual((ran.returncode, ran.stdout), (0, "[]\n"), ran.stderr)

    def test_the_lock_of_a_road(self):
        """No search is made, and nothing is checked or freed, while another thread is in a call with the road."""
        road = earliest.Road(plain.FOUR)
        for call in (road.searcher, lambda: road.search(1), lambda: road.arrivals([1]), lambda: road.pairs([1], [2]), lambda: road.check([], b""),
                     lambda: road.latest(1, 4, 9), lambda: road.departures([4], 9), lambda: road.prepare([1, 2, 3, 4]), road.lay_out, road.close):
            done = threading.Event()
            with road._core.lock:
                other = threading.Thread(target=lambda: (call(), done.set()))
                other.start()
                self.assertFalse(done.wait(0.05))
            other.join()
            self.assertTrue(done.is_set())

    def test_four_threads_on_one_road(self):
        road = earliest.Road(NETWORK.gr(), NETWORK.tp())
        want = [NETWORK.least([(source, 5)]) for source in range(1, 61)]
        with concurrent.futures.ThreadPoolExecutor(4) as pool:
            self.assertEqual(list(pool.map(lambda source: flat(road.search(source, 5).arrivals), range(1, 61))), want)
            self.assertEqual(list(pool.map(lambda source: flat(road.arrivals([source], 5)[0]), range(1, 61))), want)
        self.assertEqual([flat(row) for row in road.arrivals(range(1, 61), 5, threads=4)], want)

    def test_rows_of_a_large_road(self):
        """A matrix by threads is that of one search after the other."""
        road = Large.road()
        sources = [1, 77777, 250000, 1]
        search = road.searcher(walks=False)
        for threads in (1, 4):
            for row, source in zip(road.arrivals(sources, 100, threads=threads), sources):
                self.assertTrue(bytes(row) == bytes(search.find(source, 100).arrivals))

    def test_few_nodes_of_a_large_road(self):
        """Near nodes are found by searches that end when they are settled: in a tenth of the time of the same with all nodes, and the arrivals
        are those of whole searches."""
        road = Large.road()
        sources = [500 * 250 + at for at in range(1, 41)]
        nodes = [source + 7 for source in sources]
        found, times = {}, {}
        for chosen in (nodes, None):
            begun = time.thread_time()
            found[chosen is None] = road.arrivals(sources, 100, nodes=chosen, threads=1)
            times[chosen is None] = time.thread_time() - begun
        for near, whole in zip(found[False], found[True]):
            self.assertEqual(flat(near), [int(whole[node - 1]) for node in nodes])
        self.assertLess(10 * times[False], times[True])

    def test_which_nodes_are_few(self):
        """They are those of the program, and the docstring names them."""
        from earliest import _threads

        with open(os.path.join(plain.ROOT, "crates", "ea_batch", "src", "searching.rt"), encoding="utf-8") as file:
            text = file.read()
        few, part = (int(re.search(rf"pub const {name}: usize = (\d+);", text)[1]) for name in ("FEW", "PART"))
        self.assertEqual((few, part), (_threads.FEW, _threads.PART))
        self.assertIn(f"up to {few} of", earliest.Road.arrivals.__doc__)
        self.assertIn(f"up to a {part}th of", earliest.Road.arrivals.__doc__)
        at = [(nodes, chosen) for nodes in (1, 1023, 1024, 1088, 6400) for chosen in (0, 16, 17, 100, 101) if _threads.are_few(chosen, nodes)]
        self.assertEqual(at, [(nodes, chosen) for nodes, most in ((1, 16), (1023, 16), (1024, 16), (1088, 17), (6400, 100)) for chosen in (0, 16, 17, 100, 101) if chosen <= most])

    @unittest.skipUnless(os.path.exists("/proc/self/statm"), "the system tells no memory")
    def test_memory_of_asked_nodes(self):
        """A search takes the 16 bytes a node that the header names when it is first asked for some nodes, and no more for the next."""
        road, searches = Large.road(), []

        def memory():
            with open("/proc/self/statm", encoding="ascii") as file:
                return int(file.read().split()[1]) * os.sysconf("SC_PAGE_SIZE")

        road.arrivals([1], nodes=[2], threads=1)
        for _ in range(4):
            searches.append(road.searcher(walks=False))
        begun, grown = memory(), []
        for search in searches:
            for _ in range(3):
                test(library().earliest_search_asking(search._handle, address(NODE), 1, address(TIME), 1, address(NODE), 1))
            grown.append(memory() - begun)
        self.assertLess(grown[-1], 4 * 20 * road.nodes)

    def test_how_many_threads_search(self):
        """Each thread makes one search and no more, and there are as many as asked for, or as parts of the work."""
        from earliest import _threads

        for parts, asked, most in ((10, 3, 3), (2, 7, 2), (1, 4, 1), (0, 2, 0)):
            made, done = [], []

            def worker():
                made.append(threading.get_ident())
                time.sleep(0.02)
                return done.append

            _threads.by_threads(parts, asked, worker)
            self.assertEqual((sorted(done), len(set(made)), len(made) <= max(most, 0)), (list(range(parts)), len(made), True))
            self.assertEqual(len(made), most)

    def test_a_failure_in_a_thread(self):
        """What a thread raises is raised by the call, and ends the other threads."""
        from earliest import _threads

        done = []

        def worker():
            def do(part):
                if part == 5:
                    raise MemoryError("13 OutOfMemory")
                time.sleep(0.005)
                done.append(part)

            return do

        with self.assertRaises(MemoryError):
            _threads.by_threads(10000, 4, worker)
        self.assertLess(len(done), 1000)


class Interpreter(Case):
    """Calls of the library let other threads of Python run."""

    def runs_beside(self, call):
        """Whether another thread runs while one is in the call. With so long a switch interval another thread runs only if the call itself
        releases the interpreter's lock."""
        interval = sys.getswitchinterval()
        sys.setswitchinterval(1000)
        try:
            for _ in range(30):
                state = []

                def inside():
                    state.append("in")
                    call()
                    state.append("out")

                other = threading.Thread(target=inside)
                other.start()
                seen = 0
                while other.is_alive():
                    time.sleep(0.0005)
                    seen += state == ["in"]
                other.join()
                if seen:
                    return True
            return False
        finally:
            sys.setswitchinterval(interval)

    def test_long_calls(self):
        text, road = Large.text(), Large.road()
        search = road.searcher(walks=False)
        nodes = road.nodes
        found = road.search(1, walks=False).arrivals
        report = ("s 1 0\n" + "".join(f"d {node} {time}\n" for node, time in enumerate(flat(found), 1))).encode()
        library, failures, handle = earliest._library.library(), earliest._failures, earliest._library.Handle()
        fault, tails = earliest._library.Fault(), road.ends()
        address = earliest._numbers.address
        far = earliest._numbers.filled("Q", 0, 1), earliest._numbers.filled("I", 1, 1)
        for name, call in (
            ("road_read", lambda: library.earliest_road_read(text, len(text), b"", 0, handle, fault)),
            ("road_of_lists", lambda: library.earliest_road_of_lists(nodes, *[it for _ in range(3) for it in (address(tails[0]), len(tails[0]))], address(far[1]), 0, b"", 0, handle, fault)),
            ("search_from", lambda: library.earliest_search_from(search._handle, address(far[1]), 1, address(far[0]), 1)),
            ("search_pair", lambda: library.earliest_search_pair(search._handle, 1, 0, nodes)),
            ("check", lambda: library.earliest_check(road._core.handle, address(far[1]), 1, earliest._library.Starts(0, 0, 0), report, len(report), fault)),
        ):
            self.assertTrue(self.runs_beside(call), name)
            failures.test(0)
        library.earliest_road_free(handle)

    def test_calls_of_the_package(self):
        """The same of the package's own calls; what they do in Python doesn't count, since no thread takes the lock from another one there."""
        road = Large.road()
        search = road.searcher(walks=False)
        for name, call in (("find", lambda: search.find(1)), ("pair", lambda: search.pair(1, 0, road.nodes)), ("read", lambda: earliest.Road(Large.text()))):
            self.assertTrue(self.runs_beside(call), name)


class Processes(Case):
    """Roads in other processes."""

    def setUp(self):
        self.room = tempfile.TemporaryDirectory()
        self.gr, self.tp = (os.path.join(self.room.name, name) for name in ("x.gr", "x.tp"))
        for path, text in ((self.gr, NETWORK.gr()), (self.tp, NETWORK.tp())):
            with open(path, "wb") as file:
                file.write(text)
        self.want = [NETWORK.least([(source, 10)]) for source in range(1, 13)]

    def tearDown(self):
        self.room.cleanup()

    def roads(self):
        lists = [[it[at] for it in NETWORK.arcs] for at in range(4)]
        return earliest.Road.read(self.gr, self.tp), earliest.Road(NETWORK.gr(), NETWORK.tp()), earliest.Road.of_arcs(NETWORK.nodes, *lists, tp=NETWORK.kinds_alone())

    def test_processes(self):
        for method in ("spawn", "fork"):
            with concurrent.futures.ProcessPoolExecutor(2, multiprocessing.get_context(method)) as pool:
                for road in self.roads():
                    self.assertEqual(list(pool.map(row_of, [(road, source) for source in range(1, 13)])), self.want)

    def test_a_fork_while_the_road_is_locked(self):
        """A child isn't stuck on a lock that a thread of its parent held."""
        road = earliest.Road(NETWORK.gr(), NETWORK.tp())
        with road._core.lock:
            child = os.fork()
            if child == 0:
                os._exit(0 if flat(road.search(1, 10).arrivals) == self.want[0] else 1)
        until = time.monotonic() + 10
        while True:
            done, status = os.waitpid(child, os.WNOHANG)
            if done or time.monotonic() > until:
                break
            time.sleep(0.01)
        if not done:
            os.kill(child, 9)
            os.waitpid(child, 0)
        self.assertEqual((done, status), (child, 0))

    def test_a_pickle_has_the_paths(self):
        """They are whole paths, though the files were named from the folder that they lie in."""
        before = os.getcwd()
        try:
            os.chdir(self.room.name)
            text = pickle.dumps(earliest.Road.read("x.gr", "x.tp"))
            os.chdir("/")
            self.assertEqual(flat(pickle.loads(text).search(1, 10).arrivals), self.want[0])
            self.assertEqual(pickle.dumps(pickle.loads(text)), text)
        finally:
            os.chdir(before)
        self.assertLess(len(text), 600)

    def test_a_file_that_changed(self):
        for path in (self.gr, self.tp):
            road = earliest.Road.read(self.gr, self.tp)
            text = pickle.dumps(road)
            with open(path, "rb") as file:
                was = file.read()
            with open(path, "wb") as file:
                file.write(was.replace(b"\n", b" \n", 1) if path == self.tp else was.replace(b"\na ", b"\na  ", 1))
            self.told(OSError, f"{path} has changed", lambda: pickle.loads(text))
            if path == self.gr:
                self.told(OSError, f"{path} has changed", road.ends)
            with open(path, "wb") as file:
                file.write(was)
            self.assertEqual(flat(pickle.loads(text).search(1, 10).arrivals), self.want[0])
            os.rename(path, path + ".away")
            with self.assertRaises(FileNotFoundError):
                pickle.loads(text)
            os.rename(path + ".away", path)

    def test_failures_of_other_processes(self):
        """A pool raises the failure itself, with its numbers."""
        with concurrent.futures.ProcessPoolExecutor(1, multiprocessing.get_context("fork")) as pool:
            self.refused(18, lambda: pool.submit(row_of, (earliest.Road(plain.FOUR), 9)).result(), 9)
            with self.assertRaises(earliest.InputFailure) as caught:
                pool.submit(earliest.Road, b"p sp 1 x\n").result()
        self.assertEqual((caught.exception.line, caught.exception.number, caught.exception.value), (1, 5, "p sp 1 x"))

    @needs("joblib")
    def test_joblib(self):
        for road in self.roads():
            with joblib.parallel_backend("loky", n_jobs=2):
                self.assertEqual(joblib.Parallel()(joblib.delayed(row_of)((road, source)) for source in range(1, 13)), self.want)

    @needs("dask")
    def test_dask(self):
        import dask

        for road in self.roads():
            for scheduler in ("threads", "processes"):
                found = dask.compute(*[dask.delayed(row_of)((road, source)) for source in range(1, 5)], scheduler=scheduler, num_workers=2)
                self.assertEqual(list(found), self.want[:4])


if __name__ == "__main__":
    unittest.main()
