"""A matrix over four worker processes of Dask, one of them killed in the middle: equal to one process, to the number."""
import os
import shutil
import signal
import subprocess
import sys
import tempfile
import unittest

from served import LONG, example, module, needs

SOURCES, NODES = list(range(1, 2000, 7)), [1, 5, 2025, 700]


def roads():
    """How many roads a worker holds."""
    from earliest import cluster

    return len(cluster._roads)


@needs("numpy", "dask", "distributed")
class Cluster(unittest.TestCase):
    @classmethod
    def setUpClass(cls):
        import logging

        import dask
        import earliest
        from distributed import Client, LocalCluster

        cls.room = tempfile.TemporaryDirectory(prefix="cluster-", ignore_cleanup_errors=True)
        dask.config.set({"temporary-directory": cls.room.name, "distributed.comm.timeouts.connect": "60s", "distributed.worker.daemon": True})
        cls.workers = LocalCluster(n_workers=4, threads_per_worker=1, processes=True, dashboard_address=None, silence_logs=logging.CRITICAL)
        cls.client = Client(cls.workers)
        cls.client.wait_for_workers(4)
        cls.road = earliest.Road.read(example("road.gr"), example("road.tp"))
        cls.departures = [1000 + 60 * at for at in range(len(SOURCES))]
        cls.wanted = cls.road.arrivals(SOURCES, cls.departures, threads=1)

    @classmethod
    def tearDownClass(cls):
        cls.client.close()
        cls.workers.close()
        cls.room.cleanup()

    def equal(self, found, wanted):
        self.assertEqual((found.dtype, found.shape), (wanted.dtype, wanted.shape))
        self.assertTrue((found == wanted).all())

    def test_a_worker_dies(self):
        from earliest import cluster

        self.client.wait_for_workers(4)
        processes, killed = self.client.run(lambda: os.getpid()), []

        def progress(done, total):
            if not killed and done >= 20:
                killed.append((done, total))
                os.kill(next(iter(processes.values())), signal.SIGKILL)

        found = cluster.arrivals(self.client, self.road, SOURCES, self.departures, rows=2, progress=progress).compute()
        self.equal(found, self.wanted)
        self.assertLess(*killed[0])
        self.client.wait_for_workers(4)
        self.assertNotIn(next(iter(processes.values())), self.client.run(lambda: os.getpid()).values())

    def test_blocks_of_files_while_a_worker_dies(self):
        import numpy
        from earliest import cluster

        self.client.wait_for_workers(4)
        processes, killed, folder = self.client.run(lambda: os.getpid()), [], os.path.join(self.room.name, "blocks")

        def progress(done, total):
            if not killed and done >= 20:
                killed.append((done, total))
                os.kill(next(iter(processes.values())), signal.SIGKILL)

        paths = cluster.arrivals(self.client, self.road, SOURCES, self.departures, NODES, folder=folder, rows=5, progress=progress)
        self.assertEqual(sorted(os.path.join(folder, it) for it in os.listdir(folder)), paths)
        self.equal(numpy.concatenate([numpy.load(it) for it in paths]), self.wanted[:, [node - 1 for node in NODES]])
        self.assertLess(*killed[0])

    def test_blocks_follow_a_measurement(self):
        from earliest import cluster

        self.client.wait_for_workers(4)
        seen = []
        found = cluster.arrivals(self.client, self.road, SOURCES, self.departures, progress=lambda done, total: seen.append((done, total)))
        self.assertEqual(seen[-1], (len(SOURCES), len(SOURCES)))
        self.assertEqual(sorted(seen), seen)
        # Four blocks a worker, and the block that was measured.
        self.assertEqual(found.chunks[0][0], cluster.FIRST)
        self.assertLessEqual(max(found.chunks[0][1:]), -(-len(SOURCES) // 16))
        self.equal(found.compute(), self.wanted)
        self.equal(found[10:12, 5:9].compute(), self.wanted[10:12, 5:9])
        for at in (cluster._rows(1000, 10.0, 5.0, 4, 10), cluster._rows(1000, 1e-9, 5.0, 4, 2**28)):
            self.assertEqual(at, 1)
        self.assertEqual(cluster._rows(10**6, 0.01, 5.0, 4, 100), 500)

    def test_roads_by_paths_by_lists_and_by_names(self):
        import earliest
        from earliest import cluster

        self.client.wait_for_workers(4)
        some = slice(0, 9)
        by_path = cluster.arrivals(self.client, (example("road.gr"), example("road.tp")), SOURCES[some], self.departures[some], NODES)
        self.equal(by_path.compute(), self.wanted[some][:, [node - 1 for node in NODES]])
        tails, heads = self.road.ends()
        plain = earliest.Road.of_arcs(self.road.nodes, tails, heads, [1 + at % 50 for at in range(self.road.arcs)])
        self.equal(cluster.arrivals(self.client, plain, SOURCES[some], 7, rows=2).compute(), plain.arrivals(SOURCES[some], 7))
        named = plain.named(f"n{node}" for node in range(1, 2026))
        self.equal(cluster.arrivals(self.client, named, ["n1", "n9"], 7, ["n5"], rows=1).compute(), named.arrivals(["n1", "n9"], 7, ["n5"]))
        self.assertEqual(cluster.arrivals(self.client, plain, []).compute().shape, (0, 2025))
        # A worker holds each road once, however many blocks it had.
        self.assertLessEqual(max(self.client.run(roads).values()), 3)

    def test_refusals_come_before_the_workers_and_from_them(self):
        import earliest
        from earliest import cluster

        self.client.wait_for_workers(4)
        with self.assertRaises(earliest.Failure) as refused:
            cluster.arrivals(self.client, self.road, [1, 2026])
        self.assertEqual((refused.exception.number, refused.exception.value), (18, 2026))
        path = os.path.join(self.room.name, "gone.gr")
        shutil.copy(example("four-nodes.gr"), path)
        road = earliest.Road.read(path)
        os.unlink(path)
        with self.assertRaises(OSError):
            cluster.arrivals(self.client, road, [1, 2, 3], rows=1)


class Missing(unittest.TestCase):
    def test_a_sentence_says_what_to_install(self):
        if module("numpy") is None:
            wanted = "python3-numpy"
        else:
            wanted = "python3-dask python3-distributed"
        with tempfile.TemporaryDirectory(prefix="cluster-") as room:
            with open(os.path.join(room, "distributed.py"), "w", encoding="ascii") as out:
                out.write("raise ImportError('none')\n")
            path = os.pathsep.join([room, os.environ["PYTHONPATH"]])
            script = f"import earliest; from earliest import cluster; cluster.arrivals(None, {example('four-nodes.gr')!r}, [1])"
            ran = subprocess.run([sys.executable, "-c", script], env={**os.environ, "PYTHONPATH": path}, capture_output=True, text=True, timeout=LONG)
            self.assertIn(wanted, ran.stderr.splitlines()[-1])
