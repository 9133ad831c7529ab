"""Roads, searches and their results beside a plain Dijkstra, and each call with each refusal."""
import array
import copy
import gc
import os
import pickle
import random
import subprocess
import sys
import tempfile
import unittest
from time import process_time

import earliest
import earliest.report
import plain
from optional import needs, numpy, without

NEVER = plain.NEVER


def flat(values):
    """Times as a list, of an array of any kind."""
    return [int(it) for it in values]


class Case(unittest.TestCase):
    def refused(self, number, call, value=None):
        """A call is refused by a Failure with this number and this value: the failure."""
        with self.assertRaises(earliest.Failure) as caught:
            call()
        self.assertEqual((caught.exception.number, caught.exception.value), (number, value), caught.exception)
        return caught.exception

    def told(self, kind, text, call):
        """A call raises an exception of a kind whose words have a text."""
        with self.assertRaises(kind) as caught:
            call()
        self.assertIn(text, str(caught.exception))
        return caught.exception


class Answers(Case):
    """What searches find, on random networks with five kinds of timetable."""

    def setUp(self):
        self.networks = [plain.network(seed) for seed in range(8)]

    def test_each_source_is_a_problem(self):
        for net in self.networks:
            road = earliest.Road(net.gr(), net.tp())
            sources, departures = [3, 1, 7, 3], [0, 95, 260, 380]
            found = road.search(sources, departures)
            self.assertEqual((len(found), found.sources, found.departures), (4, sources, departures))
            for one, source, departure in zip(found, sources, departures):
                want = net.least([(source, departure)])
                self.assertEqual(flat(one.arrivals), want)
                self.assertEqual([one.arrival(node) for node in range(1, net.nodes + 1)], [None if it == NEVER else it for it in want])

    def test_joint_is_one_problem(self):
        for net in self.networks:
            road = earliest.Road(net.gr(), net.tp())
            found = road.search([3, 1, 7], [40, 0, 95], joint=True)
            self.assertEqual(flat(found.arrivals), net.least([(3, 40), (1, 0), (7, 95)]))
            self.assertEqual((found.sources, found.departures), ([3, 1, 7], [40, 0, 95]))
        self.assertEqual(flat(road.search([], joint=True).arrivals), [NEVER] * road.nodes)

    def test_one_node_is_one_answer(self):
        net = self.networks[0]
        road = earliest.Road(net.gr(), net.tp())
        self.assertEqual(flat(road.search(5, 77).arrivals), net.least([(5, 77)]))
        self.assertEqual(flat(road.search(5).arrivals), net.least([(5, 0)]))

    def test_walks_lead_where_they_say(self):
        for net in self.networks:
            road = earliest.Road(net.gr(), net.tp())
            for at, source in enumerate((1, 2)):
                several = road.search([1, 2], [20, 210])[at]
                alone = road.search(source, (20, 210)[at])
                for found in (several, alone):
                    for node, want in enumerate(net.least([(source, (20, 210)[at])]), 1):
                        walk = found.walk(node)
                        if want == NEVER:
                            self.assertIsNone(walk)
                            self.assertIsNone(found.path(node))
                        else:
                            self.assertEqual(net.walked(source, (20, 210)[at], walk), (node, want))
                            self.assertEqual(found.path(node), [net.arcs[arc - 1][0] for arc in walk] + [node])

    def test_walks_of_several_problems_in_any_order(self):
        net = self.networks[1]
        found = earliest.Road(net.gr(), net.tp()).search(list(range(1, 11)), 50)
        want = [net.least([(source, 50)]) for source in range(1, 11)]
        asked = [(at, node) for at in range(10) for node in range(1, net.nodes + 1)]
        for order in (asked, sorted(asked, key=lambda it: (it[1], it[0]))):
            for at, node in order:
                walk = found[at].walk(node)
                self.assertEqual(None if walk is None else net.walked(at + 1, 50, walk), None if want[at][node - 1] == NEVER else (node, want[at][node - 1]))

    def test_a_road_of_lists_is_that_of_its_text(self):
        for net in self.networks:
            lists = [[it[at] for it in net.arcs] for at in range(4)]
            made = earliest.Road.of_arcs(net.nodes, *lists, tp=net.kinds_alone())
            self.assertEqual((made.nodes, made.arcs), (net.nodes, len(net.arcs)))
            self.assertEqual(flat(made.search(2, 99).arrivals), net.least([(2, 99)]))
            self.assertEqual(flat(made.search(2, 99).arrivals), flat(earliest.Road(net.gr(), net.tp()).search(2, 99).arrivals))
            self.assertEqual(tuple(map(flat, made.ends())), (lists[0], lists[1]))
            self.assertEqual(tuple(map(flat, earliest.Road(net.gr()).ends())), (lists[0], lists[1]))

    def test_a_departure_at_the_horizon(self):
        road = earliest.Road(b"p sp 2 2\na 1 2 0\na 2 1 1\n")
        horizon = earliest.HORIZON
        found = road.search(1, horizon)
        self.assertEqual(flat(found.arrivals), [horizon, horizon])
        self.assertEqual((found.arrival(2), found.walk(2)), (horizon, [1]))
        self.assertEqual(road.searcher().pair(1, horizon, 2), horizon)
        self.assertEqual(flat(road.pairs([1, 2], [2, 1], horizon)), [horizon, NEVER])
        self.assertEqual(flat(road.arrivals([1], horizon)[0]), [horizon, horizon])
        self.assertIsNone(road.search(2, horizon).arrival(1))
        self.assertEqual(road.search([2], horizon)[0].reached(), {2: horizon})

    def test_departures_of_more_than_32_bits(self):
        road = earliest.Road(plain.FOUR)
        for departure in (2**32 - 1, 2**32, 2**32 + 7, 2**40 + 1):
            self.assertEqual(flat(road.search(1, departure).arrivals), [departure + it for it in (0, 5, 2, 6)])
            self.assertEqual(road.searcher().pair(1, departure, 4), departure + 6)
            self.assertEqual(flat(road.pairs(1, [4, 2], departure)), [departure + 6, departure + 5])

    def test_pairs_at_their_own_departures(self):
        for net in self.networks[:4]:
            road = earliest.Road(net.gr(), net.tp())
            # Times a period of all kinds apart differ if a kind has none, so no departure can be taken for another one.
            departures = [at * plain.DAY + part for at in (0, 1, 3) for part in (0, 20, 250)]
            pairs = [(source, target, departure) for source in (1, 4) for target in range(1, 41, 3) for departure in departures]
            want = [net.least([(source, departure)])[target - 1] for source, target, departure in pairs]
            self.assertEqual(flat(road.pairs(*map(list, zip(*pairs)))), want)
            search = road.searcher(walks=False)
            self.assertEqual([search.pair(source, departure, target) for source, target, departure in pairs], [None if it == NEVER else it for it in want])

    def test_profile(self):
        for net in self.networks[:4]:
            road = earliest.Road(net.gr(), net.tp())
            departures = range(0, 700, 23)
            for source, target in ((1, 9), (2, 30), (5, 5)):
                self.assertEqual(flat(road.profile(source, target, departures)), [net.least([(source, it)])[target - 1] for it in departures])

    def test_a_prepared_road(self):
        for net in self.networks:
            road, plain_one = (earliest.Road(net.gr(), net.tp()) for _ in range(2))
            before = road.searcher(walks=False)
            self.assertFalse(road.prepared)
            self.assertIs(road.prepare(), road)
            self.assertTrue(road.prepared and road.numbered.prepared and copy.copy(road).prepared and not plain_one.prepared)
            sources, targets = ([it % 40 + 1 for it in range(at, at + 120)] for at in (0, 13))
            departures = [7 * it for it in range(120)]
            want = [net.least([(source, departure)])[target - 1] for source, target, departure in zip(sources, targets, departures)]
            for threads in (1, 4):
                self.assertEqual(flat(road.pairs(sources, targets, departures, threads=threads)), want)
            self.assertEqual(flat(plain_one.pairs(sources, targets, departures)), want)
            after = road.searcher()
            for search in (before, after):
                self.assertEqual([search.pair(*it) for it in zip(sources, departures, targets)], [None if it == NEVER else it for it in want])
            # It is a road still: all nodes, walks, latest departures, pickles.
            self.assertEqual(flat(after.find(3, 95).arrivals), net.least([(3, 95)]))
            self.assertEqual([road.search(3, 95).walk(node) for node in range(1, 41)], [plain_one.search(3, 95).walk(node) for node in range(1, 41)])
            self.assertEqual((road.nodes, road.arcs, int(road.latest(1, 9, 300))), (40, 120, int(plain_one.latest(1, 9, 300))))
            other = pickle.loads(pickle.dumps(road))
            self.assertFalse(other.prepared)
            self.assertEqual(flat(other.prepare().prepare().pairs(sources, targets, departures)), want)
            named = road.named([f"n{node}" for node in range(1, 41)])
            self.assertEqual((named.prepared, int(named.pairs("n1", "n14", 0))), (True, want[0]))
            road.close()
            self.assertEqual(after.pair(sources[0], departures[0], targets[0]), None if want[0] == NEVER else want[0])
            self.refused(16, road.prepare)

    def test_a_road_that_is_prepared_over_an_order(self):
        for net in self.networks:
            sources, targets = ([it % 40 + 1 for it in range(at, at + 120)] for at in (0, 13))
            departures = [7 * it for it in range(120)]
            want = [net.least([(source, departure)])[target - 1] for source, target, departure in zip(sources, targets, departures)]
            names = [f"n{node}" for node in range(1, 41)]
            for order in (range(1, 41), [*range(40, 0, -1)], [node * 7 % 41 for node in range(1, 41)]):
                road = earliest.Road(net.gr(), net.tp())
                self.assertTrue(road.prepare(order).prepared)
                self.assertEqual(flat(road.pairs(sources, targets, departures)), want)
                # It is prepared anew, over names, too, and over an order that is looked for.
                self.assertEqual(flat(road.named(names).prepare(names[::-1]).numbered.pairs(sources, targets, departures)), want)
                self.assertEqual(flat(earliest.Road(net.gr(), net.tp()).prepare().prepare(order).pairs(sources, targets, departures)), want)
            road = earliest.Road(net.gr(), net.tp())
            for order in ([], range(1, 40), [*range(1, 40), 39], [1] * 40, [*range(1, 41), 1]):
                self.refused(27, lambda: road.prepare(order))
            self.refused(18, lambda: road.prepare([*range(40)]), 0)
            self.assertEqual((road.prepared, flat(road.pairs(sources, targets, departures))), (False, want))

    def test_a_road_that_is_prepared_like_another(self):
        net, other = self.networks[:2]
        sources, targets = ([it % 40 + 1 for it in range(at, at + 120)] for at in (0, 13))
        departures = [7 * it for it in range(120)]
        wants = [[it.least([(source, departure)])[target - 1] for source, target, departure in zip(sources, targets, departures)] for it in (net, other)]
        first, second = (earliest.Road(it.gr(), it.tp()) for it in (net, other))
        self.refused(27, lambda: first.prepare(like=second))
        self.refused(27, lambda: second.prepare(like=earliest.Road(b"p sp 2 1\na 1 2 3\n").prepare([2, 1])))
        self.assertEqual((first.prepared, flat(first.pairs(sources, targets, departures))), (False, wants[0]))
        # Other arcs, too, are prepared over the order, and a road like itself is prepared once.
        self.assertIs(second.prepare(like=first.prepare()), second)
        self.assertEqual([flat(it.pairs(sources, targets, departures)) for it in (first, second, first.prepare(like=first))], [*wants, wants[0]])
        self.assertTrue(first.prepared and second.prepared)
        # Other weights of the same arcs, some of these arcs, and one more arc.
        slower = [(tail, head, 2 * weight + 1, kind) for tail, head, weight, kind in net.arcs]
        for arcs in (slower, slower[::2], [*slower, (1, 40, 1, 0)], [*slower, (40, 1, 0, 0), (7, 33, 2, 0)]):
            changed = plain.Network(40, arcs, net.kinds[1:])
            want = [changed.least([(source, departure)])[target - 1] for source, target, departure in zip(sources, targets, departures)]
            self.assertEqual(flat(earliest.Road(changed.gr(), changed.tp()).prepare(like=first).pairs(sources, targets, departures)), want)
        with self.assertRaises(ValueError):
            first.prepare(range(1, 41), like=second)
        second.close()
        self.refused(27, lambda: first.prepare(like=second))
        self.refused(16, lambda: second.prepare(like=first))
        self.assertEqual(flat(first.pairs(sources, targets, departures)), wants[0])

    def test_latest_departures_on_a_prepared_road(self):
        for net in self.networks:
            road, plain_one = (earliest.Road(net.gr(), net.tp()) for _ in range(2))
            sources, targets = ([it % 40 + 1 for it in range(at, at + 120)] for at in (0, 13))
            times = [30 + 9 * it for it in range(120)]
            want = flat(plain_one.latest(sources, targets, times))
            matrix = [flat(row) for row in plain_one.departures([9, 3], [300, 220])]
            for source, target, time, found in [*zip(sources, targets, times, want)][:40:17]:
                in_time = [it for it in range(time + 1) if net.least([(source, it)])[target - 1] <= time]
                self.assertEqual(found, in_time[-1] if in_time else NEVER)
            # The road is turned round before it is prepared, and once more after.
            self.assertEqual(flat(road.latest(sources, targets, times)), want)
            self.assertIs(road.prepare(), road)
            for threads in (1, 4):
                self.assertEqual(flat(road.latest(sources, targets, times, threads=threads)), want)
                self.assertEqual([flat(row) for row in road.departures([9, 3], [300, 220], threads=threads)], matrix)
            self.assertEqual(flat(earliest.Road(net.gr(), net.tp()).prepare(range(1, 41)).latest(sources, targets, times)), want)

    def test_pairs_and_all_nodes_in_turns_on_a_prepared_road(self):
        for net in self.networks:
            search = earliest.Road(net.gr(), net.tp()).prepare().searcher()
            for at in range(40):
                source, target, departure = at % 40 + 1, at * 7 % 40 + 1, 11 * at
                want = net.least([(source, departure)])
                for _ in range(2):
                    self.assertEqual(search.pair(source, departure, target), None if want[target - 1] == NEVER else want[target - 1])
                found = search.find(source, departure)
                self.assertEqual(flat(found.arrivals), want)
                walk = found.walk(target)
                self.assertEqual(walk is None, want[target - 1] == NEVER)
                if walk is not None:
                    self.assertEqual(net.walked(source, departure, walk), (target, want[target - 1]))

    def test_pairs_on_a_prepared_road_take_a_fraction_of_the_time(self):
        nodes, tails, heads, weights = plain.grid(150, part=0.65)
        roads = [earliest.Road.of_arcs(nodes, tails, heads, weights) for _ in range(2)]
        # What was turned round before isn't prepared, and has to go.
        roads[1].latest(1, 2, 5)
        roads[1].prepare()
        words = random.Random(2)
        sources, targets = ([words.randint(1, nodes) for _ in range(400)] for _ in range(2))
        for call in (lambda road: road.pairs(sources, targets, 0, threads=1), lambda road: road.latest(sources, targets, earliest.HORIZON, threads=1)):
            took, found = [], []
            for road in roads:
                call(road)
                begun = process_time()
                found.append(flat(call(road)))
                took.append(process_time() - begun)
            self.assertEqual(found[0], found[1])
            self.assertLess(2 * took[1], took[0])

    def test_a_road_that_is_laid_out(self):
        nodes, tails, heads, weights = plain.shuffled(*plain.grid(260, part=0.8))
        classes = [number % 3 for number in range(len(tails))]
        made = lambda: earliest.Road.of_arcs(nodes, tails, heads, weights, classes, b"p tp 2 0\nk 1 every 60 7\nk 2 rush 500 900 40\n")
        plain_one, laid = made().lay_out(wanted=False), made()
        # What was turned round before isn't laid out, and has to go; a search from before is as it was.
        before, by = laid.searcher(), [int(laid.latest(1, 2, 10**6)), int(plain_one.latest(1, 2, 10**6))]
        self.assertEqual(by[0], by[1])
        self.assertEqual((laid.lay_out() is laid, laid.laid_out, plain_one.laid_out, copy.copy(laid).laid_out, laid.prepared), (True, True, False, True, False))
        for call in (lambda road: road.arrivals([5, 77, nodes], [0, 480, 10**9]),
                     lambda road: [road.search([5, 77], [30, 0], joint=True).arrivals],
                     lambda road: road.departures([3, 70], [10**6, 700]),
                     lambda road: [road.pairs([1, 2, 3], [9, 8, 7], 450), road.latest([1, 2, 3], [9, 8, 7], 10**5)]):
            self.assertEqual([flat(row) for row in call(laid)], [flat(row) for row in call(plain_one)])
        walks = [road.search(9, 480, walks=True) for road in (laid, plain_one)]
        for target in range(1, nodes, 4999):
            self.assertEqual(*(None if it.walk(target) is None else flat(it.walk(target)) for it in walks))
        self.assertEqual(flat(before.find(5, 0).arrivals), flat(laid.arrivals([5])[0]))
        self.assertEqual((laid.prepare().prepared, laid.laid_out), (True, False))
        self.assertEqual(flat(laid.lay_out().arrivals([77], 480)[0]), flat(plain_one.arrivals([77], 480)[0]))
        self.assertEqual((laid.prepared, pickle.loads(pickle.dumps(laid)).laid_out), (True, False))
        laid.close()
        self.refused(16, laid.lay_out)

    def test_when_a_road_is_laid_out(self):
        lists = plain.shuffled(*plain.grid(260))
        for rows, threads, is_laid in ((11, 2, False), (12, 2, True), (5, 1, False), (6, 1, True)):
            for call in (lambda road: road.arrivals(list(range(1, rows + 1)), threads=threads), lambda road: road.departures([1] * rows, 99, threads=threads)):
                road = earliest.Road.of_arcs(*lists)
                call(road)
                self.assertEqual(road.laid_out, is_laid, (rows, threads))
        # Few nodes need no layout, and neither do small roads, those in order, and those that are not to have one.
        road = earliest.Road.of_arcs(*lists)
        road.arrivals(list(range(1, 13)), nodes=[5, 6], threads=1)
        others = [earliest.Road.of_arcs(*lists).lay_out(wanted=False), earliest.Road.of_arcs(*plain.grid(260)), earliest.Road.of_arcs(*plain.shuffled(*plain.grid(250)))]
        for other in others:
            other.arrivals(list(range(1, 13)), threads=1)
        for other in others[1:]:
            other.lay_out()
        self.assertEqual([it.laid_out for it in (road, *others)], [False] * 4)

    def test_searches_on_a_layout_take_less_time(self):
        lists = plain.shuffled(*plain.grid(500))
        roads = [earliest.Road.of_arcs(*lists) for _ in range(2)]
        begun = process_time()
        self.assertTrue(roads[1].lay_out().laid_out)
        layout = process_time() - begun
        roads[0].lay_out(wanted=False)
        for call in (lambda road: road.arrivals([3, 4], threads=1), lambda road: road.departures([3, 4], earliest.HORIZON, threads=1)):
            took = [[], []]
            for _ in range(5):
                for times, road in zip(took, roads):
                    begun = process_time()
                    call(road)
                    times.append(process_time() - begun)
            self.assertLess(min(took[1]), 0.85 * min(took[0]), took)
            # A layout takes as long as some searches; these are of two rows.
            self.assertLess(layout, 10 * min(took[0]))

    def test_a_road_that_is_not_worth_a_preparation(self):
        net = plain.network(3, 4000, 16000, ())
        road = earliest.Road(net.gr())
        self.refused(26, road.prepare)
        self.assertEqual((road.prepared, flat(road.search(1).arrivals)), (False, net.least([(1, 0)])))

    def test_latest(self):
        for net in self.networks[:3]:
            road = earliest.Road(net.gr(), net.tp())
            for source, target, by in ((1, 9, 300), (2, 30, 500), (4, 12, 90), (5, 5, 77), (1, 17, 5)):
                in_time = [it for it in range(by + 1) if net.least([(source, it)])[target - 1] <= by]
                self.assertEqual(int(road.latest(source, target, by)), in_time[-1] if in_time else NEVER)
        self.assertEqual(flat(road.latest([1, 5], 5, [0, earliest.HORIZON])), [NEVER, earliest.HORIZON])

    def test_departures_of_all_nodes(self):
        for net in self.networks[:3]:
            road = earliest.Road(net.gr(), net.tp())
            targets, by = [9, 30, 5], [120, 95, 0]
            rows = []
            for target, time in zip(targets, by):
                # The plain arrivals from every node at every departure up to the time.
                in_time = [[it for it in range(time + 1) if net.least([(source, it)])[target - 1] <= time] for source in range(1, 41)]
                rows.append([its[-1] if its else NEVER for its in in_time])
            for threads in (None, 1, 3):
                self.assertEqual([flat(row) for row in road.departures(targets, by, threads=threads)], rows)
                self.assertEqual([flat(row) for row in road.departures(targets, by, nodes=[40, 9, 9], threads=threads)], [[row[39], row[8], row[8]] for row in rows])
            self.assertEqual((flat(road.departures(9, 120)), int(road.departures(9, 120, nodes=9))), (rows[0], 120))
            self.assertEqual(flat(road.departures(targets, by, nodes=9)), [row[8] for row in rows])
        self.assertEqual(len(road.departures([], [])), 0)
        names = [f"n{node}" for node in range(1, 41)]
        self.assertEqual(flat(road.named(names).departures("n5", 0)), rows[2])
        road.close()
        self.refused(16, lambda: road.departures(9, 120))

    def test_matrix(self):
        for net in self.networks[:4]:
            road = earliest.Road(net.gr(), net.tp())
            sources, departures, nodes = [1, 5, 9, 5], [0, 33, 120, 260], [40, 2, 2, 17]
            want = [net.least([start]) for start in zip(sources, departures)]
            for threads in (None, 1, 2, 7):
                self.assertEqual([flat(row) for row in road.arrivals(sources, departures, threads=threads)], want)
                picked = road.arrivals(sources, departures, nodes=nodes, threads=threads)
                self.assertEqual([flat(row) for row in picked], [[row[node - 1] for node in nodes] for row in want])
            self.assertEqual(flat(road.arrivals(5, 33)), want[1])
            few, many = [40, 2, 2, 17] * 4, [40, 2, 2, 17] * 4 + [1]
            for chosen in (few, many):
                picked = road.arrivals(sources, departures, nodes=chosen, threads=2)
                self.assertEqual([flat(row) for row in picked], [[row[node - 1] for node in chosen] for row in want])
            self.assertEqual([flat(row) for row in road.arrivals([1, 5], nodes=[])], [[], []])
            self.assertEqual(int(road.arrivals(5, 33, nodes=17)), want[1][16])
            self.assertEqual(flat(road.arrivals(sources, departures, nodes=17)), [row[16] for row in want])
        self.assertEqual(len(road.arrivals([])), 0)
        self.assertEqual(len(road.pairs([], [], [])), 0)

    @needs("numpy")
    def test_a_matrix_into_an_array_that_is_given(self):
        net = self.networks[0]
        road = earliest.Road(net.gr(), net.tp())
        sources, departures, by = [1, 5, 9, 5], [0, 33, 120, 260], [300, 220, 90, 260]
        many = [40, 2, 2, 17] * 4 + [1]
        with tempfile.TemporaryDirectory() as folder:
            for nodes in (None, [40, 2, 2, 17], many, [], 17):
                for one in (False, True):
                    for call, times in ((road.arrivals, departures), (road.departures, by)):
                        starts, when = (sources[1], times[1]) if one else (sources, times)
                        want = call(starts, when, nodes=nodes, threads=2)
                        shape = numpy.shape(want)
                        whole = numpy.full((3, *shape), 77, dtype=numpy.uint64)
                        for out in (whole[1, ...], numpy.memmap(os.path.join(folder, "out"), dtype=numpy.uint64, mode="w+", shape=shape)) if numpy.size(want) else (whole[1, ...],):
                            self.assertIs(call(starts, when, nodes=nodes, threads=2, out=out), out)
                            self.assertTrue(numpy.array_equal(out, want))
                        # Nothing is written beside it.
                        self.assertTrue((whole[0] == 77).all() and (whole[2] == 77).all())
        # Each search's times are its own, whatever was in the memory before, and lists may lie in it.
        out = numpy.zeros((4, 40), dtype=numpy.uint64)
        out[0, :4] = departures
        road.arrivals(sources, out[0, :4], out=out)
        self.assertTrue(numpy.array_equal(out, road.arrivals(sources, departures)))

    @needs("numpy")
    def test_arrays_that_are_no_room_for_a_matrix(self):
        road = earliest.Road(self.networks[0].gr(), self.networks[0].tp())
        good = numpy.full((2, 40), 77, dtype=numpy.uint64)
        fixed = good.copy()
        fixed.flags.writeable = False
        for call in (lambda **more: road.arrivals([1, 5], 33, **more), lambda **more: road.departures([1, 5], 33, **more)):
            for out in ([[0] * 40] * 2, good.astype(numpy.int64), good.astype(numpy.float64), good.astype(">u8"), numpy.ma.masked_array(good), array.array("Q", [0] * 80)):
                with self.assertRaises(TypeError):
                    call(out=out)
            for out in (good[:1], good[:, :39], good.reshape(80), good.reshape((1, 2, 40)), numpy.asfortranarray(good), numpy.zeros((2, 80), dtype=numpy.uint64)[:, ::2], fixed):
                with self.assertRaises(ValueError):
                    call(out=out)
            for more in ({"unit": "s"}, {"masked": True}, {"as_float": True}):
                with self.assertRaises(ValueError):
                    call(out=good, **more)
            with self.assertRaises(ValueError):
                call(nodes=[1, 2], out=good)
        self.assertTrue((good == 77).all() and (fixed == 77).all())

    def test_a_search_used_again(self):
        net = self.networks[2]
        search = earliest.Road(net.gr(), net.tp()).searcher()
        for source in range(1, 20):
            self.assertEqual(flat(search.find(source, 30 * source).arrivals), net.least([(source, 30 * source)]))
        self.assertEqual(flat(search.find([2, 4], [9, 8], joint=True).arrivals), net.least([(2, 9), (4, 8)]))

    def test_an_array_stays_as_it_is(self):
        road = earliest.Road(plain.FOUR)
        search = road.searcher()
        first, second = search.find(1).arrivals, search.find(3).arrivals
        search.pair(1, 0, 4)
        self.assertEqual((flat(first), flat(second)), ([0, 5, 2, 6], [NEVER, 3, 0, 4]))
        answer = search.find(1)
        first, second = answer.arrivals, answer.arrivals
        first[0] = 9
        self.assertEqual((flat(second), flat(answer.arrivals)), ([0, 5, 2, 6],) * 2)
        found = road.search([1, 3])
        rows = [one.arrivals for one in found]
        road.search([4, 2])
        self.assertEqual([flat(it) for it in rows], [[0, 5, 2, 6], [NEVER, 3, 0, 4]])
        matrix = road.arrivals([1, 3])
        road.arrivals([4, 2])
        self.assertEqual([flat(it) for it in matrix], [[0, 5, 2, 6], [NEVER, 3, 0, 4]])

    def test_lists_that_change_later(self):
        tails, heads, weights = (array.array("I", it) for it in ((1, 1, 3, 2, 3), (2, 3, 2, 4, 4), (7, 2, 3, 1, 9)))
        if numpy:
            tails, heads, weights = map(numpy.array, (tails, heads, weights))
        road = earliest.Road.of_arcs(4, tails, heads, weights)
        tails[0] = heads[1] = weights[2] = 0
        self.assertEqual(flat(pickle.loads(pickle.dumps(road)).search(1).arrivals), [0, 5, 2, 6])
        self.assertEqual(flat(road.ends()[1]), [2, 3, 2, 4, 4])
        for made in (road, earliest.Road(plain.FOUR)):
            try:
                made.ends()[1][0] = 4
            except ValueError:
                pass  # NumPy's are not to be written to.
            self.assertEqual((flat(made.ends()[1]), flat(pickle.loads(pickle.dumps(made)).ends()[1])), ([2, 3, 2, 4, 4],) * 2)

    def test_long_walks(self):
        """Walks longer than any first room, in their own process, since a loop that never ends would be one here."""
        text = "import sys, plain, earliest\n" \
               "for count in (255, 256, 257, 511, 512, 513, 5000, 100000):\n" \
               "    road = earliest.Road(plain.path_of(count).gr())\n" \
               "    for found in (road.search(1), road.search([1])[0], road.searcher().find(1)):\n" \
               "        walk = found.walk(count + 1)\n" \
               "        assert walk == list(range(1, count + 1)), count\n" \
               "print('done')\n"
        environment = {**os.environ, "PYTHONPATH": os.pathsep.join((os.environ["PYTHONPATH"], plain.HERE))}
        ran = subprocess.run([sys.executable, "-c", text], env=environment, capture_output=True, text=True, timeout=40)
        self.assertEqual((ran.returncode, ran.stdout), (0, "done\n"), ran.stderr)


class Refusals(Case):
    """What calls don't take, and how they say so."""

    def setUp(self):
        self.road = earliest.Road(plain.FOUR)

    def test_nodes(self):
        for node in (0, 5, -1, 2**32 + 1, 2**70):
            for call in (lambda: self.road.search(node), lambda: self.road.search([1, node]), lambda: self.road.arrivals([node]), lambda: self.road.search(1).arrival(node),
                         lambda: self.road.arrivals(1, nodes=[node]), lambda: self.road.pairs([node], [1]), lambda: self.road.pairs([1], [node]), lambda: self.road.profile(1, node, [0]),
                         lambda: self.road.search([1])[0].walk(node), lambda: self.road.searcher().pair(node, 0, 1), lambda: self.road.searcher().pair(1, 0, node),
                         lambda: self.road.searcher().find(node), lambda: self.road.number(node), lambda: self.road.name(node), lambda: self.road.check([node], b""),
                         lambda: self.road.latest(1, node, 5), lambda: self.road.departures([node], 5), lambda: self.road.departures(1, 5, nodes=[node])):
                self.assertIn("whose nodes are 1 to 4", str(self.refused(18, call, node)))

    def test_departures(self):
        for departure in (2**48, -1, 2**64, 2**70):
            for call in (lambda: self.road.search(1, departure), lambda: self.road.search([1, 2], [0, departure]), lambda: self.road.arrivals([1], departure),
                         lambda: self.road.pairs([1], [1], [departure]), lambda: self.road.profile(1, 2, [3, departure]), lambda: self.road.searcher().pair(1, departure, 1),
                         lambda: self.road.searcher().find(1, departure), lambda: self.road.latest(1, 2, departure), lambda: self.road.check([1], b"", departure),
                         lambda: self.road.departures([1, 2], departure), lambda: self.road.check([1], b"", 0, departure)):
                self.refused(19, call, departure)
        self.refused(19, lambda: self.road.check([1, 2], b"", 2**48 - 1, 1), 2**48)

    def test_lengths(self):
        for call, lengths in ((lambda: self.road.search([1, 2], [0]), (2, 1)), (lambda: self.road.search([1], []), (1, 0)), (lambda: self.road.search([1, 2], [], joint=True), (2, 0)),
                              (lambda: self.road.arrivals([1], [1, 2]), (1, 2)), (lambda: self.road.search([], [0]), (0, 1)), (lambda: self.road.arrivals([1, 2], departures=[]), (2, 0)),
                              (lambda: self.road.searcher().find([1], []), (1, 0)), (lambda: self.road.search(1, []), (1, 0)),
                              (lambda: self.road.pairs([1, 2], [1, 2, 3]), (2, 3, 1)), (lambda: self.road.pairs([1, 2], 1, [0, 0, 0]), (2, 1, 3)), (lambda: self.road.pairs([1], [], 0), (1, 0, 1)),
                              (lambda: self.road.pairs([1, 2], 1, []), (2, 1, 0)), (lambda: self.road.latest([1, 2], [3], 4), (2, 1, 1)), (lambda: self.road.departures([1, 2], [4]), (2, 1))):
            self.refused(23, call, lengths)
        self.assertEqual(len(self.road.profile(1, 2, [])), 0)

    def test_no_whole_numbers(self):
        for value in (1.0, 1.5, "1", None, True, [1], b"1"):
            for call in (lambda: self.road.search([value]), lambda: self.road.search(1, [value]), lambda: self.road.arrivals([1], nodes=[value]), lambda: self.road.pairs([1], [value]),
                         lambda: self.road.search(1).walk(value), lambda: self.road.searcher().pair(value, 0, 1), lambda: self.road.searcher().pair(1, value, 1), lambda: self.road.check([1], b"", value),
                         lambda: earliest.Road.of_arcs(2, [value], [1], [1]), lambda: earliest.Road.of_arcs(2, [1], [1], [value]), lambda: self.road.arrivals([1], threads=value) if value is not None else self.road.search([None])):
                with self.assertRaises(TypeError):
                    call()
        for value in (1.0, 1.5, True):
            for call in (lambda: self.road.search(value), lambda: self.road.search(1, value), lambda: self.road.search(1).arrival(value), lambda: earliest.Road.of_arcs(value, [], [], [])):
                self.told(TypeError, f"has to be a whole number, not {value}", call)
        for value in ("12", b"12", {1, 2}, {1: 2}):
            for call in (lambda: self.road.search(1, value), lambda: earliest.Road.of_arcs(2, value, [1], [1])):
                with self.assertRaises(TypeError):
                    call()
        self.told(TypeError, "not set", lambda: self.road.arrivals({1, 2}))

    def test_threads(self):
        for threads in (0, -1):
            self.told(ValueError, f"threads has to be at least 1, not {threads}", lambda: self.road.arrivals([1], threads=threads))
            self.told(ValueError, f"threads has to be at least 1, not {threads}", lambda: self.road.pairs([1], [1], threads=threads))

    def test_several_sources_in_one_query(self):
        self.told(ValueError, "joint=True", lambda: self.road.searcher().find([1, 2]))
        self.told(ValueError, "joint=True", lambda: self.road.searcher().find([]))
        self.assertEqual(flat(self.road.searcher().find([1]).arrivals), [0, 5, 2, 6])

    def test_profiles_and_latest_departures(self):
        for call in (lambda: self.road.profile([1], 2, [0]), lambda: self.road.profile(1, [2], [0]), lambda: self.road.profile(1, 2, 0), lambda: self.road.profile(1, 2, None)):
            self.told(TypeError, "a profile", call)
        self.told(TypeError, "latest takes the times", lambda: self.road.latest(1, 2, None))
        self.told(TypeError, "departures takes the times", lambda: self.road.departures(1, None))

    def test_a_later_query(self):
        search = self.road.searcher()
        first = search.find(1)
        search.pair(1, 0, 4)
        for call in (lambda: first.arrivals, lambda: first.arrival(1), lambda: first.walk(4), first.reached):
            self.told(RuntimeError, "the search has answered a later query", call)

    def test_without_walks(self):
        self.refused(21, lambda: self.road.search(1, walks=False).walk(4))
        self.refused(21, lambda: self.road.search([1], walks=False)[0].walk(4))
        self.refused(21, lambda: self.road.searcher(False).find(1).walk(4))
        self.assertEqual(self.road.search(1, walks=False).arrival(4), 6)

    def test_places_of_answers(self):
        found = self.road.search([1, 3])
        self.assertEqual([flat(it.arrivals) for it in found[::-1]], [[NEVER, 3, 0, 4], [0, 5, 2, 6]])
        self.assertEqual(found[-1].sources, [3])
        for at in (2, -3):
            self.told(IndexError, "there are 2 answers", lambda: found[at])

    def test_lists_of_arcs(self):
        make = earliest.Road.of_arcs
        for call, line, number, value in ((lambda: make(0, [], [], []), 1, 6, "0 nodes"), (lambda: make(2**40, [], [], []), 1, 6, f"{2**40} nodes"), (lambda: make(-1, [], [], []), 1, 6, "-1 nodes"),
                                          (lambda: make(2, [1, 2], [2, 3], [1, 1]), 3, 6, (2, 3, 1)), (lambda: make(2, [0], [1], [1]), 2, 6, (0, 1, 1))):
            with self.assertRaises(earliest.InputFailure) as caught:
                call()
            self.assertEqual((caught.exception.file, caught.exception.line, caught.exception.number, caught.exception.value), ("gr", line, number, value))
        for call, line, number in ((lambda: make(2, [1], [2], [1], [1]), 0, 6), (lambda: make(2, [1], [2], [1], [1], b"p tp 1 1\nk 1 plain\nt 1 1\n"), 3, 6), (lambda: make(2, [1], [2], [1], [0], b""), 0, 1)):
            with self.assertRaises(earliest.InputFailure) as caught:
                call()
            self.assertEqual((caught.exception.file, caught.exception.line, caught.exception.number), ("tp", line, number))
        self.refused(23, lambda: make(2, [1, 2], [2], [1, 1]), (2, 1, 2))
        self.refused(23, lambda: make(2, [1], [2], [1], []), (1, 1, 1, 0))
        for weight in (2**32, -1):
            for given in ([1, weight], iter([1, weight])):
                said = f"weights: a number is not within 0 to 4294967295: {weight}, at place 1"
                self.assertEqual(self.told(OverflowError, said, lambda: make(2, [1, 1], [2, 2], given)).outside, weight)

    def test_closed(self):
        with earliest.Road(plain.FOUR) as road:
            search = road.searcher()
            self.assertIn("4 nodes, 5 arcs", repr(road))
        for call in (lambda: road.search(1), lambda: road.search([1]), lambda: road.arrivals([1]), lambda: road.arrivals([]), lambda: road.pairs([1], [2]), lambda: road.pairs([], []), lambda: road.searcher(), lambda: road.check([1], b"")):
            self.refused(16, call)
        self.assertIn("closed", repr(road))
        road.close()
        with search:
            self.assertEqual(search.pair(1, 0, 4), 6)
        for call in (lambda: search.find(1), lambda: search.pair(1, 0, 4)):
            self.refused(17, call)
        search.close()
        self.assertEqual(repr(search), "<earliest.Search, closed>")


class Checks(Case):
    """Reports that are right, and their first faults."""

    def setUp(self):
        self.road = earliest.Road(plain.FOUR)
        self.right = b"s 1 0\nd 1 0\nd 2 5\nd 3 2\nd 4 6\n"

    def fault(self, number, line, call):
        with self.assertRaises(earliest.InputFailure) as caught:
            call()
        self.assertEqual((caught.exception.number, caught.exception.line, caught.exception.file), (number, line, "report"))
        return caught.exception

    def test_right(self):
        self.assertIsNone(self.road.check([1], self.right))
        self.assertIsNone(self.road.check(1, self.right))
        self.assertIsNone(self.road.check([], b""))

    def test_wrong(self):
        self.assertEqual(self.fault(32, 3, lambda: self.road.check([1], self.right.replace(b"d 2 5", b"d 2 4"))).value, "d 2 4")
        self.fault(33, 3, lambda: self.road.check([1], self.right.replace(b"d 2 5", b"d 2 7").replace(b"d 4 6", b"d 4 8")))
        self.fault(31, 3, lambda: self.road.check([1], self.right.replace(b"d 2 5", b"d 2 x")))
        self.fault(31, 0, lambda: self.road.check([1], b""))
        self.fault(31, 1, lambda: self.road.check([2], self.right))
        # Two arcs that are as quick: the walk is that of the lower number.
        twice = earliest.Road(b"p sp 2 2\na 1 2 3\na 1 2 3\n")
        self.fault(35, 6, lambda: twice.check([1], b"s 1 0\nd 1 0\nw 1 0\nd 2 3\n\nw 2 1 2\n"))
        self.assertIsNone(twice.check([1], b"s 1 0\nd 1 0\nw 1 0\nd 2 3\n\nw 2 1 1\n"))

    def test_depart_gap_and_joint(self):
        """A report of three sources, each later by the gap, as three problems and as one: each of the three words matters."""
        net = plain.network(3)
        road, sources, depart, gap = earliest.Road(net.gr(), net.tp()), [3, 1, 7], 40, 33
        starts = [(source, depart + at * gap) for at, source in enumerate(sources)]
        lines = lambda starts: "".join(f"s {source} {departure}\n" for source, departure in starts) + "".join(f"d {node} {'inf' if it == NEVER else it}\n" for node, it in enumerate(net.least(starts), 1))
        apart, together = "".join(lines([start]) for start in starts).encode(), lines(starts).encode()
        self.assertIsNone(road.check(sources, apart, depart, gap))
        self.assertIsNone(road.check(sources, together, depart, gap, joint=True))
        self.fault(31, 2, lambda: road.check(sources, apart, depart, gap, joint=True))
        self.fault(31, 2, lambda: road.check(sources, together, depart, gap))
        for report, joint in ((apart, False), (together, True)):
            self.fault(31, 1, lambda: road.check(sources, report, depart + 1, gap, joint))
            self.fault(31, 1, lambda: road.check(sources, report, 0, gap, joint))
        self.fault(31, net.nodes + 2, lambda: road.check(sources, apart, depart, 0))
        self.fault(31, 2, lambda: road.check(sources, together, depart, 0, True))

    def test_a_file(self):
        with self.assertRaises(earliest.InputFailure) as caught:
            self.road.check([1], os.path.join(plain.EXAMPLES, "joint-gap.report"))
        self.assertEqual(caught.exception.file, os.path.join(plain.EXAMPLES, "joint-gap.report"))
        self.assertIsNone(self.road.check([1], os.path.join(plain.EXAMPLES, "four-nodes.report")))


class Values(Case):
    """Roads as values: copies, pickles, names, equality of errors, what is shown."""

    def test_copies_share(self):
        road = earliest.Road(plain.FOUR)
        for other in (copy.copy(road), copy.deepcopy(road), copy.deepcopy([road])[0], copy.copy(copy.copy(road))):
            self.assertEqual((flat(other.search(1).arrivals), flat(road.search(1).arrivals)), ([0, 5, 2, 6],) * 2)
        del other
        gc.collect()
        self.assertEqual(flat(road.search(1).arrivals), [0, 5, 2, 6])

    def test_a_search_is_not_copied(self):
        search = earliest.Road(plain.FOUR).searcher()
        first = search.find(1)
        self.told(TypeError, "can't be copied", lambda: copy.copy(search))
        self.told(TypeError, "can't be copied", lambda: copy.deepcopy(search))
        self.told(TypeError, "can't be pickled", lambda: pickle.dumps(search))
        self.assertEqual(flat(first.arrivals), [0, 5, 2, 6])

    def test_pickles(self):
        net = plain.network(5)
        lists = [[it[at] for it in net.arcs] for at in range(4)]
        want = net.least([(2, 31)])
        for road in (earliest.Road(net.gr(), net.tp()), earliest.Road.of_arcs(net.nodes, *lists, tp=net.kinds_alone())):
            for protocol in range(2, pickle.HIGHEST_PROTOCOL + 1):
                other = pickle.loads(pickle.dumps(road, protocol))
                self.assertEqual((other.nodes, other.arcs, flat(other.search(2, 31).arrivals)), (net.nodes, len(net.arcs), want))
            again = pickle.loads(pickle.dumps(other))
            self.assertEqual(flat(again.search(2, 31).arrivals), want)
        names = [f"n{node}" for node in range(1, net.nodes + 1)]
        named = pickle.loads(pickle.dumps(road.named(names)))
        self.assertEqual((list(named.names), flat(named.search("n2", 31).arrivals)), (names, want))

    def test_pickles_of_answers(self):
        net = plain.network(5)
        road = earliest.Road(net.gr(), net.tp())
        found, one, both = road.search([2, 3], [31, 5]), road.search(2, 31), road.search([2, 3], [31, 5], joint=True)
        several = pickle.loads(pickle.dumps(found))
        self.assertEqual([flat(it.arrivals) for it in several], [flat(it.arrivals) for it in found])
        self.assertEqual(several[1].walk(9), found[1].walk(9))
        for answer in (one, both, found[0]):
            other = pickle.loads(pickle.dumps(answer))
            self.assertEqual((flat(other.arrivals), other.sources, other.departures), (flat(answer.arrivals), answer.sources, answer.departures))
            self.assertEqual([other.walk(node) for node in range(1, 41)], [answer.walk(node) for node in range(1, 41)])
        for answer in (road.search(2, 31, walks=False), road.search([2], 31, walks=False)[0]):
            self.refused(21, lambda: pickle.loads(pickle.dumps(answer)).walk(2))
        search = road.searcher()
        old = search.find(1)
        search.find(2)
        self.told(RuntimeError, "a later query", lambda: pickle.dumps(old))
        # A query that is refused leaves the last answer as it is.
        last = search.find(3, 9)
        self.refused(18, lambda: search.find(99), 99)
        self.refused(18, lambda: search.pair(1, 0, 99), 99)
        self.assertEqual(flat(last.arrivals), net.least([(3, 9)]))

    def test_failures(self):
        road = earliest.Road(plain.FOUR)
        this, that, other = (self.refused(18, lambda: road.search(node), node) for node in (5, 5, 6))
        self.assertEqual((this == that, this == other, hash(this) == hash(that), this != that), (True, False, True, False))
        self.assertEqual((this.number, this.name, this.value, this.file, this.line), (18, "NoSuchNode", 5, None, None))
        self.assertEqual(str(this), "18 NoSuchNode: 5 is no node of the road, whose nodes are 1 to 4")
        with self.assertRaises(earliest.InputFailure) as caught:
            earliest.Road(b"p sp 2 1\na 1 3 1\n")
        fault = caught.exception
        self.assertEqual((fault.file, fault.line, fault.number, fault.name, fault.value), ("gr", 2, 6, "OutOfRange", "a 1 3 1"))
        self.assertEqual(str(fault), "gr 2: 6 OutOfRange: a number is out of its range: `a 1 3 1`")
        for one in (this, fault, earliest.Busy()):
            again = pickle.loads(pickle.dumps(one))
            self.assertEqual((again, type(again), str(again), again.value), (one, type(one), str(one), one.value))
            self.assertTrue(isinstance(one, earliest.Failure) and one != this or one is this)
        self.assertEqual((earliest.Busy().number, earliest.Busy().name), (25, "Busy"))

    def test_names(self):
        road = earliest.Road(plain.FOUR).named(["home", "mill", "bridge", "work"])
        self.assertEqual((list(road.names), road.number("work"), road.name(2), len(road.names), "mill" in road.names, "x" in road.names), (["home", "mill", "bridge", "work"], 4, "mill", 4, True, False))
        found = road.search("home")
        self.assertEqual((found.arrival("work"), found.path("work"), found.sources), (6, ["home", "bridge", "mill", "work"], ["home"]))
        self.assertEqual(found.reached(), {"home": 0, "mill": 5, "bridge": 2, "work": 6})
        self.assertEqual(road.search("bridge").reached(), {"mill": 3, "bridge": 0, "work": 4})
        self.assertEqual([flat(it) for it in road.arrivals(["home", "bridge"], nodes=["work", "home"])], [[6, 0], [4, NEVER]])
        self.assertEqual(flat(road.pairs("home", ["work", "mill"])), [6, 5])
        self.assertEqual(road.searcher().pair("home", 3, "work"), 9)
        self.assertEqual(flat(road.numbered.search(1).arrivals), [0, 5, 2, 6])
        for call in (lambda: road.search("x"), lambda: road.search(["home", "x"]), lambda: found.arrival("x"), lambda: road.pairs("home", "x"), lambda: road.number("x")):
            self.assertIn("no node is called 'x'", str(self.refused(18, call, "x")))
        self.refused(18, lambda: road.search(1), 1)
        self.told(TypeError, "a set has none", lambda: road.arrivals({"home", "work"}))
        self.refused(23, lambda: earliest.Road(plain.FOUR).named(["a"]), (1, 4))
        self.told(ValueError, "nodes 1 and 3 are both called 'a'", lambda: earliest.Road(plain.FOUR).named(["a", "b", "a", "c"]))
        self.told(TypeError, "hashable", lambda: earliest.Road(plain.FOUR).named([[1], [2], [3], [4]]))

    def test_names_that_are_tuples_and_numbers(self):
        road = earliest.Road(plain.FOUR).named([(0, 0), (0, 1), (1, 0), (1, 1)])
        self.assertEqual((road.search((0, 0)).arrival((1, 1)), len(road.search([(0, 0), (1, 0)]))), (6, 2))
        road = earliest.Road(plain.FOUR).named(range(10, 14))
        self.assertEqual((road.search(10).reached(), flat(road.search([10, 12])[1].arrivals)), ({10: 0, 11: 5, 12: 2, 13: 6}, [NEVER, 3, 0, 4]))
        for name in (9, 14, 1, 1.0, "10"):
            self.refused(18, lambda: road.search([name]), name)

    def test_what_is_shown(self):
        road = earliest.Road(plain.FOUR)
        self.assertEqual(repr(road), "<earliest.Road: 4 nodes, 5 arcs>")
        self.assertEqual(repr(earliest.Road.of_arcs(1, [], [], [])), "<earliest.Road of lists: 1 nodes, 0 arcs>")
        self.assertEqual(repr(road.search(1, 7)), "<earliest.Answer from 1 at 7>")
        self.assertIn("2 problems", repr(road.search([1, 2])))
        self.assertIn("without walks", repr(road.searcher(False)))
        self.assertIn("'a', 'b', 'c', ..", repr(road.named("abcd").names))
        self.assertRegex(earliest.__version__, r"^\d+\.\d+\.\d+$")
        for name in earliest.__all__:
            self.assertTrue(hasattr(earliest, name))

    def test_nearest(self):
        """The nearest node of a road with places, beside a look at all of them: of tables and .co, split crossings, with names, as a pickle."""
        import math
        import random
        import tempfile

        from earliest.nearest import Refused

        draw = random.Random(7)
        places = {node: (11 + draw.random(), 44 + draw.random()) for node in range(1, 41)}
        uses = {node: draw.choice(["both", "both", "start", "end", "turn"]) for node in places}
        road = earliest.Road.of_arcs(40, [], [], [])

        def sight(place):
            east, north = map(math.radians, place)
            return math.cos(north) * math.cos(east), math.cos(north) * math.sin(east), math.sin(north)

        def metres(first, second):
            return 6371008.8 * 2 * math.asin(math.dist(sight(first), sight(second)) / 2)

        with tempfile.TemporaryDirectory() as room:
            table, co = os.path.join(room, "x.nodes.csv"), os.path.join(room, "x.co")
            with open(table, "w", encoding="utf-8") as file:
                file.write("node,id,longitude,latitude,use\n" + "".join(f"{node},{node},{x:.9f},{y:.9f},{uses[node]}\n" for node, (x, y) in places.items()))
            with open(co, "w", encoding="ascii") as file:
                file.write("p aux sp co 40\n" + "".join(f"v {node} {round(1e6 * x)} {round(1e6 * y)}\n" for node, (x, y) in places.items()))
            tabled, flat_ = road.placed(table), road.placed(co, degrees=True)
            for _ in range(60):
                asked = 11 + draw.random(), 44 + draw.random()
                for other, end, fit in ((tabled, False, ("both", "start")), (tabled, True, ("both", "end")), (flat_, False, None)):
                    want = min((metres(asked, place), node) for node, place in places.items() if fit is None or uses[node] in fit)
                    for it in (other, pickle.loads(pickle.dumps(other)), copy.copy(other)):
                        node, far = it.nearest(*asked, end=end)
                        self.assertEqual(node, want[1])
                        self.assertAlmostEqual(far, want[0], delta=0.2)
                    self.assertEqual(other.named([f"n{node}" for node in places]).nearest(*asked, end)[0], f"n{want[1]}")
                    self.assertEqual(other.named([f"n{node}" for node in places]).numbered.nearest(*asked, end)[0], want[1])
            self.assertRaisesRegex(ValueError, "no places of nodes; road.placed", road.nearest, 11, 44)
            for why, call in (("unit", lambda: road.placed(co)), ("isn't there", lambda: road.placed(os.path.join(room, "none.co"))), ("no place", lambda: tabled.nearest(200, 0)), ("no place", lambda: tabled.nearest(math.nan, 0)),
                              ("no node of the road", lambda: earliest.Road.of_arcs(39, [], [], []).placed(table))):
                self.told(Refused, why, call)

    def test_each_call_has_words_and_types(self):
        """Each public call has a docstring, and its parameters and result have types."""
        import inspect
        import typing

        for kind in (earliest.Road, earliest.Search, earliest.Answer, earliest.Answers, earliest.Names, earliest.report.Report):
            self.assertTrue(kind.__doc__)
            for name, it in vars(kind).items():
                call = it.fget if isinstance(it, property) else it.__func__ if isinstance(it, (classmethod, staticmethod)) else it
                if name.startswith("_") or not inspect.isfunction(call):
                    continue
                self.assertTrue(call.__doc__, f"{kind.__name__}.{name}")
                hints = typing.get_type_hints(call, None, vars(earliest))
                wanted = [word for word in inspect.signature(call).parameters if word not in ("self", "cls")]
                self.assertEqual([word for word in [*wanted, "return"] if word not in hints], [], f"{kind.__name__}.{name}")

    def test_numbers_of_the_header(self):
        """The numbers and names of refusals are those of the header, and so are the last time and the one that means none."""
        import re

        with open(os.path.join(plain.ROOT, "include", "earliest.h"), encoding="utf-8") as file:
            header = file.read()
        told = {int(number): name for number, name in re.findall(r"\((\d+) (\w+)\)\";", header)}
        told.pop(0)
        from earliest import _failures

        self.assertEqual({number: name for number, name in _failures.NAMES.items() if number != 25}, {number: name for number, name in told.items() if number != 25})
        self.assertEqual(sorted(_failures.NAMES), sorted(_failures.MEANINGS))
        self.assertIn(f"EARLIEST_HORIZON UINT64_C({earliest.HORIZON})", header)
        self.assertEqual(earliest.NEVER, 2**64 - 1)

    def test_memory_goes_back(self):
        """Roads and searches, ten thousand each: what they take is given back."""
        text = "import earliest, plain\n" \
               "gr = plain.network(1, 100, 300).gr()\n" \
               "def use(count):\n" \
               "    for _ in range(count):\n" \
               "        road = earliest.Road(gr)\n" \
               "        road.searcher().find(1).arrivals\n" \
               "        road.search(1).walk(3)\n" \
               "use(500)\n" \
               "before = plain.peak()\n" \
               "use(10000)\n" \
               "print(plain.peak() - before)\n"
        environment = {**os.environ, "PYTHONPATH": os.pathsep.join((os.environ["PYTHONPATH"], plain.HERE))}
        ran = subprocess.run([sys.executable, "-c", text], env=environment, capture_output=True, text=True, timeout=80)
        self.assertEqual((ran.returncode, ran.stderr), (0, ""))
        # A road has about 10 KB here and a search some more, so ten thousand that stay would be 100,000 KB.
        self.assertLess(int(ran.stdout), 20000)


class Arrays(Case):
    """NumPy's arrays and pandas' columns in, NumPy's arrays out."""

    @needs("numpy")
    def test_out(self):
        road = earliest.Road(plain.FOUR)
        one, several, matrix, pairs = road.search(1).arrivals, road.search([1, 3]).arrivals, road.arrivals([1, 3], nodes=[4]), road.pairs([1], [4])
        for out, shape in ((one, (4,)), (several, (2, 4)), (matrix, (2, 1)), (pairs, (1,)), (road.profile(1, 4, [0, 1, 2]), (3,)), (road.arrivals([]), (0, 4)), (road.latest([1], [4], 9), (1,))):
            self.assertEqual((type(out), out.dtype, out.shape), (numpy.ndarray, numpy.dtype("uint64"), shape))
        self.assertEqual(several.tolist(), [[0, 5, 2, 6], [NEVER, 3, 0, 4]])
        self.assertTrue(matrix.flags.writeable and one.flags.writeable)
        with self.assertRaises(ValueError):
            several[0, 0] = 1

    @needs("numpy")
    def test_in(self):
        road = earliest.Road(plain.FOUR)
        both = numpy.array([[1, 7], [3, 3]], dtype=numpy.int64)
        want = [[7, 12, 9, 13], [NEVER, 6, 3, 7]]
        for sources, departures in ((both[:, 0], both[:, 1]), (both[:, 0].astype("uint8"), both[:, 1].astype("int16")), (both[:, 0].astype(">u4"), both[:, 1].astype(">i8")),
                                    (both[:, 0], [7, 3]), ([numpy.int64(1), numpy.uint8(3)], (numpy.int32(7), 3)), (both[:, 0].astype(object), both[:, 1].astype(object)), (range(1, 4, 2), (it for it in (7, 3)))):
            self.assertEqual(road.search(sources, departures).arrivals.tolist(), want)
            self.assertEqual(road.arrivals(list(sources), numpy.array([7, 3])).tolist(), want)
        self.assertEqual(road.search(numpy.int64(1), numpy.uint64(7)).arrivals.tolist(), want[0])
        self.assertEqual(road.search(numpy.array(1), numpy.array(7)).arrivals.tolist(), want[0])
        self.assertEqual(road.search(numpy.array([])).arrivals.shape, (0, 4))
        self.told(ValueError, "the array has to have one dimension", lambda: road.search(both))
        for ill in (numpy.array([1.0]), numpy.array([True]), numpy.array(["1"]), numpy.array([1 + 0j])):
            self.told(TypeError, "the array has to be one of whole numbers", lambda: road.search(ill))
            self.told(TypeError, "the array has to be one of whole numbers", lambda: road.search([1], ill))
        for value in (-1, 5, 2**32 + 1):
            self.refused(18, lambda: road.search(numpy.array([1, value])), value)
        for value in (-1, 2**48):
            self.refused(19, lambda: road.search([1, 2], numpy.array([1, value])), value)
        self.refused(19, lambda: road.search([1], numpy.array([2**64 - 1], dtype="uint64")), 2**64 - 1)

    @needs("numpy", "pandas")
    def test_columns(self):
        from optional import pandas

        frame = pandas.DataFrame({"u": [1, 1, 3, 2, 3], "v": [2, 3, 2, 4, 4], "w": [7, 2, 3, 1, 9], "t": [7.0, 2, 3, 1, 9]})
        road = earliest.Road.of_arcs(4, frame.u, frame["v"], frame.w)
        self.assertEqual(road.search(1).arrivals.tolist(), [0, 5, 2, 6])
        self.assertEqual(road.arrivals(pandas.Series([1, 3]), pandas.Series([1, 2])).tolist(), [[1, 6, 3, 7], [NEVER, 5, 2, 6]])
        self.told(TypeError, "whole numbers", lambda: earliest.Road.of_arcs(4, frame.u, frame.v, frame.t))

    @without("numpy")
    def test_without_numpy(self):
        road = earliest.Road(plain.FOUR)
        self.assertEqual(road.search(1).arrivals, array.array("Q", [0, 5, 2, 6]))
        self.assertEqual(road.arrivals([1, 3]), [array.array("Q", [0, 5, 2, 6]), array.array("Q", [NEVER, 3, 0, 4])])
        self.assertEqual(road.pairs([1], [4]), array.array("Q", [6]))
        for word in ({"unit": "s"}, {"masked": True}, {"as_float": True}, {"origin": "2026-11-23"}):
            self.told(ImportError, "pip install numpy", lambda: road.arrivals([1], **word))
        self.told(ImportError, "pip install pandas", lambda: road.search(1).series())
        self.told(ImportError, "pip install numpy", lambda: earliest.Road.from_scipy(None))
