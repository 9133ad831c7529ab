"""Random calls of the Python package and, beside it, of the library's calls for C, on random roads: right ones, and ones with numbers out of their
ranges, lists that don't belong together, and handles that hold nothing. It is a failure if an answer isn't the reference's, if a refused call
raises something else than docs/guide/python.md says, or if the process crashes."""
import os
import sys

sys.path.insert(0, os.path.join(os.path.dirname(os.path.abspath(__file__)), "..", "..", "python"))
import earliest

import reading
import roads
import verdicts
from c_calls import CCalls
from files import damaged
from reference import HORIZON, Road, report_of_run, walk_of
from reports import changed

WHAT = "calls"
CALLS = 150
"""How many calls are made with a road."""
NEVER = 2**64 - 1
SIDE, LARGE = 260, 0.0004
"""One case in some thousands is a grid of more than 65,536 nodes, which is laid out if its numbers are scattered."""


def plain(value):
    """A result as numbers, lists, dicts and None."""
    if value is None or isinstance(value, (str, bool, tuple)):
        return value
    if isinstance(value, dict):
        return {key: plain(it) for key, it in value.items()}
    return [plain(it) for it in value] if hasattr(value, "__len__") else int(value)


def refusal(number, file=None, line=None):
    """The outcome of an `earliest` error with this number; of one of a text with file and line."""
    return ("Failure", number) if file is None else ("InputFailure", number, file, line)


def outcome(call):
    """What a call gives, or what it raises."""
    try:
        return plain(call())
    except earliest.InputFailure as failure:
        return refusal(failure.number, failure.file, failure.line)
    except earliest.Failure as failure:
        return type(failure).__name__, failure.number
    except (TypeError, ValueError, OverflowError, RuntimeError, OSError) as error:
        return (type(error).__name__,)


def none(time):
    """A time as a single answer has it."""
    return None if time == NEVER else time


def case(trial, words):
    if words.random() < LARGE:
        yield from Caller(trial, words, *roads.with_ends(words, SIDE * SIDE, roads.grid(SIDE))).large()
        return
    caller = Caller(trial, words, *roads.road(words, 400))
    for _ in range(4):
        yield from caller.make_damaged()
    yield from caller.make()
    count = 0
    while count < CALLS:
        for wrong in words.choice(caller.calls)():
            count += 1
            yield wrong
    yield from caller.close()


class Caller(CCalls):
    """A road of the library beside that of the reference, and searches on it that answer query after query."""

    def __init__(self, trial, words, reference, scale):
        self.trial, self.words, self.reference, self.scale = trial, words, reference, scale
        self.gr, self.tp = roads.gr(words, reference), roads.tp(words, reference)
        trial.put({"road.gr": self.gr, "road.tp": self.tp})
        self.made, self.searchers, self.found = None, {}, {}
        self.times = [roads.time(words, scale) for _ in range(4)] + [0]
        self.calls = [
            self.search, self.searches, self.joint, self.matrix, self.departures, self.pairs, self.pairs, self.latest, self.find, self.find, self.pair,
            self.pair, self.check, self.prepare, self.asking_by_c, self.from_by_c, self.pair_by_c, self.until_by_c, self.until_by_c, self.refused_by_c,
            self.nothing_by_c, self.no_node, self.no_node, self.no_time, self.no_time, self.no_number, self.no_number, self.lengths, self.no_word, self.lay_out,
        ]

    def ask(self, text, call, want):
        """Compares the outcome of a call with what is right."""
        return self.is_among(text, call, [want])

    def is_among(self, text, call, wants):
        was = outcome(call)
        if self.trial.is_due():
            was = ("changed", was)
        self.trial.words, self.trial.was = [text], was
        return None if was in wants else f"{text[:2000]} gives {str(was)[:600]}, and right is {' or '.join(map(str, wants))[:600]}"

    # Random words

    def node(self):
        return self.words.randint(1, self.reference.nodes)

    def time(self):
        return self.words.choice(self.times)

    def nodes(self, most=4):
        return [self.node() for _ in range(self.words.randint(0, most))]

    def threads(self):
        return self.words.choice([1, 1, 1, 1, 2, 3])

    # The reference's answers

    def least(self, starts, turned=False):
        """The times of all nodes, NEVER for none, and their canonical walks."""
        key = tuple(starts), turned
        if key not in self.found:
            times = self.reference.search(starts, turned)
            links = self.reference.links(starts, times, turned)[1]
            walks = [None if time is None else walk_of(links, node, turned) for node, time in enumerate(times)]
            self.found[key] = [NEVER if time is None else time for time in times[1:]], walks[1:]
        return self.found[key]

    def arrival(self, source, time, target):
        return self.least([(source, time)])[0][target - 1]

    # Roads

    def make_damaged(self):
        """A road of a damaged text."""
        words, time = self.words, self.times[0]
        is_gr = words.random() < 0.5
        gr, tp = (damaged(words, self.gr), self.tp) if is_gr else (self.gr, damaged(words, self.tp))
        if b"\x1f\x8b" in (gr[:2], tp[:2]):
            return
        file = "gr"
        try:
            nodes, arcs = reading.network(gr)
            if nodes > 10_000:
                return
            file = "tp"
            kinds, classes = reading.timetables(tp, len(arcs))
            road = Road(nodes, arcs, kinds, [classes.get(number, 0) for number in range(1, len(arcs) + 1)])
            want = [nodes, len(arcs), [NEVER if it is None else it for it in road.search([(1, time)])[1:]]]
        except reading.Fault as fault:
            want = refusal(fault.number, file, fault.line)

        def call():
            made = words.choice([earliest.Road, earliest.Road.read])(gr, tp)
            return [made.nodes, made.arcs, made.search(1, time).arrivals]

        yield self.ask(f"Road({gr}, {tp})", call, want)

    def make(self):
        """The road, of texts or of lists; before it, some of lists that are refused."""
        reference, words = self.reference, self.words
        lists = [*map(list, zip(*reference.arcs))] if reference.arcs else [[], [], []]
        kinds = roads.tp(words, reference, assigns=False)
        for _ in range(2):
            yield self.of_bad_lists(lists, kinds)
        is_text = words.random() < 0.5

        def call():
            of_arcs = earliest.Road.of_arcs
            self.made = earliest.Road(self.gr, self.tp) if is_text else of_arcs(reference.nodes, *lists, reference.classes, kinds)
            return [self.made.nodes, self.made.arcs, self.made.ends()[0], self.made.ends()[1]]

        yield self.ask("Road of texts" if is_text else "Road of lists", call, [reference.nodes, len(reference.arcs), *lists[:2]])
        if words.random() < 0.5:
            yield from self.prepare()

    def of_bad_lists(self, lists, kinds):
        words, nodes, classes = self.words, self.reference.nodes, list(self.reference.classes)
        lists = [list(it) for it in lists]
        how, at = words.randrange(5) if classes else 0, words.randrange(max(1, len(classes)))
        if how == 0:
            nodes, want = words.choice([0, 2**26 + 1, 2**32 - 1, 2**32, 2**64, -1]), refusal(6, "gr", 1)
        elif how == 1:
            lists[words.randrange(2)][at], want = words.choice([0, nodes + 1, 2**32 - 1]), refusal(6, "gr", at + 2)
        elif how == 2:
            lists[words.randrange(3)][at], want = words.choice([-1, 2**32, 2**64]), ("OverflowError",)
        elif how == 3:
            words.choice([*lists, classes]).append(1)
            want = refusal(23)
        else:
            classes[at], want = words.choice([len(self.reference.kinds), 65_536, 2**32 - 1]), refusal(6, "tp", 0)
        return self.ask(f"Road.of_arcs({nodes}, *{lists}, {classes}, {kinds})", lambda: earliest.Road.of_arcs(nodes, *lists, classes, kinds), want)

    def prepare(self):
        """A preparation over an order that is looked for or given, or an order that is none. A road may be not worth it (26)."""
        words, road = self.words, self.made
        order = words.sample(range(1, road.nodes + 1), road.nodes)
        how = words.randrange(6)
        wants = [True, refusal(26)]
        if how == 0:
            order[words.randrange(len(order))] = self.node()
            wants = wants if len(set(order)) == len(order) else [refusal(27)]
        elif how == 1:
            order, wants = words.choice([order[1:], order + order[:1], []]), [refusal(27)]
        elif how == 2:
            order, wants = order + [words.choice([0, road.nodes + 1, 2**31])], [refusal(18)]
        elif how == 3:
            other = earliest.Road(self.gr, self.tp)
            yield self.ask("prepare(like=a road that isn't prepared)", lambda: road.prepare(like=other), refusal(27))
        elif how == 4:
            order = None
        yield self.is_among(f"prepare({order})", lambda: road.prepare(order) is road, wants)
        if words.random() < 0.5:
            self.searchers = {}

    def lay_out(self):
        """A layout, by a package that has the call: a small road stays as it is."""
        if hasattr(self.made, "lay_out"):
            yield self.ask("lay_out()", lambda: self.made.lay_out() is self.made, True)

    def large(self):
        """Rows of a large road, which is laid out before them."""
        self.made, reference = earliest.Road(self.gr, self.tp), self.reference
        nodes, time, picks = [self.node() for _ in range(5)], self.time(), [self.node() for _ in range(3000)]
        rows = [[NEVER if it is None else it for it in reference.search([(node, time)])[1:]] for node in nodes]
        yield self.ask(f"arrivals({nodes}, {time}) of a large road", lambda: self.made.arrivals(nodes, time, None, 1), rows)
        yield from self.lay_out()
        call = lambda: self.made.arrivals(nodes, time, picks, 2)
        yield self.ask(f"arrivals({nodes}, {time}, picks) of a large road", call, [[row[pick - 1] for pick in picks] for row in rows])
        row = [NEVER if it is None else it for it in reference.search([(nodes[0], time)], True)[1:]]
        yield self.ask(f"departures({nodes[0]}, {time}) of a large road", lambda: self.made.departures(nodes[0], time), row)
        found, links = self.made.search(nodes[0], time), reference.links([(nodes[0], time)], reference.search([(nodes[0], time)]))[1]
        for node in picks[:50]:
            want = walk_of(links, node) if node in links else None
            yield self.ask(f"search({nodes[0]}, {time}).walk({node}) of a large road", lambda: found.walk(node), want)

    def close(self):
        """Closed roads and searches refuse, and searches on a closed road continue."""
        road, search, node, time = self.made, self.made.searcher(), self.node(), self.time()
        with road:
            pass
        for call in (lambda: road.search(node), road.searcher, lambda: road.pairs(node, node), lambda: road.check([node], b""),
                     lambda: road.departures([node], time), lambda: road.latest(node, node, time), road.prepare):
            yield self.ask("a call with a closed road", call, refusal(16))
        yield self.ask("find on a closed road", lambda: search.find(node, time).arrivals, self.least([(node, time)])[0])
        with search:
            pass
        for call in (lambda: search.find(node, time), lambda: search.pair(node, time, node)):
            yield self.ask("a call with a closed search", call, refusal(17))

    # Answers

    def asked(self, answer, text, starts, walks=True):
        """Some questions about an answer."""
        times, ways = self.least(starts)
        yield self.ask(f"{text}.arrivals", lambda: answer.arrivals, times)
        for node in self.nodes(5):
            way = ways[node - 1]
            yield self.ask(f"{text}.arrival({node})", lambda: answer.arrival(node), none(times[node - 1]))
            yield self.ask(f"{text}.walk({node})", lambda: answer.walk(node), way if walks else refusal(21))
            if walks and self.words.random() < 0.3:
                path = None if way is None else [*(self.reference.arcs[arc - 1][0] for arc in way), node]
                yield self.ask(f"{text}.path({node})", lambda: answer.path(node), path)
        if self.words.random() < 0.2:
            yield self.ask(f"{text}.reached()", answer.reached, {node: time for node, time in enumerate(times, 1) if time != NEVER})
            told = [[node for node, _ in starts], [time for _, time in starts]]
            yield self.ask(f"{text}.sources, departures", lambda: [answer.sources, answer.departures], told)

    def search(self):
        node, time, walks = self.node(), self.time(), self.words.random() < 0.8
        yield from self.asked(self.made.search(node, time, walks=walks), f"search({node}, {time}, walks={walks})", [(node, time)], walks)

    def searches(self):
        nodes, walks = self.nodes(), self.words.random() < 0.8
        times = [self.time() for _ in nodes]
        text = f"search({nodes}, {times}, walks={walks})"
        found = self.made.search(nodes, times, walks=walks, threads=self.threads())
        yield self.ask(f"{text}.arrivals", lambda: found.arrivals, [self.least([start])[0] for start in zip(nodes, times)])
        for at in self.words.sample(range(len(nodes)), len(nodes)):
            yield from self.asked(found[at], f"{text}[{at}]", [(nodes[at], times[at])], walks)

    def joint(self):
        nodes = self.nodes()
        times = [self.time() for _ in nodes]
        yield from self.asked(self.made.search(nodes, times, joint=True), f"search({nodes}, {times}, joint=True)", list(zip(nodes, times)))

    def rows(self, nodes, time, picks, turned):
        """The rows of a matrix."""
        found = [self.least([(node, time)], turned)[0] for node in nodes]
        return found if picks is None else [[row[pick - 1] for pick in picks] for row in found]

    def matrix(self):
        nodes, time, threads = self.nodes(), self.time(), self.threads()
        picks = self.words.choice([None, self.nodes(), [self.node() for _ in range(self.words.randint(17, 20))]])
        call = lambda: self.made.arrivals(nodes, time, picks, threads)
        yield self.ask(f"arrivals({nodes}, {time}, {picks}, {threads})", call, self.rows(nodes, time, picks, False))
        one, pick = self.node(), self.node()
        yield self.ask(f"arrivals({one}, {time}, {pick})", lambda: self.made.arrivals(one, time, pick), self.arrival(one, time, pick))

    def departures(self):
        nodes, time, picks, threads = self.nodes(), self.time(), self.words.choice([None, self.nodes()]), self.threads()
        call = lambda: self.made.departures(nodes, time, picks, threads)
        yield self.ask(f"departures({nodes}, {time}, {picks}, {threads})", call, self.rows(nodes, time, picks, True))

    def triples(self):
        """Sources, targets and times of some pairs."""
        count = self.words.choice([1, 3, 10, 70])
        return [self.node() for _ in range(count)], [self.node() for _ in range(count)], [self.time() for _ in range(count)]

    def pairs(self):
        asked, threads = self.triples(), self.threads()
        want = [self.arrival(source, time, target) for source, target, time in zip(*asked)]
        yield self.ask(f"pairs{asked}", lambda: self.made.pairs(*asked, threads), want)
        source, target, times = self.node(), self.node(), self.times
        want = [self.arrival(source, time, target) for time in times]
        yield self.ask(f"profile({source}, {target}, {times})", lambda: self.made.profile(source, target, times, 1), want)

    def latest(self):
        asked, threads = self.triples(), self.threads()
        want = [self.least([(target, time)], True)[0][source - 1] for source, target, time in zip(*asked)]
        yield self.ask(f"latest{asked}", lambda: self.made.latest(*asked, threads), want)

    def searcher(self):
        """A search with walks or without: one that answered other queries before, or a new one."""
        walks = self.words.random() < 0.6
        if walks not in self.searchers or self.words.random() < 0.05:
            self.searchers[walks] = self.made.searcher(walks)
        return self.searchers[walks], walks

    def find(self):
        (search, walks), nodes = self.searcher(), self.nodes()
        times = [self.time() for _ in nodes]
        found = search.find(nodes, times, joint=True)
        yield from self.asked(found, f"find({nodes}, {times}, joint=True)", list(zip(nodes, times)), walks)
        if self.words.random() < 0.2:
            search.find(1)
            for call in (lambda: found.arrivals, lambda: found.arrival(1), lambda: found.walk(1)):
                yield self.ask("an answer of an earlier query", call, ("RuntimeError",))

    def pair(self):
        search, _ = self.searcher()
        for source, target, time in [*zip(*self.triples())][:12]:
            yield self.ask(f"pair({source}, {time}, {target})", lambda: search.pair(source, time, target), none(self.arrival(source, time, target)))

    def check(self):
        """A right report, then changed ones."""
        words, road = self.words, self.reference
        nodes, depart, gap, joint = self.nodes(3), self.time(), words.choice([0, 0, 1, 60]), words.random() < 0.4
        starts = [(node, depart + at * gap) for at, node in enumerate(nodes)]
        if starts and starts[-1][1] > HORIZON:
            yield self.ask("check beyond the horizon", lambda: self.made.check(nodes, b"", depart, gap, joint), refusal(19))
            return
        problems = [starts] if joint else [[start] for start in starts]
        report = report_of_run(road, problems, False, words.random() < 0.7)
        for text in (report, *(changed(words, road, problems, False, report) for _ in range(4))):
            if text[:2] != b"\x1f\x8b":
                wrong = verdicts.verdict(road, problems, text)
                want = wrong and refusal(30 + wrong.number, "report", wrong.line)
                yield self.ask(f"check({nodes}, {text}, {depart}, {gap}, {joint})", lambda: self.made.check(nodes, text, depart, gap, joint), want)

    # Refusals

    def with_node(self, it):
        """A call with a node."""
        road, node, time, (search, _) = self.made, self.node(), self.time(), self.searcher()
        return self.words.choice([
            lambda: road.search(it, time),
            lambda: road.search([node, it], time),
            lambda: road.search([it, node], time, joint=True),
            lambda: road.search(node, time).walk(it),
            lambda: road.search(node, time).path(it),
            lambda: road.arrivals([node], time, [it], 1),
            lambda: road.arrivals([it], time, None, 1),
            lambda: road.arrivals(node, time, it),
            lambda: road.pairs(it, node, time, 1),
            lambda: road.pairs([node, node], [node, it], time, 1),
            lambda: road.profile(node, it, [time], 1),
            lambda: road.latest(node, it, time, 1),
            lambda: road.latest([it], node, time, 1),
            lambda: road.departures([it], time, None, 1),
            lambda: road.departures([node], time, [it], 1),
            lambda: road.check([it], b""),
            lambda: road.name(it),
            lambda: road.number(it),
            lambda: search.pair(it, time, node),
            lambda: search.pair(node, time, it),
            lambda: search.find(it, time),
            lambda: search.find(node, time).arrival(it),
        ])

    def with_time(self, it):
        """A call with a time."""
        road, node, time, (search, _) = self.made, self.node(), self.time(), self.searcher()
        return self.words.choice([
            lambda: road.search(node, it),
            lambda: road.search([node, node], [time, it]),
            lambda: road.search([node], it, joint=True),
            lambda: road.arrivals([node], it, None, 1),
            lambda: road.pairs(node, [node, node], it, 1),
            lambda: road.pairs(node, node, [it], 1),
            lambda: road.profile(node, node, [time, it], 1),
            lambda: road.latest(node, node, it, 1),
            lambda: road.departures(node, it),
            lambda: search.pair(node, it, node),
            lambda: search.find(node, it),
        ])

    def no_node(self):
        it = self.words.choice([0, self.made.nodes + 1, -1, 2**31, 2**32, 2**32 + self.node(), 2**63, 2**64, 2**64 + self.node(), 10**30])
        yield self.ask(f"a call with the node {it}", self.with_node(it), refusal(18))

    def no_time(self):
        it = self.words.choice([-1, HORIZON + 1, 2**49, 2**63, 2**64 - 1, 2**64, 2**64 + self.time(), 10**30])
        yield self.ask(f"a call with the time {it}", self.with_time(it), refusal(19))

    def no_number(self):
        """Fractions, truth values, texts and the like as a node or a time."""
        it = self.words.choice([1.0, 1.5, True, "1", b"1", float("nan"), [1.0], [True], ["1"], [None], {1}, {1: 2}])
        yield self.is_among(f"a call with the node {it!r}", self.with_node(it), [("TypeError",), ("ValueError",)])
        it = self.words.choice([1.0, 1.5, True, "1", [1.0] * 2, [True], ["1"], {1}, {1: 2}])
        yield self.is_among(f"a call with the time {it!r}", self.with_time(it), [("TypeError",), refusal(23)])

    def lengths(self):
        """Lists that belong together with two lengths."""
        road, node, time, (search, _) = self.made, self.node(), self.time(), self.searcher()
        longer, shorter = [node] * self.words.randint(3, 5), [time] * self.words.choice([0, 2])
        call = self.words.choice([
            lambda: road.search(longer, shorter),
            lambda: road.arrivals(longer, shorter),
            lambda: road.pairs(longer, [node] * 2, time),
            lambda: road.pairs(longer, node, shorter),
            lambda: road.latest(longer, node, shorter),
            lambda: road.departures(longer, shorter),
            lambda: search.find(longer, shorter, joint=True),
        ])
        yield self.ask(f"a call with lists of {len(longer)} and {len(shorter)}", call, refusal(23))

    def no_word(self):
        """Other words that a call doesn't take."""
        road, node, time, (search, _) = self.made, self.node(), self.time(), self.searcher()
        call, want = self.words.choice([
            (lambda: road.arrivals([node], time, None, 0), "ValueError"),
            (lambda: road.arrivals([node], time, None, "2"), "TypeError"),
            (lambda: road.pairs([node], [node], time, -1), "ValueError"),
            (lambda: road.latest(node, node, None), "TypeError"),
            (lambda: road.departures(node, None), "TypeError"),
            (lambda: road.profile([node], node, [time]), "TypeError"),
            (lambda: road.profile(node, node, time), "TypeError"),
            (lambda: road.check([node], "no\nfile"), "TypeError"),
            (lambda: road.prepare([1], like=road), "ValueError"),
            (lambda: search.pair(node, None, node), "TypeError"),
            (lambda: search.pair(node, [time], node), "TypeError"),
            (lambda: search.find([node, node]), "ValueError"),
            (lambda: earliest.Road("text"), "TypeError"),
            (lambda: earliest.Road.read("nothing.gr"), "FileNotFoundError"),
        ])
        yield self.ask("a call with a word that it doesn't take", call, (want,))
