"""OpenStreetMap: one feature a case, each beside a search over pairs of edges that keeps the roads it came by."""
import bz2
import contextlib
import math
import os
import random
import sys
from xml.sax.saxutils import quoteattr

from support import arcs, arrivals, distance, good, least, module, places, put, refused, summary_has, table, text, there

PROFILE = """[profile]
name = test
access = motorcar motor_vehicle vehicle access
yes = yes designated destination
no = no private
not through = destination
oneway = oneway:motorcar oneway
restrictions = restriction:motorcar restriction
except = motorcar
top = 200
[speeds]
residential = 36
primary = 72
motorway = 108
[speeds if allowed]
track = 18
[caps]
surface gravel = 18
[implicit]
DE:urban = 54
walk = 7.2
[barriers]
pass = gate
[turns]
straight up to = 30
straight = 0
right = 3
left = 7
sharp = 7
sharp from = 130
u-turn = 20
traffic signals = 9
"""


class Town:
    """A small extract: nodes {id: (lon, lat) or (lon, lat, tags)}, ways {id: (refs, tags)}, relations [(members, tags)]."""

    def __init__(self, nodes, ways, relations=()):
        self.nodes, self.ways, self.relations = nodes, ways, list(relations)

    def xml(self):
        lines = ['<?xml version="1.0" encoding="UTF-8"?>', '<osm version="0.6">']
        for number, (x, y, *tags) in self.nodes.items():
            lines.append(f'<node id="{number}" lat="{y:.7f}" lon="{x:.7f}" version="1">{tagged(tags[0] if tags else {})}</node>')
        for number, (refs, tags) in self.ways.items():
            lines.append(f'<way id="{number}" version="1">' + "".join(f'<nd ref="{ref}"/>' for ref in refs) + tagged(tags) + "</way>")
        for number, (members, tags) in enumerate(self.relations, 1):
            lines.append(f'<relation id="{number}" version="1">' + "".join(f'<member type="{kind}" ref="{ref}" role="{role}"/>' for kind, ref, role in members) + tagged(tags) + "</relation>")
        return "\n".join(lines + ["</osm>"]) + "\n"

    def write(self, room, name="town.osm"):
        put(room, "test.ini", PROFILE)
        return put(room, name, self.xml())


def tagged(tags):
    return "".join(f"<tag k={quoteattr(key)} v={quoteattr(value)}/>" for key, value in tags.items())


def rule(kind, start, via, end, **more):
    """A restriction; `via` is a node's number, or a list of ways."""
    between = [("way", it, "via") for it in via] if isinstance(via, list) else [("node", via, "via")]
    return [("way", start, "from"), *between, ("way", end, "to")], {"type": "restriction", "restriction": kind, **more}


def steps_of(town, speeds, oneway):
    """Directed steps (way, from, to, seconds) between the neighbouring nodes of ways; `speeds` in km/h by way, `oneway` a set of ways."""
    for way, (refs, _) in town.ways.items():
        for here, onward in zip(refs, refs[1:]):
            seconds = distance(town.nodes[here][:2], town.nodes[onward][:2]) / (speeds[way] / 3.6)
            yield way, here, onward, seconds
            if way not in oneway:
                yield way, onward, here, seconds


def searched(town, source, speeds, oneway=(), rules=(), cost=lambda before, after: 0.0, turning=None, memory=4):
    """Seconds to each node by a search whose states are the last steps that were driven. `rules` are (only, from way, via, to way) with a
    node or a list of ways as via; `turning` are the nodes at which one may turn round, all if it is None."""
    steps = list(steps_of(town, speeds, set(oneway)))
    leaving = {}
    for step in steps:
        leaving.setdefault(step[1], []).append(step)

    def back(before, after):
        return before[0] == after[0] and before[1] == after[2]

    def driven(past):
        """The ways that were driven, each once as long as one stays on it."""
        return [step[0] for place, step in enumerate(past) if not place or step[0] != past[place - 1][0] or back(past[place - 1], step)]

    def allowed(past, step):
        if past and back(past[-1], step) and turning is not None and step[1] not in turning:
            return False
        before, after = driven(past), driven((*past, step))
        for only, start, via, end in rules:
            if isinstance(via, int):
                if past and past[-1][0] == start and past[-1][2] == via and (step[0] == end) != only:
                    return False
                continue
            run = [start, *via, end]
            for length in range(1, len(run)):
                if len(after) > len(before) and before[-length:] == run[:length] and step[1] in town.ways[run[length]][0]:
                    if only and step[0] != run[length] or not only and length == len(run) - 1 and step[0] == run[length]:
                        return False
        return True

    def onward(state, time):
        node, past = state
        for step in leaving.get(node, ()):
            if allowed(past, step):
                yield (step[2], (*past, step)[-memory:]), time + step[3] + (cost(past[-1], step) if past else 0.0)

    found = {}
    for (node, _), time in least([((source, ()), 0.0)], onward).items():
        found[node] = min(time, found.get(node, time))
    return found


def imported(room, town, *words, name="town"):
    return good("osm", town.write(room), os.path.join(room, name), "--profile", os.path.join(room, "test.ini"), *words)


def agree(room, name, source, wanted, slack=None):
    """Whether the engine's arrivals at all crossings are those of a search, up to the rounding of each arc to a unit."""
    start, end = places(room, name)
    got = arrivals(room, name, start[str(source)], 0)
    slack = slack if slack is not None else 0.51 * 60
    for crossing, node in end.items():
        mine, other = got[node - 1], wanted.get(int(crossing))
        if (mine is None) != (other is None) or (mine is not None and abs(mine - 100 * other) > slack):
            return f"node {crossing}: {mine} and {other}"
    return "all"


def line(count, step=0.001):
    return {number: (10 + step * number, 50.0) for number in range(1, count + 1)}


def tags_of_speed(room):
    """Speeds by class, maxspeed in several units and implicit, caps, ways that are closed."""
    cases = [
        ({"highway": "residential"}, 36), ({"highway": "residential", "maxspeed": "50"}, 50), ({"highway": "residential", "maxspeed": "30 mph"}, 30 * 1.609344),
        ({"highway": "residential", "maxspeed": "10 knots"}, 18.52), ({"highway": "residential", "maxspeed": "DE:urban"}, 54), ({"highway": "residential", "maxspeed": "walk"}, 7.2),
        ({"highway": "motorway", "oneway": "no", "maxspeed": "none"}, 200), ({"highway": "residential", "maxspeed": "50;30"}, 30), ({"highway": "residential", "maxspeed": "DE:zone:30"}, 30),
        ({"highway": "residential", "maxspeed": "fast"}, 36), ({"highway": "residential", "maxspeed:type": "DE:urban"}, 54), ({"highway": "primary", "surface": "gravel"}, 18), ({"highway": "primary", "surface": "gravel", "maxspeed": "50"}, 18), ({"highway": "primary", "surface": "gravel", "maxspeed": "10"}, 10),
        ({"highway": "track", "motor_vehicle": "yes"}, 18), ({"highway": "residential", "access": "no", "motorcar": "yes"}, 36), ({"highway": "residential", "access": "destination"}, 36),
    ]
    closed = [{"highway": "track"}, {"highway": "residential", "access": "private"}, {"highway": "residential", "vehicle": "no"}, {"highway": "footway"}, {"highway": "residential", "area": "yes"}, {"railway": "rail"}]
    nodes, ways = {}, {}
    for place, tags in enumerate([tags for tags, _ in cases] + closed):
        nodes[2 * place + 1], nodes[2 * place + 2] = (10.0, 50 + 0.01 * place), (10.02, 50 + 0.01 * place)
        ways[100 + place] = [2 * place + 1, 2 * place + 2], tags
    told = imported(room, Town(nodes, ways))
    weights = {row["way"]: [] for row in table(room, "town.arcs.csv")}
    for row, (_, _, weight) in zip(table(room, "town.arcs.csv"), arcs(room, "town")):
        weights[row["way"]].append(weight)
    wanted = {}
    for place, (_, speed) in enumerate(cases):
        seconds = distance(nodes[2 * place + 1], nodes[2 * place + 2]) * 3.6 / speed
        wanted[str(100 + place)] = [round(100 * seconds)] * 2
    yield "speeds of classes and maxspeeds", weights, wanted
    yield "a maxspeed that can't be read is told", summary_has(told, "1 values of maxspeed that can't be read", "'fast'", "109"), True
    yield "closed ways are told", [summary_has(told, *parts) for parts in (("1 ways with highway=track that aren't opened",), ("2 ways without access",), ("highway=footway", "no speed"), ("1 ways that are areas",))], [True] * 4
    yield "destination is told", summary_has(told, "destination only", "through traffic"), True
    yield "the unit stands in the first comment", text(room, "town.gr").split("\n")[0].startswith("c time unit: 1/100 s"), True
    lengths = {row["way"]: float(row["length"]) for row in table(room, "town.arcs.csv")}
    yield "lengths in metres", max(abs(lengths[str(100 + place)] - distance(nodes[2 * place + 1], nodes[2 * place + 2])) for place in range(len(cases))) < 0.01, True


def directions(room):
    """oneway and its exceptions, roundabouts, motorways, directions of access."""
    kinds = [({}, "both"), ({"oneway": "yes"}, "to"), ({"oneway": "-1"}, "back"), ({"oneway": "no"}, "both"), ({"oneway": "yes", "oneway:motorcar": "no"}, "both"), ({"junction": "roundabout"}, "to"),
             ({"junction": "roundabout", "oneway": "-1"}, "back"), ({"highway": "motorway"}, "to"), ({"vehicle:backward": "no"}, "to"), ({"oneway": "reversible"}, "none"), ({"oneway": "alternating"}, "both"), ({"oneway": "true"}, "to")]
    nodes, ways = {}, {}
    for place, (tags, _) in enumerate(kinds):
        nodes[2 * place + 1], nodes[2 * place + 2] = (10.0, 50 + 0.01 * place), (10.02, 50 + 0.01 * place)
        ways[100 + place] = [2 * place + 1, 2 * place + 2], {"highway": "residential", **tags}
    told = imported(room, Town(nodes, ways))
    found = {}
    for row in table(room, "town.arcs.csv"):
        found.setdefault(int(row["way"]) - 100, set()).add("to" if int(row["from"]) % 2 else "back")
    yield "directions of ways", ["both" if len(found.get(place, ())) == 2 else next(iter(found.get(place, {"none"}))) for place in range(len(kinds))], [wanted for _, wanted in kinds]
    yield "reversible ways are told", summary_has(told, "1 ways with oneway=reversible"), True


def bicycles_and_walkers(room):
    """The profiles that come with the package, on one extract."""
    nodes = {number: (10.0 + 0.001 * number, 50.0) for number in range(1, 9)}
    ways = {1: ([1, 2], {"highway": "residential", "oneway": "yes", "oneway:bicycle": "no"}), 2: ([2, 3], {"highway": "residential", "oneway": "yes", "cycleway": "opposite"}), 3: ([3, 4], {"highway": "residential", "oneway": "yes"}),
            4: ([4, 5], {"highway": "steps"}), 5: ([5, 6], {"highway": "cycleway"}), 6: ([6, 7], {"highway": "footway", "bicycle": "yes"}), 7: ([7, 8], {"highway": "motorway"})}
    path = Town(nodes, ways).write(room)
    found = {}
    for profile in ("car", "bicycle", "foot"):
        good("osm", path, os.path.join(room, profile), "--profile", profile, "--keep-nodes")
        found[profile] = sorted((int(row["from"]), int(row["to"])) for row in table(room, profile + ".arcs.csv"))
    yield "what a car may use", found["car"], [(1, 2), (2, 3), (3, 4), (7, 8)]
    yield "what a bicycle may use", found["bicycle"], [(1, 2), (2, 1), (2, 3), (3, 2), (3, 4), (5, 6), (6, 5), (6, 7), (7, 6)]
    yield "what a walker may use", found["foot"], [(1, 2), (2, 1), (2, 3), (3, 2), (3, 4), (4, 3), (4, 5), (5, 4), (6, 7), (7, 6)]


def barriers_and_ferries(room):
    """Bollards cut a way, gates don't; a ferry takes its duration, split by length."""
    nodes = line(9)
    nodes[2] = (*nodes[2], {"barrier": "bollard"})
    nodes[4] = (*nodes[4], {"barrier": "gate"})
    nodes[6] = (*nodes[6], {"barrier": "gate", "motor_vehicle": "no"})
    ways = {1: ([1, 2, 3], {"highway": "residential"}), 2: ([3, 4, 5], {"highway": "residential"}), 3: ([5, 6, 7], {"highway": "residential"}), 4: ([5, 8, 9], {"route": "ferry", "duration": "1:30"}), 5: ([8, 3], {"highway": "residential", "access": "no"})}
    told = imported(room, Town(nodes, ways), "--keep-nodes")
    start, end = places(room, "town")
    got = arrivals(room, "town", start["3"], 0)
    step = distance(nodes[1], (nodes[2][0], 50.0)) / 10
    yield "nobody passes a bollard, or a closed gate", [got[end[it] - 1] for it in ("1", "7")], [None, None]
    yield "a gate lets pass", abs(got[end["5"] - 1] - 100 * 2 * step) <= 1, True
    yield "a ferry takes its duration", abs(got[end["9"] - 1] - got[end["5"] - 1] - 100 * 5400) <= 1, True
    yield "both barriers are told", [summary_has(told, "barriers of kind bollard", "(2)"), summary_has(told, "barriers of kind gate: nobody", "(6)"), summary_has(told, "1 barriers of kind gate that let pass")], [True] * 3


def chains(room):
    """Nodes of degree two are joined over ways, with their geometry; --keep-nodes keeps them; arrivals are the same."""
    nodes = {1: (10.0, 50.0), 2: (10.001, 50.0003), 3: (10.002, 50.0), 4: (10.003, 50.0005), 5: (10.004, 50.0), 6: (10.004, 50.001), 7: (10.001, 50.002), 8: (10.002, 50.0021)}
    ways = {1: ([1, 2, 3], {"highway": "residential"}), 2: ([3, 4, 5], {"highway": "primary"}), 3: ([5, 6], {"highway": "residential"}), 4: ([1, 7, 8, 5], {"highway": "residential", "oneway": "yes"}), 5: ([5, 5], {"highway": "residential"})}
    town = Town(nodes, ways)
    told = imported(room, town)
    imported(room, town, "--keep-nodes", name="kept")
    speeds = {1: 36, 2: 72, 3: 36, 4: 36, 5: 36}
    yield "crossings and ends are left", sorted(places(room, "town")[0]), ["1", "5", "6"]
    yield "all nodes are kept where asked", sorted(places(room, "kept")[0]), [str(number) for number in range(1, 9)]
    for name in ("town", "kept"):
        yield f"arrivals of {name}", agree(room, name, 1, searched(town, 1, speeds, {4}), 4), "all"
        yield f"arrivals of {name} against the street", agree(room, name, 5, searched(town, 5, speeds, {4}), 4), "all"
    shapes = {row["arc"]: row["longitudes and latitudes"].split() for row in table(room, "town.shapes.csv")}
    joined = {row["arc"]: row for row in table(room, "town.arcs.csv") if row["way"] == "1;2"}
    yield "ways that were joined are named", len(joined), 1
    yield "the geometry is kept", [shapes[arc] for arc in joined], [[f"{part:.7f}" for number in (1, 2, 3, 4, 5) for part in nodes[number]]]
    yield "nodes that were joined are told", summary_has(told, "5 nodes of degree two joined"), True


def rings(room):
    """A ring by itself, and a ring at a crossing, one way and both."""
    nodes = {number: (10 + 0.001 * (number % 4), 50 + 0.001 * (number // 4)) for number in range(1, 12)}
    ways = {1: ([1, 2, 6, 5, 1], {"highway": "residential"}), 2: ([3, 7, 8, 3], {"highway": "residential", "oneway": "yes"}), 3: ([3, 9], {"highway": "residential"}), 4: ([10, 11, 9, 10], {"highway": "residential"})}
    town = Town(nodes, ways)
    imported(room, town)
    imported(room, town, "--keep-nodes", name="kept")
    speeds = dict.fromkeys(ways, 36)
    yield "rings keep a node", agree(room, "town", 3, searched(town, 3, speeds, {2}), 6), "all"
    yield "rings with all nodes", agree(room, "kept", 3, searched(town, 3, speeds, {2}), 12), "all"
    yield "the ring by itself has one node and two arcs", len([1 for row in table(room, "town.arcs.csv") if row["way"] == "1"]), 2


def cross():
    """Two streets of two ways each that cross at node 5; 5 lies amid 1 (west), 2 (east), 3 (south), 4 (north)."""
    nodes = {1: (9.999, 50.0), 2: (10.001, 50.0), 3: (10.0, 49.999), 4: (10.0, 50.001), 5: (10.0, 50.0), 6: (9.999, 50.001), 7: (10.0012, 50.0012)}
    ways = {1: ([1, 5], {}), 2: ([5, 2], {}), 3: ([3, 5], {}), 4: ([5, 4], {}), 5: ([1, 6, 4], {}), 6: ([2, 7, 4], {})}
    return nodes, {number: (refs, {"highway": "residential"}) for number, (refs, _) in ways.items()}


def restrictions_at_nodes(room):
    """Each kind at a node: no_, only_, for others, with exceptions, of no use."""
    nodes, ways = cross()
    wide = {1: 36, 2: 36, 3: 36, 4: 36, 5: 3.6, 6: 3.6}
    for number in (5, 6):
        ways[number] = ways[number][0], {"highway": "residential", "maxspeed": "3.6"}
    for name, relation, rules, told_part in (
        ("no_left_turn", rule("no_left_turn", 1, 5, 4), [(False, 1, 5, 4)], ("1 turn restrictions",)),
        ("only_right_turn", rule("only_right_turn", 1, 5, 3), [(True, 1, 5, 3)], ("1 turn restrictions",)),
        ("no_u_turn", rule("no_u_turn", 1, 5, 1), [(False, 1, 5, 1)], ("1 turn restrictions",)),
        ("for hgv", ([*rule("no_left_turn", 1, 5, 4)[0]], {"type": "restriction", "restriction:hgv": "no_left_turn"}), [], ("restrictions for others",)),
        ("for cars", ([*rule("no_left_turn", 1, 5, 4)[0]], {"type": "restriction", "restriction:motorcar": "no_left_turn"}), [(False, 1, 5, 4)], ("1 turn restrictions",)),
        ("except", rule("no_left_turn", 1, 5, 4, **{"except": "bicycle;motorcar"}), [], ("except this traveller",)),
        ("conditional", ([*rule("no_left_turn", 1, 5, 4)[0]], {"type": "restriction", "restriction:conditional": "no_left_turn @ (07:00-09:00)"}), [], ("conditions of time",)),
        ("without members", ([], {"type": "restriction", "restriction": "no_left_turn"}), [], ("without a way from",)),
        ("of ways that aren't there", rule("no_left_turn", 99, 5, 4), [], ("ways that aren't in the network",)),
        ("at a node that isn't there", rule("no_left_turn", 1, 77, 4), [], ("at a node that no way",)),
        ("of ways that don't meet there", rule("no_left_turn", 1, 2, 4), [], ("don't meet at the node",)),
        ("of an unknown kind", rule("give_way", 1, 5, 4), [], ("without a meaning", "'give_way'")),
    ):
        town = Town(nodes, ways, [relation])
        told = imported(room, town, "--keep-nodes")
        wanted = searched(town, 1, wide, (), rules)
        yield f"arrivals with the restriction {name}", agree(room, "town", 1, wanted, 5), "all"
        yield f"the restriction {name} is told", summary_has(told, *told_part), True
        yield f"nodes that the restriction {name} needs", len(table(room, "town.nodes.csv")) > 7, bool(rules)
    before = searched(Town(nodes, ways), 1, wide)
    after = searched(Town(nodes, ways), 1, wide, (), [(False, 1, 5, 4)])
    yield "the left turn matters", after[4] > before[4] + 5, True
    imported(room, Town(nodes, ways, [rule("no_left_turn", 1, 5, 4)]), "--no-restrictions", "--keep-nodes")
    yield "restrictions left out where asked", agree(room, "town", 1, before, 5), "all"


def restrictions_at_joints(room):
    """A restriction at a node of just two ways: the node isn't joined away, and no drive leads through."""
    nodes, ways = line(4), {1: ([1, 2], {"highway": "residential"}), 2: ([2, 3, 4], {"highway": "residential"})}
    speeds = dict.fromkeys(ways, 36)
    for rules, relations in (([(False, 1, 2, 2)], [rule("no_straight_on", 1, 2, 2)]), ([(True, 1, 2, 1)], [rule("only_u_turn", 1, 2, 1)]), ([], [])):
        town = Town(nodes, ways, relations)
        imported(room, town)
        for source in (1, 4):
            yield f"from {source} with {rules}", agree(room, "town", source, searched(town, source, speeds, (), rules, turning={1, 2, 4}), 4), "all"
        yield f"nodes with {rules}", sorted(places(room, "town")[0]), ["1", "2", "4"] if rules else ["1", "4"]


def restrictions_over_ways(room):
    """via ways: the two halves of a divided road, one and two ways between."""
    nodes = {1: (10.0, 50.0), 2: (10.001, 50.0), 3: (10.002, 50.0), 4: (10.0, 50.0005), 5: (10.001, 50.0005), 6: (10.002, 50.0005), 7: (10.001, 49.9995), 8: (10.001, 50.0002)}
    refs = {1: [1, 2], 2: [2, 3], 3: [6, 5], 4: [5, 4], 5: [2, 8], 6: [7, 2], 7: [8, 5]}
    oneway = {1, 2, 3, 4}
    ways = {number: (it, {"highway": "residential", **({"oneway": "yes"} if number in oneway else {})}) for number, it in refs.items()}
    ways[8] = [3, 6], {"highway": "residential", "maxspeed": "3.6"}
    ways[9] = [8, 7], {"highway": "residential", "maxspeed": "3.6"}
    speeds = {**dict.fromkeys(ways, 36), 8: 3.6, 9: 3.6}
    for name, relation, rules in (
        ("no_u_turn over two ways", rule("no_u_turn", 1, [5, 7], 4), [(False, 1, [5, 7], 4)]),
        ("only_straight_on over two ways", rule("only_straight_on", 6, [5, 7], 4), [(True, 6, [5, 7], 4)]),
        ("no_left_turn over one way", rule("no_left_turn", 1, [5], 7), [(False, 1, [5], 7)]),
        ("only_left_turn over one way", rule("only_left_turn", 1, [5], 9), [(True, 1, [5], 9)]),
    ):
        town = Town(nodes, ways, [relation])
        told = imported(room, town, "--keep-nodes")
        for source in (1, 7, 3, 8):
            yield f"arrivals from {source} with {name}", agree(room, "town", source, searched(town, source, speeds, oneway, rules), 6), "all"
        yield f"{name} is told", summary_has(told, "1 turn restrictions"), True
    told = imported(room, Town(nodes, ways, [rule("no_u_turn", 1, [3, 7], 4)]))
    yield "ways that don't join are told", summary_has(told, "don't join into one"), True


def values(room):
    """What a profile makes of durations, and of several values of a tag of access; and settings that it doesn't know."""
    profile = module("importing.profile")
    durations = {"45": 45, "0": 0, "1:30": 90, "01:30:30": 90.5, "PT1H30M": 90, "pt20m": 20, "P1DT2H": 1560, "PT30S": 0.5, " 7 ": 7, "P": None, "": None, "1:2:3:4": None, "an hour": None, "-5": None}
    yield "durations in minutes", {text: profile.minutes_of(text) for text in durations}, durations
    known = profile.Profile(put(room, "test.ini", PROFILE))
    access = (
        ({"motorcar": "delivery;yes"}, True), ({"motorcar": "delivery; no"}, False), ({"motorcar": "delivery;private"}, False), ({"motorcar": "delivery;forestry"}, None), ({}, None),
        ({"motorcar": "delivery", "vehicle": "no"}, False), ({"motorcar": "delivery;yes", "vehicle": "no"}, True), ({"motorcar": "yes", "access": "no"}, True), ({"access": "private"}, False),
        ({"motorcar:forward": "no", "motorcar": "yes"}, False), ({"motorcar:backward": "no", "motorcar": "yes"}, True),
    )
    yield "several values of access", [(tags, known.allowed(tags, "forward")) for tags, _ in access], list(access)
    for key in ("implied oneway", "contraflow", "maxspeed", "areas", "ferries"):
        other = put(room, "other.ini", PROFILE.replace("name = test", f"name = test\n{key} = perhaps"))
        *told, reason = refused("osm", room, Town(line(2), {1: ([1, 2], {"highway": "residential"})}).write(room), os.path.join(room, "none"), "--profile", other)
        yield f"refused: a value of {key!r} that is none", (*told, f"{key!r} is 'perhaps'" in reason), (True, True, [], True)


def random_towns(room):
    """Grids with one-way streets and restrictions of all kinds at random, from several places each."""
    for seed in range(8):
        draw = random.Random(seed)
        side = 4
        nodes = {1 + row * side + column: (10 + 0.001 * column + 0.0002 * draw.random(), 50 + 0.001 * row + 0.0002 * draw.random()) for row in range(side) for column in range(side)}
        ways, speeds, oneway = {}, {}, set()
        for node in list(nodes):
            for other in ([node + 1] if node % side else []) + ([node + side] if node + side in nodes else []):
                number = 100 + len(ways)
                kind = draw.choice(["residential", "primary"])
                speeds[number] = {"residential": 36, "primary": 72}[kind]
                tags = {"highway": kind}
                if draw.random() < 0.25:
                    tags["oneway"] = "yes"
                    oneway.add(number)
                refs = [node, other] if draw.random() < 0.5 else [other, node]
                middle = 1000 + number
                if draw.random() < 0.3:
                    nodes[middle] = tuple((nodes[refs[0]][it] + nodes[refs[1]][it]) / 2 + 0.0001 for it in (0, 1))
                    refs.insert(1, middle)
                ways[number] = refs, tags
        relations, rules = [], []
        for _ in range(14):
            start = draw.choice(list(ways))
            via = draw.choice([ways[start][0][0], ways[start][0][-1]])
            at = [way for way, (refs, _) in ways.items() if via in (refs[0], refs[-1])]
            only = draw.random() < 0.3
            end = draw.choice(at)
            if draw.random() < 0.4 and end != start:
                far = ways[end][0][-1] if ways[end][0][0] == via else ways[end][0][0]
                beyond = [way for way, (refs, _) in ways.items() if far in (refs[0], refs[-1]) and way not in (start, end)]
                if not beyond:
                    continue
                relation = (start, [end], draw.choice(beyond))
            else:
                if end == start and only:
                    continue
                relation = (start, via, end)
            # Rules that can't be driven are left out by the importer; those of a search would still bind `only_`.
            if any(way in oneway for way in [relation[0], relation[2], *(relation[1] if isinstance(relation[1], list) else [])]):
                continue
            rules.append((only, *relation))
            kind = "only_straight_on" if only else "no_u_turn" if relation[0] == relation[2] else "no_straight_on"
            relations.append(rule(kind, *relation))
        town = Town(nodes, ways, relations)
        told = imported(room, town)
        yield f"random town {seed} takes its restrictions", summary_has(told, f"{len(rules)} turn restrictions"), True
        known = {int(it) for it in places(room, "town")[0]}
        for source in sorted(known)[:12:3]:
            wanted = searched(town, source, speeds, oneway, rules, turning=known)
            yield f"random town {seed} from {source}", agree(room, "town", source, wanted, 12), "all"


def turns_in_random_towns(room):
    """Turns that take time, with restrictions and one-way streets, on grids at random."""
    for seed in range(5):
        draw = random.Random(seed)
        nodes = {1 + row * 3 + column: (10 + 0.001 * column + 0.0004 * draw.random(), 50 + 0.0007 * row + 0.0003 * draw.random()) for row in range(3) for column in range(3)}
        ways, oneway = {}, set()
        for node in list(nodes):
            for other in ([node + 1] if node % 3 else []) + ([node + 3] if node + 3 in nodes else []):
                number = 100 + len(ways)
                ways[number] = [node, other], {"highway": "residential", **({"oneway": "yes"} if draw.random() < 0.2 else {})}
                if "oneway" in ways[number][1]:
                    oneway.add(number)
        start = draw.choice([way for way in ways if way not in oneway])
        via = ways[start][0][1]
        end = draw.choice([way for way, (refs, _) in ways.items() if via in refs and way not in oneway | {start}] or [start])
        rules = [(False, start, via, end)]
        town = Town(nodes, ways, [rule("no_u_turn" if start == end else "no_left_turn", start, via, end)])
        imported(room, town, "--turns")
        known = {int(it) for it in places(room, "town")[0]}
        beside = {node: {ref for refs, _ in ways.values() if node in refs for ref in refs} - {node} for node in nodes}

        def cost(before, after):
            if (before[1], before[2]) == (after[2], after[1]):
                return 20.0
            if len(beside[before[2]]) < 3:
                return 0.0
            turn = (heading(nodes, after) - heading(nodes, before) + 180) % 360 - 180
            return 0.0 if abs(turn) <= 30 else 3.0 if turn > 0 and abs(turn) < 130 else 7.0

        for source in sorted(known)[::2]:
            yield f"turns in the random town {seed} from {source}", agree(room, "town", source, searched(town, source, dict.fromkeys(ways, 36), oneway, rules, cost, known), 12), "all"


def heading(nodes, step):
    """The direction of a step, clockwise from north."""
    (x, y), (u, v) = nodes[step[1]][:2], nodes[step[2]][:2]
    return math.degrees(math.atan2((u - x) * math.cos(math.radians((y + v) / 2)), v - y))


def turn_costs(room):
    """--turns: seconds by the angle, turning round, traffic lights."""
    nodes, ways = cross()
    nodes[5] = (*nodes[5], {"highway": "traffic_signals"})
    town = Town(nodes, ways)
    told = imported(room, town, "--turns", "--keep-nodes")
    lights = {5}

    def cost(before, after):
        if (before[1], before[2]) == (after[2], after[1]):
            return 20.0
        if before[2] not in (4, 5):  # the others join two roads
            return 0.0
        turn = (heading(nodes, after) - heading(nodes, before) + 180) % 360 - 180
        return 0.0 if abs(turn) <= 30 else 3.0 if turn > 0 and abs(turn) < 130 else 7.0

    # The wait at lights belongs to the step that enters them.
    speeds = dict.fromkeys(ways, 36)
    steps = [(way, here, there_, seconds + (9.0 if there_ in lights else 0.0)) for way, here, there_, seconds in steps_of(town, speeds, set())]
    for source in (1, 2, 3, 4, 7):
        found = {}

        def onward(step, time):
            for after in steps:
                if after[1] == step[2]:
                    yield after, time + cost(step, after) + after[3]
        for step, time in least([(step, step[3]) for step in steps if step[1] == source], onward).items():
            found[step[2]] = min(time, found.get(step[2], time))
        found[source] = 0.0
        yield f"turns and lights from {source}", agree(room, "town", source, found, 8), "all"
    yield "split crossings are told", summary_has(told, "crossings split for turns"), True


def largest_part(room):
    """--largest leaves out islands and traps, and says how many."""
    nodes = {number: (10 + 0.001 * number, 50.0) for number in range(1, 9)}
    ways = {1: ([1, 2], {"highway": "residential"}), 2: ([2, 3], {"highway": "residential"}), 3: ([3, 4], {"highway": "residential", "oneway": "yes"}), 4: ([5, 6], {"highway": "residential"}), 5: ([1, 7, 3], {"highway": "residential"})}
    told = imported(room, Town(nodes, ways), "--largest", "--keep-nodes")
    yield "the largest part", sorted(places(room, "town")[0]), ["1", "2", "3", "7"]
    yield "what is outside it is told", [summary_has(told, "3 crossings and ends of ways outside"), summary_has(told, "3 arcs outside")], [True, True]


@contextlib.contextmanager
def no_arrays():
    """As if NumPy and SciPy weren't there."""
    network, hidden = module("importing.osm_network"), ("scipy.sparse", "scipy.sparse.csgraph")
    numpy, known = network.numpy, {name: sys.modules[name] for name in hidden if name in sys.modules}
    network.numpy = None
    sys.modules.update(dict.fromkeys(hidden))
    try:
        yield
    finally:
        network.numpy = numpy
        for name in hidden:
            del sys.modules[name]
        sys.modules.update(known)


def without_arrays(room):
    """The same files without NumPy and SciPy, of streets of which some lead one way, so that there are many parts."""
    for seed in range(6):
        draw, side = random.Random(seed), 7
        nodes = {100 * (row * side + column + 1): (10 + 0.001 * column + 0.0003 * draw.random(), 50 + 0.001 * row) for row in range(side) for column in range(side)}
        ways, ends = {}, list(nodes)
        for place, node in enumerate(ends):
            for other in ([place + 1] if (place + 1) % side else []) + ([place + side] if place + side < len(ends) else []):
                if draw.random() < 0.6:
                    ways[len(ways) + 1] = [node, *([9] if draw.random() < 0.1 else []), ends[other]], {"highway": "residential", **({"oneway": draw.choice(("yes", "-1"))} if draw.random() < 0.6 else {})}
        town = Town(nodes, ways, [rule("no_straight_on", *draw.sample(list(ways), 1), ends[0], 1)])
        for words in ((), ("--largest",), ("--largest", "--keep-nodes", "--turns")):
            told = [(imported(room, town, *words, name="with").out.replace("with.", "."), found(room, "with"))]
            with no_arrays():
                told.append((imported(room, town, *words, name="without").out.replace("without.", "."), found(room, "without")))
            yield f"town {seed} without NumPy and SciPy {words}", told[0] == told[1] or [one for one, other in zip(told[0][1], told[1][1]) if one != other] or told, True
        yield f"town {seed} has several parts", summary_has(imported(room, town, "--largest"), "outside the largest part"), True


def found(room, name):
    """What the files of an importer hold, but for their own names and comments."""
    ends = (".gr", ".co", ".nodes.csv", ".arcs.csv", ".shapes.csv")
    return [end + "".join(line for line in text(room, name + end).splitlines(True) if not line.startswith("c")) for end in ends]


def places_asked(room):
    """--from and --to, west of Greenwich too, and of a split crossing the right nodes."""
    nodes, ways = cross()
    nodes = {number: (x - 12, y) for number, (x, y) in nodes.items()}
    town = Town(nodes, ways, [rule("no_left_turn", 1, 5, 4)])
    imported(room, town, "--from", "-2.0,50.0", "--to", "-2.0,50.0001", "--to", "-2.0,50.001")
    rows = {int(row["node"]): (row["id"], row["use"]) for row in table(room, "town.nodes.csv")}
    source = int(text(room, "town.ss").split()[-1])
    pairs = [tuple(map(int, line.split()[1:])) for line in text(room, "town.p2p").split("\n") if line.startswith("q")]
    yield "places become sources and pairs", (rows[source], [(rows[here], rows[there]) for here, there in pairs]), (("5", "start"), [(("5", "start"), ("5", "end")), (("5", "start"), ("4", "both"))])


def missing_nodes(room):
    """A way that leaves the extract is cut; what is left is taken."""
    nodes = line(5)
    town = Town(nodes, {1: ([1, 2, 99, 3, 4, 98], {"highway": "residential"}), 2: ([4, 5], {"highway": "residential"})})
    told = imported(room, town, "--keep-nodes")
    yield "ways are cut where a node is missing", sorted({tuple(sorted((int(row["from"]), int(row["to"])))) for row in table(room, "town.arcs.csv")}), [(1, 2), (3, 4), (4, 5)]
    yield "missing nodes are told", summary_has(told, "2 nodes of ways without coordinates"), True
    yield "nothing is there more than once", summary_has(told, "more than once"), False
    whole = town.xml()
    again = "".join(row for row in whole.splitlines(True) if '<node id="3"' in row or '<way id="2"' in row)
    for reader in ("auto", "python"):
        told = good("osm", put(room, "again.osm", whole.replace("</osm>", again + again + "</osm>")), os.path.join(room, "again"), "--profile", os.path.join(room, "test.ini"), "--reader", reader)
        yield f"what is there more than once is told by {reader}", [summary_has(told, part) for part in ("2 nodes that the file has more than once", "2 ways that the file has more than once")], [True, True]


def readers(room):
    """All kinds of file and both readers write the same."""
    nodes, ways = cross()
    nodes = {number + 2**40: (x, y) for number, (x, y) in nodes.items()}
    nodes[2**40 + 2] = (*nodes[2**40 + 2], {"barrier": "bollard", "note": 'a "quoted" <note> & ü'})
    ways = {number + 2**62: ([ref + 2**40 for ref in refs], tags) for number, (refs, tags) in ways.items()}
    town = Town(nodes, ways, [rule("no_left_turn", 2**62 + 1, 2**40 + 5, 2**62 + 4)])
    path = town.write(room)
    put(room, "packed.osm.bz2", bz2.compress(town.xml().encode()))
    profile = os.path.join(room, "test.ini")
    kinds = [(path, "python", "a"), (os.path.join(room, "packed.osm.bz2"), "python", "b")]
    if there("osmium"):
        import osmium
        pbf = os.path.join(room, "town.osm.pbf")
        if os.path.exists(pbf):
            os.remove(pbf)
        writer = osmium.SimpleWriter(pbf)
        class Copy(osmium.SimpleHandler):
            def node(self, it):
                writer.add_node(it)

            def way(self, it):
                writer.add_way(it)

            def relation(self, it):
                writer.add_relation(it)
        Copy().apply_file(path)
        writer.close()
        kinds += [(path, "pyosmium", "c"), (pbf, "pyosmium", "d"), (os.path.join(room, "packed.osm.bz2"), "pyosmium", "e")]
    for file, reader, name in kinds:
        good("osm", file, os.path.join(room, name), "--profile", profile, "--reader", reader)
    ends = (".gr", ".co", ".nodes.csv", ".arcs.csv", ".shapes.csv")
    strip = [["\n".join(line for line in text(room, name + end).split("\n") if not line.startswith("c ")) for end in ends] for _, _, name in kinds]
    yield "readers and kinds of file agree", all(it == strip[0] for it in strip), True
    yield "ids of 64 bits are kept", sorted(int(row["id"]) for row in table(room, "a.nodes.csv"))[0] > 2**40 and {int(row["way"].split(";")[0]) for row in table(room, "a.arcs.csv") if row["way"]} <= set(ways), True


def odd_xml(room):
    """XML that calls its encoding utf8, and files of JOSM, which marks what was deleted: read the same by whatever reads them."""
    nodes, ways = cross()
    nodes[2] = (*nodes[2], {"barrier": "bollard", "note": "Brücke"})
    town = Town(nodes, ways)
    imported(room, town, "--reader", "python", name="plain")
    whole = town.xml()
    extra = '<way id="77" version="1" action="delete"><nd ref="1"/><nd ref="7"/><tag k="highway" v="residential"/></way>\n</osm>'
    for name, text_ in (("utf8", whole.replace("UTF-8", "utf8")), ("josm", whole.replace('<osm version="0.6">', '<osm version="0.6" generator="JOSM">').replace("</osm>", extra)), ("utf16", whole.replace("UTF-8", "UTF-16").encode("utf-16"))):
        path = put(room, name + ".osm", text_)
        for reader in ("auto", "python"):
            good("osm", path, os.path.join(room, name), "--profile", os.path.join(room, "test.ini"), "--reader", reader)
            yield f"{name} by {reader}", [[row for row in text(room, it + end).split("\n") if not row.startswith("c ")] for end in (".gr", ".nodes.csv", ".arcs.csv") for it in (name,)], [[row for row in text(room, "plain" + end).split("\n") if not row.startswith("c ")] for end in (".gr", ".nodes.csv", ".arcs.csv")]
    closed = Town(nodes, {way: (refs, {**tags, "access": "no"}) for way, (refs, tags) in ways.items()})
    *told, reason = refused("osm", room, closed.write(room, "closed.osm"), os.path.join(room, "none"), "--profile", os.path.join(room, "test.ini"))
    yield "refused: no way is open, and why", (*told, f"left out were {len(ways)} ways without access" in reason), (True, True, [], True)


def unit_and_files(room):
    """--unit, files that are whole, an older .tp of ours that is removed, one of others that stays."""
    nodes, ways = cross()
    town = Town(nodes, ways)
    put(room, "town.tp", "c made of x by python -m earliest\np tp 0 0\n")
    put(room, "other.tp", "p tp 0 0\n")
    told = imported(room, town)
    imported(room, town, "--unit", "seconds", name="other")
    yield "an older .tp of ours goes", (os.path.exists(os.path.join(room, "town.tp")), summary_has(told, "removed")), (False, True)
    yield "a .tp of others stays", os.path.exists(os.path.join(room, "other.tp")), True
    yield "no part of a file stays", [it for it in os.listdir(room) if it.endswith(".part")], []
    yield "seconds", [abs(here[2] - 100 * there_[2]) <= 50 for here, there_ in zip(arcs(room, "town"), arcs(room, "other"))], [True] * len(arcs(room, "town"))
    yield "the unit is read back", [module("importing.writing").unit_of(os.path.join(room, name + ".gr")) for name in ("town", "other")], [100, 1]


def example(room):
    """The extract of examples/osm: two commands to an answer."""
    from support import ROOT, engine
    good("osm", os.path.join(ROOT, "examples", "osm", "town.osm"), os.path.join(room, "home"), "--from", "10.0005,50.0010", "--to", "10.0045,50.0030")
    told = engine("pairs", os.path.join(room, "home.gr"), os.path.join(room, "home.p2p"), "--walks")
    yield "the example is answered", (told.returncode, told.stdout.split()[0], b"inf" in told.stdout), (0, b"q", False)


def hostile(room):
    nodes, ways = cross()
    whole = Town(nodes, ways).xml()
    town = Town(nodes, ways).write(room)
    profile = os.path.join(room, "test.ini")
    bad_profile = put(room, "bad.ini", "[profile]\nname = x\n[speeds]\nresidential = fast\n")
    for name, file, words, part in (
        ("XML cut in the middle", put(room, "cut.osm", whole[:len(whole) // 2]), ["--reader", "python"], "cut off"),
        ("an empty file", put(room, "empty.osm", ""), ["--reader", "python"], "cut off"),
        ("no roads", put(room, "none.osm", '<osm version="0.6"></osm>'), ["--reader", "python"], "no way"),
        ("another kind of XML", put(room, "other.osm", "<gpx></gpx>"), ["--reader", "python"], "<gpx>"),
        ("an id beyond 64 bits", put(room, "big.osm", whole.replace('id="1"', 'id="99999999999999999999"', 1)), ["--reader", "python"], "beyond 64 bits"),
        ("an id that is no number", put(room, "word.osm", whole.replace('ref="5"', 'ref="five"', 1)), ["--reader", "python"], "five"),
        ("no coordinates at all", put(room, "bare.osm", "\n".join(line for line in whole.split("\n") if not line.startswith("<node"))), ["--reader", "python"], "coordinates"),
        ("bytes that aren't bz2", put(room, "not.osm.bz2", "<osm/>"), ["--reader", "python"], "compressed"),
        ("a file that isn't there", os.path.join(room, "nowhere.osm"), [], "isn't there"),
        ("a folder", room, [], "not a file"),
        ("a profile that isn't there", town, ["--profile", "lorry"], "no profile lorry"),
        ("a profile with a wrong number", town, ["--profile", bad_profile], "'fast'"),
        ("a place that is none", town, ["--from", "here"], "longitude"),
        ("a place off the Earth", town, ["--from", "200,10"], "no place"),
    ):
        words = words if "--profile" in words else [*words, "--profile", profile]
        *told, reason = refused("osm", room, file, os.path.join(room, "out"), *words)
        yield f"refused: {name}", (*told, part in reason), (True, True, [], True)
    if there("osmium"):
        put(room, "nan.osm", whole.replace('lon="', 'lon="nan', 1))
        for name, file in (("a coordinate that is none", "nan.osm"), ("XML cut in the middle", "cut.osm"), ("an empty file", "empty.osm"), ("no roads", "none.osm"), ("bytes that aren't bz2", "not.osm.bz2"), ("an id that is no number", "word.osm")):
            *told, reason = refused("osm", room, os.path.join(room, file), os.path.join(room, "out"), "--reader", "pyosmium", "--profile", profile)
            yield f"refused by pyosmium: {name}", (*told, bool(reason)), (True, True, [], True)
        fake = put(room, "fake.osm.pbf", b"\x00\x00\x00\x0dnothing like it")
        yield "refused: bytes that aren't a .pbf", refused("osm", room, fake, os.path.join(room, "out"))[:3], (True, True, [])
    *told, reason = refused("osm", room, town, os.path.join(room, "no", "such", "folder"), "--profile", profile)
    yield "refused: a folder to write to that isn't there", (*told, "isn't there" in reason), (True, True, [], True)


CASES = (tags_of_speed, directions, bicycles_and_walkers, barriers_and_ferries, chains, rings, restrictions_at_nodes, restrictions_at_joints, restrictions_over_ways, values, random_towns, turns_in_random_towns, turn_costs, largest_part, without_arrays, places_asked, missing_nodes, readers, odd_xml, unit_and_files, example, hostile)
