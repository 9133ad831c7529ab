"""Times with units, dates, masks and fractions, in and out."""
import datetime

import earliest
import plain
from optional import needs, numpy, pandas
from test_engine import Case

NEVER = plain.NEVER
NET = plain.network(21)
WANT = NET.least([(3, 260)])


def road():
    return earliest.Road(NET.gr(), NET.tp())


@needs("numpy")
class Out(Case):
    """How results are written."""

    def test_masked(self):
        found = road().arrivals(3, 260, masked=True)
        self.assertIsInstance(found, numpy.ma.MaskedArray)
        self.assertEqual((found.dtype, found.mask.tolist(), found.compressed().tolist()), (numpy.dtype("uint64"), [it == NEVER for it in WANT], [it for it in WANT if it != NEVER]))
        self.assertEqual(int(found.max()), max(it for it in WANT if it != NEVER))

    def test_as_float(self):
        found = road().arrivals([3], 260, as_float=True)
        self.assertEqual((found.dtype, found.shape, found.tolist()[0]), (numpy.dtype("float64"), (1, 40), [float("inf") if it == NEVER else float(it) for it in WANT]))
        tenths = road().arrivals([3], 260, as_float=True, unit="100ms")
        self.assertEqual(tenths.tolist()[0], [float("inf") if it == NEVER else it / 10 for it in WANT])
        self.assertEqual(road().arrivals([3], 260, as_float=True, unit="m").tolist()[0], [float("inf") if it == NEVER else it * 60.0 for it in WANT])
        far = earliest.Road(plain.FOUR).pairs(1, [1], earliest.HORIZON, as_float=True)
        self.assertEqual(int(far[0]), earliest.HORIZON)

    def test_unit(self):
        for unit in ("s", "10ms", "m", "ns"):
            found = road().arrivals([3], 260, unit=unit)
            self.assertEqual((found.dtype, numpy.isnat(found[0]).tolist()), (numpy.dtype(f"timedelta64[{unit}]"), [it == NEVER for it in WANT]))
            self.assertEqual([None if it is None else int(numpy.int64(it)) for it in (None if numpy.isnat(it) else it for it in found[0])], [None if it == NEVER else it for it in WANT])

    def test_masked_with_unit_and_float(self):
        for words, kind in (({"unit": "s"}, "timedelta64[s]"), ({"as_float": True}, "float64"), ({"unit": "s", "origin": "2026-11-23"}, "datetime64[s]")):
            found = road().arrivals([3], 260, masked=True, **words)
            self.assertEqual((found.dtype, found.mask.tolist()[0]), (numpy.dtype(kind), [it == NEVER for it in WANT]))

    def test_every_call(self):
        """Each call writes its times as it is asked to."""
        net = road()
        reached = next(node for node, it in enumerate(WANT, 1) if it not in (NEVER, 260))
        time = WANT[reached - 1]
        span, moment = numpy.timedelta64(time, "s"), numpy.datetime64("2026-11-23") + numpy.timedelta64(time, "s")
        for words, want in (({}, time), ({"unit": "s"}, span), ({"unit": "s", "origin": "2026-11-23"}, moment), ({"as_float": True}, float(time)), ({"unit": "10ms", "as_float": True}, time / 100)):
            got = [net.search(3, 260, **words).arrivals[reached - 1], net.search(3, 260, **words).arrival(reached), net.search([3], 260, **words).arrivals[0, reached - 1], net.search([3], 260, **words)[0].arrival(reached),
                   net.search([3], 260, **words)[0].arrivals[reached - 1], net.search(3, 260, **words).reached()[reached], net.arrivals(3, 260, reached, **words), net.pairs(3, [reached], 260, **words)[0],
                   net.profile(3, reached, [260], **words)[0], net.searcher().find(3, 260, **words).arrival(reached), net.searcher().pair(3, 260, reached, **words)]
            self.assertEqual([it == want for it in got], [True] * len(got), (words, got, want))
            self.assertEqual({type(it) for it in got} <= {type(want), numpy.uint64, numpy.float64}, True)
        self.assertEqual(net.latest(3, reached, time, unit="s").dtype, numpy.dtype("timedelta64[s]"))
        self.assertEqual(net.departures([reached], time, unit="s").dtype, numpy.dtype("timedelta64[s]"))
        lone = next(node for node, it in enumerate(WANT, 1) if it == NEVER)
        for words in ({}, {"unit": "s"}, {"as_float": True}):
            self.assertIsNone(net.search(3, 260, **words).arrival(lone))
            self.assertIsNone(net.searcher().pair(3, 260, lone, **words))

    @needs("pandas")
    def test_series(self):
        found = road().search(3, 260)
        series = found.series()
        self.assertEqual((str(series.dtype), list(series.index), series.isna().tolist(), series.dropna().tolist()), ("UInt64", list(range(1, 41)), [it == NEVER for it in WANT], [it for it in WANT if it != NEVER]))
        self.assertEqual(series.name, "arrival")
        named = road().named([f"n{node}" for node in range(1, 41)]).search("n3", 260, unit="s").series("time")
        self.assertEqual((str(named.dtype), named.isna().tolist(), named["n3"]), ("timedelta64[ns]", [it == NEVER for it in WANT], pandas.Timedelta(seconds=260)))
        dated = road().search(3, 260, unit="s", origin="2026-11-23").series()
        self.assertEqual((str(dated.dtype), dated[3]), ("datetime64[ns]", pandas.Timestamp("2026-11-23 00:04:20")))
        self.assertEqual(road().search(3, 260, as_float=True).series().tolist(), [float("inf") if it == NEVER else float(it) for it in WANT])
        tuples = earliest.Road(plain.FOUR).named([(0, 0), (0, 1), (1, 0), (1, 1)]).search((0, 0)).series()
        self.assertEqual((tuples.index.nlevels, tuples.tolist()), (1, [0, 5, 2, 6]))
        self.told(OverflowError, "beyond what pandas can hold", lambda: earliest.Road(plain.FOUR).search(1, 2**47, unit="s").series())


@needs("numpy")
class In(Case):
    """Departures as NumPy, Python and pandas write times."""

    def test_spans(self):
        second = datetime.timedelta(seconds=1)
        for departures in (numpy.timedelta64(260, "s"), numpy.timedelta64(260000, "ms"), 260 * second, numpy.array([260], "timedelta64[s]"), [260 * second], [numpy.timedelta64(260, "s")], numpy.array([260 * second], dtype=object),
                           numpy.array([260 * 10**9], "timedelta64[ns]"), (260 * second,)):
            found = road().arrivals([3], departures, unit="s")
            self.assertEqual([NEVER if numpy.isnat(it) else int(it.astype(int)) for it in found[0]], WANT, departures)
        tenths = road().pairs(3, 3, numpy.timedelta64(26, "s"), unit="100ms")
        self.assertEqual(tenths, numpy.timedelta64(260, "100ms"))

    def test_moments(self):
        moment = datetime.datetime(2026, 11, 23, 0, 4, 20)
        for departures in (numpy.datetime64(moment), moment, [moment], numpy.array([moment], "datetime64[s]"), numpy.array(["2026-11-23T00:04:20"], "datetime64[ns]"), [numpy.datetime64(moment)]):
            for origin in ("2026-11-23", numpy.datetime64("2026-11-23"), datetime.datetime(2026, 11, 23), datetime.date(2026, 11, 23)):
                found = road().arrivals([3], departures, unit="s", origin=origin)
                self.assertEqual([NEVER if numpy.isnat(it) else int((it - numpy.datetime64("2026-11-23")).astype("timedelta64[s]").astype(int)) for it in found[0]], WANT)
                self.assertEqual(found.dtype, numpy.dtype("datetime64[s]"))
        later = road().pairs(3, 3, numpy.datetime64("2026-11-24T01"), unit="s", origin="2026-11-23")
        self.assertEqual((later, later.dtype), (numpy.datetime64("2026-11-24T01"), numpy.dtype("datetime64[s]")))

    @needs("pandas")
    def test_pandas(self):
        moment = pandas.Timestamp("2026-11-23 00:04:20")
        for departures in (moment, [moment], pandas.Series([moment]), pandas.DatetimeIndex([moment]), moment.to_datetime64()):
            self.assertEqual(road().pairs(3, [3], departures, unit="s", origin=pandas.Timestamp("2026-11-23"))[0], moment.to_datetime64())
        for departures in (pandas.Timedelta(seconds=260), [pandas.Timedelta(seconds=260)], pandas.Series([pandas.Timedelta(seconds=260)])):
            self.assertEqual(road().pairs(3, [3], departures, unit="s")[0], numpy.timedelta64(260, "s"))
        for departures in (pandas.NaT, [pandas.NaT], pandas.Series([pandas.NaT])):
            with self.assertRaises((TypeError, ValueError)):
                road().pairs(3, [3], departures, unit="s", origin="2026-11-23")
        for departures in (moment.tz_localize("Europe/Berlin"), pandas.Series([moment]).dt.tz_localize("Europe/Berlin")):
            self.told(TypeError, "time zone", lambda: road().pairs(3, [3], departures, unit="s", origin="2026-11-23"))

    def test_refusals(self):
        span, moment = numpy.timedelta64(260, "s"), numpy.datetime64("2026-11-23T00:04:20")
        net = road()
        self.told(TypeError, "needs unit=", lambda: net.search(3, span))
        self.told(TypeError, "needs unit=", lambda: net.search([3], [span]))
        self.told(TypeError, "needs unit=", lambda: net.search(3, datetime.timedelta(seconds=1)))
        self.told(TypeError, "needs origin=", lambda: net.search(3, moment, unit="s"))
        self.told(TypeError, "origin= needs unit=", lambda: net.search(3, 0, origin="2026-11-23"))
        self.told(TypeError, "not a date", lambda: net.search(3, datetime.date(2026, 11, 23), unit="s", origin="2026-11-23"))
        self.told(TypeError, "time zone", lambda: net.search(3, datetime.datetime(2026, 11, 23, tzinfo=datetime.timezone.utc), unit="s", origin="2026-11-23"))
        for unit in ("Y", "M", "x", "generic", "", "ps"):
            self.told(ValueError, "is none of time", lambda: net.search(3, 0, unit=unit))
        for value in (numpy.timedelta64(2605, "100ms"), numpy.array([260000, 260001], "timedelta64[ms]")):
            self.told(ValueError, "whole number of the unit s", lambda: net.search([3] * numpy.size(value), value, unit="s"))
        self.told(ValueError, "NaT", lambda: net.search(3, numpy.timedelta64("NaT", "s"), unit="s"))
        self.told(ValueError, "NaT", lambda: net.search([3], numpy.array(["NaT"], "datetime64[s]"), unit="s", origin="2026-11-23"))
        self.told(ValueError, "NaT", lambda: net.search(3, 0, unit="s", origin="NaT"))
        self.refused(19, lambda: net.search(3, -span, unit="s"), -260)
        self.refused(19, lambda: net.search(3, moment, unit="s", origin="2026-11-24"), -86140)
        self.refused(19, lambda: net.search(3, numpy.timedelta64(2**48, "s"), unit="s"), 2**48)
        self.told(ValueError, "whole number of the unit ns", lambda: net.search(3, numpy.timedelta64(2**40, "h"), unit="ns"))
