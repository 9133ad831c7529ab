"""Profiles: which ways of OpenStreetMap a traveller may use, in which direction, and how fast."""
import configparser
import os
import re

from .telling import Refused

FOLDER = os.path.join(os.path.dirname(os.path.abspath(__file__)), "profiles")
KNOTS, MILES = 1.852, 1.609344
"""Kilometres of a nautical mile and of a mile."""
SECTIONS = ("profile", "speeds", "speeds if allowed", "caps", "implicit", "barriers", "turns")
CONDITIONAL = ("access:conditional", "oneway:conditional", "maxspeed:conditional", "motor_vehicle:conditional", "vehicle:conditional",
               "bicycle:conditional", "foot:conditional", "motorcar:conditional")


def names():
    return sorted(name[:-4] for name in os.listdir(FOLDER) if name.endswith(".ini"))


def minutes_of(text):
    """A duration in minutes: `45`, `1:30`, `01:30:00`, `PT1H30M`; None if it is none of these."""
    iso = re.fullmatch(r"P(?:(\d+)D)?T?(?:(\d+)H)?(?:(\d+)M)?(?:(\d+)S)?", text.strip().upper())
    if iso and any(iso.groups()):
        days, hours, minutes, seconds = (int(part or 0) for part in iso.groups())
        return 1440 * days + 60 * hours + minutes + seconds / 60
    if not re.fullmatch(r"\d+(:\d\d?){0,2}", text.strip()):
        return None
    parts = [int(part) for part in text.strip().split(":")]
    if len(parts) == 1:
        return float(parts[0])
    return 60 * parts[0] + parts[1] + (parts[2] / 60 if len(parts) == 3 else 0)


class Once:
    """What judging a way tells a summary, each reason once though both directions have it; told for each way with the same tags."""

    def __init__(self):
        self.taken, self.left, self.notes = [], {}, []

    def take(self, what):
        if what not in self.taken:
            self.taken.append(what)

    def leave(self, why, value=None):
        """Something that is left out, maybe for a value of a tag."""
        self.left.setdefault(why, value)

    def note(self, sentence):
        self.notes.append(sentence)

    def tell(self, summary, way):
        for what in self.taken:
            summary.take(what)
        for why, value in self.left.items():
            summary.leave(why, way if value is None else f"{way}: {value!r}")
        for note in self.notes:
            summary.note(note)


class Profile:
    """A profile of an INI file: `judge` of a way's tags, `passes` of a node's."""

    def __init__(self, name):
        path = os.path.join(FOLDER, name + ".ini") if name in names() else name
        if not os.path.isfile(path):
            raise Refused(f"there is no profile {name}; there are {', '.join(names())}, or the path of a file")
        text = configparser.ConfigParser(delimiters=("=",), comment_prefixes=("#",), interpolation=None, strict=True)
        text.optionxform = str
        try:
            with open(path, encoding="utf-8") as file:
                text.read_file(file)
        except (configparser.Error, UnicodeDecodeError) as fault:
            raise Refused(f"{path} isn't a profile: {str(fault).splitlines()[0]}") from None
        self.path = path
        for section in text.sections():
            if section not in SECTIONS:
                raise Refused(f"{path}: there is no section [{section}] in a profile")
        try:
            self._read(text)
        except (KeyError, ValueError) as fault:
            raise Refused(f"{path}: {fault}") from None

    def _read(self, text):
        def numbers(section, least):
            found = {}
            for key, value in (text[section].items() if text.has_section(section) else ()):
                try:
                    found[key] = float(value)
                except ValueError:
                    raise ValueError(f"a number is wanted for {key!r} in [{section}], not {value!r}") from None
                if not least <= found[key] < 1e6:
                    raise ValueError(f"{key!r} in [{section}] is {value}, out of range")
            return found

        def one_of(key, wanted):
            value = head.get(key, wanted[0])
            if value not in wanted:
                raise ValueError(f"{key!r} is {value!r}, and one of {', '.join(wanted)} is wanted")
            return value

        if not text.has_section("profile") or not text.has_section("speeds"):
            raise ValueError("the sections [profile] and [speeds] are wanted")
        head = text["profile"]
        self.name = head.get("name", os.path.basename(self.path))
        self.access = head.get("access", "access").split()
        self.yes, self.no = set(head.get("yes", "yes").split()), set(head.get("no", "no").split())
        self.not_through = set(head.get("not through", "").split())
        self.oneway = head.get("oneway", "oneway").split()
        self.implied_oneway = one_of("implied oneway", ("yes", "no")) == "yes"
        self.contraflow = one_of("contraflow", ("no", "yes")) == "yes"
        self.restrictions = head.get("restrictions", "restriction").split()
        self.excepted = set(head.get("except", "").split())
        self.maxspeed = one_of("maxspeed", ("limit", "cap", "none"))
        self.areas = one_of("areas", ("no", "yes")) == "yes"
        self.ferries = one_of("ferries", ("yes", "no")) == "yes"
        self.factor, self.top, self.ferry_speed = (float(head.get(key, usual)) for key, usual in (("factor", "1"), ("top", "130"), ("ferry speed", "15")))
        if min(self.factor, self.top, self.ferry_speed) <= 0:
            raise ValueError("factor, top and ferry speed are above 0")
        self.speeds, self.if_allowed = numbers("speeds", 0.1), numbers("speeds if allowed", 0.1)
        self.caps = {}
        for key, value in numbers("caps", 0.1).items():
            words = key.split()
            if len(words) != 2:
                raise ValueError(f"a key and a value of a tag are wanted in [caps], not {key!r}")
            self.caps[tuple(words)] = value
        self.cap_keys = sorted({key for key, _ in self.caps})
        self.implicit = numbers("implicit", 0.1)
        directed = [f"{key}:{direction}" for key in (*self.access, "maxspeed") for direction in ("forward", "backward")]
        self.asked = {"highway", "route", "area", "junction", "duration", "cycleway", "cycleway:left", "cycleway:right", "cycleway:both", "maxspeed", "maxspeed:type", "source:maxspeed", "zone:maxspeed", *CONDITIONAL, *self.access, *directed, *self.oneway, *self.cap_keys}
        self.judged = {}
        self.barriers = set(text.get("barriers", "pass", fallback="").split())
        self.turns = {"straight up to": 35.0, "sharp from": 120.0, "straight": 0.0, "right": 0.0, "left": 0.0, "sharp": 0.0, "u-turn": 0.0, "traffic signals": 0.0, **numbers("turns", 0.0)}

    def allowed(self, tags, direction, summary=None):
        """The value of the first key of access that has a meaning: True, False, or None if no key has. `direction` is `forward`, `backward` or ''."""
        for key in self.access:
            for full in ((f"{key}:{direction}", key) if direction else (key,)):
                value = tags.get(full)
                if value is None:
                    continue
                if value in self.yes:
                    if value in self.not_through and summary is not None:
                        summary.take(f"ways that are open for {value} only, taken as open to through traffic")
                    return True
                if value in self.no:
                    return False
                if ";" in value:
                    parts = {part.strip() for part in value.split(";")}
                    if parts & self.yes:
                        return True
                    if parts & self.no:
                        return False
                if summary is not None:
                    summary.leave(f"values of {full} without a meaning here, not looked at", value)
        return None

    def passes(self, tags):
        """Whether a node's barrier lets pass."""
        allowed = self.allowed(tags, "")
        return allowed if allowed is not None else tags["barrier"] in self.barriers

    def judge(self, way, tags, summary):
        """Speeds forward and backward in km/h (0: closed) and the seconds of the whole way, if they are told; or None."""
        key = tuple(tag for tag in tags.items() if tag[0] in self.asked)
        known = self.judged.get(key)
        if known is None:
            once = Once()
            known = self.judged[key] = self._judge(tags, once), once
        known[1].tell(summary, way)
        return known[0]

    def _judge(self, tags, summary):
        ferry = False
        kind = tags.get("highway")
        speed = self.speeds.get(kind)
        asked = False
        if kind is not None and speed is None:
            speed, asked = self.if_allowed.get(kind), True
        if speed is None:
            route = tags.get("route")
            if route in ("ferry", "shuttle_train") and self.ferries:
                speed, ferry, asked, kind = self.ferry_speed, True, False, route
            elif kind is not None:
                summary.leave(f"ways with highway={kind}, which the profile has no speed for")
                return None
            else:
                return None
        if tags.get("area") == "yes" and not self.areas:
            summary.leave("ways that are areas")
            return None
        for key in CONDITIONAL:
            if key in tags:
                summary.leave(f"tags {key} (conditions of time), not looked at")
        open_ways = []
        for direction in ("forward", "backward"):
            allowed = self.allowed(tags, direction, summary)
            open_ways.append(allowed is True or (allowed is None and not asked))
        if not any(open_ways):
            summary.leave(f"ways with highway={kind} that aren't opened by a key of access" if asked and self.allowed(tags, "") is None else "ways without access")
            return None
        directions = self._directions(tags, ferry, summary)
        if directions is None:
            return None
        ends = [open_ways[place] and directions[place] for place in (0, 1)]
        if not any(ends):
            summary.leave("ways without access in the direction that they are driven")
            return None
        seconds = None
        if ferry and "duration" in tags:
            minutes = minutes_of(tags["duration"])
            if minutes:
                seconds = 60 * minutes
            else:
                summary.leave("durations of ferries that can't be read; the ferry speed is taken", tags["duration"])
        elif ferry:
            summary.note(f"ferries without a duration go at {self.ferry_speed:g} km/h, and nobody waits for them")
        speeds = [self._speed(tags, speed, direction, ferry, summary) if goes else 0.0 for direction, goes in zip(("forward", "backward"), ends)]
        summary.take(f"ways of {'route' if ferry else 'highway'}={kind}")
        return speeds[0], speeds[1], seconds

    def _directions(self, tags, ferry, summary):
        """Whether a way is driven forward and backward."""
        value = next((tags[key] for key in self.oneway if key in tags), None)
        if value in ("reversible",):
            summary.leave("ways with oneway=reversible")
            return None
        if value == "alternating":
            summary.take("ways with oneway=alternating, taken both ways")
        if value in ("-1", "reverse"):
            found = [False, True]
        elif value in ("yes", "1", "true"):
            found = [True, False]
        elif value in ("no", "0", "false", "alternating"):
            found = [True, True]
        else:
            if value is not None:
                summary.leave("values of oneway without a meaning here, taken as no", value)
            implied = self.implied_oneway and not ferry and (tags.get("junction") in ("roundabout", "circular") or tags.get("highway") == "motorway")
            found = [True, not implied]
        if self.contraflow and not all(found) and any(tags.get(key, "").startswith("opposite") for key in ("cycleway", "cycleway:left", "cycleway:right", "cycleway:both")):
            found = [True, True]
        return found

    def _speed(self, tags, speed, direction, ferry, summary):
        for key in self.cap_keys:
            cap = self.caps.get((key, tags.get(key)))
            if cap is not None and not ferry:
                speed = min(speed, cap)
        if self.maxspeed == "none" or ferry:
            return speed
        limit = None
        for key in (f"maxspeed:{direction}", "maxspeed", "maxspeed:type", "source:maxspeed", "zone:maxspeed"):
            if key in tags:
                limit = self.limit_of(tags[key])
                if limit is not None:
                    break
                if key.startswith("maxspeed") and key != "maxspeed:type":
                    summary.leave(f"values of {key} that can't be read; the class's speed is taken", tags[key])
        if limit is None:
            return min(speed, self.top)
        driven = limit * self.factor
        if self.maxspeed == "cap":
            return min(speed, driven, self.top)
        capped = min((self.caps[key, tags[key]] for key in self.cap_keys if (key, tags.get(key)) in self.caps), default=driven)
        return min(driven, capped, self.top)

    def limit_of(self, text):
        """A maxspeed in km/h: `50`, `30 mph`, `10 knots`, `none`, `DE:urban`, `DE:zone:30`, `50; 30`; None if it can't be read."""
        text = text.strip()
        if ";" in text:
            parts = [self.limit_of(part) for part in text.split(";") if part.strip()]
            return min(parts) if parts and None not in parts else None
        if text == "none":
            return self.top / self.factor
        if text in self.implicit:
            return self.implicit[text]
        number = re.fullmatch(r"(\d+(?:\.\d+)?)\s*(km/h|kmh|kph|mph|knots)?", text)
        if number and float(number.group(1)) > 0:
            return float(number.group(1)) * {"mph": MILES, "knots": KNOTS}.get(number.group(2), 1.0)
        zone = re.fullmatch(r"(?:[A-Z]{2}:)?zone:?(\d+)", text)
        return float(zone.group(1)) if zone and int(zone.group(1)) else None
