"""Elements of OpenStreetMap files: by pyosmium if it is there, XML by the standard library too. Both hand over plain numbers and dicts."""
import os
import re

from .telling import Refused
from .xml_reading import elements, head_of

MOST_ID = 2**63 - 1
ENCODINGS = ("utf-8", "utf-16", "iso-8859-1", "us-ascii")
"""What pyosmium's reader of XML knows."""
XML_ENDS = (".osm", ".xml", ".osm.bz2", ".osm.gz", ".xml.bz2", ".xml.gz")


def osmium_or_none():
    try:
        import osmium
        return osmium
    except ImportError:
        return None


class Source:
    """A file that is gone through twice: `ways_and_relations(handler)`, then `nodes(handler)`."""

    def __init__(self, path, reader="auto"):
        self.path = path
        if not os.path.exists(path):
            raise Refused(f"{path} isn't there")
        if not os.path.isfile(path):
            raise Refused(f"{path} is not a file")
        self.osmium = osmium_or_none() if reader == "pyosmium" or (reader == "auto" and not self._beyond_pyosmium()) else None
        if reader == "pyosmium" and self.osmium is None:
            raise Refused("pyosmium isn't there; install it by `pip install osmium` or `apt-get install python3-pyosmium`")
        if self.osmium is None and not path.endswith(XML_ENDS):
            raise Refused(f"{path}: only {', '.join(XML_ENDS[:1] + XML_ENDS[2:4])} can be read without pyosmium; " + (
                "leave --reader python out" if osmium_or_none() else "install it by `pip install osmium` or `apt-get install python3-pyosmium`"))
        self.reader = "pyosmium" if self.osmium else "the standard library"

    def _beyond_pyosmium(self):
        """Whether XML is of a kind that pyosmium doesn't know: in another encoding, or written by JOSM, which marks what was deleted."""
        head = head_of(self.path) if self.path.endswith(XML_ENDS) else ""
        told = re.match(r"\s*<\?xml[^>]*encoding=[\"']([^\"']*)", head)
        return bool(told and told.group(1).lower() not in ENCODINGS or re.search(r"<osm[^>]*generator=[\"']JOSM", head))

    def ways_and_relations(self, way, relation):
        """Calls way(id, node ids, tags) and relation(id, [(type, id, role)], tags); types are n, w, r."""
        if self.osmium:
            self._apply(way=lambda it: way(it.id, [node.ref for node in it.nodes], {tag.k: tag.v for tag in it.tags}) if _of_traffic(it.tags) else None,
                        relation=lambda it: relation(it.id, [(member.type, member.ref, member.role) for member in it.members], {tag.k: tag.v for tag in it.tags}) if "type" in it.tags else None)
            return
        for element in self._elements():
            if element.tag == "way":
                tags = _tags(element)
                if _of_traffic(tags):
                    way(_id(element, "id", self.path), [_id(node, "ref", self.path) for node in element.iter("nd")], tags)
            elif element.tag == "relation":
                members = [((it.get("type") or "?")[0], _id(it, "ref", self.path), it.get("role") or "") for it in element.iter("member")]
                relation(_id(element, "id", self.path), members, _tags(element))

    def nodes(self, node):
        """Calls node(id, longitude, latitude, tags): coordinates in units of 1e-7 degrees, None if they are missing; tags None if it has none."""
        if self.osmium:
            def handed(it):
                place = it.location
                tags = {tag.k: tag.v for tag in it.tags} if len(it.tags) else None
                if place.valid():
                    node(it.id, place.x, place.y, tags)
                else:
                    node(it.id, None, None, tags)
            self._apply(node=handed)
            return
        for element in self._elements():
            if element.tag == "node":
                x, y = _degrees(element.get("lon"), 180), _degrees(element.get("lat"), 90)
                if x is None or y is None:
                    x = y = None
                node(_id(element, "id", self.path), x, y, _tags(element) if len(element) else None)

    def _apply(self, **calls):
        handler = type("Handler", (self.osmium.SimpleHandler,), {name: staticmethod(call) for name, call in calls.items()})()
        try:
            handler.apply_file(self.path)
        except (RuntimeError, ValueError, self.osmium.InvalidLocationError) as fault:
            if isinstance(fault, UnicodeDecodeError):
                raise Refused(f"{self.path} has a text that isn't UTF-8") from None
            raise Refused(f"{self.path} can't be read as OpenStreetMap data: {fault}") from None

    def _elements(self):
        for element in elements(self.path, "osm", ("node", "way", "relation")):
            if element.get("action") != "delete" and element.get("visible") != "false":
                yield element


def _of_traffic(tags):
    return "highway" in tags or "route" in tags


def _tags(element):
    return {tag.get("k", ""): tag.get("v", "") for tag in element.iter("tag")}


def _id(element, key, path):
    text = element.get(key)
    try:
        number = int(text)
    except (TypeError, ValueError):
        raise Refused(f"{path}: a {element.tag} has no number as its {key}, but {text!r}") from None
    if not -MOST_ID <= number <= MOST_ID:
        raise Refused(f"{path}: the {key} {number} of a {element.tag} is beyond 64 bits")
    return number


def _degrees(text, most):
    try:
        value = float(text)
    except (TypeError, ValueError):
        return None
    return round(value * 10_000_000) if -most <= value <= most else None
