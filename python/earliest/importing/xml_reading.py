"""XML files of any size, packed or not, element by element."""
import bz2
import codecs
import gzip
import os
import re
import xml.etree.ElementTree as trees

from .telling import Refused


def opened(path):
    """The bytes of a file, unpacked if its name ends with .bz2 or .gz."""
    return (bz2.open if path.endswith(".bz2") else gzip.open if path.endswith(".gz") else open)(path, "rb")


def head_of(path):
    """The beginning of a text; '' if it can't be read."""
    try:
        with opened(path) as file:
            return file.read(2000).decode("ascii", "replace")
    except (EOFError, OSError):
        return ""


def told_utf8(head):
    """Whether XML tells that it is UTF-8, by any of its names: the parser knows only one of them."""
    told = re.match(r"\s*<\?xml[^>]*encoding=[\"']([^\"']*)", head)
    try:
        return bool(told) and codecs.lookup(told.group(1)).name == "utf-8"
    except LookupError:
        return False


def elements(path, root_tag, tags):
    """The elements of some tags below the root, when they end; what was read is freed. `root_tag` None takes any root."""
    if not os.path.exists(path):
        raise Refused(f"{path} isn't there")
    parser = trees.XMLParser(encoding="utf-8") if told_utf8(head_of(path)) else None
    root = None
    try:
        with opened(path) as file:
            for event, element in trees.iterparse(file, ("start", "end"), parser):
                if root is None:
                    root = element
                    if root_tag not in (None, root.tag):
                        raise Refused(f"{path} is XML of another kind: it begins with <{root.tag}>, and <{root_tag}> is wanted")
                elif event == "end" and element.tag in tags:
                    yield element
                    root.clear()
    except (trees.ParseError, LookupError) as fault:  # a LookupError is an encoding that nobody knows
        raise Refused(f"{path} is cut off or isn't XML: {fault}") from None
    except (EOFError, OSError) as fault:
        if isinstance(fault, OSError) and fault.errno:
            raise
        raise Refused(f"{path} is cut off or compressed otherwise: {fault}") from None
