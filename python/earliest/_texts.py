"""Texts: of paths, file objects and bytes, packed by gzip or not."""
from __future__ import annotations

import gzip
import os
import zlib
from typing import IO, Any, Optional, Tuple, Union

Source = Union[str, os.PathLike, bytes, bytearray, memoryview, IO[Any]]
"""A path, the contents of a file, or a file that is open for reading."""


def text_of(source: Source, word: str) -> Tuple[bytes, str, Optional[str]]:
    """The bytes of a source, the name by which failures call it, and the absolute path if it has one. `word` is the name of what has none."""
    path = None
    if isinstance(source, (bytes, bytearray, memoryview)):
        text, name = bytes(source), word
    elif isinstance(source, (str, os.PathLike)):
        name = os.fspath(source)
        if isinstance(name, bytes):
            name = os.fsdecode(name)
        if "\n" in name:
            raise TypeError(f"a text has to be passed as bytes, and a path has no line ends: {name[:40]!r}..")
        with open(name, "rb") as file:
            text = file.read()
        path = os.path.abspath(name)
    elif hasattr(source, "read"):
        text = source.read()
        if isinstance(text, str):
            text = text.encode()
        if not isinstance(text, bytes):
            raise TypeError(f"{source!r} gives no bytes when it is read")
        name = getattr(source, "name", word)
        name = name if isinstance(name, str) else word
    else:
        raise TypeError(f"{word} has to be a path, bytes or a file that is open for reading, not {type(source).__name__}")
    return unpacked(text, name), name, path


def unpacked(text: bytes, name: str) -> bytes:
    """A text without its packing, if gzip has packed it: no text of ours begins as these do."""
    if text[:2] != b"\x1f\x8b":
        return text
    try:
        return gzip.decompress(text)
    except (EOFError, OSError, zlib.error) as error:
        raise OSError(f"{name} is packed by gzip, and can't be unpacked: {error}") from error


def line_of(text: bytes, line: int) -> Optional[str]:
    """A line of a text, counted from 1, shown as text; None if there is none."""
    at = 0
    for _ in range(line - 1):
        at = text.find(b"\n", at) + 1
        if not at:
            return None
    if line < 1:
        return None
    end = text.find(b"\n", at)
    return text[at : at + 200 if end < 0 else min(end, at + 200)].rstrip(b"\r").decode("utf-8", "backslashreplace")
