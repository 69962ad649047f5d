"""What callers hand in, as the library takes it; anything else raises TypeError or ValueError."""

from __future__ import annotations

import ctypes
import operator
import os
import sys
from array import array
from typing import Any, Iterable, List, NamedTuple, Tuple, Union

Text = Union[str, bytes, bytearray]
Words = Any  # an array.array, or a numpy.ndarray where the samples came in one


class Values(NamedTuple):
    """Words of sixteen bits in memory. `owner` keeps that memory at its address."""

    at: int
    length: int
    owner: Any


def number(value: Any, largest: int, what: str) -> int:
    """An integer from 0 to the largest one."""
    try:
        n = operator.index(value)
    except TypeError:
        raise TypeError(f"{what} is an int, not {type(value).__name__}") from None
    if not 0 <= n <= largest:
        raise ValueError(f"{what} is from 0 to {largest}, not {n}")
    return n


def truth(value: Any, what: str) -> bool:
    """True or False."""
    if value is True or value is False:
        return bool(value)
    raise TypeError(f"{what} is True or False, not {value!r}")


def line_bytes(text: Text) -> bytes:
    """The bytes of a line. The card refuses those that are not ASCII."""
    if isinstance(text, str):
        return text.encode("utf-8", "surrogatepass")
    if isinstance(text, (bytes, bytearray)):
        return bytes(text)
    raise TypeError(f"a line is a str or bytes, not {type(text).__name__}")


def record_bytes(record: Any) -> bytes:
    """The bytes of a record, of anything that holds bytes."""
    try:
        return memoryview(record).tobytes()
    except TypeError:
        raise TypeError(f"a record is bytes, not {type(record).__name__}") from None


def wiring_lines(wiring: Union[Text, "os.PathLike[str]"]) -> List[Tuple[int, bytes]]:
    """The lines of a wiring with their numbers, without line ends and without blank lines."""
    if isinstance(wiring, os.PathLike) or (isinstance(wiring, str) and _is_path(wiring)):
        with open(wiring, "rb") as file:
            content = file.read()
    else:
        content = line_bytes(wiring)
    rows = (row[:-1] if row.endswith(b"\r") else row for row in content.split(b"\n"))
    return [(i, row) for i, row in enumerate(rows, 1) if row.strip()]


def _is_path(text: str) -> bool:
    # No line of a card has a dot or a slash.
    return "\n" not in text and any(mark in text for mark in "./\\")


def _in_place(view: memoryview) -> Values:
    if view.ndim != 1 or view.format != "H":
        raise TypeError(f"an array of samples is one row of uint16, not {view.ndim} axes of {view.format!r}")
    if view.readonly or not view.contiguous or len(view) == 0:
        return _copied(view.tolist(), "a sample")
    owner = (ctypes.c_uint16 * len(view)).from_buffer(view)
    return Values(ctypes.addressof(owner), len(view), owner)


def _copied(values: Iterable[int], what: str) -> Values:
    try:
        words = array("H", values)
    except OverflowError:
        raise ValueError(f"{what} is from 0 to 65535") from None
    except TypeError:
        raise TypeError(f"{what} is an int, and samples are a sequence of them") from None
    return Values(words.buffer_info()[0], len(words), words)


def words(values: Any) -> Values:
    """Samples in memory: those of an array as they are, others copied."""
    if isinstance(values, (str, bytes, bytearray)):
        raise TypeError(f"samples are ints or an array of uint16, not {type(values).__name__}")
    try:
        view = memoryview(values)
    except TypeError:
        return _copied(values, "a sample")
    return _in_place(view)


def is_numpy(values: Any) -> bool:
    """Whether the values came in an array of numpy, which is not imported for this."""
    numpy = sys.modules.get("numpy")
    return numpy is not None and isinstance(values, numpy.ndarray)
