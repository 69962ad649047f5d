"""Up to four cards that share one backplane."""

from __future__ import annotations

import ctypes
import struct
import threading
from ctypes import byref, c_size_t
from typing import Any, List, Optional, Sequence, Tuple, Union

from . import _library as library
from ._history import NOT_KEPT
from ._values import Text, line_bytes, number, record_bytes, truth
from .card import Answer, Card, Closed
from .refusals import Refused, accepted

MOST = 4

Front = Union[int, Tuple[int, int]]

_input = struct.Struct("=4B8B")
_answer = struct.Struct("=?xHIII")
_TICKED = 4 + MOST * _answer.size
_NO_RACK = 20


class Rack:
    """A row of 1 to 4 cards of sixteen cells on one backplane, numbered from 1.

    `start` has been called. Threads may share a rack: each call has it for itself until it ends. A
    closed rack raises `Closed`.

    >>> rack = Rack(2)
    >>> rack.line(2, "M E=41"), rack.line(2, "W E")
    (None, 41)
    >>> [answer.levels for answer in rack.tick([0x01, 0x00])]
    [65281, 65280]
    """

    __slots__ = ("_count", "_memory", "_lock", "__weakref__")

    def __init__(self, n: int) -> None:
        number(n, 255, "the number of cards")
        if not 1 <= n <= MOST:
            raise Refused(_NO_RACK)
        self._count = int(n)
        self._lock = threading.Lock()
        self._memory: Any = library.memory(self._count * library.CARD)
        for i in range(self._count):
            library.fresh(self._card_at(i))
        self.start()

    def _card_at(self, i: int) -> int:
        return ctypes.addressof(self._memory) + i * int(library.CARD)

    def _check_open(self) -> None:
        if self._memory is None:
            raise Closed("the rack is closed")

    def __len__(self) -> int:
        return self._count

    def __repr__(self) -> str:
        return f"<Rack of {self._count} cards{'' if self._memory is not None else ', closed'}>"

    def __reduce__(self) -> Any:
        raise TypeError("a rack cannot be pickled, since records have no states")

    def close(self) -> None:
        """Gives the rack up. A second call does nothing."""
        with self._lock:
            self._memory = None

    def __enter__(self) -> Rack:
        return self

    def __exit__(self, *_error: Any) -> None:
        self.close()

    def start(self) -> None:
        """Every card fresh, but with all connectors as inputs."""
        with self._lock:
            self._check_open()
            accepted(library.rack_start(self._memory, self._count))

    def tick(
        self, fronts: Sequence[Front], backplane: int = 0xFF, attached: int = 0xFF, full: bool = False, clock: int = 0
    ) -> Tuple[Answer, ...]:
        """A tick of all cards: all drive, then all sample, then all work out their cells.

        `fronts` has for each card the levels at BNC1 to BNC8, or a pair of these and which have
        something attached. `backplane` and `attached` are those of TTL0 to TTL7, one byte each. There
        is an answer for each card.
        """
        rows = [_front(front) for front in fronts]
        code, sample = number(clock, 0xFF, "clock"), number(backplane, 0xFF, "backplane")
        given, ticked = library.memory(_input.size), library.memory(_TICKED)
        bytes_: List[int] = [byte for row in rows[:MOST] for byte in row] + [0] * (2 * (MOST - len(rows)))
        _input.pack_into(given, 0, code, sample, number(attached, 0xFF, "attached"), min(len(rows), 255), *bytes_)
        with self._lock:
            self._check_open()
            accepted(library.rack_tick(self._memory, self._count, truth(full, "full"), given, ticked))
            return tuple(self._answer(ticked, i) for i in range(self._count))

    def _answer(self, ticked: Any, i: int) -> Answer:
        words = _answer.unpack_from(ticked, 4 + i * _answer.size)
        return Answer._make((*words, library.levels(self._card_at(i))))

    def line(self, n: int, text: Text) -> Optional[int]:
        """A line to the card of a number, as `Card.line`."""
        content = line_bytes(text)
        reply, length, store = (ctypes.c_uint8 * library.REPLY)(), c_size_t(), (ctypes.c_uint8 * 308)()
        with self._lock:
            self._check_open()
            k = library.rack_line(
                self._memory, self._count, _card(n), content, len(content), reply, len(reply), store, 308, byref(length)
            )
        accepted(k, content.decode("utf-8", "replace"))
        return library.replied(reply, length.value)

    def load(self, n: int, record: Any) -> None:
        """The card of a number powers up with a record, as `Card.power_up`."""
        content = record_bytes(record)
        with self._lock:
            self._check_open()
            accepted(library.rack_load(self._memory, self._count, _card(n), content, len(content)))

    def card(self, n: int) -> Card:
        """A card of its own that is equal to the one of a number, to read its record or tallies."""
        with self._lock:
            self._check_open()
            if not 1 <= _card(n) <= self._count:
                raise Refused(_NO_RACK)
            return Card._of(self._card_at(n - 1), 16, NOT_KEPT)


def _card(n: Any) -> int:
    """The number of a card; those that no rack has are all one to the library."""
    if isinstance(n, bool) or not isinstance(n, int):
        raise TypeError(f"the number of a card is an int, not {type(n).__name__}")
    return n if 0 <= n <= 255 else 0


def _front(front: Any) -> Tuple[int, int]:
    if isinstance(front, tuple):
        if len(front) != 2:
            raise ValueError(f"a front is a sample, or a sample and what is attached, not {front!r}")
        return number(front[0], 0xFF, "the sample of a front"), number(front[1], 0xFF, "what is attached at a front")
    return number(front, 0xFF, "the sample of a front"), 0xFF
