"""One card: lines, wirings, ticks and records."""

from __future__ import annotations

import ctypes
import os
import struct
import threading
from array import array
from ctypes import byref, c_size_t
from typing import Any, List, NamedTuple, Optional, Tuple, Union

from . import _library as library
from ._history import History
from ._values import Text, Words, is_numpy, line_bytes, number, record_bytes, truth, wiring_lines, words
from .addresses import CONNECTORS, place
from .refusals import Refused, accepted

ALL_ATTACHED = 0xFFFF

# A row of loop.c: trigger_input and `full`, then trigger_answer and the levels.
_ROW = 32
_pack = struct.Struct("=BxHH?").pack_into
_unpack = struct.Struct("=?xHIIIH").unpack_from
_ANSWER = 8

_surveyed = struct.Struct("=B3xIH2x")
_tallied = struct.Struct("=33I")


class Closed(ValueError):
    """The card or the rack was closed."""


class Answer(NamedTuple):
    """What a tick answers.

    Bit 0 of a word is BNC1 or cell 1; bits 8 to 15 of `driven` and `levels` are TTL0 to TTL7.
    """

    ran: bool
    """False where the card takes ticks of another clock; then all but `levels` is 0."""
    driven: int
    """What the card drives at its connectors."""
    cells: int
    """The outputs of the cells."""
    woken: int
    """Which cells were worked out."""
    count: int  # type: ignore[assignment]
    """How many these are."""
    levels: int
    """The levels of the connectors in the last tick that ran."""

    def __repr__(self) -> str:
        return (
            f"Answer(ran={self.ran}, driven=0x{self.driven:04x}, cells=0x{self.cells:04x}, woken=0x{self.woken:04x},"
            f" count={self.count}, levels=0x{self.levels:04x})"
        )


class Run(NamedTuple):
    """The words of many ticks: array.array, or arrays of numpy where the samples came in one."""

    driven: Words
    cells: Words
    woken: Words
    levels: Words


class Survey(NamedTuple):
    """What a change of a connector can reach: the numbers of cells, and the names of connectors."""

    cells: Tuple[int, ...]
    connectors: Tuple[str, ...]


class Tallies(NamedTuple):
    """How many ticks ran since the power-up, and in how many the waking rules named each cell."""

    ticks: int
    cells: Tuple[int, ...]


class Card:
    """A trigger card of sixteen cells, or of thirty-two, as it first powers up.

    Threads may share a card: each call has the card for itself until it ends. A closed card raises `Closed`.

    >>> card = Card()
    >>> card.wire("M E=33\\n36CCA Z=41")
    >>> card.tick(0x0100).driven, card.tick(0x0100).driven
    (0, 1)
    """

    __slots__ = ("_cells", "_memory", "_at", "_row", "_row_at", "_store", "_lock", "_history", "__weakref__")

    def __init__(self, cells: int = 16) -> None:
        if number(cells, 32, "cells") not in (16, 32):
            raise ValueError(f"a card has 16 cells or 32, not {cells}")
        self._cells = int(cells)
        self._lock = threading.Lock()
        self._memory: Any = library.memory(library.CARD)
        self._at = ctypes.addressof(self._memory)
        self._row: Any = library.memory(_ROW)
        self._row_at = ctypes.addressof(self._row)
        self._store: Any = (ctypes.c_uint8 * (308 if self._cells == 16 else library.LARGEST_RECORD))()
        self._history = History()
        (library.fresh if self._cells == 16 else library.fresh_large)(self._at)

    # ---- opening and closing

    @classmethod
    def load(cls, record: Any, cells: Optional[int] = None) -> Card:
        """A card that powers up with a record.

        A record has 308 bytes, an old one 276, and one of thirty-two cells 516. `cells` is the card's
        number of cells; without it, the record's length says it.
        """
        content = record_bytes(record)
        if cells is None:
            cells = 32 if len(content) == library.LARGEST_RECORD else 16
        card = cls(cells)
        card.power_up(content)
        return card

    def copy(self) -> Card:
        """Another card, equal to this one in all that it keeps."""
        with self._lock:
            self._check_open()
            other = Card._of(self._at, self._cells, self._history)
            ctypes.memmove(other._store, self._store, len(self._store))
        return other

    @classmethod
    def _of(cls, at: int, cells: int, history: History) -> Card:
        """A card with the same bytes as one in memory."""
        card = cls(cells)
        ctypes.memmove(card._memory, at, library.CARD)
        card._history = history.copy()
        return card

    __copy__ = copy

    def __deepcopy__(self, _memo: Any) -> Card:
        return self.copy()

    def __reduce__(self) -> Any:
        raise TypeError("a card cannot be pickled, since a record has no states: keep card.record(), and use Card.load")

    def close(self) -> None:
        """Gives the card up. A second call does nothing."""
        with self._lock:
            self._memory = self._row = None

    def __enter__(self) -> Card:
        return self

    def __exit__(self, *_error: Any) -> None:
        self.close()

    def __repr__(self) -> str:
        return f"<Card of {self._cells} cells{'' if self._memory is not None else ', closed'}>"

    def _check_open(self) -> None:
        if self._memory is None:
            raise Closed("the card is closed")

    # ---- lines

    def line(self, text: Text) -> Optional[int]:
        """One line, without a line end: the number that it is answered with, or None.

        Raises `Refused` where it is refused. `36SS Z` writes the record to `store`; `record` gives it
        at once.
        """
        content = line_bytes(text)
        with self._lock:
            self._check_open()
            answered = self._obeyed(self._memory, self._store, content)
            self._history.lines([content])
        return answered

    def _obeyed(self, memory: Any, store: Any, content: bytes, line: Optional[int] = None) -> Optional[int]:
        reply, length = (ctypes.c_uint8 * library.REPLY)(), c_size_t()
        k = library.line(memory, content, len(content), reply, len(reply), store, len(store), byref(length))
        accepted(k, content.decode("utf-8", "replace"), line)
        return library.replied(reply, length.value)

    def wire(self, wiring: Union[Text, "os.PathLike[str]"]) -> None:
        """A whole wiring: all its lines, or none where one is refused.

        The lines come in a str or bytes, or in a file: a str of one line that has a dot or a slash is
        its path. A line ends with LF or CR LF; blank lines are left out.
        """
        lines = wiring_lines(wiring)
        with self._lock:
            self._check_open()
            trial, store = library.memory(library.CARD), type(self._store)()
            ctypes.memmove(trial, self._memory, library.CARD)
            ctypes.memmove(store, self._store, len(store))
            for i, content in lines:
                self._obeyed(trial, store, content, i)
            ctypes.memmove(self._memory, trial, library.CARD)
            self._store = store
            self._history.lines([content for _, content in lines])

    def wiring(self) -> str:
        """The wiring as lines, each with LF: given to a fresh card, they set the same wiring."""
        with self._lock:
            self._check_open()
            return self._printed()

    def _printed(self) -> str:
        buffer, length = (ctypes.c_uint8 * library.LONGEST_WIRING)(), c_size_t()
        accepted(library.print_wiring(self._memory, buffer, len(buffer), byref(length)))
        return bytes(buffer)[: length.value].decode("ascii")

    # ---- records

    def record(self) -> bytes:
        """The settings as a record: 308 bytes, or 516 of thirty-two cells."""
        store = type(self._store)()
        with self._lock:
            self._check_open()
            self._obeyed(self._memory, store, b"36SS Z")
        return bytes(store)

    @property
    def store(self) -> bytes:
        """What the last line `36SS Z` wrote; zeros before the first."""
        with self._lock:
            self._check_open()
            return bytes(self._store)

    def power_up(self, record: Any) -> None:
        """The card powers up with a record, as `Card.load`, and keeps its number of cells."""
        content = record_bytes(record)
        with self._lock:
            self._check_open()
            accepted(library.load(self._memory, content, len(content)))
            # The same wiring by lines; they end with the pointer at the last connector.
            self._history = History(self._printed().encode("ascii").splitlines() + [b"M E=1"])

    # ---- ticks

    def tick(self, sample: int, attached: int = ALL_ATTACHED, full: bool = False, clock: int = 0) -> Answer:
        """One tick.

        `sample` has the levels at the connectors, `attached` says which have something attached, and
        `clock` is the code of the clock. A full tick works out every cell.
        """
        with self._lock:
            try:
                _pack(self._row, 0, clock, sample, attached, full)
            except (struct.error, TypeError):
                self._fault(sample, attached, clock)
                raise
            if full is not False:
                truth(full, "full")
            library.tick(self._at, self._row_at)
            self._history.tick((clock, sample, attached, full))
            return Answer._make(_unpack(self._row, _ANSWER))

    def _fault(self, sample: Any, attached: Any, clock: Any) -> None:
        self._check_open()
        number(sample, 0xFFFF, "sample")
        number(attached, 0xFFFF, "attached")
        number(clock, 0xFF, "clock")

    def run(self, samples: Any, attached: Any = ALL_ATTACHED, full: bool = False, clock: int = 0) -> Run:
        """A tick for each sample, at the speed of the library; other threads run meanwhile.

        `samples` is a sequence of ints, or an array of uint16, of numpy or array.array. `attached` is
        one word for all ticks, or a word for each. Raises ValueError where the card takes ticks of
        another clock, so that none of them ran.
        """
        given = words(samples)
        single = hasattr(attached, "__index__") and not hasattr(attached, "__len__")
        lines = words([number(attached, 0xFFFF, "attached")] if single else attached)
        if not single and lines.length != given.length:
            raise ValueError(f"{given.length} samples, and {lines.length} attached words")
        truth(full, "full")
        number(clock, 0xFF, "clock")
        half, whole = bytes(2 * given.length), bytes(4 * given.length)
        made = (array("H", half), array("I", whole), array("I", whole), array("H", half))
        to = [to.buffer_info()[0] for to in made]
        with self._lock:
            self._check_open()
            ran = library.run(self._at, clock, full, given.length, given.at, lines.at, 0 if single else 1, *to)
            if given.length > 0 and not ran:
                raise ValueError(f"the card takes ticks of another clock than {clock}: none of these ran")
            if self._history.has_room(given.length):
                self._keep(given, lines, single, full, clock)
        return Run(*_as_given(samples, made))

    def _keep(self, given: Any, lines: Any, single: bool, full: bool, clock: int) -> None:
        for i in range(given.length):
            self._history.tick((clock, given.owner[i], lines.owner[0 if single else i], full))

    def at_rest(self, sample: int, attached: int = ALL_ATTACHED, clock: int = 0) -> bool:
        """Whether quick ticks with this input wake no cell and change only the count of ticks."""
        with self._lock:
            try:
                _pack(self._row, 0, clock, sample, attached, False)
            except (struct.error, TypeError):
                self._fault(sample, attached, clock)
                raise
            return bool(library.at_rest(self._at, self._row_at))

    # ---- questions

    @property
    def cells(self) -> int:
        """The number of cells, 16 or 32."""
        return self._cells

    def survey(self, connector: Union[str, int]) -> Survey:
        """What depends on a connector, by its name or its place, 33 to 48.

        Raises `Refused` with 5 for another place.
        """
        at, found = place(connector), library.memory(_surveyed.size)
        with self._lock:
            self._check_open()
            accepted(library.survey(self._memory, at if 0 <= at <= 0xFFFF else 0, found))
        _, cells, connectors = _surveyed.unpack_from(found)
        return Survey(_numbers(cells), tuple(CONNECTORS[n - 1] for n in _numbers(connectors)))

    def tallies(self) -> Tallies:
        """How many ticks ran, and which cells cost most."""
        found = library.memory(_tallied.size)
        with self._lock:
            self._check_open()
            library.read_tallies(self._memory, found)
        *cells, ticks = _tallied.unpack_from(found)
        return Tallies(ticks, tuple(cells[: self._cells]))

    def _repr_svg_(self) -> Optional[str]:
        """For notebooks, the timing diagram that pldraw draws of the last ticks, where it is there."""
        with self._lock:
            if self._memory is None:
                return None
            history = self._history.copy()
        return history.drawn(self._cells)


def _numbers(word: int) -> Tuple[int, ...]:
    """The bits of a word that are set, from 1 on."""
    return tuple(n + 1 for n in range(32) if word >> n & 1)


def _as_given(samples: Any, made: Tuple[Any, ...]) -> List[Any]:
    if not is_numpy(samples):
        return list(made)
    import numpy  # pylint: disable=import-outside-toplevel

    return [numpy.asarray(row) for row in made]


def convert(record: Any) -> bytes:
    """A record in its other form.

    One of 308 or 516 bytes becomes an old one of 276, and an old one becomes one of 308.
    """
    content = record_bytes(record)
    buffer, length = (ctypes.c_uint8 * library.LARGEST_RECORD)(), c_size_t()
    accepted(library.convert(content, len(content), buffer, len(buffer), byref(length)))
    return bytes(buffer)[: length.value]


__all__ = ["Answer", "Card", "Closed", "Refused", "Run", "Survey", "Tallies", "convert"]
