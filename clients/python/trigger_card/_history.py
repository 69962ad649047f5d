"""What a card was given since it powered up, as pldraw takes it, so that it can be drawn."""

from __future__ import annotations

import os
import shutil
import subprocess
from pathlib import Path
from typing import List, Optional, Sequence, Tuple, Union

LIMIT = 10_000
"""Ticks that are kept, and lines. A card that was given more is not drawn until it powers up again."""

# pldraw keeps so many ticks.
_DRAWN = 300

_Tick = Tuple[int, int, int, bool]


class History:
    """The lines and ticks that a card was given, or None of them once there were too many."""

    __slots__ = ("_calls", "_ticks", "_lines")

    def __init__(self, wiring: Sequence[bytes] = ()) -> None:
        self._calls: Optional[List[Union[bytes, _Tick]]] = list(wiring)
        self._ticks = 0
        self._lines = len(wiring)

    def copy(self) -> History:
        """The same calls, kept by themselves."""
        other = History()
        other._calls = None if self._calls is None else list(self._calls)
        other._ticks, other._lines = self._ticks, self._lines
        return other

    def lines(self, texts: Sequence[bytes]) -> None:
        """Lines that were accepted."""
        if self._calls is not None:
            self._lines += len(texts)
            if self._lines > LIMIT:
                self._calls = None
            else:
                self._calls.extend(texts)

    def tick(self, call: _Tick) -> None:
        """A tick: clock, sample, attached word, and whether it was a full one."""
        # A tick of a clock that no line can choose never runs, and plrun has no form for it.
        if self._calls is not None and call[0] <= 9:
            self._ticks += 1
            if self._ticks > LIMIT:
                self._calls = None
            else:
                self._calls.append(call)

    def has_room(self, ticks: int) -> bool:
        """Whether so many ticks more are kept; where not, none are from now on."""
        if self._ticks + ticks > LIMIT:
            self._calls = None
        return self._calls is not None

    def text(self) -> Optional[bytes]:
        """The calls as lines, each with LF."""
        if self._calls is None:
            return None
        return b"".join(call + b"\n" if isinstance(call, bytes) else _tick_line(call) for call in self._calls)

    def drawn(self, cells: int) -> Optional[str]:
        """The picture that pldraw draws of the last ticks; None where it is not there or fails."""
        program, text = pldraw(), self.text()
        if program is None or text is None or self._ticks == 0:
            return None
        words = [program, "--from", str(max(1, self._ticks - _DRAWN + 1))]
        if cells != 16:
            words += ["--cells", str(cells)]
        try:
            done = subprocess.run(words, input=text, capture_output=True, timeout=30, check=False)
        except (OSError, subprocess.SubprocessError):
            return None
        picture = done.stdout.decode("utf-8", "replace")
        return picture if done.returncode == 0 and "<svg" in picture else None


def _not_kept() -> History:
    history = History()
    history.has_room(LIMIT + 1)
    return history


NOT_KEPT = _not_kept()
"""The history of a card whose calls are not known."""


def _tick_line(call: _Tick) -> bytes:
    clock, sample, attached, full = call
    return b"T %d %04x %04x %c\n" % (clock, sample, attached, b"F" if full else b"Q")


def pldraw() -> Optional[str]:
    """The built program: the one that TRIGGER_CARD_PLDRAW names, beside the package, or in PATH."""
    named = os.environ.get("TRIGGER_CARD_PLDRAW")
    if named:
        return named
    beside = Path(__file__).with_name("pldraw")
    if os.access(beside, os.X_OK):
        return str(beside)
    return shutil.which("pldraw")
