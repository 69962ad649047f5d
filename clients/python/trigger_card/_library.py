"""The shared library: the proved calls by pointers of trigger.h, and those of loop.c."""

from __future__ import annotations

import ctypes
import os
from ctypes import POINTER, c_bool, c_char_p, c_size_t, c_uint8, c_uint16, c_uint64, c_void_p
from pathlib import Path
from typing import Any, Optional, Sequence

REPLY = 16
LARGEST_RECORD = 516
LONGEST_WIRING = 4611


def _path() -> Path:
    named = os.environ.get("TRIGGER_CARD_LIBRARY")
    path = Path(named) if named else Path(__file__).with_name("libtrigger_card.so")
    if not path.is_file():
        raise ImportError(
            f"trigger_card: there is no library {path}. Install the package's wheel; in the repository,"
            " clients/python/make builds the library, and TRIGGER_CARD_LIBRARY names another file"
        )
    return path


_FILE = str(_path())
# A long call lets other threads of Python run meanwhile; for one tick that would cost more than it.
_LONG = ctypes.CDLL(_FILE)
_SHORT = ctypes.PyDLL(_FILE)


def _call(library: ctypes.CDLL, name: str, result: Any, arguments: Sequence[Any]) -> Any:
    function = getattr(library, name)
    function.restype = result
    function.argtypes = arguments
    return function


_memory = c_void_p
_length = POINTER(c_size_t)

matches = _call(_SHORT, "python_matches", c_bool, [])
card_size = _call(_SHORT, "trigger_card_size", c_size_t, [])
fresh = _call(_SHORT, "trigger_fresh_at", None, [_memory])
fresh_large = _call(_SHORT, "trigger_fresh_large_at", None, [_memory])
tick = _call(_SHORT, "python_tick", None, [_memory, _memory])
run = _call(
    _LONG, "python_run", c_bool, [_memory, c_uint8, c_bool, c_size_t, _memory, _memory, c_size_t] + 4 * [_memory]
)
levels = _call(_SHORT, "python_levels", c_uint16, [_memory])
at_rest = _call(_SHORT, "trigger_at_rest_at", c_bool, [_memory, _memory])
line = _call(
    _SHORT, "trigger_line_at", c_uint8, [_memory, c_char_p, c_size_t, _memory, c_size_t, _memory, c_size_t, _length]
)
load = _call(_SHORT, "trigger_load_at", c_uint8, [_memory, c_char_p, c_size_t])
print_wiring = _call(_SHORT, "trigger_print_at", c_uint8, [_memory, _memory, c_size_t, _length])
convert = _call(_SHORT, "trigger_convert_at", c_uint8, [c_char_p, c_size_t, _memory, c_size_t, _length])
survey = _call(_SHORT, "trigger_survey_at", c_uint8, [_memory, c_uint64, _memory])
read_tallies = _call(_SHORT, "trigger_read_tallies_at", None, [_memory, _memory])
rack_start = _call(_SHORT, "rack_start_at", c_uint8, [_memory, c_size_t])
rack_tick = _call(_SHORT, "rack_tick_at", c_uint8, [_memory, c_size_t, c_bool, _memory, _memory])
rack_line = _call(
    _SHORT,
    "rack_line_at",
    c_uint8,
    [_memory, c_size_t, c_size_t, c_char_p, c_size_t, _memory, c_size_t, _memory, c_size_t, _length],
)
rack_load = _call(_SHORT, "rack_load_at", c_uint8, [_memory, c_size_t, c_size_t, c_char_p, c_size_t])

if not matches():
    raise ImportError(f"trigger_card: {_FILE} was built from parts that do not belong together; build it again")

CARD = card_size()


def memory(size: int) -> Any:
    """Zeroed memory of at least so many bytes, at an address that any struct may have."""
    return (c_uint64 * ((size + 7) // 8))()


def replied(reply: Any, length: int) -> Optional[int]:
    """The number in the reply to a line that was accepted, or None: `:A 12` or `:A`, with CR LF."""
    text = bytes(reply)[:length]
    return int(text[3:]) if text.startswith(b":A ") else None
