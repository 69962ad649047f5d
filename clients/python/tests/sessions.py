"""Stored sessions of the repository, answered by cards and printed as by the gate."""

from __future__ import annotations

import re
import struct
from pathlib import Path
from typing import Callable, Dict, Iterator, List, Optional

from trigger_card import Answer, Card, Rack, Refused, convert

ROOT = Path(__file__).resolve().parents[3]
CRATES = ROOT / "crates"
_TICK = re.compile(rb"T ([0-9]) ([0-9a-f]{4}) ([0-9a-f]{4}) ([FQ])")


def lines_of(path: Path) -> List[bytes]:
    """The lines of a file; bytes after the last LF are dropped."""
    return path.read_bytes().split(b"\n")[:-1]


def tick_text(answer: Answer, cells: int) -> str:
    """An answer as plrun prints it."""
    if not answer.ran:
        return "T -"
    digits = cells // 4
    return f"T {answer.driven:04x} {answer.cells:0{digits}x} {answer.woken:0{digits}x} {answer.count}"


def ticked(card: Card, line: bytes) -> Optional[Answer]:
    """What a tick line answers, or None where the line is no tick."""
    form = _TICK.fullmatch(line)
    if form is None:
        return None
    sample, attached = int(form[2], 16), int(form[3], 16)
    return card.tick(sample, attached, full=form[4] == b"F", clock=int(form[1]))


def refusal_or(call: Callable[[], Optional[int]]) -> str:
    """The reply to a line or a load."""
    try:
        answer = call()
    except Refused as refused:
        return f":N-{refused.number}"
    return ":A" if answer is None else f":A {answer}"


def entered(card: Card, line: bytes) -> str:
    """What plrun prints for a line of its input."""
    if line == b"L":
        return refusal_or(lambda: card.power_up(card.store))
    answer = ticked(card, line)
    if answer is not None:
        return tick_text(answer, card.cells)
    return ":N-2" if line.startswith(b"T") else refusal_or(lambda: card.line(line))


def answers(path: Path, cells: int) -> str:
    """What plrun prints for a file, on a card of so many cells."""
    card = Card(cells)
    return "".join(entered(card, line) + "\n" for line in lines_of(path))


def wired(path: Path, cells: int) -> Card:
    """The card after all lines and ticks of a file."""
    card = Card(cells)
    for line in lines_of(path):
        entered(card, line)
    return card


def rests(path: Path, cells: int) -> str:
    """The ticks of a file, each with whether the card is then at rest."""
    card, rows = Card(cells), []
    for line in lines_of(path):
        printed = entered(card, line)
        form = _TICK.fullmatch(line)
        if form is not None:
            still = card.at_rest(int(form[2], 16), int(form[3], 16), clock=int(form[1]))
            rows.append(f"{printed} {'rest' if still else 'on'}\n")
    return "".join(rows)


def _survey_row(card: Card, place: int) -> str:
    digits = card.cells // 4
    try:
        found = card.survey(place)
    except Refused as refused:
        return f"{place} {refused.number} {0:0{digits}x} 0000\n"
    names = [f"BNC{n}" for n in range(1, 9)] + [f"TTL{n}" for n in range(8)]
    cells = sum(1 << (n - 1) for n in found.cells)
    connectors = sum(1 << names.index(name) for name in found.connectors)
    return f"{place} 0 {cells:0{digits}x} {connectors:04x}\n"


def surveys(path: Path, cells: int) -> str:
    """What depends on each place."""
    card = wired(path, cells)
    places = [0, 1, 16, 17, 32, *range(33, 50), 64, 97, 161, 225, 255, 256]
    return "".join(_survey_row(card, place) for place in places)


def _tallies_at() -> int:
    header = (ROOT / "clients" / "c" / "trigger.h").read_text()
    at = re.search(r"^TRIGGER_AT\(trigger_card, tallies, (\d+)\);", header, re.MULTILINE)
    assert at is not None, "the header says where a card has its tallies"
    return int(at[1])


def hand_in(card: Card, numbers: List[int]) -> None:
    """A card with these tallies, the total first. Stored sessions need it; no call does it."""
    cells = numbers[1:] + [0] * (33 - len(numbers))
    struct.pack_into("=33I", card._memory, _tallies_at(), *cells, numbers[0])


def tallies(path: Path, cells: int) -> str:
    """As plrun, but that `#` asks for the tallies and `# N..` hands the card in with these."""
    card, rows = Card(cells), []
    for line in lines_of(path):
        if line == b"#":
            found = card.tallies()
            rows.append(" ".join(str(n) for n in (found.ticks, *found.cells)))
        elif re.fullmatch(rb"#( [0-9]+)+", line):
            hand_in(card, [int(n) for n in line.split()[1:]])
            rows.append("ok")
        else:
            rows.append(entered(card, line))
    return "".join(row + "\n" for row in rows)


FORMS: Dict[str, Callable[[Path, int], bytes]] = {
    "answers": lambda path, cells: answers(path, cells).encode(),
    "wiring": lambda path, cells: wired(path, cells).wiring().encode(),
    "answers and wiring": lambda path, cells: (answers(path, cells) + wired(path, cells).wiring()).encode(),
    "record": lambda path, cells: wired(path, cells).record(),
    "rests": lambda path, cells: rests(path, cells).encode(),
    "surveys": lambda path, cells: surveys(path, cells).encode(),
    "tallies": lambda path, cells: tallies(path, cells).encode(),
}
"""What the programs of the gate print of a file."""


def stored_forms(path: Path, stored: bytes) -> List[str]:
    """Which forms of a file's run a stored output holds, each with the number of cells."""
    found = []
    for cells in (16, 32):
        for form, printed in FORMS.items():
            text = printed(path, cells)
            if text and b"\n" + text in b"\n" + stored:
                found.append(f"{form} of {cells}")
    return found


def load_row(row: str) -> str:
    """A load or a conversion as a row of hex asks for it."""
    words = row.split(" ")
    if len(words) == 2 and words[0] != "32":
        return _converted(int(words[0], 16), _bytes(words[1]))
    cells = 32 if len(words) == 2 else 16
    try:
        return f"0 {Card.load(_bytes(words[-1]), cells).record().hex()}"
    except Refused as refused:
        return f"{refused.number} -"


def _bytes(digits: str) -> bytes:
    return b"" if digits == "-" else bytes.fromhex(digits)


def _converted(room: int, record: bytes) -> Optional[str]:
    # This package always has room for the result; rows with less are for the library alone.
    try:
        made = convert(record)
    except Refused as refused:
        return None if room < 308 else f"{refused.number} 0 -"
    return None if room < len(made) else f"0 {len(made)} {made.hex()}"


class RackSession:
    """A stored session of racks: what each call answers, or None where this package has no such call."""

    def __init__(self) -> None:
        self.rack: Optional[Rack] = None
        self.started = False
        self.count = 0

    def answer(self, call: str) -> Optional[str]:
        """What one call answers."""
        words = call.split(" ")
        if words[0] == "rack":
            return self._new(words[1:])
        if words[0] == "start":
            return self._start()
        if not self.started:
            return None
        try:
            return {"load": self._load, "line": self._line, "tick": self._tick}[words[0]](call, words)
        except Refused as refused:
            return self._refused(refused, words)

    def _new(self, words: List[str]) -> str:
        self.count, self.started = int(words[0]), False
        try:
            self.rack = None if words[1:] == ["32"] else Rack(self.count)
        except Refused:
            self.rack = None
        return "ok"

    def _start(self) -> str:
        # A row that is no rack is refused with 20 by every call, here when it is made.
        self.started = self.rack is not None
        if self.rack is None:
            return "20"
        self.rack.start()
        return "0"

    def _load(self, _call: str, words: List[str]) -> str:
        self.rack.load(int(words[1]), _bytes(words[2]))
        return "0"

    def _line(self, call: str, words: List[str]) -> Optional[str]:
        if int(words[2]) < 16:
            return None
        text = call.split(" ", 3)[3] if len(words) > 3 else ""
        reply = ":A" if (n := self.rack.line(int(words[1]), text)) is None else f":A {n}"
        return f"0 {len(reply) + 2} {reply}"

    def _tick(self, _call: str, words: List[str]) -> str:
        pairs = [(int(words[i], 16), int(words[i + 1], 16)) for i in range(3, len(words), 2)]
        answers_ = self.rack.tick(pairs[1:], *pairs[0], full=words[2] == "F", clock=int(words[1]))
        return ";".join(["0", *(tick_text(answer, 16) for answer in answers_)])

    @staticmethod
    def _refused(refused: Refused, words: List[str]) -> Optional[str]:
        if words[0] != "line":
            return str(refused.number)
        reply = f":N-{refused.number}"
        return f"{refused.number} {len(reply) + 2} {reply}" if int(words[2]) >= 16 else None


def stored_files() -> Iterator[Path]:
    """The sessions in crates/*/data: every file of lines."""
    for path in sorted(CRATES.glob("*/data/*")):
        if path.suffix in (".in", ".lines", ".wiring", ".txt"):
            yield path
