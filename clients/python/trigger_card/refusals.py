"""Refusals: the number that the card gives, and the rule that it stands for in words."""

from __future__ import annotations

from typing import Optional

RULES = {
    1: "a buffer is too short for the reply, the record or the converted record",
    2: "the line has another form, or another length than 1 to 80 bytes",
    3: "two digits other than 36 are before a card command, so another card is meant",
    4: "a number is over 4294967295",
    5: "no such place: cells have their numbers, connectors 33 to 48",
    6: "CCB and CCA F are for cells, and the pointer is at a connector",
    7: "a cell type is over 22, a connector type over 2, or a clock over 4",
    8: "this preset is not offered",
    9: "the configuration is over its range, or the type has none",
    10: "the type does not use this slot",
    11: "an address is over 255 or reserved",
    12: "the type has no state, or the state is over its range",
    13: "the line makes BNC1 an output while the ticks come in there (trigger source 4)",
    14: "the bytes are no record: their length, or a field's length, tag or number, is another",
    15: "the record holds a value that no line could set",
    16: "the wiring is longer than the buffer",
    17: "a duration is over 65535, and the record of 276 bytes has no room for it",
    18: "a cell above 16 is set or read, and a card of sixteen cells has none",
    19: "the front lamps of the rack would draw more than 16 from their supply",
    20: "no such rack or card: a rack has 1 to 4 cards of sixteen cells, and a tick one front for each",
}
"""The rules of document 01, "When the card says no", and of document 02's new numbers."""


class Refused(Exception):
    """The card refused a call, which changed nothing.

    `number` is the number of the refusal and `rule` says it in words. `text` is the line that was refused, where it was
    a line, and `line` its number in a wiring, from 1 on.
    """

    def __init__(self, number: int, text: Optional[str] = None, line: Optional[int] = None) -> None:
        super().__init__(number, text, line)
        self.number = number
        self.rule = RULES.get(number, "a number that this package has no words for")
        self.text = text
        self.line = line

    def __str__(self) -> str:
        where = "" if self.line is None else f"line {self.line}: "
        what = "" if self.text is None else f"{self.text!r}: "
        return f"{where}{what}refused with {self.number}, {self.rule}"


def accepted(number: int, text: Optional[str] = None, line: Optional[int] = None) -> None:
    """Raises `Refused` unless the number is 0."""
    if number != 0:
        raise Refused(number, text, line)
