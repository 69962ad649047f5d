"""Bad input of every kind: it raises what the docstrings say, and changes nothing."""

from __future__ import annotations

import copy
import pickle
from array import array
from pathlib import Path
from typing import Any, Callable

import pytest

from trigger_card import RULES, Answer, Card, Closed, Rack, Refused, address, address_name, convert

TYPE_ERRORS = {
    "a card with cells in words": lambda: Card("16"),
    "a card with cells as a float": lambda: Card(16.0),
    "a line that is None": lambda: Card().line(None),
    "a line that is a number": lambda: Card().line(36),
    "a line that is a list": lambda: Card().line(["M E=1"]),
    "a wiring that is None": lambda: Card().wire(None),
    "a wiring that is a list": lambda: Card().wire(["M E=1"]),
    "a sample that is a str": lambda: Card().tick("0100"),
    "a sample that is a float": lambda: Card().tick(1.0),
    "a sample that is None": lambda: Card().tick(None),
    "an attached word that is a str": lambda: Card().tick(0, "ffff"),
    "a clock that is a float": lambda: Card().tick(0, clock=0.5),
    "full in words": lambda: Card().tick(0, full="no"),
    "full as a number": lambda: Card().tick(0, full=1),
    "samples that are bytes": lambda: Card().run(b"\x00\x01"),
    "samples that are a str": lambda: Card().run("0100"),
    "samples that are one number": lambda: Card().run(5),
    "samples that are None": lambda: Card().run(None),
    "samples that are floats": lambda: Card().run([0.5]),
    "samples of 32 bits": lambda: Card().run(array("I", [1])),
    "samples that are doubles": lambda: Card().run(array("d", [1])),
    "samples in two rows": lambda: Card().run(memoryview(bytes(8)).cast("H", [2, 2])),
    "a run that is full in words": lambda: Card().run([0], full="yes"),
    "a record that is a str": lambda: Card.load("record"),
    "a record that is a number": lambda: Card.load(308),
    "a record that is None": lambda: Card().power_up(None),
    "a converted record that is a number": lambda: convert(276),
    "a connector that is None": lambda: Card().survey(None),
    "a connector that is a float": lambda: Card().survey(41.0),
    "rest of a str": lambda: Card().at_rest("0"),
    "an address that is a number": lambda: address(41),
    "a rack of a str": lambda: Rack("2"),
    "fronts that are a number": lambda: Rack(1).tick(0),
    "a front that is a str": lambda: Rack(1).tick(["00"]),
    "a card's number that is a str": lambda: Rack(1).line("1", "W E"),
    "a card's number that is True": lambda: Rack(1).line(True, "W E"),
    "a rack's line that is None": lambda: Rack(1).line(1, None),
    "a rack's record that is a str": lambda: Rack(1).load(1, "record"),
    "a rack that is full in words": lambda: Rack(1).tick([0], full="no"),
    "a card that is pickled": lambda: pickle.dumps(Card()),
    "a rack that is pickled": lambda: pickle.dumps(Rack(1)),
}

VALUE_ERRORS = {
    "a card of 17 cells": lambda: Card(17),
    "a card of -16 cells": lambda: Card(-16),
    "a sample over 16 bits": lambda: Card().tick(0x10000),
    "a sample below 0": lambda: Card().tick(-1),
    "a sample of 70 bits": lambda: Card().tick(1 << 70),
    "an attached word over 16 bits": lambda: Card().tick(0, 0x10000),
    "a clock over 8 bits": lambda: Card().tick(0, clock=256),
    "a run with a sample over 16 bits": lambda: Card().run([0x10000]),
    "a run with a sample below 0": lambda: Card().run([-1]),
    "a run with too few attached words": lambda: Card().run([1, 2], attached=[1]),
    "a run with an attached word over 16 bits": lambda: Card().run([1], attached=0x10000),
    "a run of another clock": lambda: Card().run([0], clock=1),
    "a run of a clock over 8 bits": lambda: Card().run([0], clock=256),
    "rest with a sample over 16 bits": lambda: Card().at_rest(0x10000),
    "an address without a name": lambda: address("TTL8"),
    "an address of nothing": lambda: address(""),
    "a reserved address": lambda: address_name(49),
    "an address above all": lambda: address_name(256),
    "a connector without a name": lambda: Card().survey("TTL9"),
    "a front over 8 bits": lambda: Rack(1).tick([256]),
    "a front of three": lambda: Rack(1).tick([(0, 0, 0)]),
    "a backplane over 8 bits": lambda: Rack(1).tick([0], 256),
    "a rack of -1": lambda: Rack(-1),
}

REFUSED = {
    "a line of another form": (2, lambda: Card().line("nonsense")),
    "a line with its line end": (2, lambda: Card().line("M E=1\n")),
    "an empty line": (2, lambda: Card().line("")),
    "a line of 81 bytes": (2, lambda: Card().line("M E=1".ljust(81))),
    "a line of a megabyte": (2, lambda: Card().line("M" * 1_000_000)),
    "a line with a zero in it": (2, lambda: Card().line("M E=\0001")),
    "a line that is not ASCII": (2, lambda: Card().line("M E=\u0661")),
    "a line with half a character": (2, lambda: Card().line("M E=\udc80")),
    "a line to another card": (3, lambda: Card().line("35CCA Y=1")),
    "a number over 32 bits": (4, lambda: Card().line("M E=4294967296")),
    "a place of a larger card": (5, lambda: Card(16).line("M E=17")),
    "a type above all": (7, lambda: Card().line("36CCA Y=23")),
    "an empty record": (14, lambda: Card.load(b"")),
    "a record of zeros": (14, lambda: Card.load(bytes(308))),
    "a record of a larger card": (14, lambda: Card(16).power_up(Card(32).record())),
    "a record of a smaller card": (14, lambda: Card.load(Card(16).record(), cells=32)),
    "a record with a slot in a constant": (15, lambda: Card.load(_with_byte(Card().record(), 13, 1))),
    "an empty record converted": (14, lambda: convert(b"")),
    "a long duration converted": (17, lambda: convert(_wired("36CCA Y=14\n36CCA Z=65536").record())),
    "a cell above 16 converted": (18, lambda: convert(_wired("M E=17\n36CCA Z=1", 32).record())),
    "a place that is no connector": (5, lambda: Card().survey(1)),
    "a place with 64 bits": (5, lambda: Card().survey((1 << 64) + 41)),
    "a place below 0": (5, lambda: Card().survey(-1)),
    "a rack of none": (20, lambda: Rack(0)),
    "a rack of five": (20, lambda: Rack(5)),
    "a tick with too few fronts": (20, lambda: Rack(2).tick([0])),
    "a tick with too many fronts": (20, lambda: Rack(2).tick([0, 0, 0])),
    "a tick with 300 fronts": (20, lambda: Rack(2).tick([0] * 300)),
    "a line to card 0": (20, lambda: Rack(2).line(0, "W E")),
    "a line to card 3": (20, lambda: Rack(2).line(3, "W E")),
    "a line to card 2**64 + 1": (20, lambda: Rack(2).line((1 << 64) + 1, "W E")),
    "a load to card 3": (20, lambda: Rack(2).load(3, Card().record())),
    "card 3 itself": (20, lambda: Rack(2).card(3)),
    "lamps that draw too much": (19, lambda: _lamps(Rack(4))),
}


def _with_byte(record: bytes, at: int, byte: int) -> bytes:
    return record[:at] + bytes([byte]) + record[at + 1 :]


def _wired(wiring: str, cells: int = 16) -> Card:
    card = Card(cells)
    card.wire(wiring)
    return card


def _lamps(rack: Rack) -> None:
    for n in (1, 2):
        rack.line(n, "36CCA X=19")


@pytest.mark.parametrize("call", TYPE_ERRORS.values(), ids=TYPE_ERRORS)
def test_type(call: Callable[[], Any]) -> None:
    """A value of another type."""
    with pytest.raises(TypeError):
        call()


@pytest.mark.parametrize("call", VALUE_ERRORS.values(), ids=VALUE_ERRORS)
def test_value(call: Callable[[], Any]) -> None:
    """A value out of its range."""
    with pytest.raises(ValueError):
        call()


@pytest.mark.parametrize(("k", "call"), REFUSED.values(), ids=REFUSED)
def test_refused(k: int, call: Callable[[], Any]) -> None:
    """What the card refuses, with number and rule."""
    with pytest.raises(Refused) as refused:
        call()
    assert refused.value.number == k
    assert refused.value.rule == RULES[k] and RULES[k] in str(refused.value)


def test_refusal_is_kept_whole() -> None:
    """A refusal may cross to another process."""
    with pytest.raises(Refused) as refused:
        Card().wire("M E=1\nM E=17")
    again = pickle.loads(pickle.dumps(refused.value))
    assert (again.number, again.text, again.line) == (5, "M E=17", 2) and str(again) == str(refused.value)


def test_refused_changes_nothing() -> None:
    """A refused line, wiring, load and tick leave the card as it was."""
    card = _wired("M E=1\n36CCA Y=14\n36CCA Z=9\n36CCB X=41 Y=192\n36SS Z")
    card.tick(0x0100)
    twin = card.copy()
    for call in (
        lambda: card.line("36CCA Y=23"),
        lambda: card.wire("36CCA Y=1\nM E=5\n36CCB X=20"),
        lambda: card.wire("36SS Z\nM E=17"),
        lambda: card.power_up(bytes(308)),
        lambda: card.tick(0x10000),
        lambda: card.tick(0, full="no"),
        lambda: card.run([0, 0x10000]),
        lambda: card.run([0], clock=3),
        lambda: card.survey(7),
    ):
        with pytest.raises((Refused, TypeError, ValueError)):
            call()
    assert bytes(card._memory) == bytes(twin._memory) and card.store == twin.store
    assert card.tick(0) == twin.tick(0) and card.line("W E") == 1


def test_wiring_in_a_file(tmp_path: Path) -> None:
    """A file by its path, as a str or a Path, with LF or CR LF; a path that is not there."""
    text = _wired("M E=1\n36CCA Y=5\n36CCB X=41 Y=42").wiring()
    path = tmp_path / "gate.lines"
    for content in (text, text.replace("\n", "\r\n"), text.rstrip(), "\n" + text + "\n\n"):
        path.write_bytes(content.encode())
        for given in (path, str(path), content, content.encode()):
            card = Card()
            card.wire(given)
            assert card.wiring() == text
    for missing in (tmp_path / "none", str(tmp_path / "none.lines"), "none.lines"):
        with pytest.raises(FileNotFoundError):
            Card().wire(missing)
    with pytest.raises(Refused) as refused:
        Card().wire("M E=1\nT 0 0000 ffff Q")
    assert (refused.value.number, refused.value.line) == (2, 2)


def test_wiring_of_none_and_of_one_line() -> None:
    """An empty wiring sets nothing; one line is a wiring."""
    card = Card()
    fresh = card.wiring()
    card.wire("")
    card.wire("\n \r\n")
    assert card.wiring() == fresh
    card.wire("M E=40")
    assert card.line("W E") == 40


CLOSED = {
    "line": lambda card: card.line("W E"),
    "wire": lambda card: card.wire("W E"),
    "wiring": lambda card: card.wiring(),
    "record": lambda card: card.record(),
    "store": lambda card: card.store,
    "power_up": lambda card: card.power_up(Card().record()),
    "tick": lambda card: card.tick(0),
    "run": lambda card: card.run([0]),
    "run of none": lambda card: card.run([]),
    "at_rest": lambda card: card.at_rest(0),
    "survey": lambda card: card.survey("TTL0"),
    "tallies": lambda card: card.tallies(),
    "copy": lambda card: card.copy(),
}

CLOSED_RACK = {
    "start": lambda rack: rack.start(),
    "tick": lambda rack: rack.tick([0, 0]),
    "line": lambda rack: rack.line(1, "W E"),
    "load": lambda rack: rack.load(1, Card().record()),
    "card": lambda rack: rack.card(1),
}


@pytest.mark.parametrize("call", CLOSED.values(), ids=CLOSED)
def test_closed(call: Callable[[Card], Any]) -> None:
    """A closed card raises `Closed`, and may be closed again."""
    with Card() as card:
        call(card)
    card.close()
    with pytest.raises(Closed):
        call(card)
    assert repr(card) == "<Card of 16 cells, closed>" and card._repr_svg_() is None


@pytest.mark.parametrize("call", CLOSED_RACK.values(), ids=CLOSED_RACK)
def test_closed_rack(call: Callable[[Rack], Any]) -> None:
    """A closed rack raises `Closed`."""
    with Rack(2) as rack:
        call(rack)
    rack.close()
    with pytest.raises(Closed):
        call(rack)
    assert repr(rack) == "<Rack of 2 cards, closed>"


def test_copies_part() -> None:
    """What is done to a copy is not done to the card."""
    card = _wired("M E=33\n36CCA Z=64")
    for other in (card.copy(), copy.copy(card), copy.deepcopy(card)):
        assert other.tick(0).driven == 1
        other.line("M E=3")
        assert card.line("W E") == 33 and card.tallies().ticks == 0


def test_idle_tick() -> None:
    """A tick of another clock does not run, and says so."""
    card = Card()
    card.tick(0x0300)
    assert card.tick(0x0001, clock=1) == Answer(False, 0, 0, 0, 0, 0x0300)
    assert card.tallies().ticks == 1
