"""Threads: calls on one card come one after the other, and cards of their own run side by side."""

from __future__ import annotations

import sys
import threading
from typing import Any, Callable, Iterator, List, Tuple

import pytest

from trigger_card import Card, Closed, Rack


@pytest.fixture(autouse=True)
def switching() -> Iterator[None]:
    """Python changes threads as often as it can, so that a missing lock shows."""
    interval = sys.getswitchinterval()
    sys.setswitchinterval(1e-6)
    yield
    sys.setswitchinterval(interval)


def together(calls: List[Callable[[], None]]) -> List[BaseException]:
    """Runs the calls in threads of their own that start at once, and gives what they raised."""
    gate, raised = threading.Barrier(len(calls)), []

    def body(call: Callable[[], None]) -> None:
        gate.wait()
        try:
            call()
        except BaseException as error:
            raised.append(error)

    threads = [threading.Thread(target=body, args=(call,)) for call in calls]
    for thread in threads:
        thread.start()
    for thread in threads:
        thread.join()
    return raised


def toggling() -> Card:
    """Cell 1 toggles in every tick, and BNC1 follows it."""
    card = Card()
    card.wire("M E=1\n36CCA Y=1\n36CCB X=65 Y=192\nM E=33\n36CCA Z=1")
    return card


def test_one_card() -> None:
    """No tick is lost, and each answer belongs to its tick: cell 1 is high in every other one."""
    card, seen = toggling(), []

    def ticks() -> None:
        seen.extend([card.tick(0).cells for _ in range(3000)])

    def runs() -> None:
        for _ in range(20):
            seen.extend(card.run([0] * 20000).cells)

    assert not together([ticks, ticks, runs, runs])
    assert card.tallies().ticks == len(seen) == 806000 and sum(seen) == 403000


def test_wirings_are_whole() -> None:
    """A wiring that one thread sets is never seen in part by another."""
    card = Card()
    low = "".join(f"M E={n}\n36CCA Y=0\n36CCA Z=0\n" for n in range(1, 17))
    high = low.replace("Z=0", "Z=1")

    def wires() -> None:
        for _ in range(50):
            card.wire(high)
            card.wire(low)

    def looks() -> None:
        for _ in range(2000):
            assert card.tick(0, full=True).cells in (0, 0xFFFF)

    assert not together([wires, wires, looks])


def test_cards_side_by_side() -> None:
    """Threads with cards of their own get what they would get alone."""
    alone = list(toggling().run([0] * 20000).driven)
    found = []
    assert not together([lambda: found.append(list(toggling().run([0] * 20000).driven)) for _ in range(4)])
    assert found == 4 * [alone]


def test_rack() -> None:
    """No tick of a rack is lost."""
    rack = Rack(2)

    def ticks() -> None:
        for _ in range(1000):
            rack.tick([0, 0])

    assert not together([ticks, ticks, ticks])
    assert [rack.card(n).tallies().ticks for n in (1, 2)] == [3000, 3000]


def test_answers_of_a_rack() -> None:
    """Each answer of a rack is whole: its levels are those of the tick that it answers."""
    rack = Rack(4)

    def ticks(sample: int) -> None:
        for _ in range(4000):
            for answer in rack.tick(4 * [sample], backplane=sample):
                assert answer.levels == sample << 8 | sample

    assert not together([lambda: ticks(0x00), lambda: ticks(0xFF), lambda: ticks(0xA5)])
    assert rack.card(1).tallies().ticks == 12000


RECORD = Card().record()
CALLS: List[Tuple[str, Callable[[Any], object]]] = [
    ("Card.line", lambda card: card.line("W E")),
    ("Card.wire", lambda card: card.wire("M E=1")),
    ("Card.wiring", lambda card: card.wiring()),
    ("Card.record", lambda card: card.record()),
    ("Card.store", lambda card: card.store),
    ("Card.power_up", lambda card: card.power_up(RECORD)),
    ("Card.tick", lambda card: card.tick(0)),
    ("Card.run", lambda card: card.run([0])),
    ("Card.at_rest", lambda card: card.at_rest(0)),
    ("Card.survey", lambda card: card.survey("TTL0")),
    ("Card.tallies", lambda card: card.tallies()),
    ("Card.copy", lambda card: card.copy()),
    ("Card._repr_svg_", lambda card: card._repr_svg_()),
    ("Card.close", lambda card: card.close()),
    ("Rack.start", lambda rack: rack.start()),
    ("Rack.tick", lambda rack: rack.tick([0, 0])),
    ("Rack.line", lambda rack: rack.line(1, "W E")),
    ("Rack.load", lambda rack: rack.load(2, RECORD)),
    ("Rack.card", lambda rack: rack.card(1)),
    ("Rack.close", lambda rack: rack.close()),
]


@pytest.mark.parametrize("name,call", CALLS, ids=[name for name, _ in CALLS])
def test_each_call_waits(name: str, call: Callable[[Any], object]) -> None:
    """A call waits until the one of another thread has ended."""
    shared: Any = Card() if name.startswith("Card") else Rack(2)
    thread = threading.Thread(target=call, args=(shared,))
    with shared._lock:
        thread.start()
        thread.join(0.1)
        assert thread.is_alive()
    thread.join(60)
    assert not thread.is_alive()


def test_closed_under_way() -> None:
    """A card that one thread closes raises `Closed` in the others, and nothing else."""
    for _ in range(20):
        card = toggling()

        def ticks() -> None:
            while True:
                card.tick(0)

        def runs() -> None:
            while True:
                card.run([0] * 1000)

        raised = together([ticks, runs, card.close])
        assert [type(error) for error in raised] == [Closed, Closed]
