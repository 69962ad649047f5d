"""Random calls: a card against plrun, `run` against `tick`, a rack of one against a card."""

from __future__ import annotations

import random
import subprocess
from array import array
from typing import List

import pytest
from sessions import ROOT, entered

from trigger_card import Card, Rack, Refused

PLRUN = ROOT / "target" / "bin" / "plrun"


def random_line(rng: random.Random) -> str:
    """A line that is mostly accepted."""
    value = rng.choice([0, 1, 2, 5, 41, 42, 64, 65, 128, 192, rng.randrange(256), rng.randrange(70000), 4294967295])
    sources = [0, 1, 2, 33, 41, 42, 64, 192, 20]
    slots = " ".join(f"{letter}={rng.choice(sources)}" for letter in "XYZF"[: rng.randint(1, 4)])
    return rng.choice(
        [
            f"M E={rng.choice([*range(1, 17), *range(33, 49), 17, 50])}",
            f"36CCA Y={rng.randrange(24)}",
            f"36CCA Z={value}",
            f"36CCA F={rng.choice([0, 1, 3])}",
            f"36CCA X={rng.randrange(60)}",
            f"36CCB {slots}",
            f"36CCB {rng.choice('XYZF')}?",
            f"36CCA {rng.choice('YZF')}?",
            f"36RDADC {rng.choice('XYZF')}?",
            f"PM E={rng.choice([0, 0, 0, 1, 4, 5])}",
            rng.choice(["W E", "HOME E", "! E", "36SS Z", "L", "", "nonsense", "T 0 0000 Q", "35CCA Y=1", "M E=01"]),
        ]
    )


def random_tick(rng: random.Random) -> str:
    """A tick, mostly of clock 0."""
    attached = rng.choice([0xFFFF, 0xFFFF, rng.randrange(65536)])
    return f"T {rng.choice([0, 0, 0, 1, 4])} {rng.randrange(65536):04x} {attached:04x} {rng.choice('FQ')}"


def random_session(seed: int, count: int) -> List[bytes]:
    """Lines and ticks."""
    rng = random.Random(seed)
    return [(random_line(rng) if rng.random() < 0.5 else random_tick(rng)).encode() for _ in range(count)]


@pytest.mark.skipif(not PLRUN.exists(), reason="target/bin/plrun is not built")
@pytest.mark.parametrize("seed", range(20))
def test_as_plrun(seed: int) -> None:
    """A card answers random lines, loads and ticks as plrun does."""
    session, card = random_session(seed, 2000), Card()
    given = b"".join(line + b"\n" for line in session)
    done = subprocess.run([PLRUN], input=given, capture_output=True, timeout=60, check=True)
    assert [entered(card, line) for line in session] == done.stdout.decode().splitlines()


def random_card(seed: int, cells: int) -> Card:
    """A card that random lines have wired."""
    rng, card = random.Random(seed), Card(cells)
    for _ in range(300):
        try:
            card.line(random_line(rng))
        except Refused:
            pass
    card.line("PM E=0")
    return card


@pytest.mark.parametrize("full", [False, True])
@pytest.mark.parametrize("cells", [16, 32])
@pytest.mark.parametrize("seed", range(10))
def test_run_is_ticks(seed: int, cells: int, full: bool) -> None:
    """`run` gives the words of as many ticks, and leaves the card that they leave."""
    one, many = random_card(seed, cells), random_card(seed, cells)
    rng = random.Random(seed)
    samples = [rng.randrange(65536) for _ in range(500)]
    attached = [rng.choice([0xFFFF, rng.randrange(65536)]) for _ in samples]
    ticks = [one.tick(sample, word, full) for sample, word in zip(samples, attached)]
    run = many.run(array("H", samples), attached, full)
    assert [list(row) for row in run] == [
        [answer.driven for answer in ticks],
        [answer.cells for answer in ticks],
        [answer.woken for answer in ticks],
        [answer.levels for answer in ticks],
    ]
    assert one.tallies() == many.tallies() and one.tick(0) == many.tick(0)


@pytest.mark.parametrize("seed", range(10))
def test_there_and_back(seed: int) -> None:
    """A record and a printed wiring set the same card."""
    for cells in (16, 32):
        card = random_card(seed, cells)
        again, other = Card.load(card.record()), Card(cells)
        other.wire(card.wiring())
        assert again.cells == cells and again.wiring() == card.wiring() == other.wiring()
        assert again.record() == card.record() == other.record()


@pytest.mark.parametrize("seed", range(10))
def test_rack_of_one(seed: int) -> None:
    """A rack with one card whose backplane nobody pulls low answers as that card does alone."""
    rng, rack, card = random.Random(seed), Rack(1), Card()
    for place in range(33, 41):
        card.wire(f"M E={place}\n36CCA Y=0")
    for line in ("M E=1", "36CCA Y=14", "36CCA Z=3", "36CCB X=41 Y=192", "M E=35", "36CCA Y=2", "36CCA Z=1", "M E=2"):
        assert rack.line(1, line) == card.line(line)
    for _ in range(200):
        front, back = rng.randrange(256), rng.randrange(256)
        assert rack.tick([front], back) == (card.tick(front | back << 8),)
    assert rack.card(1).record() == card.record() and rack.card(1).tallies() == card.tallies()
