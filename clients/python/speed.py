"""Ticks a second from Python, for docs/PERFORMANCE.md: one by one, and by `run`.

    TRIGGER_CARD_LIBRARY=target/python/x86-64/libtrigger_card.so python3 clients/python/speed.py

Each figure is the best of five, in time of the processor, so that other programs do not count.
"""

import platform
import time
from array import array

from trigger_card import Card

WIRINGS = {
    "the manual's first wiring": ("M E=1\n36CCA Y=14\n36CCA Z=2\n36CCB X=41 Y=192\nM E=35\n36CCA Z=1", 0x0100),
    "sixteen cells that toggle in every tick": (
        "\n".join(f"M E={n}\n36CCA Y=1\n36CCB X={64 + n} Y=192" for n in range(1, 17)),
        0,
    ),
}


def best(call, ticks):
    """Ticks a second, the best of five."""
    seconds = []
    for _ in range(5):
        start = time.process_time()
        call()
        seconds.append(time.process_time() - start)
    return ticks / min(seconds)


def one_by_one(card, sample, ticks):
    """As many ticks, each by a call."""
    tick = card.tick
    for _ in range(ticks):
        tick(sample)


def main():
    """Prints a row for each wiring."""
    print(f"Python {platform.python_version()} on {platform.machine()}")
    for name, (wiring, sample) in WIRINGS.items():
        card = Card()
        card.wire(wiring)
        samples = array("H", [sample]) * 2_000_000
        single = best(lambda: one_by_one(card, sample, 200_000), 200_000)
        rows = best(lambda: card.run(samples), len(samples))
        print(f"{name}: {single:,.0f} one by one, {rows:,.0f} by run")


main()
