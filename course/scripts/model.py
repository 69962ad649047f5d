"""What the words of each exercise ask for, worked out without a card: which cells are high in each tick.

`course/check` compares the transcripts with it. A transcript was printed by plrun for the solution, so it says what
the solution does. That this is what the text asks for is said here a second time, in other words.
"""
BNC1, BNC2, TTL0, TTL1, TTL2, TTL3 = 0x0001, 0x0002, 0x0100, 0x0200, 0x0400, 0x0800


class Line:
    """A line from tick to tick: its level, and whether it rose or fell. Before the first tick it is low."""

    def __init__(self, bit):
        self.bit, self.high, self.rose, self.fell, self.changed = bit, False, False, False, False

    def take(self, sample):
        before, self.high = self.high, bool(sample & self.bit)
        self.rose, self.fell, self.changed = self.high and not before, before and not self.high, before != self.high


def lines_of(samples, *bits):
    """The lines of these bits, tick by tick."""
    lines = [Line(bit) for bit in bits]
    for sample in samples:
        for line in lines:
            line.take(sample)
        yield lines


def shift_register(samples):
    first = second = third = False
    for data, clock in lines_of(samples, TTL0, TTL1):
        if clock.rose:
            first, second, third = data.high, first, second
        yield {3: first, 2: second, 1: third}


def divide_by_four(samples):
    rises = 0
    for (pulses,) in lines_of(samples, TTL0):
        rises += pulses.rose
        yield {1: rises % 4 in (1, 3), 2: rises % 4 in (2, 3)}


def trigger_with_clock(samples):
    on, pulses = False, 0
    for trigger, clock in lines_of(samples, TTL0, TTL1):
        if trigger.rose and not on:
            on, pulses = True, 0
        elif clock.rose:
            pulses += 1
            on = on and pulses < 3
        yield {1: on}


def lookup_from_words(samples):
    for x, y, z, f in lines_of(samples, TTL0, TTL1, TTL2, TTL3):
        every = x.high and y.high and z.high and f.high
        yield {1: (x.high and y.high) or every, 2: z.high or f.high}


def gate_on_an_edge(samples):
    kept, rose, first = False, False, True
    for follows, reset in lines_of(samples, TTL0, TTL1):
        kept = (kept or follows.rose) and not reset.high
        # Cell 1 wakes with its line, cell 2 when the edge begins and when it is over, cell 3
        # with its clock and its reset.
        woken = {
            1: first or follows.changed,
            2: first or rose != follows.rose,
            3: first or follows.rose or reset.changed,
        }
        rose, first = follows.rose, False
        yield {1: follows.high, 2: follows.rose, 3: kept, "woken": woken}


def once_an_acquisition(samples):
    done, left = False, 0
    for acquisition, exposure in lines_of(samples, TTL0, TTL1):
        begins = acquisition.high and exposure.rose and not done
        done = acquisition.high and (done or exposure.rose)
        left = 2 if begins else max(0, left - 1)
        yield {1: done, 2: left > 0}


def lamp_unless_busy(samples):
    for asked, busy in lines_of(samples, TTL0, TTL1):
        yield {1: asked.high and not busy.high}


def pulses_then_rest(samples):
    since = 99
    for (start,) in lines_of(samples, TTL0):
        since = 0 if start.rose and since > 4 else since + 1
        yield {1: since <= 4, 2: since in (0, 2, 4), "rest": since > 6}


def delay_promise(samples):
    waits, is_open, pulses = False, False, 0
    for trigger, clock in lines_of(samples, TTL0, TTL1):
        if trigger.rose and not waits and not is_open:
            waits, pulses = True, 0
        elif clock.rose and (waits or is_open):
            pulses += 1
            waits, is_open = pulses < 3, pulses == 3
        yield {1: is_open}


def torn_cable(samples, attached):
    for sample, plugged in zip(samples, attached):
        yield {1: bool(sample & TTL0) and bool(sample & plugged & BNC2)}


def refused_lines(samples):
    left = 0
    for start, forbids in lines_of(samples, TTL0, TTL1):
        left = 3 if start.rose and left == 0 else max(0, left - 1)
        yield {1: left > 0, 2: left > 0 and not forbids.high}


def two_cards(samples):
    """The levels of one card: BNC3 is bit 2 of the front, TTL0 bit 0 of the backplane.

    A card pulls TTL0 low where its machine was busy in the tick before.
    """
    was_busy = was_high = False
    for sample in samples:
        high = bool(sample & TTL0) and not was_busy
        yield {"front": (sample & BNC1) + 4 * was_high, "backplane": int(high)}
        was_busy, was_high = bool(sample & BNC1), high


def rack_answers(busy):
    """What plrack answers for two cards without cells; `busy` says for each tick whose machine is busy."""
    was_busy, was_high, answers = (False, False), False, []
    for now in busy:
        driven = [TTL0 * (not pulls) + 4 * was_high for pulls in was_busy]
        answers.append("0;" + ";".join("T %04x 0000 ffff 16" % word for word in driven))
        was_busy, was_high = now, not any(was_busy)
    return answers


# Which cell each front connector shows.
SHOWS = {
    "01-shift-register": {1: 3, 2: 2, 3: 1},
    "02-divide-by-four": {1: 1, 2: 2},
    "03-trigger-with-clock": {1: 1},
    "04-lookup-from-words": {1: 1, 2: 2},
    "05-gate-on-an-edge": {1: 2, 2: 3},
    "06-once-an-acquisition": {1: 2},
    "07-lamp-unless-busy": {1: 1},
    "08-pulses-then-rest": {1: 2},
    "09-delay-promise": {1: 1},
    "10-torn-cable": {1: 1},
    "11-refused-lines": {1: 2},
}


def word(levels):
    """{1: True, 3: True} as 0005."""
    return sum(1 << (n - 1) for n, high in levels.items() if high)


def wanted(name, ticks):
    """The answers that the words ask for, one for each tick line; of the woken set only where the words speak of it."""
    samples = [int(t.split()[2], 16) for t in ticks]
    tell = globals()[name[3:].replace("-", "_")]
    rows = list(tell(samples, [int(t.split()[3], 16) for t in ticks]) if name.startswith("10") else tell(samples))
    if name == "12-two-cards":
        return [(":A %d" % r["backplane"], ":A %d" % r["front"]) for r in rows]
    answers, before = [], {}
    for tick, row in zip(ticks, rows):
        cells = {n: high for n, high in row.items() if isinstance(n, int)}
        driven = {bnc: before.get(cell, False) for bnc, cell in SHOWS[name].items()}
        woken = (
            0xFFFF if tick.endswith("F") else word(row["woken"]) if "woken" in row else 0 if row.get("rest") else None
        )
        answers.append(
            "T %04x %04x %s"
            % (word(driven), word(cells), "" if woken is None else "%04x %d" % (woken, bin(woken).count("1")))
        )
        before = cells
    return answers


def asked(answers):
    """The answers of a transcript, in the form of `wanted`."""
    if answers[0].startswith(":A"):
        return list(zip(answers[0::2], answers[1::2]))
    return answers
