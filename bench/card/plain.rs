//! A card written in Rust by hand and proved by nobody, to compare instructions with. It keeps a
//! plan of its wiring, which is made where the card is wired and believed from then on: of each
//! cell the bases of its level slots, as words, and which cells have a slot that is high in every
//! tick. The benchmark holds its answers to those of the library on every card that it counts.
use trigger::{Answer, Card, Cell, Input};

const LEVEL: [u8; 23] = [
    0, 13, 3, 7, 15, 3, 3, 3, 4, 4, 15, 15, 13, 3, 4, 4, 4, 4, 13, 13, 13, 4, 4,
];

/// What a cell does, by the family of its type.
#[derive(Clone, Copy)]
struct Unit {
    cell: Cell,
    /// Bases of level slots: read as they are or inverse, on a rise, on a fall.
    levels: [u64; 3],
}

pub struct Plain {
    units: [Unit; 32],
    n: u32,
    sources: [u8; 16],
    push_pull: u16,
    open_drain: u16,
    trigger: u8,
    edited: u32,
    /// Cells with a slot on 192.
    always: u32,
    outputs: [u32; 3],
    levels: [u16; 2],
    driven: u16,
    tallies: [u32; 32],
    total: u32,
}

/// What the addresses read, by quarters, and which of them have changed since the last tick.
struct Views {
    now: [u64; 4],
    moved: [u64; 3],
}

#[inline(always)]
fn word(cells: u32, levels: u16) -> u64 {
    u64::from(cells) << 1 | u64::from(levels) << 33
}

#[inline(always)]
fn rose(now: u64, before: u64) -> u64 {
    now & !before
}

#[inline(always)]
fn fell(now: u64, before: u64) -> u64 {
    (!now & before) | 1
}

#[inline(always)]
fn quarters(now: u64, before: u64) -> [u64; 4] {
    [now, !now, rose(now, before), fell(now, before)]
}

#[inline(always)]
fn reads(quarters: &[u64; 4], address: u8) -> bool {
    quarters[usize::from(address >> 6)] >> (address & 63) & 1 == 1
}

impl Plain {
    pub fn of(card: &Card) -> Plain {
        let blank = Unit {
            cell: card.cells()[0],
            levels: [0; 3],
        };
        let mut units = [blank; 32];
        let mut always = 0;
        for (i, cell) in card.cells().iter().enumerate() {
            let mut levels = [0; 3];
            for (slot, address) in cell.slots.iter().enumerate() {
                if LEVEL[usize::from(cell.kind)] >> slot & 1 == 1 {
                    levels[usize::from((address >> 6).saturating_sub(1))] |= 1u64 << (address & 63);
                }
                if *address == 192 {
                    always |= 1 << i;
                }
            }
            units[i] = Unit {
                cell: *cell,
                levels,
            };
        }
        let n = card.cells().len() as u32;
        let wires = card.connectors();
        Plain {
            units,
            n,
            sources: wires.sources,
            push_pull: wires.push_pull,
            open_drain: wires.open_drain,
            trigger: card.trigger(),
            edited: u32::MAX >> (32 - n),
            always,
            outputs: [0; 3],
            levels: [0; 2],
            driven: 0,
            tallies: [0; 32],
            total: 0,
        }
    }

    /// The driven word and the levels.
    #[inline(always)]
    fn drive(&self, input: Input) -> (u16, u16) {
        let now = word(self.outputs[0], self.levels[0]);
        let seen = quarters(now, word(self.outputs[1], self.levels[1]));
        let mut left = self.push_pull | self.open_drain;
        let mut driven = 0;
        while left != 0 {
            let k = left.trailing_zeros();
            driven |= u16::from(reads(&seen, self.sources[k as usize])) << k;
            left &= left - 1;
        }
        let sample = input.sample & input.attached | !input.attached & 0xff00;
        let wired = self.open_drain & !self.push_pull;
        (
            driven,
            sample & !(self.push_pull | wired) | driven & self.push_pull | driven & sample & wired,
        )
    }

    #[inline(always)]
    fn views(&self, cells: u32, last: u32, earlier: u32, levels: u16) -> Views {
        let [now, before, then] = [
            word(cells, levels),
            word(last, self.levels[0]),
            word(earlier, self.levels[1]),
        ];
        let moved = [
            now ^ before,
            rose(now, before) ^ rose(before, then),
            fell(now, before) ^ fell(before, then),
        ];
        Views {
            now: quarters(now, before),
            moved,
        }
    }

    /// A quick tick where no word has changed in the last two ticks: only cells on 192 can wake.
    #[inline(always)]
    fn sleeps(&self, levels: u16) -> bool {
        let still = self.outputs[0] == self.outputs[1]
            && self.outputs[1] == self.outputs[2]
            && self.levels[0] == levels
            && self.levels[1] == levels;
        if self.edited != 0 || !still {
            return false;
        }
        let seen = quarters(word(self.outputs[0], levels), word(self.outputs[0], levels));
        let mut left = self.always;
        while left != 0 {
            let unit = &self.units[left.trailing_zeros() as usize];
            if stirred(&unit.cell, &seen) {
                return false;
            }
            left &= left - 1;
        }
        true
    }

    pub fn tick(&mut self, full: bool, input: Input) -> Answer {
        if input.code != self.trigger {
            return Answer {
                ran: false,
                driven: 0,
                cells: 0,
                woken: 0,
                count: 0,
            };
        }
        let (driven, levels) = self.drive(input);
        let [last, second, third] = self.outputs;
        let (mut cells, mut named) = (last, 0u32);
        if full || !self.sleeps(levels) {
            let (mut before, mut earlier) = (second, third);
            let mut views = self.views(cells, before, earlier, levels);
            for i in 0..self.n {
                let bit = 1u32 << i;
                let unit = &mut self.units[i as usize];
                let [m, r, f] = unit.levels;
                let moved = m & views.moved[0] | r & views.moved[1] | f & views.moved[2];
                let name = self.edited & bit != 0 || moved != 0 || stirred(&unit.cell, &views.now);
                let mut out = cells & bit;
                if name {
                    named |= bit;
                }
                if full || name {
                    out = u32::from(work(&mut unit.cell, &views.now)) << i;
                }
                let turned = cells ^ out & bit ^ cells & bit;
                let (b, e) = (
                    before ^ (before ^ last) & bit,
                    earlier ^ (earlier ^ second) & bit,
                );
                if turned != cells || b != before || e != earlier {
                    (cells, before, earlier) = (turned, b, e);
                    views = self.views(cells, before, earlier, levels);
                }
            }
        }
        self.outputs = [cells, last, second];
        self.levels = [levels, self.levels[0]];
        (self.driven, self.edited) = (driven, 0);
        if self.total < u32::MAX {
            self.total += 1;
            let mut left = named;
            while left != 0 {
                let tally = &mut self.tallies[left.trailing_zeros() as usize];
                *tally = tally.saturating_add(1);
                left &= left - 1;
            }
        }
        let woken = if full {
            u32::MAX >> (32 - self.n)
        } else {
            named
        };
        Answer {
            ran: true,
            driven,
            cells,
            woken,
            count: woken.count_ones(),
        }
    }
}

/// Whether an edge that matters to a cell is high.
#[inline(always)]
fn stirred(cell: &Cell, seen: &[u64; 4]) -> bool {
    let high = |slot: usize| reads(seen, cell.slots[slot]);
    match cell.kind {
        1 | 12 | 18 => high(1),
        13 => high(2),
        8 | 9 | 14 | 15 => high(0) || (cell.count > 0 || cell.pulse) && high(1),
        16 | 17 => high(0) || high(3) || (cell.count > 0 || cell.pulse) && high(1),
        19 => high(1) && high(0) && high(3),
        20 => high(1) && (high(0) || high(3)),
        21 | 22 => high(0) || high(3) || cell.bit && high(1),
        _ => false,
    }
}

/// A cell worked out: its output.
#[inline(always)]
fn work(cell: &mut Cell, seen: &[u64; 4]) -> bool {
    let slots = cell.slots;
    let high = |slot: usize| reads(seen, slots[slot]);
    let place = |n: usize| (0..n).fold(0, |p, slot| p | u32::from(high(slot)) << slot);
    let bit = match cell.kind {
        0 => return cell.config != 0,
        2..=4 => return cell.config >> place(usize::from(cell.kind)) & 1 == 1,
        5 => return high(0) && high(1),
        6 => return high(0) || high(1),
        7 => return high(0) ^ high(1),
        10 => return high(3) && high(2) && high(1) && high(0),
        11 => return high(3) || high(2) || high(1) || high(0),
        8 | 9 | 14..=17 => {
            return time(cell, high(0) || cell.kind > 15 && high(3), high(1), high(2))
        }
        19..=22 => return count(cell, [high(0), high(1), high(2), high(3)]),
        1 => !high(2) && (high(3) || if high(1) { high(0) } else { cell.bit }),
        12 => {
            if high(1) {
                !high(2) && (high(3) || high(0))
            } else {
                cell.bit
            }
        }
        18 => {
            !high(2)
                && if high(1) {
                    !high(3) && high(0)
                } else {
                    cell.bit
                }
        }
        13 => {
            if high(2) {
                if cell.bit {
                    !high(1)
                } else {
                    high(0)
                }
            } else {
                cell.bit
            }
        }
        _ => return false,
    };
    cell.bit = bit;
    bit
}

#[inline(always)]
fn time(cell: &mut Cell, trigger: bool, clock: bool, reset: bool) -> bool {
    let delay = matches!(cell.kind, 9 | 15 | 17);
    let busy = match cell.kind {
        14 | 16 => cell.count > 0,
        15 | 17 => cell.count > 0 || cell.pulse,
        _ => false,
    };
    if reset {
        (cell.count, cell.pulse) = (0, false);
    } else if trigger && !busy {
        (cell.count, cell.pulse) = (cell.config, delay && cell.config == 0);
    } else if clock {
        if cell.count > 0 {
            cell.count -= 1;
            cell.pulse = delay && (cell.pulse || cell.count == 0);
        } else {
            cell.pulse = false;
        }
    }
    if delay {
        cell.pulse
    } else {
        cell.count > 0
    }
}

#[inline(always)]
fn count(cell: &mut Cell, [x, clock, reset, f]: [bool; 4]) -> bool {
    let active = match cell.kind {
        19 => x && f,
        20 => x || f,
        _ => !reset && !f && (cell.bit || x && (cell.kind == 21 || cell.count == 0)),
    };
    if reset {
        cell.count = 0;
    } else if active && clock && cell.count < 65535 {
        cell.count += 1;
    }
    if cell.kind > 20 {
        cell.bit = active;
    }
    active
}
