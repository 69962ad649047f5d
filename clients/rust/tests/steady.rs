//! Ticks made at once against ticks made one by one. Wirings, inputs and lines are drawn from a
//! fixed sequence of numbers: a card that sleeps as long as it is steady must drive what a card
//! drives that ticks, in every tick, and must be the same card whenever it wakes; its tallies are
//! part of it.
use trigger::{Card, Input, FOREVER, RECORD};

/// A fixed sequence of numbers.
struct Random(u32);

impl Random {
    fn below(&mut self, n: u32) -> u32 {
        self.0 ^= self.0 << 13;
        self.0 ^= self.0 >> 17;
        self.0 ^= self.0 << 5;
        (self.0 >> 8) % n
    }

    fn of<T: Copy>(&mut self, row: &[T]) -> T {
        row[self.below(row.len() as u32) as usize]
    }
}

/// Types that count or hold, and a gate.
const TYPES: [u32; 13] = [1, 5, 8, 9, 12, 13, 14, 15, 16, 17, 19, 21, 22];

/// A slot of a wiring that has stretches in which it is steady: most clocks are high in every tick.
fn address(random: &mut Random, clock: bool) -> u32 {
    match random.below(8) {
        0 | 1 if clock => 192 + random.below(9),
        _ if clock => 192,
        0 => 64,
        1 | 2 => 1 + random.below(8) + 64 * random.below(4),
        3 => 41 + random.below(2) + 64 * random.below(4),
        _ => 0,
    }
}

/// A line that rewires a cell or sets its state; many are refused.
fn line(random: &mut Random) -> String {
    match random.below(5) {
        0 => format!("M E={}", 1 + random.below(8)),
        1 => format!("36CCA Y={}", random.of(&TYPES)),
        2 => format!(
            "36CCA Z={}",
            random.of(&[0, 1, 2, 3, 7, 50, 400, 70_000, 4_294_967_295u32])
        ),
        3 => format!(
            "36CCA F={}",
            random.of(&[0, 1, 2, 5, 300, 65_530, 65_535, 4_000_000_000u32])
        ),
        _ => {
            let (x, y) = (address(random, false), address(random, random.0 & 3 != 0));
            format!("36CCB X={x} Y={y} Z={}", address(random, false))
        }
    }
}

fn rewire(random: &mut Random, cards: [&mut Card; 2]) {
    let text = line(random);
    let mut stores = [[0; RECORD]; 2];
    let replies: Vec<_> = cards
        .into_iter()
        .zip(&mut stores)
        .map(|(card, store)| card.line(text.as_bytes(), store))
        .collect();
    assert_eq!(replies[0], replies[1], "{text}");
}

#[test]
fn sleeping_is_ticking() {
    let mut random = Random(0x5ead_1e55);
    let (mut ticks, mut wakings) = (0, 0);
    for start in 0..400 {
        let fresh = if start % 4 == 0 {
            Card::fresh_large()
        } else {
            Card::fresh()
        };
        let (mut sleeper, mut ticker) = (fresh, fresh);
        for _ in 0..40 {
            rewire(&mut random, [&mut sleeper, &mut ticker]);
        }
        for _ in 0..60 {
            let input = Input {
                code: u8::from(random.below(16) == 0),
                sample: random.of(&[0, 0x0100, 0x0300]),
                attached: random.of(&[0xffff, 0xffff, 0xfeff]),
            };
            let mut left = random.of(&[1, 2, 40, 700]);
            while left > 0 {
                let steady = sleeper.steady_for(input);
                let driven = sleeper.driven();
                let asleep = steady.min(left);
                for _ in 0..asleep {
                    let answer = ticker.quick_tick(input);
                    assert!(
                        !answer.ran || answer.driven == driven,
                        "a tick that was slept through drives another word"
                    );
                }
                let due = if asleep == left { asleep } else { asleep + 1 };
                let last = (due > asleep).then(|| ticker.quick_tick(input));
                let mut made = 0;
                let mut calls = 0;
                while made < due {
                    let advance = sleeper.advance(input, due - made);
                    made += advance.made;
                    calls += 1;
                    assert!(advance.made > 0 && made <= due);
                    if made == due {
                        assert!(last.is_none_or(|last| last == advance.answer));
                    }
                }
                assert!(calls <= 2, "a steady stretch is one call");
                assert_eq!(sleeper, ticker);
                left -= due;
                ticks += due;
                wakings += 1;
            }
            if random.below(3) == 0 {
                rewire(&mut random, [&mut sleeper, &mut ticker]);
            }
        }
    }
    assert!(wakings < ticks / 3, "{wakings} wakings in {ticks} ticks");
}

#[test]
fn none_and_forever() {
    let mut card = Card::fresh();
    let input = Input {
        code: 0,
        sample: 0,
        attached: 0xffff,
    };
    let before = card;
    let none = card.advance(input, 0);
    assert_eq!((none.made, none.answer.ran), (0, false));
    assert_eq!(card, before);
    assert_eq!(card.steady_for(input), FOREVER);
    assert_eq!(card.advance(input, FOREVER).made, FOREVER);
    assert_eq!(card.tallies().total, FOREVER);
    assert!(card.at_rest(input));
}
