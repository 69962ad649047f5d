// A card wired and ticked through the static library of crates/trigger, as clients/rust wraps it:
//
//     card CARD KIND N [show]
//
// CARD is fresh, counter, busy, still, delay (of hours, which runs) or wakeN (N cells wake in each
// tick), of sixteen cells, or with -32 after it of thirty-two; KIND is full, quick, idle (quick, at
// a clock code that is not the card's) or none (the loop without ticks); with plain- before it the
// ticks are those of the card of plain.rs, each compared with the library's where `show` is given.
// It prints a checksum of the driven and the cell words, and how many cells all ticks woke. With
// `show` it prints what plrun is to be given for the same wiring and ticks, and on standard error
// what plrun must answer to the ticks.
use std::hint::black_box;

use trigger::{Answer, Card, Input};

mod plain;
use plain::Plain;

// A line that must not be refused.
fn line(card: &mut Card, text: &str) {
    let reply = card.line(text.as_bytes(), &mut []);
    assert_eq!(reply.result(), Ok(None), "{text} is refused");
}

// A fixed sequence of numbers.
struct Random(u32);

impl Random {
    fn next(&mut self) -> u32 {
        self.0 ^= self.0 << 13;
        self.0 ^= self.0 >> 17;
        self.0 ^= self.0 << 5;
        self.0 >> 8
    }

    fn below(&mut self, n: u32) -> u32 {
        self.next() % n
    }
}

// The address in a slot of cell i: another cell or a backplane line, as it is or inverse.
fn source(random: &mut Random, i: u32, cells: u32) -> u32 {
    let base = if random.below(2) == 0 {
        1 + (i + random.below(cells - 1)) % cells
    } else {
        41 + random.below(8)
    };
    base + 64 * random.below(2)
}

// All cells of the types that use four slots.
fn busy(random: &mut Random, cells: u32) -> Vec<String> {
    let mut lines = Vec::new();
    for i in 1..=cells {
        let kind = [1, 4, 10, 11, 12, 16, 17, 18][random.below(8) as usize];
        lines.push(format!("M E={i}"));
        lines.push(format!("36CCA Y={kind}"));
        match kind {
            4 => lines.push(format!("36CCA Z={}", random.below(65536))),
            16 | 17 => lines.push(format!("36CCA Z={}", 1 + random.below(9))),
            _ => {}
        }
        let [x, y, z, f] = [(); 4].map(|()| source(random, i, cells));
        lines.push(format!("36CCB X={x} Y={y} Z={z} F={f}"));
    }
    lines
}

fn still(cells: u32) -> Vec<String> {
    let cell = |i| {
        [
            format!("M E={i}"),
            "36CCA Y=10".into(),
            "36CCB X=41 Y=42 Z=43 F=44".into(),
        ]
    };
    (1..=cells).flat_map(cell).collect()
}

// As `still`, but the first n cells toggle in every tick.
fn waking(n: u32, cells: u32) -> Vec<String> {
    let cell = |i| {
        let (kind, slots) = if i <= n {
            (13, "36CCB X=64 Y=64 Z=192")
        } else {
            (10, "36CCB X=41 Y=42 Z=43 F=44")
        };
        [format!("M E={i}"), format!("36CCA Y={kind}"), slots.into()]
    };
    (1..=cells).flat_map(cell).collect()
}

// A delay of two hours in cell 1, clocked in every tick; the others as `still`.
fn delay(cells: u32) -> Vec<String> {
    let mut lines = still(cells);
    lines.extend(
        [
            "M E=1",
            "36CCA Y=15",
            "36CCA Z=28800000",
            "36CCB X=192 Y=192",
        ]
        .map(String::from),
    );
    lines
}

fn show(answer: &Answer, input: Input, kind: &str) {
    let Input {
        code,
        sample,
        attached,
    } = input;
    println!(
        "T {code} {sample:04x} {attached:04x} {}",
        if kind == "quick" { 'Q' } else { 'F' }
    );
    eprintln!("{answer}");
}

// The kinds of turns of the loop.
#[derive(Clone, Copy)]
enum Turn {
    Full,
    Quick,
    None,
}

fn main() {
    let args: Vec<String> = std::env::args().skip(1).collect();
    let words: Vec<&str> = args.iter().map(String::as_str).collect();
    let (name, kind, n, shown) = match words[..] {
        [name, kind, n] => (name, kind, n, false),
        [name, kind, n, "show"] => (name, kind, n, true),
        _ => panic!("card CARD KIND N [show]"),
    };
    let n: u32 = n.parse().expect("a number of ticks");
    let (by_hand, kind) = kind
        .strip_prefix("plain-")
        .map_or((false, kind), |kind| (true, kind));
    let turn = match kind {
        "full" => Turn::Full,
        "quick" | "idle" => Turn::Quick,
        "none" => Turn::None,
        _ => panic!("full, quick, idle or none"),
    };
    let (name, cells) = name
        .strip_suffix("-32")
        .map_or((name, 16), |name| (name, 32));
    let mut random = Random(1);
    let lines = match name {
        "fresh" => Vec::new(),
        "counter" => vec!["36CCA X=4".into(), "36CCA X=19".into()],
        "busy" => busy(&mut random, cells),
        "still" => still(cells),
        "delay" => delay(cells),
        _ => match name.strip_prefix("wake").and_then(|n| n.parse().ok()) {
            Some(n) => waking(n, cells),
            None => panic!("fresh, counter, busy, still, delay or wakeN"),
        },
    };
    if shown && !by_hand {
        lines.iter().for_each(|text| println!("{text}"));
    }
    let mut card = if cells == 32 {
        Card::fresh_large()
    } else {
        Card::fresh()
    };
    lines.iter().for_each(|text| line(&mut card, text));
    let mut plain = Plain::of(&card);
    let moving = name == "busy";
    let code = if kind == "idle" { 9 } else { 0 };
    let (mut checksum, mut woken) = (0u32, 0u64);
    for i in 0..n {
        let sample = if moving { random.next() as u16 } else { 0 };
        let input = Input {
            code,
            sample,
            attached: 0xffff,
        };
        let answer = match turn {
            Turn::Full if by_hand => plain.tick(true, input),
            Turn::Quick if by_hand => plain.tick(false, input),
            Turn::Full => card.full_tick(input),
            Turn::Quick => card.quick_tick(input),
            Turn::None => {
                black_box(input);
                continue;
            }
        };
        checksum = checksum.rotate_left(1) ^ u32::from(answer.driven) << 16 ^ answer.cells;
        woken += u64::from(answer.count);
        if shown && by_hand {
            let ours = if matches!(turn, Turn::Full) {
                card.full_tick(input)
            } else {
                card.quick_tick(input)
            };
            // the plain card starts with all cells edited
            let same = ours == answer
                || i == 0 && (ours.driven, ours.cells) == (answer.driven, answer.cells);
            assert!(
                same,
                "{name}, tick {i}: {ours} of the library, {answer} by hand"
            );
        } else if shown {
            show(&answer, input, kind);
        }
    }
    if !shown {
        println!("{checksum:08x} {woken}");
    }
}
