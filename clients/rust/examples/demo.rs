//! A card wired, ticked, saved, printed, and loaded again:
//!
//!     demo          prints what the card answers, as plrun does, then its wiring, then what became of the record
//!     demo lines    prints what plrun is to be given for the same answers
use std::process::ExitCode;

use trigger::{Card, Input, RECORD, TEXT};

/// A one-shot of two pulses, started by TTL0, shown at BNC3; a delay of 70000 pulses of TTL1; the
/// place read; a line that is refused.
const WIRING: [&str; 12] = [
    "M E=1",
    "36CCA Y=14",
    "36CCA Z=2",
    "36CCB X=41 Y=192",
    "M E=2",
    "36CCA Y=9",
    "36CCA Z=70000",
    "36CCB X=1 Y=42",
    "M E=35",
    "36CCA Z=1",
    "W E",
    "36CCB X=1",
];

/// A card with its store; `shows_lines` says what is printed.
struct Session {
    card: Card,
    store: [u8; RECORD],
    shows_lines: bool,
}

impl Session {
    /// A line, and its reply.
    fn line(&mut self, text: &str) {
        let reply = self.card.line(text.as_bytes(), &mut self.store);
        if self.shows_lines {
            println!("{text}");
        } else {
            println!("{reply}");
        }
    }

    /// A tick, and its answer.
    fn tick(&mut self, kind: char, input: Input) {
        let answer = match kind {
            'F' => self.card.full_tick(input),
            _ => self.card.quick_tick(input),
        };
        if self.shows_lines {
            let Input {
                code,
                sample,
                attached,
            } = input;
            println!("T {code} {sample:04x} {attached:04x} {kind}");
        } else {
            println!("{answer}");
        }
    }

    /// Prints the wiring, and compares it with that of a fresh card that loads the record.
    fn loads_again(&self) -> bool {
        let (mut buffer, mut buffer2) = ([0; TEXT], [0; TEXT]);
        let mut fresh = Card::fresh();
        let k = fresh
            .load(&self.store)
            .map_or_else(|refusal| refusal.number(), |()| 0);
        let wiring = self.card.print(&mut buffer);
        let same = k == 0 && wiring == fresh.print(&mut buffer2);
        print!("{}", wiring.unwrap_or(""));
        println!(
            "load {k}, {} wiring",
            if same { "the same" } else { "another" }
        );
        same
    }
}

fn main() -> ExitCode {
    let shows_lines = match std::env::args().skip(1).collect::<Vec<_>>()[..] {
        [] => false,
        [ref word] if word == "lines" => true,
        _ => {
            eprintln!("demo [lines]");
            return ExitCode::from(2);
        }
    };
    let low = Input {
        code: 0,
        sample: 0,
        attached: 0xffff,
    };
    let high = Input {
        sample: 0x0100,
        ..low
    };
    let other_clock = Input { code: 9, ..low };
    let mut session = Session {
        card: Card::fresh(),
        store: [0; RECORD],
        shows_lines,
    };
    WIRING.iter().for_each(|text| session.line(text));
    for (kind, input, times) in [
        ('Q', high, 4),
        ('F', low, 2),
        ('F', high, 1),
        ('Q', other_clock, 1),
    ] {
        (0..times).for_each(|_| session.tick(kind, input));
    }
    while !session.card.at_rest(low) {
        session.tick('Q', low);
    }
    session.line("36SS Z");
    ExitCode::from(u8::from(!(shows_lines || session.loads_again())))
}
