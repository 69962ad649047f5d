//! Lines, loads and ticks drawn from a fixed sequence of numbers, given to a card and to plrun:
//! they must answer alike, and plprint must print the wiring that the card prints. Both programs
//! are taken from target/bin.
use std::io::Write;
use std::process::{Command, Stdio};

use trigger::{convert, Card, Input, OLD_RECORD, RECORD, TEXT};

const STEPS: u32 = 4000;

/// A fixed sequence of numbers.
struct Random(u32);

impl Random {
    fn below(&mut self, n: u32) -> u32 {
        self.0 ^= self.0 << 13;
        self.0 ^= self.0 >> 17;
        self.0 ^= self.0 << 5;
        (self.0 >> 8) % n
    }

    fn of<T: Copy>(&mut self, row: &[T]) -> T {
        row[self.below(row.len() as u32) as usize]
    }

    /// An address, most often one that is permitted.
    fn address(&mut self) -> u32 {
        let base = match self.below(8) {
            0 => self.below(64),
            1..=4 => self.below(17),
            _ => 33 + self.below(16),
        };
        base + 64 * self.below(4)
    }

    /// A number at one of the limits that lines have, or near it.
    fn number(&mut self) -> u64 {
        let limit = self.of(&[0, 1, 2, 16, 256, 65536, 4_294_967_296, 99_999_999_999]);
        limit + u64::from(self.below(4)) - limit.min(2)
    }
}

/// What plrun is asked for.
enum Step {
    Line(String),
    Tick(bool, Input),
    Load,
}

fn tick(random: &mut Random) -> Step {
    let code = if random.below(8) == 0 {
        random.below(10) as u8
    } else {
        0
    };
    let sample = random.below(65536) as u16 & random.of(&[0, 0x0100, 0x0301, 0xffff]);
    let attached = if random.below(4) == 0 {
        random.below(65536) as u16
    } else {
        0xffff
    };
    Step::Tick(
        random.below(2) == 0,
        Input {
            code,
            sample,
            attached,
        },
    )
}

fn line(random: &mut Random) -> String {
    match random.below(16) {
        0..=2 => format!("M E={}", random.below(18) + random.of(&[0, 0, 32])),
        3 | 4 => format!("36CCA Y={}", random.below(24)),
        5 => format!("36CCA Z={}", random.number()),
        6 => format!("36CCA F={}", random.number()),
        7 => format!("36CCA Z={}", random.address()),
        8 | 9 => {
            let slots = ["X", "Y", "Z", "F"].map(|slot| format!(" {slot}={}", random.address()));
            format!("36CCB{}", slots[..1 + random.below(4) as usize].concat())
        }
        10 => format!("36CCA X={}", random.below(60)),
        11 => format!("PM E={}", random.of(&[0, 0, 0, 0, 1, 4, 5])),
        12 => random
            .of(&[
                "W E", "36CCA Y?", "36CCA Z?", "36CCA F?", "36CCB X?", "36CCB F?",
            ])
            .into(),
        13 => random
            .of(&["36RDADC X?", "36RDADC Y?", "36RDADC Z?"])
            .into(),
        14 => random.of(&["36SS Z", "36SS Z", "HOME E", "! E"]).into(),
        _ => {
            let len = 2 + random.below(120);
            (0..len)
                .map(|_| random.of(&['3', '6', 'C', 'A', 'B', 'X', '=', ' ', '?', 'T', '\r']))
                .collect()
        }
    }
}

/// A tick in every other step, a load now and then, and else a line.
fn step(random: &mut Random) -> Step {
    match random.below(64) {
        0..=31 => tick(random),
        32 => Step::Load,
        _ => Step::Line(line(random)),
    }
}

/// All of a card but the count of its ticks, which a tick at rest moves too.
fn but_total(card: &Card) -> String {
    format!("{card:?}").replace(&format!("total: {} }}", card.tallies().total), "}")
}

/// The card after a tick, which a tick of the other kind must give too, and what the question for
/// rest said of it before.
fn ticked(card: &mut Card, full: bool, input: Input) -> String {
    let (before, mut by_full, mut by_quick) = (*card, *card, *card);
    let answers = (by_full.full_tick(input), by_quick.quick_tick(input));
    assert_eq!(by_full, by_quick);
    assert_eq!(
        before.at_rest(input),
        answers.1.count == 0 && but_total(&by_quick) == but_total(&before)
    );
    let ticks = u32::from(answers.1.ran);
    assert_eq!(by_quick.tallies().total, before.tallies().total + ticks);
    *card = by_quick;
    let answer = if full { answers.0 } else { answers.1 };
    if answer.ran {
        assert_eq!(
            (answer.driven, answer.cells),
            (card.driven(), card.outputs())
        );
    }
    answer.to_string()
}

/// What one of the programs prints for an input.
fn run(program: &str, input: &str) -> String {
    let path = format!("{}/../../target/bin/{program}", env!("CARGO_MANIFEST_DIR"));
    let mut child = Command::new(&path)
        .stdin(Stdio::piped())
        .stdout(Stdio::piped())
        .spawn()
        .unwrap_or_else(|error| panic!("{path}: {error}"));
    let mut stdin = child.stdin.take().expect("piped");
    let bytes = input.as_bytes().to_vec();
    let writer = std::thread::spawn(move || stdin.write_all(&bytes));
    let output = child.wait_with_output().expect("it ends");
    writer
        .join()
        .expect("the writer ends")
        .expect("all is read");
    String::from_utf8(output.stdout).expect("ASCII")
}

/// The first step where plrun answers otherwise.
fn compare(input: &str, answers: &str) {
    let printed = run("plrun", input);
    for (i, ((asked, ours), theirs)) in input
        .lines()
        .zip(answers.lines())
        .zip(printed.lines())
        .enumerate()
    {
        assert_eq!(ours, theirs, "step {i}: {asked}");
    }
    assert_eq!(answers, printed);
}

/// A whole run from a seed; how many steps were accepted or ran.
fn session(seed: u32) -> u32 {
    let mut random = Random(seed);
    let (mut card, mut store) = (Card::fresh(), [0; RECORD]);
    let (mut input, mut answers, mut accepted) = (String::new(), String::new(), 0);
    let mut unrefused = String::new();
    for _ in 0..STEPS {
        let (asked, answer) = match step(&mut random) {
            Step::Line(text) => {
                let reply = card.line(text.as_bytes(), &mut store);
                let number = reply.result().map_or_else(
                    |refusal| refusal.to_string(),
                    |n| n.map_or(":A".into(), |n| format!(":A {n}")),
                );
                assert_eq!(reply.to_string(), number);
                (text, number)
            }
            Step::Load => (
                "L".into(),
                card.load(&store)
                    .map_or_else(|refusal| refusal.to_string(), |()| ":A".into()),
            ),
            Step::Tick(full, i) => {
                let kind = if full { 'F' } else { 'Q' };
                (
                    format!("T {} {:04x} {:04x} {kind}", i.code, i.sample, i.attached),
                    ticked(&mut card, full, i),
                )
            }
        };
        accepted += u32::from(!answer.starts_with(":N") && answer != "T -");
        if !answer.starts_with(":N") {
            unrefused += &format!("{asked}\n");
        }
        input += &(asked + "\n");
        answers += &(answer + "\n");
    }
    compare(&input, &answers);
    // a refused line leaves the wiring as it was, and plprint need not take it
    assert_eq!(card.print(&mut [0; TEXT]), Ok(&*run("plprint", &unrefused)));
    accepted
}

#[test]
fn answers_as_plrun() {
    for seed in 1..=8 {
        let accepted = session(seed);
        assert!(
            accepted > STEPS / 2,
            "seed {seed}: only {accepted} steps did something"
        );
    }
}

#[test]
fn refuses_short_buffers() {
    let mut card = Card::fresh();
    let mut store = [7; RECORD];
    assert_eq!(
        card.line(b"36SS Z", &mut store[..RECORD - 1]).bytes(),
        b":N-1\r\n"
    );
    assert_eq!(card.line(b"M E=2", &mut []).bytes(), b":A\r\n");
    assert_eq!(
        card.line(b"", &mut [])
            .result()
            .map_err(|refusal| refusal.number()),
        Err(2)
    );
    assert_eq!(store, [7; RECORD]);
    assert_eq!(
        card.load(&store[1..]).map_err(|refusal| refusal.number()),
        Err(14)
    );
    assert_eq!(card.load(&[]).map_err(|refusal| refusal.number()), Err(14));

    let mut buffer = [7; TEXT];
    let len = card.print(&mut buffer).expect("any wiring has room").len();
    let mut short = vec![7; len - 1];
    assert_eq!(
        card.print(&mut short).map_err(|refusal| refusal.number()),
        Err(16)
    );
    assert_eq!(short, vec![7; len - 1]);
    assert_eq!(card.print(&mut vec![7; len]).map(str::len), Ok(len));
}

#[test]
fn loads_what_it_saved() {
    let mut card = Card::fresh();
    let mut store = [0; RECORD];
    for text in [
        "36CCA X=4",
        "PM E=1",
        "M E=16",
        "36CCA Y=8",
        "36CCA Z=4294967295",
        "36SS Z",
    ] {
        assert_eq!(
            card.line(text.as_bytes(), &mut store).result(),
            Ok(None),
            "{text}"
        );
    }
    let mut fresh = Card::default();
    assert_eq!(fresh.load(&store), Ok(()));
    assert_eq!(
        (fresh.cells(), fresh.connectors(), fresh.trigger()),
        (card.cells(), card.connectors(), card.trigger())
    );
    assert_eq!(
        (fresh.cells()[15].kind, fresh.cells()[15].config),
        (8, u32::MAX)
    );
    assert_eq!(
        (card.pointer(), fresh.pointer(), fresh.levels()),
        (16, 1, 0)
    );
}

#[test]
fn converts_there_and_back() {
    let mut card = Card::fresh();
    let mut store = [0; RECORD];
    for text in [
        "36CCA X=4",
        "M E=16",
        "36CCA Y=8",
        "36CCA Z=65535",
        "36SS Z",
    ] {
        assert_eq!(
            card.line(text.as_bytes(), &mut store).result(),
            Ok(None),
            "{text}"
        );
    }
    let (mut old, mut back) = ([7; RECORD], [7; RECORD]);
    let old = convert(&store, &mut old).expect("every duration has room");
    assert_eq!(old.len(), OLD_RECORD);
    assert_eq!(convert(old, &mut back), Ok(&store[..]));

    let mut fresh = Card::fresh();
    assert_eq!(fresh.load(old), Ok(()));
    assert_eq!(fresh.cells(), card.cells());

    let number = |record: &[u8], len| {
        convert(record, &mut vec![7; len]).map_or_else(|refusal| refusal.number(), |_| 0)
    };
    assert_eq!(number(&store[1..], RECORD), 14);
    assert_eq!(number(&[7; RECORD], RECORD), 14);
    assert_eq!(number(&store, OLD_RECORD - 1), 1);
    assert_eq!(number(&store, OLD_RECORD), 0);
    assert_eq!(number(old, RECORD - 1), 1);
    card.line(b"36CCA Z=65536", &mut store);
    card.line(b"36SS Z", &mut store);
    assert_eq!(number(&store, RECORD), 17);
}
