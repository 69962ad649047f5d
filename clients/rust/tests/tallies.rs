//! The stored sessions that ask for the tallies, up to the first line that hands a card in with
//! others: the card must answer what crates/gate_sessions prints.
use std::fmt::Write;

use trigger::{Card, LARGE_RECORD, RECORD};

mod stored;

/// What a card of so many cells answers to a line of a session.
fn answer(card: &mut Card, cells: usize, store: &mut [u8], line: &[u8]) -> String {
    if line != b"#" {
        return stored::entered(card, line, store);
    }
    let tallies = card.tallies();
    let mut row = tallies.total.to_string();
    for tally in &tallies.cells[..cells] {
        write!(row, " {tally}").expect("a string takes all");
    }
    row
}

#[test]
fn stored_tallies() {
    for run in stored::runs("tallies") {
        let (mut card, cells, room) = if run.large {
            (Card::fresh_large(), 32, LARGE_RECORD)
        } else {
            (Card::fresh(), 16, RECORD)
        };
        let mut store = [0; LARGE_RECORD];
        assert_eq!(
            run.lines.len(),
            run.printed.lines().count(),
            "{}: a row for each line",
            run.row
        );
        for (line, row) in run.lines.iter().zip(run.printed.lines()) {
            if line.starts_with(b"# ") {
                break;
            }
            assert_eq!(
                answer(&mut card, cells, &mut store[..room], line),
                row,
                "{}: {}",
                run.row,
                line.escape_ascii()
            );
        }
    }
}
