//! The stored surveys: what depends on each line of the cards that stored lines make must be what
//! crates/gate_sessions prints.
use trigger::{Card, LARGE_RECORD};

mod stored;

/// The rows of a card's surveys, cell words in so many digits.
fn rows(card: &Card, digits: usize) -> String {
    let places = [0, 1, 16, 17, 32]
        .into_iter()
        .chain(33..50)
        .chain([64, 97, 161, 225, 255, 256]);
    let row = |place| match card.survey(place) {
        Ok(set) => format!("{place} 0 {:0digits$x} {:04x}\n", set.cells, set.connectors),
        Err(refusal) => format!("{place} {} {:0digits$x} 0000\n", refusal.number(), 0),
    };
    places.map(row).collect()
}

#[test]
fn stored_surveys() {
    for run in stored::runs("survey") {
        let mut card = if run.large {
            Card::fresh_large()
        } else {
            Card::fresh()
        };
        for line in &run.lines {
            card.line(line, &mut [0; LARGE_RECORD]);
        }
        assert_eq!(
            rows(&card, if run.large { 8 } else { 4 }),
            run.printed,
            "{}",
            run.row
        );
    }
}
