//! The stored sessions of a card of thirty-two cells: what its lines and ticks answer and the
//! wiring it prints at the end must be what crates/gate_sessions prints.
use trigger::{Card, LARGE_RECORD, TEXT};

mod stored;

#[test]
fn stored_sessions() {
    for run in stored::runs("session") {
        assert!(run.large, "{}", run.row);
        let (mut card, mut store, mut printed) =
            (Card::fresh_large(), [0; LARGE_RECORD], String::new());
        for line in &run.lines {
            printed += &stored::entered(&mut card, line, &mut store);
            printed.push('\n');
        }
        printed += card.print(&mut [0; TEXT]).expect("any wiring has room");
        for (i, (ours, theirs)) in printed.lines().zip(run.printed.lines()).enumerate() {
            assert_eq!(ours, theirs, "{}: line {} of the output", run.row, i + 1);
        }
        assert_eq!(printed, run.printed, "{}", run.row);
    }
}
