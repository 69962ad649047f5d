//! Two cards hand a pulse over the backplane: card 1 pulls TTL0 low while its one-shot is on, and
//! card 2 starts one of its own when TTL0 falls.
use trigger::{Card, Front, Rack, RackCard, RackInput, RACK};

const LINES: [(usize, &str); 12] = [
    (1, "36CCA Y=14"),
    (1, "36CCA Z=2"),
    (1, "36CCB X=33 Y=192"),
    (1, "M E=41"),
    (1, "36CCA Y=1"),
    (1, "36CCA Z=65"),
    (2, "36CCA Y=14"),
    (2, "36CCA Z=3"),
    (2, "36CCB X=233 Y=192"),
    (2, "M E=35"),
    (2, "36CCA Y=2"),
    (2, "36CCA Z=1"),
];

fn main() {
    let mut cards = [RackCard::from(Card::fresh()); 2];
    let mut rack = Rack(&mut cards);
    rack.start().expect("a rack");
    for (number, text) in LINES {
        println!(
            "{number} {text}: {}",
            rack.line(number, text.as_bytes(), &mut [])
        );
    }
    for bnc1 in [0, 0, 1, 0, 0, 0, 0, 0] {
        let mut fronts = [Front {
            sample: 0,
            attached: 0xff,
        }; RACK];
        fronts[0].sample = bnc1;
        let input = RackInput {
            code: 0,
            sample: 0xff,
            attached: 0xff,
            count: 2,
            fronts,
        };
        let answers = rack.tick(false, input).expect("a rack");
        println!("{}; {}", answers[0], answers[1]);
    }
}
