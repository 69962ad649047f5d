//! The stored sessions of racks: what a row of cards answers must be what is stored.
use trigger::{Answer, Card, Front, Rack, RackCard, RackInput, RACK, RECORD};

/// The calls and the answers of the program plrack.
const FOLDER: &str = concat!(env!("CARGO_MANIFEST_DIR"), "/../../crates/plrack");

/// `rack N`, or `rack N 32` with a card of thirty-two cells in it: a row of fresh cards.
fn row(words: &[&str]) -> Vec<RackCard> {
    let mut cards =
        vec![RackCard::from(Card::fresh()); words[0].parse().expect("a number of cards")];
    if words.get(1) == Some(&"32") {
        *cards.last_mut().expect("a card") = Card::fresh_large().into();
    }
    cards
}

fn bytes(hex: &str) -> Vec<u8> {
    let digits = if hex == "-" { "" } else { hex };
    (0..digits.len() / 2)
        .map(|i| u8::from_str_radix(&digits[2 * i..2 * i + 2], 16).expect("hex"))
        .collect()
}

/// `tick CODE F|Q` and pairs of sample and attached: the backplane's, and that of each front. More
/// than a rack has are counted, and not kept.
fn input(words: &[&str]) -> RackInput {
    let pairs: Vec<Vec<u8>> = words[2..]
        .chunks(2)
        .map(|pair| pair.iter().map(|hex| bytes(hex)[0]).collect())
        .collect();
    let mut fronts = [Front::default(); RACK];
    for (front, pair) in fronts.iter_mut().zip(&pairs[1..]) {
        *front = Front {
            sample: pair[0],
            attached: pair[1],
        };
    }
    RackInput {
        code: words[0].parse().expect("a code"),
        sample: pairs[0][0],
        attached: pairs[0][1],
        count: (pairs.len() - 1) as u8,
        fronts,
    }
}

fn number(result: Result<(), trigger::Refusal>) -> String {
    result.map_or_else(|refusal| refusal.number().to_string(), |()| "0".into())
}

fn ticked(result: Result<[Answer; RACK], trigger::Refusal>, cards: usize) -> String {
    match result {
        Ok(answers) => answers[..cards]
            .iter()
            .fold("0".into(), |text: String, answer| {
                format!("{text};{answer}")
            }),
        Err(refusal) => refusal.number().to_string(),
    }
}

/// What a call answers, or nothing where its reply buffer is shorter than the wrapper's.
fn answer(cards: &mut Vec<RackCard>, call: &str) -> Option<String> {
    let words: Vec<&str> = call.split(' ').collect();
    if words[0] == "rack" {
        *cards = row(&words[1..]);
        return Some("ok".into());
    }
    let count = cards.len();
    let mut rack = Rack(cards);
    match words[0] {
        "start" => Some(number(rack.start())),
        "load" => Some(number(
            rack.load(words[1].parse().expect("a number"), &bytes(words[2])),
        )),
        "tick" => Some(ticked(
            rack.tick(words[2] == "F", input(&words[1..])),
            count,
        )),
        _ => {
            let text = call.splitn(4, ' ').nth(3).unwrap_or("");
            if words[2] != "16" {
                return None;
            }
            let reply = rack.line(
                words[1].parse().expect("a number"),
                text.as_bytes(),
                &mut [0; RECORD],
            );
            let k = reply
                .result()
                .map_or_else(|refusal| refusal.number(), |_| 0);
            Some(format!("{k} {} {reply}", reply.bytes().len()))
        }
    }
}

#[test]
fn stored_racks() {
    let calls = std::fs::read_to_string(format!("{FOLDER}/stdin")).expect("calls");
    let stored = std::fs::read_to_string(format!("{FOLDER}/stdout")).expect("the stored answers");
    assert_eq!(calls.lines().count(), stored.lines().count());
    let mut cards = Vec::new();
    for (i, (call, expected)) in calls.lines().zip(stored.lines()).enumerate() {
        // a call of another form is plrack's own to refuse
        if expected == "?" {
            continue;
        }
        if let Some(found) = answer(&mut cards, call) {
            assert_eq!(found, expected, "line {}: {call}", i + 1);
        }
    }
}
