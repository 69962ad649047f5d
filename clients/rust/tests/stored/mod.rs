//! The stored sessions of crates/gate_sessions: the rows of its standard input, and what it prints for each.
#![allow(dead_code)] // each test uses a part of it

use std::fs::{read, read_to_string};

use trigger::{Answer, Card, Input, LARGE_RECORD};

const CRATE: &str = concat!(env!("CARGO_MANIFEST_DIR"), "/../../crates/gate_sessions");

/// A row `SIZE FILE FORM`, the lines of the file, and what is printed.
pub struct Run {
    pub row: String,
    pub large: bool,
    pub lines: Vec<Vec<u8>>,
    pub printed: String,
}

/// The bytes before each LF; a last line that has not ended is none.
fn lines_of(input: &[u8]) -> Vec<Vec<u8>> {
    let mut lines: Vec<Vec<u8>> = input
        .split(|byte| *byte == b'\n')
        .map(<[u8]>::to_vec)
        .collect();
    lines.pop();
    lines
}

/// The runs with this form, without those that the program answers with `?`. There is at least one.
pub fn runs(form: &str) -> Vec<Run> {
    let rows = read_to_string(format!("{CRATE}/stdin")).expect("the rows");
    let stored = read_to_string(format!("{CRATE}/stdout")).expect("the stored output");
    let mut sections: Vec<(&str, String)> = Vec::new();
    let mut left = rows.lines().peekable();
    for line in stored.lines() {
        if left.peek() == Some(&line) {
            sections.push((line, String::new()));
            left.next();
        } else {
            sections.last_mut().expect("a row comes first").1 += &format!("{line}\n");
        }
    }
    assert_eq!(left.next(), None, "each row is in the stored output");
    let mut runs = Vec::new();
    for (row, printed) in sections {
        let [size, file, wanted] = row.split(' ').collect::<Vec<_>>()[..] else {
            continue;
        };
        if wanted != form || printed.starts_with("? ") {
            continue;
        }
        let input = read(format!("{CRATE}/data/{file}")).expect("a session");
        runs.push(Run {
            row: row.into(),
            large: size == "large",
            lines: lines_of(&input),
            printed,
        });
    }
    assert!(!runs.is_empty());
    runs
}

/// A tick line of plrun, exact to the byte.
fn tick(line: &[u8]) -> Option<(Input, bool)> {
    let text = std::str::from_utf8(line).ok()?;
    let small = |word: &str| {
        word.len() == 4
            && word
                .bytes()
                .all(|b| b.is_ascii_digit() || (b'a'..=b'f').contains(&b))
    };
    let [t, code, sample, attached, kind] = text.split(' ').collect::<Vec<_>>()[..] else {
        return None;
    };
    let exact = t == "T"
        && code.len() == 1
        && small(sample)
        && small(attached)
        && (kind == "F" || kind == "Q");
    if !exact {
        return None;
    }
    let word = |word| u16::from_str_radix(word, 16).ok();
    let input = Input {
        code: code.parse().ok()?,
        sample: word(sample)?,
        attached: word(attached)?,
    };
    Some((input, kind == "F"))
}

/// What one line of a session prints. The store is as long as a record of the card.
pub fn entered(card: &mut Card, line: &[u8], store: &mut [u8]) -> String {
    let show = |answer: Answer| {
        if store.len() == LARGE_RECORD {
            format!("{answer:#}")
        } else {
            answer.to_string()
        }
    };
    if line == b"L" {
        return card
            .load(store)
            .map_or_else(|refusal| refusal.to_string(), |()| ":A".into());
    }
    match (line.first(), tick(line)) {
        (Some(b'T'), None) => ":N-2".into(),
        (_, Some((input, true))) => show(card.full_tick(input)),
        (_, Some((input, false))) => show(card.quick_tick(input)),
        _ => card.line(line, store).to_string(),
    }
}
