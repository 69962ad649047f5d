//! The crate on a processor without an operating system's library: lines come in at the standard
//! input, and are answered as plrun answers them; at the end comes the wiring, as plprint prints it.
//! With an argument the card has thirty-two cells. `clients/check-rust` builds it for every processor
//! and links it with clients/firmware/bare.
#![no_std]
#![no_main]

use core::fmt::{self, Write};
use core::panic::PanicInfo;

use trigger::{Card, Input, LARGE_RECORD, RECORD, TEXT};

extern "C" {
    fn next() -> i32;
    fn put(bytes: *const u8, len: usize);
    fn stop(status: i32) -> !;
}

/// The standard output.
struct Output;

impl Write for Output {
    fn write_str(&mut self, text: &str) -> fmt::Result {
        unsafe { put(text.as_ptr(), text.len()) };
        Ok(())
    }
}

#[panic_handler]
fn panicked(info: &PanicInfo) -> ! {
    let _ = writeln!(Output, "FAULT: {info}");
    unsafe { stop(1) }
}

/// A line of the input without its LF, cut where the buffer ends: a longer one is refused by its form
/// all the same. None at the end of the input.
fn read_line(buffer: &mut [u8]) -> Option<usize> {
    let mut len = 0;
    loop {
        match u8::try_from(unsafe { next() }).ok()? {
            b'\n' => return Some(len),
            byte if len < buffer.len() => {
                buffer[len] = byte;
                len += 1;
            }
            _ => {}
        }
    }
}

fn word(digits: &[u8]) -> Option<u16> {
    let hex = |byte: &u8| matches!(byte, b'0'..=b'9' | b'a'..=b'f');
    let text = core::str::from_utf8(digits)
        .ok()
        .filter(|_| digits.iter().all(hex))?;
    u16::from_str_radix(text, 16).ok()
}

/// A tick line, exact to the byte: its input, and whether it is full.
fn tick(line: &[u8]) -> Option<(Input, bool)> {
    let [b'T', b' ', code @ b'0'..=b'9', b' ', words @ .., b' ', kind @ (b'F' | b'Q')] = line
    else {
        return None;
    };
    if words.len() != 9 || words[4] != b' ' {
        return None;
    }
    let input = Input {
        code: code - b'0',
        sample: word(&words[..4])?,
        attached: word(&words[5..])?,
    };
    Some((input, *kind == b'F'))
}

/// What is written for a line, as plrun writes it.
fn enter(card: &mut Card, store: &mut [u8], line: &[u8]) -> fmt::Result {
    let large = card.cells().len() == 32;
    if let Some((input, full)) = tick(line) {
        let answer = if full {
            card.full_tick(input)
        } else {
            card.quick_tick(input)
        };
        return if large {
            writeln!(Output, "{answer:#}")
        } else {
            writeln!(Output, "{answer}")
        };
    }
    if line == b"L" {
        return match card.load(store) {
            Ok(()) => writeln!(Output, ":A"),
            Err(refusal) => writeln!(Output, "{refusal}"),
        };
    }
    writeln!(Output, "{}", card.line(line, store))
}

#[no_mangle]
extern "C" fn main(arguments: i32, _: *const *const u8) -> i32 {
    let (mut small, mut large) = ([0; RECORD], [0; LARGE_RECORD]);
    let (mut card, store) = match arguments {
        1 => (Card::fresh(), &mut small[..]),
        _ => (Card::fresh_large(), &mut large[..]),
    };
    let mut line = [0; 240];
    while let Some(len) = read_line(&mut line) {
        enter(&mut card, store, &line[..len]).expect("the output takes all");
    }
    let mut text = [0; TEXT];
    Output
        .write_str(card.print(&mut text).expect("any wiring has room"))
        .expect("the output takes all");
    0
}
