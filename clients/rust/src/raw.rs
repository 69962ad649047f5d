//! Written by clients/generate from the crates: do not edit. The structs that cross the interface of
//! the static libraries, and `calls`, their calls with Rust's types: by value, which is x86-64's C,
//! or by pointers, which are the same on every processor. The feature `pointers` takes these on
//! x86-64 too.
use core::mem::{offset_of, size_of, MaybeUninit};

/// How many cells a card has room for; it has sixteen or thirty-two.
pub const CELLS: usize = 32;

/// How many connectors a card has.
pub const CONNECTORS: usize = 16;

/// The most cards of a rack.
pub const RACK: usize = 4;

/// One of the cells: its settings, and what it keeps between ticks.
// crates/cells/src/cell.rt
#[repr(C)]
#[derive(Clone, Copy, Debug, PartialEq, Eq)]
pub struct Cell {
    /// A constant, a lookup's code or a duration; 0 where the type has none.
    pub config: u32,
    /// A timer's count of pulses left, or a counter's count.
    pub count: u32,
    /// The addresses in its slots X, Y, Z and F.
    pub slots: [u8; 4],
    /// Its type.
    pub kind: u8,
    /// A flip-flop's bit, or whether a counter is active.
    pub bit: bool,
    /// Whether a delay's pulse is on.
    pub pulse: bool,
}

/// The connectors: BNC1 to BNC8, then TTL0 to TTL7. One that is in both words is push-pull, one
/// that is in neither is an input.
// crates/card/src/card.rt
#[repr(C)]
#[derive(Clone, Copy, Debug, PartialEq, Eq)]
pub struct Connectors {
    /// The addresses that they are driven from.
    pub sources: [u8; CONNECTORS],
    /// Those that are push-pull, in the order of the sample.
    pub push_pull: u16,
    /// Those that are open-drain.
    pub open_drain: u16,
}

/// The words of the last tick that ran, of the one before it (2), and of the one before that (3).
// crates/card/src/card.rt
#[repr(C)]
#[derive(Clone, Copy, Debug, PartialEq, Eq)]
pub struct Memory {
    /// What the card drove at the connectors.
    pub(crate) driven: u16,
    /// The lines of the backplane that it pulled low.
    pub(crate) pulled: u16,
    /// The outputs of the cells, bit 0 of cell 1.
    pub(crate) outputs: u32,
    pub(crate) outputs2: u32,
    pub(crate) outputs3: u32,
    /// The levels of the connectors.
    pub(crate) levels: u16,
    pub(crate) levels2: u16,
}

/// In how many ticks the waking rules named each cell, in full ticks too, and how many ticks ran,
/// since the card powered up or was loaded. Once 4,294,967,295 ticks have run, none of these
/// changes any more.
// crates/card/src/tallies.rt
#[repr(C)]
#[derive(Clone, Copy, Debug, PartialEq, Eq)]
pub struct Tallies {
    /// Of each cell, from cell 1 on; those past the card's cells are 0.
    pub cells: [u32; CELLS],
    /// The ticks that ran.
    pub total: u32,
}

/// A card. Read it as you like; to change it, use lines. No call changes its number of cells.
// crates/card/src/card.rt
#[repr(C)]
#[derive(Clone, Copy, Debug, PartialEq, Eq)]
pub struct Card {
    /// The cells, from cell 1 on.
    pub(crate) cells: [Cell; CELLS],
    /// The connectors.
    pub(crate) connectors: Connectors,
    /// The cells that lines have changed since the last tick that ran.
    pub(crate) edited: u64,
    /// What is remembered of ticks.
    pub(crate) memory: Memory,
    /// The place that lines are for: a cell's number, or 33 to 48.
    pub(crate) pointer: u8,
    /// The code of the clock that it ticks by.
    pub(crate) trigger: u8,
    /// Its number of cells: 32, and any other number means 16.
    pub(crate) size: u8,
    /// Which cells woke how often.
    pub(crate) tallies: Tallies,
}

/// What comes in with a tick.
// crates/ticks/src/view.rt
#[repr(C)]
#[derive(Clone, Copy, Debug, PartialEq, Eq, Default)]
pub struct Input {
    /// The code of its clock.
    pub code: u8,
    /// The levels at the connectors: bits 0 to 7 BNC1 to BNC8, bits 8 to 15 TTL0 to TTL7.
    pub sample: u16,
    /// Which connectors have something attached, in the order of the sample.
    pub attached: u16,
}

/// What a tick answers. A tick of another clock than the card's does not run, and its words are 0.
// crates/ticks/src/tick.rt
#[repr(C)]
#[derive(Clone, Copy, Debug, PartialEq, Eq)]
pub struct Answer {
    /// Whether the tick ran.
    pub ran: bool,
    /// What the card drives at the connectors, in the order of the sample.
    pub driven: u16,
    /// The outputs of the cells, bit 0 of cell 1.
    pub cells: u32,
    /// The cells that were worked out.
    pub woken: u32,
    /// How many these are.
    pub count: u32,
}

/// What depends on a connector.
// crates/survey/src/lib.rt
#[repr(C)]
#[derive(Clone, Copy, Debug, PartialEq, Eq)]
pub struct Surveyed {
    /// 0, or 5 for a place that is no connector's.
    pub k: u8,
    /// The cells, bit 0 of cell 1.
    pub cells: u32,
    /// The connectors, in the order of the sample.
    pub connectors: u16,
}

/// What comes in at the front of one card of a rack.
// crates/rack/src/tick.rt
#[repr(C)]
#[derive(Clone, Copy, Debug, PartialEq, Eq, Default)]
pub struct Front {
    /// The levels at BNC1 to BNC8.
    pub sample: u8,
    /// Which of them have something attached.
    pub attached: u8,
}

/// What comes in with a tick of a rack.
// crates/rack/src/tick.rt
#[repr(C)]
#[derive(Clone, Copy, Debug, PartialEq, Eq, Default)]
pub struct RackInput {
    /// The code of its clock.
    pub code: u8,
    /// The levels at TTL0 to TTL7.
    pub sample: u8,
    /// Which of them have something attached.
    pub attached: u8,
    /// How many fronts there are.
    pub count: u8,
    /// The fronts, one for each card.
    pub fronts: [Front; RACK],
}

/// The number of the refusal, and the answers of the cards; those past the row are idle, and with a
/// refusal all are.
// crates/rack/src/tick.rt
#[repr(C)]
#[derive(Clone, Copy, Debug, PartialEq, Eq)]
pub struct RackTicked {
    pub k: u8,
    pub answers: [Answer; RACK],
}

/// The card after a tick, and the answer.
// crates/ticks/src/tick.rt
#[repr(C)]
#[derive(Clone, Copy, Debug, PartialEq, Eq)]
pub struct Ticked {
    pub card: Card,
    pub answer: Answer,
}

// The size of a struct, and where each of its fields lies.
macro_rules! layout {
    ($type:ty: $size:literal, $($field:ident $at:literal),+) => {
        const _: () = assert!(size_of::<$type>() == $size);
        $(const _: () = assert!(offset_of!($type, $field) == $at);)+
    };
}

layout!(Cell: 16, config 0, count 4, slots 8, kind 12, bit 13, pulse 14);
layout!(Connectors: 20, sources 0, push_pull 16, open_drain 18);
layout!(Memory: 20, driven 0, pulled 2, outputs 4, outputs2 8, outputs3 12, levels 16,
    levels2 18);
layout!(Tallies: 132, cells 0, total 128);
layout!(Card: 704, cells 0, connectors 512, edited 536, memory 544, pointer 564, trigger 565,
    size 566, tallies 568);
layout!(Input: 6, code 0, sample 2, attached 4);
layout!(Answer: 16, ran 0, driven 2, cells 4, woken 8, count 12);
layout!(Surveyed: 12, k 0, cells 4, connectors 8);
layout!(Front: 2, sample 0, attached 1);
layout!(RackInput: 12, code 0, sample 1, attached 2, count 3, fronts 4);
layout!(RackTicked: 68, k 0, answers 4);
layout!(Ticked: 720, card 0, answer 704);

// Every call takes every value. What the caller sees to is that each slice is valid and that none
// that is written overlaps another, and so references are. Where a call is given `to`, it writes
// all that this points to.
#[cfg(all(target_arch = "x86_64", not(windows), not(feature = "pointers")))]
pub mod calls {
    use super::*;

    // crates/steady/src/lib.rt
    #[repr(C)]
    pub struct Advanced {
        pub card: Card,
        pub answer: Answer,
        pub made: u32,
    }

    // crates/saved/src/record.rt
    #[repr(C)]
    pub struct Loaded {
        pub card: Card,
        pub k: u8,
    }

    // crates/lines/src/line.rt
    #[repr(C)]
    pub struct Answered {
        pub card: Card,
        pub k: u8,
        pub len: usize,
    }

    // crates/wiring/src/print.rt
    #[repr(C)]
    pub struct Printed {
        pub k: u8,
        pub len: usize,
    }

    // crates/convert/src/lib.rt
    #[repr(C)]
    pub struct Converted {
        pub k: u8,
        pub len: usize,
    }

    // crates/rack/src/rack_calls.rt
    #[repr(C)]
    pub struct Replied {
        pub k: u8,
        pub len: usize,
    }

    layout!(Advanced: 728, card 0, answer 704, made 720);
    layout!(Loaded: 712, card 0, k 704);
    layout!(Answered: 720, card 0, k 704, len 712);
    layout!(Printed: 16, k 0, len 8);
    layout!(Converted: 16, k 0, len 8);
    layout!(Replied: 16, k 0, len 8);

    mod library {
        use super::*;

        #[link(name = "trigger", kind = "static")]
        extern "C" {
            pub fn trigger_fresh(to: *mut Card) -> *mut Card;
            pub fn trigger_fresh_large(to: *mut Card) -> *mut Card;
            pub fn trigger_quick_tick_in(card: *mut Card, input: Input) -> Answer;
            pub fn trigger_at_rest(card: Card, input: Input) -> bool;
            pub fn trigger_steady_for(card: Card, input: Input) -> u32;
            pub fn trigger_advance(
                to: *mut Advanced,
                card: Card,
                input: Input,
                k: u32,
            ) -> *mut Advanced;
            pub fn trigger_load(
                to: *mut Loaded,
                card: Card,
                bytes: *const u8,
                bytes_len: usize,
            ) -> *mut Loaded;
            pub fn trigger_line(
                to: *mut Answered,
                card: Card,
                text: *const u8,
                text_len: usize,
                reply: *mut u8,
                reply_len: usize,
                store: *mut u8,
                store_len: usize,
            ) -> *mut Answered;
            pub fn trigger_print(card: Card, buffer: *mut u8, buffer_len: usize) -> Printed;
            pub fn trigger_convert(
                bytes: *const u8,
                bytes_len: usize,
                buffer: *mut u8,
                buffer_len: usize,
            ) -> Converted;
            pub fn trigger_survey(card: Card, place: u64) -> Surveyed;
            pub fn trigger_read_tallies(card: Card) -> Tallies;
            pub fn trigger_full_tick(to: *mut Ticked, card: Card, input: Input) -> *mut Ticked;
        }

        #[link(name = "rack", kind = "static")]
        extern "C" {
            pub fn rack_start(row: *mut Card, row_len: usize) -> u8;
            pub fn rack_tick(
                row: *mut Card,
                row_len: usize,
                full: bool,
                input: RackInput,
            ) -> RackTicked;
            pub fn rack_line(
                row: *mut Card,
                row_len: usize,
                number: usize,
                text: *const u8,
                text_len: usize,
                reply: *mut u8,
                reply_len: usize,
                store: *mut u8,
                store_len: usize,
            ) -> Replied;
            pub fn rack_load(
                row: *mut Card,
                row_len: usize,
                number: usize,
                bytes: *const u8,
                bytes_len: usize,
            ) -> u8;
        }
    }

    #[inline]
    pub fn full_tick(ticked: &mut Ticked, input: Input) -> Answer {
        let to: *mut Ticked = ticked;
        unsafe { (*library::trigger_full_tick(to, (*to).card, input)).answer }
    }

    #[inline]
    pub fn fresh() -> Card {
        let mut to = MaybeUninit::uninit();
        unsafe { *library::trigger_fresh(to.as_mut_ptr()) }
    }

    #[inline]
    pub fn fresh_large() -> Card {
        let mut to = MaybeUninit::uninit();
        unsafe { *library::trigger_fresh_large(to.as_mut_ptr()) }
    }

    #[inline]
    pub fn quick_tick(card: &mut Card, input: Input) -> Answer {
        unsafe { library::trigger_quick_tick_in(card, input) }
    }

    #[inline]
    pub fn at_rest(card: &Card, input: Input) -> bool {
        unsafe { library::trigger_at_rest(*card, input) }
    }

    #[inline]
    pub fn steady_for(card: &Card, input: Input) -> u32 {
        unsafe { library::trigger_steady_for(*card, input) }
    }

    #[inline]
    pub fn advance(card: &mut Card, input: Input, k: u32) -> (Answer, u32) {
        let mut to = MaybeUninit::uninit();
        let result = unsafe { &*library::trigger_advance(to.as_mut_ptr(), *card, input, k) };
        *card = result.card;
        (result.answer, result.made)
    }

    #[inline]
    pub fn load(card: &mut Card, bytes: &[u8]) -> u8 {
        let mut to = MaybeUninit::uninit();
        let result = unsafe {
            &*library::trigger_load(to.as_mut_ptr(), *card, bytes.as_ptr(), bytes.len())
        };
        *card = result.card;
        result.k
    }

    #[inline]
    pub fn line(card: &mut Card, text: &[u8], reply: &mut [u8], store: &mut [u8]) -> (u8, usize) {
        let mut to = MaybeUninit::uninit();
        let result = unsafe {
            &*library::trigger_line(
                to.as_mut_ptr(),
                *card,
                text.as_ptr(),
                text.len(),
                reply.as_mut_ptr(),
                reply.len(),
                store.as_mut_ptr(),
                store.len(),
            )
        };
        *card = result.card;
        (result.k, result.len)
    }

    #[inline]
    pub fn print(card: &Card, buffer: &mut [u8]) -> (u8, usize) {
        let result = unsafe { library::trigger_print(*card, buffer.as_mut_ptr(), buffer.len()) };
        (result.k, result.len)
    }

    #[inline]
    pub fn convert(bytes: &[u8], buffer: &mut [u8]) -> (u8, usize) {
        let result = unsafe {
            library::trigger_convert(bytes.as_ptr(), bytes.len(), buffer.as_mut_ptr(), buffer.len())
        };
        (result.k, result.len)
    }

    #[inline]
    pub fn survey(card: &Card, place: u64) -> Surveyed {
        unsafe { library::trigger_survey(*card, place) }
    }

    #[inline]
    pub fn read_tallies(card: &Card) -> Tallies {
        unsafe { library::trigger_read_tallies(*card) }
    }

    #[inline]
    pub fn rack_start(row: &mut [Card]) -> u8 {
        unsafe { library::rack_start(row.as_mut_ptr(), row.len()) }
    }

    #[inline]
    pub fn rack_tick(row: &mut [Card], full: bool, input: RackInput) -> RackTicked {
        unsafe { library::rack_tick(row.as_mut_ptr(), row.len(), full, input) }
    }

    #[inline]
    pub fn rack_line(
        row: &mut [Card],
        number: usize,
        text: &[u8],
        reply: &mut [u8],
        store: &mut [u8],
    ) -> (u8, usize) {
        let result = unsafe {
            library::rack_line(
                row.as_mut_ptr(),
                row.len(),
                number,
                text.as_ptr(),
                text.len(),
                reply.as_mut_ptr(),
                reply.len(),
                store.as_mut_ptr(),
                store.len(),
            )
        };
        (result.k, result.len)
    }

    #[inline]
    pub fn rack_load(row: &mut [Card], number: usize, bytes: &[u8]) -> u8 {
        unsafe {
            library::rack_load(row.as_mut_ptr(), row.len(), number, bytes.as_ptr(), bytes.len())
        }
    }
}

// Every call takes every value. What the caller sees to is that each slice is valid and that none
// that is written overlaps another, and so references are. A result is written whole.
#[cfg(not(all(target_arch = "x86_64", not(windows), not(feature = "pointers"))))]
pub mod calls {
    use super::*;

    mod library {
        use super::*;

        #[link(name = "trigger", kind = "static")]
        extern "C" {
            pub fn trigger_fresh_at(result: *mut Card);
            pub fn trigger_fresh_large_at(result: *mut Card);
            pub fn trigger_quick_tick_at(card: *mut Card, input: *const Input, result: *mut Answer);
            pub fn trigger_full_tick_at(card: *mut Card, input: *const Input, result: *mut Answer);
            pub fn trigger_at_rest_at(card: *const Card, input: *const Input) -> bool;
            pub fn trigger_steady_for_at(card: *const Card, input: *const Input) -> u32;
            pub fn trigger_advance_at(
                card: *mut Card,
                input: *const Input,
                k: u32,
                answer: *mut Answer,
            ) -> u32;
            pub fn trigger_load_at(card: *mut Card, bytes: *const u8, bytes_len: usize) -> u8;
            pub fn trigger_line_at(
                card: *mut Card,
                text: *const u8,
                text_len: usize,
                reply: *mut u8,
                reply_len: usize,
                store: *mut u8,
                store_len: usize,
                len: *mut usize,
            ) -> u8;
            pub fn trigger_print_at(
                card: *const Card,
                buffer: *mut u8,
                buffer_len: usize,
                len: *mut usize,
            ) -> u8;
            pub fn trigger_convert_at(
                bytes: *const u8,
                bytes_len: usize,
                buffer: *mut u8,
                buffer_len: usize,
                len: *mut usize,
            ) -> u8;
            pub fn trigger_survey_at(card: *const Card, place: u64, result: *mut Surveyed) -> u8;
            pub fn trigger_read_tallies_at(card: *const Card, result: *mut Tallies);
        }

        #[link(name = "rack", kind = "static")]
        extern "C" {
            pub fn rack_start_at(row: *mut Card, row_len: usize) -> u8;
            pub fn rack_tick_at(
                row: *mut Card,
                row_len: usize,
                full: bool,
                input: *const RackInput,
                result: *mut RackTicked,
            ) -> u8;
            pub fn rack_line_at(
                row: *mut Card,
                row_len: usize,
                number: usize,
                text: *const u8,
                text_len: usize,
                reply: *mut u8,
                reply_len: usize,
                store: *mut u8,
                store_len: usize,
                len: *mut usize,
            ) -> u8;
            pub fn rack_load_at(
                row: *mut Card,
                row_len: usize,
                number: usize,
                bytes: *const u8,
                bytes_len: usize,
            ) -> u8;
        }
    }

    #[inline]
    pub fn full_tick(ticked: &mut Ticked, input: Input) -> Answer {
        unsafe { library::trigger_full_tick_at(&mut ticked.card, &input, &mut ticked.answer) };
        ticked.answer
    }

    #[inline]
    pub fn fresh() -> Card {
        let mut result = MaybeUninit::uninit();
        unsafe { library::trigger_fresh_at(result.as_mut_ptr()) };
        unsafe { result.assume_init() }
    }

    #[inline]
    pub fn fresh_large() -> Card {
        let mut result = MaybeUninit::uninit();
        unsafe { library::trigger_fresh_large_at(result.as_mut_ptr()) };
        unsafe { result.assume_init() }
    }

    #[inline]
    pub fn quick_tick(card: &mut Card, input: Input) -> Answer {
        let mut result = MaybeUninit::uninit();
        unsafe { library::trigger_quick_tick_at(card, &input, result.as_mut_ptr()) };
        unsafe { result.assume_init() }
    }

    #[inline]
    pub fn at_rest(card: &Card, input: Input) -> bool {
        unsafe { library::trigger_at_rest_at(card, &input) }
    }

    #[inline]
    pub fn steady_for(card: &Card, input: Input) -> u32 {
        unsafe { library::trigger_steady_for_at(card, &input) }
    }

    #[inline]
    pub fn advance(card: &mut Card, input: Input, k: u32) -> (Answer, u32) {
        let mut answer = MaybeUninit::uninit();
        let made = unsafe { library::trigger_advance_at(card, &input, k, answer.as_mut_ptr()) };
        (unsafe { answer.assume_init() }, made)
    }

    #[inline]
    pub fn load(card: &mut Card, bytes: &[u8]) -> u8 {
        unsafe { library::trigger_load_at(card, bytes.as_ptr(), bytes.len()) }
    }

    #[inline]
    pub fn line(card: &mut Card, text: &[u8], reply: &mut [u8], store: &mut [u8]) -> (u8, usize) {
        let mut len = 0;
        let k = unsafe {
            library::trigger_line_at(
                card,
                text.as_ptr(),
                text.len(),
                reply.as_mut_ptr(),
                reply.len(),
                store.as_mut_ptr(),
                store.len(),
                &mut len,
            )
        };
        (k, len)
    }

    #[inline]
    pub fn print(card: &Card, buffer: &mut [u8]) -> (u8, usize) {
        let mut len = 0;
        let k = unsafe {
            library::trigger_print_at(card, buffer.as_mut_ptr(), buffer.len(), &mut len)
        };
        (k, len)
    }

    #[inline]
    pub fn convert(bytes: &[u8], buffer: &mut [u8]) -> (u8, usize) {
        let mut len = 0;
        let k = unsafe {
            library::trigger_convert_at(
                bytes.as_ptr(),
                bytes.len(),
                buffer.as_mut_ptr(),
                buffer.len(),
                &mut len,
            )
        };
        (k, len)
    }

    #[inline]
    pub fn survey(card: &Card, place: u64) -> Surveyed {
        let mut result = MaybeUninit::uninit();
        unsafe { library::trigger_survey_at(card, place, result.as_mut_ptr()) };
        unsafe { result.assume_init() }
    }

    #[inline]
    pub fn read_tallies(card: &Card) -> Tallies {
        let mut result = MaybeUninit::uninit();
        unsafe { library::trigger_read_tallies_at(card, result.as_mut_ptr()) };
        unsafe { result.assume_init() }
    }

    #[inline]
    pub fn rack_start(row: &mut [Card]) -> u8 {
        unsafe { library::rack_start_at(row.as_mut_ptr(), row.len()) }
    }

    #[inline]
    pub fn rack_tick(row: &mut [Card], full: bool, input: RackInput) -> RackTicked {
        let mut result = MaybeUninit::uninit();
        unsafe {
            library::rack_tick_at(row.as_mut_ptr(), row.len(), full, &input, result.as_mut_ptr())
        };
        unsafe { result.assume_init() }
    }

    #[inline]
    pub fn rack_line(
        row: &mut [Card],
        number: usize,
        text: &[u8],
        reply: &mut [u8],
        store: &mut [u8],
    ) -> (u8, usize) {
        let mut len = 0;
        let k = unsafe {
            library::rack_line_at(
                row.as_mut_ptr(),
                row.len(),
                number,
                text.as_ptr(),
                text.len(),
                reply.as_mut_ptr(),
                reply.len(),
                store.as_mut_ptr(),
                store.len(),
                &mut len,
            )
        };
        (k, len)
    }

    #[inline]
    pub fn rack_load(row: &mut [Card], number: usize, bytes: &[u8]) -> u8 {
        unsafe {
            library::rack_load_at(row.as_mut_ptr(), row.len(), number, bytes.as_ptr(), bytes.len())
        }
    }
}
