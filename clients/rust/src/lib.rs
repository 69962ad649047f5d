//! The trigger card of sixteen or thirty-two cells, as a value.
//!
//! A [`Card`] starts [`fresh`](Card::fresh) with sixteen cells, or [with
//! thirty-two](Card::fresh_large), is wired by [lines](Card::line), and ticks
//! [full](Card::full_tick) or [quick](Card::quick_tick). It saves its wiring as a record (the line
//! `36SS Z`), [loads](Card::load) one, and [prints](Card::print) its wiring as lines. The calls are
//! those of the static library of crates/trigger, which is proved; they allocate nothing and keep
//! nothing between calls. On x86-64 they pass the card by value, in the library that `./build`
//! makes; on every other processor, and on x86-64 with the feature `pointers`, by a pointer, in the
//! library that `clients/firmware/make` makes.
//!
//! ```
//! let mut card = trigger::Card::fresh();
//! let mut store = [0; trigger::RECORD];
//! for text in ["M E=33", "36CCA Z=41"] {
//!     card.line(text.as_bytes(), &mut store).result().expect("not refused");
//! }
//! let input = trigger::Input { code: 0, sample: 0x0100, attached: 0xffff };
//! card.quick_tick(input);
//! assert_eq!(card.quick_tick(input).driven, 1);
//! ```
#![no_std]
#![warn(missing_docs)]
#![deny(unsafe_code)]

#[allow(unsafe_code)]
#[rustfmt::skip]
mod raw;

use core::fmt;
use core::num::NonZeroU8;
use core::str;

use raw::calls;
pub use raw::{
    Answer, Cell, Connectors, Front, Input, RackInput, Tallies, CELLS, CONNECTORS, RACK,
};

/// The length of a record of sixteen cells: a store needs as many bytes for `36SS Z`.
pub const RECORD: usize = 308;

/// The length of a record of thirty-two cells.
pub const LARGE_RECORD: usize = 516;

/// The length of an old record, which a card of sixteen cells loads as well.
pub const OLD_RECORD: usize = 276;

/// A buffer of this length has room for the wiring of any card.
pub const TEXT: usize = 4611;

/// How many ticks [`Card::steady_for`] gives where they never end, and the most that one call
/// makes.
pub const FOREVER: u32 = u32::MAX;

// The longest reply, which is also the fewest bytes that the library takes for a reply buffer.
const REPLY: usize = 16;

/// What depends on the line of a connector: an upper bound, since what is in it need not move.
#[derive(Clone, Copy, Debug, PartialEq, Eq)]
pub struct Dependents {
    /// The cells, bit 0 of cell 1.
    pub cells: u32,
    /// The connectors, in the order of the sample.
    pub connectors: u16,
}

/// Ticks that were made at once: how many, and the answer of the last.
#[derive(Clone, Copy, Debug, PartialEq, Eq)]
pub struct Advance {
    /// How many were made.
    pub made: u32,
    /// What the last of them answered; with none, what a tick answers that did not run.
    pub answer: Answer,
}

/// The number of a refusal; docs/MANUAL.md says what each means. It displays as plrun prints it,
/// `:N-9`.
#[derive(Clone, Copy, Debug, PartialEq, Eq)]
pub struct Refusal(NonZeroU8);

impl Refusal {
    /// The number.
    pub fn number(self) -> u8 {
        self.0.get()
    }
}

impl fmt::Display for Refusal {
    fn fmt(&self, f: &mut fmt::Formatter) -> fmt::Result {
        write!(f, ":N-{}", self.0)
    }
}

impl core::error::Error for Refusal {}

// 0 is no refusal.
#[inline]
fn accepted(k: u8) -> Result<(), Refusal> {
    NonZeroU8::new(k).map_or(Ok(()), |k| Err(Refusal(k)))
}

/// The reply to a line. It displays as plrun prints it: `:A`, `:A 12` or `:N-9`.
#[derive(Clone, Copy, Debug, PartialEq, Eq)]
pub struct Reply {
    k: u8,
    len: usize,
    buffer: [u8; REPLY],
}

impl Reply {
    /// What the card would send, with CR LF at its end.
    pub fn bytes(&self) -> &[u8] {
        &self.buffer[..self.len]
    }

    /// The refusal, or the number that an accepted line was answered with, if any.
    pub fn result(&self) -> Result<Option<u32>, Refusal> {
        accepted(self.k)?;
        Ok(self.text().strip_prefix(":A ").and_then(|n| n.parse().ok()))
    }

    fn text(&self) -> &str {
        str::from_utf8(self.bytes())
            .expect("a reply is ASCII")
            .trim_end()
    }
}

impl fmt::Display for Reply {
    fn fmt(&self, f: &mut fmt::Formatter) -> fmt::Result {
        f.write_str(self.text())
    }
}

/// As plrun prints it: driven word, cells and woken set in hex and how many woke, or `T -` where
/// the tick did not run. With `{:#}` cells and woken set have eight digits, for a card of
/// thirty-two cells.
impl fmt::Display for Answer {
    fn fmt(&self, f: &mut fmt::Formatter) -> fmt::Result {
        let Answer {
            ran,
            driven,
            cells,
            woken,
            count,
        } = self;
        if *ran {
            let width = if f.alternate() { 8 } else { 4 };
            write!(
                f,
                "T {driven:04x} {cells:0width$x} {woken:0width$x} {count}"
            )
        } else {
            f.write_str("T -")
        }
    }
}

/// A card of a rack: a [`Card`] without the room for an answer that it has after it. The two are
/// made of each other, to wire or read a card outside its row.
pub use raw::Card as RackCard;

/// A card.
// After the card is room for the answer of its last full tick: the library writes the two at once,
// and where it writes them here nothing is copied back. A quick tick is made in place.
#[derive(Clone, Copy)]
pub struct Card(raw::Ticked);

impl PartialEq for Card {
    fn eq(&self, other: &Card) -> bool {
        self.0.card == other.0.card
    }
}

impl Eq for Card {}

impl fmt::Debug for Card {
    fn fmt(&self, f: &mut fmt::Formatter) -> fmt::Result {
        self.0.card.fmt(f)
    }
}

impl From<Card> for RackCard {
    #[inline]
    fn from(card: Card) -> RackCard {
        card.0.card
    }
}

impl From<RackCard> for Card {
    #[inline]
    fn from(card: RackCard) -> Card {
        let answer = Answer {
            ran: false,
            driven: 0,
            cells: 0,
            woken: 0,
            count: 0,
        };
        Card(raw::Ticked { card, answer })
    }
}

impl Default for Card {
    fn default() -> Card {
        Card::fresh()
    }
}

impl Card {
    /// A card of sixteen cells as it first powers up.
    #[inline]
    pub fn fresh() -> Card {
        calls::fresh().into()
    }

    /// A card of thirty-two cells as it first powers up.
    #[inline]
    pub fn fresh_large() -> Card {
        calls::fresh_large().into()
    }

    /// A tick in which every cell is worked out.
    #[inline]
    pub fn full_tick(&mut self, input: Input) -> Answer {
        calls::full_tick(&mut self.0, input)
    }

    /// A tick in which only those cells are worked out that the waking rules name. The card after
    /// it, the driven word and the cell word are those of a full tick.
    #[inline]
    pub fn quick_tick(&mut self, input: Input) -> Answer {
        calls::quick_tick(&mut self.0.card, input)
    }

    /// Whether a quick tick with this input would work out no cell and leave the card as it is but
    /// for the count of its ticks. Then the clock may stop until something else comes in.
    #[inline]
    pub fn at_rest(&self, input: Input) -> bool {
        calls::at_rest(&self.0.card, input)
    }

    /// For how many quick ticks with this input nothing changes but the counts of cells, the
    /// tallies and the count of ticks, and no count comes to its end: a processor may sleep through
    /// so many ticks, with the outputs as they are, unless a line, a load or another input comes,
    /// and then make those that have passed with [`advance`](Card::advance) and the same input.
    /// [`FOREVER`] of a card at rest.
    #[inline]
    pub fn steady_for(&self, input: Input) -> u32 {
        calls::steady_for(&self.0.card, input)
    }

    /// Up to `k` quick ticks with one input at once: one, and more as long as the card is
    /// [steady](Card::steady_for). How many were made, at least 1 where `k` is, and the answer of
    /// the last; card and answer are those that so many quick ticks leave, one after the other.
    #[inline]
    pub fn advance(&mut self, input: Input, k: u32) -> Advance {
        let (answer, made) = calls::advance(&mut self.0.card, input, k);
        Advance { made, answer }
    }

    /// One line, without an ending. A refused line leaves card and store as they were. `36SS Z`
    /// writes the record to the front of the store, and is refused with 1 where that has fewer than
    /// [`RECORD`] bytes, [`LARGE_RECORD`] of thirty-two cells; other lines do not look at the
    /// store, which may be empty for them.
    #[inline]
    pub fn line(&mut self, text: &[u8], store: &mut [u8]) -> Reply {
        let mut buffer = [0; REPLY];
        let (k, len) = calls::line(&mut self.0.card, text, &mut buffer, store);
        Reply { k, len, buffer }
    }

    /// The card powers up with the settings in a record and keeps its number of cells. Any bytes
    /// may be given: 14 where they are not a record of [`RECORD`] or [`OLD_RECORD`] bytes, or of
    /// [`LARGE_RECORD`] for thirty-two cells, 15 where its settings are none that lines can set;
    /// the card is then as it was.
    #[inline]
    pub fn load(&mut self, record: &[u8]) -> Result<(), Refusal> {
        accepted(calls::load(&mut self.0.card, record))
    }

    /// The settings as lines, each with LF, written to the front of the buffer: given to a fresh
    /// card, they set the same wiring. 16 where the buffer has no room for them; it then stays as
    /// it was. [`TEXT`] bytes are always enough.
    #[inline]
    pub fn print<'a>(&self, buffer: &'a mut [u8]) -> Result<&'a str, Refusal> {
        let (k, len) = calls::print(&self.0.card, buffer);
        accepted(k)?;
        Ok(str::from_utf8(&buffer[..len]).expect("a wiring is ASCII"))
    }

    /// What depends on the connector at a place, 33 to 48: what a change of its line can reach, the
    /// connector itself included unless it is push-pull. Nothing else can tell whether the line
    /// changed. 5 for another place.
    #[inline]
    pub fn survey(&self, place: u64) -> Result<Dependents, Refusal> {
        let surveyed = calls::survey(&self.0.card, place);
        accepted(surveyed.k)?;
        Ok(Dependents {
            cells: surveyed.cells,
            connectors: surveyed.connectors,
        })
    }

    /// Which cells cost most: in how many ticks the waking rules named each cell, and how many
    /// ticks ran, since the card powered up or was loaded.
    #[inline]
    pub fn tallies(&self) -> Tallies {
        calls::read_tallies(&self.0.card)
    }

    /// The cells, from cell 1 on: sixteen or thirty-two.
    pub fn cells(&self) -> &[Cell] {
        let n = if self.0.card.size as usize == CELLS {
            CELLS
        } else {
            16
        };
        &self.0.card.cells[..n]
    }

    /// The connectors: their types and sources.
    pub fn connectors(&self) -> &Connectors {
        &self.0.card.connectors
    }

    /// The place that lines are for: a cell's number, or a connector, 33 to 48.
    pub fn pointer(&self) -> u8 {
        self.0.card.pointer
    }

    /// The code of the clock that the card ticks by.
    pub fn trigger(&self) -> u8 {
        self.0.card.trigger
    }

    /// What the card drove at the connectors in the last tick that ran, in the order of the sample.
    pub fn driven(&self) -> u16 {
        self.0.card.memory.driven
    }

    /// The outputs of the cells in the last tick that ran, bit 0 of cell 1.
    pub fn outputs(&self) -> u32 {
        self.0.card.memory.outputs
    }

    /// The levels of the connectors in the last tick that ran, in the order of the sample.
    pub fn levels(&self) -> u16 {
        self.0.card.memory.levels
    }
}

/// A record in its other form, written to the front of the buffer: the old one of a present one,
/// also of thirty-two cells where sixteen can hold it; and of an old one the present one of
/// sixteen. 14 where the length is that of none of them, else 1 where the buffer has no room for
/// the result, else what a [load](Card::load) of the record gives, else 17 where the old form has
/// no room for a duration, else 18 where a cell above 16 is set or read. Where it is refused, the
/// buffer stays as it was.
#[inline]
pub fn convert<'a>(record: &[u8], buffer: &'a mut [u8]) -> Result<&'a [u8], Refusal> {
    let (k, len) = calls::convert(record, buffer);
    accepted(k)?;
    Ok(&buffer[..len])
}

/// A row of 1 to [`RACK`] cards of sixteen cells that share one backplane, numbered from 1, each
/// changed where it is. A call is refused with 20, and changes nothing, where the row is no such
/// rack, no card has the number, or the fronts are not one for each card; a line and a load with 19
/// where the type of a front connector would change and the cards would then draw more than 16.
/// [`Card::at_rest`] speaks of ticks outside a rack.
pub struct Rack<'a>(pub &'a mut [RackCard]);

impl Rack<'_> {
    /// Every card fresh, but with all connectors as inputs.
    pub fn start(&mut self) -> Result<(), Refusal> {
        accepted(calls::rack_start(self.0))
    }

    /// A tick of all cards: all drive, then all sample, then all work out their cells. The answers
    /// of those past the row are idle.
    pub fn tick(&mut self, full: bool, input: RackInput) -> Result<[Answer; RACK], Refusal> {
        let ticked = calls::rack_tick(self.0, full, input);
        accepted(ticked.k).map(|()| ticked.answers)
    }

    /// A line to the card of a number, as [`Card::line`].
    pub fn line(&mut self, number: usize, text: &[u8], store: &mut [u8]) -> Reply {
        let mut buffer = [0; REPLY];
        let (k, len) = calls::rack_line(self.0, number, text, &mut buffer, store);
        Reply { k, len, buffer }
    }

    /// A load to the card of a number, as [`Card::load`].
    pub fn load(&mut self, number: usize, record: &[u8]) -> Result<(), Refusal> {
        accepted(calls::rack_load(self.0, number, record))
    }
}
