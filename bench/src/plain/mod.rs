//! A plain, unproved implementation of document 01, written for speed: the yardstick of the proved engine.

mod expression;
mod hoa;
mod load;
mod print;
mod search;
mod spell;
mod steps;
mod tree;
mod walk;

use expression::Expression;
use load::Automaton;
use search::{Search, Work};
use spell::{Speller, Spelt};
use std::cell::RefCell;

/// No sheet is longer (document 01, "The sheet").
pub const LONGEST_SHEET: usize = 6400;

/// No batch of an HOA file is longer: 36 edges and 63 sets.
pub const LONGEST_HOA_BATCH: usize = 778;

/// A refusal: its number and its place.
pub type Refusal = (u8, usize);

/// Room that a call uses and the next uses again; nothing in it is read before it is written.
struct Scratch {
    rows: Automaton,
    work: Work,
    text: [u8; ROOM],
}

/// The longest sheet, and what a writer of whole words may put beyond its end.
const ROOM: usize = LONGEST_SHEET + 64;

thread_local! {
    static SCRATCH: RefCell<Scratch> =
        const { RefCell::new(Scratch { rows: Automaton::EMPTY, work: Work::EMPTY, text: [0; ROOM] }) };
    static TOLD: RefCell<(Expression, Spelt)> = const { RefCell::new((Expression::EMPTY, Spelt::EMPTY)) };
}

/// Loads the batch, closes, does rounds until settled and prints into `out`; the length of the sheet, or a refusal
/// that leaves `out` as it was.
pub fn plain_sheet(batch: &[u8], out: &mut [u8]) -> Result<usize, Refusal> {
    SCRATCH.with_borrow_mut(|Scratch { rows, work, text }| {
        rows.load(batch)?;
        let mut search = Search::new(rows, work);
        let verdict = search.settle();
        let length = print::sheet(&search, verdict, text);
        if length > out.len() {
            return Err((12, 0));
        }
        out[..length].copy_from_slice(&text[..length]);
        Ok(length)
    })
}

/// Settles the batch likewise and writes the walk of its sheet as an expression (request C-12); the length of the text,
/// or the refusal's number times 2^32 with its place in `place`, which leaves `text` as it was.
pub fn expression(batch: &[u8], text: &mut [u8], place: &mut u64) -> u64 {
    code(told(batch, text), place)
}

/// The rows of the automaton in an HOA file as a batch (request C-21), with the same conventions.
pub fn hoa(file: &[u8], batch: &mut [u8], place: &mut u64) -> u64 {
    code(hoa::convert(file, batch), place)
}

/// An answer as the library gives it.
#[inline(always)]
fn code(answer: Result<usize, Refusal>, place: &mut u64) -> u64 {
    match answer {
        Ok(length) => length as u64,
        Err((number, at)) => {
            *place = at as u64;
            (number as u64) << 32
        }
    }
}

fn told(batch: &[u8], text: &mut [u8]) -> Result<usize, Refusal> {
    SCRATCH.with_borrow_mut(|Scratch { rows, work, .. }| {
        rows.load(batch)?;
        let mut search = Search::new(rows, work);
        if !search.settle().nonempty {
            return Err((17, 0));
        }
        TOLD.with_borrow_mut(|(told, spelt)| {
            let (walk, length) = told.measure(&search, text.len()).ok_or((12, 0))?;
            Speller::new(told, spelt, &mut text[..length]).walk(walk);
            Ok(length)
        })
    })
}

/// The members of a mask, rising.
pub(crate) struct Bits(pub u64);

impl Iterator for Bits {
    type Item = usize;
    #[inline(always)]
    fn next(&mut self) -> Option<usize> {
        if self.0 == 0 {
            return None;
        }
        let lowest = self.0.trailing_zeros() as usize & 63;
        self.0 &= self.0 - 1;
        Some(lowest)
    }
}
