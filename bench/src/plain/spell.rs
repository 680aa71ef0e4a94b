//! The bytes of an expression. A claim is spelt once; where it occurs again its text is copied, turned to where the
//! tour then starts.

use super::expression::{Expression, Walk};
use super::print::DECIMAL;
use super::steps::{kind, label, place, target, LETTER, MIX, OMEGA};
use super::Bits;

/// Where a claim's text begins, and for loops where the walk of each state begins in it.
pub struct Spelt {
    claims: [[usize; 64]; 2],
    tours: [[usize; 64]; 64],
}

const NOWHERE: usize = usize::MAX;

impl Spelt {
    pub const EMPTY: Spelt = Spelt { claims: [[NOWHERE; 64]; 2], tours: [[0; 64]; 64] };
}

pub struct Speller<'a> {
    told: &'a Expression,
    spelt: &'a mut Spelt,
    text: &'a mut [u8],
    at: usize,
}

impl<'a> Speller<'a> {
    /// The text has the length that was measured.
    pub fn new(told: &'a Expression, spelt: &'a mut Spelt, text: &'a mut [u8]) -> Speller<'a> {
        spelt.claims.iter_mut().for_each(|claims| claims[..told.steps.count].fill(NOWHERE));
        Speller { told, spelt, text, at: 0 }
    }

    pub fn walk(&mut self, walk: Walk) {
        let told = self.told;
        let mut state = walk.start as usize;
        for (number, &step) in told.parts(walk).iter().enumerate() {
            if number > 0 {
                self.put(b".");
            }
            match kind(step) {
                LETTER => self.letter(label(step)),
                MIX => {
                    self.put(b"sh(");
                    self.pieces(place(step));
                    self.put(b")");
                }
                OMEGA => {
                    self.put(b"(");
                    self.tour(place(step), state);
                    self.put(b")w");
                }
                _ => {
                    self.put(b"(");
                    self.tour(place(step), target(step));
                    self.put(b")v");
                }
            }
            state = target(step);
        }
        if told.parts(walk).is_empty() {
            self.put(b"e");
        }
    }

    fn pieces(&mut self, at: usize) {
        let begin = self.spelt.claims[1][at];
        if begin != NOWHERE {
            return self.copy(begin, begin + self.told.length_of(true, at));
        }
        self.spelt.claims[1][at] = self.at;
        for state in Bits(self.told.steps.sets[at]) {
            if self.at > self.spelt.claims[1][at] {
                self.put(b",");
            }
            self.walk(self.told.walk_of(true, at, state));
        }
    }

    fn tour(&mut self, at: usize, from: usize) {
        let begin = self.spelt.claims[0][at];
        if begin != NOWHERE {
            let turn = self.spelt.tours[at][from];
            self.copy(turn, begin + self.told.length_of(false, at));
            if turn > begin {
                self.put(b".");
                self.copy(begin, turn - 1);
            }
            return;
        }
        self.spelt.claims[0][at] = self.at;
        let set = self.told.steps.sets[at];
        let below = set & !(!0 << from);
        for state in Bits(set & !below).chain(Bits(below)) {
            if self.at > self.spelt.claims[0][at] {
                self.put(b".");
            }
            self.spelt.tours[at][state] = self.at;
            self.walk(self.told.walk_of(false, at, state));
        }
    }

    fn copy(&mut self, begin: usize, end: usize) {
        self.text.copy_within(begin..end, self.at);
        self.at += end - begin;
    }

    #[inline(always)]
    fn put<const N: usize>(&mut self, bytes: &[u8; N]) {
        self.text[self.at..self.at + N].copy_from_slice(bytes);
        self.at += N;
    }

    #[inline(always)]
    fn letter(&mut self, letter: usize) {
        let [a, b, c, count] = DECIMAL[letter];
        match count {
            1 => self.put(&[a]),
            2 => self.put(&[a, b]),
            _ => self.put(&[a, b, c]),
        }
    }
}
