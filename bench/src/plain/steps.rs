//! Steps as numbers that compare as document 01 orders them, and what they are made of.

use super::search::{member_of, Search};
use super::Bits;

/// Kind, then letter or place of the set, then target, from high to low.
pub type Step = u16;

pub const LETTER: Step = 0;
pub const OMEGA: Step = 1;
pub const BACK: Step = 2;
pub const MIX: Step = 3;

#[inline(always)]
pub fn step(kind: Step, label: usize, to: usize) -> Step {
    kind << 14 | (label as Step) << 6 | to as Step
}

#[inline(always)]
pub fn kind(step: Step) -> Step {
    step >> 14
}

#[inline(always)]
pub fn label(step: Step) -> usize {
    (step >> 6) as usize & 255
}

/// The place of the set of a step that is no letter.
#[inline(always)]
pub fn place(step: Step) -> usize {
    label(step) & 63
}

#[inline(always)]
pub fn target(step: Step) -> usize {
    step as usize & 63
}

/// The round of a claim that is not open.
pub const NEVER: u8 = u8::MAX;

/// The sets with an open claim have places, rising; the others make no steps.
pub struct Steps {
    pub count: usize,
    pub sets: [u64; 64],
    pub left: [u64; 64],
    pub right: [u64; 64],
    /// The rounds of their loops, of their mixes.
    pub rounds: [[u8; 64]; 2],
    /// For each state the sets that it is in, and those that it leads into.
    pub member_of: [u64; 64],
    pub right_of: [u64; 64],
    /// For each state the targets of its letter steps, and where these steps begin and end among all.
    pub succ: [u64; 64],
    ends: [(u16, u16); 64],
    letters: [Step; 256],
}

/// The steps inside a set by letters and by the claims opened before some round.
#[derive(Clone, Copy)]
pub struct Within {
    pub inside: u64,
    pub loops: u64,
    pub mixes: u64,
}

impl Steps {
    pub const EMPTY: Steps = Steps {
        count: 0,
        sets: [0; 64],
        left: [0; 64],
        right: [0; 64],
        rounds: [[NEVER; 64]; 2],
        member_of: [0; 64],
        right_of: [0; 64],
        succ: [0; 64],
        ends: [(0, 0); 64],
        letters: [0; 256],
    };

    pub fn fill(&mut self, search: &Search) {
        self.fill_sets(search);
        self.fill_letters(search);
    }

    fn fill_sets(&mut self, search: &Search) {
        let rows = search.rows;
        let mut order = [0u8; 64];
        self.count = 0;
        for at in Bits(search.looped | search.mixed) {
            order[self.count & 63] = at as u8;
            self.count += 1;
        }
        let order = &mut order[..self.count];
        order.sort_unstable_by_key(|&at| rows.sets[at as usize & 63]);
        let mut places = [0u8; 64];
        self.right_of = [0; 64];
        for (place, &at) in order.iter().enumerate() {
            let at = at as usize & 63;
            places[at] = place as u8;
            self.sets[place] = rows.sets[at];
            self.left[place] = rows.left[at];
            self.right[place] = rows.right[at];
            self.rounds[0][place] = NEVER;
            self.rounds[1][place] = NEVER;
            Bits(rows.right[at]).for_each(|state| self.right_of[state] |= 1 << place);
        }
        for opening in &search.work.openings[..search.opening_count] {
            let place = places[opening.set as usize & 63] as usize & 63;
            self.rounds[opening.mix as usize][place] = opening.round;
        }
        self.member_of = member_of(&self.sets[..self.count]);
    }

    /// Letter steps by source, each source's rising.
    fn fill_letters(&mut self, search: &Search) {
        let rows = &search.rows.letters[..search.rows.letter_count];
        self.succ = search.rows.succ;
        self.ends = [(0, 0); 64];
        for row in rows {
            self.ends[(row >> 16) as usize & 63].1 += 1;
        }
        let mut begin = 0;
        for ends in &mut self.ends {
            let count = ends.1;
            *ends = (begin, begin);
            begin += count;
        }
        for row in rows {
            let end = &mut self.ends[(row >> 16) as usize & 63].1;
            self.letters[*end as usize & 255] = step(LETTER, (row >> 8) as usize & 255, *row as usize & 63);
            *end += 1;
        }
        for state in Bits(search.rows.sources) {
            let (begin, end) = self.ends[state];
            self.letters[begin as usize..end as usize].sort_unstable();
        }
    }

    #[inline(always)]
    pub fn letters(&self, from: usize) -> &[Step] {
        let (begin, end) = self.ends[from];
        &self.letters[begin as usize..end as usize]
    }

    pub fn within(&self, inside: u64, round: u8) -> Within {
        let mut within = Within { inside, loops: 0, mixes: 0 };
        for at in 0..self.count {
            let part = self.sets[at] & !inside == 0;
            within.loops |= ((part && self.rounds[0][at] < round) as u64) << at;
            within.mixes |= ((part && self.rounds[1][at] < round) as u64) << at;
        }
        within
    }
}
