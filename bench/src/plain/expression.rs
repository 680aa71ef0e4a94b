//! The walk of the sheet and the walks that justify its claims (request C-12), with the length of the text they make.
//!
//! A tour's length does not depend on where it starts: each claim that occurs is measured once, and all only until
//! the text is known to be too long.

use super::print::DECIMAL;
use super::search::Search;
use super::steps::{kind, label, place, Step, Steps, Within, LETTER, MIX, NEVER};
use super::tree::Tree;
use super::Bits;

/// A walk: where its steps begin among those of all walks, how many they are, and its start.
#[derive(Clone, Copy)]
pub struct Walk {
    first: u32,
    count: u16,
    pub start: u8,
}

pub struct Expression {
    pub steps: Steps,
    parts: Vec<Step>,
    /// For each loop and each mix that was measured: from each state of its set the walk to the next, or through each
    /// the piece; and the length of all.
    walks: [[[Walk; 64]; 64]; 2],
    lengths: [[usize; 64]; 2],
    room: usize,
    tree: Tree,
}

const UNKNOWN: usize = 0;

impl Expression {
    pub const EMPTY: Expression = Expression {
        steps: Steps::EMPTY,
        parts: Vec::new(),
        walks: [[[Walk { first: 0, count: 0, start: 0 }; 64]; 64]; 2],
        lengths: [[UNKNOWN; 64]; 2],
        room: 0,
        tree: Tree::EMPTY,
    };

    /// The walk of a non-empty sheet and the length of its text; nothing where this is longer than the room.
    pub fn measure(&mut self, search: &Search, room: usize) -> Option<(Walk, usize)> {
        let [initial, last, _] = search.rows.marks;
        self.parts.clear();
        self.room = room;
        let mut start = (initial & last).trailing_zeros() as usize;
        if initial & last == 0 {
            self.steps.fill(search);
            self.lengths.iter_mut().for_each(|lengths| lengths[..self.steps.count].fill(UNKNOWN));
            start = self.shortest(&self.steps.within(!0, NEVER), initial, last)?;
        }
        let walk = self.walk(0, start);
        Some((walk, self.joined(walk)?))
    }

    pub fn parts(&self, walk: Walk) -> &[Step] {
        &self.parts[walk.first as usize..][..walk.count as usize]
    }

    /// What the claim has of a state of its set.
    pub fn walk_of(&self, mix: bool, at: usize, state: usize) -> Walk {
        self.walks[mix as usize][at][state]
    }

    pub fn length_of(&self, mix: bool, at: usize) -> usize {
        self.lengths[mix as usize][at]
    }

    /// The steps from this place on.
    fn walk(&self, first: usize, start: usize) -> Walk {
        Walk { first: first as u32, count: (self.parts.len() - first) as u16, start: start as u8 }
    }

    /// Adds the first of the shortest walks of one or more steps, if there is one; its start.
    fn shortest(&mut self, within: &Within, sources: u64, goal: u64) -> Option<usize> {
        let end = self.tree.grow(&self.steps, within, sources, goal).break_value()?;
        Some(self.tree.walk_to(end, &mut self.parts))
    }

    /// The length of the parts with the points between them.
    fn joined(&mut self, walk: Walk) -> Option<usize> {
        if walk.count == 0 {
            return self.fits("e".len());
        }
        let mut length = 0;
        for at in 0..walk.count as usize {
            let step = self.parts[walk.first as usize + at];
            length += (at > 0) as usize;
            length += match kind(step) {
                LETTER => DECIMAL[label(step)][3] as usize,
                MIX => "sh()".len() + self.claim(true, place(step))?,
                _ => "()w".len() + self.claim(false, place(step))?,
            };
            self.fits(length)?;
        }
        Some(length)
    }

    #[inline(always)]
    fn fits(&self, length: usize) -> Option<usize> {
        (length <= self.room).then_some(length)
    }

    fn claim(&mut self, mix: bool, at: usize) -> Option<usize> {
        if self.lengths[mix as usize][at] == UNKNOWN {
            let set = self.steps.sets[at];
            let within = self.steps.within(set, self.steps.rounds[mix as usize][at]);
            self.lengths[mix as usize][at] = match mix {
                false => self.tour(at, set, &within)?,
                true => self.pieces(at, set, &within)?,
            };
        }
        Some(self.lengths[mix as usize][at])
    }

    fn tour(&mut self, at: usize, set: u64, within: &Within) -> Option<usize> {
        let mut length = 0;
        for state in Bits(set) {
            let first = self.parts.len();
            self.shortest(within, 1 << state, after(set, state));
            length = self.more(false, at, state, self.walk(first, state), length)?;
        }
        Some(length)
    }

    fn pieces(&mut self, at: usize, set: u64, within: &Within) -> Option<usize> {
        let (entrances, exits) = (self.steps.left[at] & set, self.steps.right[at] & set);
        let mut from_entrances = Tree::EMPTY;
        let _ = from_entrances.grow(&self.steps, within, entrances, 0);
        let mut length = 0;
        for state in Bits(set) {
            let first = self.parts.len();
            let start = match (entrances >> state & 1, exits >> state & 1) {
                (1, 1) => self.piece_at_gap(within, exits, &from_entrances, state),
                (1, _) => self.shortest(within, 1 << state, exits).unwrap_or(state),
                (_, exit) => {
                    let start = from_entrances.walk_to(state, &mut self.parts);
                    if exit == 0 {
                        self.shortest(within, 1 << state, exits);
                    }
                    start
                }
            };
            length = self.more(true, at, state, self.walk(first, start), length)?;
        }
        Some(length)
    }

    /// A shortest piece with a step through an entrance that is an exit begins or ends there; its start.
    fn piece_at_gap(&mut self, within: &Within, exits: u64, from_entrances: &Tree, state: usize) -> usize {
        let first = self.parts.len();
        self.shortest(within, 1 << state, exits);
        let begins = self.parts.len() - first;
        if from_entrances.reached >> state & 1 == 0 {
            return state;
        }
        let start = from_entrances.walk_to(state, &mut self.parts);
        let (begin, end) = self.parts[first..].split_at(begins);
        if begin.is_empty() || (end.len(), start, end) < (begin.len(), state, begin) {
            self.parts.drain(first..first + begins);
            return start;
        }
        self.parts.truncate(first + begins);
        state
    }

    /// Keeps the walk of a state; the length with it and what parts it from the one before.
    fn more(&mut self, mix: bool, at: usize, state: usize, walk: Walk, length: usize) -> Option<usize> {
        self.walks[mix as usize][at][state] = walk;
        let joined = self.joined(walk)?;
        self.fits(length + (length > 0) as usize + joined)
    }
}

/// The state of the set that a tour goes to from this one, as a mask.
fn after(set: u64, state: usize) -> u64 {
    let higher = set & !1 << state;
    let mask = if higher != 0 { higher } else { set };
    mask & mask.wrapping_neg()
}
