//! The first of the shortest walks from an initial to a final state.

use super::search::Search;
use super::Bits;

#[derive(Clone, Copy)]
pub enum Step {
    Letter(u8, u8),
    Omega(u64, u8),
    Back(u64, u8),
    Mix(u64, u8),
}

/// For each number of steps the states that need so many to a final state; the last layer has an initial one.
pub struct Layers {
    masks: [u64; 64],
    pub last: usize,
    pub start: u8,
}

/// Layers from the final states; called only where a walk leads to one.
pub fn layers(search: &Search) -> Layers {
    let rows = search.rows;
    let [initial, last, _] = rows.marks;
    let mut masks = [0; 64];
    masks[0] = last;
    let mut seen = last;
    let mut steps = 0;
    let (mut omegas, mut backs, mut mixes) = (search.looped, search.looped, search.mixed);
    while masks[steps] & initial == 0 {
        let mut add = 0;
        for state in Bits(masks[steps]) {
            let omega = omegas & rows.left_of[state];
            let back = backs & search.member_of[state];
            let mix = mixes & rows.left_of[state];
            omegas &= !omega;
            backs &= !back;
            mixes &= !mix;
            add |= rows.pred[state];
            add |= Bits(omega).fold(0, |mask, at| mask | rows.sets[at]);
            add |= Bits(back | mix).fold(0, |mask, at| mask | rows.right[at]);
        }
        steps += 1;
        masks[steps] = add & !seen;
        seen |= add;
    }
    let start = (masks[steps] & initial).trailing_zeros() as u8;
    Layers { masks, last: steps, start }
}

/// Letter rows by source: the first row of each state, and the next of the same state; 256 is none.
pub struct BySource {
    first: [u16; 64],
    next: [u16; 256],
}

pub fn by_source(search: &Search) -> BySource {
    let mut lists = BySource { first: [256; 64], next: [256; 256] };
    for (at, row) in search.rows.letters[..search.rows.letter_count].iter().enumerate() {
        let source = (row >> 16) as usize & 63;
        lists.next[at] = lists.first[source];
        lists.first[source] = at as u16;
    }
    lists
}

/// The first step from a state into the layer with `left` steps still to go.
#[inline(always)]
pub fn step(search: &Search, lists: &BySource, layers: &Layers, from: u8, left: usize) -> (Step, u8) {
    let rows = search.rows;
    let from = from as usize & 63;
    let goal = layers.masks[left & 63];
    if rows.succ[from] & goal != 0 {
        let (letter, to) = first_letter(search, lists, from, goal);
        return (Step::Letter(letter, to), to);
    }
    if let Some(at) = first_set(search, search.looped & search.member_of[from], &rows.left, goal) {
        let to = (rows.left[at] & goal).trailing_zeros() as u8;
        return (Step::Omega(rows.sets[at], to), to);
    }
    if let Some(at) = first_set(search, search.looped & rows.right_of[from], &rows.sets, goal) {
        let to = (rows.sets[at] & goal).trailing_zeros() as u8;
        return (Step::Back(rows.sets[at], to), to);
    }
    let at = first_set(search, search.mixed & rows.right_of[from], &rows.left, goal).unwrap();
    let to = (rows.left[at] & goal).trailing_zeros() as u8;
    (Step::Mix(rows.sets[at], to), to)
}

fn first_letter(search: &Search, lists: &BySource, from: usize, goal: u64) -> (u8, u8) {
    let mut best = u32::MAX;
    let mut at = lists.first[from] as usize;
    while at < 256 {
        let row = search.rows.letters[at];
        if goal >> (row & 63) & 1 == 1 {
            best = best.min(row);
        }
        at = lists.next[at] as usize;
    }
    ((best >> 8) as u8, best as u8)
}

/// Of the sets at these indices that have a target in the goal, the lowest.
#[inline(always)]
fn first_set(search: &Search, indices: u64, targets: &[u64; 64], goal: u64) -> Option<usize> {
    Bits(indices).filter(|&at| targets[at] & goal != 0).min_by_key(|&at| search.rows.sets[at])
}
