//! Rounds. Each set keeps what was reached inside it, and a round goes on from there with the claims opened before.
//!
//! Three facts spare most tests. With a claim open on Q inside P, loop or mix, walks inside P lead from every state of
//! Q and every r in P with r → Q to every state of Q and every r in P with Q → r; the other claim on Q adds no more. A
//! set with an entrance and an exit mixes no later than it loops, and once it mixes it loops one round later at most,
//! by its own mix steps. A set of one state loops only by a letter.

use super::load::Automaton;
use super::Bits;

/// With so few sets a state is looked for in each.
const FEW: usize = 8;

#[derive(Clone, Copy)]
pub struct Verdict {
    pub nonempty: bool,
    pub rounds: u8,
}

/// An opening: its round, the index of its set, loop or mix.
#[derive(Clone, Copy)]
pub struct Opening {
    pub round: u8,
    pub set: u8,
    pub mix: bool,
}

pub struct Search<'a> {
    pub rows: &'a Automaton,
    /// For each state the sets that it is in; filled when the first claim opens.
    pub member_of: [u64; 64],
    /// Sets whose loop, whose mix is open.
    pub looped: u64,
    pub mixed: u64,
    pub opening_count: usize,
    /// The sets with a claim open, and how many of them the round before added.
    opened: u64,
    fresh_count: usize,
    /// Sets that mix and are to loop in the next round.
    due: u64,
    /// Sets with a test under way; those that wait for a step at one state; those whose first direction is done;
    /// those tested backward now.
    live: u64,
    waiting: u64,
    half: u64,
    backward: u64,
    pub work: &'a mut Work,
}

/// What a search writes before it reads it.
pub struct Work {
    pub openings: [Opening; 128],
    /// For each set what is reached in the direction under way, the open sets used, and where it began.
    reached: [u64; 64],
    used: [u64; 64],
    root: [u64; 64],
    fresh: [Bridge; 64],
    /// For each number of sets the states that are in so many; filled where there are many sets.
    rare: [u64; 65],
}

/// What the first opening on a set adds: every state of `from` leads to every state of `to`, inside what has `set`
/// inside.
#[derive(Clone, Copy)]
struct Bridge {
    set: u64,
    from: u64,
    to: u64,
    /// The mask of the set's index.
    mark: u64,
}

impl Work {
    pub const EMPTY: Work = Work {
        openings: [Opening { round: 0, set: 0, mix: false }; 128],
        reached: [0; 64],
        used: [0; 64],
        root: [0; 64],
        fresh: [Bridge { set: 0, from: 0, to: 0, mark: 0 }; 64],
        rare: [0; 65],
    };
}

/// The rows seen in one direction: for each state the open sets that it leads into, for each set what it leads to.
struct View<'a> {
    next: &'a [u64; 64],
    enter_of: &'a [u64; 64],
    leave: &'a [u64; 64],
}

/// What is reached inside a set, and the open sets that were used or do not lie inside.
struct Reach {
    inside: u64,
    reached: u64,
    used: u64,
}

impl<'a> Search<'a> {
    #[inline(always)]
    pub fn new(rows: &'a Automaton, work: &'a mut Work) -> Search<'a> {
        Search {
            rows,
            member_of: [0; 64],
            looped: 0,
            mixed: 0,
            opening_count: 0,
            opened: 0,
            fresh_count: 0,
            due: 0,
            live: 0,
            waiting: 0,
            half: 0,
            backward: 0,
            work,
        }
    }

    /// Close, and rounds until settled.
    pub fn settle(&mut self) -> Verdict {
        let [initial, last, _] = self.rows.marks;
        let mut accepted = Reach { inside: !0, reached: initial, used: 0 };
        let walks = initial != 0 && last != 0;
        if walks && initial & last == 0 {
            self.grow(&self.forward(), &mut accepted, initial);
        }
        let mut rounds = 0;
        while accepted.reached & last == 0 {
            rounds += 1;
            if !self.round(rounds) {
                return Verdict { nonempty: false, rounds };
            }
            if walks {
                self.go_on(false, &mut accepted);
            }
        }
        Verdict { nonempty: true, rounds }
    }

    #[inline(always)]
    fn forward(&self) -> View<'a> {
        let rows = self.rows;
        View { next: &rows.succ, enter_of: &rows.right_of, leave: &rows.left }
    }

    #[inline(always)]
    fn turned(&self) -> View<'a> {
        let rows = self.rows;
        View { next: &rows.pred, enter_of: &rows.left_of, leave: &rows.right }
    }

    #[inline(always)]
    fn view(&self, backward: bool) -> View<'a> {
        match backward {
            false => self.forward(),
            true => self.turned(),
        }
    }

    /// One round; false if it opens nothing.
    fn round(&mut self, round: u8) -> bool {
        let mut loops = self.due;
        let mut mixes = 0;
        self.due = 0;
        if round == 1 && self.rows.set_count > FEW {
            self.fill_rare();
        }
        let tested = if round == 1 { low_ones(self.rows.set_count) } else { self.met() };
        for at in Bits(tested) {
            let holds = if round == 1 { self.begin(at) } else { self.resume(at) };
            if !holds {
                continue;
            }
            self.live &= !(1 << at);
            if !self.has_pieces(at) {
                loops |= 1 << at;
                continue;
            }
            mixes |= 1 << at;
            match self.connected(at) {
                true => loops |= 1 << at,
                false => self.due |= 1 << at,
            }
        }
        self.open(round, loops, mixes)
    }

    /// The sets whose test an opening of the round before may lead on.
    #[inline(always)]
    fn met(&self) -> u64 {
        let (sets, reached) = (&self.rows.sets, &self.work.reached);
        let mut met = 0;
        for bridge in &self.work.fresh[..self.fresh_count] {
            for (tested, from) in [(self.live & !self.backward, bridge.from), (self.live & self.backward, bridge.to)] {
                for at in Bits(tested) {
                    let meets = bridge.set & !sets[at] == 0 && from & reached[at] != 0;
                    met |= (meets as u64) << at;
                }
            }
        }
        met
    }

    fn open(&mut self, round: u8, loops: u64, mixes: u64) -> bool {
        if loops | mixes == 0 {
            return false;
        }
        if self.opening_count == 0 && self.rows.set_count <= FEW {
            self.fill_member_of();
        }
        self.bridge((loops | mixes) & !self.opened);
        self.looped |= loops;
        self.mixed |= mixes;
        let mut sets = [0u8; 64];
        let mut count = 0;
        for at in Bits(loops | mixes) {
            sets[count & 63] = at as u8;
            count += 1;
        }
        sets[..count].sort_unstable_by_key(|&set| self.rows.sets[set as usize & 63]);
        for &set in &sets[..count] {
            for (mask, mix) in [(loops, false), (mixes, true)] {
                if mask >> set & 1 == 1 {
                    self.work.openings[self.opening_count & 127] = Opening { round, set, mix };
                    self.opening_count += 1;
                }
            }
        }
        true
    }

    /// Adds the bridges of sets on which nothing was open.
    fn bridge(&mut self, sets: u64) {
        self.opened |= sets;
        self.fresh_count = 0;
        for at in Bits(sets) {
            let set = self.rows.sets[at];
            let (from, to) = (set | self.rows.right[at], set | self.rows.left[at]);
            self.work.fresh[self.fresh_count & 63] = Bridge { set, from, to, mark: 1 << at };
            self.fresh_count += 1;
        }
    }

    fn fill_member_of(&mut self) {
        self.member_of = member_of(&self.rows.sets[..self.rows.set_count]);
    }

    /// Sorts the states by the number of sets that they are in.
    fn fill_rare(&mut self) {
        self.fill_member_of();
        self.work.rare = [0; 65];
        for state in 0..64 {
            self.work.rare[self.member_of[state].count_ones() as usize] |= 1 << state;
        }
    }

    /// The state of a mask that is in the fewest sets: openings lead to it late. As a mask.
    #[inline(always)]
    fn rarest(&self, mask: u64) -> u64 {
        if self.rows.set_count <= FEW {
            return mask & mask.wrapping_neg();
        }
        let found = self.work.rare.iter().map(|states| states & mask).find(|&states| states != 0);
        found.map_or(0, |states| states & states.wrapping_neg())
    }

    #[inline(always)]
    fn has_pieces(&self, at: usize) -> bool {
        let set = self.rows.sets[at];
        self.rows.left[at] & set != 0 && self.rows.right[at] & set != 0
    }

    /// Round 1: by letters only. Whether the set mixes or, without pieces, loops.
    #[inline(always)]
    fn begin(&mut self, at: usize) -> bool {
        let set = self.rows.sets[at];
        if set & (set - 1) == 0 {
            return self.rows.succ[set.trailing_zeros() as usize & 63] & set != 0;
        }
        self.live |= 1 << at;
        let Some((state, backward)) = self.blocked(at) else { return self.start(at) };
        self.backward |= (backward as u64) << at;
        self.waiting |= (self.has_pieces(at) as u64) << at;
        self.work.root[at] = state;
        self.work.reached[at] = state;
        self.work.used[at] = 0;
        false
    }

    /// A state of the set, as a mask, that needs a step inside the set to it (then true) or from it and has no letter
    /// for it: nothing else need be looked at before that state is met. Not every such state is sought.
    #[inline(always)]
    fn blocked(&self, at: usize) -> Option<(u64, bool)> {
        let rows = self.rows;
        let set = rows.sets[at];
        let pieces = if self.has_pieces(at) { !0 } else { 0 };
        let to = set & !(rows.left[at] & pieces);
        let from = set & !(rows.right[at] & pieces);
        let (unmet, stuck) = (to & !rows.targets, from & !rows.sources);
        if unmet != 0 {
            return Some((self.rarest(unmet), true));
        }
        if stuck != 0 {
            return Some((self.rarest(stuck), false));
        }
        let state = self.rarest(set);
        let number = state.trailing_zeros() as usize & 63;
        if to & state != 0 && rows.pred[number] & set == 0 {
            return Some((state, true));
        }
        (from & state != 0 && rows.succ[number] & set == 0).then_some((state, false))
    }

    /// The first direction from its start, with all that is open.
    fn start(&mut self, at: usize) -> bool {
        let set = self.rows.sets[at];
        let start = match self.has_pieces(at) {
            true => self.rows.left[at] & set,
            false => set & set.wrapping_neg(),
        };
        self.backward &= !(1 << at);
        self.work.root[at] = start;
        let mut reach = Reach { inside: set, reached: start, used: 0 };
        self.grow(&self.forward(), &mut reach, start);
        self.judge(at, reach)
    }

    /// A later round: what was opened in the round before may lead on.
    #[inline(always)]
    fn resume(&mut self, at: usize) -> bool {
        let before = self.work.reached[at];
        let mut reach = Reach { inside: self.rows.sets[at], reached: before, used: self.work.used[at] };
        self.go_on(self.backward >> at & 1 == 1, &mut reach);
        if self.waiting >> at & 1 == 1 {
            if reach.reached == before {
                return false;
            }
            self.waiting &= !(1 << at);
            return self.start(at);
        }
        self.judge(at, reach)
    }

    /// Goes over to the other direction when all is reached in the first; whether both are done.
    #[inline(always)]
    fn judge(&mut self, at: usize, mut reach: Reach) -> bool {
        let set = reach.inside;
        if reach.reached == set && self.half >> at & 1 == 0 {
            self.half |= 1 << at;
            self.backward ^= 1 << at;
            let start = match self.has_pieces(at) {
                true => self.rows.right[at] & set,
                false => self.work.root[at],
            };
            reach = Reach { inside: set, reached: start, used: 0 };
            self.grow(&self.view(self.backward >> at & 1 == 1), &mut reach, start);
        }
        self.work.reached[at] = reach.reached;
        self.work.used[at] = reach.used;
        reach.reached == set && (!self.has_pieces(at) || self.has_step(at))
    }

    /// Adds what the claims of the round before lead to, and all that follows.
    #[inline(always)]
    fn go_on(&self, backward: bool, reach: &mut Reach) {
        let mut add = 0;
        for bridge in &self.work.fresh[..self.fresh_count] {
            let (from, to) = if backward { (bridge.to, bridge.from) } else { (bridge.from, bridge.to) };
            if bridge.set & !reach.inside == 0 && from & reach.reached != 0 {
                add |= to;
                reach.used |= bridge.mark;
            }
        }
        add &= reach.inside & !reach.reached;
        if add != 0 {
            reach.reached |= add;
            self.grow(&self.view(backward), reach, add);
        }
    }

    /// Adds what follows from the states `fresh`.
    fn grow(&self, view: &View, reach: &mut Reach, mut fresh: u64) {
        let sets = &self.rows.sets;
        while fresh != 0 && reach.reached != reach.inside {
            let state = fresh.trailing_zeros() as usize & 63;
            fresh &= fresh - 1;
            let mut add = view.next[state];
            let opened = self.opened & (self.member_of[state] | view.enter_of[state]) & !reach.used;
            reach.used |= opened;
            for at in Bits(opened) {
                if sets[at] & !reach.inside == 0 {
                    add |= sets[at] | view.leave[at];
                }
            }
            add &= reach.inside & !reach.reached;
            reach.reached |= add;
            fresh |= add;
        }
    }

    /// Whether a set of which every state lies on a piece has one with a step. A state that is no gap (entrance and exit)
    /// lies on one; among gaps alone every step is one, and claims give steps only where there is a letter.
    fn has_step(&self, at: usize) -> bool {
        let rows = self.rows;
        let set = rows.sets[at];
        set & !(rows.left[at] & rows.right[at]) != 0 || Bits(set).any(|state| rows.succ[state] & set != 0)
    }

    /// Whether a set that mixes loops with the same claims.
    fn connected(&self, at: usize) -> bool {
        let set = self.rows.sets[at];
        let entrances = self.rows.left[at] & set;
        let root = entrances & entrances.wrapping_neg();
        let reaches = |view: View| {
            let mut reach = Reach { inside: set, reached: root, used: 0 };
            self.grow(&view, &mut reach, root);
            reach.reached == set
        };
        (entrances == root || reaches(self.forward())) && reaches(self.turned())
    }
}

/// For each state the indices of the sets that it is in.
pub fn member_of(sets: &[u64]) -> [u64; 64] {
    let mut member_of = [0; 64];
    if sets.len() > FEW {
        member_of[..sets.len()].copy_from_slice(sets);
        transpose(&mut member_of);
        return member_of;
    }
    for (at, &set) in sets.iter().enumerate() {
        Bits(set).for_each(|state| member_of[state] |= 1 << at);
    }
    member_of
}

/// The mask of the first `count` places.
fn low_ones(count: usize) -> u64 {
    match count {
        0 => 0,
        _ => !0 >> (64 - count),
    }
}

/// Exchanges rows and columns of a matrix of 64 by 64 bits.
fn transpose(matrix: &mut [u64; 64]) {
    let mut width = 32;
    let mut low = 0x0000_0000_ffff_ffffu64;
    while width != 0 {
        let mut row = 0;
        while row < 64 {
            let other = matrix[row | width];
            let moved = (matrix[row] >> width ^ other) & low;
            matrix[row | width] ^= moved;
            matrix[row] ^= moved << width;
            row = ((row | width) + 1) & !width;
        }
        width /= 2;
        low ^= low << width;
    }
}
