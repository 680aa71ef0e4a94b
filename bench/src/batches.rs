//! Batches by seed: random automata, ladders of nested limits, damaged and repeated rows.

/// A small generator of pseudo-random numbers (splitmix64).
pub struct Random(pub u64);

impl Random {
    pub fn next(&mut self) -> u64 {
        self.0 = self.0.wrapping_add(0x9e37_79b9_7f4a_7c15);
        let mut x = self.0;
        x = (x ^ x >> 30).wrapping_mul(0xbf58_476d_1ce4_e5b9);
        x = (x ^ x >> 27).wrapping_mul(0x94d0_49bb_1331_11eb);
        x ^ x >> 31
    }

    pub fn below(&mut self, n: u64) -> u64 {
        self.next() % n
    }

    fn state(&mut self, states: u64) -> u8 {
        self.below(states) as u8
    }

    fn letter(&mut self, letters: u64) -> u8 {
        self.below(letters) as u8
    }

    fn member(&mut self, set: u64) -> u8 {
        let members: Vec<u8> = (0..64).filter(|state| set >> state & 1 == 1).collect();
        members[self.below(members.len() as u64) as usize]
    }

    /// The last set mostly, or another, or two joined.
    fn base(&mut self, sets: &[u64]) -> u64 {
        let mut any = || sets[self.below(sets.len() as u64) as usize];
        let (one, other) = (any(), any());
        match self.below(4) {
            0 => one,
            1 => one | other,
            _ => sets[sets.len() - 1],
        }
    }

    fn shuffle<T>(&mut self, items: &mut [T]) {
        for at in (1..items.len()).rev() {
            items.swap(at, self.below(at as u64 + 1) as usize);
        }
    }
}

pub fn initial(state: u8) -> Vec<u8> {
    vec![1, state]
}

pub fn last(state: u8) -> Vec<u8> {
    vec![2, state]
}

pub fn letter(from: u8, letter: u8, to: u8) -> Vec<u8> {
    vec![3, from, letter, to]
}

/// set → state
pub fn left(set: u64, state: u8) -> Vec<u8> {
    [&[4], &set.to_be_bytes()[..], &[state]].concat()
}

/// state → set
pub fn right(state: u8, set: u64) -> Vec<u8> {
    [&[5, state], &set.to_be_bytes()[..]].concat()
}

pub fn strike(state: u8) -> Vec<u8> {
    vec![6, state]
}

/// An automaton with the given number of states and rows: sets grow from one another, so that limits nest.
pub fn automaton(random: &mut Random, states: u64, rows: usize, letters: u64) -> Vec<Vec<u8>> {
    let mut sets = vec![1 << random.below(states)];
    let mut all = vec![initial(random.state(states)), last(random.state(states))];
    // Many letters join all states at once; few leave more to the limits.
    let many = 1 + random.below(4);
    while all.len() < rows {
        if random.below(3) == 0 && sets.len() < 64 {
            let base = sets[random.below(sets.len() as u64) as usize];
            sets.push(match random.below(6) {
                0 => 1 << random.below(states),
                1 => base | sets[random.below(sets.len() as u64) as usize],
                _ => base | 1 << random.below(states),
            });
        }
        let set = sets[random.below(sets.len() as u64) as usize];
        let state = random.state(states);
        all.push(match random.below(8) {
            0 if random.below(4) == 0 => initial(state),
            1 if random.below(4) == 0 => last(state),
            at if at < many => letter(state, random.below(letters) as u8, random.state(states)),
            at if at % 2 == 0 => left(set, state),
            _ => right(state, set),
        });
    }
    all
}

/// Few letters and sets that grow from one another, with limits and gaps at their own states: much is left to the claims.
pub fn nested(random: &mut Random) -> Vec<Vec<u8>> {
    let states = 2 + random.below(7);
    let base = [0, 0, 63 - states][random.below(3) as usize] as u8;
    let mut all = vec![initial(base + random.state(states))];
    // With ties no letter leads to the final state, and several limits do: the order of walks decides.
    let ties = random.below(3) == 0;
    let goal = base + if ties { states as u8 } else { random.state(states) };
    for _ in 0..random.below(states * if ties { 3 } else { 1 } + 2) + 1 {
        all.push(letter(base + random.state(states), random.below(3) as u8, base + random.state(states)));
    }
    let mut sets = vec![1u64 << random.below(states)];
    for _ in 0..random.below(8) + 1 {
        let one = sets[random.below(sets.len() as u64) as usize];
        let other = sets[random.below(sets.len() as u64) as usize];
        sets.push(if random.below(3) == 0 { one | other } else { one | 1 << random.below(states) });
    }
    for set in sets {
        if ties {
            let first = all[0][1];
            all.push(if random.below(3) != 0 { left(set << base, goal) } else { right(first, set << base) });
        }
        for _ in 0..random.below(4) {
            let members: Vec<u8> = (0..64).filter(|s| set >> s & 1 == 1).collect();
            let state = match random.below(3) {
                0 => random.state(states),
                _ => members[random.below(members.len() as u64) as usize],
            } + base;
            // Both rows make a gap.
            let kinds = 1 + random.below(3);
            if kinds != 1 {
                all.push(left(set << base, state));
            }
            if kinds != 2 {
                all.push(right(state, set << base));
            }
        }
    }
    if ties || random.below(2) == 0 {
        all.push(last(goal));
    }
    all
}

/// Sets that grow from one another, each by claims on the ones before, and a final state that only one of them leads to:
/// tours and pieces nest.
pub fn grown(random: &mut Random) -> Vec<Vec<u8>> {
    let rungs = [1, 2, 2, 3, 3, 4, 4, 5, 6, 8, 12, 30][random.below(12) as usize];
    let letters = [1, 2, 2, 3, 256][random.below(5) as usize];
    let mut names: Vec<u8> = (0..(2 * rungs + 4).max(random.below(65)) as u8).collect();
    random.shuffle(&mut names);
    let mut name = || names.pop().unwrap();
    let (goal, outside, hidden, first) = (name(), name(), name(), name());
    let mut all = vec![last(goal)];
    let mut sets = vec![1u64 << first];
    if random.below(4) != 0 {
        all.push(letter(first, random.letter(letters), first));
    } else {
        // A set that mixes by a step and loops by its mix.
        let other = name();
        sets.push(1 << first | 1 << other);
        all.push(letter(first, random.letter(letters), other));
        all.extend([left(sets[1], first), right(other, sets[1])]);
    }
    for _ in 0..random.below(rungs + 1) {
        let (set, new) = (random.base(&sets), name());
        let (one, other) = (random.member(set), random.member(set));
        let more = set | 1 << new;
        let a = random.letter(letters);
        match random.below(6) {
            0 | 1 => all.extend([left(set, new), letter(new, a, one)]),
            2 => all.extend([right(new, set), letter(one, a, new)]),
            3 => all.extend([left(set, one), right(other, set), right(new, set), letter(one, a, new)]),
            // Pieces to the new state alone, or none but of no steps.
            4 => all.extend([left(more, one), right(new, more), letter(other, a, new)]),
            _ => all.extend([left(more, new), right(new, more), left(more, one), right(other, more)]),
        }
        sets.push(more);
    }
    let set = random.base(&sets);
    let (one, other) = (random.member(set), random.member(set));
    match random.below(4) {
        0 => all.extend([initial(outside), right(outside, set), letter(one, 0, goal)]),
        1 => all.extend([initial(outside), right(outside, set), left(set, goal), left(set, one), right(other, set)]),
        _ => all.extend([initial(one), left(set, goal)]),
    }
    // Other ways, inside the sets.
    for _ in 0..random.below(4) {
        let set = sets[random.below(sets.len() as u64) as usize];
        let (one, other) = (random.member(set), random.member(set));
        all.push(match random.below(4) {
            0 => left(set, one),
            1 => right(one, set),
            _ => letter(one, random.letter(letters), other),
        });
    }
    if random.below(4) == 0 {
        // A short way that is struck out.
        all.extend([letter(one, 0, hidden), letter(hidden, 0, goal), left(set | 1 << hidden, goal), strike(hidden)]);
    }
    all
}

/// A ladder: rung k is the set of the first k states of an order, and rung k leads into rung k + 1. Each rung opens
/// one round after the one below. `states` 64 gives 64 sets and 64 rounds; `noise` letter rows lead down only.
pub fn ladder(random: &mut Random, states: usize, noise: usize, mixes: bool) -> Vec<Vec<u8>> {
    let mut order: Vec<u8> = (0..64).collect();
    random.shuffle(&mut order);
    let mut all = vec![initial(order[0]), letter(order[0], 7, order[0])];
    let mut set = 0;
    for rung in 0..states {
        set |= 1 << order[rung];
        if rung + 1 < states {
            all.push(left(set, order[rung + 1]));
            all.push(letter(order[rung + 1], random.below(256) as u8, order[rung]));
        }
        if mixes && all.len() < 250 {
            all.push(right(order[rung], set));
        }
    }
    all.push(left(set, order[0]));
    for _ in 0..noise {
        let high = random.below(states as u64) as usize;
        let low = random.below(high as u64 + 1) as usize;
        if all.len() < 255 {
            all.push(letter(order[high], random.below(256) as u8, order[low]));
        }
    }
    random.shuffle(&mut all);
    all
}

/// Set k has the states 0 to k, and a limit of it leads to the next state: each tour has twice the text of the one
/// before. With 64 the last set only stands, for there is no state after it.
pub fn nested_sets(count: u8) -> Vec<u8> {
    let goal = count.min(63);
    let mut rows = vec![initial(0), last(goal), letter(0, 1, 0)];
    for k in 0..count {
        rows.push(left(!(!1 << k), (k + 1) & 63));
        if k > 0 {
            rows.push(letter(k, 2, 0));
        }
    }
    rows.concat()
}

/// 62 states in random order, joined by letters: a tour of far neighbours, or a mix with pieces through all.
pub fn far(random: &mut Random, mix: bool) -> Vec<u8> {
    let mut order: Vec<u8> = (0..62).collect();
    random.shuffle(&mut order);
    let (first, end, set) = (order[0], order[61], !0 >> 2);
    let mut rows: Vec<_> = order.windows(2).map(|pair| letter(pair[0], pair[1], pair[1])).collect();
    rows.extend(match mix {
        false => vec![initial(first), letter(end, 255, first)],
        true => vec![initial(62), right(62, set), left(set, first), right(end, set)],
    });
    rows.extend([left(set, 63), last(63)]);
    rows.concat()
}

/// The rows, some more than once, in one batch.
pub fn repeated(random: &mut Random, rows: &[Vec<u8>], bytes: usize) -> Vec<u8> {
    let mut batch = rows.concat();
    while batch.len() < bytes {
        batch.extend_from_slice(&rows[random.below(rows.len() as u64) as usize]);
    }
    batch
}

/// A batch of the mix that the comparison runs on.
pub fn any(random: &mut Random) -> Vec<u8> {
    let states = [1, 2, 3, 4, 6, 10, 64][random.below(7) as usize];
    let letters = [1, 2, 256][random.below(3) as usize];
    let rows = match random.below(8) {
        0 => random.below(5),
        1..=4 => 4 + random.below(20),
        5 | 6 => 20 + random.below(80),
        _ => 60 + random.below(220),
    } as usize;
    let all = match random.below(10) {
        0 => {
            let rungs = 2 + random.below(63) as usize;
            let noise = random.below(100) as usize;
            let mixes = random.below(2) == 0;
            ladder(random, rungs, noise, mixes)
        }
        1..=5 => nested(random),
        _ => automaton(random, states, rows, letters),
    };
    disturbed(random, all)
}

/// A batch of the mix that expressions are compared on: most have one.
pub fn told(random: &mut Random) -> Vec<u8> {
    match random.below(8) {
        0 | 1 => any(random),
        2 => {
            let rows = grown(random);
            disturbed(random, rows)
        }
        _ => {
            let mut rows = grown(random);
            random.shuffle(&mut rows);
            rows.concat()
        }
    }
}

/// Strikes states, shuffles and damages, each some times.
fn disturbed(random: &mut Random, mut all: Vec<Vec<u8>>) -> Vec<u8> {
    if random.below(3) == 0 {
        for _ in 0..1 + random.below(2) {
            // A state that some row names, mostly.
            let row = &all[random.below(all.len() as u64) as usize];
            let state = if row[0] == 4 { row[9] } else { row[1] };
            all.push(strike(if random.below(8) == 0 { random.state(64) } else { state }));
        }
    }
    if random.below(2) == 0 {
        random.shuffle(&mut all);
    }
    match random.below(4) {
        0 => spoil(random, all),
        _ => all.concat(),
    }
}

/// Damages a batch so that each cause of refusal is met often.
fn spoil(random: &mut Random, mut rows: Vec<Vec<u8>>) -> Vec<u8> {
    let at = random.below(rows.len() as u64 + 1) as usize;
    let state = random.below(256) as u8;
    match random.below(10) {
        0 => rows.insert(at, left(random.below(2) * 5, state)),
        1 => rows.insert(at, right(state & 63, random.below(2) << 40)),
        2 => rows.insert(at, letter(random.below(70) as u8, state, random.below(70) as u8)),
        3 => rows.insert(at, vec![[0, 7, 255, state][random.below(4) as usize]]),
        4 => rows.extend((0..70).map(|_| left(random.next() | 1, state & 63))),
        5 => rows.extend((0..300).map(|_| letter(random.state(64), random.below(256) as u8, random.state(64)))),
        6 => rows.insert(at, vec![[1, 2, 6][random.below(3) as usize], 60 + random.below(8) as u8]),
        _ => (),
    }
    let mut batch = rows.concat();
    if batch.is_empty() {
        return batch;
    }
    let place = random.below(batch.len() as u64) as usize;
    match random.below(6) {
        0 => batch.truncate(place),
        1 => batch[place] = state,
        2 => batch[place] ^= 1 << random.below(8),
        3 => (0..20).for_each(|_| batch.push(random.below(256) as u8)),
        4 => batch = (0..place).map(|_| random.below(256) as u8).collect(),
        _ => (),
    }
    batch
}
