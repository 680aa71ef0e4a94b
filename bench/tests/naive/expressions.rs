//! Request C-12 word for word: the walks that justify a claim are sought step by step on lists, each claim is told where it occurs.

use super::{load, settle, steps, Claims, Row, Row::*, Step};
use std::collections::{BTreeMap, BTreeSet};

/// Longer texts are not told to their end.
pub const MOST: usize = 100_000;

/// What the expressions of a test had in them.
#[derive(Default, Debug)]
pub struct Seen {
    pub told: usize,
    pub too_long: usize,
    pub omega: usize,
    pub back: usize,
    pub mix: usize,
    pub no_steps: usize,
    /// Loops with a step by the mix of the same set.
    pub own_mix: usize,
    /// By the depth of brackets, the last for more.
    pub deep: [usize; 8],
}

struct Teller<'a> {
    rows: &'a BTreeSet<Row>,
    open: &'a Claims,
    /// The walks found for a claim, by the state that each is there for.
    found: BTreeMap<(u64, bool), BTreeMap<u8, Vec<Step>>>,
    own_mix: bool,
}

/// Of the walks of one or more steps from a start to an end that have the state given, if one is, at an end of a step:
/// the fewest steps, the lowest start, then step for step the first by kind, letter or set, and target.
fn foremost(steps: &[Step], starts: &[u8], ends: &[u8], through: Option<u8>) -> Option<Vec<Step>> {
    let met = |before: bool, state: u8| before || through.is_none_or(|wanted| wanted == state);
    // For each number of steps: from which states, with the one wanted met or not, so many lead to an end with it met.
    let mut layers = vec![[[false; 2]; 64]];
    ends.iter().for_each(|&end| layers[0][end as usize][1] = true);
    for count in 1..=128 {
        let leads = |layer: &[[bool; 2]; 64], before: bool, to: u8| layer[to as usize][met(before, to) as usize];
        let mut layer = [[false; 2]; 64];
        for &(from, (_, _, to), _) in steps {
            for before in [false, true] {
                layer[from as usize][before as usize] |= leads(&layers[count - 1], before, to);
            }
        }
        let starting = |start: &&u8| layer[**start as usize][met(false, **start) as usize];
        if let Some(&start) = starts.iter().filter(starting).min() {
            let (mut state, mut before) = (start, met(false, start));
            let mut walk = vec![];
            for layer in layers.iter().rev() {
                let leading = |step: &&Step| step.0 == state && leads(layer, before, step.1 .2);
                let step = *steps.iter().filter(leading).min_by_key(|step| step.1).unwrap();
                walk.push(step);
                state = step.1 .2;
                before = met(before, state);
            }
            return Some(walk);
        }
        layers.push(layer);
    }
    None
}

fn members(set: u64) -> Vec<u8> {
    (0..64).filter(|state| set >> state & 1 == 1).collect()
}

/// The state after this one in rising order, the lowest after the highest.
fn next(set: u64, state: u8) -> u8 {
    let all = members(set);
    all.iter().copied().find(|&other| other > state).unwrap_or(all[0])
}

impl Teller<'_> {
    /// The walk of a claim for a state of its set: to the next state, or a piece through the state, empty if none has it.
    fn walk_for(&mut self, claim: (u64, bool), state: u8) -> Vec<Step> {
        if let Some(walk) = self.found.get(&claim).and_then(|walks| walks.get(&state)) {
            return walk.clone();
        }
        let (set, mix) = claim;
        let earlier = self.open.iter().filter(|(_, &round)| round < self.open[&claim]);
        let earlier: Claims = earlier.map(|(&claim, &round)| (claim, round)).collect();
        let inside: Vec<Step> = steps(self.rows, &earlier).into_iter().filter(|step| step.2 & !set == 0).collect();
        let walk = if mix {
            let entrances: Vec<u8> = members(set).into_iter().filter(|&e| self.rows.contains(&Left(set, e))).collect();
            let exits: Vec<u8> = members(set).into_iter().filter(|&f| self.rows.contains(&Right(f, set))).collect();
            let gap = entrances.contains(&state) && exits.contains(&state);
            let piece = foremost(&inside, &entrances, &exits, Some(state));
            assert!(piece.is_some() || gap, "a state on no piece");
            piece.unwrap_or_default()
        } else {
            foremost(&inside, &[state], &[next(set, state)], None).expect("a set that loops")
        };
        self.own_mix |= !mix && walk.iter().any(|step| step.1 .0 == 3 && step.1 .1 == set);
        self.found.entry(claim).or_default().insert(state, walk.clone());
        walk
    }

    fn walk(&mut self, walk: &[Step]) -> Option<String> {
        let mut parts = vec![];
        for &(from, (kind, label, to), _) in walk {
            parts.push(match kind {
                0 => label.to_string(),
                1 => format!("({})w", self.tour(label, from)?),
                2 => format!("({})v", self.tour(label, to)?),
                _ => format!("sh({})", self.pieces(label)?),
            });
            short(&parts)?;
        }
        Some(if walk.is_empty() { "e".to_string() } else { parts.join(".") })
    }

    /// From q through the states in rising order, from the highest to the lowest, and back to q.
    fn tour(&mut self, set: u64, q: u8) -> Option<String> {
        let mut stretches = vec![];
        let mut state = q;
        loop {
            let stretch = self.walk_for((set, false), state);
            stretches.push(self.walk(&stretch)?);
            short(&stretches)?;
            state = next(set, state);
            if state == q {
                return Some(stretches.join("."));
            }
        }
    }

    fn pieces(&mut self, set: u64) -> Option<String> {
        let mut pieces = vec![];
        for state in members(set) {
            let piece = self.walk_for((set, true), state);
            pieces.push(self.walk(&piece)?);
            short(&pieces)?;
        }
        Some(pieces.join(","))
    }
}

fn short(texts: &[String]) -> Option<()> {
    (texts.iter().map(String::len).sum::<usize>() <= MOST).then_some(())
}

/// The expression, nothing where it is longer than MOST, or the refusal.
pub fn expression(batch: &[u8], seen: &mut Seen) -> Result<Option<String>, (u8, usize)> {
    let rows = load(batch)?;
    let settled = settle(&rows, true);
    let walk = settled.walk.ok_or((17, 0))?.1;
    let mut teller = Teller { rows: &rows, open: &settled.open, found: BTreeMap::new(), own_mix: false };
    let text = teller.walk(&walk).filter(|text| text.len() <= MOST);
    match &text {
        None => seen.too_long += 1,
        Some(text) => {
            seen.told += 1;
            seen.omega += text.contains(")w") as usize;
            seen.back += text.contains(")v") as usize;
            seen.mix += text.contains("sh(") as usize;
            seen.no_steps += (text.len() > 1 && text.contains('e')) as usize;
            seen.own_mix += teller.own_mix as usize;
            let depth = |(now, most): (usize, usize), byte| match byte {
                b'(' => (now + 1, most.max(now + 1)),
                b')' => (now - 1, most),
                _ => (now, most),
            };
            seen.deep[text.bytes().fold((0, 0), depth).1.min(7)] += 1;
        }
    }
    Ok(text)
}
