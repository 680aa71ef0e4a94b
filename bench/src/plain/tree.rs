//! The first of the shortest walks: states are taken in the order of the walks to them, and their steps in order.

use super::steps::{step, target, Step, Steps, Within, BACK, MIX, OMEGA};
use super::Bits;
use std::ops::ControlFlow;

/// For each state that a walk of one or more steps from a source reaches, the last step of the first such walk, and
/// where this step begins.
pub struct Tree {
    sources: u64,
    pub reached: u64,
    from: [u8; 64],
    by: [Step; 64],
    /// The states whose steps are followed, in this order.
    queue: [u8; 64],
    queued: usize,
}

impl Tree {
    pub const EMPTY: Tree = Tree { sources: 0, reached: 0, from: [0; 64], by: [0; 64], queue: [0; 64], queued: 0 };

    /// Breaks with the first state of the goal that is reached.
    pub fn grow(&mut self, steps: &Steps, within: &Within, sources: u64, goal: u64) -> ControlFlow<usize> {
        let Within { inside, mut loops, mut mixes } = *within;
        let mut backs = loops;
        self.sources = sources;
        self.reached = 0;
        self.queued = 0;
        Bits(sources).for_each(|state| self.push(state));
        let mut next = 0;
        while next < self.queued {
            let from = self.queue[next & 63] as usize & 63;
            next += 1;
            self.follow_letters(steps, from, inside, goal)?;
            // What a set leads to is reached when it was followed once.
            let (omega, back, mix) =
                (loops & steps.member_of[from], backs & steps.right_of[from], mixes & steps.right_of[from]);
            (loops, backs, mixes) = (loops & !omega, backs & !back, mixes & !mix);
            for at in Bits(omega) {
                self.add(from, step(OMEGA, at, 0), steps.left[at] & inside, goal)?;
            }
            for at in Bits(back) {
                self.add(from, step(BACK, at, 0), steps.sets[at], goal)?;
            }
            for at in Bits(mix) {
                self.add(from, step(MIX, at, 0), steps.left[at] & inside, goal)?;
            }
        }
        ControlFlow::Continue(())
    }

    #[inline(always)]
    fn follow_letters(&mut self, steps: &Steps, from: usize, inside: u64, goal: u64) -> ControlFlow<usize> {
        let mut new = steps.succ[from] & inside & !self.reached;
        if new & goal != 0 {
            new &= goal;
        }
        if new != 0 {
            for &step in steps.letters(from) {
                self.add(from, step & !63, new & 1 << target(step), goal)?;
            }
        }
        ControlFlow::Continue(())
    }

    /// Adds the targets that are new, or of these the first in the goal alone.
    #[inline(always)]
    fn add(&mut self, from: usize, step: Step, targets: u64, goal: u64) -> ControlFlow<usize> {
        let new = targets & !self.reached;
        if new & goal != 0 {
            let end = (new & goal).trailing_zeros() as usize & 63;
            self.keep(from, step, end);
            return ControlFlow::Break(end);
        }
        for to in Bits(new) {
            self.keep(from, step, to);
            if self.sources >> to & 1 == 0 {
                self.push(to);
            }
        }
        ControlFlow::Continue(())
    }

    #[inline(always)]
    fn keep(&mut self, from: usize, step: Step, to: usize) {
        self.reached |= 1 << to;
        self.from[to] = from as u8;
        self.by[to] = step | to as Step;
    }

    #[inline(always)]
    fn push(&mut self, state: usize) {
        self.queue[self.queued & 63] = state as u8;
        self.queued += 1;
    }

    /// Puts the walk to a state that is reached behind the steps given; where it starts.
    pub fn walk_to(&self, state: usize, steps: &mut Vec<Step>) -> usize {
        let first = steps.len();
        let mut at = state;
        loop {
            steps.push(self.by[at]);
            at = self.from[at] as usize & 63;
            if self.sources >> at & 1 == 1 {
                break;
            }
        }
        steps[first..].reverse();
        at
    }
}
