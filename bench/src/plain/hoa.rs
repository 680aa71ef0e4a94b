//! The rows of the Büchi automaton in an HOA file (request C-21): lines by patterns, edges into masks, the batch written once
//! its length is known.

use super::{Bits, Refusal};

/// The lines between the start and the first state.
const FIXED: [&[u8]; 4] = [b"AP: 0\n", b"acc-name: Buchi\n", b"Acceptance: 1 Inf(0)\n", b"--BODY--\n"];

struct Automaton {
    states: u8,
    start: u8,
    marked: u64,
    /// For each state those that its edges lead to.
    to: [u64; 6],
}

/// Writes the rows as a batch into `out`; its length, or a refusal that leaves `out` as it was.
pub fn convert(file: &[u8], out: &mut [u8]) -> Result<usize, Refusal> {
    let mut rest = file;
    match read(&mut rest) {
        Ok(automaton) => automaton.write(out).ok_or((12, 0)),
        Err(number) => Err((number, file.len() - rest.len())),
    }
}

/// Takes the file line by line; a refusal leaves the line it is for, and what is behind, in `rest`.
fn read(rest: &mut &[u8]) -> Result<Automaton, u8> {
    fixed(rest, b"HOA: v1\n")?;
    let states = numbered(rest, b"States: ", |n| (1..=6).contains(&n))?;
    let start = numbered(rest, b"Start: ", |n| n < states)?;
    FIXED.iter().try_for_each(|line| fixed(rest, line))?;
    let mut automaton = Automaton { states, start, marked: 0, to: [0; 6] };
    for state in 0..states {
        automaton.marked |= (state_line(rest, state)? as u64) << state;
        while rest.starts_with(b"[t] ") {
            automaton.to[state as usize] |= 1 << numbered(rest, b"[t] ", |n| n < states)?;
        }
    }
    fixed(rest, b"--END--\n")?;
    rest.is_empty().then_some(automaton).ok_or(20)
}

#[inline(always)]
fn fixed(rest: &mut &[u8], line: &[u8]) -> Result<(), u8> {
    *rest = rest.strip_prefix(line).ok_or(20)?;
    Ok(())
}

/// Takes a line of the word and a number that fits.
#[inline(always)]
fn numbered(rest: &mut &[u8], word: &[u8], fits: impl Fn(u8) -> bool) -> Result<u8, u8> {
    let (n, tail) = rest.strip_prefix(word).and_then(number).ok_or(20)?;
    let tail = tail.strip_prefix(b"\n").ok_or(20)?;
    if !fits(n) {
        return Err(21);
    }
    *rest = tail;
    Ok(n)
}

/// Takes the line of this state; whether it is marked.
#[inline(always)]
fn state_line(rest: &mut &[u8], state: u8) -> Result<bool, u8> {
    let (n, tail) = rest.strip_prefix(b"State: ").and_then(number).ok_or(20)?;
    if n != state {
        return Err(20);
    }
    let (marked, tail) = match tail.strip_prefix(b" {0}") {
        Some(tail) => (true, tail),
        None => (false, tail),
    };
    *rest = tail.strip_prefix(b"\n").ok_or(20)?;
    Ok(marked)
}

/// The number that the text begins with, ten for all that are higher, and what is behind it.
#[inline(always)]
fn number(text: &[u8]) -> Option<(u8, &[u8])> {
    match text {
        [digit @ b'0'..=b'9', tail @ ..] if !tail.first().is_some_and(u8::is_ascii_digit) => Some((digit - b'0', tail)),
        [b'1'..=b'9', tail @ ..] => {
            let more = tail.iter().take_while(|byte| byte.is_ascii_digit()).count();
            Some((10, &tail[more..]))
        }
        _ => None,
    }
}

impl Automaton {
    /// Writes the rows in their order, if all have room; their bytes.
    fn write(&self, out: &mut [u8]) -> Option<usize> {
        let edges: u32 = self.to.iter().map(|to| to.count_ones()).sum();
        let sets = (1u64 << self.states) - (1u64 << (self.states as u32 - self.marked.count_ones()));
        let length = 4 + 4 * edges as usize + 10 * sets as usize;
        let (head, mut rest) = out.get_mut(..length)?.split_at_mut(4);
        head.copy_from_slice(&[1, self.start, 2, 6]);
        for (from, &to) in self.to.iter().enumerate() {
            for to in Bits(to) {
                put(&mut rest, [3, from as u8, 0, to as u8]);
            }
        }
        for set in (1..1 << self.states).filter(|set| set & self.marked as u8 != 0) {
            put(&mut rest, [4, 0, 0, 0, 0, 0, 0, 0, set, 6]);
        }
        Some(length)
    }
}

#[inline(always)]
fn put<const N: usize>(rest: &mut &mut [u8], row: [u8; N]) {
    let (place, tail) = std::mem::take(rest).split_first_chunk_mut().expect("room was measured");
    *place = row;
    *rest = tail;
}
