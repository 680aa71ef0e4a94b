//! The sheet's bytes.

use super::search::{Search, Verdict};
use super::walk::{by_source, layers, step, Step};
use super::ROOM;

/// Writes the sheet; its length. Bytes beyond it are written too, so `out` is no buffer of a caller.
pub fn sheet(search: &Search, verdict: Verdict, out: &mut [u8; ROOM]) -> usize {
    let mut text = Text { out, at: 0 };
    match verdict.nonempty {
        true => text.put(b"verdict nonempty rounds "),
        false => text.put(b"verdict empty rounds "),
    }
    text.number(verdict.rounds);
    text.put(b"\n");
    for opening in &search.work.openings[..search.opening_count] {
        text.put(b"open ");
        text.number(opening.round);
        match opening.mix {
            false => text.put(b" loop "),
            true => text.put(b" mix "),
        }
        text.set(search.rows.sets[opening.set as usize & 63]);
        text.put(b"\n");
    }
    if verdict.nonempty {
        walk(search, &mut text);
    }
    text.at
}

fn walk(search: &Search, text: &mut Text) {
    let layers = layers(search);
    let mut state = layers.start;
    text.put(b"start ");
    text.number(state);
    text.put(b"\n");
    if layers.last == 0 {
        return;
    }
    let lists = by_source(search);
    for left in (0..layers.last).rev() {
        let (step, to) = step(search, &lists, &layers, state, left);
        text.step(step);
        state = to;
    }
}

struct Text<'a> {
    out: &'a mut [u8; ROOM],
    at: usize,
}

/// The decimal digits of each byte, filled to a word, and in the last place how many they are.
pub const DECIMAL: [[u8; 4]; 256] = decimal();

const fn decimal() -> [[u8; 4]; 256] {
    let mut table = [[0; 4]; 256];
    let mut n = 0;
    while n < 256 {
        let (a, b, c) = (b'0' + (n / 100) as u8, b'0' + (n / 10 % 10) as u8, b'0' + (n % 10) as u8);
        table[n] = match n {
            0..=9 => [c, 0, 0, 1],
            10..=99 => [b, c, 0, 2],
            _ => [a, b, c, 3],
        };
        n += 1;
    }
    table
}

impl Text<'_> {
    #[inline(always)]
    fn put<const N: usize>(&mut self, bytes: &[u8; N]) {
        self.out[self.at..self.at + N].copy_from_slice(bytes);
        self.at += N;
    }

    #[inline(always)]
    fn number(&mut self, n: u8) {
        let word = &DECIMAL[n as usize];
        self.put(word);
        self.at -= 4 - word[3] as usize;
    }

    /// 16 hex digits: each half of the set is spread to a nibble in a byte, and 10 to 15 are lifted to letters.
    #[inline(always)]
    fn set(&mut self, set: u64) {
        for half in [(set >> 32) as u32, set as u32] {
            let mut x = half as u64;
            x = (x | x << 16) & 0x0000_ffff_0000_ffff;
            x = (x | x << 8) & 0x00ff_00ff_00ff_00ff;
            x = (x | x << 4) & 0x0f0f_0f0f_0f0f_0f0f;
            let letters = (x + 0x0606_0606_0606_0606) >> 4 & 0x0101_0101_0101_0101;
            let digits = x + 0x3030_3030_3030_3030 + letters * 0x27;
            self.put(&digits.to_be_bytes());
        }
    }

    #[inline(always)]
    fn step(&mut self, step: Step) {
        let to = match step {
            Step::Letter(letter, to) => {
                self.put(b"step letter ");
                self.number(letter);
                to
            }
            Step::Omega(set, to) => {
                self.put(b"step omega ");
                self.set(set);
                to
            }
            Step::Back(set, to) => {
                self.put(b"step back ");
                self.set(set);
                to
            }
            Step::Mix(set, to) => {
                self.put(b"step mix ");
                self.set(set);
                to
            }
        };
        self.put(b" to ");
        self.number(to);
        self.put(b"\n");
    }
}
