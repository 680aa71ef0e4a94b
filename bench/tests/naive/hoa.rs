//! Request C-21 word for word: the file in pieces at byte 10, the form of each line by itself, whether it is its turn, then its numbers; the
//! rows of all edges and all sets in one sorted list.

use super::{Row, Row::*};
use std::collections::BTreeSet;

#[derive(Clone, Copy)]
enum Line {
    /// One of the lines without a number: which of the head's it is.
    Fixed(usize),
    States(usize),
    Start(usize),
    State(usize, bool),
    Edge(usize),
    End,
}

/// What the lines so far say.
#[derive(Default)]
pub struct Told {
    lines: usize,
    states: usize,
    start: usize,
    marked: Vec<bool>,
    edges: Vec<(usize, usize)>,
    ended: bool,
}

/// A number without leading zeros, of any length.
fn number(text: &str) -> Option<usize> {
    let decimal = !text.is_empty() && text.bytes().all(|byte| byte.is_ascii_digit());
    (decimal && (text == "0" || !text.starts_with('0'))).then(|| text.parse().unwrap_or(usize::MAX))
}

fn form(text: &str) -> Option<Line> {
    Some(match text {
        "HOA: v1" => Line::Fixed(0),
        "AP: 0" => Line::Fixed(3),
        "acc-name: Buchi" => Line::Fixed(4),
        "Acceptance: 1 Inf(0)" => Line::Fixed(5),
        "--BODY--" => Line::Fixed(6),
        "--END--" => Line::End,
        _ => {
            let (word, rest) = text.split_once(' ')?;
            match (word, rest.strip_suffix(" {0}")) {
                ("States:", _) => Line::States(number(rest)?),
                ("Start:", _) => Line::Start(number(rest)?),
                ("State:", Some(rest)) => Line::State(number(rest)?, true),
                ("State:", None) => Line::State(number(rest)?, false),
                ("[t]", _) => Line::Edge(number(rest)?),
                _ => return None,
            }
        }
    })
}

impl Told {
    fn in_turn(&self, line: Line) -> bool {
        let body = self.lines > 6 && !self.ended;
        match line {
            Line::Fixed(at) => self.lines == at,
            Line::States(_) => self.lines == 1,
            Line::Start(_) => self.lines == 2,
            Line::State(p, _) => body && p == self.marked.len() && p < self.states,
            Line::Edge(_) => body && !self.marked.is_empty(),
            Line::End => body && self.marked.len() == self.states,
        }
    }

    fn fits(&self, line: Line) -> bool {
        match line {
            Line::States(n) => (1..=6).contains(&n),
            Line::Start(state) | Line::Edge(state) => state < self.states,
            _ => true,
        }
    }

    fn tell(&mut self, line: Line) {
        self.lines += 1;
        match line {
            Line::Fixed(_) => (),
            Line::States(n) => self.states = n,
            Line::Start(state) => self.start = state,
            Line::State(_, marked) => self.marked.push(marked),
            Line::Edge(to) => self.edges.push((self.marked.len() - 1, to)),
            Line::End => self.ended = true,
        }
    }

    pub fn rows(&self) -> BTreeSet<Row> {
        let mut rows = vec![Initial(self.start as u8), Final(6)];
        rows.extend(self.edges.iter().map(|&(p, q)| Letter(p as u8, 0, q as u8)));
        for set in 1u64..1 << self.states {
            if (0..self.states).any(|state| set >> state & 1 == 1 && self.marked[state]) {
                rows.push(Left(set, 6));
            }
        }
        rows.into_iter().collect()
    }

    /// Does a marked state that the start reaches, by no edge or more, lie on a cycle, of one edge or more?
    pub fn marked_cycle(&self) -> bool {
        let leads = |p: usize, q: usize| {
            let mut ends = vec![p];
            // With the ends of walks of one edge, of two, and so on, up to as many as there are states.
            (0..self.states).any(|_| {
                ends = self.edges.iter().filter(|(p, _)| ends.contains(p)).map(|&(_, q)| q).collect();
                ends.contains(&q)
            })
        };
        (0..self.states).any(|q| self.marked[q] && (q == self.start || leads(self.start, q)) && leads(q, q))
    }
}

/// What a file tells, or its refusal.
pub fn read(file: &[u8]) -> Result<Told, (u8, usize)> {
    let mut told = Told::default();
    let mut at = 0;
    for piece in file.split_inclusive(|&byte| byte == 10) {
        let text = piece.strip_suffix(b"\n").and_then(|text| std::str::from_utf8(text).ok());
        let line = text.and_then(form).filter(|&line| told.in_turn(line)).ok_or((20, at))?;
        if !told.fits(line) {
            return Err((21, at));
        }
        told.tell(line);
        at += piece.len();
    }
    if told.ended {
        Ok(told)
    } else {
        Err((20, at))
    }
}

/// The rows one behind the other.
pub fn batch(rows: &BTreeSet<Row>) -> Vec<u8> {
    let mut bytes = vec![];
    for row in rows {
        match *row {
            Initial(s) => bytes.extend([1, s]),
            Final(s) => bytes.extend([2, s]),
            Letter(p, a, q) => bytes.extend([3, p, a, q]),
            Left(set, s) => bytes.extend([&[4], &set.to_be_bytes()[..], &[s]].concat()),
            _ => unreachable!("no file gives such a row"),
        }
    }
    bytes
}
