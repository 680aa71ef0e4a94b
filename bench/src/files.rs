//! HOA files by seed (request C-21): automata of one to six states as text, and the text damaged.

use crate::batches::Random;

/// What a file tells, edges in the order of their lines.
pub struct Automaton {
    pub states: u8,
    pub start: u8,
    pub marked: Vec<bool>,
    pub edges: Vec<Vec<u8>>,
}

pub const FIXED: [&str; 4] = ["AP: 0", "acc-name: Buchi", "Acceptance: 1 Inf(0)", "--BODY--"];

impl Automaton {
    /// With no edge to many from each state, some lines more than once.
    pub fn random(random: &mut Random) -> Automaton {
        let states = 1 + random.below(6) as u8;
        let (most, marks) = (1 + random.below(8), 1 + random.below(5));
        let edges = |_| (0..random.below(most)).map(|_| random.below(states as u64) as u8).collect();
        let edges = (0..states).map(edges).collect();
        let start = random.below(states as u64) as u8;
        Automaton { states, start, marked: (0..states).map(|_| random.below(marks) == 0).collect(), edges }
    }

    /// With six states, those below the number marked, and so many lines of edges from each, all 36 edges among them.
    pub fn full(random: &mut Random, marked: usize, lines: usize) -> Automaton {
        let edges = |_| (0..lines).map(|at| if at < 6 { at as u8 } else { random.below(6) as u8 }).collect();
        Automaton {
            states: 6,
            start: 0,
            marked: (0..6).map(|state| state < marked).collect(),
            edges: (0..6).map(edges).collect(),
        }
    }

    pub fn lines(&self) -> Vec<String> {
        let mut lines =
            vec!["HOA: v1".to_string(), format!("States: {}", self.states), format!("Start: {}", self.start)];
        lines.extend(FIXED.map(String::from));
        for (state, (marked, edges)) in self.marked.iter().zip(&self.edges).enumerate() {
            lines.push(format!("State: {state}{}", if *marked { " {0}" } else { "" }));
            lines.extend(edges.iter().map(|to| format!("[t] {to}")));
        }
        lines.push("--END--".to_string());
        lines
    }

    pub fn text(&self) -> Vec<u8> {
        text(&self.lines())
    }

    /// Does a marked state that the start reaches lie on a cycle?
    pub fn accepts(&self) -> bool {
        let reached = self.reached(self.start, vec![self.start]);
        reached.iter().any(|&state| self.marked[state as usize] && self.reached(state, vec![]).contains(&state))
    }

    /// The states given and all that edges lead to from the state.
    fn reached(&self, from: u8, mut found: Vec<u8>) -> Vec<u8> {
        let mut ahead = vec![from];
        while let Some(state) = ahead.pop() {
            for &to in &self.edges[state as usize] {
                if !found.contains(&to) {
                    found.push(to);
                    ahead.push(to);
                }
            }
        }
        found
    }
}

fn text(lines: &[String]) -> Vec<u8> {
    lines.iter().flat_map(|line| [line.as_bytes(), b"\n"].concat()).collect()
}

fn any<'a>(random: &mut Random, all: &[&'a str]) -> &'a str {
    all[random.below(all.len() as u64) as usize]
}

/// Numbers in the place of one that is right.
const NUMBERS: [&str; 16] =
    ["0", "1", "2", "3", "4", "5", "6", "7", "9", "10", "00", "05", "256", "4294967296", "18446744073709551616", "-1"];

/// Lines in the place of one that is right, or beside it.
const LINES: [&str; 24] = [
    "",
    "HOA: v1",
    "HOA: v2",
    "HOA:v1",
    "States: 2",
    "Start: 1",
    "AP: 0",
    "AP: 1 \"a\"",
    "acc-name: Buchi",
    "acc-name: co-Buchi",
    "Acceptance: 1 Inf(0)",
    "Acceptance: 1 Fin(0)",
    "--BODY--",
    "State: 0",
    "State: 1 {0}",
    "State: 5",
    "[t] 0",
    "[t] 5",
    "[f] 0",
    "[t] 9",
    "--END--",
    "--ABORT--",
    "name: \"x\"",
    "properties: state-acc",
];

/// Ends of lines and of files.
const ENDS: [&str; 8] = [" ", "\r", " {0}", " {1}", "{0}", "\t", "  ", "0"];

/// Damages the lines of a file, then its bytes, once or more.
pub fn spoilt(random: &mut Random, automaton: &Automaton) -> Vec<u8> {
    let mut lines = automaton.lines();
    if random.below(3) != 0 {
        for _ in 0..1 + random.below(2) {
            spoil_line(random, &mut lines);
        }
        if random.below(3) != 0 {
            return text(&lines);
        }
    }
    let mut file = text(&lines);
    spoil_bytes(random, &mut file);
    file
}

fn spoil_line(random: &mut Random, lines: &mut Vec<String>) {
    if lines.is_empty() {
        return;
    }
    let (at, other) = (random.below(lines.len() as u64) as usize, random.below(lines.len() as u64) as usize);
    match random.below(9) {
        0 => drop(lines.remove(at)),
        1 => lines.insert(at, lines[at].clone()),
        2 => lines.swap(at, other),
        3 => lines[at] = any(random, &LINES).to_string(),
        4 => lines.insert(at, any(random, &LINES).to_string()),
        5 => lines[at] += any(random, &ENDS),
        6 => lines.truncate(at),
        _ => {
            // A number of some line, of the head often.
            let at = if random.below(2) == 0 { (1 + other % 2).min(lines.len() - 1) } else { at };
            let (word, tail) = lines[at].split_once(' ').unwrap_or((&lines[at], ""));
            let tail = tail.trim_start_matches(|c: char| c.is_ascii_digit());
            lines[at] = format!("{word} {}{tail}", any(random, &NUMBERS));
        }
    }
}

fn spoil_bytes(random: &mut Random, file: &mut Vec<u8>) {
    let at = random.below(file.len() as u64 + 1) as usize;
    let byte = [b'\n', b' ', b'0', b'1', b'6', 0, random.below(256) as u8][random.below(7) as usize];
    match random.below(9) {
        0 => file.truncate(at),
        1 => file.insert(at, byte),
        2 => drop(file.pop()),
        3 => file.push(byte),
        4 => file.extend(any(random, &LINES).bytes()),
        5 if at < file.len() => drop(file.remove(at)),
        6 if at < file.len() => file[at] ^= 1 << random.below(8),
        7 => *file = (0..at).map(|_| random.below(256) as u8).collect(),
        _ if at < file.len() => file[at] = byte,
        _ => file.clear(),
    }
}
