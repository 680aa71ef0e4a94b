//! The time of each family for the engine, for plain Rust and for the engine's verdict alone, the time of its expressions, and that of HOA files,
//! taken in turns; the best of many repetitions counts.

use crate::batches::{
    automaton, far, grown, initial, ladder, last, left, letter, nested_sets, repeated, right, Random,
};
use crate::engine::{self, Call};
use crate::files::Automaton;
use crate::{cases, compare};
use std::hint::black_box;
use std::time::{Duration, Instant};

/// Batches that are timed together.
struct Family {
    name: String,
    batches: Vec<Vec<u8>>,
}

/// Seconds for one pass over the batches, `passes` of them taken at once.
fn pass(call: Call, batches: &[Vec<u8>], buffer: &mut [u8], passes: usize) -> f64 {
    let mut place = 0;
    let from = Instant::now();
    for _ in 0..passes {
        for batch in batches {
            black_box(call(black_box(batch), black_box(&mut *buffer), &mut place));
        }
    }
    from.elapsed().as_secs_f64() / passes as f64
}

/// The best times of plain Rust and of calls of the engine for one of the batches, in nanoseconds.
fn times<const N: usize>(plain: Call, engine: [Call; N], batches: &[Vec<u8>], room: usize) -> (f64, [f64; N]) {
    let mut buffer = vec![0; room];
    // As many passes as take some 50 microseconds: the clock does not count, and other work seldom falls in between.
    let once = pass(plain, batches, &mut buffer, 1).max(1e-8);
    let passes = ((5e-5 / once) as usize).clamp(1, 1000);
    let mut best = (f64::MAX, [f64::MAX; N]);
    let from = Instant::now();
    let mut turns = 0;
    while turns < 30 || (turns < 5000 && from.elapsed() < Duration::from_millis(600)) {
        best.0 = best.0.min(pass(plain, batches, &mut buffer, passes));
        if engine::THERE {
            for (best, call) in best.1.iter_mut().zip(engine) {
                *best = best.min(pass(call, batches, &mut buffer, passes));
            }
        }
        turns += 1;
    }
    let each = 1e9 / batches.len() as f64;
    (best.0 * each, best.1.map(|time| time * each))
}

/// The rounds of a batch, by its sheet; none if it is refused.
pub fn rounds(batch: &[u8]) -> Option<u32> {
    let mut text = [0; plain::LONGEST_SHEET];
    let length = plain::plain_sheet(batch, &mut text).ok()?;
    let line = std::str::from_utf8(&text[..length]).ok()?.lines().next()?;
    line.rsplit(' ').next()?.parse().ok()
}

/// The least and the most of some numbers.
fn span(all: Vec<u64>) -> Option<String> {
    match (all.iter().min()?, all.iter().max()?) {
        (least, most) if least < most => Some(format!("{least} to {most}")),
        (least, _) => Some(least.to_string()),
    }
}

/// The lengths of what a call writes for a family, or how all are refused.
fn lengths(call: Call, batches: &[Vec<u8>], room: usize) -> String {
    let mut text = vec![0; room];
    let values: Vec<u64> = batches.iter().map(|batch| call(batch, &mut text, &mut 0)).collect();
    let lengths = span(values.iter().copied().filter(|value| value >> 32 == 0).collect());
    lengths.unwrap_or_else(|| format!("refused {}", span(values.iter().map(|value| value >> 32).collect()).unwrap()))
}

/// Random automata that take two rounds or more.
pub fn worked(random: &mut Random, count: usize, states: u64, rows: usize) -> Vec<Vec<u8>> {
    let mut family = vec![];
    while family.len() < count {
        let batch = automaton(random, states, rows, 4).concat();
        if rounds(&batch).is_some_and(|rounds| rounds >= 2) {
            family.push(batch);
        }
    }
    family
}

fn bytes(batches: &[Vec<u8>]) -> usize {
    batches.iter().map(Vec::len).sum::<usize>() / batches.len()
}

fn line(name: &str, batches: &[Vec<u8>]) {
    let (plain, [engine, verdict]) =
        times(engine::plain, [engine::sheet, engine::verdict], batches, plain::LONGEST_SHEET);
    let rounds = batches.iter().filter_map(|batch| rounds(batch)).map(u64::from).collect();
    let rounds = span(rounds).unwrap_or("refused".to_string());
    print!("{name:<34} {:>7} {rounds:>9}", bytes(batches));
    match engine::THERE {
        true => {
            println!(" {engine:>12.0} {plain:>12.0} {:>8.2} {verdict:>12.0} {:>8.2}", engine / plain, verdict / engine)
        }
        false => println!(" {:>12} {plain:>12.0} {:>8} {:>12} {:>8}", "-", "-", "-", "-"),
    }
}

fn head(title: &str) {
    println!(
        "\n{title:<34} {:>7} {:>9} {:>12} {:>12} {:>8} {:>12} {:>8}",
        "bytes", "rounds", "engine ns", "plain ns", "ratio", "verdict ns", "of sheet"
    );
}

fn text_head(title: &str, written: &str) {
    println!("\n{title:<34} {:>7} {written:>16} {:>12} {:>12} {:>8}", "bytes", "engine ns", "plain ns", "ratio");
}

fn expression_line(name: &str, batches: &[Vec<u8>], room: usize) {
    batches.iter().for_each(|batch| compare::expression(batch));
    text_line(name, plain::expression, engine::expression, batches, room);
}

fn file_line(name: &str, files: &[Vec<u8>]) {
    files.iter().for_each(|file| compare::file(file));
    text_line(name, plain::hoa, engine::hoa, files, plain::LONGEST_HOA_BATCH);
}

/// A line for calls that write one text.
fn text_line(name: &str, plain: Call, engine: Call, batches: &[Vec<u8>], room: usize) {
    print!("{name:<34} {:>7} {:>16}", bytes(batches), lengths(plain, batches, room));
    let (plain, [engine]) = times(plain, [engine], batches, room);
    match engine::THERE {
        true => println!(" {engine:>12.0} {plain:>12.0} {:>8.2}", engine / plain),
        false => println!(" {:>12} {plain:>12.0} {:>8}", "-", "-"),
    }
}

/// The families of the benchmark, their sheets and then their expressions.
pub fn families() {
    let random = &mut Random(64);
    let mut all = small();
    all.extend(large(random));
    all.extend(long(random));
    head("family (time of one batch)");
    all.iter().for_each(|Family { name, batches }| line(name, batches));
    text_head("expressions", "bytes of text");
    all.iter().for_each(|Family { name, batches }| expression_line(name, batches, plain::LONGEST_SHEET));
    let told = |batch: &Vec<u8>| plain::expression(batch, &mut [0; plain::LONGEST_SHEET], &mut 0) >> 32 == 0;
    let grown: Vec<_> = (0..).map(|_| grown(random).concat()).filter(told).take(64).collect();
    expression_line("random, grown sets", &grown, plain::LONGEST_SHEET);
    expression_line("a tour of far neighbours", &[far(random, false)], compare::LONG);
    expression_line("a mix of long pieces", &[far(random, true)], compare::LONG);
    expression_line("12 nested sets", &[nested_sets(12)], compare::LONG);
    expression_line("64 nested sets, 6,400 bytes", &[nested_sets(64)], plain::LONGEST_SHEET);
    expression_line("64 nested sets, 1 MB", &[nested_sets(64)], compare::LONG);
}

fn family(name: &str, batches: Vec<Vec<u8>>) -> Family {
    Family { name: name.to_string(), batches }
}

/// The vectors that are timed alone.
pub const SINGLE: [&str; 4] = ["rounds66_empty", "rounds64_nonempty", "sheet_K1", "walk63_letters"];

/// The cases and the vectors.
fn small() -> Vec<Family> {
    let mut all = vec![family("small: cases A to K", cases::cases().into_iter().map(|case| case.1.concat()).collect())];
    let vectors = cases::vectors();
    for vector in &vectors {
        if SINGLE.contains(&vector.name.as_str()) {
            all.push(family(&vector.name, vec![vector.batch.clone()]));
        }
    }
    let (nested, others) = vectors
        .into_iter()
        .map(|vector| vector.batch)
        .partition(|batch| batch.len() > 920 && rounds(batch).is_some_and(|rounds| rounds > 20));
    all.extend([family("vectors, random and nested", nested), family("the other vectors", others)]);
    all
}

/// Many sets, and random rows.
fn large(random: &mut Random) -> Vec<Family> {
    let ladders = |random: &mut Random, noise, mixes| -> Vec<Vec<u8>> {
        (0..8).map(|_| ladder(random, 64, noise, mixes).concat()).collect()
    };
    vec![
        family("64 sets, ladders", ladders(random, 0, false)),
        family("64 sets, ladders, many letters", ladders(random, 120, false)),
        family("64 sets, ladders, mixes", ladders(random, 0, true)),
        family("random, 12 rows, 5 states", worked(random, 256, 5, 12)),
        family("random, 40 rows, 10 states", worked(random, 64, 10, 40)),
        family("random, 120 rows, 20 states", worked(random, 64, 20, 120)),
        family("random, 250 rows, 64 states", worked(random, 64, 64, 250)),
    ]
}

/// Long batches of repeated rows: few that stand, and as many as can stand.
fn long(random: &mut Random) -> Vec<Family> {
    let set = |at: u8| 3u64 << at % 60 | 1 << 63;
    let kinds: [(&str, Vec<Vec<u8>>); 6] = [
        ("kind 1", (0..64).map(initial).collect()),
        ("kind 2", (0..64).map(last).collect()),
        ("kind 3", (0..=255).map(|at| letter(at / 4, at, at % 64)).collect()),
        ("kind 4", (0..=255).map(|at| left(set(at), at / 4)).collect()),
        ("kind 5", (0..=255).map(|at| right(at / 4, set(at))).collect()),
        ("a random automaton", automaton(random, 20, 250, 9)),
    ];
    let repeat =
        |(name, rows): &(&str, Vec<Vec<u8>>)| family(&format!("long: {name}"), vec![repeated(random, rows, 65_526)]);
    let mut all: Vec<_> = kinds.iter().map(repeat).collect();
    all.push(family("long: one row of kind 4", vec![left(7, 1).repeat(6553)]));
    all.push(family("long: a random automaton, 1 MB", vec![repeated(random, &kinds[5].1, 1 << 20)]));
    all
}

/// How cost grows with rows, with sets and with rounds.
pub fn growth() {
    let random = &mut Random(7);
    head("rows (letters of 64 states, 8 sets)");
    for rows in [16, 32, 64, 128, 224] {
        let sets: Vec<_> = (0..8).map(|at| left(0xffu64 << (8 * at), at)).collect();
        let mut row = |_| letter(random.below(64) as u8, random.below(256) as u8, random.below(64) as u8);
        let letters: Vec<_> = (0..rows).map(&mut row).collect();
        line(&format!("{} rows", rows + 9), &[[initial(0), sets.concat(), letters.concat()].concat()]);
    }
    head("sets (all of a ring of 64 states)");
    let ring: Vec<u8> = (0..64).flat_map(|s| letter(s, s, (s + 1) % 64)).collect();
    for sets in [1, 4, 16, 32, 64] {
        let all: Vec<u8> = (0..sets).flat_map(|at| left(!0 ^ (1u64 << at >> 1), 5)).collect();
        line(&format!("{sets} sets"), &[[&ring[..], &all].concat()]);
    }
    head("rounds (64 sets, a ladder of some)");
    for rungs in [1, 2, 8, 16, 32, 48, 64] {
        let mut rows = ladder(random, rungs, 0, false);
        // Pairs that no letter joins: they are tested, and nothing opens on them.
        rows.extend((0..64 - rungs as u8).map(|at| left(1 << at | 1 << ((at + 1) % 64), at)));
        line(&format!("{rungs} rungs"), &[rows.concat()]);
    }
}

/// HOA files to their batches.
pub fn files() {
    let random = &mut Random(21);
    text_head("HOA files (time of one)", "bytes of batch");
    let small = Automaton { states: 2, start: 0, marked: vec![false, true], edges: vec![vec![0, 1], vec![0]] };
    file_line("2 states, 3 edges", &[small.text()]);
    file_line("6 states, 36 edges", &[Automaton::full(random, 3, 6).text()]);
    file_line("6 states, 10,896 lines of edges", &[Automaton::full(random, 3, 1816).text()]);
    file_line("6 states, 174,762 lines of edges", &[Automaton::full(random, 3, 29_127).text()]);
    let digits = format!("HOA: v1\nStates: {}\n", "9".repeat(65_519));
    file_line("a number of 65,519 digits", &[digits.into_bytes()]);
    file_line("the vectors that have a batch", &cases::hoa_vectors());
    file_line("random", &(0..256).map(|_| Automaton::random(random).text()).collect::<Vec<_>>());
}
