//! Plain Rust against document 01, amended by requests C-16 and C-18, read word for word: steps as a list, walks by closure,
//! nothing kept between rounds.

#[allow(dead_code)]
#[path = "../src/batches.rs"]
mod batches;
#[path = "naive/expressions.rs"]
mod expressions;
#[allow(dead_code)]
#[path = "../src/files.rs"]
mod files;
#[path = "naive/hoa.rs"]
mod hoa;

use std::collections::{BTreeMap, BTreeSet};

#[derive(Clone, Copy, PartialEq, Eq, PartialOrd, Ord)]
enum Row {
    Initial(u8),
    Final(u8),
    Letter(u8, u8, u8),
    Left(u64, u8),
    Right(u8, u64),
    Strike(u8),
}
use Row::*;

/// The open claims, each a set and whether it is a mix, with their rounds.
type Claims = BTreeMap<(u64, bool), u8>;

/// A step: from, then what the order of walks compares (kind, letter or set, target), then its content.
type Step = (u8, (u8, u64, u8), u64);

fn word(bytes: &[u8]) -> u64 {
    bytes.iter().fold(0, |n, &byte| n << 8 | byte as u64)
}

fn set_of(row: &Row) -> Option<u64> {
    match *row {
        Left(set, _) | Right(_, set) => Some(set),
        _ => None,
    }
}

fn read(rest: &[u8]) -> Result<(Row, usize), u8> {
    let length = match rest[0] {
        1 | 2 | 6 => 2,
        3 => 4,
        4 | 5 => 10,
        _ => return Err(2),
    };
    if rest.len() < length {
        return Err(3);
    }
    let row = match rest[0] {
        1 => Initial(rest[1]),
        2 => Final(rest[1]),
        3 => Letter(rest[1], rest[2], rest[3]),
        4 => Left(word(&rest[1..9]), rest[9]),
        5 => Right(rest[1], word(&rest[2..10])),
        _ => Strike(rest[1]),
    };
    let states = match row {
        Initial(s) | Final(s) | Left(_, s) | Right(s, _) | Strike(s) => vec![s],
        Letter(p, _, q) => vec![p, q],
    };
    if states.iter().any(|&state| state > 63) {
        return Err(4);
    }
    match set_of(&row) {
        Some(0) => Err(5),
        _ => Ok((row, length)),
    }
}

fn load(batch: &[u8]) -> Result<BTreeSet<Row>, (u8, usize)> {
    let mut rows = BTreeSet::new();
    let mut at = 0;
    while at < batch.len() {
        let (row, length) = read(&batch[at..]).map_err(|number| (number, at))?;
        let mut sets: BTreeSet<u64> = rows.iter().filter_map(set_of).collect();
        sets.extend(set_of(&row));
        if !rows.contains(&row) && rows.len() == 256 {
            return Err((6, at));
        }
        if sets.len() > 64 {
            return Err((7, at));
        }
        rows.insert(row);
        at += length;
    }
    Ok(rows)
}

/// The struck states.
fn struck(rows: &BTreeSet<Row>) -> u64 {
    (0..64).filter(|&s| rows.contains(&Strike(s))).fold(0, |set, s| set | 1 << s)
}

/// The steps by letters and by the open claims.
fn steps(rows: &BTreeSet<Row>, open: &Claims) -> Vec<Step> {
    let mut all = vec![];
    for row in rows {
        match *row {
            Letter(p, a, q) => all.push((p, (0, a as u64, q), 1 << p | 1 << q)),
            Left(set, r) if open.contains_key(&(set, false)) => {
                all.extend((0..64).filter(|q| set >> q & 1 == 1).map(|q| (q, (1, set, r), set | 1 << r)));
            }
            Right(r, set) if open.contains_key(&(set, false)) => {
                all.extend((0..64).filter(|q| set >> q & 1 == 1).map(|q| (r, (2, set, q), set | 1 << r)));
            }
            _ => (),
        }
    }
    for row in rows {
        let Right(q, set) = *row else { continue };
        for other in rows {
            match *other {
                Left(same, p) if same == set && open.contains_key(&(set, true)) => {
                    all.push((q, (3, set, p), set | 1 << q | 1 << p));
                }
                _ => (),
            }
        }
    }
    let struck = struck(rows);
    all.retain(|(_, _, content)| content & struck == 0);
    all
}

/// For each state the states that a walk of one or more steps inside the set leads to.
fn walks(steps: &[Step], inside: u64) -> [u64; 64] {
    let mut to = [0u64; 64];
    for (from, (_, _, target), content) in steps {
        if content & !inside == 0 {
            to[*from as usize] |= 1 << target;
        }
    }
    for middle in 0..64 {
        for from in 0..64 {
            if to[from] >> middle & 1 == 1 {
                to[from] |= to[middle];
            }
        }
    }
    to
}

/// Does the claim hold? Without gaps a mix is what document 01 alone says.
fn holds(rows: &BTreeSet<Row>, steps: &[Step], set: u64, mix: bool, gaps: bool) -> bool {
    let to = walks(steps, set);
    let members: Vec<u8> = (0..64).filter(|s| set >> s & 1 == 1).collect();
    let leads = |p: u8, q: u8| to[p as usize] >> q & 1 == 1;
    if !mix {
        return members.iter().all(|&p| members.iter().all(|&q| leads(p, q)));
    }
    let entrances: Vec<u8> = members.iter().copied().filter(|&e| rows.contains(&Left(set, e))).collect();
    let exits: Vec<u8> = members.iter().copied().filter(|&f| rows.contains(&Right(f, set))).collect();
    let between = |s: u8, e: u8, f: u8| leads(e, s) && leads(s, f) || e == s && leads(s, f) || leads(e, s) && s == f;
    let on_piece = |s: u8| entrances.iter().any(|&e| exits.iter().any(|&f| between(s, e, f)));
    let struck = struck(rows);
    let gap = |s: u8| gaps && struck >> s & 1 == 0 && entrances.contains(&s) && exits.contains(&s);
    members.iter().all(|&s| on_piece(s) || gap(s)) && entrances.iter().any(|&e| exits.iter().any(|&f| leads(e, f)))
}

/// The least number of steps from each state to a final one.
fn distances(rows: &BTreeSet<Row>, steps: &[Step]) -> [usize; 64] {
    let mut far = [usize::MAX; 64];
    let struck = struck(rows);
    (0..64).filter(|&s| rows.contains(&Final(s)) && struck >> s & 1 == 0).for_each(|s| far[s as usize] = 0);
    for _ in 0..64 {
        for (from, (_, _, to), _) in steps {
            let by = far[*to as usize].saturating_add(1);
            far[*from as usize] = far[*from as usize].min(by);
        }
    }
    far
}

/// What a batch settles to: the number of rounds, the openings, and a walk with its start if it is non-empty.
struct Settled {
    rounds: u8,
    open: Claims,
    walk: Option<(u8, Vec<Step>)>,
}

fn settle(rows: &BTreeSet<Row>, gaps: bool) -> Settled {
    let sets: BTreeSet<u64> = rows.iter().filter_map(set_of).collect();
    let mut open = Claims::new();
    let struck = struck(rows);
    let mut rounds = 0;
    loop {
        let all = steps(rows, &open);
        let far = distances(rows, &all);
        let start = (0..64)
            .filter(|&s| rows.contains(&Initial(s)) && struck >> s & 1 == 0)
            .min_by_key(|&s| (far[s as usize], s));
        if let Some(start) = start.filter(|&s| far[s as usize] < usize::MAX) {
            return Settled { rounds, open, walk: Some((start, walk(&all, &far, start))) };
        }
        rounds += 1;
        let claims = sets.iter().flat_map(|&set| [(set, false), (set, true)]);
        let new: Vec<_> =
            claims.filter(|claim| !open.contains_key(claim) && holds(rows, &all, claim.0, claim.1, gaps)).collect();
        if new.is_empty() {
            return Settled { rounds, open, walk: None };
        }
        open.extend(new.into_iter().map(|claim| (claim, rounds)));
    }
}

fn walk(steps: &[Step], far: &[usize; 64], start: u8) -> Vec<Step> {
    let mut walk = vec![];
    let mut at = start;
    while far[at as usize] > 0 {
        let nearer = |step: &&Step| step.0 == at && far[step.1 .2 as usize] + 1 == far[at as usize];
        let step = *steps.iter().filter(nearer).min_by_key(|step| step.1).unwrap();
        walk.push(step);
        at = step.1 .2;
    }
    walk
}

fn sheet(rows: &BTreeSet<Row>, gaps: bool) -> String {
    let Settled { rounds, open, walk } = settle(rows, gaps);
    let verdict = if walk.is_some() { "nonempty" } else { "empty" };
    let mut text = format!("verdict {verdict} rounds {rounds}\n");
    let mut openings: Vec<_> = open.iter().map(|(&(set, mix), &round)| (round, set, mix)).collect();
    openings.sort();
    for (round, set, mix) in openings {
        text += &format!("open {round} {} {set:016x}\n", if mix { "mix" } else { "loop" });
    }
    if let Some((start, walk)) = walk {
        text += &format!("start {start}\n");
        for (_, (kind, label, to), _) in walk {
            text += &match kind {
                0 => format!("step letter {label} to {to}\n"),
                _ => format!("step {} {label:016x} to {to}\n", ["omega", "back", "mix"][kind as usize - 1]),
            };
        }
    }
    text
}

fn count() -> usize {
    std::env::var("NAIVE").map_or(3000, |n| n.parse().unwrap())
}

#[test]
fn plain_is_the_definition() {
    let count = count();
    let mut random = batches::Random(2026);
    let (mut refused, mut nonempty, mut most, mut by_gaps, mut by_strikes) = (0, 0, 0, 0, 0);
    for _ in 0..count {
        let batch = batches::any(&mut random);
        let mut text = [0; plain::LONGEST_SHEET];
        let got = plain::plain_sheet(&batch, &mut text).map(|n| String::from_utf8(text[..n].to_vec()).unwrap());
        let rows = load(&batch);
        let want = rows.clone().map(|rows| sheet(&rows, true));
        assert_eq!(got, want, "on {batch:02x?}");
        by_gaps += (want != rows.clone().map(|rows| sheet(&rows, false))) as usize;
        let unstruck = |rows: BTreeSet<Row>| rows.into_iter().filter(|row| !matches!(row, Strike(_))).collect();
        by_strikes += (want != rows.map(|rows| sheet(&unstruck(rows), true))) as usize;
        match want {
            Err(_) => refused += 1,
            Ok(text) => {
                nonempty += text.starts_with("verdict nonempty") as usize;
                let rounds = text.lines().next().unwrap().rsplit(' ').next().unwrap();
                most = most.max(rounds.parse().unwrap_or(0));
            }
        }
    }
    println!(
        "{count} batches, {refused} refused, {nonempty} non-empty, at most {most} rounds, {by_gaps} by gaps, {by_strikes} by strikes"
    );
}

/// Plain Rust in a buffer of this length: what it returns, the place, the buffer. Before the call all its bytes are 255.
fn told(batch: &[u8], length: usize) -> (u64, u64, Vec<u8>) {
    let mut text = vec![255; length];
    let mut place = 99;
    let value = plain::expression(batch, &mut text, &mut place);
    (value, place, text)
}

/// The answers that plain Rust must give, in buffers of several lengths.
fn expect(batch: &[u8], want: &Result<Option<String>, (u8, usize)>) {
    let refused = |number: u8, at: usize, length: usize| ((number as u64) << 32, at as u64, vec![255; length]);
    match want {
        Err((number, at)) => {
            for length in [0, 10] {
                assert_eq!(told(batch, length), refused(*number, *at, length), "on {batch:02x?}");
            }
        }
        Ok(None) => assert_eq!(told(batch, expressions::MOST), refused(12, 0, expressions::MOST), "on {batch:02x?}"),
        Ok(Some(text)) => {
            let exact = text.len();
            for length in [exact, exact + 1, exact + 300] {
                let mut buffer = text.clone().into_bytes();
                buffer.resize(length, 255);
                assert_eq!(told(batch, length), (exact as u64, 99, buffer), "{text} on {batch:02x?}");
            }
            for length in [0, exact / 2, exact - 1] {
                assert_eq!(told(batch, length), refused(12, 0, length), "{text} on {batch:02x?}");
            }
        }
    }
}

#[test]
fn expressions_are_the_definition() {
    let mut random = batches::Random(12);
    let mut seen = expressions::Seen::default();
    for _ in 0..count() {
        let batch = batches::told(&mut random);
        expect(&batch, &expressions::expression(&batch, &mut seen));
    }
    println!("{} batches: {seen:?}", count());
}

/// Those of the vectors that have one.
#[test]
fn expressions_of_the_vectors() {
    let folder = concat!(env!("CARGO_MANIFEST_DIR"), "/../crates/cases/data");
    let mut seen = expressions::Seen::default();
    for entry in std::fs::read_dir(folder).unwrap() {
        let path = entry.unwrap().path();
        if path.extension().is_some_and(|end| end == "expression") {
            // An empty one stands for all batches that have none.
            let Ok(batch) = std::fs::read(path.with_extension("batch")) else {
                continue;
            };
            let text = std::fs::read_to_string(&path).unwrap();
            let want = Ok(Some(text));
            assert_eq!(expressions::expression(&batch, &mut seen), want, "{}", path.display());
            expect(&batch, &want);
        }
    }
    println!("vectors: {seen:?}");
}

/// Plain Rust on an HOA file in a buffer of this length, as `told`.
fn converted(file: &[u8], length: usize) -> (u64, u64, Vec<u8>) {
    let mut batch = vec![255; length];
    let mut place = 99;
    let value = plain::hoa(file, &mut batch, &mut place);
    (value, place, batch)
}

/// The answers that plain Rust must give to an HOA file, in buffers of several lengths.
fn expect_batch(file: &[u8], want: &Result<Vec<u8>, (u8, usize)>) {
    let on = String::from_utf8_lossy(file);
    for length in [0, 1, 778, 1000].into_iter().chain(want.iter().flat_map(|batch| [batch.len() - 1, batch.len()])) {
        let refused = |number: u8, at: usize| ((number as u64) << 32, at as u64, vec![255; length]);
        let expected = match want {
            Err((number, at)) => refused(*number, *at),
            Ok(batch) if length < batch.len() => refused(12, 0),
            Ok(batch) => {
                let mut bytes = batch.clone();
                bytes.resize(length, 255);
                (batch.len() as u64, 99, bytes)
            }
        };
        assert_eq!(converted(file, length), expected, "on\n{on}");
    }
}

/// The batch of each file, and what its sheet says of the automaton: by the definition, by plain Rust, and by a search of the file's edges.
#[test]
fn files_are_the_definition() {
    let mut random = batches::Random(21);
    let (mut refused, mut nonempty, mut empty) = ([0; 2], 0, 0);
    for at in 0..count() {
        let automaton = files::Automaton::random(&mut random);
        let file = if at % 2 == 0 { automaton.text() } else { files::spoilt(&mut random, &automaton) };
        let told = hoa::read(&file);
        let want = told.as_ref().map(|told| hoa::batch(&told.rows())).map_err(|refusal| *refusal);
        expect_batch(&file, &want);
        assert!(at % 2 == 1 || want.is_ok(), "refused {file:02x?}");
        let (told, batch) = match (told, want) {
            (Ok(told), Ok(batch)) => (told, batch),
            (Err((number, _)), _) | (_, Err((number, _))) => {
                refused[number as usize - 20] += 1;
                continue;
            }
        };
        let rows = load(&batch).expect("a batch that loads");
        assert_eq!(hoa::batch(&rows), batch, "rows twice or not in order");
        let cycle = told.marked_cycle();
        let mut text = [0; plain::LONGEST_SHEET];
        let length = plain::plain_sheet(&batch, &mut text).expect("a sheet");
        assert_eq!(text[..length].starts_with(b"verdict nonempty"), cycle, "on {batch:02x?}");
        assert_eq!(settle(&rows, true).walk.is_some(), cycle, "on {batch:02x?}");
        assert!(at % 2 == 1 || automaton.accepts() == cycle, "on {batch:02x?}");
        *if cycle { &mut nonempty } else { &mut empty } += 1;
    }
    println!(
        "{} files: {nonempty} non-empty, {empty} empty, {} refused as 20, {} as 21",
        count(),
        refused[0],
        refused[1]
    );
}

/// Those of the vectors, by the definition.
#[test]
fn files_of_the_vectors() {
    let folder = concat!(env!("CARGO_MANIFEST_DIR"), "/../crates/cases/data");
    let mut count = 0;
    for entry in std::fs::read_dir(folder).unwrap() {
        let path = entry.unwrap().path();
        if path.extension().is_some_and(|end| end == "hoa") {
            let file = std::fs::read(&path).unwrap();
            let want = hoa::read(&file).map(|told| hoa::batch(&told.rows()));
            expect_batch(&file, &want);
            let (end, answer) = match want {
                Ok(batch) => ("batch", batch),
                Err((number, at)) => ("refusal", format!("refused {number} at {at}\n").into_bytes()),
            };
            assert_eq!(std::fs::read(path.with_extension(end)).ok(), Some(answer), "{}", path.display());
            count += 1;
        }
    }
    println!("{count} vectors");
}
