//! The calls of a session, made by the library's one function that makes a list of them on a fresh session: sheets, verdicts and expressions
//! against plain Rust first, then the time of each call.

use crate::batches::{any, told, Random};
use crate::compare::{same, LONG};
use crate::{cases, engine, timing};
use std::hint::black_box;
use std::time::{Duration, Instant};

#[cfg(session)]
extern "C" {
    fn gozhmerik_session(
        batch: *const u8,
        batch_len: usize,
        calls: *const u8,
        calls_len: usize,
        buffer: *mut u8,
        buffer_len: usize,
        place: *mut u64,
    ) -> u64;
}

/// The value and place of the last answer. Each byte names a call: l load the batch, w withdraw it, c close, r round, o reopen, v verdict,
/// p print, s save, e expression, 1 to 4 mark, 5 to 8 return to these marks.
#[cfg(session)]
#[inline]
fn make(batch: &[u8], calls: &[u8], buffer: &mut [u8], place: &mut u64) -> u64 {
    let (from, to) = ((batch.as_ptr(), batch.len()), (buffer.as_mut_ptr(), buffer.len()));
    unsafe { gozhmerik_session(from.0, from.1, calls.as_ptr(), calls.len(), to.0, to.1, place) }
}

#[cfg(not(session))]
fn make(_: &[u8], _: &[u8], _: &mut [u8], _: &mut u64) -> u64 {
    unreachable!()
}

/// More rounds than any batch takes.
const ROUNDS: usize = 129;

/// The calls, where the batch can be loaded, with R for as many rounds as settle; else the refusal of the load.
fn loaded(calls: &str, batch: &[u8], buffer: &mut [u8], place: &mut u64) -> u64 {
    match make(batch, b"l", buffer, place) {
        0 => make(batch, calls.replace('R', &"r".repeat(ROUNDS)).as_bytes(), buffer, place),
        refusal => refusal,
    }
}

/// Ways to the sheet of a batch: straight; rows that stand loaded again; by a mark of an open, of a running and of a settled session, each with
/// other calls between mark and return.
const SHEETS: [fn(&[u8], &mut [u8], &mut u64) -> u64; 5] = [
    |batch, buffer, place| loaded("lcRp", batch, buffer, place),
    |batch, buffer, place| loaded("llwlcvRp", batch, buffer, place),
    |batch, buffer, place| loaded("l1cR5cRp", batch, buffer, place),
    |batch, buffer, place| loaded("lcrr2ow6Rp", batch, buffer, place),
    |batch, buffer, place| loaded("1l2cr3R4ow5l678p", batch, buffer, place),
];

fn verdict(batch: &[u8], buffer: &mut [u8], place: &mut u64) -> u64 {
    loaded("lv", batch, buffer, place)
}

fn expression(batch: &[u8], buffer: &mut [u8], place: &mut u64) -> u64 {
    loaded("lcRe", batch, buffer, place)
}

fn compare(random: &mut Random, batch: &[u8]) -> u64 {
    let room = [plain::LONGEST_SHEET, random.below(200) as usize][(random.below(8) == 0) as usize];
    let buffer: Vec<u8> = (0..room).map(|at| 128 + (at % 100) as u8).collect();
    SHEETS.iter().for_each(|&sheet| {
        same(engine::plain, sheet, batch, &buffer, random.next());
    });
    same(engine::plain_verdict, verdict, batch, &buffer, random.next());
    same(plain::expression, expression, batch, &buffer, random.next());
    same(plain::expression, expression, batch, &vec![255; LONG * (random.below(64) == 0) as usize], random.next())
}

fn compare_all(seed: u64, count: usize) {
    let random = &mut Random(seed);
    let mut batches: Vec<_> = cases::cases().into_iter().map(|case| case.1.concat()).collect();
    batches.extend(cases::vectors().into_iter().map(|vector| vector.batch));
    let stored = batches.len();
    batches.extend((0..count).map(|at| if at % 2 == 0 { any(random) } else { told(random) }));
    batches.iter().for_each(|batch| {
        compare(random, batch);
    });
    println!("sessions compared on {stored} stored batches and {count} from seed {seed}, {} ways to each sheet: no difference", SHEETS.len());
}

/// The best time of each list of calls on the batch, in nanoseconds, taken in turns.
fn times(batch: &[u8], lists: &[String]) -> Vec<f64> {
    let mut buffer = vec![0; plain::LONGEST_SHEET];
    let mut best = vec![f64::MAX; lists.len()];
    let from = Instant::now();
    let mut turns = 0;
    while turns < 50 || (turns < 5000 && from.elapsed() < Duration::from_millis(3000)) {
        for (best, calls) in best.iter_mut().zip(lists) {
            let from = Instant::now();
            // Some microseconds at least, so that the clock does not count.
            for _ in 0..4 {
                black_box(make(black_box(batch), calls.as_bytes(), black_box(&mut buffer), &mut 0));
            }
            *best = best.min(from.elapsed().as_secs_f64() * 1e9 / 4.0);
        }
        turns += 1;
    }
    best
}

/// What is timed: a name, the calls before, and the calls timed; R is all the rounds that the batch takes. The byte x names no call: its time
/// is that of handing the session on.
const TIMED: [(&str, &str, &str); 15] = [
    ("none", "l", "xxxx"),
    ("load", "", "l"),
    ("again", "l", "llll"),
    ("close", "l", "c"),
    ("round", "lc", "R"),
    ("print", "lcR", "pppppppppppppppp"),
    ("verdict", "l", "vvvv"),
    ("save", "l", "ssss"),
    ("mark", "l", "1234"),
    ("return", "l1", "5555"),
    ("settled", "lcR1", "5555"),
    ("4 load", "1234", "l"),
    ("4 close", "l1234", "c"),
    ("4 round", "l1234c", "R"),
    ("4 print", "l1234cR", "pppppppppppppppp"),
];

fn line(name: &str, batch: &[u8]) {
    let rounds = timing::rounds(batch).expect("a batch that is not refused") as usize;
    let spelt = |calls: &str| calls.replace('R', &"r".repeat(rounds));
    let lists: Vec<_> =
        TIMED.iter().flat_map(|(_, before, calls)| [spelt(before), spelt(before) + &spelt(calls)]).collect();
    let times = times(batch, &lists);
    print!("{name:<20} {:>6} {rounds:>7}", batch.len());
    for ((_, _, calls), pair) in TIMED.iter().zip(times.chunks(2)) {
        print!(" {:>8.0}", (pair[1] - pair[0]) / spelt(calls).len().max(1) as f64);
    }
    println!();
}

/// Compares so many batches, then times the calls on some tables.
pub fn run(seed: u64, count: usize) {
    if !cfg!(session) {
        println!("\ntarget/staticlib/libffi_session.a is not there: no session (bench/README.md says how it is made)");
        return;
    }
    compare_all(seed, count);
    print!("\n{:<20} {:>6} {:>7}", "calls of a session", "bytes", "rounds");
    TIMED.iter().for_each(|(name, _, _)| print!(" {name:>8}"));
    println!(" (ns of one call; after 4: with four marks)");
    line("case A", &cases::cases()[0].1.concat());
    for vector in cases::vectors() {
        if timing::SINGLE.contains(&vector.name.as_str()) {
            line(&vector.name, &vector.batch);
        }
    }
    line("random, 250 rows", &timing::worked(&mut Random(64), 1, 64, 250)[0]);
}
