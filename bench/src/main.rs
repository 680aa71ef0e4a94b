//! The proved engine beside plain Rust: equal answers first, then times. Arguments: the number of batches to compare
//! (100000 without) and the seed (1 without); after the word `session` those of the calls of a session alone.

mod batches;
mod cases;
mod compare;
mod engine;
mod files;
mod session;
mod timing;

fn main() {
    let words: Vec<String> = std::env::args().skip(1).collect();
    let session_alone = words.first().is_some_and(|word| word == "session");
    let mut numbers = words.iter().skip(session_alone as usize).map(|word| word.parse::<u64>().expect("a number"));
    let count = numbers.next().unwrap_or(100_000);
    let seed = numbers.next().unwrap_or(1);
    if !session_alone {
        checker(seed, count as usize);
    }
    session::run(seed, count as usize / 5);
}

/// Sheets, verdicts, expressions and HOA files, without a session.
fn checker(seed: u64, count: usize) {
    if !engine::THERE {
        println!("target/staticlib/libffi.a is not there: plain Rust alone (bench/README.md says how it is made)");
    }
    cases::run();
    if engine::THERE {
        compare::run(seed, count);
    }
    timing::families();
    timing::growth();
    timing::files();
}
