//! Every answer of the engine against plain Rust: return value, place, and the whole buffer; and its verdict against the sheet's.
//! Of HOA files also the verdict on their batches against a search of the automaton.

use crate::batches::{any, told, Random};
use crate::engine::{self, Call};
use crate::files::{spoilt, Automaton};

/// Bytes that no sheet, no expression and no batch of an HOA file has, so that a byte written too much is seen.
fn filled(random: &mut Random, length: usize) -> Vec<u8> {
    let first = 128 + random.below(100) as u8;
    (0..length).map(|at| first + (at % 27) as u8).collect()
}

/// A buffer's length: long, exact, one short, short, none.
fn length(random: &mut Random, batch: &[u8]) -> usize {
    let mut text = [0; plain::LONGEST_SHEET];
    let exact = plain::plain_sheet(batch, &mut text).unwrap_or(0);
    match random.below(8) {
        0 => exact,
        1 => exact.saturating_sub(1),
        2 => random.below(exact as u64 + 40) as usize,
        3 => plain::LONGEST_SHEET,
        4 => 0,
        _ => plain::LONGEST_SHEET + 1 + random.below(300) as usize,
    }
}

fn hex(bytes: &[u8]) -> String {
    bytes.iter().map(|byte| format!("{byte:02x}")).collect()
}

/// What a call leaves behind: the return value, the place, the buffer.
type Answer = (u64, u64, Vec<u8>);

fn answer(call: Call, batch: &[u8], buffer: &[u8], place: u64) -> Answer {
    let mut buffer = buffer.to_vec();
    let mut place = place;
    let value = call(batch, &mut buffer, &mut place);
    (value, place, buffer)
}

/// The value that both return, if all that they leave behind is equal.
pub fn same(plain: Call, engine: Call, batch: &[u8], buffer: &[u8], place: u64) -> u64 {
    let plain = answer(plain, batch, buffer, place);
    let engine = answer(engine, batch, buffer, place);
    if plain != engine {
        stop(batch, &plain, &engine);
    }
    plain.0
}

fn stop(batch: &[u8], plain: &Answer, engine: &Answer) -> ! {
    println!("difference on {} bytes, buffer of {}:\n{}", batch.len(), plain.2.len(), hex(batch));
    for (who, (value, place, buffer)) in [("plain Rust", plain), ("engine", engine)] {
        println!("{who}: refusal {}, length {}, place {place}", value >> 32, *value as u32);
        println!("{}", String::from_utf8_lossy(&buffer[..buffer.len().min(*value as u32 as usize)]));
    }
    if let Some(at) = (0..plain.2.len()).find(|&at| plain.2[at] != engine.2[at]) {
        println!("the buffers differ first at byte {at}");
    }
    std::process::exit(1);
}

/// How often each refusal was met; none is 0.
struct Refusals([usize; 32]);

impl Refusals {
    fn count(&mut self, value: u64) {
        self.0[(value >> 32) as usize & 31] += 1;
    }

    fn print(&self) {
        for (number, times) in self.0.iter().enumerate().skip(1).filter(|(_, times)| **times > 0) {
            println!("  refusal {number}: {times}");
        }
    }
}

/// Sheets, verdicts and expressions of so many batches each, and the batches of so many HOA files.
pub fn run(seed: u64, count: usize) {
    sheets(&mut Random(seed), count);
    expressions(&mut Random(seed), count);
    files(&mut Random(seed), count);
}

fn sheets(random: &mut Random, count: usize) {
    let seed = random.0;
    let mut refusals = Refusals([0; 32]);
    let (mut bytes, mut nonempty) = (0, 0);
    for _ in 0..count {
        let batch = any(random);
        let length = length(random, &batch);
        let buffer = filled(random, length);
        let place = random.next();
        refusals.count(same(engine::plain, engine::sheet, &batch, &buffer, place));
        let verdict = same(engine::plain_verdict, engine::verdict, &batch, &[], place);
        nonempty += (verdict == 1) as usize;
        bytes += batch.len();
    }
    println!(
        "compared on {count} batches from seed {seed}, {bytes} bytes: no difference; {} sheets; {nonempty} verdicts are non-empty",
        refusals.0[0]
    );
    refusals.print();
}

/// A buffer for most expressions.
pub const LONG: usize = 1 << 20;

fn expressions(random: &mut Random, count: usize) {
    let seed = random.0;
    let mut refusals = Refusals([0; 32]);
    let mut bytes = 0;
    let mut text = vec![0; LONG];
    for _ in 0..count {
        let batch = told(random);
        let value = plain::expression(&batch, &mut text, &mut 0);
        let long = value >> 32 == 12 || value as u32 as usize > plain::LONGEST_SHEET || random.below(64) == 0;
        for length in lengths(value).into_iter().filter(|&length| length < LONG || long) {
            same_expression(random, &batch, length);
        }
        refusals.count(value);
        bytes += value as u32 as usize;
    }
    println!(
        "expressions compared on {count} batches from seed {seed}: no difference; {} expressions, {bytes} bytes, in {LONG}",
        refusals.0[0]
    );
    refusals.print();
}

/// The lengths of buffers in which an expression is compared; the value is the answer in a long one.
fn lengths(value: u64) -> Vec<usize> {
    let exact = value as u32 as usize;
    let mut lengths = vec![0, plain::LONGEST_SHEET, LONG];
    if value >> 32 == 0 {
        lengths.extend([exact, exact.saturating_sub(1)]);
    }
    lengths
}

fn same_expression(random: &mut Random, batch: &[u8], length: usize) {
    let buffer = filled(random, length);
    same(plain::expression, engine::expression, batch, &buffer, random.next());
}

/// Compares the expression of one batch in all buffers.
pub fn expression(batch: &[u8]) {
    let random = &mut Random(batch.len() as u64);
    let value = plain::expression(batch, &mut vec![0; LONG], &mut 0);
    for length in lengths(value) {
        same_expression(random, batch, length);
    }
}

/// Half of the files as they must be, half damaged.
fn files(random: &mut Random, count: usize) {
    let seed = random.0;
    let mut refusals = Refusals([0; 32]);
    let (mut bytes, mut nonempty, mut short) = (0, 0, 0);
    for _ in 0..count {
        let automaton = Automaton::random(random);
        let file = match random.below(2) {
            0 => automaton.text(),
            _ => spoilt(random, &automaton),
        };
        let mut batch = [0; plain::LONGEST_HOA_BATCH];
        let value = plain::hoa(&file, &mut batch, &mut 0);
        short += same_batch(random, &file, value);
        refusals.count(value);
        bytes += file.len();
        if file == automaton.text() {
            let verdict = engine::verdict(&batch[..value as usize], &mut [], &mut 0);
            assert!(verdict == automaton.accepts() as u64, "verdict {verdict} on\n{}", String::from_utf8_lossy(&file));
            nonempty += verdict;
        }
    }
    println!(
        "HOA files compared on {count} from seed {seed}, {bytes} bytes: no difference; {} batches, {short} buffers too short; {nonempty} verdicts are non-empty",
        refusals.0[0]
    );
    refusals.print();
}

/// Compares the batch of one file in buffers that have room, exactly or more, and, if it has one, in shorter ones; the
/// value is the answer where there is room. How many were too short.
fn same_batch(random: &mut Random, file: &[u8], value: u64) -> usize {
    let exact = value as u32 as usize;
    let mut lengths = vec![0, exact, plain::LONGEST_HOA_BATCH, exact + 1 + random.below(900) as usize];
    if exact > 0 {
        lengths.extend([exact - 1, random.below(exact as u64) as usize]);
    }
    let mut short = 0;
    for length in lengths {
        let buffer = filled(random, length);
        let got = same(plain::hoa, engine::hoa, file, &buffer, random.next());
        let fits = length >= exact;
        assert!(got == if fits { value } else { 12 << 32 }, "value {got} in {length} bytes");
        short += !fits as usize;
    }
    short
}

/// Compares the batch of one file in all buffers.
pub fn file(file: &[u8]) {
    let value = plain::hoa(file, &mut [0; plain::LONGEST_HOA_BATCH], &mut 0);
    same_batch(&mut Random(file.len() as u64), file, value);
}
