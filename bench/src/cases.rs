//! Cases A to K of document 01 and the limits it names, the vectors and the examples of the repository.

use crate::batches::{initial, last, left, letter, right, strike};
use crate::compare;
use crate::engine::{self, Call};
use std::path::{Path, PathBuf};

/// Each case: its rows and its sheet.
pub fn cases() -> Vec<(&'static str, Vec<Vec<u8>>, &'static str)> {
    let loops = || letter(0, 97, 0);
    vec![
        (
            "A",
            vec![initial(0), last(1), letter(1, 97, 0), left(3, 1), right(0, 3)],
            "verdict nonempty rounds 1\nopen 1 mix 0000000000000003\nstart 0\nstep mix 0000000000000003 to 1\n",
        ),
        ("B", vec![initial(0), last(1), letter(1, 97, 0), left(3, 1)], "verdict empty rounds 1\n"),
        (
            "C",
            vec![initial(0), last(1), loops(), left(1, 1)],
            "verdict nonempty rounds 1\nopen 1 loop 0000000000000001\nstart 0\nstep omega 0000000000000001 to 1\n",
        ),
        (
            "D",
            vec![initial(0), last(2), loops(), letter(1, 97, 0), left(1, 1), left(3, 2)],
            "verdict nonempty rounds 2\nopen 1 loop 0000000000000001\nopen 2 loop 0000000000000003\nstart 0\nstep omega 0000000000000003 to 2\n",
        ),
        ("E", vec![initial(0), last(0)], "verdict nonempty rounds 0\nstart 0\n"),
        ("F", vec![], "verdict empty rounds 1\n"),
        ("G", vec![initial(0), last(1), left(1, 1)], "verdict empty rounds 1\n"),
        (
            "H",
            vec![initial(1), last(0), loops(), right(1, 1)],
            "verdict nonempty rounds 1\nopen 1 loop 0000000000000001\nstart 1\nstep back 0000000000000001 to 0\n",
        ),
        ("I", vec![initial(0), last(2), letter(0, 97, 1), letter(1, 97, 0), left(1, 2)], "verdict empty rounds 1\n"),
        (
            "J",
            vec![
                initial(0),
                last(3),
                letter(0, 97, 2),
                letter(2, 97, 0),
                letter(1, 97, 0),
                left(5, 1),
                left(3, 3),
            ],
            "verdict empty rounds 2\nopen 1 loop 0000000000000005\n",
        ),
        ("K", vec![initial(0), last(1), right(0, 1), left(1, 0), left(1, 1)], "verdict empty rounds 1\n"),
    ]
}

/// The expressions of the cases that are non-empty.
const EXPRESSIONS: [(&str, &str); 5] =
    [("A", "sh(97,97)"), ("C", "(97)w"), ("D", "((97)w.97)w"), ("E", "e"), ("H", "(97)v")];

/// What a program prints of a batch, by the function given.
fn printed(call: Call, batch: &[u8]) -> Vec<u8> {
    let mut text = vec![0; compare::LONG];
    let mut place = 0;
    let answer = call(batch, &mut text, &mut place);
    if answer >> 32 != 0 {
        return format!("refused {} at {place}\n", answer >> 32).into_bytes();
    }
    text.truncate(answer as usize);
    text
}

fn prints(calls: [(&str, Call); 2], name: &str, batch: &[u8], text: &[u8]) {
    for (who, call) in calls {
        let found = printed(call, batch);
        let shown = String::from_utf8_lossy(&found);
        assert!(found == text, "{who} on {name} printed\n{shown}instead of\n{}", String::from_utf8_lossy(text));
    }
}

fn expect_sheet(name: &str, batch: &[u8], sheet: &[u8]) {
    prints([("plain Rust", engine::plain), ("engine", engine::sheet)], name, batch, sheet);
}

fn expect_batch(name: &str, file: &[u8], batch: &[u8]) {
    prints([("plain Rust", plain::hoa), ("engine", engine::hoa)], name, file, batch);
}

fn expect_expression(name: &str, batch: &[u8], expression: &[u8]) {
    prints([("plain Rust", plain::expression), ("engine", engine::expression)], name, batch, expression);
}

/// The sheet, and what follows of the expression: the same refusal, or 17 where the verdict is empty. Whatever it is,
/// the engine and plain Rust agree on it.
fn expect(name: &str, batch: &[u8], sheet: &[u8]) {
    expect_sheet(name, batch, sheet);
    if sheet.starts_with(b"refused") {
        expect_expression(name, batch, sheet);
    }
    if sheet.starts_with(b"verdict empty") {
        expect_expression(name, batch, b"refused 17 at 0\n");
    }
    compare::expression(batch);
}

/// A batch of the repository, with what is beside it: a sheet, an expression or both; neither where it is that of an HOA
/// file.
pub struct Stored {
    pub name: String,
    pub batch: Vec<u8>,
    sheet: Option<Vec<u8>>,
    expression: Option<Vec<u8>>,
    hoa: bool,
}

/// The files of a folder of the repository that end so, by name.
fn paths(folder: &str, end: &str) -> Vec<PathBuf> {
    let folder = Path::new(env!("CARGO_MANIFEST_DIR")).join("..").join(folder);
    let entries = std::fs::read_dir(&folder).unwrap_or_else(|_| panic!("no folder {}", folder.display()));
    let mut found: Vec<_> = entries.map(|entry| entry.unwrap().path()).collect();
    found.retain(|path| path.extension().is_some_and(|found| found == end));
    found.sort();
    assert!(!found.is_empty(), "no {end} in {}", folder.display());
    found
}

fn name(path: &Path) -> String {
    path.file_stem().unwrap().to_string_lossy().into_owned()
}

/// The batches of a folder of the repository: each NAME.batch with NAME.sheet and NAME.expression, by name.
fn stored(folder: &str) -> Vec<Stored> {
    let mut found = vec![];
    for path in paths(folder, "batch") {
        let sheet = std::fs::read(path.with_extension("sheet")).ok();
        let expression = std::fs::read(path.with_extension("expression")).ok();
        let hoa = path.with_extension("hoa").exists();
        assert!(sheet.is_some() || expression.is_some() || hoa, "nothing beside {}", path.display());
        found.push(Stored { name: name(&path), batch: std::fs::read(&path).unwrap(), sheet, expression, hoa });
    }
    found
}

/// The HOA files of a folder of the repository: each NAME.hoa, and the batch or the refusal beside it.
fn hoa_files(folder: &str) -> Vec<(String, Vec<u8>, Vec<u8>)> {
    let mut found = vec![];
    for path in paths(folder, "hoa") {
        let batch = std::fs::read(path.with_extension("batch"));
        let answer = batch.or_else(|_| std::fs::read(path.with_extension("refusal")));
        let answer = answer.unwrap_or_else(|_| panic!("nothing beside {}", path.display()));
        found.push((name(&path), std::fs::read(&path).unwrap(), answer));
    }
    found
}

/// Those of the vectors that have a sheet, without the batches of HOA files.
pub fn vectors() -> Vec<Stored> {
    stored("crates/cases/data").into_iter().filter(|stored| stored.sheet.is_some() && !stored.hoa).collect()
}

/// The HOA files among the vectors that have a batch.
pub fn hoa_vectors() -> Vec<Vec<u8>> {
    let accepted = |(_, file, answer): (String, Vec<u8>, Vec<u8>)| (!answer.starts_with(b"refused")).then_some(file);
    hoa_files("crates/cases/data").into_iter().filter_map(accepted).collect()
}

/// Rows, sets and states at their limits and one beyond.
fn limits() {
    let rows: Vec<_> = (0..=255).map(|a| letter(63, a, 63)).collect();
    let full = rows.concat();
    let nothing = b"verdict empty rounds 1\n";
    expect("256 rows", &full, nothing);
    expect("a standing row at 256", &[&full[..], &rows[9]].concat(), nothing);
    expect("a 257th row", &[&full[..], &initial(0)].concat(), b"refused 6 at 1024\n");
    expect("a 257th row with a set", &[&full[..], &left(9, 1)].concat(), b"refused 6 at 1024\n");
    let sets: Vec<u8> = (1..=64).flat_map(|set| left(set << 32, 1)).collect();
    expect("64 sets", &sets, nothing);
    expect("a 65th set", &[&sets[..], &right(1, 5)].concat(), b"refused 7 at 640\n");
    expect("state 63", &initial(63), nothing);
    expect("state 64", &initial(64), b"refused 4 at 0\n");
    expect("state 64, set 0", &left(0, 64), b"refused 4 at 0\n");
    expect("set 0", &left(0, 6), b"refused 5 at 0\n");
    expect("kind 0", &[0], b"refused 2 at 0\n");
    expect("kind 7", &[1, 1, 7], b"refused 2 at 2\n");
    expect("a cut strike", &[1, 1, 6], b"refused 3 at 2\n");
    expect("state 64 struck", &strike(64), b"refused 4 at 0\n");
    expect("a 257th row that strikes", &[&full[..], &strike(0)].concat(), b"refused 6 at 1024\n");
    expect("a cut row, state above 63", &[3, 99], b"refused 3 at 0\n");
}

/// Runs all of these, and stops on a difference.
pub fn run() {
    for (name, rows, sheet) in cases() {
        expect(name, &rows.concat(), sheet.as_bytes());
        if let Some((_, expression)) = EXPRESSIONS.iter().find(|(case, _)| *case == name) {
            expect_expression(name, &rows.concat(), expression.as_bytes());
        }
    }
    limits();
    let (vectors, examples) = (stored("crates/cases/data"), stored("examples"));
    let mut expressions = 0;
    for Stored { name, batch, sheet, expression, .. } in vectors.iter().chain(&examples) {
        // The program's limit on its input is not the library's.
        if let Some(sheet) = sheet.as_ref().filter(|sheet| *sheet != b"too long\n") {
            expect(name, batch, sheet);
        }
        if let Some(expression) = expression {
            expect_expression(name, batch, expression);
            compare::expression(batch);
            expressions += 1;
        }
    }
    let files = [hoa_files("crates/cases/data"), hoa_files("examples")].concat();
    for (name, file, answer) in &files {
        expect_batch(name, file, answer);
        compare::file(file);
    }
    println!(
        "cases A to K, the limits, {} vectors, {} examples, {expressions} expressions of these, {} HOA files: as they must be",
        vectors.len(),
        examples.len(),
        files.len()
    );
}
