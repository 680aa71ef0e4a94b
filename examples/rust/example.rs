// Case A and an HOA file from Rust. From the root of the repository:
// (cd crates/ffi_c && rt lib) && install -D -m 644 crates/ffi_c/out/libffi_c.a target/staticlib/libffi.a
// rustc --edition 2021 -O examples/rust/example.rs -C link-arg=target/staticlib/libffi.a -o target/example_rust && target/example_rust

use std::io::Write;

extern "C" {
    // A slice passes as its address, which is never null, and its length.
    fn gozhmerik_sheet(batch: *const u8, batch_len: usize, sheet: *mut u8, sheet_len: usize, place: *mut u64) -> u64;
    fn gozhmerik_verdict(batch: *const u8, batch_len: usize, place: *mut u64) -> u64;
    fn gozhmerik_expression(batch: *const u8, batch_len: usize, text: *mut u8, text_len: usize, place: *mut u64) -> u64;
    fn gozhmerik_hoa(file: *const u8, file_len: usize, batch: *mut u8, batch_len: usize, place: *mut u64) -> u64;
}

/// No sheet is longer.
const LONGEST_SHEET: usize = 6400;

/// The batch of no HOA file is longer.
const LONGEST_HOA_BATCH: usize = 778;

/// The sheet of a batch, or the number and the place of a refusal.
fn sheet(batch: &[u8]) -> Result<Vec<u8>, (u64, u64)> {
    let mut text = vec![0; LONGEST_SHEET];
    let mut place = 0;
    // The slices are valid for their lengths and do not overlap, and the function writes only to the last two.
    let value =
        unsafe { gozhmerik_sheet(batch.as_ptr(), batch.len(), text.as_mut_ptr(), text.len(), &mut place) };
    if value >> 32 != 0 {
        return Err((value >> 32, place));
    }
    text.truncate(value as usize);
    Ok(text)
}

/// Is there any word that the automaton of a batch accepts? Or the number and the place of a refusal.
fn verdict(batch: &[u8]) -> Result<bool, (u64, u64)> {
    let mut place = 0;
    // The slice is valid for its length, and the function only reads it.
    match unsafe { gozhmerik_verdict(batch.as_ptr(), batch.len(), &mut place) } {
        refusal if refusal >> 32 != 0 => Err((refusal >> 32, place)),
        value => Ok(value == 1),
    }
}

/// The walk of the sheet of a batch as an expression, where it has no more bytes than `room`; or the number and the place of a refusal.
fn expression(batch: &[u8], room: usize) -> Result<Vec<u8>, (u64, u64)> {
    let mut text = vec![0; room];
    let mut place = 0;
    // As for a sheet.
    let value =
        unsafe { gozhmerik_expression(batch.as_ptr(), batch.len(), text.as_mut_ptr(), text.len(), &mut place) };
    if value >> 32 != 0 {
        return Err((value >> 32, place));
    }
    text.truncate(value as usize);
    Ok(text)
}

/// The batch of the rows of an HOA file, or the number and the place of a refusal.
fn hoa(file: &[u8]) -> Result<Vec<u8>, (u64, u64)> {
    let mut batch = vec![0; LONGEST_HOA_BATCH];
    let mut place = 0;
    // As for a sheet.
    let value = unsafe { gozhmerik_hoa(file.as_ptr(), file.len(), batch.as_mut_ptr(), batch.len(), &mut place) };
    if value >> 32 != 0 {
        return Err((value >> 32, place));
    }
    batch.truncate(value as usize);
    Ok(batch)
}

fn main() -> std::io::Result<()> {
    let case_a = [
        &[1, 0][..],                      // state 0 is initial
        &[2, 1],                          // state 1 is final
        &[3, 1, b'a', 0],                 // 1 to 0 by letter a
        &[4, 0, 0, 0, 0, 0, 0, 0, 3, 1],  // {0, 1} to 1, a left-limit
        &[5, 0, 0, 0, 0, 0, 0, 0, 0, 3],  // 0 to {0, 1}, a right-limit
    ]
    .concat();
    match sheet(&case_a) {
        Ok(text) => std::io::stdout().write_all(&text)?,
        Err((number, place)) => writeln!(std::io::stdout(), "refused {number} at {place}")?,
    }
    // Where only the verdict matters, no sheet is needed.
    writeln!(std::io::stdout(), "{:?}", verdict(&case_a))?;
    // The word behind the sheet.
    match expression(&case_a, 100) {
        Ok(text) => writeln!(std::io::stdout(), "{}", String::from_utf8_lossy(&text))?,
        Err((number, place)) => writeln!(std::io::stdout(), "refused {number} at {place}")?,
    }
    // An HOA file is converted to a batch, which is then as any other: one marked state with an edge to itself.
    let file = b"HOA: v1\nStates: 1\nStart: 0\nAP: 0\nacc-name: Buchi\nAcceptance: 1 Inf(0)\n--BODY--\nState: 0 {0}\n[t] 0\n--END--\n";
    writeln!(std::io::stdout(), "{:?}", hoa(file).and_then(|batch| verdict(&batch)))
}
