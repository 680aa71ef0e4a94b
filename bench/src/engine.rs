//! The proved engine, over its C interface.

#[cfg(engine)]
extern "C" {
    /// A slice passes as its address, which is never null, and its length.
    fn gozhmerik_sheet(batch: *const u8, batch_len: usize, sheet: *mut u8, sheet_len: usize, place: *mut u64) -> u64;
    fn gozhmerik_verdict(batch: *const u8, batch_len: usize, place: *mut u64) -> u64;
    fn gozhmerik_expression(batch: *const u8, batch_len: usize, text: *mut u8, text_len: usize, place: *mut u64)
        -> u64;
    fn gozhmerik_hoa(file: *const u8, file_len: usize, batch: *mut u8, batch_len: usize, place: *mut u64) -> u64;
}

/// Whether the archive is linked.
pub const THERE: bool = cfg!(engine);

/// A call: the batch, the buffer, the place. Its value is a length or the refusal's number times 2^32.
pub type Call = fn(&[u8], &mut [u8], &mut u64) -> u64;

/// The sheet's length, or the refusal's number times 2^32 with its place in `place`.
#[cfg(engine)]
#[inline]
pub fn sheet(batch: &[u8], sheet: &mut [u8], place: &mut u64) -> u64 {
    unsafe { gozhmerik_sheet(batch.as_ptr(), batch.len(), sheet.as_mut_ptr(), sheet.len(), place) }
}

#[cfg(not(engine))]
pub fn sheet(batch: &[u8], sheet: &mut [u8], place: &mut u64) -> u64 {
    plain(batch, sheet, place)
}

/// 1 for non-empty, 0 for empty, or the refusal's number times 2^32 with its place in `place`. The buffer is as it was.
#[cfg(engine)]
#[inline]
pub fn verdict(batch: &[u8], _: &mut [u8], place: &mut u64) -> u64 {
    unsafe { gozhmerik_verdict(batch.as_ptr(), batch.len(), place) }
}

#[cfg(not(engine))]
pub fn verdict(batch: &[u8], sheet: &mut [u8], place: &mut u64) -> u64 {
    plain_verdict(batch, sheet, place)
}

/// The expression's length, or the refusal's number times 2^32 with its place in `place`.
#[cfg(engine)]
#[inline]
pub fn expression(batch: &[u8], text: &mut [u8], place: &mut u64) -> u64 {
    unsafe { gozhmerik_expression(batch.as_ptr(), batch.len(), text.as_mut_ptr(), text.len(), place) }
}

#[cfg(not(engine))]
pub fn expression(batch: &[u8], text: &mut [u8], place: &mut u64) -> u64 {
    plain::expression(batch, text, place)
}

/// The length of the batch of an HOA file, or the refusal's number times 2^32 with its place in `place`.
#[cfg(engine)]
#[inline]
pub fn hoa(file: &[u8], batch: &mut [u8], place: &mut u64) -> u64 {
    unsafe { gozhmerik_hoa(file.as_ptr(), file.len(), batch.as_mut_ptr(), batch.len(), place) }
}

#[cfg(not(engine))]
pub fn hoa(file: &[u8], batch: &mut [u8], place: &mut u64) -> u64 {
    plain::hoa(file, batch, place)
}

/// What the verdict must be: the first line of plain Rust's sheet, or its refusal.
pub fn plain_verdict(batch: &[u8], _: &mut [u8], place: &mut u64) -> u64 {
    let mut text = [0; plain::LONGEST_SHEET];
    match plain(batch, &mut text, place) {
        length if length >> 32 == 0 => text.starts_with(b"verdict nonempty") as u64,
        refusal => refusal,
    }
}

/// Plain Rust under the same interface.
#[inline]
pub fn plain(batch: &[u8], sheet: &mut [u8], place: &mut u64) -> u64 {
    match plain::plain_sheet(batch, sheet) {
        Ok(length) => length as u64,
        Err((number, at)) => {
            *place = at as u64;
            (number as u64) << 32
        }
    }
}
