/* Gozhmerik: does an automaton on linear orderings accept any word? The library is target/staticlib/libffi.a, as
   docs/FORMAT.md makes it of what `rt lib` in crates/ffi_c proves and writes; it is for x86-64. That page explains batches, sheets and refusals. */
#ifndef GOZHMERIK_H
#define GOZHMERIK_H

#include <stddef.h>
#include <stdint.h>

#ifdef __cplusplus
extern "C" {
#endif

/* No sheet is longer, so a buffer of this length is never too short. */
#define GOZHMERIK_LONGEST_SHEET 6400

/* The batch of no HOA file is longer. */
#define GOZHMERIK_LONGEST_HOA_BATCH 778

/* Loads the batch into a fresh session, closes it, does rounds until it is settled and prints the sheet.

   Sheet: the value returned is its length, below 2^32; the bytes of `sheet` beyond that length are as they were.
   Refusal: the value returned is its number times 2^32; its place is in *place, and `sheet` is as it was.

   `batch` has batch_len bytes, any bytes, and is only read; `sheet` has sheet_len bytes. No pointer may be null, even
   where its length is 0, and the three must not overlap. Nothing is kept between calls. */
uint64_t gozhmerik_sheet(const uint8_t *batch, size_t batch_len, uint8_t *sheet, size_t sheet_len, uint64_t *place);

/* The same batch, its verdict alone: no rounds are done and no sheet is written, which is faster.

   Verdict: the value returned is 1 for non-empty, 0 for empty, as the first line of the sheet says.
   Refusal: the value returned is its number times 2^32, and its place is in *place. */
uint64_t gozhmerik_verdict(const uint8_t *batch, size_t batch_len, uint64_t *place);

/* The same batch, the walk of its sheet as an expression, without a line end: the word behind a non-empty sheet.

   Expression: the value returned is its length, below 2^32; the bytes of `text` beyond that length are as they were.
   Refusal: the value returned is its number times 2^32, 17 where the verdict is empty, 12 where the expression is longer
   than text_len; its place is in *place, and `text` is as it was.

   An expression can be very long: its length may double with each set. Of a buffer of more than 2^32 - 1 bytes the first
   2^32 - 1 are used, and an expression that is longer is refused as 12. For `text` and text_len holds what holds above
   for `sheet` and sheet_len. */
uint64_t gozhmerik_expression(const uint8_t *batch, size_t batch_len, uint8_t *text, size_t text_len, uint64_t *place);

/* Converts a Hanoi Omega-Automata file, version 1, of a Buchi automaton with one to six states, to the batch of its rows; docs/FORMAT.md
   says which lines it has. The batch's verdict is non-empty exactly when a marked state that the start reaches lies on a cycle.

   Batch: the value returned is its length, below 2^32; the bytes of `batch` beyond that length are as they were.
   Refusal: the value returned is its number times 2^32, 20 for a line of another form, 21 for a number that may not stand there, 12
   where the batch is longer than batch_len; its place is in *place, and `batch` is as it was.

   `file` has file_len bytes, any bytes, and is only read. For pointers holds what holds above. */
uint64_t gozhmerik_hoa(const uint8_t *file, size_t file_len, uint8_t *batch, size_t batch_len, uint64_t *place);

/* The number of a refusal, 0 if the value is the length of a text or a verdict. */
static inline unsigned gozhmerik_refusal(uint64_t value) { return (unsigned)(value >> 32); }

#ifdef __cplusplus
}
#endif

#endif
