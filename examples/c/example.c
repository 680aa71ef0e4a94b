/* Case A and an HOA file from C. From the root of the repository:
   (cd crates/ffi_c && rt lib) && install -D -m 644 crates/ffi_c/out/libffi_c.a target/staticlib/libffi.a
   cc -Wall -Wextra examples/c/example.c target/staticlib/libffi.a -o target/example_c && target/example_c */
#include "gozhmerik.h"
#include <inttypes.h>
#include <stdio.h>

static const uint8_t case_a[] = {
    1, 0,                         /* state 0 is initial */
    2, 1,                         /* state 1 is final */
    3, 1, 'a', 0,                 /* 1 to 0 by letter a */
    4, 0, 0, 0, 0, 0, 0, 0, 3, 1, /* {0, 1} to 1, a left-limit */
    5, 0, 0, 0, 0, 0, 0, 0, 0, 3, /* 0 to {0, 1}, a right-limit */
};

/* One marked state with an edge to itself: every word is accepted. */
static const char hoa_true[] = "HOA: v1\nStates: 1\nStart: 0\nAP: 0\nacc-name: Buchi\nAcceptance: 1 Inf(0)\n--BODY--\nState: 0 {0}\n[t] 0\n--END--\n";

int main(void) {
    uint8_t sheet[GOZHMERIK_LONGEST_SHEET];
    uint64_t place = 0;
    uint64_t value = gozhmerik_sheet(case_a, sizeof case_a, sheet, sizeof sheet, &place);
    if (gozhmerik_refusal(value) != 0) {
        printf("refused %u at %" PRIu64 "\n", gozhmerik_refusal(value), place);
        return 1;
    }
    fwrite(sheet, 1, (size_t)value, stdout);
    /* Where only the verdict matters, no sheet is needed. */
    printf("%s\n", gozhmerik_verdict(case_a, sizeof case_a, &place) == 1 ? "some word is accepted" : "no word is accepted");
    /* The word behind the sheet; where it is longer than the buffer, the value is a refusal. */
    uint8_t word[100];
    value = gozhmerik_expression(case_a, sizeof case_a, word, sizeof word, &place);
    if (gozhmerik_refusal(value) != 0) {
        printf("refused %u at %" PRIu64 "\n", gozhmerik_refusal(value), place);
        return 1;
    }
    fwrite(word, 1, (size_t)value, stdout);
    putchar('\n');
    /* An HOA file is converted to a batch, which is then as any other. */
    uint8_t batch[GOZHMERIK_LONGEST_HOA_BATCH];
    value = gozhmerik_hoa((const uint8_t *)hoa_true, sizeof hoa_true - 1, batch, sizeof batch, &place);
    if (gozhmerik_refusal(value) != 0) {
        printf("refused %u at %" PRIu64 "\n", gozhmerik_refusal(value), place);
        return 1;
    }
    printf("%s\n", gozhmerik_verdict(batch, (size_t)value, &place) == 1 ? "some word is accepted" : "no word is accepted");
    return 0;
}
