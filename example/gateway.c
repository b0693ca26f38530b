/* How a gateway calls the library: a record, a whole job, a buffer that is too small, and enclosures of cells. */

#include <inttypes.h>
#include <stdio.h>
#include <string.h>

#include "rangecheck.h"
#include "sample.h"

/* The whole box, and its lower and upper half along input 1. */
static const uint8_t cells[] = {
    0, 0, 0, 0, 0, 0, 0, 0, 0, /* all depths 0 */
    1, 0, 0, 0, 0, 0, 0, 0, 0, /* depth 1, place 0 */
    1, 0, 0, 0, 1, 0, 0, 0, 0, /* depth 1, place 1 */
};

#define CELLS (sizeof cells / RANGECHECK_CELL)

/* The sample job's answer in a buffer that holds the answer of every job. Returns its length. */
static int64_t run_job(void) {
    static uint8_t output[RANGECHECK_ENOUGH];
    int64_t length = rangecheck_job(sample_job, sizeof sample_job, output, sizeof output);
    if (length >= 0) {
        fwrite(output, 1, (size_t)length, stdout);
    }
    return length;
}

/* The same job in a buffer that is one byte too short: no byte of it changes. */
static void run_job_in(size_t length) {
    uint8_t output[256], before[256];
    memset(output, 0xAA, sizeof output);
    memcpy(before, output, sizeof output);
    int64_t answer = rangecheck_job(sample_job, sizeof sample_job, output, length);
    int same = memcmp(output, before, sizeof output) == 0;
    printf("with a byte less: %" PRId64 ", %s\n", answer, same ? "no byte changed" : "BYTES CHANGED");
}

int main(void) {
    printf("record: %" PRIu32 "\n", rangecheck_record(sample_record, sizeof sample_record));
    printf("record without its last byte: %" PRIu32 "\n", rangecheck_record(sample_record, sizeof sample_record - 1));

    int64_t length = run_job();
    printf("bytes: %" PRId64 "\n", length);
    if (length < 0) {
        return 1;
    }
    run_job_in((size_t)length - 1);

    int64_t ends[3 * CELLS];
    uint32_t refusal =
        rangecheck_enclose(RANGECHECK_PAIR, sample_record, sizeof sample_record, cells, sizeof cells, ends, 3 * CELLS);
    printf("enclosures: %" PRIu32 "\n", refusal);
    for (size_t k = 0; refusal == 0 && k < CELLS; k++) {
        const int64_t *answer = &ends[3 * k];
        printf("%" PRId64 " to %" PRId64 ", slack %" PRId64 "\n", answer[0], answer[1], answer[2]);
    }
    return 0;
}
