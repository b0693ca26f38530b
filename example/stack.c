/*
 * How much stack and heap the library takes. Each call runs on a stack of its own, filled with a pattern; how deep the
 * pattern is overwritten is what the call used. malloc, realloc and free are wrapped by the linker and counted.
 */
#define _XOPEN_SOURCE 600

#include <stdio.h>
#include <stdlib.h>
#include <string.h>
#include <ucontext.h>

#include "rangecheck.h"
#include "sample.h"

#define STACK (1 << 20)
#define PATTERN 0xA5
/* Keeps the alignment of malloc behind the size that stands in front. */
#define FRONT 16

static uint8_t stack[STACK];
static ucontext_t outside, inside;

static size_t heap_now, heap_most;

void *__real_malloc(size_t size);
void *__real_realloc(void *place, size_t size);
void __real_free(void *place);

void *__wrap_malloc(size_t size) {
    uint8_t *block = __real_malloc(size + FRONT);
    if (block == NULL) {
        return NULL;
    }
    memcpy(block, &size, sizeof size);
    heap_now += size;
    if (heap_now > heap_most) {
        heap_most = heap_now;
    }
    return block + FRONT;
}

void *__wrap_realloc(void *place, size_t size) {
    if (place == NULL) {
        return __wrap_malloc(size);
    }
    size_t before;
    uint8_t *block = (uint8_t *)place - FRONT;
    memcpy(&before, block, sizeof before);
    block = __real_realloc(block, size + FRONT);
    if (block == NULL) {
        return NULL;
    }
    memcpy(block, &size, sizeof size);
    heap_now = heap_now - before + size;
    if (heap_now > heap_most) {
        heap_most = heap_now;
    }
    return block + FRONT;
}

void __wrap_free(void *place) {
    if (place == NULL) {
        return;
    }
    size_t size;
    uint8_t *block = (uint8_t *)place - FRONT;
    memcpy(&size, block, sizeof size);
    heap_now -= size;
    __real_free(block);
}

/* The job, and what is done with it. */
static uint8_t job[RANGECHECK_JOB_MOST + 1];
static size_t job_length;
static uint8_t output[RANGECHECK_ENOUGH];
static int64_t answer;
static uint8_t form;

static void do_nothing(void) {}

static void run_job(void) { answer = rangecheck_job(job, job_length, output, sizeof output); }

static const uint8_t *record_of_job(size_t *length) {
    *length = (size_t)job[0] * 256 + job[1];
    return job + 2;
}

static void read_record(void) {
    size_t length;
    const uint8_t *record = record_of_job(&length);
    answer = -(int64_t)rangecheck_record(record, length);
}

static void enclose(void) {
    static const uint8_t deepest[RANGECHECK_CELL] = {10, 10, 10, 1, 85, 2, 170, 2, 0};
    int64_t ends[3];
    size_t length;
    const uint8_t *record = record_of_job(&length);
    answer = -(int64_t)rangecheck_enclose(form, record, length, deepest, sizeof deepest, ends, 3);
}

/* Bytes of the pattern that the work overwrites. */
static size_t depth_of(void (*work)(void)) {
    memset(stack, PATTERN, sizeof stack);
    if (getcontext(&inside) != 0) {
        abort();
    }
    inside.uc_stack.ss_sp = stack;
    inside.uc_stack.ss_size = sizeof stack;
    inside.uc_link = &outside;
    makecontext(&inside, work, 0);
    if (swapcontext(&outside, &inside) != 0) {
        abort();
    }
    size_t left = 0;
    while (left < sizeof stack && stack[left] == PATTERN) {
        left++;
    }
    return sizeof stack - left;
}

/* Measures a call; a job's answer has to begin with these letters. */
static void measure(const char *name, void (*work)(void), const char *begin) {
    memset(output, 0, sizeof output);
    heap_most = heap_now;
    size_t heap_before = heap_now;
    size_t depth = depth_of(work) - depth_of(do_nothing);
    printf("| %s | %zu | %zu |\n", name, depth, heap_most - heap_before);
    if (answer < 0 || memcmp(output, begin, strlen(begin)) != 0 || heap_now != heap_before) {
        fprintf(stderr, "%s: another answer than expected, or memory was kept\n", name);
        exit(1);
    }
}

/* A job on a mapping of 64 coefficients, without calls: the three bytes of its header, then numbers of both signs. */
static void start_job(uint8_t first, uint8_t second, uint8_t third) {
    const uint8_t start[] = {RANGECHECK_RECORD_MOST / 256, RANGECHECK_RECORD_MOST % 256, first, second, third};
    memcpy(job, start, sizeof start);
    job_length = sizeof start;
    for (uint8_t k = 0; k < 64; k++) {
        const uint8_t low[] = {0, 0, k, 1}, high[] = {255, 255, k, 1};
        memcpy(job + job_length, k % 2 == 0 ? low : high, sizeof low);
        job_length += sizeof low;
    }
}

static void add_call(uint8_t code, uint8_t region, uint8_t argument) {
    const uint8_t call[] = {code, region, argument};
    for (size_t k = 0; k < sizeof call && job_length < RANGECHECK_JOB_MOST; k++) {
        job[job_length++] = call[k];
    }
}

/* Halvings of all regions in turn until 64 are open. */
static void add_halvings(int inputs) {
    for (int round = 0; round < 6; round++) {
        for (int region = 0; region < 1 << round; region++) {
            add_call('H', (uint8_t)region, (uint8_t)(round % inputs + 1));
        }
    }
}

int main(void) {
    printf("| call | stack, bytes | heap, bytes at most |\n|---|---|---|\n");

    memcpy(job, sample_job, sizeof sample_job);
    job_length = sizeof sample_job;
    measure("`rangecheck_job`, the sample job", run_job, "range");

    start_job(0x1B, 0xF0, 0xC0);
    add_halvings(2);
    measure("`rangecheck_job`, degrees 7, 7, 63 halvings", run_job, "range");

    start_job(0x1D, 0xB6, 0xC0);
    measure("`rangecheck_record`, 64 coefficients", read_record, "");
    const char *names[] = {"nested", "Bernstein", "pair"};
    for (form = 0; form < 3; form++) {
        char name[80];
        snprintf(name, sizeof name, "`rangecheck_enclose`, degrees 3, 3, 3, deepest cell, %s", names[form]);
        measure(name, enclose, "");
    }
    add_halvings(3);
    measure("`rangecheck_job`, degrees 3, 3, 3, 63 halvings", run_job, "range");
    for (uint8_t k = 0; job_length < RANGECHECK_JOB_MOST; k++) {
        add_call((uint8_t) "PRCX"[k % 4], k % 64, k % 8);
    }
    measure("`rangecheck_job`, the same and all further calls to 4,096 bytes", run_job, "range");

    const uint8_t constant[] = {0, 7, 0x14, 0, 0, 0, 0, 0, 1};
    memcpy(job, constant, sizeof constant);
    job_length = sizeof constant;
    while (job_length < RANGECHECK_JOB_MOST) {
        add_call('R', 0, 0);
    }
    measure("`rangecheck_job`, one coefficient, 1,362 reports", run_job, "range");

    job_length = sizeof job;
    measure("`rangecheck_job`, 4,097 bytes", run_job, "no 41");
    return 0;
}
