/*
 * A range checker for gateway mappings: can the value of a mapping leave its register?
 *
 * docs/RECORDS.md has the format of a record, docs/JOB.md that of a job and its lines, docs/FORMS.md the enclosure
 * forms, docs/LIBRARY.md the commands that link the library and its figures.
 *
 * What holds for all functions:
 * - Every input gets an answer. Bad bytes get a number; nothing ends the program.
 * - The caller owns every buffer. What is handed over as const is only read. Nothing is kept after a call, and
 *   nothing has to be freed.
 * - A pointer is never NULL, even where its length is 0. It points to at least as many elements as its length says.
 *   Buffers do not overlap. `ends` is aligned as int64_t is.
 * - There is no state between calls, so that threads may call at the same time. rangecheck_job takes memory by
 *   malloc and realloc and gives all of it back by free before it returns; the others take none. Since malloc may not
 *   be called in a signal handler, neither may rangecheck_job.
 * - docs/LIBRARY.md has the measured figures of stack use.
 */
#ifndef RANGECHECK_H
#define RANGECHECK_H

#include <stddef.h>
#include <stdint.h>

#ifdef __cplusplus
extern "C" {
#endif

/* A record has 3 + 4 * N bytes, where N, the number of coefficients, is 1 to 64. Any other length is refused. */
#define RANGECHECK_RECORD_MOST 259

/* A job has at most so many bytes. A longer one is answered by its refusal, the line "no 41". */
#define RANGECHECK_JOB_MOST 4096

/*
 * An output buffer of so many bytes holds the answer of every job.
 *
 * Lines: a job that is run has two length bytes, a record of at least 7 bytes, and calls of 3 bytes. That leaves
 * 4,087 bytes for calls: 1,362 whole ones and one cut short. Each gives one line. With the range after the opening
 * and the verdict at the end there are at most 1,365 lines. A refused job has one.
 *
 * Bytes: the longest line is "range", three numbers, "leaves", four spaces and a newline. A number of 64 bits takes
 * at most 20 bytes, sign included. That makes 5 + 3 * 20 + 6 + 4 + 1 = 76. The last line of a job is shorter: at most
 * "verdict leaves" and three times " 1024/1024", and a newline.
 */
#define RANGECHECK_ENOUGH (1365 * 76)

/* A cell in a list of cells has so many bytes. */
#define RANGECHECK_CELL 9

/* What rangecheck_job returns where it writes nothing. */
#define RANGECHECK_SMALL_OUTPUT (-1)
#define RANGECHECK_NO_MEMORY (-2)

/* The enclosure forms of rangecheck_enclose. */
#define RANGECHECK_NESTED 0
#define RANGECHECK_BERNSTEIN 1
#define RANGECHECK_PAIR 2

/*
 * Reads and checks a record.
 *
 * Returns 0 where it is accepted, else the first refusal that applies:
 *   1  fewer than 3 bytes
 *   2  the format is not 1
 *   3  no inputs
 *   4  an absent input has a degree other than 0
 *   5  one of the two zero bits is set
 *   6  more than 64 coefficients
 *   7  the length is not 3 + 4 * N bytes
 */
uint32_t rangecheck_record(const uint8_t *record, size_t record_length);

/*
 * Runs a whole job and writes its lines to the first bytes of `output`, each ended by a newline (byte 10). No zero
 * byte is put behind them.
 *
 * Returns the number of bytes written, which is at least 1; the bytes behind them stay as they were. Or
 *   RANGECHECK_SMALL_OUTPUT  (-1)  the lines do not fit `output`
 *   RANGECHECK_NO_MEMORY     (-2)  malloc or realloc gave no memory
 * and then no byte of `output` has changed. A job that is refused is answered by its line, "no" and the number, as
 * docs/JOB.md says; that is no error of this function.
 */
int64_t rangecheck_job(const uint8_t *input, size_t input_length, uint8_t *output, size_t output_length);

/*
 * Asks a form for an enclosure of a mapping's values over each cell of a list.
 *
 * `form` is one of RANGECHECK_NESTED, RANGECHECK_BERNSTEIN and RANGECHECK_PAIR; a job uses the pair. A cell is
 * RANGECHECK_CELL bytes: the depths of inputs 1, 2 and 3, one byte each, then their places, two bytes each, the most
 * significant first. An input runs from place / 2^depth to (place + 1) / 2^depth; the whole box is all zeros.
 *
 * Of cell k, counted from 0, ends[3 * k] becomes the low end, ends[3 * k + 1] the high end and ends[3 * k + 2] the
 * slack, all in steps. `ends_length` counts numbers, not bytes.
 *
 * Returns 0, and the numbers behind the answers stay as they were; or the first refusal that applies, and then no
 * number has changed:
 *   1 to 7  the record is refused, as by rangecheck_record
 *   71      no such form
 *   72      the length of the list is no multiple of 9, or a cell is outside the limits (a depth over 10, a place
 *           not below 2^depth)
 *   73      fewer than three ends for each cell
 */
uint32_t rangecheck_enclose(uint8_t form, const uint8_t *record, size_t record_length, const uint8_t *cells,
                            size_t cells_length, int64_t *ends, size_t ends_length);

#ifdef __cplusplus
}
#endif

#endif
