/* Jesmovit's operations for C, and for every language that calls C. The library is target/staticlib/libcapi.a, which ./library builds.
 *
 * Texts are bytes, with no zero at their end; a length counts bytes, numbers of a list or numbers of a table. No pointer is null, not even beside a length
 * of 0; each points to as many numbers as its length says, aligned as C aligns them; and what a call may write (list, table, output, answer) overlaps
 * nothing else that it is handed. These rules are the caller's, and nothing tests them. No other is: any bytes and any lengths get their answer.
 *
 * A costs text, the line `costs=16` and a line `c=cost` for each class from 0 to 15, says what a class costs: 0 to 65,535 tenths of a second. A move costs its
 * first class, and its second one too where its formula holds before it. A costs text may be left out: where `given` has the bit JESMOVIT_COSTS_GIVEN it is
 * handed in, and then an empty one is refused; otherwise the house numbers hold, and the bytes of `costs` are not looked at (any pointer that is not null
 * will do, beside a length of 0). No other bit of `given` is looked at yet; leave them 0.
 *
 * Each function gives back 0, or the number of the refusal. Refusals are looked for in this order; of 1 to 3 the first bad line decides:
 *
 *   1  a line of the job text is of wrong form, missing or extra       the place is the line, counted from 1; one past the last for a missing one
 *   2  a count, or init, is outside its range                          the line
 *   3  a kind, reference, class, value or unused field is wrong        the line
 *   8  a variable of the program has too few enclosing picks           the last job line
 *   4  the compiled job has too many positions or steps                the last job line
 *   7  a line of the costs text is of wrong form, missing or extra, or has a cost above 65,535, or one above 0 for class 0    its line
 *   5  the plan text is of wrong form, too long, or has an entry that the job lacks    the line of the plan text
 *   6  the list or the table is too short                              the length needed; where both are, the list's
 *
 * An output's length is looked at last, after the verdict and for a plan alone: one that is too short is refused by 6 too, with the bytes needed.
 *
 * `answer` has room for five numbers, and all five are written. After a refusal they are the place and four zeros, and list, table and output hold what they
 * held before. Otherwise they are what the function's comment says, and zeros.
 *
 * The list, where there is one, is filled whenever nothing is refused: four numbers for each step of the compiled job, its kind (0 no-op, 1 formula arg
 * holds, 2 formula arg doesn't hold, 3 move arg), the positions that it leads from and to, and its arg. 4,096 numbers are enough for every job. The cost
 * table is filled by jesmovit_least_cost, and by jesmovit_judge for a plan: at state * positions + position the least cost of reaching it, in tenths of a
 * second, or JESMOVIT_UNREACHED. A state is the sum of 2^i for each fact i that is true; jesmovit_compile and jesmovit_judge answer how many positions and
 * steps there are. 1,048,576 numbers of 64 bits, 8 MB, are enough for every job. The output of jesmovit_sheet is written for a plan alone; 124,620 bytes are
 * enough for every plan. Numbers and bytes behind the filled ones keep what they held.
 *
 * Tables once had numbers of 32 bits, under the same names of functions. A caller of then compiles anew with this header, and one that has declarations of its
 * own, in C or another language, changes them: the numbers of a table take twice the bytes, and nothing notices an old declaration.
 *
 * The functions keep nothing between calls, use no heap, and may be called from several threads. Each wants at most 128 KB of stack, of which the
 * rows of the job take 24.
 */
#ifndef JESMOVIT_H
#define JESMOVIT_H

#include <stddef.h>
#include <stdint.h>

#ifdef __cplusplus
extern "C" {
#endif

/* In `given`: a costs text is handed in. */
#define JESMOVIT_COSTS_GIVEN 1u

/* An entry of the cost table for a state and position that can't be reached: 18,446,744,073,709,551,615. */
#define JESMOVIT_UNREACHED UINT64_MAX

/* What is said of a plan, of a job's least cost, and of a sheet. */
enum {
    JESMOVIT_PLAN = 0,       /* a plan, with its cost */
    JESMOVIT_BLOCKED = 1,    /* some run makes the first i entries, none the next one; with i */
    JESMOVIT_UNFINISHED = 2, /* all entries can be made, but no such run completes the program */
    JESMOVIT_MISSED = 3,     /* the program completes, and the goal is false */
    JESMOVIT_LEAST = 4,      /* a plan that costs as little as any, with its cost and the least cost, which are equal */
    JESMOVIT_DEARER = 5,     /* a plan that costs more than another, with its cost and the least cost */
    JESMOVIT_COSTS = 6,      /* a job that has plans, with the least cost of them all */
    JESMOVIT_NONE = 7,       /* a job that has no plan, of whatever length */
    JESMOVIT_LAID = 8        /* a plan that is laid out, with the bytes of its sheet */
};

/* Reads a job text. answer: facts, formulas, moves, effects of all moves, program rows; the objects are not among them. Refused by 1 to 3. */
uint32_t jesmovit_read_job(const uint8_t *job, size_t job_length, uint64_t answer[5]);

/* Compiles a job's program. answer: positions, steps, 0, 0, 0. Refused by 1 to 4, by 8, and by 6. */
uint32_t jesmovit_compile(const uint8_t *job, size_t job_length, uint16_t *list, size_t list_length, uint64_t answer[5]);

/* Checks a list of moves, lines `m=move`, against a job's program.
 * answer: JESMOVIT_PLAN and its cost, JESMOVIT_BLOCKED and i, JESMOVIT_UNFINISHED or JESMOVIT_MISSED; then zeros. Refused by 1 to 8. */
uint32_t jesmovit_check_moves(const uint8_t *job, size_t job_length, const uint8_t *plan, size_t plan_length, const uint8_t *costs, size_t costs_length,
                              uint32_t given, uint16_t *list, size_t list_length, uint64_t answer[5]);

/* Checks a list of steps, lines `t=step`, against the compiled job; answer and refusals as for jesmovit_check_moves. */
uint32_t jesmovit_check_steps(const uint8_t *job, size_t job_length, const uint8_t *plan, size_t plan_length, const uint8_t *costs, size_t costs_length,
                              uint32_t given, uint16_t *list, size_t list_length, uint64_t answer[5]);

/* Finds the least cost of all plans that a job's program allows. answer: JESMOVIT_COSTS and the cost, or JESMOVIT_NONE; then zeros. Refused by 1 to 4, by
 * 8, by 7, and by 6. */
uint32_t jesmovit_least_cost(const uint8_t *job, size_t job_length, const uint8_t *costs, size_t costs_length, uint32_t given, uint16_t *list,
                             size_t list_length, uint64_t *table, size_t table_length, uint64_t answer[5]);

/* Judges a list of moves. answer: positions, steps, and then JESMOVIT_LEAST or JESMOVIT_DEARER with the plan's cost and the least cost; or, for what is no
 * plan, JESMOVIT_BLOCKED, i and 0, JESMOVIT_UNFINISHED and zeros, or JESMOVIT_MISSED and zeros. The table is filled for a plan alone. Refused by 1 to 8. */
uint32_t jesmovit_judge(const uint8_t *job, size_t job_length, const uint8_t *plan, size_t plan_length, const uint8_t *costs, size_t costs_length,
                        uint32_t given, uint16_t *list, size_t list_length, uint64_t *table, size_t table_length, uint64_t answer[5]);

/* Lays out a list of moves as a sheet, if it is a plan: lines of 30 bytes and a line feed, 60 to a page, the last page filled with lines of spaces. A line has
 * the row, from 1, in 5 bytes, two spaces, the move in 3, two spaces, its cost in 7, two spaces, and the costs so far in 9, numbers set right. An empty plan
 * has no page. answer: JESMOVIT_LAID and the bytes of the sheet; or, for what is no plan, its verdict as from jesmovit_check_moves, with the list filled and
 * the output untouched; then zeros. Refused by 1 to 8. */
uint32_t jesmovit_sheet(const uint8_t *job, size_t job_length, const uint8_t *plan, size_t plan_length, const uint8_t *costs, size_t costs_length,
                        uint32_t given, uint16_t *list, size_t list_length, uint8_t *output, size_t output_length, uint64_t answer[5]);

#ifdef __cplusplus
}
#endif

#endif
