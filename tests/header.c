/* Every function and every name of jesmovit.h, by its own declarations, with what document 01 says of its sample, and of the sample with the program star of
 * (0 or 1), which is sample/rounds.txt. */
#include "../examples/read_file.h"
#include "jesmovit.h"
#include <stdlib.h>
#include <string.h>

static uint8_t sample[65536], rounds[65536], sheet[1860];
static size_t sample_length, rounds_length;
static uint16_t list[36];
static uint64_t table[32], answer[5];

/* A job of one formula, which is false and the goal, and of the program nil. */
static const uint8_t no_plan[] = "job=1\nfacts=0\ninit=0\nformulas=1\nf=0,0,0\nmoves=0\ngoal=0\nobjects=0\nprogram=1\np=0,0,0,0\n";

/* Demands this number from a call, and these five from its answer, and forgets them. */
static void expect(int line, uint32_t number, uint32_t given_back, uint64_t a, uint64_t b, uint64_t c, uint64_t d, uint64_t e)
{
    const uint64_t expected[5] = {a, b, c, d, e};
    if (given_back != number || memcmp(answer, expected, sizeof answer)) {
        fprintf(stderr, "tests/header.c:%d: given back %u, answer %llu %llu %llu %llu %llu\n", line, given_back, (unsigned long long)answer[0],
                (unsigned long long)answer[1], (unsigned long long)answer[2], (unsigned long long)answer[3], (unsigned long long)answer[4]);
        exit(1);
    }
    memset(answer, 7, sizeof answer);
}
#define EXPECT(...) expect(__LINE__, __VA_ARGS__)

/* Demands the sample's steps at the front of the list, and forgets them. */
static void holds_sample_steps(void)
{
    static const uint16_t steps[8] = {3, 0, 1, 0, 3, 1, 2, 1};
    if (memcmp(list, steps, sizeof steps)) {
        fprintf(stderr, "tests/header.c: the list holds other steps\n");
        exit(1);
    }
    memset(list, 7, sizeof list);
}

/* A text that stands in this file, its length, and no costs text. */
#define TEXT(t) (const uint8_t *)(t), sizeof(t) - 1
#define NO_COSTS sample, 0, 0
#define SAMPLE sample, sample_length
#define ROUNDS rounds, rounds_length

static void of_the_sample(void)
{
    EXPECT(0, jesmovit_read_job(SAMPLE, answer), 2, 4, 2, 2, 3);
    EXPECT(0, jesmovit_compile(SAMPLE, list, 8, answer), 3, 2, 0, 0, 0);
    holds_sample_steps();
    EXPECT(0, jesmovit_check_moves(SAMPLE, TEXT("plan=2\nm=0\nm=1\n"), NO_COSTS, list, 8, answer), JESMOVIT_PLAN, 25, 0, 0, 0);
    holds_sample_steps();
    EXPECT(0, jesmovit_check_moves(SAMPLE, TEXT("plan=3\nm=0\nm=1\nm=1\n"), NO_COSTS, list, 8, answer), JESMOVIT_BLOCKED, 2, 0, 0, 0);
    EXPECT(0, jesmovit_check_steps(SAMPLE, TEXT("plan=2\nt=0\nt=1\n"), NO_COSTS, list, 8, answer), JESMOVIT_PLAN, 25, 0, 0, 0);
    EXPECT(0, jesmovit_check_steps(SAMPLE, TEXT("plan=1\nt=0\n"), NO_COSTS, list, 8, answer), JESMOVIT_UNFINISHED, 0, 0, 0, 0);
    holds_sample_steps();
    EXPECT(0, jesmovit_least_cost(SAMPLE, NO_COSTS, list, 8, table, 12, answer), JESMOVIT_COSTS, 25, 0, 0, 0);
    holds_sample_steps();
    if (table[1] != JESMOVIT_UNREACHED || table[2 * 3 + 1] != 20 || table[3 * 3 + 2] != 25) {
        fprintf(stderr, "tests/header.c: the table holds other costs\n");
        exit(1);
    }
    EXPECT(0, jesmovit_judge(SAMPLE, TEXT("plan=2\nm=0\nm=1\n"), NO_COSTS, list, 8, table, 12, answer), 3, 2, JESMOVIT_LEAST, 25, 25);
    EXPECT(0, jesmovit_sheet(SAMPLE, TEXT("plan=2\nm=0\nm=1\n"), NO_COSTS, list, 8, sheet, sizeof sheet, answer), JESMOVIT_LAID, 1860, 0, 0, 0);
    holds_sample_steps();
    if (memcmp(sheet + 31, "    2    1        5         25\n", 31)) {
        fprintf(stderr, "tests/header.c: the sheet has another second line\n");
        exit(1);
    }
}

static void of_other_jobs(void)
{
    EXPECT(0, jesmovit_judge(ROUNDS, TEXT("plan=3\nm=0\nm=0\nm=1\n"), NO_COSTS, list, 36, table, 32, answer), 8, 9, JESMOVIT_DEARER, 45, 25);
    EXPECT(0, jesmovit_judge(ROUNDS, TEXT("plan=0\n"), NO_COSTS, list, 36, table, 32, answer), 8, 9, JESMOVIT_MISSED, 0, 0);
    EXPECT(0, jesmovit_least_cost(TEXT(no_plan), NO_COSTS, list, 4, table, 2, answer), JESMOVIT_NONE, 0, 0, 0, 0);
    EXPECT(7, jesmovit_least_cost(SAMPLE, TEXT(""), JESMOVIT_COSTS_GIVEN, list, 8, table, 12, answer), 1, 0, 0, 0, 0);
    EXPECT(6, jesmovit_judge(SAMPLE, TEXT("plan=0\n"), NO_COSTS, list, 8, table, 11, answer), 12, 0, 0, 0, 0);
}

int main(void)
{
    sample_length = read_file("sample/job.txt", sample);
    rounds_length = read_file("sample/rounds.txt", rounds);
    of_the_sample();
    of_other_jobs();
    return 0;
}
