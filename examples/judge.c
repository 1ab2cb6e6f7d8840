/* judge JOB PLAN [COSTS]: judges the plan in a file for the job in a file, by the class costs in a file or, where none is named, by the house's; by the
 * library's C interface. */
#include "jesmovit.h"
#include "read_file.h"
#include <stdio.h>

static uint16_t list[4096];
static uint64_t table[1048576];

int main(int count, char **arguments)
{
    static uint8_t job[65536], plan[65536], costs[65536];
    static const char *const words[] = {"plan", "blocked", "unfinished", "missed", "least", "dearer"};
    uint64_t answer[5];
    if (count != 3 && count != 4) {
        fprintf(stderr, "usage: judge JOB PLAN [COSTS]\n");
        return 2;
    }
    size_t job_length = read_file(arguments[1], job);
    size_t plan_length = read_file(arguments[2], plan);
    size_t costs_length = count == 4 ? read_file(arguments[3], costs) : 0;
    uint32_t given = count == 4 ? JESMOVIT_COSTS_GIVEN : 0;
    uint32_t refusal = jesmovit_judge(job, job_length, plan, plan_length, costs, costs_length, given, list, 4096, table, 1048576, answer);
    if (refusal) {
        printf("refused by %u at %llu\n", (unsigned)refusal, (unsigned long long)answer[0]);
        return 1;
    }
    printf("%s", words[answer[2]]);
    if (answer[2] == JESMOVIT_BLOCKED)
        printf(" at %llu", (unsigned long long)answer[3]);
    if (answer[2] >= JESMOVIT_LEAST)
        printf(": cost %llu, least cost %llu", (unsigned long long)answer[3], (unsigned long long)answer[4]);
    printf("\n");
    return 0;
}
