/* sheet JOB PLAN [COSTS]: prints the plan in a file as a sheet, by the class costs in a file or, where none is named, by the house's; by the library's C
 * interface. */
#include "jesmovit.h"
#include "read_file.h"
#include <stdio.h>

static uint16_t list[4096];
static uint8_t sheet[124620];

int main(int count, char **arguments)
{
    static uint8_t job[65536], plan[65536], costs[65536];
    static const char *const words[] = {"plan", "blocked", "unfinished", "missed"};
    uint64_t answer[5];
    if (count != 3 && count != 4) {
        fprintf(stderr, "usage: sheet JOB PLAN [COSTS]\n");
        return 2;
    }
    size_t job_length = read_file(arguments[1], job);
    size_t plan_length = read_file(arguments[2], plan);
    size_t costs_length = count == 4 ? read_file(arguments[3], costs) : 0;
    uint32_t given = count == 4 ? JESMOVIT_COSTS_GIVEN : 0;
    uint32_t refusal = jesmovit_sheet(job, job_length, plan, plan_length, costs, costs_length, given, list, 4096, sheet, sizeof sheet, answer);
    if (refusal) {
        fprintf(stderr, "refused by %u at %llu\n", (unsigned)refusal, (unsigned long long)answer[0]);
        return 1;
    }
    if (answer[0] != JESMOVIT_LAID) {
        fprintf(stderr, "no plan: %s", words[answer[0]]);
        if (answer[0] == JESMOVIT_BLOCKED)
            fprintf(stderr, " at %llu", (unsigned long long)answer[1]);
        fprintf(stderr, "\n");
        return 1;
    }
    if (fwrite(sheet, 1, answer[1], stdout) != answer[1] || fflush(stdout)) {
        perror("standard output");
        return 2;
    }
    return 0;
}
