/* Reads a plan from standard input by the strict load and prints what it answers. */
#include "cycle_planner.h"
#include <inttypes.h>
#include <stdio.h>

int main(void)
{
    static uint8_t plan[16385];
    size_t length = fread(plan, 1, sizeof plan, stdin);
    static cp_planner planner;
    cp_answer answer = cp_load_strict(&planner, plan, length);
    if (answer.refusal == 0)
        printf("ports %" PRIu64 " flows %" PRIu64 "\n", answer.first, answer.second);
    else
        printf("refused %" PRIu32 " place %" PRIu64 "\n", answer.refusal, answer.first);
    return 0;
}
