/* Plans 43 by the non-adjacent form, prints the plan, checks it, takes the digits one by one, and
 * shows a refusal.
 *
 *     ./lesmutka --build
 *     cc -I include examples/c/example.c target/staticlib/liblesmutka.a -o example && ./example
 */
#include <inttypes.h>
#include <stdio.h>

#include "lesmutka.h"

/* Prints why a call said no; answers the exit status. */
static int refused(size_t refusal, size_t place) {
    printf("refused %zu, place %zu: %s\n", refusal, place, lesmutka_words(refusal));
    return 1;
}

int main(void) {
    const uint8_t number[] = {43};
    uint8_t plan[LESMUTKA_PLAN_ROOM];
    uint8_t space[LESMUTKA_WORK_SPACE(LESMUTKA_PLAN_STEPS)];

    lesmutka_counts planned =
        lesmutka_plan(number, sizeof number, LESMUTKA_NAF, 0, plan, sizeof plan);
    if (planned.refusal != 0)
        return refused(planned.refusal, planned.place);
    size_t steps = planned.doublings + planned.additions + planned.subtractions;
    printf("plan: %zu steps\n", steps);
    for (size_t i = 0; i < steps; i++) {
        const uint8_t *step = plan + LESMUTKA_STEP_BYTES * i;
        printf("  %s(%d,%d)\n", step[0] == 0 ? "add" : "subtract", step[1] + 256 * step[2],
               step[3] + 256 * step[4]);
    }

    size_t length = LESMUTKA_STEP_BYTES * steps;
    lesmutka_accepted checked =
        lesmutka_check(number, sizeof number, plan, length, space, sizeof space);
    if (checked.refusal != 0)
        return refused(checked.refusal, checked.place);
    printf("accepted: %zu doublings, %zu additions, %zu subtractions; at most %zu bits\n",
           checked.doublings, checked.additions, checked.subtractions, checked.largest_bits);

    lesmutka_recoder recoder;
    lesmutka_started started = lesmutka_start(number, sizeof number, &recoder);
    if (started.refusal != 0)
        return refused(started.refusal, started.place);
    printf("digits, lowest first:");
    for (uint32_t digit; (digit = lesmutka_take(&recoder)) != LESMUTKA_DONE;)
        printf(" %" PRId8, (int8_t)digit);
    printf("\n");

    /* The last step turned into an addition: the plan ends elsewhere. */
    plan[length - LESMUTKA_STEP_BYTES] = 0;
    lesmutka_accepted damaged =
        lesmutka_check(number, sizeof number, plan, length, space, sizeof space);
    refused(damaged.refusal, damaged.place);
    return 0;
}
