/* A program that only checks a plan: what the library adds to such a one is measured by tests/c/run. With WITHOUT_CALL
 * it is the same program without the library. */
#include "lesmutka.h"

int main(void) {
    /* 3: add(0,0), add(1,0). */
    static const uint8_t number[] = {3}, plan[] = {0, 0, 0, 0, 0, 0, 1, 0, 0, 0};
    static uint8_t space[LESMUTKA_WORK_SPACE(LESMUTKA_PLAN_STEPS)];
#ifdef WITHOUT_CALL
    lesmutka_accepted checked = {plan[0], number[0] - 3u, 1, 1, space[0], 2};
#else
    lesmutka_accepted checked = lesmutka_check(number, sizeof number, plan, sizeof plan, space, sizeof space);
#endif
    return checked.refusal != 0 || checked.doublings != 1 || checked.additions != 1 || checked.subtractions != 0 ||
           checked.largest_bits != 2;
}
