/* The boundary between C and the library: every constant of the header, layout of the answers, empty buffers,
 * recoders, what a check answers, the wide form and the modified one, the reading of text, versions and words. */
#include <stdio.h>
#include <stdlib.h>
#include <string.h>

#include "lesmutka.h"

static int tests = 0;

#define EXPECT(fact)                                                                                \
    do {                                                                                            \
        tests++;                                                                                    \
        if (!(fact)) {                                                                              \
            printf("%s:%d: does not hold: %s\n", __FILE__, __LINE__, #fact);                        \
            exit(1);                                                                                \
        }                                                                                           \
    } while (0)

static void limits(void) {
    lesmutka_limits_t linked = lesmutka_limits();
    EXPECT(linked.number_bytes == LESMUTKA_NUMBER_BYTES);
    EXPECT(linked.string_digits == LESMUTKA_STRING_DIGITS);
    EXPECT(linked.step_bytes == LESMUTKA_STEP_BYTES);
    EXPECT(linked.plan_steps == LESMUTKA_PLAN_STEPS);
    EXPECT(linked.record_bytes == LESMUTKA_RECORD_BYTES);
    EXPECT(linked.value_bytes == LESMUTKA_VALUE_BYTES);
}

/* The widest windows are taken, and a bit more is refused. */
static void widest(uint32_t method, uint32_t width) {
    const uint8_t number[] = {43};
    EXPECT(lesmutka_forecast(number, 1, method, width).refusal == 0);
    EXPECT(lesmutka_forecast(number, 1, method, width + 1).refusal == LESMUTKA_METHOD_OR_WIDTH);
}

/* The widths of a NAF are taken, and no other, those that look like one in their lowest byte included. */
static void widths(void) {
    const uint8_t number[] = {43}, digit[] = {1};
    uint8_t out[8];
    const uint32_t large[] = {255, 256, 257, 258, 264, UINT32_C(1) << 31, UINT32_MAX};
    for (uint32_t i = 0; i < LESMUTKA_LARGEST_WIDTH + 3 + sizeof large / sizeof large[0]; i++) {
        uint32_t width = i < LESMUTKA_LARGEST_WIDTH + 3 ? i : large[i - LESMUTKA_LARGEST_WIDTH - 3];
        int allowed = width >= LESMUTKA_LEAST_WIDTH && width <= LESMUTKA_LARGEST_WIDTH;
        size_t refusal = allowed ? 0 : LESMUTKA_METHOD_OR_WIDTH;
        EXPECT(lesmutka_forecast(number, 1, LESMUTKA_WIDE_NAF, width).refusal == refusal);
        EXPECT(lesmutka_recode_wide(number, 1, width, out, sizeof out).refusal == refusal);
        EXPECT(lesmutka_clean_wide(digit, 1, width, out, sizeof out).refusal == refusal);
        EXPECT(lesmutka_read_back_wide(digit, 1, width, out, sizeof out).refusal == refusal);
    }
}

/* A pointer may be NULL where its length is 0. */
static void empty_buffers(void) {
    const uint8_t one[] = {1};
    uint8_t space[LESMUTKA_WORK_SPACE(0)];

    lesmutka_length recoded = lesmutka_recode(NULL, 0, NULL, 0);
    EXPECT(recoded.refusal == 0 && recoded.place == 0 && recoded.length == 0);
    recoded = lesmutka_recode(one, 1, NULL, 0);
    EXPECT(recoded.refusal == LESMUTKA_ROOM_TOO_SMALL && recoded.place == 1 && recoded.length == 0);
    recoded = lesmutka_recode_words(NULL, 0, NULL, 0);
    EXPECT(recoded.refusal == 0 && recoded.place == 0 && recoded.length == 0);
    recoded = lesmutka_recode_words(one, 1, NULL, 0);
    EXPECT(recoded.refusal == LESMUTKA_ROOM_TOO_SMALL && recoded.place == 1 && recoded.length == 0);
    recoded = lesmutka_recode_wide(NULL, 0, 4, NULL, 0);
    EXPECT(recoded.refusal == 0 && recoded.place == 0 && recoded.length == 0);
    recoded = lesmutka_recode_wide(one, 1, 4, NULL, 0);
    EXPECT(recoded.refusal == LESMUTKA_ROOM_TOO_SMALL && recoded.place == 1 && recoded.length == 0);
    recoded = lesmutka_recode_modified(NULL, 0, NULL, 0);
    EXPECT(recoded.refusal == 0 && recoded.place == 0 && recoded.length == 0);
    recoded = lesmutka_recode_modified(one, 1, NULL, 0);
    EXPECT(recoded.refusal == LESMUTKA_ROOM_TOO_SMALL && recoded.place == 1 && recoded.length == 0);
    lesmutka_length cleaned = lesmutka_clean(NULL, 0, NULL, 0);
    EXPECT(cleaned.refusal == 0 && cleaned.place == 0 && cleaned.length == 0);
    cleaned = lesmutka_clean_wide(NULL, 0, 4, NULL, 0);
    EXPECT(cleaned.refusal == 0 && cleaned.place == 0 && cleaned.length == 0);
    lesmutka_value value = lesmutka_read_back(NULL, 0, NULL, 0);
    EXPECT(value.refusal == 0 && value.place == 0 && value.sign == 0 && value.length == 0);
    value = lesmutka_read_back_wide(NULL, 0, 4, NULL, 0);
    EXPECT(value.refusal == 0 && value.place == 0 && value.sign == 0 && value.length == 0);
    value = lesmutka_read_back_wide(one, 1, 4, NULL, 0);
    EXPECT(value.refusal == LESMUTKA_ROOM_TOO_SMALL && value.place == 1 && value.sign == 0 && value.length == 0);
    lesmutka_counts planned = lesmutka_plan(NULL, 0, LESMUTKA_BINARY, 0, NULL, 0);
    EXPECT(planned.refusal == LESMUTKA_NUMBER_IS_ZERO && planned.place == 0);
    planned = lesmutka_plan(one, 1, LESMUTKA_BINARY, 0, NULL, 0);
    EXPECT(planned.refusal == 0 && planned.doublings + planned.additions + planned.subtractions == 0);
    lesmutka_counts forecast = lesmutka_forecast(NULL, 0, LESMUTKA_BINARY, 0);
    EXPECT(forecast.refusal == LESMUTKA_NUMBER_IS_ZERO && forecast.place == 0);
    lesmutka_accepted checked = lesmutka_check(NULL, 0, NULL, 0, NULL, 0);
    EXPECT(checked.refusal == LESMUTKA_NUMBER_IS_ZERO && checked.place == 0);
    checked = lesmutka_check(one, 1, NULL, 0, NULL, 0);
    EXPECT(checked.refusal == LESMUTKA_WORK_SPACE_TOO_SHORT && checked.place == 0);
    EXPECT(checked.largest_bits == 0);
    checked = lesmutka_check(one, 1, NULL, 0, space, sizeof space);
    EXPECT(checked.refusal == 0 && checked.place == 0 && checked.largest_bits == 1);
    EXPECT(checked.doublings == 0 && checked.additions == 0 && checked.subtractions == 0);
}

/* A recoder stands for its words, plus one where the last is not 0. */
static void recoders(void) {
    uint8_t number[LESMUTKA_NUMBER_BYTES + 1] = {0};
    lesmutka_recoder recoder, before;

    memset(&recoder, 0xa5, sizeof recoder);
    lesmutka_started started = lesmutka_start(NULL, 0, &recoder);
    EXPECT(started.refusal == 0 && started.place == 0);
    EXPECT(lesmutka_take(&recoder) == LESMUTKA_DONE);

    memset(&recoder, 0xa5, sizeof recoder);
    started = lesmutka_start(number, sizeof number, &recoder);
    EXPECT(started.refusal == LESMUTKA_NUMBER_TOO_LONG && started.place == 0);
    before = recoder;
    EXPECT(lesmutka_take(&recoder) == LESMUTKA_DONE);
    EXPECT(memcmp(&recoder, &before, sizeof recoder) == 0);

    memset(&recoder, 0, sizeof recoder);
    recoder.words[0] = 2;
    recoder.words[LESMUTKA_NUMBER_BYTES / 8] = UINT64_MAX;
    EXPECT(lesmutka_take(&recoder) == 0xff);
    EXPECT(lesmutka_take(&recoder) == 0x00);
    EXPECT(lesmutka_take(&recoder) == 0x01);
    before = recoder;
    EXPECT(lesmutka_take(&recoder) == LESMUTKA_DONE);
    EXPECT(lesmutka_take(&recoder) == LESMUTKA_DONE);
    EXPECT(memcmp(&recoder, &before, sizeof recoder) == 0);
}

/* Writes a step of a plan. */
static size_t step(uint8_t *plan, size_t operation, size_t j, size_t k) {
    plan[0] = (uint8_t)operation;
    plan[1] = (uint8_t)(j % 256);
    plan[2] = (uint8_t)(j / 256);
    plan[3] = (uint8_t)(k % 256);
    plan[4] = (uint8_t)(k / 256);
    return LESMUTKA_STEP_BYTES;
}

/* A plan of this many doublings. */
static size_t doublings(uint8_t *plan, size_t steps) {
    size_t length = 0;
    for (size_t i = 0; i < steps; i++)
        length += step(plan + length, 0, i, i);
    return length;
}

/* Each room of the header is what the longest answer takes, and no less. */
static void rooms(void) {
    uint8_t number[LESMUTKA_NUMBER_BYTES], digits[LESMUTKA_STRING_DIGITS], out[LESMUTKA_PLAN_ROOM];
    memset(number, 0xff, sizeof number);
    memset(digits, 0x01, sizeof digits);
    EXPECT(lesmutka_recode(number, sizeof number, out, LESMUTKA_RECODE_ROOM).length == LESMUTKA_RECODE_ROOM);
    EXPECT(lesmutka_recode_words(number, sizeof number, out, LESMUTKA_RECODE_ROOM).length == LESMUTKA_RECODE_ROOM);
    EXPECT(lesmutka_recode_modified(number, sizeof number, out, LESMUTKA_RECODE_ROOM).length == LESMUTKA_RECODE_ROOM);
    EXPECT(lesmutka_clean(digits, sizeof digits, out, LESMUTKA_CLEAN_ROOM).length == LESMUTKA_CLEAN_ROOM);
    EXPECT(lesmutka_read_back(digits, sizeof digits, out, LESMUTKA_READ_BACK_ROOM).length == LESMUTKA_READ_BACK_ROOM);
    EXPECT(lesmutka_recode(number, sizeof number, out, LESMUTKA_RECODE_ROOM - 1).place == LESMUTKA_RECODE_ROOM);
    EXPECT(lesmutka_recode_words(number, sizeof number, out, LESMUTKA_RECODE_ROOM - 1).place == LESMUTKA_RECODE_ROOM);
    EXPECT(lesmutka_recode_modified(number, sizeof number, out, LESMUTKA_RECODE_ROOM - 1).place ==
           LESMUTKA_RECODE_ROOM);
    EXPECT(lesmutka_clean(digits, sizeof digits, out, LESMUTKA_CLEAN_ROOM - 1).place == LESMUTKA_CLEAN_ROOM);
    EXPECT(lesmutka_read_back(digits, sizeof digits, out, LESMUTKA_READ_BACK_ROOM - 1).place == LESMUTKA_READ_BACK_ROOM);

    /* In the wide form: the largest digits have the largest size; as many of them as the width above a 1, and zeros
     * below, are the longest once they are cleaned. */
    const uint32_t width = LESMUTKA_LARGEST_WIDTH;
    for (uint32_t w = LESMUTKA_LEAST_WIDTH; w <= width; w++) {
        EXPECT(lesmutka_recode_wide(number, sizeof number, w, out, LESMUTKA_RECODE_ROOM).length == LESMUTKA_RECODE_ROOM);
        EXPECT(lesmutka_recode_wide(number, sizeof number, w, out, LESMUTKA_RECODE_ROOM - 1).place ==
               LESMUTKA_RECODE_ROOM);
    }
    memset(digits, 127, sizeof digits);
    EXPECT(lesmutka_read_back_wide(digits, sizeof digits, width, out, LESMUTKA_READ_BACK_WIDE_ROOM).length ==
           LESMUTKA_READ_BACK_WIDE_ROOM);
    EXPECT(lesmutka_read_back_wide(digits, sizeof digits, width, out, LESMUTKA_READ_BACK_WIDE_ROOM - 1).place ==
           LESMUTKA_READ_BACK_WIDE_ROOM);
    memset(digits, 0, sizeof digits - width);
    digits[sizeof digits - width - 1] = 1;
    EXPECT(lesmutka_clean_wide(digits, sizeof digits, width, out, LESMUTKA_CLEAN_WIDE_ROOM).length ==
           LESMUTKA_CLEAN_WIDE_ROOM);
    EXPECT(lesmutka_clean_wide(out, LESMUTKA_CLEAN_WIDE_ROOM, width, NULL, 0).refusal == LESMUTKA_STRING_TOO_LONG);
    EXPECT(lesmutka_clean_wide(digits, sizeof digits, width, out, LESMUTKA_CLEAN_WIDE_ROOM - 1).place ==
           LESMUTKA_CLEAN_WIDE_ROOM);
}

/* Each method of the header is the one of that name: 43 by widths at which the counts tell them apart. */
static void methods(void) {
    const uint8_t number[] = {43};
    lesmutka_counts binary = lesmutka_forecast(number, 1, LESMUTKA_BINARY, 0);
    lesmutka_counts fixed = lesmutka_forecast(number, 1, LESMUTKA_FIXED_WINDOWS, 3);
    lesmutka_counts sliding = lesmutka_forecast(number, 1, LESMUTKA_SLIDING_WINDOWS, 3);
    lesmutka_counts naf = lesmutka_forecast(number, 1, LESMUTKA_NAF, 0);
    lesmutka_counts wide = lesmutka_forecast(number, 1, LESMUTKA_WIDE_NAF, 4);
    lesmutka_counts modified = lesmutka_forecast(number, 1, LESMUTKA_MODIFIED_NAF, 0);
    EXPECT(binary.refusal == 0 && binary.doublings == 5 && binary.additions == 3 && binary.subtractions == 0);
    EXPECT(fixed.refusal == 0 && fixed.doublings == 4 && fixed.additions == 6 && fixed.subtractions == 0);
    EXPECT(sliding.refusal == 0 && sliding.doublings == 4 && sliding.additions == 4 && sliding.subtractions == 0);
    EXPECT(naf.refusal == 0 && naf.doublings == 6 && naf.additions == 0 && naf.subtractions == 3);
    EXPECT(wide.refusal == 0 && wide.doublings == 5 && wide.additions == 3 && wide.subtractions == 1);
    EXPECT(modified.refusal == 0 && modified.doublings == 5 && modified.additions == 1 && modified.subtractions == 2);
    /* The next is none, nor is one that looks like the last in its lowest byte; the last takes no width. */
    const uint32_t none[][2] = {{LESMUTKA_MODIFIED_NAF + 1, 0}, {256 + LESMUTKA_MODIFIED_NAF, 0},
                                {LESMUTKA_MODIFIED_NAF, 1},     {LESMUTKA_MODIFIED_NAF, LESMUTKA_LARGEST_WIDTH}};
    for (size_t i = 0; i < sizeof none / sizeof none[0]; i++) {
        EXPECT(lesmutka_forecast(number, 1, none[i][0], none[i][1]).refusal == LESMUTKA_METHOD_OR_WIDTH);
        EXPECT(lesmutka_plan(number, 1, none[i][0], none[i][1], NULL, 0).refusal == LESMUTKA_METHOD_OR_WIDTH);
    }
}

/* Each refusal of the header is given where its name says. */
static void refusals(void) {
    const uint8_t one[] = {1};
    uint8_t number[LESMUTKA_NUMBER_BYTES + 1] = {0}, digits[LESMUTKA_STRING_DIGITS + 1] = {0, 0, 0, 2};
    uint8_t plan[LESMUTKA_PLAN_ROOM + LESMUTKA_STEP_BYTES] = {0};
    uint8_t out[LESMUTKA_CLEAN_ROOM], space[LESMUTKA_WORK_SPACE(LESMUTKA_PLAN_STEPS)];
    lesmutka_length length = lesmutka_recode(number, sizeof number, out, sizeof out);
    EXPECT(length.refusal == LESMUTKA_NUMBER_TOO_LONG && length.place == 0);
    length = lesmutka_recode_words(number, sizeof number, out, sizeof out);
    EXPECT(length.refusal == LESMUTKA_NUMBER_TOO_LONG && length.place == 0);
    lesmutka_counts steps = lesmutka_forecast(number, 0, LESMUTKA_NAF, 0);
    EXPECT(steps.refusal == LESMUTKA_NUMBER_IS_ZERO && steps.place == 0);
    steps = lesmutka_forecast(number, LESMUTKA_NUMBER_BYTES, LESMUTKA_NAF, 0);
    EXPECT(steps.refusal == LESMUTKA_HIGHEST_BYTE_IS_ZERO && steps.place == 0);
    steps = lesmutka_forecast(one, 1, LESMUTKA_NAF, 1);
    EXPECT(steps.refusal == LESMUTKA_METHOD_OR_WIDTH && steps.place == 0);
    length = lesmutka_clean(digits, LESMUTKA_STRING_DIGITS, out, sizeof out);
    EXPECT(length.refusal == LESMUTKA_NOT_A_DIGIT && length.place == 3);
    length = lesmutka_clean(digits, sizeof digits, out, sizeof out);
    EXPECT(length.refusal == LESMUTKA_STRING_TOO_LONG && length.place == 0);
    length = lesmutka_recode(one, 1, out, 0);
    EXPECT(length.refusal == LESMUTKA_ROOM_TOO_SMALL && length.place == 1);
    length = lesmutka_recode_words(one, 1, out, 0);
    EXPECT(length.refusal == LESMUTKA_ROOM_TOO_SMALL && length.place == 1);
    /* In the modified form: 1, 13, 6. */
    length = lesmutka_recode_modified(number, sizeof number, out, 0);
    EXPECT(length.refusal == LESMUTKA_NUMBER_TOO_LONG && length.place == 0);
    length = lesmutka_recode_modified(number, 1, out, 0);
    EXPECT(length.refusal == LESMUTKA_HIGHEST_BYTE_IS_ZERO && length.place == 0);
    length = lesmutka_recode_modified(one, 1, out, 0);
    EXPECT(length.refusal == LESMUTKA_ROOM_TOO_SMALL && length.place == 1);
    /* In the wide form, each beside all that are tested later: recode 1, 13, 3, 6; the others 3, 5, 4, 6. */
    length = lesmutka_recode_wide(number, sizeof number, 9, out, 0);
    EXPECT(length.refusal == LESMUTKA_NUMBER_TOO_LONG && length.place == 0);
    length = lesmutka_recode_wide(number, 1, 9, out, 0);
    EXPECT(length.refusal == LESMUTKA_HIGHEST_BYTE_IS_ZERO && length.place == 0);
    length = lesmutka_recode_wide(one, 1, 9, out, 0);
    EXPECT(length.refusal == LESMUTKA_METHOD_OR_WIDTH && length.place == 0);
    length = lesmutka_clean_wide(digits, sizeof digits, 1, out, 0);
    EXPECT(length.refusal == LESMUTKA_METHOD_OR_WIDTH && length.place == 0);
    length = lesmutka_clean_wide(digits, sizeof digits, 8, out, 0);
    EXPECT(length.refusal == LESMUTKA_STRING_TOO_LONG && length.place == 0);
    length = lesmutka_clean_wide(digits, LESMUTKA_STRING_DIGITS, 8, out, 0);
    EXPECT(length.refusal == LESMUTKA_NOT_A_DIGIT && length.place == 3);
    lesmutka_value value = lesmutka_read_back_wide(digits, sizeof digits, 1, out, 0);
    EXPECT(value.refusal == LESMUTKA_METHOD_OR_WIDTH && value.place == 0);
    value = lesmutka_read_back_wide(digits, sizeof digits, 8, out, 0);
    EXPECT(value.refusal == LESMUTKA_STRING_TOO_LONG && value.place == 0);
    value = lesmutka_read_back_wide(digits, LESMUTKA_STRING_DIGITS, 8, out, 0);
    EXPECT(value.refusal == LESMUTKA_NOT_A_DIGIT && value.place == 3 && value.sign == 0 && value.length == 0);
    lesmutka_accepted checked = lesmutka_check(one, 1, plan, LESMUTKA_STEP_BYTES - 1, space, sizeof space);
    EXPECT(checked.refusal == LESMUTKA_PLAN_LENGTH && checked.place == 0);
    checked = lesmutka_check(one, 1, plan, sizeof plan, space, sizeof space);
    EXPECT(checked.refusal == LESMUTKA_PLAN_LENGTH && checked.place == 0);
    checked = lesmutka_check(one, 1, plan, LESMUTKA_STEP_BYTES, space, LESMUTKA_WORK_SPACE(1) - 1);
    EXPECT(checked.refusal == LESMUTKA_WORK_SPACE_TOO_SHORT && checked.place == 0);
    plan[0] = 2;
    checked = lesmutka_check(one, 1, plan, LESMUTKA_STEP_BYTES, space, LESMUTKA_WORK_SPACE(1));
    EXPECT(checked.refusal == LESMUTKA_MALFORMED_STEP && checked.place == 1);
    plan[0] = 1;
    checked = lesmutka_check(one, 1, plan, LESMUTKA_STEP_BYTES, space, LESMUTKA_WORK_SPACE(1));
    EXPECT(checked.refusal == LESMUTKA_VALUE_IS_ZERO && checked.place == 1);
    size_t bits = 8 * LESMUTKA_VALUE_BYTES;
    checked = lesmutka_check(one, 1, plan, doublings(plan, bits), space, sizeof space);
    EXPECT(checked.refusal == LESMUTKA_VALUE_TOO_LARGE && checked.place == bits);
    checked = lesmutka_check(one, 1, plan, doublings(plan, bits - 1), space, sizeof space);
    EXPECT(checked.refusal == LESMUTKA_WRONG_END && checked.place == bits - 1);
    EXPECT(checked.doublings == 0 && checked.additions == 0 && checked.subtractions == 0 && checked.largest_bits == 0);
}

/* A buffer with guard bytes on both sides. Its first byte lies at an odd place, since no alignment is asked for. */
#define GUARD 17
#define ROOM 400
static uint8_t guarded[GUARD + ROOM + GUARD];
static uint8_t *const lent = guarded + GUARD;

static void lend(void) {
    memset(guarded, 0xa5, sizeof guarded);
}

/* Nothing but the first bytes of the lent buffer has changed. */
static int changed_only(size_t first) {
    for (size_t i = 0; i < sizeof guarded; i++)
        if ((i < GUARD || i >= GUARD + first) && guarded[i] != 0xa5)
            return 0;
    return 1;
}

/* The check of steps as text, at most as many as there is room for: this refusal at this place, or these counts and
 * this many bits; records with these values, and no other byte of the lent buffer. */
#define STEPS (ROOM / LESMUTKA_RECORD_BYTES - 1)
static void checked(const char *text, uint8_t number, size_t refusal, size_t place, const size_t counts[3],
                    size_t largest_bits, const int *values, size_t records) {
    uint8_t plan[LESMUTKA_STEP_BYTES * STEPS];
    lesmutka_length read = lesmutka_read_steps((const uint8_t *)text, strlen(text), plan, sizeof plan);
    EXPECT(read.refusal == 0);
    lend();
    size_t room = LESMUTKA_WORK_SPACE(read.length / LESMUTKA_STEP_BYTES);
    lesmutka_accepted answer = lesmutka_check(&number, 1, plan, read.length, lent, room);
    EXPECT(answer.refusal == refusal && answer.place == place);
    EXPECT(answer.doublings == counts[0] && answer.additions == counts[1] && answer.subtractions == counts[2]);
    EXPECT(answer.largest_bits == largest_bits);
    for (size_t i = 0; i < records; i++) {
        const uint8_t *record = lent + LESMUTKA_RECORD_BYTES * i;
        EXPECT(record[0] == (values[i] < 0) && record[1] == abs(values[i]));
        for (size_t k = 2; k < LESMUTKA_RECORD_BYTES; k++)
            EXPECT(record[k] == 0);
    }
    EXPECT(changed_only(LESMUTKA_RECORD_BYTES * records));
}

/* Equal values added and opposite ones subtracted are doublings at two positions too. */
static void hidden_doublings(void) {
    const size_t none[] = {0, 0, 0}, three[] = {3, 0, 0}, two[] = {2, 0, 1};
    const int equal[] = {1, 2, 2, 4}, opposite[] = {1, 2, -1, 2};
    checked("add(0,0) add(0,0) add(1,2)", 4, 0, 0, three, 3, equal, 4);
    checked("add(0,0) add(0,0) add(1,2)", 5, LESMUTKA_WRONG_END, 3, none, 0, equal, 4);
    checked("add(0,0) add(0,0) subtract(1,2)", 4, LESMUTKA_VALUE_IS_ZERO, 3, none, 0, equal, 3);
    checked("add(0,0) subtract(0,1) subtract(0,2)", 2, 0, 0, two, 2, opposite, 4);
    checked("add(0,0) subtract(0,1) subtract(0,2)", 1, LESMUTKA_WRONG_END, 3, none, 0, opposite, 4);
    checked("add(0,0) subtract(0,1) add(0,2)", 2, LESMUTKA_VALUE_IS_ZERO, 3, none, 0, opposite, 3);
    /* Neither equal nor opposite: 2 + 1, then 3 - 2. */
    const size_t each[] = {1, 1, 1};
    const int others[] = {1, 2, 3, 1};
    checked("add(0,0) add(1,0) subtract(2,1)", 1, 0, 0, each, 2, others, 4);
}

/* The bits of the largest size among all values, wherever it stands: at the end, on the way, below zero; not of the
 * number, nor of the last value. Refusals have none. */
static void largest_sizes(void) {
    const size_t none[] = {0, 0, 0}, three[] = {3, 0, 0}, naf[] = {3, 0, 1}, below[] = {2, 1, 2}, back[] = {4, 0, 0};
    const int last[] = {1, 2, 4, 8}, seven[] = {1, 2, 4, 8, 7}, minus_six[] = {1, 2, -1, -3, -6, 1};
    const int middle[] = {1, 2, 4, 8, 2};
    checked("add(0,0) add(1,1) add(2,2)", 8, 0, 0, three, 4, last, 4);
    checked("add(0,0) add(1,1) add(2,2) subtract(3,0)", 7, 0, 0, naf, 4, seven, 5);
    checked("add(0,0) add(1,1) add(2,2) add(0,0)", 2, 0, 0, back, 4, middle, 5);
    checked("add(0,0) subtract(0,1) subtract(2,1) add(3,3) add(1,2)", 1, 0, 0, below, 3, minus_six, 6);
    checked("add(0,0) subtract(0,1) subtract(2,1) add(3,3) add(1,2)", 2, LESMUTKA_WRONG_END, 5, none, 0, minus_six, 6);
    checked("add(0,0) add(1,1) add(2,2) add(4,0)", 2, LESMUTKA_MALFORMED_STEP, 4, none, 0, last, 4);

    /* As many bits as a size may have, then 2: a power of two; all ones, above zero and below. */
    static uint8_t plan[LESMUTKA_PLAN_ROOM], space[LESMUTKA_WORK_SPACE(LESMUTKA_PLAN_STEPS)];
    const uint8_t two[] = {2};
    const size_t bits = 8 * LESMUTKA_VALUE_BYTES, top = bits - 1;
    for (int i = 0; i < 3; i++) {
        size_t length = doublings(plan, top);
        if (i == 1) {
            length += step(plan + length, 1, top, 0);
            length += step(plan + length, 0, top, bits);
        } else if (i == 2) {
            length += step(plan + length, 1, 0, top);
            length += step(plan + length, 1, bits, top);
        }
        length += step(plan + length, 0, 0, 0);
        lesmutka_accepted answer = lesmutka_check(two, 1, plan, length, space, sizeof space);
        EXPECT(answer.refusal == 0 && answer.place == 0 && answer.largest_bits == bits);
    }
}

/* Every call that takes a number refuses these bytes so, beside faults that are tested later too: no room, no method,
 * part of a step, no work space. Nothing that was lent changes, and the recoder becomes that of zero. */
static void refused_number(const uint8_t *number, size_t length, size_t refusal) {
    const uint8_t steps[LESMUTKA_STEP_BYTES] = {0};
    const size_t rooms[] = {0, ROOM};
    lend();
    for (size_t i = 0; i < sizeof rooms / sizeof rooms[0]; i++) {
        lesmutka_length recoded = lesmutka_recode(number, length, lent, rooms[i]);
        EXPECT(recoded.refusal == refusal && recoded.place == 0 && recoded.length == 0);
        recoded = lesmutka_recode_words(number, length, lent, rooms[i]);
        EXPECT(recoded.refusal == refusal && recoded.place == 0 && recoded.length == 0);
        recoded = lesmutka_recode_modified(number, length, lent, rooms[i]);
        EXPECT(recoded.refusal == refusal && recoded.place == 0 && recoded.length == 0);
        for (uint32_t width = LESMUTKA_LEAST_WIDTH - 1; width <= LESMUTKA_LARGEST_WIDTH + 1; width++) {
            recoded = lesmutka_recode_wide(number, length, width, lent, rooms[i]);
            EXPECT(recoded.refusal == refusal && recoded.place == 0 && recoded.length == 0);
        }
        for (uint32_t method = 0; method <= LESMUTKA_MODIFIED_NAF + 1; method++) {
            lesmutka_counts counts = lesmutka_plan(number, length, method, 0, lent, rooms[i]);
            EXPECT(counts.refusal == refusal && counts.place == 0);
            EXPECT(counts.doublings == 0 && counts.additions == 0 && counts.subtractions == 0);
            counts = lesmutka_forecast(number, length, method, 0);
            EXPECT(counts.refusal == refusal && counts.place == 0);
            EXPECT(counts.doublings == 0 && counts.additions == 0 && counts.subtractions == 0);
        }
        for (size_t bytes = 0; bytes <= sizeof steps; bytes++) {
            lesmutka_accepted answer = lesmutka_check(number, length, steps, bytes, lent, rooms[i]);
            EXPECT(answer.refusal == refusal && answer.place == 0);
            EXPECT(answer.doublings == 0 && answer.additions == 0 && answer.subtractions == 0);
            EXPECT(answer.largest_bits == 0);
        }
    }
    EXPECT(changed_only(0));

    lesmutka_recoder recoder, zero;
    memset(&zero, 0, sizeof zero);
    memset(&recoder, 0xa5, sizeof recoder);
    lesmutka_started started = lesmutka_start(number, length, &recoder);
    EXPECT(started.refusal == refusal && started.place == 0);
    EXPECT(memcmp(&recoder, &zero, sizeof recoder) == 0);
    EXPECT(lesmutka_take(&recoder) == LESMUTKA_DONE);
    EXPECT(memcmp(&recoder, &zero, sizeof recoder) == 0);
}

/* A highest byte of zero: alone, below the limit at every length, and above it, where the length counts. */
static void spellings(void) {
    uint8_t number[LESMUTKA_NUMBER_BYTES + 1];
    for (size_t length = 1; length <= sizeof number; length++) {
        size_t refusal = length > LESMUTKA_NUMBER_BYTES ? LESMUTKA_NUMBER_TOO_LONG : LESMUTKA_HIGHEST_BYTE_IS_ZERO;
        memset(number, 0, length);
        refused_number(number, length, refusal);
        number[0] = length > 1 ? 43 : 0;
        refused_number(number, length, refusal);
        memset(number, 0xff, length);
        number[length - 1] = 0;
        refused_number(number, length, refusal);
    }
    /* The same number without that byte; a zero byte below the highest. */
    number[0] = 43;
    EXPECT(lesmutka_recode(number, 1, lent, ROOM).length == 7);
    EXPECT(lesmutka_recode_words(number, 1, lent, ROOM).length == 7);
    EXPECT(lesmutka_recode_modified(number, 1, lent, ROOM).length == 6);
    number[0] = 0;
    number[1] = 1;
    EXPECT(lesmutka_recode(number, 2, lent, ROOM).length == 9);
    EXPECT(lesmutka_recode_words(number, 2, lent, ROOM).length == 9);
    EXPECT(lesmutka_recode_modified(number, 2, lent, ROOM).length == 9);
}

/* By words or not, a number is recoded into the same bytes, and nothing else of the lent buffer changes: numbers of
 * every length, into just the room, a byte more and a byte less. */
static void two_recodings(void) {
    const uint8_t patterns[] = {0xff, 0x55, 0xaa, 0x2b};
    uint8_t number[LESMUTKA_NUMBER_BYTES], digits[LESMUTKA_RECODE_ROOM];
    for (size_t i = 0; i < sizeof patterns; i++) {
        memset(number, patterns[i], sizeof number);
        for (size_t length = 0; length <= sizeof number; length++) {
            size_t needed = lesmutka_recode(number, length, digits, sizeof digits).length;
            for (size_t room = needed > 0 ? needed - 1 : 0; room <= needed + 1; room++) {
                lend();
                lesmutka_length recoded = lesmutka_recode_words(number, length, lent, room);
                if (room < needed) {
                    EXPECT(recoded.refusal == LESMUTKA_ROOM_TOO_SMALL && recoded.place == needed);
                    EXPECT(recoded.length == 0 && changed_only(0));
                } else {
                    EXPECT(recoded.refusal == 0 && recoded.place == 0 && recoded.length == needed);
                    EXPECT(memcmp(lent, digits, needed) == 0 && changed_only(needed));
                }
            }
        }
    }
}

/* Clean and read back in the wide form, in every room up to one more than is needed: the digits and the size that a
 * digit string gives, both lowest first, and the sign; no other byte of the lent buffer changes. */
static void wide_string(const char *digits, size_t length, uint32_t width, const char *naf, size_t needed, size_t sign,
                        const char *size, size_t bytes) {
    const uint8_t *string = (const uint8_t *)digits;
    for (size_t room = 0; room <= needed + 1; room++) {
        lend();
        lesmutka_length cleaned = lesmutka_clean_wide(string, length, width, lent, room);
        if (room < needed) {
            EXPECT(cleaned.refusal == LESMUTKA_ROOM_TOO_SMALL && cleaned.place == needed && cleaned.length == 0);
            EXPECT(changed_only(0));
        } else {
            EXPECT(cleaned.refusal == 0 && cleaned.place == 0 && cleaned.length == needed);
            EXPECT(memcmp(lent, naf, needed) == 0 && changed_only(needed));
        }
    }
    for (size_t room = 0; room <= bytes + 1; room++) {
        lend();
        lesmutka_value value = lesmutka_read_back_wide(string, length, width, lent, room);
        if (room < bytes) {
            EXPECT(value.refusal == LESMUTKA_ROOM_TOO_SMALL && value.place == bytes);
            EXPECT(value.sign == 0 && value.length == 0 && changed_only(0));
        } else {
            EXPECT(value.refusal == 0 && value.place == 0 && value.sign == sign && value.length == bytes);
            EXPECT(memcmp(lent, size, bytes) == 0 && changed_only(bytes));
        }
    }
}

/* 43 by every width, into every room up to one more than is needed. */
static void wide_numbers(void) {
    const uint8_t number[] = {43};
    const char *nafs[] = {"\xff\x00\xff\x00\xff\x00\x01", "\x03\x00\x00\xfd\x00\x00\x01", "\xfb\x00\x00\x00\x03",
                          "\x0b\x00\x00\x00\x00\x01", "\xeb\x00\x00\x00\x00\x00\x01", "\x2b", "\x2b"};
    const size_t lengths[] = {7, 7, 5, 6, 7, 1, 1};
    for (uint32_t width = LESMUTKA_LEAST_WIDTH; width <= LESMUTKA_LARGEST_WIDTH; width++) {
        const char *naf = nafs[width - LESMUTKA_LEAST_WIDTH];
        size_t needed = lengths[width - LESMUTKA_LEAST_WIDTH];
        for (size_t room = 0; room <= needed + 1; room++) {
            lend();
            lesmutka_length recoded = lesmutka_recode_wide(number, 1, width, lent, room);
            if (room < needed) {
                EXPECT(recoded.refusal == LESMUTKA_ROOM_TOO_SMALL && recoded.place == needed && recoded.length == 0);
                EXPECT(changed_only(0));
            } else {
                EXPECT(recoded.refusal == 0 && recoded.place == 0 && recoded.length == needed);
                EXPECT(memcmp(lent, naf, needed) == 0 && changed_only(needed));
            }
        }
        wide_string(naf, needed, width, naf, needed, 0, "\x2b", 1);
        /* With width 4 or more, 1 1 1 is 7. */
        if (width >= 4)
            wide_string("\x01\x01\x01", 3, width, "\x07", 1, 0, "\x07", 1);
        wide_string("\x00\x00", 2, width, "", 0, 0, "", 0);
    }
    /* A sign that is not the top digit's; two bytes; as many more digits as the width. */
    wide_string("\xfd\x01", 2, 3, "\xff", 1, 1, "\x01", 1);
    wide_string("\x03\xff", 2, 3, "\x01", 1, 0, "\x01", 1);
    wide_string("\x00\x00\x00\x00\x00\x00\x00\x81", 8, 8, "\x00\x00\x00\x00\x00\x00\x00\x81", 8, 1, "\x80\x3f", 2);
    wide_string("\x01\x03\x03\x03", 4, 3, "\x03\x00\x00\xfd\x00\x00\x01", 7, 0, "\x2b", 1);

    /* Of all bytes, 0 and the odd ones of a size below 2^(w - 1) are digits of width w. */
    for (uint32_t width = LESMUTKA_LEAST_WIDTH; width <= LESMUTKA_LARGEST_WIDTH; width++)
        for (int byte = 0; byte < 256; byte++) {
            int digit = byte < 128 ? byte : byte - 256;
            int is_digit = digit == 0 || (digit % 2 != 0 && abs(digit) < 1 << (width - 1));
            const uint8_t string[] = {1, 0, (uint8_t)byte, (uint8_t)byte};
            lend();
            lesmutka_length cleaned = lesmutka_clean_wide(string, sizeof string, width, lent, ROOM);
            EXPECT(cleaned.refusal == (is_digit ? 0 : LESMUTKA_NOT_A_DIGIT) && cleaned.place == (is_digit ? 0 : 2));
            EXPECT(changed_only(cleaned.length));
            lend();
            lesmutka_value value = lesmutka_read_back_wide(string, sizeof string, width, lent, ROOM);
            EXPECT(value.refusal == (is_digit ? 0 : LESMUTKA_NOT_A_DIGIT) && value.place == (is_digit ? 0 : 2));
            EXPECT(changed_only(value.length));
        }

    /* By width 2, a number is recoded as by the plain call. */
    uint8_t longest[LESMUTKA_NUMBER_BYTES], digits[LESMUTKA_RECODE_ROOM];
    memset(longest, 0x2b, sizeof longest);
    for (size_t length = 0; length <= sizeof longest; length++) {
        size_t needed = lesmutka_recode(longest, length, digits, sizeof digits).length;
        lend();
        lesmutka_length recoded = lesmutka_recode_wide(longest, length, 2, lent, ROOM);
        EXPECT(recoded.refusal == 0 && recoded.length == needed);
        EXPECT(memcmp(lent, digits, needed) == 0 && changed_only(needed));
    }
}

/* Recoded in the modified form into every room up to one more than is needed: these digits, lowest first, and no other
 * byte of the lent buffer changes. */
static void modified_number(const uint8_t *number, size_t length, const uint8_t *digits, size_t needed) {
    for (size_t room = needed > 8 ? needed - 1 : 0; room <= needed + 1; room++) {
        lend();
        lesmutka_length recoded = lesmutka_recode_modified(number, length, lent, room);
        if (room < needed) {
            EXPECT(recoded.refusal == LESMUTKA_ROOM_TOO_SMALL && recoded.place == needed && recoded.length == 0);
            EXPECT(changed_only(0));
        } else {
            EXPECT(recoded.refusal == 0 && recoded.place == 0 && recoded.length == needed);
            EXPECT(memcmp(lent, digits, needed) == 0 && changed_only(needed));
        }
    }
}

static void modified_numbers(void) {
    const uint8_t small[] = {1, 2, 3, 5, 6, 7, 25, 27, 43};
    const char *forms[] = {"\x01",
                           "\x00\x01",
                           "\x01\x01",
                           "\x01\x00\x01",
                           "\x00\x01\x01",
                           "\xff\x00\x00\x01",
                           "\x01\x00\x00\x01\x01",
                           "\xff\x00\xff\x00\x00\x01",
                           "\xff\x00\xff\x00\x01\x01"};
    const size_t lengths[] = {1, 2, 2, 3, 3, 4, 5, 6, 6};
    for (size_t i = 0; i < sizeof small; i++)
        modified_number(small + i, 1, (const uint8_t *)forms[i], lengths[i]);

    /* Numbers of every length, whose canonical string leads with 1 0 1, 1 0 -1 or 1 0 0: the lead 1 0 -1 becomes 1 1,
     * and no other changes. Clean makes the canonical string of the form, and reading it back gives the number. */
    const uint8_t highest[] = {0x80, 0xa5, 0xaa, 0xab, 0xc0, 0xd5, 0xd6, 0xff};
    uint8_t number[LESMUTKA_NUMBER_BYTES], naf[LESMUTKA_RECODE_ROOM], form[LESMUTKA_RECODE_ROOM];
    size_t replaced = 0, same = 0;
    for (size_t i = 0; i < sizeof highest; i++)
        for (size_t length = 1; length <= sizeof number; length++) {
            for (size_t k = 0; k < length; k++)
                number[k] = (uint8_t)(37 * k + 11 * i);
            number[length - 1] = highest[i];
            size_t digits = lesmutka_recode(number, length, naf, sizeof naf).length, needed = digits;
            memcpy(form, naf, digits);
            if (naf[digits - 1] == 0x01 && naf[digits - 2] == 0x00 && naf[digits - 3] == 0xff) {
                form[digits - 2] = form[digits - 3] = 0x01;
                needed = digits - 1;
                replaced++;
            } else {
                same++;
            }
            modified_number(number, length, form, needed);
            lend();
            EXPECT(lesmutka_clean(form, needed, lent, ROOM).length == digits);
            EXPECT(memcmp(lent, naf, digits) == 0 && changed_only(digits));
            lend();
            lesmutka_value value = lesmutka_read_back(form, needed, lent, ROOM);
            EXPECT(value.refusal == 0 && value.sign == 0 && value.length == length);
            EXPECT(memcmp(lent, number, length) == 0 && changed_only(length));
        }
    EXPECT(replaced > 100 && same > 100);

    /* The plan for 43, of 8 steps. */
    const char *text = "add(0,0) add(1,0) add(2,2) add(3,3) subtract(4,0) add(5,5) add(6,6) subtract(7,0)";
    uint8_t plan[LESMUTKA_STEP_BYTES * 8], space[LESMUTKA_WORK_SPACE(8)];
    lesmutka_length read = lesmutka_read_steps((const uint8_t *)text, strlen(text), plan, sizeof plan);
    EXPECT(read.refusal == 0 && read.length == sizeof plan);
    number[0] = 43;
    lend();
    lesmutka_counts counts = lesmutka_plan(number, 1, LESMUTKA_MODIFIED_NAF, 0, lent, sizeof plan);
    EXPECT(counts.refusal == 0 && counts.doublings == 5 && counts.additions == 1 && counts.subtractions == 2);
    EXPECT(memcmp(lent, plan, sizeof plan) == 0 && changed_only(sizeof plan));
    lesmutka_accepted checked = lesmutka_check(number, 1, plan, sizeof plan, space, sizeof space);
    EXPECT(checked.refusal == 0 && checked.largest_bits == 6);
    EXPECT(checked.doublings == 5 && checked.additions == 1 && checked.subtractions == 2);
    lend();
    counts = lesmutka_plan(number, 1, LESMUTKA_MODIFIED_NAF, 0, lent, sizeof plan - 1);
    EXPECT(counts.refusal == LESMUTKA_ROOM_TOO_SMALL && counts.place == sizeof plan && changed_only(0));
}

typedef lesmutka_parsed parser(const uint8_t *, size_t, uint8_t *, size_t);

static lesmutka_parsed parse(parser *function, const char *text, size_t room) {
    lend();
    return function((const uint8_t *)text, strlen(text), lent, room);
}

/* The text gives these bytes, with exactly this room and with more; the bytes behind those stay. */
static void number_from(parser *function, const char *text, const uint8_t *bytes, size_t length, size_t room) {
    const size_t rooms[] = {room, room + 1, ROOM};
    for (size_t i = 0; i < sizeof rooms / sizeof rooms[0]; i++) {
        lesmutka_parsed parsed = parse(function, text, rooms[i]);
        EXPECT(parsed.is_number == 1 && parsed.place == 0 && parsed.length == length);
        EXPECT(length == 0 || memcmp(lent, bytes, length) == 0);
        for (size_t k = length; k < room; k++)
            EXPECT(lent[k] == 0);
        EXPECT(changed_only(room));
    }
}

/* The text is no number in this room: the place is this one, and nothing is written. */
static void no_number_from(parser *function, const char *text, size_t room, size_t place) {
    lesmutka_parsed parsed = parse(function, text, room);
    EXPECT(parsed.is_number == 0 && parsed.place == place && parsed.length == 0);
    EXPECT(changed_only(0));
}

static void hexadecimal(void) {
    const uint8_t bytes[] = {0xef, 0xcd, 0xab, 0x89, 0x67, 0x45, 0x23, 0x01}, zeros[4] = {0};
    number_from(lesmutka_hexadecimal, "0123456789abcdef", bytes, 8, 8);
    number_from(lesmutka_hexadecimal, "123456789ABCDEF", bytes, 8, 8);
    number_from(lesmutka_hexadecimal, "0x0123456789abcdef", bytes, 8, 8);
    number_from(lesmutka_hexadecimal, "0X123456789AbCdEf", bytes, 8, 8);
    number_from(lesmutka_hexadecimal, "0", zeros, 1, 1);
    number_from(lesmutka_hexadecimal, "0x0", zeros, 1, 1);
    number_from(lesmutka_hexadecimal, "0000000", zeros, 4, 4);
    const uint8_t leading[] = {0x2b, 0x00, 0x00};
    number_from(lesmutka_hexadecimal, "0x00002b", leading, 3, 3);

    no_number_from(lesmutka_hexadecimal, "", ROOM, 0);
    no_number_from(lesmutka_hexadecimal, "0x", ROOM, 0);
    no_number_from(lesmutka_hexadecimal, "x", ROOM, 0);
    no_number_from(lesmutka_hexadecimal, "0x0x1", ROOM, 0);
    no_number_from(lesmutka_hexadecimal, "00x1", ROOM, 0);
    no_number_from(lesmutka_hexadecimal, "2g", ROOM, 0);
    no_number_from(lesmutka_hexadecimal, "-2b", ROOM, 0);
    no_number_from(lesmutka_hexadecimal, "+2b", ROOM, 0);
    no_number_from(lesmutka_hexadecimal, " 2b", ROOM, 0);
    no_number_from(lesmutka_hexadecimal, "2b\n", ROOM, 0);
    no_number_from(lesmutka_hexadecimal, "2b", 0, 0);
    no_number_from(lesmutka_hexadecimal, "12b", 1, 0);
    no_number_from(lesmutka_hexadecimal, "0x0002b", 2, 0);

    /* Of all bytes, these 22 are digits. */
    const char *digits = "0123456789abcdefABCDEF";
    for (int byte = 0; byte < 256; byte++) {
        const uint8_t text[] = {'1', (uint8_t)byte};
        const char *found = byte == 0 ? NULL : strchr(digits, byte);
        lend();
        lesmutka_parsed parsed = lesmutka_hexadecimal(text, 2, lent, 1);
        if (found) {
            size_t value = (size_t)(found - digits);
            EXPECT(parsed.is_number == 1 && parsed.place == 0 && parsed.length == 1);
            EXPECT(lent[0] == 16 + (value < 16 ? value : value - 6) && changed_only(1));
        } else {
            EXPECT(parsed.is_number == 0 && parsed.place == 0 && parsed.length == 0 && changed_only(0));
        }
    }

    lesmutka_parsed parsed = lesmutka_hexadecimal(NULL, 0, NULL, 0);
    EXPECT(parsed.is_number == 0 && parsed.place == 0 && parsed.length == 0);
    const uint8_t one[] = {'1'};
    parsed = lesmutka_hexadecimal(one, 1, NULL, 0);
    EXPECT(parsed.is_number == 0 && parsed.place == 0 && parsed.length == 0);
}

static void decimal(void) {
    const uint8_t small[] = {43}, byte[] = {255}, two_bytes[] = {0, 1};
    number_from(lesmutka_decimal, "43", small, 1, 1);
    number_from(lesmutka_decimal, "0043", small, 1, 2);
    number_from(lesmutka_decimal, "255", byte, 1, 2);
    number_from(lesmutka_decimal, "256", two_bytes, 2, 2);
    number_from(lesmutka_decimal, "0", NULL, 0, 1);
    number_from(lesmutka_decimal, "00000", NULL, 0, 3);
    /* 2^64 - 1 and 2^64: a carry through all bytes. */
    const uint8_t word[] = {255, 255, 255, 255, 255, 255, 255, 255}, carried[9] = {0, 0, 0, 0, 0, 0, 0, 0, 1};
    number_from(lesmutka_decimal, "18446744073709551615", word, 8, 10);
    number_from(lesmutka_decimal, "18446744073709551616", carried, 9, 10);
    /* 2^384 - 1, the largest number that the other calls take, and the next. */
    uint8_t largest[LESMUTKA_NUMBER_BYTES], next[LESMUTKA_NUMBER_BYTES + 1] = {0};
    memset(largest, 0xff, sizeof largest);
    next[LESMUTKA_NUMBER_BYTES] = 1;
    const char *of_largest = "3940200619639447921227904010014361380507973927046544666794"
                             "8293404245721771497210611414266254884915640806627990306815";
    const char *of_next = "3940200619639447921227904010014361380507973927046544666794"
                          "8293404245721771497210611414266254884915640806627990306816";
    number_from(lesmutka_decimal, of_largest, largest, sizeof largest, 58);
    number_from(lesmutka_decimal, of_next, next, sizeof next, 58);

    no_number_from(lesmutka_decimal, "", ROOM, 0);
    no_number_from(lesmutka_decimal, "x", ROOM, 0);
    no_number_from(lesmutka_decimal, "-43", ROOM, 0);
    no_number_from(lesmutka_decimal, " 43", ROOM, 0);
    no_number_from(lesmutka_decimal, "0x2b", ROOM, 1);
    no_number_from(lesmutka_decimal, "43 ", ROOM, 2);
    no_number_from(lesmutka_decimal, "43a43a", ROOM, 2);
    no_number_from(lesmutka_decimal, "43a", 0, 2);
    no_number_from(lesmutka_decimal, "43", 0, 2);
    no_number_from(lesmutka_decimal, "255", 1, 3);
    no_number_from(lesmutka_decimal, "000", 1, 3);

    /* Of all bytes, ten are digits. */
    for (int byte_value = 0; byte_value < 256; byte_value++) {
        const uint8_t text[] = {'1', (uint8_t)byte_value};
        lend();
        lesmutka_parsed parsed = lesmutka_decimal(text, 2, lent, 1);
        if (byte_value >= '0' && byte_value <= '9') {
            EXPECT(parsed.is_number == 1 && parsed.place == 0 && parsed.length == 1);
            EXPECT(lent[0] == 10 + byte_value - '0' && changed_only(1));
        } else {
            EXPECT(parsed.is_number == 0 && parsed.place == 1 && parsed.length == 0 && changed_only(0));
        }
    }

    lesmutka_parsed parsed = lesmutka_decimal(NULL, 0, NULL, 0);
    EXPECT(parsed.is_number == 0 && parsed.place == 0 && parsed.length == 0);
    const uint8_t one[] = {'1'};
    parsed = lesmutka_decimal(one, 1, NULL, 0);
    EXPECT(parsed.is_number == 0 && parsed.place == 1 && parsed.length == 0);
}

/* Every length of text up to twice the room: 99..9 and the same as hexadecimal, in just enough room. */
static void lengths(void) {
    char text[2 * ROOM + 1];
    for (size_t digits = 1; digits <= 2 * ROOM; digits++) {
        memset(text, '9', digits);
        text[digits] = 0;
        size_t room = LESMUTKA_TEXT_ROOM(digits);
        EXPECT(parse(lesmutka_decimal, text, room).is_number == 1 && changed_only(room));
        EXPECT(parse(lesmutka_hexadecimal, text, room).length == room && changed_only(room));
        no_number_from(lesmutka_decimal, text, room - 1, digits);
        no_number_from(lesmutka_hexadecimal, text, room - 1, 0);
    }
    EXPECT(LESMUTKA_TEXT_ROOM(0) == 0 && LESMUTKA_TEXT_ROOM(1) == 1 && LESMUTKA_TEXT_ROOM(2) == 1);
    EXPECT(LESMUTKA_TEXT_ROOM(SIZE_MAX) == SIZE_MAX / 2 + 1);
    EXPECT(LESMUTKA_TEXT_ROOM(1 + 2) == 2);
}

typedef lesmutka_length words_reader(const uint8_t *, size_t, uint8_t *, size_t);

/* A text of words gives these bytes, in just enough room and in all, and is refused in a byte less. */
static void words_from(words_reader *read, const char *text, const uint8_t *bytes, size_t length) {
    const size_t rooms[] = {length, ROOM};
    for (size_t k = 0; k < sizeof rooms / sizeof rooms[0]; k++) {
        lend();
        lesmutka_length written = read((const uint8_t *)text, strlen(text), lent, rooms[k]);
        EXPECT(written.refusal == 0 && written.place == 0 && written.length == length);
        EXPECT(length == 0 || memcmp(lent, bytes, length) == 0);
        EXPECT(changed_only(length));
    }
    if (length == 0)
        return;
    lend();
    lesmutka_length written = read((const uint8_t *)text, strlen(text), lent, length - 1);
    EXPECT(written.refusal == LESMUTKA_ROOM_TOO_SMALL && written.place == length && written.length == 0);
    EXPECT(changed_only(0));
}

static void words_as_text(void) {
    const uint8_t three[] = {0xff, 0, 1}, others[] = {2, 2, 1, 2};
    words_from(lesmutka_read_digits, "1 0 -1", three, 3);
    words_from(lesmutka_read_digits, " 1\t0\v\r\n-1\f", three, 3);
    words_from(lesmutka_read_digits, "-0 1 11 --1", others, 4);
    words_from(lesmutka_read_digits, "", NULL, 0);
    words_from(lesmutka_read_digits, " \n", NULL, 0);

    const uint8_t steps[] = {0, 0, 0, 0, 0, 1, 2, 1, 255, 255}, none[] = {2, 0, 0, 0, 0, 0, 7, 0, 0, 0};
    words_from(lesmutka_read_steps, "add(0,0) subtract(258,65535)", steps, 10);
    words_from(lesmutka_read_steps, "add(0,65536)\nadd(007,0)", none, 10);
    const char *no_steps[] = {"add", "add(0,0", "add(0,0)x", "add(,0)", "add(0,)", "add(0;0)", "sub(0,0)", "Add(0,0)"};
    for (size_t k = 0; k < sizeof no_steps / sizeof no_steps[0]; k++)
        words_from(lesmutka_read_steps, no_steps[k], none, 5);
    words_from(lesmutka_read_steps, "", NULL, 0);

    /* The rooms that are always enough: every second byte a blank. */
    char text[2 * ROOM];
    for (size_t length = 1; length < 2 * ROOM; length++) {
        for (size_t i = 0; i < length; i++)
            text[i] = i % 2 == 0 ? '1' : ' ';
        lend();
        lesmutka_length written =
            lesmutka_read_digits((const uint8_t *)text, length, lent, LESMUTKA_TEXT_ROOM(length));
        EXPECT(written.refusal == 0 && written.length == LESMUTKA_TEXT_ROOM(length));
        size_t room = LESMUTKA_STEP_BYTES * LESMUTKA_TEXT_ROOM(length);
        if (room <= ROOM)
            EXPECT(lesmutka_read_steps((const uint8_t *)text, length, lent, room).length == room);
    }
    /* As many words as a plan has steps, and one more. */
    static uint8_t steps_text[2 * (LESMUTKA_PLAN_STEPS + 1)], plan[LESMUTKA_PLAN_ROOM + LESMUTKA_STEP_BYTES];
    for (size_t i = 0; i < sizeof steps_text; i++)
        steps_text[i] = i % 2 == 0 ? 'x' : ' ';
    memset(plan, 0xa5, sizeof plan);
    lesmutka_length most = lesmutka_read_steps(steps_text, sizeof steps_text, plan, sizeof plan);
    EXPECT(most.refusal == LESMUTKA_PLAN_LENGTH && most.place == 0 && most.length == 0 && plan[0] == 0xa5);
    most = lesmutka_read_steps(steps_text, sizeof steps_text - 2, plan, sizeof plan);
    EXPECT(most.refusal == 0 && most.length == LESMUTKA_PLAN_ROOM && plan[LESMUTKA_PLAN_ROOM] == 0xa5);
    EXPECT(lesmutka_read_digits(NULL, 0, NULL, 0).refusal == 0);
    EXPECT(lesmutka_read_steps(NULL, 0, NULL, 0).refusal == 0);
}

static void version(void) {
    EXPECT(lesmutka_version() == LESMUTKA_VERSION);
}

/* The header's words and the library's are the same, and fill exactly the room that is asked for. */
static void words(void) {
    EXPECT(strcmp(lesmutka_words(0), "not refused") == 0);
    EXPECT(strcmp(lesmutka_words(LESMUTKA_NUMBER_IS_ZERO), "the number is zero") == 0);
    EXPECT(strcmp(lesmutka_words(LESMUTKA_HIGHEST_BYTE_IS_ZERO), "the highest byte of the number is zero") == 0);
    EXPECT(strcmp(lesmutka_words(14), "no such refusal") == 0);
    EXPECT(strcmp(lesmutka_words(SIZE_MAX), "no such refusal") == 0);
    size_t longest = 0;
    for (size_t i = 0; i < 16; i++) {
        size_t refusal = i < 15 ? i : SIZE_MAX;
        size_t length = strlen(lesmutka_words(refusal));
        const size_t rooms[] = {length, length + 1, LESMUTKA_WORDS_ROOM, ROOM};
        for (size_t k = 0; k < sizeof rooms / sizeof rooms[0]; k++) {
            lend();
            lesmutka_length written = lesmutka_write_words(refusal, lent, rooms[k]);
            EXPECT(written.refusal == 0 && written.place == 0 && written.length == length);
            EXPECT(memcmp(lent, lesmutka_words(refusal), length) == 0 && changed_only(length));
        }
        const size_t too_small[] = {0, 1, length - 1};
        for (size_t k = 0; k < sizeof too_small / sizeof too_small[0]; k++) {
            lend();
            lesmutka_length written = lesmutka_write_words(refusal, lent, too_small[k]);
            EXPECT(written.refusal == LESMUTKA_ROOM_TOO_SMALL && written.place == length && written.length == 0);
            EXPECT(changed_only(0));
        }
        if (length > longest)
            longest = length;
    }
    EXPECT(longest == LESMUTKA_WORDS_ROOM);
    lesmutka_length written = lesmutka_write_words(0, NULL, 0);
    EXPECT(written.refusal == LESMUTKA_ROOM_TOO_SMALL && written.place == 11 && written.length == 0);
}

int main(void) {
    limits();
    widest(LESMUTKA_FIXED_WINDOWS, LESMUTKA_FIXED_WINDOW_BITS);
    widest(LESMUTKA_SLIDING_WINDOWS, LESMUTKA_SLIDING_WINDOW_BITS);
    widths();
    empty_buffers();
    recoders();
    rooms();
    methods();
    refusals();
    hidden_doublings();
    largest_sizes();
    spellings();
    two_recodings();
    wide_numbers();
    modified_numbers();
    hexadecimal();
    decimal();
    lengths();
    words_as_text();
    version();
    words();
    printf("boundary: %d tests passed\n", tests);
    return 0;
}
