/* How much stack each function takes: each is run on a painted stack, with the inputs that take it deepest. Fails where
 * one takes more than LESMUTKA_STACK_BYTES. Compile with -O2 or the like. */
#define _XOPEN_SOURCE 600
#include <stdio.h>
#include <stdlib.h>
#include <string.h>
#include <ucontext.h>

#include "lesmutka.h"

/* What the functions are called with. Nothing of it lies on the painted stack. */
static const uint8_t *bytes, *plan;
static size_t length, plan_length, room, refusal;
static uint32_t method, width;
static lesmutka_recoder recoder;
static uint8_t out[LESMUTKA_WORK_SPACE(LESMUTKA_PLAN_STEPS)];

/* The first field of the answer, or all of it: it shows that the input took the way that it should. */
static volatile size_t answer;

/* Where the stack of the function that calls mark ends. What lies below is taken by what it calls; mark itself takes 16
 * bytes of it, so no less than these is ever found. */
static const uint8_t *volatile end;

__attribute__((noinline)) static void mark(void) {
    /* The saved frame pointer stands at the frame's address, the return address above it. */
    end = (const uint8_t *)__builtin_frame_address(0) + 2 * sizeof(void *);
}

static void empty(void) {
    mark();
}

static void recode(void) {
    mark();
    answer = lesmutka_recode(bytes, length, out, room).refusal;
}

static void recode_words(void) {
    mark();
    answer = lesmutka_recode_words(bytes, length, out, room).refusal;
}

static void recode_wide(void) {
    mark();
    answer = lesmutka_recode_wide(bytes, length, width, out, room).refusal;
}

static void recode_modified(void) {
    mark();
    answer = lesmutka_recode_modified(bytes, length, out, room).refusal;
}

static void start(void) {
    mark();
    answer = lesmutka_start(bytes, length, &recoder).refusal;
}

static void take(void) {
    mark();
    answer = lesmutka_take(&recoder);
}

static void clean(void) {
    mark();
    answer = lesmutka_clean(bytes, length, out, room).refusal;
}

static void clean_wide(void) {
    mark();
    answer = lesmutka_clean_wide(bytes, length, width, out, room).refusal;
}

static void read_back_wide(void) {
    mark();
    answer = lesmutka_read_back_wide(bytes, length, width, out, room).refusal;
}

static void read_back(void) {
    mark();
    answer = lesmutka_read_back(bytes, length, out, room).refusal;
}

static void write_plan(void) {
    mark();
    answer = lesmutka_plan(bytes, length, method, width, out, room).refusal;
}

static void forecast(void) {
    mark();
    answer = lesmutka_forecast(bytes, length, method, width).refusal;
}

static void check(void) {
    mark();
    answer = lesmutka_check(bytes, length, plan, plan_length, out, room).refusal;
}

static void hexadecimal(void) {
    mark();
    answer = lesmutka_hexadecimal(bytes, length, out, room).is_number;
}

static void decimal(void) {
    mark();
    answer = lesmutka_decimal(bytes, length, out, room).is_number;
}

static void read_digits(void) {
    mark();
    answer = lesmutka_read_digits(bytes, length, out, room).refusal;
}

static void read_steps(void) {
    mark();
    answer = lesmutka_read_steps(bytes, length, out, room).refusal;
}

static void limits(void) {
    mark();
    answer = lesmutka_limits().number_bytes;
}

static void version(void) {
    mark();
    answer = lesmutka_version();
}

static void write_words(void) {
    mark();
    answer = lesmutka_write_words(refusal, out, room).refusal;
}

static uint8_t stack[64 * 1024];

static void fail(const char *what) {
    printf("stack: %s\n", what);
    exit(1);
}

/* The bytes of stack that a function takes below the one that calls it. */
static size_t taken_over(void (*run)(void), uint8_t paint) {
    static ucontext_t here, there;
    memset(stack, paint, sizeof stack);
    if (getcontext(&there) != 0)
        fail("there is no context to run in");
    there.uc_stack.ss_sp = stack;
    there.uc_stack.ss_size = sizeof stack;
    there.uc_link = &here;
    makecontext(&there, run, 0);
    if (swapcontext(&here, &there) != 0)
        fail("the context did not run");
    if (end <= stack || end > stack + sizeof stack)
        fail("the function ran elsewhere");
    const uint8_t *lowest = stack;
    while (lowest < end && *lowest == paint)
        lowest++;
    return (size_t)(end - lowest);
}

/* The most that the function measured now has taken so far. */
static size_t most;

/* Runs it once more. By two paints, since a byte that is written may look like one of them. */
static void measure(void (*run)(void), size_t expected) {
    const lesmutka_recoder before = recoder;
    for (int i = 0; i < 2; i++) {
        recoder = before;
        size_t taken = taken_over(run, i == 0 ? 0x5a : 0xa5);
        if (answer != expected)
            fail("an input does not take the way that it should");
        if (taken > most)
            most = taken;
    }
}

static size_t most_of_all;

static void report(const char *name) {
    printf("stack: %-15s %4zu bytes\n", name, most);
    if (most > most_of_all)
        most_of_all = most;
    most = 0;
}

/* A call that refuses a number because its highest byte is zero. */
static void measure_refused(void (*run)(void)) {
    static const uint8_t padded[LESMUTKA_NUMBER_BYTES] = {43};
    bytes = padded;
    length = sizeof padded;
    measure(run, LESMUTKA_HIGHEST_BYTE_IS_ZERO);
}

static int is_width(uint32_t bits) {
    return bits >= LESMUTKA_LEAST_WIDTH && bits <= LESMUTKA_LARGEST_WIDTH;
}

/* Whether there is this method, and it takes this width. */
static int is_choice(uint32_t by, uint32_t bits) {
    switch (by) {
    case LESMUTKA_BINARY:
    case LESMUTKA_NAF:
    case LESMUTKA_MODIFIED_NAF:
        return bits == 0;
    case LESMUTKA_FIXED_WINDOWS:
        return bits >= 1 && bits <= LESMUTKA_FIXED_WINDOW_BITS;
    case LESMUTKA_SLIDING_WINDOWS:
        return bits >= 1 && bits <= LESMUTKA_SLIDING_WINDOW_BITS;
    case LESMUTKA_WIDE_NAF:
        return is_width(bits);
    default:
        return 0;
    }
}

static void numbers(void) {
    /* The last kind leads with 1 0 -1 in its canonical string, at every length. */
    static uint8_t number[4][LESMUTKA_NUMBER_BYTES + 1];
    memset(number[0], 0xff, sizeof number[0]);
    memset(number[1], 0x55, sizeof number[1]);
    for (size_t i = 0; i < sizeof number[2]; i++)
        number[2][i] = (uint8_t)(37 * i + 11);
    memset(number[3], 0xcc, sizeof number[3]);

    void (*const recodings[])(void) = {recode, recode_words, recode_modified};
    const char *const names[] = {"recode", "recode_words", "recode_modified"};
    for (int k = 0; k < 3; k++) {
        void (*run)(void) = recodings[k];
        for (int i = 0; i < 4; i++) {
            bytes = number[i];
            for (length = 1; length <= LESMUTKA_NUMBER_BYTES + 1; length++) {
                room = sizeof out;
                measure(run, length > LESMUTKA_NUMBER_BYTES ? LESMUTKA_NUMBER_TOO_LONG : 0);
                room = 0;
                measure(run, length > LESMUTKA_NUMBER_BYTES ? LESMUTKA_NUMBER_TOO_LONG : LESMUTKA_ROOM_TOO_SMALL);
            }
        }
        measure_refused(run);
        report(names[k]);
    }

    /* Every width, also those that are none. */
    for (width = LESMUTKA_LEAST_WIDTH - 1; width <= LESMUTKA_LARGEST_WIDTH + 1; width++) {
        for (int i = 0; i < 4; i++) {
            bytes = number[i];
            for (length = 1; length <= LESMUTKA_NUMBER_BYTES + 1; length++) {
                size_t refused = is_width(width) ? 0 : LESMUTKA_METHOD_OR_WIDTH;
                if (length > LESMUTKA_NUMBER_BYTES)
                    refused = LESMUTKA_NUMBER_TOO_LONG;
                room = sizeof out;
                measure(recode_wide, refused);
                if (refused == 0)
                    refused = LESMUTKA_ROOM_TOO_SMALL;
                room = 0;
                measure(recode_wide, refused);
            }
        }
        measure_refused(recode_wide);
    }
    report("recode_wide");

    for (int i = 0; i < 4; i++) {
        bytes = number[i];
        for (length = 1; length <= LESMUTKA_NUMBER_BYTES + 1; length++)
            measure(start, length > LESMUTKA_NUMBER_BYTES ? LESMUTKA_NUMBER_TOO_LONG : 0);
    }
    measure_refused(start);
    report("start");

    for (int i = 0; i < 4; i++) {
        lesmutka_recoder next;
        lesmutka_start(number[i], LESMUTKA_NUMBER_BYTES, &next);
        uint32_t digit;
        do {
            recoder = next;
            digit = lesmutka_take(&next);
            measure(take, digit);
        } while (digit != LESMUTKA_DONE);
    }
    report("take");

    /* Every method and width, also those that are none; numbers of every length, since short ones take other ways. */
    for (int forecasts = 0; forecasts < 2; forecasts++) {
        for (int i = 0; i < 4; i++) {
            bytes = number[i];
            for (length = 1; length <= LESMUTKA_NUMBER_BYTES; length++)
                for (method = 0; method <= LESMUTKA_MODIFIED_NAF + 1; method++)
                    for (width = 0; width <= LESMUTKA_LARGEST_WIDTH + 1; width++) {
                        int allowed = is_choice(method, width);
                        room = sizeof out;
                        measure(forecasts ? forecast : write_plan, allowed ? 0 : LESMUTKA_METHOD_OR_WIDTH);
                        room = 0;
                        if (!forecasts && allowed)
                            measure(write_plan, LESMUTKA_ROOM_TOO_SMALL);
                    }
        }
        measure_refused(forecasts ? forecast : write_plan);
        report(forecasts ? "forecast" : "plan");
    }
}

static void digit_strings(void) {
    static uint8_t digits[3][LESMUTKA_STRING_DIGITS];
    memset(digits[0], 0x01, sizeof digits[0]);
    memset(digits[1], 0xff, sizeof digits[1]);
    for (size_t i = 0; i < sizeof digits[2]; i++)
        digits[2][i] = (uint8_t)(i * i / 3 % 3 - 1);
    for (int cleans = 0; cleans < 2; cleans++) {
        for (int i = 0; i < 3; i++) {
            bytes = digits[i];
            for (length = 1; length <= LESMUTKA_STRING_DIGITS; length++) {
                room = sizeof out;
                measure(cleans ? clean : read_back, 0);
            }
        }
        report(cleans ? "clean" : "read_back");
    }

    /* In the wide form: the largest digits, their opposites, digits of every kind; also a width that is none, a byte
     * that is no digit, and no room. */
    for (int cleans = 0; cleans < 2; cleans++) {
        void (*run)(void) = cleans ? clean_wide : read_back_wide;
        for (width = LESMUTKA_LEAST_WIDTH; width <= LESMUTKA_LARGEST_WIDTH; width++) {
            uint8_t largest = (uint8_t)((1u << (width - 1)) - 1);
            memset(digits[0], largest, sizeof digits[0]);
            memset(digits[1], -largest, sizeof digits[1]);
            for (size_t i = 0; i < sizeof digits[2]; i++) {
                uint8_t digit = (uint8_t)((7 * i % largest) | 1);
                digits[2][i] = (uint8_t)(i % 3 == 0 ? 0 : i % 3 == 1 ? digit : -digit);
            }
            for (int i = 0; i < 3; i++) {
                bytes = digits[i];
                for (length = 1; length <= LESMUTKA_STRING_DIGITS; length += length < 64 ? 1 : 11) {
                    room = sizeof out;
                    measure(run, 0);
                }
                length = LESMUTKA_STRING_DIGITS;
                measure(run, 0);
                room = 0;
                measure(run, LESMUTKA_ROOM_TOO_SMALL);
            }
            digits[2][LESMUTKA_STRING_DIGITS - 1] = 2;
            measure(run, LESMUTKA_NOT_A_DIGIT);
        }
        measure(run, LESMUTKA_METHOD_OR_WIDTH);
        report(cleans ? "clean_wide" : "read_back_wide");
    }
}

/* Adds a step to the plan. */
static void step(uint8_t *steps, uint8_t operation, size_t j, size_t k) {
    const uint8_t written[] = {operation, (uint8_t)j, (uint8_t)(j >> 8), (uint8_t)k, (uint8_t)(k >> 8)};
    memcpy(steps + plan_length, written, sizeof written);
    plan_length += sizeof written;
}

/* Begins the plan anew, with this many doublings. */
static void doublings(uint8_t *steps, size_t count) {
    plan_length = 0;
    for (size_t i = 0; i < count; i++)
        step(steps, 0, i, i);
}

static void checks(void) {
    static uint8_t steps[LESMUTKA_PLAN_ROOM], number[LESMUTKA_NUMBER_BYTES];
    bytes = number;
    plan = steps;
    room = sizeof out;
    /* A plan of every method and width, and the same for another number. */
    for (int i = 0; i < 2; i++) {
        memset(number, i == 0 ? 0xff : 0x6d, sizeof number);
        length = sizeof number;
        for (uint32_t by = LESMUTKA_BINARY; by <= LESMUTKA_MODIFIED_NAF; by++)
            for (uint32_t bits = 0; bits <= LESMUTKA_LARGEST_WIDTH; bits++) {
                lesmutka_counts counts = lesmutka_plan(number, length, by, bits, steps, sizeof steps);
                if (counts.refusal != 0)
                    continue;
                plan_length = LESMUTKA_STEP_BYTES * (counts.doublings + counts.additions + counts.subtractions);
                measure(check, 0);
                number[0] ^= 2;
                measure(check, LESMUTKA_WRONG_END);
                number[0] ^= 2;
            }
    }
    /* The longest plan, for 1: doublings as far as they go, values below zero of many sizes, and 1 at the end. */
    number[0] = 1;
    length = 1;
    doublings(steps, 8 * LESMUTKA_VALUE_BYTES - 1);
    for (size_t i = 8 * LESMUTKA_VALUE_BYTES; i < LESMUTKA_PLAN_STEPS - 1; i++)
        step(steps, 1, i % 2 == 0 ? 0 : 1, i % (8 * LESMUTKA_VALUE_BYTES - 14) + 2);
    step(steps, 0, 0, 0);
    step(steps, 1, 1, 0);
    if (plan_length != LESMUTKA_PLAN_ROOM)
        fail("the longest plan has another length");
    measure(check, 0);
    /* Hidden doublings of the largest power of two that can be doubled: equal values added, opposite ones subtracted,
     * either first. Then 2, and 1 at the end. */
    size_t half = 8 * LESMUTKA_VALUE_BYTES - 2;
    doublings(steps, half);
    step(steps, 0, half - 1, half - 1);
    step(steps, 0, half, half + 1);
    step(steps, 1, half, half + 2);
    step(steps, 1, half + 1, half + 3);
    step(steps, 1, half + 3, half);
    step(steps, 0, 0, 0);
    step(steps, 1, half + 6, 0);
    measure(check, 0);
    /* The refusals of a step: malformed, zero, too large. */
    const uint8_t last[][3] = {{2, 0, 0}, {1, 0, 0}, {0, 0, 0}};
    const size_t refused[] = {LESMUTKA_MALFORMED_STEP, LESMUTKA_VALUE_IS_ZERO, LESMUTKA_VALUE_TOO_LARGE};
    for (size_t i = 0; i < 3; i++) {
        doublings(steps, 8 * LESMUTKA_VALUE_BYTES - 1);
        size_t latest = i == 2 ? 8 * LESMUTKA_VALUE_BYTES - 1 : 0;
        step(steps, last[i][0], latest, latest);
        measure(check, refused[i]);
    }
    measure_refused(check);
    report("check");
}

static void texts(void) {
    static uint8_t text[512];
    for (int decimals = 0; decimals < 2; decimals++) {
        for (int i = 0; i < 2; i++) {
            memset(text, i == 0 ? '9' : '0', sizeof text);
            bytes = text;
            for (length = 0; length <= sizeof text; length++) {
                room = sizeof out;
                measure(decimals ? decimal : hexadecimal, length > 0);
                room = 0;
                measure(decimals ? decimal : hexadecimal, 0);
            }
        }
        report(decimals ? "decimal" : "hexadecimal");
    }
}

/* Words of each kind, over and over, into enough room and into none. */
static void words_as_text(const char *name, void (*run)(void), const char *words) {
    static uint8_t text[512];
    for (size_t i = 0; i < sizeof text; i++)
        text[i] = (uint8_t)words[i % strlen(words)];
    bytes = text;
    for (length = 0; length <= sizeof text; length++) {
        room = sizeof out;
        measure(run, 0);
    }
    length = sizeof text;
    room = 0;
    measure(run, LESMUTKA_ROOM_TOO_SMALL);
    report(name);
}

int main(void) {
    /* At their first call the dynamic linker binds memcpy and memset, on the stack of whoever calls. */
    const uint8_t one[] = {1};
    static uint8_t long_string[LESMUTKA_STRING_DIGITS];
    lesmutka_read_back(long_string, sizeof long_string, out, sizeof out);
    lesmutka_plan(one, 1, LESMUTKA_NAF, 0, out, sizeof out);
    lesmutka_decimal((const uint8_t *)"1", 1, out, sizeof out);
    lesmutka_write_words(0, out, sizeof out);
    lesmutka_recode_wide(one, 1, 2, out, sizeof out);

    measure(empty, 0);
    report("(empty)");
    most_of_all = 0;
    numbers();
    digit_strings();
    checks();
    texts();
    words_as_text("read_digits", read_digits, "1 0 -1 x ");
    words_as_text("read_steps", read_steps, "add(0,65535) subtract(12,0) add(x) ");
    measure(limits, LESMUTKA_NUMBER_BYTES);
    report("limits");
    measure(version, LESMUTKA_VERSION);
    report("version");
    for (refusal = 0; refusal <= LESMUTKA_HIGHEST_BYTE_IS_ZERO + 1; refusal++) {
        room = sizeof out;
        measure(write_words, 0);
        room = 0;
        measure(write_words, LESMUTKA_ROOM_TOO_SMALL);
    }
    report("write_words");
    if (most_of_all > LESMUTKA_STACK_BYTES)
        fail("a function takes more than LESMUTKA_STACK_BYTES");
    printf("stack: at most %zu bytes of the %d that the header states\n", most_of_all, LESMUTKA_STACK_BYTES);
    return 0;
}
