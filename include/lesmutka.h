/*
 * Lesmutka: plans for multiplying a curve point by a public number, and their check.
 *
 * Recoding of a number into its non-adjacent form (NAF), of width 2 or wider, or its modified NAF,
 * cleaning and reading back of signed digit strings, planning of addition-subtraction chains by
 * several methods, the check of such a plan, and the reading of numbers, digits and steps from
 * text.
 *
 * Every function of the library is proved: whatever bytes it is handed, it returns, it touches
 * only what it was lent, and its answer and every byte that it leaves are those of a written
 * definition. For a recoder the definition fixes the number that it stands for, not its words: two
 * recoders that stand for the same number may differ. lesmutka_words, which stands in this header
 * alone, is not proved.
 *
 * The header is C99 and C++11.
 *
 * Example
 *
 *     #include <lesmutka.h>
 *     #include <stdio.h>
 *     #include <string.h>
 *
 *     int main(void) {
 *         const char *text = "43";
 *         uint8_t number[LESMUTKA_TEXT_ROOM(116)], plan[LESMUTKA_PLAN_ROOM];
 *         uint8_t space[LESMUTKA_WORK_SPACE(LESMUTKA_PLAN_STEPS)];
 *
 *         lesmutka_parsed parsed =
 *             lesmutka_decimal((const uint8_t *)text, strlen(text), number, sizeof number);
 *         if (!parsed.is_number) {
 *             printf("not a number of at most 116 digits\n");
 *             return 2;
 *         }
 *         lesmutka_counts counts =
 *             lesmutka_plan(number, parsed.length, LESMUTKA_NAF, 0, plan, sizeof plan);
 *         if (counts.refusal != 0) {
 *             printf("refused: %s (place %zu)\n", lesmutka_words(counts.refusal), counts.place);
 *             return 1;
 *         }
 *         size_t steps = counts.doublings + counts.additions + counts.subtractions;
 *         lesmutka_accepted checked = lesmutka_check(
 *             number, parsed.length, plan, LESMUTKA_STEP_BYTES * steps, space, sizeof space);
 *         if (checked.refusal != 0) {
 *             printf("refused: %s (place %zu)\n", lesmutka_words(checked.refusal), checked.place);
 *             return 1;
 *         }
 *         printf("checked: %zu doublings, %zu additions, %zu subtractions; at most %zu bits\n",
 *                checked.doublings, checked.additions, checked.subtractions, checked.largest_bits);
 *         return 0;
 *     }
 *
 * Needs
 *
 *   Target     x86-64 with the System V ABI, 64-bit pointers and ELF objects, such as Linux. Not
 *              Windows, macOS, UEFI or x32.
 *   Linking    liblesmutka.a, which `./lesmutka --build` writes to target/staticlib/; after
 *              `./install PREFIX`, what `pkg-config --cflags --libs lesmutka` says. It calls memcpy
 *              and memset and nothing else, is position independent, and has a section for each
 *              function, so -Wl,--gc-sections leaves out those that are not called.
 *   Registers  General and SSE2 (xmm) registers, no AVX, no x87. A kernel has to save them first.
 *   Stack      At most LESMUTKA_STACK_BYTES bytes a call.
 *   Red zone   Bytes just below the stack pointer are used, as the ABI allows. The signals of a
 *              process spare them. In a kernel an interrupt may overwrite them (hence
 *              -mno-red-zone): there, call only on a stack that no interrupt uses.
 *
 * Conventions
 *
 *   Order      Every buffer is least significant first: bytes of a number, digits of a string. Only
 *              text is read as people write it, most significant first.
 *   Number     At most LESMUTKA_NUMBER_BYTES bytes. No bytes means zero. The highest byte is not
 *              zero, so each number has one spelling.
 *   Digits     One byte a digit: 0x00 is 0, 0x01 is 1, 0xFF is minus 1. A digit string that is
 *              handed in has at most LESMUTKA_STRING_DIGITS of them.
 *   Canonical  The canonical string is the NAF: of two neighbouring digits at least one is 0, and
 *              the most significant digit is not 0. Zero is the empty string.
 *   Wide       The calls in the wide form take a width w, LESMUTKA_LEAST_WIDTH to
 *              LESMUTKA_LARGEST_WIDTH. A digit of width w is 0, or odd with a size below 2^(w - 1);
 *              its byte is the digit in two's complement. The width-w NAF: any two digits other
 *              than 0 are at least w places apart, and the most significant digit is not 0. Zero
 *              is the empty string. With width 2, digits and NAF are those above.
 *   Modified   The modified NAF is the NAF, except that leading digits 1 0 -1, most significant
 *              first, become 1 1. Zero is the empty string. No digit string of the same value whose
 *              most significant digit is 1 has a smaller sum of length and nonzero digits.
 *   Plan       At most LESMUTKA_PLAN_STEPS steps of LESMUTKA_STEP_BYTES bytes: an operation (0x00
 *              add, 0x01 subtract), then positions j and k, two bytes each. Position 0 holds 1.
 *              Step i, counted from 1, fills position i with a(j) + a(k) or a(j) - a(k), where j
 *              and k are below i. The plan ends at the position filled last.
 *   Memory     Inputs never change. A refusal changes nothing, unless its function says so. On
 *              success only the answer's bytes change; those above stay.
 *   Pointers   A pointer to bytes may be NULL if its length is 0; it needs no alignment. A pointer
 *              to a recoder is not NULL, and aligned as uint64_t. Buffers that are written must not
 *              overlap any other argument. They need not be cleared before.
 *   State      Nothing is kept after a function has returned. No function allocates, and none uses
 *              memory of its own but the stack, so all may be called from any number of threads
 *              and from signal handlers, provided that each has its own recoders and buffers to
 *              write to.
 *   Time       All numbers here are public. Nothing is promised about time.
 *
 * Refusals
 *
 *   The answer of every call that may be refused begins with `refusal` and `place`. Where it was
 *   not refused, both are 0. Where it was, they are these, and every other field of the answer is
 *   0. The reading of numbers has none: lesmutka_parsed says whether there was a number.
 *
 *    refusal                                 given when                                place
 *    1  LESMUTKA_NUMBER_TOO_LONG             number longer than LESMUTKA_NUMBER_BYTES  0
 *    2  LESMUTKA_NUMBER_IS_ZERO              number is zero (plan, forecast, check)    0
 *    3  LESMUTKA_METHOD_OR_WIDTH             no such method, or width not allowed      0
 *    4  LESMUTKA_NOT_A_DIGIT                 a byte of the digit string is no digit    lowest such
 *    5  LESMUTKA_STRING_TOO_LONG             digit string longer than                  0
 *                                            LESMUTKA_STRING_DIGITS
 *    6  LESMUTKA_ROOM_TOO_SMALL              output needs more bytes than lent         bytes needed
 *    7  LESMUTKA_PLAN_LENGTH                 plan bytes not a multiple of              0
 *                                            LESMUTKA_STEP_BYTES, or more than
 *                                            LESMUTKA_PLAN_ROOM; text of more
 *                                            words than LESMUTKA_PLAN_STEPS
 *    8  LESMUTKA_WORK_SPACE_TOO_SHORT        work space shorter than                   0
 *                                            LESMUTKA_WORK_SPACE(r)
 *    9  LESMUTKA_MALFORMED_STEP              unknown operation, or j or k not below i  i
 *   10  LESMUTKA_VALUE_IS_ZERO               the value at step i is zero               i
 *   11  LESMUTKA_VALUE_TOO_LARGE             the size of the value at step i takes     i
 *                                            more than LESMUTKA_VALUE_BYTES bytes
 *   12  LESMUTKA_WRONG_END                   all r steps sound, the last value is      r
 *                                            not the number
 *   13  LESMUTKA_HIGHEST_BYTE_IS_ZERO        highest byte of the number is zero        0
 *
 *   Where more than one could be given, each function names the order in which they are tested.
 */
#ifndef LESMUTKA_H
#define LESMUTKA_H

/* Elsewhere the answers would be handed over in another way, or the archive could not be linked. */
#if !defined(__x86_64__) || !defined(__ELF__) || defined(__ILP32__) || defined(_WIN32)
#error "Lesmutka is only for x86-64 with the System V ABI and 64-bit pointers, on an ELF system."
#endif

#include <stddef.h>
#include <stdint.h>

#ifdef __cplusplus
extern "C" {
#endif

/* The version, 10000 * major + 100 * minor + patch: this is 0.8.0. lesmutka_version answers that of
 * the library that is linked. */
#define LESMUTKA_VERSION 800

/* Limits. lesmutka_limits answers those of the library that is linked. */
#define LESMUTKA_NUMBER_BYTES 48
#define LESMUTKA_STRING_DIGITS 768
#define LESMUTKA_STEP_BYTES 5
#define LESMUTKA_PLAN_STEPS 960
#define LESMUTKA_VALUE_BYTES 49
#define LESMUTKA_RECORD_BYTES (1 + LESMUTKA_VALUE_BYTES)

/* The widest windows. */
#define LESMUTKA_FIXED_WINDOW_BITS 6
#define LESMUTKA_SLIDING_WINDOW_BITS 6

/* The widths of a NAF. */
#define LESMUTKA_LEAST_WIDTH 2
#define LESMUTKA_LARGEST_WIDTH 8

/* Room that is enough for every answer. */
#define LESMUTKA_RECODE_ROOM (8 * LESMUTKA_NUMBER_BYTES + 1)
#define LESMUTKA_CLEAN_ROOM (LESMUTKA_STRING_DIGITS + 1)
#define LESMUTKA_READ_BACK_ROOM (LESMUTKA_STRING_DIGITS / 8)
#define LESMUTKA_CLEAN_WIDE_ROOM (LESMUTKA_STRING_DIGITS + LESMUTKA_LARGEST_WIDTH)
#define LESMUTKA_READ_BACK_WIDE_ROOM (LESMUTKA_STRING_DIGITS / 8 + 1)
#define LESMUTKA_PLAN_ROOM (LESMUTKA_STEP_BYTES * LESMUTKA_PLAN_STEPS)

/* Room that is enough for the number or the digits of a text of this many bytes. The argument is
 * evaluated twice. */
#define LESMUTKA_TEXT_ROOM(length) ((size_t)(length) / 2 + (size_t)(length) % 2)

/* The longest words of a refusal. */
#define LESMUTKA_WORDS_ROOM 75

/* No call takes more stack than this: its return address, what it uses of the red zone and glibc's
 * memcpy and memset included, but not the dynamic linker, where it binds these two at first use. */
#define LESMUTKA_STACK_BYTES 1536

/* The work space that the check of a plan of this many steps takes. */
#define LESMUTKA_WORK_SPACE(steps) (LESMUTKA_RECORD_BYTES * ((size_t)(steps) + 1))

/* Refusals. */
enum {
    LESMUTKA_NUMBER_TOO_LONG = 1,
    LESMUTKA_NUMBER_IS_ZERO = 2,
    LESMUTKA_METHOD_OR_WIDTH = 3,
    LESMUTKA_NOT_A_DIGIT = 4,
    LESMUTKA_STRING_TOO_LONG = 5,
    LESMUTKA_ROOM_TOO_SMALL = 6,
    LESMUTKA_PLAN_LENGTH = 7,
    LESMUTKA_WORK_SPACE_TOO_SHORT = 8,
    LESMUTKA_MALFORMED_STEP = 9,
    LESMUTKA_VALUE_IS_ZERO = 10,
    LESMUTKA_VALUE_TOO_LARGE = 11,
    LESMUTKA_WRONG_END = 12,
    LESMUTKA_HIGHEST_BYTE_IS_ZERO = 13
};

/* Methods, for a number e above zero. "Latest" is the position filled last, at first 0; the methods
 * with a table also set it once, after that. "Double" is add(latest, latest). The width d is 0 for
 * binary, NAF and modified NAF, 1 to LESMUTKA_FIXED_WINDOW_BITS for fixed windows and 1 to
 * LESMUTKA_SLIDING_WINDOW_BITS for sliding windows. The width w of wide NAF is LESMUTKA_LEAST_WIDTH
 * to LESMUTKA_LARGEST_WIDTH.
 *
 *   Binary            From the bit below the top bit down: double; if the bit is 1, add(latest, 0).
 *   Fixed windows     of d bits, cut from the low end. If e is below 2^d: add(i - 1, 0) for i = 1
 *                     to e - 1, and no more. Otherwise the table first: add(i - 1, 0) for i = 1 to
 *                     2^d - 2, so that value v stands at position v - 1. Latest becomes the
 *                     position of the value of the top window, the one that holds the top bit. For
 *                     each lower window: double d times; if its value v is not 0,
 *                     add(latest, v - 1).
 *   Sliding windows   of at most d bits. The table for d of 2 or more: add(0, 0), add(1, 0), then
 *                     add(i - 1, 1) for i = 3 to 2^(d - 1). Odd v above 1 stands at position
 *                     (v + 1) / 2, and 1 at position 0. For d = 1 there is no table. If e is odd
 *                     and below 2^d, the table stops at e, and that is the plan. Otherwise from the
 *                     top bit down: at a 1, the longest window of at most d bits that begins there
 *                     and ends in 1. The first sets latest to its value's position; each later one:
 *                     double once per bit of it, then add(latest, its position). At a 0: double.
 *   NAF               From the canonical digit below the top down: double; for 1 add(latest, 0);
 *                     for minus 1 subtract(latest, 0).
 *   Wide NAF          The table of sliding windows for d = w - 1. If e is odd and below 2^(w - 1),
 *                     the table stops at e, and that is the plan. Otherwise latest becomes the
 *                     position of the top digit of the width-w NAF. From the digit below it down:
 *                     double; for a digit v above 0 add(latest, the position of v); for one below
 *                     0 subtract(latest, the position of its size).
 *   Modified NAF      As NAF, by the digits of the modified NAF. Where these are not the NAF, it is
 *                     a step less; otherwise the steps are the same.
 */
enum {
    LESMUTKA_BINARY = 1,
    LESMUTKA_FIXED_WINDOWS = 2,
    LESMUTKA_SLIDING_WINDOWS = 3,
    LESMUTKA_NAF = 4,
    LESMUTKA_WIDE_NAF = 5,
    LESMUTKA_MODIFIED_NAF = 6
};

/* What the start of taking answers. */
typedef struct {
    size_t refusal;
    size_t place;
} lesmutka_started;

/* How many bytes were written. */
typedef struct {
    size_t refusal;
    size_t place;
    size_t length;
} lesmutka_length;

/* A value: its sign (0, or 1 below zero; zero has 0), and how many bytes of size were written. */
typedef struct {
    size_t refusal;
    size_t place;
    size_t sign;
    size_t length;
} lesmutka_value;

/* How many steps a plan has of each kind: an add step whose values are equal, and a subtract step
 * whose values are opposite, a(j) = -a(k), are doublings; any other add step is an addition, any
 * other subtract step a subtraction. Values decide, not positions: if two points are equal, the
 * addition formula of the curve divides by zero, and the doubling formula has to be used. */
typedef struct {
    size_t refusal;
    size_t place;
    size_t doublings;
    size_t additions;
    size_t subtractions;
} lesmutka_counts;

/* An accepted plan: its counts, as in lesmutka_counts, and largest_bits, the bit length of the
 * largest size among the values of its chain, position 0 included and values below zero by their
 * size. So registers of that many bits hold every size. It is 1 for the empty plan, at least the
 * bit length of the number, and at most 8 * LESMUTKA_VALUE_BYTES. */
typedef struct {
    size_t refusal;
    size_t place;
    size_t doublings;
    size_t additions;
    size_t subtractions;
    size_t largest_bits;
} lesmutka_accepted;

/* Whether a text was a number (1 or 0), where a decimal text ceases to be one, and how many bytes
 * the number has. */
typedef struct {
    size_t is_number;
    size_t place;
    size_t length;
} lesmutka_parsed;

/* A recoder, kept by the caller. It stands for a number: that of the first words, least significant
 * first, plus one where the last word is not 0. Its takes give the canonical digits of that number,
 * also for a recoder that was put together by hand. It may be copied; each copy goes on alone. */
typedef struct {
    uint64_t words[LESMUTKA_NUMBER_BYTES / 8 + 1];
} lesmutka_recoder;

/* What lesmutka_take answers where no digit is left. */
#define LESMUTKA_DONE 0x100

/* The limits of the library that is linked. */
typedef struct {
    size_t number_bytes;
    size_t string_digits;
    size_t step_bytes;
    size_t plan_steps;
    size_t value_bytes;
    size_t record_bytes;
} lesmutka_limits_t;

/** Recode a number into its canonical string.
 *
 *  Returns: the length of the string, the bytes written.
 *           Refused: 1, then 13, then 6; nothing is written.
 *  In:      number: the number, number_length bytes.
 *  Out:     out: room for the digits, out_length bytes. LESMUTKA_RECODE_ROOM is always enough.
 */
lesmutka_length lesmutka_recode(const uint8_t *number, size_t number_length, uint8_t *out,
                                size_t out_length);

/** Recode by words: the same as lesmutka_recode in every answer and every byte.
 *
 *  Returns: the length of the string, the bytes written.
 *           Refused: 1, then 13, then 6; nothing is written.
 *  In:      number: the number, number_length bytes.
 *  Out:     out: room for the digits, out_length bytes. LESMUTKA_RECODE_ROOM is always enough.
 */
lesmutka_length lesmutka_recode_words(const uint8_t *number, size_t number_length, uint8_t *out,
                                      size_t out_length);

/** Recode a number into its width-w NAF.
 *
 *  Returns: the length of the string, the bytes written.
 *           Refused: 1, then 13, then 3 for any other width, then 6; nothing is written.
 *  In:      number: the number, number_length bytes.
 *           width: w, from LESMUTKA_LEAST_WIDTH to LESMUTKA_LARGEST_WIDTH.
 *  Out:     out: room for the digits, out_length bytes. LESMUTKA_RECODE_ROOM is always enough.
 */
lesmutka_length lesmutka_recode_wide(const uint8_t *number, size_t number_length, uint32_t width,
                                     uint8_t *out, size_t out_length);

/** Recode a number into its modified NAF. lesmutka_clean makes the canonical string of it.
 *
 *  Returns: the length of the string, the bytes written.
 *           Refused: 1, then 13, then 6; nothing is written.
 *  In:      number: the number, number_length bytes.
 *  Out:     out: room for the digits, out_length bytes. LESMUTKA_RECODE_ROOM is always enough.
 */
lesmutka_length lesmutka_recode_modified(const uint8_t *number, size_t number_length, uint8_t *out,
                                         size_t out_length);

/** Start taking the canonical digits of a number one by one.
 *
 *  Returns: nothing but the refusal.
 *           Refused: 1, then 13; the recoder is then that of zero.
 *  In:      number: the number, number_length bytes. No later take reads it again.
 *  Out:     recoder: the recoder, moved on by lesmutka_take.
 */
lesmutka_started lesmutka_start(const uint8_t *number, size_t number_length,
                                lesmutka_recoder *recoder);

/** Take the lowest digit that is left.
 *
 *  Returns: the digit's byte (0x00, 0x01, 0xFF); LESMUTKA_DONE after the most significant digit,
 *           and from then on.
 *           Never refused.
 *  In/Out:  recoder: moved on by one place; unchanged where the answer is LESMUTKA_DONE.
 */
uint32_t lesmutka_take(lesmutka_recoder *recoder);

/** Clean a digit string: write the canonical string of the same value. No signed digit string of
 *  that value has fewer nonzero digits, and two strings have the same value if and only if they
 *  give the same bytes.
 *
 *  Returns: the length of the canonical string, the bytes written; it may be one more than the
 *           longest input.
 *           Refused: 5, then 4, then 6; nothing is written.
 *  In:      digits: the digit string, digits_length bytes.
 *  Out:     out: room for the digits, out_length bytes. LESMUTKA_CLEAN_ROOM is always enough.
 */
lesmutka_length lesmutka_clean(const uint8_t *digits, size_t digits_length, uint8_t *out,
                               size_t out_length);

/** Clean a wide digit string: write the width-w NAF of the same value. Two strings of width w have
 *  the same value if and only if they give the same bytes.
 *
 *  Returns: the length of the NAF, the bytes written; it may be w more than the longest
 *           input, at width 2 one more.
 *           Refused: 3 for any other width, then 5, then 4 for a byte that is no digit of
 *           width w, then 6; nothing is written.
 *  In:      digits: the digit string, digits_length bytes.
 *           width: w, from LESMUTKA_LEAST_WIDTH to LESMUTKA_LARGEST_WIDTH.
 *  Out:     out: room for the digits, out_length bytes. LESMUTKA_CLEAN_WIDE_ROOM is always enough.
 */
lesmutka_length lesmutka_clean_wide(const uint8_t *digits, size_t digits_length, uint32_t width,
                                    uint8_t *out, size_t out_length);

/** Read a digit string back: the sign and the size of its value.
 *
 *  Returns: the sign, and the length of the size, the bytes written.
 *           Refused: 5, then 4, then 6; nothing is written.
 *  In:      digits: the digit string, digits_length bytes.
 *  Out:     out: room for the size, out_length bytes; it has no high zero byte.
 *                LESMUTKA_READ_BACK_ROOM is always enough.
 */
lesmutka_value lesmutka_read_back(const uint8_t *digits, size_t digits_length, uint8_t *out,
                                  size_t out_length);

/** Read a wide digit string back: the sign and the size of its value. The sign need not be that of
 *  the most significant digit: 1, -3 stands for -1.
 *
 *  Returns: the sign, and the length of the size, the bytes written.
 *           Refused: 3 for any other width, then 5, then 4 for a byte that is no digit of
 *           width w, then 6; nothing is written.
 *  In:      digits: the digit string, digits_length bytes.
 *           width: w, from LESMUTKA_LEAST_WIDTH to LESMUTKA_LARGEST_WIDTH.
 *  Out:     out: room for the size, out_length bytes; it has no high zero byte.
 *                LESMUTKA_READ_BACK_WIDE_ROOM is always enough.
 */
lesmutka_value lesmutka_read_back_wide(const uint8_t *digits, size_t digits_length, uint32_t width,
                                       uint8_t *out, size_t out_length);

/** Write the plan for a number by a method. lesmutka_check accepts it for the same number, with the
 *  same counts.
 *
 *  Returns: the counts of the plan's steps; their sum times LESMUTKA_STEP_BYTES is how many bytes
 *           were written.
 *           Refused: 1, then 13, then 2, then 3, then 6; nothing is written.
 *  In:      number: the number, number_length bytes.
 *           method: LESMUTKA_BINARY, LESMUTKA_FIXED_WINDOWS, LESMUTKA_SLIDING_WINDOWS,
 *                   LESMUTKA_NAF, LESMUTKA_WIDE_NAF or LESMUTKA_MODIFIED_NAF.
 *           width: the bits of a window, from 1 to the limit of the method, or the width of a wide
 *                  NAF; 0 for the methods without.
 *  Out:     out: room for the plan, out_length bytes. LESMUTKA_PLAN_ROOM is always enough.
 */
lesmutka_counts lesmutka_plan(const uint8_t *number, size_t number_length, uint32_t method,
                              uint32_t width, uint8_t *out, size_t out_length);

/** Forecast the counts of the plan that lesmutka_plan gives for the same number, method and width,
 *  without the plan.
 *
 *  Returns: the counts.
 *           Refused: 1, then 13, then 2, then 3.
 *  In:      number, method, width: as for lesmutka_plan.
 */
lesmutka_counts lesmutka_forecast(const uint8_t *number, size_t number_length, uint32_t method,
                                  uint32_t width);

/** Check a plan for a number: each step sound, and the last value the number.
 *
 *  Returns: the counts of the plan's steps, and the bits of the largest size among its values.
 *           Refused: 1, then 13, then 2, then 7, then 8: nothing is written. Then the steps from
 *           the first, each tested for 9, then 10 or 11: the work space then holds records 0 to
 *           i - 1. Then 12: it holds records 0 to r, as after success. Bytes past these records
 *           stay.
 *  In:      number: the number, number_length bytes.
 *           plan: the plan, plan_length bytes.
 *  Out:     space: the work space, space_length bytes, at least LESMUTKA_WORK_SPACE(steps). Record
 *                  i is LESMUTKA_RECORD_BYTES bytes: the sign of a(i) (0, or 1 below zero), then
 *                  its size.
 */
lesmutka_accepted lesmutka_check(const uint8_t *number, size_t number_length, const uint8_t *plan,
                                 size_t plan_length, uint8_t *space, size_t space_length);

/** Read a number from hexadecimal text, most significant digit first, in either case, with 0x or 0X
 *  in front or without. Its bytes are those that the text writes: two digits a byte, and leading
 *  zeros count. Every call that takes a number refuses one with a leading zero byte: with 13, or
 *  with 1 where it is too long.
 *
 *  Returns: is_number 1, and the length: the digits halved, rounded up; the bytes written.
 *           Where the text is no number, all fields are 0 and nothing is written: it has no digit,
 *           or a byte that is no hexadecimal digit, or the number needs more bytes than lent.
 *           The place is always 0.
 *  In:      text: the text, text_length bytes; it need not end in a zero byte.
 *  Out:     out: room for the number, out_length bytes. LESMUTKA_TEXT_ROOM(text_length) is always
 *                enough.
 */
lesmutka_parsed lesmutka_hexadecimal(const uint8_t *text, size_t text_length, uint8_t *out,
                                     size_t out_length);

/** Read a number from decimal text, most significant digit first.
 *
 *  Returns: is_number 1, and the length of the number without high zero bytes, as the calls take
 *           it: 0 for zero. The place is 0.
 *           Where the text is no number, is_number and length are 0, nothing is written, and the
 *           place is how many digits come before the first byte that is none. It is text_length
 *           where all bytes are digits, but there are none or out is too short.
 *  In:      text: the text, text_length bytes; it need not end in a zero byte. The time grows with
 *                 the square of its length, so limit that where others choose the text.
 *  Out:     out: room for the number, out_length bytes, at least LESMUTKA_TEXT_ROOM(text_length).
 *                That many bytes are written: the number, then zeros. Bytes past these stay.
 */
lesmutka_parsed lesmutka_decimal(const uint8_t *text, size_t text_length, uint8_t *out,
                                 size_t out_length);

/** Read a digit string from text: words 0, 1 and -1, most significant first, with blanks between
 *  them. A blank is a space or a byte from tab (0x09) to carriage return (0x0D). Any other word is
 *  written as the byte 0x02, which is no digit, so that a call refuses it with its place.
 *
 *  Returns: the length of the string, the bytes written: one for each word.
 *           Refused: 6; nothing is written.
 *  In:      text: the text, text_length bytes; it need not end in a zero byte.
 *  Out:     out: room for the digits, out_length bytes. LESMUTKA_TEXT_ROOM(text_length) is always
 *                enough.
 */
lesmutka_length lesmutka_read_digits(const uint8_t *text, size_t text_length, uint8_t *out,
                                     size_t out_length);

/** Read a plan from text: words add(J,K) and subtract(J,K), the first step first, with blanks
 *  between them, as for lesmutka_read_digits. J and K are decimal and below 65536. Any other word
 *  is written as a step whose operation is 0x02, which lesmutka_check refuses with its place.
 *
 *  Returns: the length of the plan, the bytes written: LESMUTKA_STEP_BYTES for each word.
 *           Refused: 7 for more words than LESMUTKA_PLAN_STEPS, then 6; nothing is written.
 *  In:      text: the text, text_length bytes; it need not end in a zero byte.
 *  Out:     out: room for the plan, out_length bytes. LESMUTKA_PLAN_ROOM is always enough.
 */
lesmutka_length lesmutka_read_steps(const uint8_t *text, size_t text_length, uint8_t *out,
                                    size_t out_length);

/** The limits that the linked library keeps.
 *
 *  Returns: the limits, equal to the constants above.
 */
lesmutka_limits_t lesmutka_limits(void);

/** The version of the linked library.
 *
 *  Returns: the version, equal to LESMUTKA_VERSION of the header that belongs to it.
 */
uint32_t lesmutka_version(void);

/** Write a refusal in plain words, for languages that cannot read this header. The words are those
 *  of lesmutka_words.
 *
 *  Returns: the length of the words, the bytes written; no zero byte is added.
 *           Refused: 6; nothing is written.
 *  In:      refusal: the refusal of an answer, or any other number.
 *  Out:     out: room for the words, out_length bytes. LESMUTKA_WORDS_ROOM is always enough.
 */
lesmutka_length lesmutka_write_words(size_t refusal, uint8_t *out, size_t out_length);

/** A refusal in plain words.
 *
 *  Returns: a constant string; "not refused" for 0, "no such refusal" for a number that is none.
 *  In:      refusal: the refusal of an answer.
 */
static inline const char *lesmutka_words(size_t refusal) {
    static const char *const words[] = {
        "not refused",
        "the number is too long",
        "the number is zero",
        "no such method, or a width that it does not allow",
        "the byte at this place is no digit",
        "the digit string is too long",
        "the output needs this many bytes",
        "the plan is no whole number of steps, or has too many",
        "the work space is too short for the plan",
        "this step has an unknown operation, or a position that is not below its own",
        "the value at this step is zero",
        "the value at this step is too large",
        "the last value, at this position, is not the number",
        "the highest byte of the number is zero",
    };
    return refusal < sizeof words / sizeof words[0] ? words[refusal] : "no such refusal";
}

#ifdef __cplusplus
}
#endif

#endif
