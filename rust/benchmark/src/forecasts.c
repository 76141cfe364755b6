/* Forecasts by method 1 as a program in C asks for them, for numbers of this many bytes each. */
#include "lesmutka.h"

size_t forecasts_from_c(const uint8_t *const *numbers, size_t count, size_t bytes);
size_t forecasts_kept_in_c(const uint8_t *const *numbers, size_t count, size_t bytes, lesmutka_counts *kept);

static size_t steps(lesmutka_counts counts) {
    return counts.doublings + counts.additions + counts.subtractions;
}

/* The steps of all plans together. */
size_t forecasts_from_c(const uint8_t *const *numbers, size_t count, size_t bytes) {
    size_t all = 0;
    for (size_t i = 0; i < count; i++)
        all += steps(lesmutka_forecast(numbers[i], bytes, 1, 0));
    return all;
}

/* The same, by way of all answers in an array. */
size_t forecasts_kept_in_c(const uint8_t *const *numbers, size_t count, size_t bytes, lesmutka_counts *kept) {
    size_t all = 0;
    for (size_t i = 0; i < count; i++)
        kept[i] = lesmutka_forecast(numbers[i], bytes, 1, 0);
    for (size_t i = 0; i < count; i++)
        all += steps(kept[i]);
    return all;
}
