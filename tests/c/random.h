/* Random numbers (splitmix64), for tests/c. */
#ifndef RANDOM_H
#define RANDOM_H

#include <stdbool.h>
#include <stddef.h>
#include <stdint.h>

static uint64_t seed;

static uint64_t any(void) {
    uint64_t z = (seed += UINT64_C(0x9E3779B97F4A7C15));
    z = (z ^ (z >> 30)) * UINT64_C(0xBF58476D1CE4E5B9);
    z = (z ^ (z >> 27)) * UINT64_C(0x94D049BB133111EB);
    return z ^ (z >> 31);
}

/* Below n. */
static size_t below(size_t n) {
    return (size_t)(any() % n);
}

static bool one_in(size_t n) {
    return below(n) == 0;
}

#endif /* RANDOM_H */
