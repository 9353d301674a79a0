/* The float of a pattern, and a float's pattern. */
#ifndef PATTERNS_H
#define PATTERNS_H

#include <stdint.h>
#include <string.h>

static inline double number(uint64_t bits) {
    double x;
    memcpy(&x, &bits, sizeof x);
    return x;
}

static inline uint64_t pattern(double x) {
    uint64_t bits;
    memcpy(&bits, &x, sizeof bits);
    return bits;
}

#endif
