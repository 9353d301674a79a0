/* Tries the square root of the archive on many numbers beside the processor's, and tells how its guess fared, by a copy
 * of the guess and of its test: how many were one off or more, and how many so far off that the root is worked out
 * digit by digit. Usage: tries MILLIONS [SEED]. */
#include <math.h>
#include <stdint.h>
#include <stdio.h>
#include <stdlib.h>
#include <string.h>

#include "patterns.h"

double measured_sqrt(double);

enum { SPLIT = 1 << 21, NEAR = 1 << 15 };
static const uint64_t FIELD = UINT64_C(1) << 52, ONE = UINT64_C(0x3ff0000000000000), BELOW_ZERO = UINT64_C(1) << 63;

static uint64_t seed = UINT64_C(88172645463325252);

static uint64_t draw(void) {
    seed ^= seed << 13;
    seed ^= seed >> 7;
    seed ^= seed << 17;
    return seed;
}

static double guess(double x, double y) {
    double a = x * y, k = a * y - 0.4932961604439814, l = 0.9942646501618928 - k, p = k * k + 0.7158848417965896;
    double half = a * l * p, j = y * l * p, far = a * 268435456.0, g = (a + a) * l * p + far - far;
    return g + (x - g * g) * j * (1.7500000000015299 - (g + half) * j);
}

static double start(uint64_t b) {
    return (b >> 48) - 0x3fee < 3 ? 0.7675 : number(UINT64_C(0x5fe0b80000000000) - b / 2);
}

static struct {
    uint64_t tried, wrong, off, digits;
} told;

/* The pattern of the number at which the guess is made: below 2^-959 it is 2^512 times as large. */
static uint64_t form(uint64_t b) {
    if (b >= 64 * FIELD) return b;
    uint64_t z = b < FIELD ? (uint64_t)__builtin_clzll(b) - 11 : 0;
    return (b << z) + (512 - z) * FIELD;
}

/* How the guess at the number of this pattern fares. */
static void fare(uint64_t b) {
    uint64_t f = form(b), m = (f % FIELD + FIELD) << (11 - f / FIELD % 2);
    uint64_t q = pattern(guess(number(f), start(f))) - ((f + FIELD) / (2 * FIELD) + 510) * FIELD;
    uint64_t a = q / SPLIT, c = q % SPLIT, d = m - a * a, off = d - a * c / (SPLIT / 2);
    uint64_t over = (a * c << 22) - (d << 42) + c * c - q;
    if (q / FIELD != 1 || off + NEAR >= 2 * NEAR || over - (2 * q - 2) < BELOW_ZERO)
        told.digits++;
    else if (over < BELOW_ZERO || over + 2 * q >= BELOW_ZERO)
        told.off++;
}

static void try(uint64_t b) {
    if (b == 0 || b >= UINT64_C(0x7ff0000000000000)) return;
    told.tried++;
    if (measured_sqrt(number(b)) != sqrt(number(b))) {
        if (told.wrong++ == 0) printf("the root of %a differs\n", number(b));
    }
    if (b - (ONE - (1 << 27)) >= 1 << 28) fare(b);
}

static void tell(const char *what) {
    printf("%-42s %11ju tried, %ju wrong; guess off %ju, digit by digit %ju\n", what, (uintmax_t)told.tried,
           (uintmax_t)told.wrong, (uintmax_t)told.off, (uintmax_t)told.digits);
    memset(&told, 0, sizeof told);
}

/* Numbers around q * q + add, where q has 53 digits: squares, and where add is q, squares of midpoints. */
static void around(uint64_t q, uint64_t add) {
    unsigned __int128 n = (unsigned __int128)q * q + add;
    int up = 0;
    for (; n >> 53; n >>= 1) up++;
    for (int by = -2; by <= 2; by++) try((uint64_t)(1023 - 52 + up) * FIELD + ((uint64_t)n - FIELD) + (uint64_t)by);
}

int main(int words, char **word) {
    long millions = words > 1 ? atol(word[1]) : 1, n = millions * 1000000;
    if (words > 2) seed ^= strtoull(word[2], NULL, 10) << 20;
    for (long i = 0; i < n; i++) try(draw() >> 1);
    tell("random patterns");
    for (long i = 0; i < n; i++) try(ONE + draw() % (2 * FIELD));
    tell("from 1 to 4");
    for (long i = 0; i < n; i++) try(draw() >> 12 >> draw() % 52);
    tell("subnormal numbers");
    for (uint64_t e = 0; e < 2048; e++)
        for (uint64_t i = 0; i < (uint64_t)(n / 2048); i++) try(e * FIELD + (i % 2 ? i / 2 : -(i / 2) - 1));
    tell("around each power of two, 2^1024 too");
    for (long i = 0; i < n / 5; i++) around(FIELD + draw() % FIELD, 0);
    tell("around squares");
    for (long i = 0; i < n / 5; i++) {
        uint64_t q = FIELD + draw() % FIELD;
        around(q, q);
    }
    tell("around squares of midpoints");
    for (long i = 0; i < n / 5; i++) around((FIELD / SPLIT + draw() % (FIELD / SPLIT)) * SPLIT + draw() % 4, 0);
    tell("around squares whose lower digits are few");
    return 0;
}
