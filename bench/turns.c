/* Whole traces of lenses by two archives in turn, for bench/turns: the least time of each, as the ratio of the second
   to the first. */
#include <stdint.h>
#include <stdio.h>
#include <stdlib.h>
#include <string.h>
#include <time.h>

#include "lens.h"

enum { SIDES = 2, ROUNDS = 4000, CALLS = 100 };

typedef pilingrue_verdict whole(const uint8_t *recipe, size_t recipe_bytes, double ox, double oy, double oz, double dx,
                                double dy, double dz, double index, double *buffer, size_t room, uint64_t *counts,
                                double *numbers);

whole first_whole, second_whole;

static whole *const SIDE[SIDES] = {first_whole, second_whole};

static uint64_t traced(whole *by, const lens *l, size_t room) {
    static double buffer[PILINGRUE_MOST_ROOM];
    uint64_t counts[PILINGRUE_COUNTS];
    double numbers[PILINGRUE_NUMBERS];
    const double *b = l->beam;
    return by(l->recipe, l->recipe_bytes, b[0], b[1], b[2], b[3], b[4], b[5], b[6], buffer, room, counts, numbers)
        .number;
}

static int both_accept(const lens *l, size_t room) {
    return traced(first_whole, l, room) == PILINGRUE_ACCEPTED && traced(second_whole, l, room) == PILINGRUE_ACCEPTED;
}

/* The least of rooms for whole records that suffices for both sides. */
static size_t room_for(const lens *l) {
    size_t room = 0;
    while (room < PILINGRUE_MOST_ROOM && !both_accept(l, room)) room += PILINGRUE_RECORD_NUMBERS;
    return room;
}

static double seconds(void) {
    struct timespec now;
    clock_gettime(CLOCK_MONOTONIC, &now);
    return (double)now.tv_sec + 1e-9 * (double)now.tv_nsec;
}

/* The least seconds of CALLS calls of each side, which take turns. */
static void measure(const lens *l, size_t room, double least[SIDES]) {
    for (int round = 0; round < ROUNDS; round++) {
        for (int side = 0; side < SIDES; side++) {
            double from = seconds();
            for (int call = 0; call < CALLS; call++) traced(SIDE[side], l, room);
            double took = seconds() - from;
            if (round == 0 || took < least[side]) least[side] = took;
        }
    }
}

int main(int words, char **word) {
    static lens l;
    for (int i = 1; i < words; i++) {
        double least[SIDES];
        if (!load(&l, word[i]) || !both_accept(&l, room_for(&l))) {
            fprintf(stderr, "turns: %s is no lens that both sides accept\n", word[i]);
            return EXIT_FAILURE;
        }
        measure(&l, room_for(&l), least);
        const char *slash = strrchr(word[i], '/');
        printf("%5.3f  %s\n", least[1] / least[0], slash ? slash + 1 : word[i]);
    }
    return EXIT_SUCCESS;
}
