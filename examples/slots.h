/* Two copies of a channel, in memory that outlives the power. They are written by turns, so that one is whole while the
   other is written. The live arrays are not what is kept: a power failure inside a call leaves them torn, and torn
   arrays can pass a continuation's check.

     keep      after each accepted call has returned, never during one; with another recipe, a stop
     stop      after a refused call: nothing is shown, and nothing comes back
     forget    before each start, and before the next lens is in the holder: no trace before it comes back
     restore   when the power is back: the newest copy that is whole, or a stop */
#ifndef SLOTS_H
#define SLOTS_H

#include <stddef.h>
#include <stdint.h>
#include <string.h>

#include "pilingrue.h"

/* What a station has of a trace. Each member is made of numbers of 8 bytes, so there is no padding. */
typedef struct {
    uint64_t turn;    /* of the last copy; the larger is the newer */
    uint64_t version; /* of the interface then: under another the same numbers may mean something else */
    uint64_t recipe;  /* its checksum, to be written before each start: the state does not know its recipe */
    uint64_t counts[PILINGRUE_COUNTS];
    double numbers[PILINGRUE_NUMBERS];
    double buffer[PILINGRUE_MOST_ROOM];
} channel;

typedef struct {
    channel copy;
    uint64_t checksum; /* of all that stands before it */
} slot;

enum { SLOTS = 2 };

typedef enum { RESTORED, NO_WHOLE_COPY, ANOTHER_VERSION, ANOTHER_RECIPE } restored;

/* FNV-1a. Any single changed byte is seen: each is mixed in by an exclusive or and a product with an odd number, and
   both can be undone. A slot of zeros is not whole, since the checksum of zeros is odd. */
static uint64_t checksum(const void *from, size_t bytes) {
    const uint8_t *at = from;
    uint64_t sum = UINT64_C(0xCBF29CE484222325);
    for (size_t i = 0; i < bytes; i++) sum = (sum ^ at[i]) * UINT64_C(0x100000001B3);
    return sum;
}

static void forget(slot slots[SLOTS]) { memset(slots, 0, SLOTS * sizeof *slots); }

/* A state of zeros fits no recipe, so only a start goes on from here. */
static void stop(slot slots[SLOTS], channel *live) {
    forget(slots);
    memset(live, 0, sizeof *live);
}

/* Whether the trace may go on. Here and below `recipe` is the checksum of the recipe that is in memory now. */
static int keep(slot slots[SLOTS], channel *live, uint64_t recipe) {
    slot *older = &slots[(live->turn + 1) % SLOTS];
    if (live->recipe != recipe) {
        stop(slots, live);
        return 0;
    }
    live->turn++;
    live->version = PILINGRUE_VERSION;
    older->copy = *live;
    older->checksum = checksum(live, sizeof *live);
    return 1;
}

static int is_whole(const slot *s) { return s->checksum == checksum(&s->copy, sizeof s->copy); }

static const slot *newest(const slot slots[SLOTS]) {
    const slot *found = NULL;
    for (int i = 0; i < SLOTS; i++)
        if (is_whole(&slots[i]) && (!found || slots[i].copy.turn > found->copy.turn)) found = &slots[i];
    return found;
}

static restored judge(const slot *last, uint64_t recipe) {
    if (!last) return NO_WHOLE_COPY;
    if (last->copy.version != PILINGRUE_VERSION) return ANOTHER_VERSION;
    return last->copy.recipe == recipe ? RESTORED : ANOTHER_RECIPE;
}

static restored restore(slot slots[SLOTS], channel *live, uint64_t recipe) {
    const slot *last = newest(slots);
    restored found = judge(last, recipe);
    if (found == RESTORED)
        *live = last->copy;
    else
        stop(slots, live);
    return found;
}

#endif
