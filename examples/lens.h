/* A lens file, as in samples/. It begins with the beam: 4 bytes of length and kind, then origin, direction and index.
   The recipe stands behind. */
#ifndef LENS_H
#define LENS_H

#include <stdio.h>
#include <string.h>

#include "pilingrue.h"

enum { BEAM = 7, BEAM_BYTES = 4 + 8 * BEAM };

typedef struct {
    uint8_t file[BEAM_BYTES + PILINGRUE_MOST_RECIPE_BYTES + 1]; /* a byte more, by which a longer recipe is refused */
    uint8_t *recipe;
    size_t recipe_bytes;
    double beam[BEAM];
} lens;

static int load(lens *l, const char *path) {
    FILE *f = fopen(path, "rb");
    size_t size = f ? fread(l->file, 1, sizeof l->file, f) : 0;
    if (f) fclose(f);
    if (size < BEAM_BYTES) return 0;
    l->recipe = l->file + BEAM_BYTES;
    l->recipe_bytes = size - BEAM_BYTES;
    memcpy(l->beam, l->file + 4, sizeof l->beam); /* the processor is little-endian, as the file */
    return 1;
}

#endif
