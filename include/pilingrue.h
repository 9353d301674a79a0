/* SPDX-License-Identifier: MIT OR Apache-2.0 (LICENSE-MIT, LICENSE-APACHE; NOTICE says what comes from OpticsLab)

   Pilingrue follows one alignment beam through a lens recipe, a few steps in each controller scan, and shows a record
   only once it is final. This is all of its C interface; link libstation.a, which is for x86-64 and its System V
   calling convention.

   A station works like this:

     pilingrue_start      once for each lens: checks recipe and beam, blanks the result buffer, takes no step;
     pilingrue_continue   in each scan, with as many steps as the scan has time for;
     pilingrue_whole      instead of both, where there is time for all steps at once;
     pilingrue_reach      at any time, beside a trace or without one: the record of one surface.

   After each call ask for its verdict first, and only then for the outcome, counts[PILINGRUE_COUNTS_OUTCOME]:

     verdict other than 1   stop, show nothing, start anew;
     outcome 0              the trace goes on in the next scan;
     outcome 1              it is done: the beam hit all surfaces;
     any other outcome      it has ended: the beam was lost, and the outcome says how.

   A refused continuation writes nothing. The outcome stays 0 then, so a loop that waits for another one never ends if
   the recipe's memory goes bad; and the buffer keeps what it had, which is why nothing of it may be shown any more.

   After each accepted call every record in the buffer is either finished, and then the same bit by bit as in the
   unbroken trace, or blank: +0.0 in all of its numbers. (Nobody else may change the buffer and the state in between.)
   Nothing of the last lens is left after a start, a refused one included. So read a record's status first: only a 1
   is a hit, and a 0 is blank.

   The library has no memory of its own. A call reads and writes what it is lent here and nothing else, so any number
   of traces may be under way at once. It takes less than 3 KB of stack, and of the C library it asks for memset and at
   most memcpy. Every call ends, with an answer or a refusal, whatever the bytes and numbers are; bench/steps counts
   the instructions of the dearest that were found. Lengths are in millimetres. */
#ifndef PILINGRUE_H
#define PILINGRUE_H

#include <stddef.h>
#include <stdint.h>

#ifdef __cplusplus
extern "C" {
#endif

/* The version of this header. A program that is linked with another archive sees another pilingrue_version(). */
#define PILINGRUE_VERSION 2

/* The table of numbers: what a call answers, how a trace ended (its outcome), and the status of a record. */
#define PILINGRUE_BLANK 0                  /* status: the record is not finished, and nothing in it may be used */
#define PILINGRUE_RUNNING 0                /* outcome: the trace has not ended */
#define PILINGRUE_HIT 1                    /* status: the beam hit the surface and goes on */
#define PILINGRUE_DONE 1                   /* outcome: the beam hit all surfaces */
#define PILINGRUE_ACCEPTED 1               /* answer: the call was accepted. The outcome says where the beam went */
#define PILINGRUE_BAD_PARAMETER 2          /* a number is not finite, a semi-diameter negative, but for a conic's, or no
                                              surface has the number that is asked for */
#define PILINGRUE_NEGATIVE_SEMI_DIAMETER 3 /* negative semi-diameter of a conic */
#define PILINGRUE_SINGULAR 4               /* no direction or slope can be computed, or an index is not above 0 */
#define PILINGRUE_OUTSIDE_DOMAIN 5         /* outside the surface's domain */
#define PILINGRUE_MISSED 6                 /* the beam missed the surface */
#define PILINGRUE_VIGNETTED 7              /* the beam met the surface beyond its semi-diameter; the record has both */
#define PILINGRUE_TOTAL_REFLECTION 8       /* total internal reflection */
#define PILINGRUE_NOT_FINITE 9             /* a number of the result is not finite */
#define PILINGRUE_MALFORMED 10             /* malformed recipe; the verdict has the byte place of the record */
#define PILINGRUE_BUFFER_TOO_SHORT 11      /* the result buffer has no room for all surfaces */
#define PILINGRUE_STATE_DOES_NOT_FIT 12    /* the state does not fit the recipe */

/* What a call answers: 1, or why it was refused, and the byte place in the recipe of the record that was refused,
   else 0. */
typedef struct pilingrue_verdict {
    uint64_t number;
    uint64_t place;
} pilingrue_verdict;

/* The result buffer has PILINGRUE_RECORD_NUMBERS numbers for each surface, in the recipe's order: the record of
   surface i begins at buffer[PILINGRUE_RECORD_NUMBERS * i]. The buffer may be longer than the recipe needs: a start
   blanks it to its end. One of PILINGRUE_MOST_ROOM numbers suffices for every recipe. */
#define PILINGRUE_RECORD_NUMBERS 13
#define PILINGRUE_RECORD_STATUS 0    /* a number of the table; 0 is blank */
#define PILINGRUE_RECORD_T 1         /* how far the beam went, in lengths of its direction: 1 behind a surface */
#define PILINGRUE_RECORD_POINT 2     /* x, y, z of the hit */
#define PILINGRUE_RECORD_NORMAL 5    /* x, y, z of the surface's normal there */
#define PILINGRUE_RECORD_DIRECTION 8 /* x, y, z of the new direction */
#define PILINGRUE_RECORD_FRONT 11    /* 1.0 if the beam came against the normal, else 0.0 */
#define PILINGRUE_RECORD_STEPS 12    /* steps that the surface took */
/* The record of a surface that refused the beam has status and steps, for a 7 also these two, and +0.0 in all else. */
#define PILINGRUE_RECORD_R 1         /* distance from the axis at which the beam met the surface; may be infinite */
#define PILINGRUE_RECORD_LIMIT 2     /* the semi-diameter */
/* A beam may cross a conic twice: a hit and a 7 are of the first crossing, and a 6 says that there is none. */

/* The state of a trace is two arrays. Keep them from call to call and do not change them. Other contents are answered
   too: by 12, or by the trace that they tell, which a later call may still refuse with 12.

   A trace can go on after a power cycle as if nothing had been, from a copy of both arrays and the buffer. Take it
   only after an accepted call has returned: a power failure inside a call leaves them torn, partly of before and
   partly of after, and a torn pair of arrays can pass 12. Write copies into two slots by turns, each with a count and
   a checksum, so that a failure in the middle of a copy leaves the other; and forget both before each start, after a
   refusal, and before the next lens is in the holder. A state does not know its recipe either, and goes on with any
   other of the same shapes: keep a checksum of the recipe beside it, and start anew if another recipe is there. Nor
   does it know its version, and under another its numbers may mean something else: keep that beside it too.
   examples/slots.h has all of this. */
#define PILINGRUE_COUNTS 5
#define PILINGRUE_COUNTS_SURFACE 0 /* number of the surface that the beam goes to, from 0; their count once done */
#define PILINGRUE_COUNTS_PLACE 1   /* byte place of its record in the recipe; the recipe's length once done */
#define PILINGRUE_COUNTS_PASSES 2  /* steps made on it so far */
#define PILINGRUE_COUNTS_STEPS 3   /* steps made on all surfaces */
#define PILINGRUE_COUNTS_OUTCOME 4 /* 0 while the trace runs, 1 when it is done, else what ended it */
#define PILINGRUE_NUMBERS 9
#define PILINGRUE_NUMBERS_T 0         /* how far the search on this surface has come */
#define PILINGRUE_NUMBERS_ORIGIN 1    /* x, y, z of where the beam comes from */
#define PILINGRUE_NUMBERS_DIRECTION 4 /* x, y, z of where it goes */
#define PILINGRUE_NUMBERS_INDEX 7     /* refractive index that it is in */
#define PILINGRUE_NUMBERS_PATH 8      /* the optical path up to the last hit */

/* The optical path adds up, over all hits, how far the beam went in mm times the refractive index that it was in: t
   times index, and at the first surface t times the length of the starting direction times index, rounded in this
   order and summed from the first. At a mirror that is the index before it. A path that is not finite is refused with
   9, as at a direction of more than about 1e154, whose computed length is infinite. */

/* A recipe is one record after the other, without gaps: a u16 length (the bytes after itself), a u16 kind, then
   binary64 numbers, all little-endian. Each begins with vertex z and the refractive index behind the surface, then by
   kind:

     kind               numbers                              length
     1  conic           c, k, semi-diameter                  42
     2  even asphere    c, k, semi-diameter, 0 to 8 more     42 + 8 for each coefficient
     3  biconic         cx, kx, cy, ky, semi-diameter        58
     4  toroid          rx, cy, ky, semi-diameter            50
     5  odd asphere     c, k, semi-diameter, 16 more         170

   c, cx and cy are curvatures in 1/mm, 0 for a plane; only rx, of a toroid's circle, is a radius, in mm. k, kx and ky
   are conic constants. Coefficient i of an even asphere, from 1, multiplies r^(2i). An odd asphere has 8 of these and
   then 8 odd ones, of which the i-th multiplies r^(2i - 1); those that are not wanted are 0. A cylinder is a biconic
   with cx or cy 0, and no toroid with rx 0. Kind + 256 is the same surface as a mirror: its index is checked and not
   used. An empty recipe is done at once. A record behind PILINGRUE_MOST_RECORDS others is refused with 10 at its place,
   and so is one that ends past byte PILINGRUE_MOST_RECIPE_BYTES of the recipe.

   The files in samples/, and what tools/recipe makes of a text with a ray, are a program's: they begin with 60 bytes
   of the ray, which no call here takes. The recipe is what stands behind. */
#define PILINGRUE_KIND_CONIC 1
#define PILINGRUE_KIND_EVEN_ASPHERE 2
#define PILINGRUE_KIND_BICONIC 3
#define PILINGRUE_KIND_TOROID 4
#define PILINGRUE_KIND_ODD_ASPHERE 5
#define PILINGRUE_KIND_MIRROR 256
#define PILINGRUE_MOST_RECORDS 512
#define PILINGRUE_MOST_RECIPE_BYTES 65536 /* of the longest recipe: for example 380 odd aspheres and 4 conics */
#define PILINGRUE_MOST_ROOM 6656          /* numbers of the largest buffer, for 512 records */

/* A step is a whole conic, or one pass of the search on another kind. A surface takes at most so many; so the sum
   over the recipe is the most that a trace takes, and never more than 512 * 35 = 17,920. */
#define PILINGRUE_STEPS_CONIC 1
#define PILINGRUE_STEPS_EVEN_ASPHERE 25
#define PILINGRUE_STEPS_BICONIC 35
#define PILINGRUE_STEPS_TOROID 35
#define PILINGRUE_STEPS_ODD_ASPHERE 25

/* The version of the archive. */
uint64_t pilingrue_version(void);

/* Starts a trace: beam from (ox, oy, oz) in direction (dx, dy, dz), in a medium of this refractive index. No step is
   taken. Give a direction of length 1 if the first t is to be read as a distance: it is counted in lengths of the
   direction. Points and path are right either way.

   recipe     read only
   buffer     all `room` numbers become +0.0, whatever is answered: a longer buffer takes longer
   counts     written, whatever is answered
   numbers    written, whatever is answered

   Checked in this order: each record by itself, its shape and where it ends (10), that its numbers are finite (2), its
   semi-diameter (3 for a conic, 2 for the others), its index (4); then the beam, that its numbers are finite (2) and
   its index is above 0 (4); then the room (11). After a refusal the outcome is its number, and all else in both arrays
   is 0. To continue that is refused as well: with the same number and place where recipe or room were refused, with 12
   where the beam was (11 if the room is too short as well). */
pilingrue_verdict pilingrue_start(const uint8_t *recipe, size_t recipe_bytes, double ox, double oy, double oz,
                                  double dx, double dy, double dz, double index, double *buffer, size_t room,
                                  uint64_t counts[PILINGRUE_COUNTS], double numbers[PILINGRUE_NUMBERS]);

/* Takes up to `allowed` steps, none once the trace has ended. Give the recipe, the buffer and the arrays as the last
   call left them.

   recipe     read only
   buffer     accepted: the records of the surfaces that end in this call are written, and no other number. Refused:
              nothing is written
   counts     accepted: written. Refused: nothing is written
   numbers    accepted: written. Refused: nothing is written

   Checked in this order: the recipe as in a start, the room (11), the state (12). Every continuation checks the whole
   recipe, whatever is allowed: a longer one takes longer, also where 0 steps are. A trace that a start began, and
   that is continued with the same recipe and enough room, is never refused. Where the beam is lost the call is
   accepted, and the outcome says how it was lost. C narrows an allowance above 65,535 to 16 bits before the call:
   65,536 becomes 0. */
pilingrue_verdict pilingrue_continue(const uint8_t *recipe, size_t recipe_bytes, double *buffer, size_t room,
                                     uint64_t counts[PILINGRUE_COUNTS], double numbers[PILINGRUE_NUMBERS],
                                     uint16_t allowed);

/* The whole trace in one call: a start, then all steps. Arguments, refusals and what is written are a start's; if it
   is accepted the trace has ended. */
pilingrue_verdict pilingrue_whole(const uint8_t *recipe, size_t recipe_bytes, double ox, double oy, double oz,
                                  double dx, double dy, double dz, double index, double *buffer, size_t room,
                                  uint64_t counts[PILINGRUE_COUNTS], double numbers[PILINGRUE_NUMBERS]);

/* Does the beam reach a surface? Its record, for a loader that need not wait for the rest. Surfaces count from 0. All
   steps up to it are taken in this one call, which knows no state: a trace that is under way goes on as it was.

   recipe     read only, up to the record of this surface: what stands behind it is neither checked nor traced, and
              costs nothing
   record     all its numbers are written, whatever is answered: +0.0 after a refusal

   Checked in this order: that the number is below PILINGRUE_MOST_RECORDS (2); the records as in a start, up to and
   with this surface's (10, 2, 3 or 4, with the place); that the recipe does not end before it (2); the beam as in a
   start (2, 4). There is no 11 and no 12. Where the call is accepted the record is the one that a whole trace writes,
   of the recipe or, if a start would refuse what stands behind, of the recipe cut there: a hit, what the surface
   refused the beam with, or blank if the beam was lost before it. So ask for the verdict first, and then for the
   record's status. */
pilingrue_verdict pilingrue_reach(const uint8_t *recipe, size_t recipe_bytes, double ox, double oy, double oz,
                                  double dx, double dy, double dz, double index, uint64_t surface,
                                  double record[PILINGRUE_RECORD_NUMBERS]);

/* What C must not do. The calls cannot see it, and nothing can be said of what happens then:

   - a null pointer, also where the length is 0: lend any valid address;
   - memory that is shorter than its length says, or an array that is shorter than declared here;
   - a buffer or an array that is not aligned as its type asks (the recipe's bytes may stand anywhere);
   - recipe, buffer, record and the two arrays that overlap;
   - another thread, interrupt or device that writes them during a call, or reads what it writes before it has
     returned: a record is whole between calls. Copy it out for others then;
   - floating-point exceptions that are not masked, any of them: infinities and NaN come up on the way to an answer,
     and an unmasked invalid or overflow traps inside the call, also in a start that would refuse the number;
   - another rounding than to nearest, or subnormal numbers taken as zero (FTZ, DAZ).

   Masks, rounding and subnormal numbers are right as C and the processor have them at a program's start, but not where
   it is linked with -ffast-math or the like, which takes subnormal numbers as zero. */

#ifdef __cplusplus
}
#endif

#endif
