/* Holds what pilingrue.h says in sentences against the archive. (tools/check-header looks at its constants.)

   claims DOUBLET: the path of samples/doublet. Each sentence that does not hold is a line, and the exit status is 1. */
#define _POSIX_C_SOURCE 200112L
#include <math.h>
#include <signal.h>
#include <stdio.h>
#include <string.h>

#include "lens.h"
#include "pilingrue.h"

#if defined(__x86_64__)
#include <sys/wait.h>
#include <unistd.h>
#include <xmmintrin.h>
#endif

enum { ROOM = PILINGRUE_MOST_ROOM, CONIC_BYTES = 44, LONGEST_RECORD = 172 };

/* How many numbers an odd asphere's record has, and where in it even and odd coefficients begin. */
enum { ODD_ASPHERE = 21, EVEN_TERMS = 5, ODD_TERMS = 13 };

/* The doublet has four conics. */
enum { SURFACES = 4, NEEDED = SURFACES * PILINGRUE_RECORD_NUMBERS, LAST = (SURFACES - 1) * CONIC_BYTES };

/* Where the record of the second surface begins. */
enum { SECOND = PILINGRUE_RECORD_NUMBERS };

/* The numbers of a conic's record. */
enum { VERTEX = 0, INDEX = 1, SEMI_DIAMETER = 4 };

typedef struct {
    size_t size;
    uint8_t bytes[PILINGRUE_MOST_RECIPE_BYTES + LONGEST_RECORD];
} recipe;

typedef struct {
    uint64_t counts[PILINGRUE_COUNTS];
    double numbers[PILINGRUE_NUMBERS];
    double buffer[ROOM];
} channel;

typedef pilingrue_verdict begin_call(const uint8_t *, size_t, double, double, double, double, double, double, double,
                                     double *, size_t, uint64_t[PILINGRUE_COUNTS], double[PILINGRUE_NUMBERS]);

static const channel ZEROS;
static channel live, unbroken, before;
static lens loaded;
static recipe doublet, changed;
static int held, failed;

static void claim(int holds, const char *sentence) {
    if (holds) {
        held++;
    } else {
        printf("does not hold: %s\n", sentence);
        failed = 1;
    }
}

static pilingrue_verdict begin(begin_call *call, const recipe *r, const double b[BEAM], size_t room) {
    return call(r->bytes, r->size, b[0], b[1], b[2], b[3], b[4], b[5], b[6], live.buffer, room, live.counts,
                live.numbers);
}

static pilingrue_verdict go_on(const recipe *r, size_t room, uint16_t allowed) {
    return pilingrue_continue(r->bytes, r->size, live.buffer, room, live.counts, live.numbers, allowed);
}

static int accepted(pilingrue_verdict v) { return v.number == PILINGRUE_ACCEPTED && v.place == 0; }

static int refused(pilingrue_verdict v, uint64_t number, uint64_t place) {
    return v.number == number && v.place == place;
}

static int unchanged(void) { return memcmp(&live, &before, sizeof live) == 0; }

static int ends_as_unbroken(void) { return memcmp(&live, &unbroken, sizeof live) == 0; }

static void fill_with_pattern(void) {
    memset(&live, 0xA5, sizeof live);
    before = live;
}

/* The processor is little-endian, as the recipe. */
static void append(recipe *r, uint16_t kind, size_t count, const double numbers[]) {
    uint16_t length = (uint16_t)(2 + 8 * count);
    uint8_t *at = r->bytes + r->size;
    memcpy(at, &length, 2);
    memcpy(at + 2, &kind, 2);
    memcpy(at + 4, numbers, 8 * count);
    r->size += 4 + 8 * count;
}

static const recipe *doublet_with(size_t place, size_t number, double value) {
    changed = doublet;
    memcpy(changed.bytes + place + 4 + 8 * number, &value, sizeof value);
    return &changed;
}

static const recipe *doublet_with_bad_kind(void) {
    changed = doublet;
    changed.bytes[LAST + 2] = 0;
    return &changed;
}

/* Behind what there is already. A start takes these numbers in records of all kinds. */
static const recipe *and_many(size_t records, uint16_t kind, size_t count) {
    static const double GOOD[ODD_ASPHERE] = {0, 1, 0, 0, 1};
    for (size_t i = 0; i < records; i++) append(&changed, kind, count, GOOD);
    return &changed;
}

static const recipe *many(size_t records, uint16_t kind, size_t count) {
    changed.size = 0;
    return and_many(records, kind, count);
}

static const double *beam_with(size_t number, double value) {
    static double beam[BEAM];
    memcpy(beam, loaded.beam, sizeof beam);
    beam[number] = value;
    return beam;
}

static int refused_twice(begin_call *call, const recipe *r, uint64_t number) {
    return refused(begin(call, r, loaded.beam, ROOM), number, LAST) && refused(go_on(r, ROOM, 1), number, LAST);
}

static void continues_as_the_recipe_was_refused(begin_call *call) {
    claim(refused_twice(call, doublet_with_bad_kind(), PILINGRUE_MALFORMED),
          "what a start refused with 10, a continuation refuses with the same number and place");
    claim(refused_twice(call, doublet_with(LAST, VERTEX, NAN), PILINGRUE_BAD_PARAMETER),
          "what a start refused with 2 for the recipe, a continuation refuses with the same number and place");
    claim(refused_twice(call, doublet_with(LAST, SEMI_DIAMETER, -1), PILINGRUE_NEGATIVE_SEMI_DIAMETER),
          "what a start refused with 3, a continuation refuses with the same number and place");
    claim(refused_twice(call, doublet_with(LAST, INDEX, 0), PILINGRUE_SINGULAR),
          "what a start refused with 4 for the recipe, a continuation refuses with the same number and place");
}

static void continues_as_the_room_was_refused(begin_call *call) {
    claim(refused(begin(call, &doublet, loaded.beam, NEEDED - 1), PILINGRUE_BUFFER_TOO_SHORT, 0) &&
              refused(go_on(&doublet, NEEDED - 1, 1), PILINGRUE_BUFFER_TOO_SHORT, 0),
          "what a start refused with 11, a continuation refuses with 11");
}

static int beam_refused_then_12(begin_call *call, const double beam[BEAM], uint64_t number) {
    return refused(begin(call, &doublet, beam, ROOM), number, 0) &&
           refused(go_on(&doublet, ROOM, 1), PILINGRUE_STATE_DOES_NOT_FIT, 0);
}

static void does_not_continue_a_refused_beam(begin_call *call) {
    claim(beam_refused_then_12(call, beam_with(0, NAN), PILINGRUE_BAD_PARAMETER),
          "after a start that refused the beam with 2, a continuation is refused with 12");
    claim(beam_refused_then_12(call, beam_with(6, 0), PILINGRUE_SINGULAR),
          "after a start that refused the beam with 4, a continuation is refused with 12");
    claim(refused(begin(call, &doublet, beam_with(0, NAN), NEEDED - 1), PILINGRUE_BAD_PARAMETER, 0) &&
              refused(go_on(&doublet, NEEDED - 1, 1), PILINGRUE_BUFFER_TOO_SHORT, 0),
          "after a start that refused the beam in a room that is too short, a continuation is refused with 11");
}

/* The numbers behind the room are not lent. */
static int room_is_blank(size_t room) {
    return memcmp(live.buffer, ZEROS.buffer, room * sizeof *live.buffer) == 0 &&
           memcmp(live.buffer + room, before.buffer + room, (ROOM - room) * sizeof *live.buffer) == 0;
}

static int only_outcome(uint64_t outcome) {
    uint64_t counts[PILINGRUE_COUNTS] = {0};
    counts[PILINGRUE_COUNTS_OUTCOME] = outcome;
    return memcmp(live.counts, counts, sizeof counts) == 0 &&
           memcmp(live.numbers, ZEROS.numbers, sizeof live.numbers) == 0;
}

static int blanks_and_tells(begin_call *call, const recipe *r, const double beam[BEAM], size_t room, uint64_t number) {
    fill_with_pattern();
    return begin(call, r, beam, room).number == number && room_is_blank(room) && only_outcome(number);
}

static void refused_start_blanks_the_room(begin_call *call) {
    claim(blanks_and_tells(call, doublet_with_bad_kind(), loaded.beam, ROOM - 1, PILINGRUE_MALFORMED),
          "a start that refuses the recipe blanks all of the room, and the outcome alone is not 0");
    claim(blanks_and_tells(call, &doublet, beam_with(0, NAN), ROOM - 1, PILINGRUE_BAD_PARAMETER),
          "a start that refuses the beam blanks all of the room, and the outcome alone is not 0");
    claim(blanks_and_tells(call, &doublet, loaded.beam, NEEDED - 1, PILINGRUE_BUFFER_TOO_SHORT),
          "a start that refuses the room blanks all of it, and the outcome alone is not 0");
}

static void accepted_start_blanks_the_room(void) {
    fill_with_pattern();
    claim(accepted(begin(pilingrue_start, &doublet, loaded.beam, ROOM - 1)) && room_is_blank(ROOM - 1),
          "an accepted start blanks all of the room, also past what the recipe needs");
}

static void accepted_whole_leaves_the_rest_blank(void) {
    fill_with_pattern();
    claim(accepted(begin(pilingrue_whole, &doublet, loaded.beam, ROOM)) && ends_as_unbroken() &&
              memcmp(live.buffer + NEEDED, ZEROS.buffer + NEEDED, (ROOM - NEEDED) * sizeof *live.buffer) == 0,
          "an accepted whole leaves all of the room blank that the recipe does not need");
}

static void refused_continuation_writes_nothing(void) {
    fill_with_pattern();
    claim(go_on(doublet_with_bad_kind(), ROOM, 1).number == PILINGRUE_MALFORMED && unchanged(),
          "a continuation that is refused with 10 writes nothing");
    claim(go_on(&doublet, NEEDED - 1, 1).number == PILINGRUE_BUFFER_TOO_SHORT && unchanged(),
          "a continuation that is refused with 11 writes nothing");
    claim(go_on(&doublet, ROOM, 1).number == PILINGRUE_STATE_DOES_NOT_FIT && unchanged(),
          "a continuation that is refused with 12 writes nothing");
}

static void scan_once(void) {
    begin(pilingrue_start, &doublet, loaded.beam, ROOM);
    go_on(&doublet, ROOM, 1);
}

static void forged_state_is_refused_later(void) {
    begin(pilingrue_start, &doublet, loaded.beam, ROOM);
    live.counts[PILINGRUE_COUNTS_STEPS] = SURFACES * PILINGRUE_STEPS_CONIC;
    claim(accepted(go_on(&doublet, ROOM, 1)) && refused(go_on(&doublet, ROOM, 1), PILINGRUE_STATE_DOES_NOT_FIT, 0),
          "a forged state that a call accepted, a later call may refuse with 12");
}

static void torn_arrays_pass(void) {
    begin(pilingrue_start, &doublet, loaded.beam, ROOM);
    before = live;
    go_on(&doublet, ROOM, 1);
    memcpy(live.numbers, before.numbers, sizeof live.numbers);
    claim(accepted(go_on(&doublet, ROOM, 1)) && live.buffer[SECOND] == PILINGRUE_HIT &&
              memcmp(live.buffer + SECOND, unbroken.buffer + SECOND, SECOND * sizeof *live.buffer) != 0,
          "a torn pair of arrays can pass 12, and the next record is a hit that is not the unbroken trace's");
}

static void state_does_not_know_its_recipe(void) {
    scan_once();
    claim(accepted(go_on(doublet_with(LAST, SEMI_DIAMETER, 7), ROOM, UINT16_MAX)),
          "a state goes on with a recipe that has another semi-diameter");
    scan_once();
    claim(accepted(go_on(doublet_with(LAST, VERTEX, 90), ROOM, UINT16_MAX)) && !ends_as_unbroken(),
          "a state goes on with a recipe that has another vertex, to another end");
}

static void no_step_allowed_still_checks_the_recipe(void) {
    scan_once();
    before = live;
    claim(refused(go_on(doublet_with_bad_kind(), ROOM, 0), PILINGRUE_MALFORMED, LAST) && unchanged(),
          "with 0 steps allowed the last record is still checked");
    claim(accepted(go_on(&doublet, ROOM, 0)) && unchanged(), "with 0 steps allowed no step is taken");
}

static void done_stands_at_the_end(void) {
    static const recipe EMPTY;
    begin(pilingrue_whole, &doublet, loaded.beam, ROOM);
    before = live;
    claim(live.counts[PILINGRUE_COUNTS_OUTCOME] == PILINGRUE_DONE &&
              live.counts[PILINGRUE_COUNTS_PLACE] == doublet.size && live.counts[PILINGRUE_COUNTS_SURFACE] == SURFACES,
          "once done, the place is the recipe's length and the surface how many there are");
    claim(accepted(go_on(&doublet, ROOM, UINT16_MAX)) && unchanged(), "once the trace has ended no step is taken");
    claim(accepted(begin(pilingrue_start, &EMPTY, loaded.beam, 0)) &&
              live.counts[PILINGRUE_COUNTS_OUTCOME] == PILINGRUE_DONE,
          "an empty recipe is done at once");
}

/* Whether a ray along z hits the surface at this z. The vertex is 0, and the index before and behind it 1. */
static int meets(uint16_t kind, size_t count, const double numbers[], double x, double y, double z) {
    const double beam[BEAM] = {x, y, -10, 0, 0, 1, 1};
    changed.size = 0;
    append(&changed, kind, count, numbers);
    return accepted(begin(pilingrue_whole, &changed, beam, ROOM)) &&
           live.buffer[PILINGRUE_RECORD_STATUS] == PILINGRUE_HIT &&
           fabs(live.buffer[PILINGRUE_RECORD_POINT + 2] - z) < 1e-9;
}

/* At a distance of 3 a circle of radius 5, which is a curvature of 0.2, is 1 deep. */
static void numbers_are_curvatures_but_for_rx(void) {
    claim(meets(PILINGRUE_KIND_CONIC, 5, (double[]){0, 1, 0.2, 0, 10}, 3, 0, 1), "c is a curvature");
    claim(meets(PILINGRUE_KIND_BICONIC, 7, (double[]){0, 1, 0.2, 0, 0, 0, 10}, 3, 4, 1),
          "cx of a biconic is a curvature, and with cy 0 it is a cylinder");
    claim(meets(PILINGRUE_KIND_BICONIC, 7, (double[]){0, 1, 0, 0, 0.2, 0, 10}, 4, 3, 1),
          "cy of a biconic is a curvature, and with cx 0 it is a cylinder");
    claim(meets(PILINGRUE_KIND_TOROID, 6, (double[]){0, 1, 5, 0, 0, 10}, 3, 0, 1), "rx of a toroid is a radius");
    claim(meets(PILINGRUE_KIND_TOROID, 6, (double[]){0, 1, 5, 0.2, 0, 10}, 0, 3, 1), "cy of a toroid is a curvature");
}

static void coefficient_multiplies_an_even_power(void) {
    claim(meets(PILINGRUE_KIND_EVEN_ASPHERE, 6, (double[]){0, 1, 0, 0, 10, 1.0 / 8}, 4, 0, 2),
          "coefficient 1 multiplies r^2");
    claim(meets(PILINGRUE_KIND_EVEN_ASPHERE, 7, (double[]){0, 1, 0, 0, 10, 0, 1.0 / 64}, 4, 0, 4),
          "coefficient 2 multiplies r^4");
    claim(meets(PILINGRUE_KIND_EVEN_ASPHERE, 13, (double[]){0, 1, 0, 0, 10, 0, 0, 0, 0, 0, 0, 0, 1.0 / 65536}, 2, 0, 1),
          "coefficient 8 multiplies r^16");
}

/* Whether this coefficient alone makes an odd asphere so deep at x. */
static int term_is(size_t place, double coefficient, double x, double z) {
    double numbers[ODD_ASPHERE] = {0, 1, 0, 0, 10};
    numbers[place] = coefficient;
    return meets(PILINGRUE_KIND_ODD_ASPHERE, ODD_ASPHERE, numbers, x, 0, z);
}

static void odd_asphere_has_both_sorts_of_powers(void) {
    claim(term_is(EVEN_TERMS, 1.0 / 8, 4, 2), "even coefficient 1 of an odd asphere multiplies r^2");
    claim(term_is(ODD_TERMS - 1, 1.0 / 65536, 2, 1), "even coefficient 8 of an odd asphere multiplies r^16");
    claim(term_is(ODD_TERMS, 1.0 / 4, 4, 1), "odd coefficient 1 multiplies r");
    claim(term_is(ODD_ASPHERE - 1, 1.0 / 32768, 2, 1), "odd coefficient 8 multiplies r^15");
}

/* The search goes to and fro between r 0 and r 1. */
static void odd_asphere_has_its_limit(void) {
    static const double TO_AND_FRO[ODD_ASPHERE] = {0, 1, 0, 0, 10, [ODD_TERMS] = 3, -1};
    static const double ASLANT[BEAM] = {0, 0, 2, 1, 0, 1, 1};
    changed.size = 0;
    append(&changed, PILINGRUE_KIND_ODD_ASPHERE, ODD_ASPHERE, TO_AND_FRO);
    claim(accepted(begin(pilingrue_whole, &changed, ASLANT, ROOM)) &&
              live.counts[PILINGRUE_COUNTS_OUTCOME] == PILINGRUE_MISSED &&
              live.buffer[PILINGRUE_RECORD_STEPS] == PILINGRUE_STEPS_ODD_ASPHERE,
          "an odd asphere takes at most PILINGRUE_STEPS_ODD_ASPHERE steps");
}

/* Planes into index 2 and 1, and between them a mirror, whose index 7 is not used. */
static const recipe *folded(void) {
    changed.size = 0;
    append(&changed, PILINGRUE_KIND_CONIC, 5, (double[]){0, 2, 0, 0, 10});
    append(&changed, PILINGRUE_KIND_CONIC + PILINGRUE_KIND_MIRROR, 5, (double[]){3, 7, 0, 0, 10});
    append(&changed, PILINGRUE_KIND_CONIC, 5, (double[]){1, 1, 0, 0, 10});
    return &changed;
}

static void path_is_the_optical_one(void) {
    static const double POINTER[BEAM] = {0, 0, -5, 0, 0, 3, 1.3};
    static const double LONG[BEAM] = {0, 0, -5, 0, 0, 1e155, 1}, SHORTER[BEAM] = {0, 0, -5, 0, 0, 1e154, 1};
    const recipe *r = folded();
    claim(accepted(begin(pilingrue_start, r, POINTER, ROOM)) && accepted(go_on(r, ROOM, 1)) &&
              live.buffer[PILINGRUE_RECORD_T] == 5.0 / 3 && live.numbers[PILINGRUE_NUMBERS_PATH] == 6.5,
          "the first t is counted in lengths of the direction, and the path is t times length times index");
    claim(accepted(go_on(r, ROOM, 1)) && live.numbers[PILINGRUE_NUMBERS_PATH] == 12.5,
          "behind the first surface the path grows by t times index, at a mirror by that before it");
    claim(accepted(go_on(r, ROOM, 1)) && live.numbers[PILINGRUE_NUMBERS_PATH] == 16.5,
          "behind a mirror the beam is in the same index");
    r = many(1, PILINGRUE_KIND_CONIC, 5);
    claim(accepted(begin(pilingrue_whole, r, LONG, ROOM)) &&
              live.counts[PILINGRUE_COUNTS_OUTCOME] == PILINGRUE_NOT_FINITE,
          "a direction of 1e155 has an infinite computed length, and the path is refused with 9");
    claim(accepted(begin(pilingrue_whole, r, SHORTER, ROOM)) &&
              live.counts[PILINGRUE_COUNTS_OUTCOME] == PILINGRUE_DONE && live.numbers[PILINGRUE_NUMBERS_PATH] == 5,
          "one of 1e154 has not");
}

static void lens_file_begins_with_the_ray(void) {
    recipe *r = &changed;
    r->size = BEAM_BYTES + doublet.size;
    memcpy(r->bytes, loaded.file, r->size);
    claim(refused(begin(pilingrue_start, r, loaded.beam, ROOM), PILINGRUE_MALFORMED, 0),
          "the 60 bytes of the ray, with which a file in samples/ begins, are no recipe: 10 at place 0");
    claim(accepted(begin(pilingrue_start, &doublet, loaded.beam, ROOM)), "the recipe is what stands behind them");
}

/* The record is filled before, so that each number is seen to be written. */
static pilingrue_verdict ask(const recipe *r, const double b[BEAM], uint64_t surface, double record[SECOND]) {
    memset(record, 0xA5, SECOND * sizeof *record);
    return pilingrue_reach(r->bytes, r->size, b[0], b[1], b[2], b[3], b[4], b[5], b[6], surface, record);
}

static int reaches(const recipe *r, const double b[BEAM], uint64_t surface, const double wanted[SECOND]) {
    double record[SECOND];
    return accepted(ask(r, b, surface, record)) && memcmp(record, wanted, sizeof record) == 0;
}

static int unreached(const recipe *r, const double b[BEAM], uint64_t surface, uint64_t number, uint64_t place) {
    double record[SECOND];
    return refused(ask(r, b, surface, record), number, place) &&
           memcmp(record, ZEROS.buffer, sizeof record) == 0;
}

static void one_surface_is_told(void) {
    const double *third = unbroken.buffer + 2 * SECOND;
    before = live;
    claim(reaches(&doublet, loaded.beam, 2, third) && unchanged(),
          "a surface's record is the one that a whole trace writes, and no state takes part");
    claim(reaches(doublet_with_bad_kind(), loaded.beam, 2, third),
          "what stands behind the surface's record is not checked");
    claim(unreached(doublet_with_bad_kind(), loaded.beam, 3, PILINGRUE_MALFORMED, LAST),
          "the surface's own record is checked, and the verdict has its place");
    claim(unreached(doublet_with_bad_kind(), loaded.beam, PILINGRUE_MOST_RECORDS, PILINGRUE_BAD_PARAMETER, 0),
          "a number that is not below PILINGRUE_MOST_RECORDS is refused with 2 before the records are checked");
    claim(unreached(&doublet, beam_with(6, 0), SURFACES, PILINGRUE_BAD_PARAMETER, 0),
          "a number past the recipe's end is refused with 2 before the beam is checked");
    claim(unreached(&doublet, beam_with(6, 0), 0, PILINGRUE_SINGULAR, 0), "the beam is checked as in a start");
    claim(reaches(doublet_with(LAST, SEMI_DIAMETER, 0), loaded.beam, 2, third),
          "what the beam meets behind the surface is of no matter");
    begin(pilingrue_whole, doublet_with(CONIC_BYTES, SEMI_DIAMETER, 0), loaded.beam, ROOM);
    claim(reaches(&changed, loaded.beam, 1, live.buffer + SECOND) && live.buffer[SECOND] == PILINGRUE_VIGNETTED,
          "where the surface refuses the beam, its record tells that");
    claim(reaches(&changed, loaded.beam, 2, ZEROS.buffer), "a beam that was lost before leaves a blank record");
}

static void most_are_the_most(void) {
    const size_t records = PILINGRUE_MOST_RECORDS;
    const recipe *conics = many(records, PILINGRUE_KIND_CONIC, 5);
    claim(accepted(begin(pilingrue_start, conics, loaded.beam, ROOM)),
          "a buffer of PILINGRUE_MOST_ROOM numbers suffices for PILINGRUE_MOST_RECORDS records");
    claim(refused(begin(pilingrue_start, conics, loaded.beam, ROOM - 1), PILINGRUE_BUFFER_TOO_SHORT, 0),
          "one number less does not");
    conics = many(records + 1, PILINGRUE_KIND_CONIC, 5);
    claim(refused(begin(pilingrue_start, conics, loaded.beam, ROOM), PILINGRUE_MALFORMED, records * CONIC_BYTES),
          "one record more is refused with 10 at its place");
}

static void longest_recipe_is_the_longest(void) {
    many(380, PILINGRUE_KIND_ODD_ASPHERE, ODD_ASPHERE);
    const recipe *longest = and_many(4, PILINGRUE_KIND_CONIC, 5);
    claim(longest->size == PILINGRUE_MOST_RECIPE_BYTES && accepted(begin(pilingrue_start, longest, loaded.beam, ROOM)),
          "380 odd aspheres and 4 conics have PILINGRUE_MOST_RECIPE_BYTES bytes and are accepted");
    many(380, PILINGRUE_KIND_ODD_ASPHERE, ODD_ASPHERE);
    const recipe *longer = and_many(3, PILINGRUE_KIND_BICONIC, 7);
    claim(longer->size == PILINGRUE_MOST_RECIPE_BYTES + 4 &&
              refused(begin(pilingrue_start, longer, loaded.beam, ROOM), PILINGRUE_MALFORMED, longer->size - 60),
          "a record that ends 4 bytes past them is refused with 10 at its place");
}

static void allowance_is_narrowed(void) {
    unsigned long allowed = 65536; /* no constant, of which the compiler would warn */
    begin(pilingrue_start, &doublet, loaded.beam, ROOM);
    before = live;
    claim(accepted(go_on(&doublet, ROOM, allowed)) && unchanged(), "C narrows an allowance of 65,536 to 0 steps");
    claim(accepted(go_on(&doublet, ROOM, allowed - 1)) && ends_as_unbroken(),
          "C does not narrow an allowance of 65,535");
}

#if defined(__x86_64__)
enum { TRAPPED = 3 };

static void leave(int number) {
    (void)number;
    _exit(TRAPPED);
}

/* In a child, which may die of it. */
static int traps(unsigned unmasked, const recipe *r, const double beam[BEAM]) {
    int status = 0;
    pid_t child = fork();
    if (child == 0) {
        signal(SIGFPE, leave);
        _MM_SET_EXCEPTION_MASK(_MM_GET_EXCEPTION_MASK() & ~unmasked);
        begin(pilingrue_whole, r, beam, ROOM);
        _exit(0);
    }
    return child > 0 && waitpid(child, &status, 0) == child && WIFEXITED(status) && WEXITSTATUS(status) == TRAPPED;
}

/* The square of 1e200 is infinite, and so is r at a plane. Of a beam that is as oblique as it is far a conic's
   discriminant is infinity less infinity, which is NaN: no candidate comes of it. */
static void unmasked_exceptions_trap(void) {
    static const double FAR[BEAM] = {1e200, 0, -10, 0, 0, 1, 1};
    static const double OBLIQUE[BEAM] = {1e200, 0, -10, 1e200, 0, 1, 1};
    const recipe *plane = many(1, PILINGRUE_KIND_CONIC, 5);
    claim(traps(_MM_MASK_OVERFLOW, plane, FAR), "an unmasked overflow traps inside the call");
    claim(!traps(0, plane, FAR) && accepted(begin(pilingrue_whole, plane, FAR, ROOM)) &&
              live.counts[PILINGRUE_COUNTS_OUTCOME] == PILINGRUE_VIGNETTED && isinf(live.buffer[PILINGRUE_RECORD_R]),
          "with all exceptions masked the same call answers, with an infinite r");
    claim(traps(_MM_MASK_INVALID, &doublet, OBLIQUE), "an unmasked invalid traps inside the call");
    claim(!traps(0, &doublet, OBLIQUE) && accepted(begin(pilingrue_whole, &doublet, OBLIQUE, ROOM)) &&
              live.counts[PILINGRUE_COUNTS_OUTCOME] == PILINGRUE_MISSED,
          "with all exceptions masked the same call answers, with a miss");
    claim(traps(_MM_MASK_INVALID, &doublet, beam_with(0, INFINITY)),
          "an unmasked invalid traps also where the number would be refused");
}
#endif

static void hold_starts(begin_call *call) {
    continues_as_the_recipe_was_refused(call);
    continues_as_the_room_was_refused(call);
    does_not_continue_a_refused_beam(call);
    refused_start_blanks_the_room(call);
}

static void hold_all(void) {
    hold_starts(pilingrue_start);
    hold_starts(pilingrue_whole);
    accepted_start_blanks_the_room();
    accepted_whole_leaves_the_rest_blank();
    refused_continuation_writes_nothing();
    forged_state_is_refused_later();
    torn_arrays_pass();
    state_does_not_know_its_recipe();
    no_step_allowed_still_checks_the_recipe();
    done_stands_at_the_end();
    numbers_are_curvatures_but_for_rx();
    coefficient_multiplies_an_even_power();
    odd_asphere_has_both_sorts_of_powers();
    odd_asphere_has_its_limit();
    path_is_the_optical_one();
    lens_file_begins_with_the_ray();
    one_surface_is_told();
    most_are_the_most();
    longest_recipe_is_the_longest();
    allowance_is_narrowed();
#if defined(__x86_64__)
    unmasked_exceptions_trap();
#endif
}

/* The claims want the doublet, whose trace is done. */
static int load_doublet(const char *path) {
    if (!load(&loaded, path) || loaded.recipe_bytes != SURFACES * CONIC_BYTES) return 0;
    doublet.size = loaded.recipe_bytes;
    memcpy(doublet.bytes, loaded.recipe, doublet.size);
    if (!accepted(begin(pilingrue_whole, &doublet, loaded.beam, ROOM))) return 0;
    unbroken = live;
    return live.counts[PILINGRUE_COUNTS_OUTCOME] == PILINGRUE_DONE;
}

int main(int argc, char **argv) {
    if (argc != 2 || !load_doublet(argv[1])) {
        fputs("usage: claims DOUBLET, the path of samples/doublet\n", stderr);
        return 2;
    }
    hold_all();
    if (!failed) printf("claims: %d hold\n", held);
    return failed;
}
