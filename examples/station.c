/* A centring station. It traces the beam through a lens a few steps a scan, and its gluing cell reads the record of the
   last surface. It replays the accident: the beam is lost while the channel still has the hit point of the lens before.
   Then power and recipe fail it. Every scan is held against the same trace in one call, bit by bit. At last its loader
   asks in each scan for a surface before the last.

   station LENS [STEPS]: a lens as in samples/, and the steps of a scan (1). The exit status is 1 if a promise was not
   kept. */
#include <math.h>
#include <stdio.h>
#include <stdlib.h>
#include <string.h>

#include "lens.h"
#include "pilingrue.h"
#include "slots.h"

/* No trace takes more scans. */
enum { ALL = PILINGRUE_MOST_RECORDS * PILINGRUE_STEPS_BICONIC };

static const char *const MEANING[] = {
    "blank", "hit", "bad parameter", "negative semi-diameter", "singular", "outside the domain", "missed", "vignetted",
    "total internal reflection", "not finite", "malformed recipe", "buffer too short", "state does not fit",
};
static const double BLANK[PILINGRUE_RECORD_NUMBERS];
static const channel NOTHING;
static const slot EMPTY;
static lens loaded;
static uint16_t steps_a_scan;
static size_t surfaces;
static slot slots[SLOTS]; /* a plant has them in memory that outlives the power */
static channel live, unbroken;
static channel last; /* what the last call left, so what has to come back with the power */
static int broken;

static void promise(int holds, const char *what) {
    if (holds) return;
    printf("NOT KEPT: %s\n", what);
    broken = 1;
}

static uint64_t recipe_checksum(void) { return checksum(loaded.recipe, loaded.recipe_bytes); }

/* Anew: of the trace before nothing must come back, even if the power fails before this one is kept. */
static pilingrue_verdict begin(double x) {
    const double *b = loaded.beam;
    channel *c = &live;
    forget(slots);
    c->recipe = recipe_checksum();
    return pilingrue_start(loaded.recipe, loaded.recipe_bytes, x, b[1], b[2], b[3], b[4], b[5], b[6], c->buffer,
                           PILINGRUE_MOST_ROOM, c->counts, c->numbers);
}

static pilingrue_verdict go_on(void) {
    return pilingrue_continue(loaded.recipe, loaded.recipe_bytes, live.buffer, PILINGRUE_MOST_ROOM, live.counts,
                              live.numbers, steps_a_scan);
}

/* What follows each call, and whether the trace goes on. A verdict other than 1 means: stop, show nothing, start
   anew. */
static int heed(pilingrue_verdict v) {
    if (v.number == PILINGRUE_ACCEPTED) return keep(slots, &live, recipe_checksum());
    stop(slots, &live);
    return 0;
}

static pilingrue_verdict trace_unbroken(double x) {
    const double *b = loaded.beam;
    channel *c = &unbroken;
    return pilingrue_whole(loaded.recipe, loaded.recipe_bytes, x, b[1], b[2], b[3], b[4], b[5], b[6], c->buffer,
                           PILINGRUE_MOST_ROOM, c->counts, c->numbers);
}

static const double *record_of(const channel *c, size_t surface) {
    return c->buffer + PILINGRUE_RECORD_NUMBERS * surface;
}

static int status_of(const double *record) { return (int)record[PILINGRUE_RECORD_STATUS]; }

static int last_status(void) { return status_of(record_of(&live, surfaces - 1)); }

/* Those records are finished whose steps, added up from the first, are at most the trace's. They are the unbroken
   trace's, and all else is blank, to the buffer's end. */
static int as_unbroken(void) {
    double made = (double)live.counts[PILINGRUE_COUNTS_STEPS], sum = 0;
    for (size_t i = 0; i < PILINGRUE_MOST_RECORDS; i++) {
        const double *whole = record_of(&unbroken, i);
        sum += whole[PILINGRUE_RECORD_STEPS];
        if (memcmp(record_of(&live, i), sum <= made ? whole : BLANK, sizeof BLANK) != 0) return 0;
    }
    return 1;
}

static int ends_as_unbroken(void) {
    return memcmp(live.counts, unbroken.counts, sizeof live.counts) == 0 &&
           memcmp(live.numbers, unbroken.numbers, sizeof live.numbers) == 0 &&
           memcmp(live.buffer, unbroken.buffer, sizeof live.buffer) == 0;
}

static void show_record(const double *record) {
    const double *p = record + PILINGRUE_RECORD_POINT;
    int status = status_of(record);
    if (status == PILINGRUE_HIT)
        printf(" | %.3f %.3f %.3f", p[0], p[1], p[2]);
    else if (status == PILINGRUE_VIGNETTED)
        printf(" | vignetted, %.3f of %.3f", record[PILINGRUE_RECORD_R], record[PILINGRUE_RECORD_LIMIT]);
    else
        printf(" | %s", MEANING[status]);
}

/* What the operator sees: each surface, and what the cell does with the last. */
static void show(void) {
    int status = last_status();
    for (size_t i = 0; i < surfaces; i++) show_record(record_of(&live, i));
    printf(" | the cell %s\n",
           status == PILINGRUE_HIT ? "glues" : status == PILINGRUE_BLANK ? "reads blank" : "does not glue");
}

/* The answer to a call, after the station heeded it. */
static void answered(pilingrue_verdict v, uint64_t expected, int goes_on) {
    if (v.number != PILINGRUE_ACCEPTED)
        printf(" is refused, %s", MEANING[v.number]);
    else if (!goes_on)
        printf(" met another recipe");
    show();
    promise(v.number == expected, "what a call answers");
    promise(as_unbroken(), "a record is the unbroken trace's or blank");
    last = live;
}

static void start(double x, uint64_t expected) {
    pilingrue_verdict v = begin(x);
    int goes_on;
    promise(memcmp(live.buffer, NOTHING.buffer, sizeof live.buffer) == 0, "a start leaves nothing of the lens before");
    goes_on = heed(v);
    trace_unbroken(x);
    printf("start");
    answered(v, expected, goes_on);
}

/* From one scan to another, or to a stop or the trace's end. */
static void scans(int from, int to, uint64_t expected) {
    for (int n = from; n <= to; n++) {
        pilingrue_verdict v = go_on();
        int unchanged = memcmp(&live, &last, sizeof live) == 0, goes_on = heed(v);
        promise(v.number == PILINGRUE_ACCEPTED || unchanged, "a refused scan writes nothing");
        printf("scan %d", n);
        answered(v, expected, goes_on);
        if (!goes_on) return;
        if (live.counts[PILINGRUE_COUNTS_OUTCOME] == PILINGRUE_RUNNING) continue;
        promise(ends_as_unbroken(), "a trace ends as the unbroken one");
        return;
    }
    promise(to < ALL, "scans come to an end");
}

/* The power fails outside a call. */
static void lose_live(void) { memset(&live, 0xA5, sizeof live); }

/* The power fails inside a call: the arrays are torn, with the counts of after it and the numbers of before. */
static void tear_live(void) {
    go_on();
    memcpy(live.numbers, last.numbers, sizeof live.numbers);
}

static uint8_t *newest_copy(void) { return (uint8_t *)&slots[live.turn % SLOTS]; }

/* The power fails, and one byte of the newest copy is not what was written. */
static void spoil_copy(size_t at) {
    newest_copy()[at] ^= 0xFF;
    lose_live();
}

/* The power fails in a copy: the byte that was under way is spoiled, and behind it stands what was there. */
static void cut_copy(const slot *was, size_t at) {
    memcpy(newest_copy() + at + 1, (const uint8_t *)was + at + 1, sizeof *was - at - 1);
    spoil_copy(at);
}

/* The power fails, and the copies are those of a program with another version. */
static void age_copies(void) {
    for (int i = 0; i < SLOTS; i++) {
        slots[i].copy.version--;
        slots[i].checksum = checksum(&slots[i].copy, sizeof slots[i].copy);
    }
    lose_live();
}

static void come_back(restored expected) {
    restored found = restore(slots, &live, recipe_checksum());
    promise(found == expected, "what comes back with the power");
    promise(memcmp(&live, expected == RESTORED ? &last : &NOTHING, sizeof live) == 0,
            "the power brings back what the last accepted call left, or nothing");
    last = live;
}

static void power_cycle(const char *failed, restored expected) {
    static const char *const BUT[] = {"", ": no copy is whole", ": the version is another", ": the recipe is another"};
    come_back(expected);
    printf("%s, and comes back%s", failed, BUT[expected]);
    show();
}

/* Another number in the recipe, or another kind; the same flip puts it back. */
static void flip_recipe(size_t at, uint8_t bits) { loaded.recipe[at] ^= bits; }

static size_t last_place(void) {
    size_t at = 0, next = 0;
    while (next < loaded.recipe_bytes) {
        at = next;
        next += 2 + loaded.recipe[at] + 256 * (size_t)loaded.recipe[at + 1];
    }
    return at;
}

/* The copies of the lens before go first: they must not come back once the next lens is in the holder. */
static void change_lens(const char *title) {
    forget(slots);
    printf("\n%s\n", title);
}

static void beam_is_there(double x) {
    change_lens("Lens 1: the beam is there.");
    start(x, PILINGRUE_ACCEPTED);
    scans(1, ALL, PILINGRUE_ACCEPTED);
}

static void beam_is_lost(void) {
    change_lens("Lens 2: the beam is lost, and the sensor gives no number. The channel had lens 1.");
    start(NAN, PILINGRUE_BAD_PARAMETER);
    scans(1, ALL, PILINGRUE_STATE_DOES_NOT_FIT);
    lose_live();
    power_cycle("the power fails", NO_WHOLE_COPY);
}

static void power_fails_at_calls(double x) {
    change_lens("Lens 3: the power fails between two calls, then inside one.");
    start(x, PILINGRUE_ACCEPTED);
    lose_live();
    come_back(RESTORED);
    scans(1, 1, PILINGRUE_ACCEPTED);
    lose_live();
    power_cycle("the power fails", RESTORED);
    scans(2, 2, PILINGRUE_ACCEPTED);
    tear_live();
    power_cycle("the power fails inside scan 3", RESTORED);
    scans(3, ALL, PILINGRUE_ACCEPTED);
}

static void scan_unseen(void) { heed(go_on()); }

/* The copy of a scan is cut or spoiled at several bytes, and the scan before it comes back each time. */
static void spoil_copies(const slot *was) {
    static const size_t BYTES[] = {0, 1, offsetof(slot, copy.numbers), sizeof(slot) / 2, sizeof(slot) - 1};
    for (size_t i = 0; i < sizeof BYTES / sizeof *BYTES; i++) {
        scan_unseen();
        cut_copy(was, BYTES[i]);
        come_back(RESTORED);
        scan_unseen();
        spoil_copy(BYTES[i]);
        come_back(RESTORED);
    }
}

static void power_fails_in_copies(double x) {
    static slot was;
    change_lens("Lens 4: the power fails before the start; then in the copy of a start anew, and in that of a scan.");
    lose_live();
    power_cycle("the power fails", NO_WHOLE_COPY);
    start(x, PILINGRUE_ACCEPTED);
    scans(1, 1, PILINGRUE_ACCEPTED);
    start(x, PILINGRUE_ACCEPTED);
    cut_copy(&EMPTY, sizeof(slot) / 2);
    power_cycle("the power fails in the copy of the start", NO_WHOLE_COPY);
    start(x, PILINGRUE_ACCEPTED);
    scans(1, 1, PILINGRUE_ACCEPTED);
    was = slots[(live.turn + 1) % SLOTS];
    spoil_copies(&was);
    scan_unseen();
    cut_copy(&was, sizeof(slot) / 2);
    power_cycle("the power fails in the copy of scan 2", RESTORED);
    scans(2, ALL, PILINGRUE_ACCEPTED);
}

static void recipe_is_exchanged(double x) {
    size_t at = loaded.recipe_bytes - 2; /* in the last number, so in a semi-diameter where that is last */
    change_lens("Lens 5: the recipe's last number is exchanged, while the power is off and then between two scans.");
    start(x, PILINGRUE_ACCEPTED);
    scans(1, 1, PILINGRUE_ACCEPTED);
    lose_live();
    flip_recipe(at, 8);
    power_cycle("the power fails", ANOTHER_RECIPE);
    start(x, PILINGRUE_ACCEPTED);
    scans(1, 1, PILINGRUE_ACCEPTED);
    flip_recipe(at, 8);
    scans(2, ALL, PILINGRUE_ACCEPTED);
    promise(memcmp(&live, &NOTHING, sizeof live) == 0, "with another recipe nothing is shown");
    lose_live();
    come_back(NO_WHOLE_COPY);
    start(x, PILINGRUE_ACCEPTED);
    scans(1, ALL, PILINGRUE_ACCEPTED);
}

static void recipe_goes_bad(double x) {
    size_t at = last_place() + 2;
    change_lens("Lens 6: the recipe's memory goes bad between two scans, in the kind of the last surface.");
    start(x, PILINGRUE_ACCEPTED);
    scans(1, 1, PILINGRUE_ACCEPTED);
    flip_recipe(at, 255);
    scans(2, ALL, PILINGRUE_MALFORMED);
    flip_recipe(at, 255);
    lose_live();
    power_cycle("the recipe is loaded again, the power fails", NO_WHOLE_COPY);
    start(x, PILINGRUE_ACCEPTED);
    scans(1, ALL, PILINGRUE_ACCEPTED);
}

static void beam_is_knocked_aside(double x) {
    change_lens("Lens 7: the beam is knocked 40 mm aside. The channel had lens 6.");
    start(x + 40.0, PILINGRUE_ACCEPTED);
    scans(1, ALL, PILINGRUE_ACCEPTED);
    promise((last_status() == PILINGRUE_HIT) == (unbroken.counts[PILINGRUE_COUNTS_OUTCOME] == PILINGRUE_DONE),
            "no hit without a beam");
}

static void program_is_exchanged(double x) {
    change_lens("Lens 8: the program is exchanged while the power is off, for one of another version.");
    start(x, PILINGRUE_ACCEPTED);
    scans(1, 1, PILINGRUE_ACCEPTED);
    age_copies();
    power_cycle("the power fails", ANOTHER_VERSION);
    start(x, PILINGRUE_ACCEPTED);
    scans(1, ALL, PILINGRUE_ACCEPTED);
}

/* The loader asks for one surface, and goes on once the beam is known to hit it. */
static void ask(double x, size_t surface, uint64_t expected) {
    const double *b = loaded.beam;
    double record[PILINGRUE_RECORD_NUMBERS];
    pilingrue_verdict v = pilingrue_reach(loaded.recipe, loaded.recipe_bytes, x, b[1], b[2], b[3], b[4], b[5], b[6],
                                          surface, record);
    int is_accepted = v.number == PILINGRUE_ACCEPTED;
    printf("the loader asks for surface %d%s%s", (int)surface, is_accepted ? "" : ", which is refused, ",
           is_accepted ? "" : MEANING[v.number]);
    show_record(record);
    printf(" | it %s\n", status_of(record) == PILINGRUE_HIT ? "goes on" : "waits");
    promise(v.number == expected, "what a question answers");
    promise(memcmp(record, is_accepted ? record_of(&unbroken, surface) : BLANK, sizeof record) == 0,
            "a surface's record is the unbroken trace's, and blank after a refusal");
    promise(memcmp(&live, &last, sizeof live) == 0, "a question changes nothing of a trace");
}

static void loader_asks(double x) {
    size_t surface = (surfaces - 1) / 2, at = last_place() + 2;
    change_lens("Lens 9: the loader asks in each scan for a surface, and waits for none behind it.");
    start(x, PILINGRUE_ACCEPTED);
    ask(x, surface, PILINGRUE_ACCEPTED);
    for (int n = 1; n < ALL && live.counts[PILINGRUE_COUNTS_OUTCOME] == PILINGRUE_RUNNING; n++) {
        scans(n, n, PILINGRUE_ACCEPTED);
        ask(x, surface, PILINGRUE_ACCEPTED);
    }
    flip_recipe(at, 255);
    puts("the recipe's last record is not loaded yet");
    ask(x, surface, PILINGRUE_ACCEPTED);
    ask(x, surfaces - 1, PILINGRUE_MALFORMED);
    flip_recipe(at, 255);
    ask(x, surfaces, PILINGRUE_BAD_PARAMETER);
    ask(NAN, surface, PILINGRUE_BAD_PARAMETER);
    puts("the beam is knocked 40 mm aside");
    trace_unbroken(x + 40.0);
    ask(x + 40.0, surface, PILINGRUE_ACCEPTED);
}

static void work(double x) {
    beam_is_there(x);
    beam_is_lost();
    power_fails_at_calls(x);
    power_fails_in_copies(x);
    recipe_is_exchanged(x);
    recipe_goes_bad(x);
    beam_is_knocked_aside(x);
    program_is_exchanged(x);
    loader_asks(x);
}

/* A new lens is tried once as a whole. It has a surface before the last. */
static int suits(double x) {
    pilingrue_verdict v = trace_unbroken(x);
    uint64_t number = v.number == PILINGRUE_ACCEPTED ? unbroken.counts[PILINGRUE_COUNTS_OUTCOME] : v.number;
    surfaces = unbroken.counts[PILINGRUE_COUNTS_SURFACE];
    if (number != PILINGRUE_DONE) fprintf(stderr, "station: %s, place %d\n", MEANING[number], (int)v.place);
    return number == PILINGRUE_DONE && surfaces > 1;
}

int main(int argc, char **argv) {
    long steps = argc == 3 ? strtol(argv[2], NULL, 10) : 1;
    if (argc < 2 || argc > 3 || steps < 1 || steps > UINT16_MAX || !load(&loaded, argv[1])) {
        fputs("usage: station LENS [STEPS]\n", stderr);
        return 2;
    }
    promise(pilingrue_version() == PILINGRUE_VERSION, "header and archive have one version");
    if (!suits(loaded.beam[0])) return 2;
    printf("interface %d, surfaces %d, steps a scan %ld\n", PILINGRUE_VERSION, (int)surfaces, steps);
    steps_a_scan = (uint16_t)steps;
    work(loaded.beam[0]);
    puts(broken ? "\nA PROMISE WAS NOT KEPT" : "\nevery promise was kept");
    return broken;
}
