/* Counts the x86-64 instructions of libstation.a's calls, and seeks the dearest steps. bench/steps builds it.

     steps table DEAREST TRIES SAMPLE..     the table, after so many tries a kind; the samples are held against it
     steps rate  DEAREST                    instructions a microsecond on this processor
     steps allow DEAREST LENS MICROSECONDS  how many steps a scan may have
     steps seek  DEAREST SECONDS [SEED]     seeks longer, and prints steps for the file

   There are two counters. One has the processor stop before each instruction of the archive itself: what is printed is
   counted so. The other is a copy of the archive's code in which each straight piece adds its length to copy_count: ten
   thousand times as fast, and for seeking. They have to agree on each step that is printed. */
#define _GNU_SOURCE
#include <math.h>
#include <signal.h>
#include <stdint.h>
#include <stdio.h>
#include <stdlib.h>
#include <string.h>
#include <time.h>
#include <ucontext.h>

#include "lens.h"
#include "patterns.h"
#include "pilingrue.h"

/* A number's role in a record says how an ordinary one is drawn: Vertex, Index, Curvature, K, Semi-diameter, Radius; A
   coefficient that may be left out, or one that is Bound to be there. */
static const struct kind {
    const char *name, *roles;
    unsigned number, passes;
} KINDS[] = {
    {"conic", "VICKS", PILINGRUE_KIND_CONIC, PILINGRUE_STEPS_CONIC},
    {"even asphere", "VICKSAAAAAAAA", PILINGRUE_KIND_EVEN_ASPHERE, PILINGRUE_STEPS_EVEN_ASPHERE},
    {"biconic", "VICKCKS", PILINGRUE_KIND_BICONIC, PILINGRUE_STEPS_BICONIC},
    {"toroid", "VIRCKS", PILINGRUE_KIND_TOROID, PILINGRUE_STEPS_TOROID},
    {"odd asphere", "VICKSBBBBBBBBBBBBBBBB", PILINGRUE_KIND_ODD_ASPHERE, PILINGRUE_STEPS_ODD_ASPHERE},
};
/* The state's: T, origin across and along the axis, direction across and along, Index, Path. */
static const char STATE_ROLES[] = "TOOZDDEIP";

enum {
    KIND_COUNT = sizeof KINDS / sizeof *KINDS,
    SLOTS = 2 * KIND_COUNT, /* each kind refracting, then as a mirror */
    COEFFICIENTS = 8,
    MOST_NUMBERS = 21,
    ROOM = PILINGRUE_MOST_ROOM
};

static const struct kind *kind_of(int slot) { return &KINDS[slot / 2]; }
static unsigned number_of(int slot) { return kind_of(slot)->number + (slot % 2 ? PILINGRUE_KIND_MIRROR : 0); }
static int full_length(const struct kind *k) { return (int)strlen(k->roles); }
static int least_length(const struct kind *k) { return (int)strcspn(k->roles, "A"); }
static int semi_place(const struct kind *k) { return (int)strcspn(k->roles, "S"); }

/* A step: one surface, with all the coefficients that it may have, and the state before it. */
struct input {
    int slot;
    unsigned passes;
    double surface[MOST_NUMBERS], state[PILINGRUE_NUMBERS];
};

struct trace {
    size_t bytes;
    uint64_t counts[PILINGRUE_COUNTS];
    double numbers[PILINGRUE_NUMBERS];
    uint8_t recipe[PILINGRUE_MOST_RECIPE_BYTES];
    double buffer[ROOM];
};

/* The counter of the archive. What is lent to it stands apart, with what calls it, and is not counted. */

#define LENT __attribute__((noinline, section("lent")))
extern const char __start_lent[], __stop_lent[];
static volatile uint64_t seen;
static volatile size_t blanked;

LENT void *memset(void *to, int value, size_t bytes) {
    volatile unsigned char *p = to;
    for (size_t i = 0; i < bytes; i++) p[i] = (unsigned char)value;
    blanked = bytes;
    return to;
}

LENT void *memcpy(void *restrict to, const void *restrict from, size_t bytes) {
    volatile unsigned char *p = to;
    const unsigned char *q = from;
    for (size_t i = 0; i < bytes; i++) p[i] = q[i];
    return to;
}

/* Comes before each instruction, with its address. */
static void on_trap(int signal, siginfo_t *info, void *context) {
    const ucontext_t *c = context;
    uintptr_t at = (uintptr_t)c->uc_mcontext.gregs[REG_RIP];
    (void)signal, (void)info;
    if (at < (uintptr_t)__start_lent || (uintptr_t)__stop_lent <= at) seen++;
}

#define TRAP_FROM_HERE() __asm__ volatile("pushfq\n\torq $0x100, (%%rsp)\n\tpopfq" ::: "cc", "memory")
#define TRAP_TO_HERE() __asm__ volatile("pushfq\n\tandq $~0x100, (%%rsp)\n\tpopfq" ::: "cc", "memory")

LENT static void trap_version(void) {
    TRAP_FROM_HERE();
    pilingrue_version();
    TRAP_TO_HERE();
}

LENT static pilingrue_verdict trap_start(struct trace *t, const double *b, size_t room) {
    pilingrue_verdict v;
    TRAP_FROM_HERE();
    v = pilingrue_start(t->recipe, t->bytes, b[0], b[1], b[2], b[3], b[4], b[5], b[6], t->buffer, room, t->counts,
                        t->numbers);
    TRAP_TO_HERE();
    return v;
}

LENT static pilingrue_verdict trap_continue(struct trace *t, uint16_t allowed) {
    pilingrue_verdict v;
    TRAP_FROM_HERE();
    v = pilingrue_continue(t->recipe, t->bytes, t->buffer, ROOM, t->counts, t->numbers, allowed);
    TRAP_TO_HERE();
    return v;
}

LENT static void trap_reach(struct trace *t, size_t bytes, const double *b, uint64_t surface) {
    TRAP_FROM_HERE();
    pilingrue_reach(t->recipe, bytes, b[0], b[1], b[2], b[3], b[4], b[5], b[6], surface, t->buffer);
    TRAP_TO_HERE();
}

/* 0 if the call is refused. */
static uint64_t count_continue(struct trace *t, uint16_t allowed) {
    seen = 0;
    return trap_continue(t, allowed).number == PILINGRUE_ACCEPTED ? seen : 0;
}

/* The counter of the copy. */

extern uint64_t copy_count;
pilingrue_verdict copy_pilingrue_continue(const uint8_t *, size_t, double *, size_t, uint64_t *, double *, uint16_t);

static uint64_t count_copied(struct trace *t, uint16_t allowed) {
    copy_count = 0;
    pilingrue_verdict v = copy_pilingrue_continue(t->recipe, t->bytes, t->buffer, ROOM, t->counts, t->numbers, allowed);
    return v.number == PILINGRUE_ACCEPTED ? copy_count : 0;
}

/* Recipes and states. */

static void put(struct trace *t, unsigned kind, const double *numbers, int n) {
    uint16_t head[2] = {(uint16_t)(2 + 8 * n), (uint16_t)kind};
    __builtin_memcpy(t->recipe + t->bytes, head, sizeof head);
    for (int i = 0; i < n; i++) __builtin_memcpy(t->recipe + t->bytes + 4 + 8 * i, &numbers[i], 8);
    t->bytes += 4 + 8 * (size_t)n;
}

static void put_surface(struct trace *t, const struct input *x) {
    put(t, number_of(x->slot), x->surface, full_length(kind_of(x->slot)));
}

/* A step of the first surface. */
static void set_first(struct trace *t, const struct input *x) {
    t->bytes = 0;
    put_surface(t, x);
    for (int i = 0; i < PILINGRUE_COUNTS; i++) t->counts[i] = 0;
    t->counts[PILINGRUE_COUNTS_PASSES] = x->passes;
    for (int i = 0; i < PILINGRUE_NUMBERS; i++) t->numbers[i] = x->state[i];
}

/* The same behind a plane, where the path does not ask for the direction's length. */
static void set(struct trace *t, const struct input *x) {
    static const double PLANE[] = {0, 1, 0, 0, 1};
    set_first(t, x);
    t->bytes = 0;
    put(t, PILINGRUE_KIND_CONIC, PLANE, sizeof PLANE / sizeof *PLANE);
    t->counts[PILINGRUE_COUNTS_SURFACE] = 1;
    t->counts[PILINGRUE_COUNTS_PLACE] = t->bytes;
    put_surface(t, x);
}

/* Random numbers. */

static uint64_t seed;

static uint64_t draw(void) {
    uint64_t z = seed += 0x9e3779b97f4a7c15u;
    z = (z ^ z >> 30) * 0xbf58476d1ce4e5b9u;
    z = (z ^ z >> 27) * 0x94d049bb133111ebu;
    return z ^ z >> 31;
}

static int below(int n) { return (int)(draw() % (uint64_t)n); }
static double between(double low, double high) { return low + (high - low) * 0x1p-53 * (double)(draw() >> 11); }

/* A lens of millimetres, and a beam that comes to it from the left. */
static double ordinary(char role) {
    switch (role) {
    case 'V': return below(2) ? 0 : between(-5, 5);
    case 'I': return below(3) ? between(1, 2) : 1;
    case 'C': return between(-0.2, 0.2);
    case 'K': return below(3) ? between(-3, 3) : below(2) - 1;
    case 'S': return between(0, 20);
    case 'R': return between(-60, 60);
    case 'A':
    case 'B': return ldexp(between(-1, 1), -below(40));
    case 'T': return between(0, 20);
    case 'O': return between(-5, 5);
    case 'Z': return between(-20, 0);
    case 'D': return between(-0.5, 0.5);
    case 'E': return below(4) ? between(0.5, 1) : between(-1, 1);
    default: return between(0, 20);
    }
}

/* Squares, powers of two whose squares are far, subnormal numbers, numbers beside 1 and beside the tolerances. */
static double edge(void) {
    static const double BESIDE[] = {0, 1, 4, 1e-15, 1e-14, 1e-12, 1e-11, 1e-30, 1e-7, 1e-4, 0.5, 2};
    double sign = below(2) ? 1 : -1, root = 1 + below(1 << 20);
    switch (below(5)) {
    case 0: return sign * root * root;
    case 1: return sign * ldexp(between(1, 2), below(2098) - 1074);
    case 2: return sign * ldexp(between(1, 2), (below(2) ? 1 : -1) * (470 + below(60)));
    case 3: return sign * number(draw() >> 12 >> below(52));
    default: return sign * number(pattern(BESIDE[below(sizeof BESIDE / sizeof *BESIDE)]) + (uint64_t)below(4));
    }
}

static double hostile(void) {
    double x = number(draw());
    return isfinite(x) ? x : 1;
}

/* The operands of an input as one row: the surface's numbers, then the state's. */
static int operands(const struct input *x) { return full_length(kind_of(x->slot)) + PILINGRUE_NUMBERS; }

static double *operand(struct input *x, int i) {
    int n = full_length(kind_of(x->slot));
    return i < n ? &x->surface[i] : &x->state[i - n];
}

static char role(const struct input *x, int i) {
    int n = full_length(kind_of(x->slot));
    return i < n ? kind_of(x->slot)->roles[i] : STATE_ROLES[i - n];
}

/* A number that is not refused: finite, a semi-diameter not below 0, an index above 0. */
static void put_operand(struct input *x, int i, double value) {
    if (role(x, i) == 'I' || role(x, i) == 'S') value = fabs(value);
    if (!isfinite(value) || (role(x, i) == 'I' && value == 0)) value = 1;
    *operand(x, i) = value;
}

static struct input drawn(int slot) {
    struct input x = {.slot = slot};
    int edges = below(3) ? 0 : below(8), wild = below(5) == 0;
    x.passes = below(2) ? 0 : (unsigned)below((int)kind_of(slot)->passes);
    for (int i = 0; i < operands(&x); i++)
        put_operand(&x, i, wild ? hostile() : below(8) < edges ? edge() : ordinary(role(&x, i)));
    return x;
}

/* The state's t where the whole search ends or this step comes to; or the semi-diameter at which the beam is there, or
   at 1.5 of which a pass gives up, so that a root is needed to compare them. */
static void fit(struct input *x) {
    static struct trace t;
    int semi = semi_place(kind_of(x->slot));
    const double *r = t.buffer + PILINGRUE_RECORD_NUMBERS;
    const double *o = t.numbers + PILINGRUE_NUMBERS_ORIGIN, *d = t.numbers + PILINGRUE_NUMBERS_DIRECTION;
    double s, px, py;
    set(&t, x);
    if (count_copied(&t, below(2) ? 1 : 64) == 0) return;
    s = t.counts[PILINGRUE_COUNTS_OUTCOME] == PILINGRUE_DONE ? r[PILINGRUE_RECORD_T] : t.numbers[PILINGRUE_NUMBERS_T];
    if (below(2)) {
        put_operand(x, full_length(kind_of(x->slot)), below(2) ? s : s + ldexp(between(-1, 1), -30 - below(20)));
        return;
    }
    set(&t, x);
    if (below(2)) s = x->state[PILINGRUE_NUMBERS_T];
    px = o[0] + s * d[0], py = o[1] + s * d[1];
    put_operand(x, semi, sqrt(px * px + py * py) / (below(2) ? 1 : 1.5));
}

/* The beam's direction longer by a power of two, and t shorter. */
static void stretch(struct input *x) {
    int power = below(41) - 20;
    for (int i = 0; i < 3; i++) x->state[PILINGRUE_NUMBERS_DIRECTION + i] *= ldexp(1, power);
    x->state[PILINGRUE_NUMBERS_T] *= ldexp(1, -power);
}

static void change(struct input *x) {
    int i = below(operands(x));
    double old = *operand(x, i);
    switch (below(12)) {
    case 0: put_operand(x, i, number(pattern(old) ^ (uint64_t)1 << below(64))); break;
    case 1: put_operand(x, i, number(pattern(old) + (uint64_t)below(17) - 8)); break;
    case 2: put_operand(x, i, ordinary(role(x, i))); break;
    case 3: put_operand(x, i, edge()); break;
    case 4: put_operand(x, i, *operand(x, below(operands(x)))); break;
    case 5: put_operand(x, i, ldexp(old, below(9) - 4)); break;
    case 6: put_operand(x, i, -old); break;
    case 7: x->passes = (unsigned)below((int)kind_of(x->slot)->passes); break;
    case 8: fit(x); break;
    case 9: stretch(x); break;
    default: put_operand(x, i, number(pattern(old) ^ draw() >> 12 >> below(52))); break;
    }
}

/* What a call costs beside its steps. `full` is what a check of the most records costs more, since it ends by their
   number and not at the recipe's end. */

static struct {
    uint64_t start, scan, full, check[KIND_COUNT][COEFFICIENTS + 1];
} cost;

static int failed;

static void expect(int holds, const char *what) {
    if (holds) return;
    printf("NOT AS EXPECTED: %s\n", what);
    failed = 1;
}

/* A recipe of n records of a kind, and a beam before the first. */
static void repeat(struct trace *t, const struct input *x, int length, int n) {
    set_first(t, x);
    for (t->bytes = 0; n > 0; n--) put(t, number_of(x->slot), x->surface, length);
}

static uint64_t scan_of(int slot, int length, int n) {
    static struct trace t;
    struct input x = drawn(slot);
    repeat(&t, &x, length, n);
    return count_continue(&t, 0);
}

/* A second and a third record cost the same, and a mirror's what another's does. */
static void count_checks(void) {
    for (int k = 0; k < KIND_COUNT; k++) {
        int least = least_length(&KINDS[k]);
        for (int n = least; n <= full_length(&KINDS[k]); n++) {
            uint64_t one = scan_of(2 * k, n, 1), two = scan_of(2 * k, n, 2);
            cost.check[k][n - least] = two - one;
            if (k == 0) cost.scan = one - (two - one);
            expect(one == cost.scan + (two - one), "a first record costs what a second does");
            expect(scan_of(2 * k, n, 3) == two + (two - one), "a third record costs what a second does");
            expect(scan_of(2 * k + 1, n, 2) == two, "a mirror's record costs what another's does");
        }
    }
}

static const struct kind *kind_at(const uint8_t *record, int *slot) {
    int k = 0;
    while (k < KIND_COUNT - 1 && KINDS[k].number != record[2]) k++;
    *slot = 2 * k + record[3];
    return &KINDS[k];
}

static size_t length_at(const uint8_t *record) { return 2 + (size_t)record[0] + 256 * (size_t)record[1]; }

static size_t records(const struct trace *t) {
    size_t n = 0;
    for (size_t at = 0; at < t->bytes; at += length_at(t->recipe + at)) n++;
    return n;
}

/* The checks of a recipe's records. */
static uint64_t checks(const struct trace *t) {
    uint64_t sum = records(t) == PILINGRUE_MOST_RECORDS ? cost.full : 0;
    for (size_t at = 0; at < t->bytes; at += length_at(t->recipe + at)) {
        int slot;
        const struct kind *k = kind_at(t->recipe + at, &slot);
        sum += cost.check[slot / 2][(int)(length_at(t->recipe + at) / 8) - least_length(k)];
    }
    return sum;
}

/* Records of all kinds and lengths, with numbers of any size, and a state on one of them. */
static void mix(struct trace *t, int n) {
    struct input x = drawn(0);
    int on = below(n);
    set_first(t, &x);
    t->bytes = 0;
    for (int i = 0; i < n; i++) {
        struct input y = drawn(below(SLOTS));
        int least = least_length(kind_of(y.slot)), length = least + below(full_length(kind_of(y.slot)) - least + 1);
        if (i == on) t->counts[PILINGRUE_COUNTS_SURFACE] = (uint64_t)i, t->counts[PILINGRUE_COUNTS_PLACE] = t->bytes;
        put(t, number_of(y.slot), y.surface, length);
    }
}

/* The same for every recipe of the most records, and next to nothing. */
static void count_full(void) {
    static struct trace t;
    mix(&t, PILINGRUE_MOST_RECORDS);
    cost.full = count_continue(&t, 0) - cost.scan - checks(&t);
    expect(cost.full < 8, "a check of the most records costs less than 8 instructions more");
}

static int blank(const struct trace *t, size_t room) {
    for (size_t i = 0; i < room; i++)
        if (pattern(t->buffer[i]) != 0) return 0;
    return 1;
}

/* What a start and a scan cost is their fixed part and the sum of their records' checks, whatever the numbers are. The
   last number of a room is blanked apart from the others. */
static void count_fixed_parts(void) {
    static struct trace t;
    for (int i = 0; i < 40; i++) {
        struct input x = drawn(0);
        int n = i ? 1 + below(24) : PILINGRUE_MOST_RECORDS;
        size_t room = (size_t)n * PILINGRUE_RECORD_NUMBERS;
        mix(&t, n);
        expect(count_continue(&t, 0) == cost.scan + checks(&t), "a scan costs its fixed part and its records' checks");
        seen = 0;
        for (size_t k = 0; k < ROOM; k++) t.buffer[k] = 1.0;
        expect(trap_start(&t, x.state + 1, room).number == 1, "a start is accepted");
        if (i == 0) cost.start = seen - checks(&t);
        expect(seen == cost.start + checks(&t), "a start costs its fixed part and its records' checks");
        expect(blanked == 8 * (room - 1) && blank(&t, room), "a start blanks the room");
        expect(room == ROOM || t.buffer[room] == 1.0, "a start blanks no more than the room");
    }
}

static uint64_t count_reach(struct trace *t, size_t bytes, const double *b, uint64_t surface) {
    seen = 0;
    trap_reach(t, bytes, b, surface);
    return seen;
}

/* A question for a surface costs the same with a byte behind its record as with all the records there. */
static void hold_questions(void) {
    static struct trace t;
    for (int i = 0; i < 40; i++) {
        struct input x = drawn(0);
        size_t end = 0;
        int surface = below(24), n = i ? surface + 2 + below(24) : PILINGRUE_MOST_RECORDS;
        mix(&t, n);
        for (int k = 0; k <= surface; k++) end += length_at(t.recipe + end);
        expect(count_reach(&t, t.bytes, x.state + 1, (uint64_t)surface) ==
                   count_reach(&t, end + 1, x.state + 1, (uint64_t)surface),
               "a question costs the same whatever stands behind its surface");
    }
}

/* Steps. */

static uint64_t step_counted_by(uint64_t count(struct trace *, uint16_t), struct trace *t) {
    uint64_t all = count(t, 1);
    return all ? all - cost.scan - checks(t) : 0;
}

static uint64_t step_counted(const struct input *x) {
    static struct trace t;
    set(&t, x);
    return step_counted_by(count_continue, &t);
}

static uint64_t first_step_counted(const struct input *x) {
    static struct trace t;
    set_first(&t, x);
    return step_counted_by(count_continue, &t);
}

static uint64_t tries;

static uint64_t step_copied(const struct input *x) {
    static struct trace t;
    set(&t, x);
    tries++;
    return step_counted_by(count_copied, &t);
}

/* The climbers of a kind. Each takes a change that does not make its step cheaper. */

enum { CLIMBERS = 8, PATIENCE = 200000 };

struct climber {
    struct input at;
    uint64_t step;
    int tried;
};

static struct climber climbers[SLOTS][CLIMBERS], dearest[SLOTS];

static void keep_dearest(const struct climber *c) {
    if (c->step > dearest[c->at.slot].step) dearest[c->at.slot] = *c;
}

static void begin(struct climber *c, int slot) {
    struct climber best = {0};
    for (int i = 0; i < 100 || best.step == 0; i++) {
        struct climber next = {.at = drawn(slot)};
        next.step = step_copied(&next.at);
        if (next.step > best.step) best = next;
    }
    *c = best;
    keep_dearest(c);
}

/* The dearest of its kind, or what was dearest of the same surface as a mirror, or without one. */
static void begin_at_dearest(struct climber *c, int slot) {
    *c = dearest[slot ^ below(2)];
    c->at.slot = slot;
    c->step = step_copied(&c->at);
}

/* A climber that came no farther in a long time begins anew. */
static void renew(struct climber *c, int slot) {
    if (below(4)) begin_at_dearest(c, slot);
    else begin(c, slot);
    c->tried = 0;
}

static void climb(struct climber *c, int slot) {
    struct climber next = *c;
    for (int changes = 1 + below(3); changes > 0; changes--) change(&next.at);
    next.step = step_copied(&next.at);
    if (next.step > c->step) next.tried = 0;
    if (next.step >= c->step) *c = next;
    keep_dearest(c);
    if (++c->tried > PATIENCE) renew(c, slot);
}

/* Half of them from the file's, if it has any. */
static void begin_all(void) {
    for (int slot = 0; slot < SLOTS; slot++)
        for (int i = 0; i < CLIMBERS; i++) begin(&climbers[slot][i], slot);
    for (int slot = 0; slot < SLOTS; slot++)
        for (int i = 0; i < CLIMBERS; i += 2) begin_at_dearest(&climbers[slot][i], slot);
}

static void climb_all(int times) {
    for (int slot = 0; slot < SLOTS; slot++)
        for (int i = 0; i < times; i++) climb(&climbers[slot][i % CLIMBERS], slot);
}

/* The file of the dearest: a step's words are the kind's number, the passes made, and the patterns of the surface's
   numbers and of the state's. From # to the line's end is a remark. */

enum { WORDS_A_LINE = 6 };

static void write_step(const struct input *x) {
    struct input y = *x;
    printf("%u %u", number_of(x->slot), x->passes);
    for (int i = 0; i < operands(&y); i++)
        printf("%s%016llx", i % WORDS_A_LINE ? " " : "\n  ", (unsigned long long)pattern(*operand(&y, i)));
    putchar('\n');
}

/* 1 for a word that is a whole number, 0 at the file's end, -1 for another word. */
static int read_word(FILE *f, int base, uint64_t *whole) {
    char word[20], *end;
    while (fscanf(f, "%19s", word) == 1) {
        if (word[0] != '#') {
            *whole = strtoull(word, &end, base);
            return *end == '\0' ? 1 : -1;
        }
        for (int c = 0; c != '\n' && c != EOF;) c = getc(f);
    }
    return 0;
}

/* What stands behind the kind. */
static int read_step(FILE *f, uint64_t kind, struct input *x) {
    uint64_t whole;
    for (x->slot = 0; x->slot < SLOTS && number_of(x->slot) != kind; x->slot++) continue;
    if (x->slot == SLOTS || read_word(f, 10, &whole) != 1) return 0;
    x->passes = (unsigned)whole;
    for (int i = 0; i < operands(x); i++) {
        if (read_word(f, 16, &whole) != 1) return 0;
        *operand(x, i) = number(whole);
    }
    return 1;
}

static int read_dearest(const char *path, void each(const struct input *)) {
    FILE *f = fopen(path, "r");
    int good = f != NULL, found = good;
    while (good && found) {
        struct input x = {0};
        uint64_t kind;
        found = read_word(f, 10, &kind);
        good = found == 0 || (found == 1 && read_step(f, kind, &x));
        if (good && found) each(&x);
    }
    if (f) fclose(f);
    if (!good) fprintf(stderr, "steps: cannot read %s\n", path);
    return good;
}

static void take(const struct input *x) {
    struct climber c = {*x, step_copied(x), 0};
    expect(c.step > 0, "an input of the file is accepted");
    keep_dearest(&c);
}

/* What a step costs on top of its own where, in the same call, the one before it ended its surface; nothing where the
   two cost less together. Where that did not, the record is not read anew, and the step costs less. */
static uint64_t next_cost;

static void count_next(void) {
    static struct trace t;
    struct input x = {.slot = 0, .surface = {0, 1, 0, 0, 1}, .state = {[PILINGRUE_NUMBERS_INDEX] = 1}};
    x.state[PILINGRUE_NUMBERS_DIRECTION + 2] = 1;
    repeat(&t, &x, full_length(kind_of(0)), 2);
    uint64_t one = count_continue(&t, 1), other = count_continue(&t, 1);
    repeat(&t, &x, full_length(kind_of(0)), 2);
    uint64_t apart = one + other - cost.scan - checks(&t), together = count_continue(&t, 2);
    next_cost = together > apart ? together - apart : 0;
}

/* What the dearest steps cost more where they are the first surface's. */
static uint64_t first_cost(void) {
    uint64_t most = 0;
    for (int slot = 0; slot < SLOTS; slot++) {
        uint64_t first = first_step_counted(&dearest[slot].at), step = dearest[slot].step;
        if (first > step + most) most = first - step;
    }
    return most;
}

/* Lenses. */

/* A trace of a lens, started. What is no lens is refused by the start. */
static int start_lens(const char *path, struct trace *t) {
    static lens l;
    const double *b = l.beam;
    pilingrue_verdict v;
    if (!load(&l, path) || l.recipe_bytes > sizeof t->recipe) return 0;
    t->bytes = l.recipe_bytes;
    memcpy(t->recipe, l.recipe, t->bytes);
    v = pilingrue_start(t->recipe, t->bytes, b[0], b[1], b[2], b[3], b[4], b[5], b[6], t->buffer, ROOM, t->counts,
                        t->numbers);
    return v.number == PILINGRUE_ACCEPTED;
}

/* Each step of a lens is no dearer than the dearest of its kind, and all together cost no more than one by one. */
static int hold_sample(const char *path) {
    static struct trace t, together;
    uint64_t sum = 0, rest, first = first_cost();
    uint16_t steps = 0;
    if (!start_lens(path, &t) || !start_lens(path, &together)) return 0;
    rest = cost.scan + checks(&t);
    while (t.counts[PILINGRUE_COUNTS_OUTCOME] == PILINGRUE_RUNNING) {
        uint64_t step, most;
        int slot;
        kind_at(t.recipe + t.counts[PILINGRUE_COUNTS_PLACE], &slot);
        most = dearest[slot].step + (t.counts[PILINGRUE_COUNTS_SURFACE] ? 0 : first);
        step = count_continue(&t, 1) - rest;
        expect(step <= most, "a sample's step is no dearer than the dearest of its kind");
        sum += step;
        steps++;
    }
    expect(count_continue(&t, 1) == rest, "a scan after the end costs no step");
    expect(count_continue(&together, steps) <= rest + sum + steps * next_cost, "steps cost no more together");
    expect(memcmp(t.buffer, together.buffer, sizeof t.buffer) == 0, "steps together come to what they do one by one");
    return 1;
}

/* How fast this processor is at it. */

enum { ROUNDS = 101, CALLS = 200 };

static double microseconds(void) {
    struct timespec t;
    clock_gettime(CLOCK_MONOTONIC, &t);
    return 1e6 * (double)t.tv_sec + 1e-3 * (double)t.tv_nsec;
}

static int ascending(const void *a, const void *b) {
    double x = *(const double *)a, y = *(const double *)b;
    return (x > y) - (x < y);
}

/* Microseconds of a call, by the median of many rounds. */
static double time_of(const struct trace *t, uint16_t allowed) {
    static struct trace u;
    double times[ROUNDS];
    u = *t;
    for (int i = 0; i < ROUNDS; i++) {
        double from = microseconds();
        for (int j = 0; j < CALLS; j++) {
            __builtin_memcpy(u.counts, t->counts, sizeof u.counts);
            __builtin_memcpy(u.numbers, t->numbers, sizeof u.numbers);
            pilingrue_continue(u.recipe, u.bytes, u.buffer, ROOM, u.counts, u.numbers, allowed);
        }
        times[i] = microseconds() - from;
    }
    qsort(times, ROUNDS, sizeof *times, ascending);
    return times[ROUNDS / 2] / CALLS;
}

static double rate_of(struct trace *t, uint16_t allowed) {
    double time = time_of(t, allowed);
    return (double)count_copied(t, allowed) / time;
}

/* The least rate of the kinds' dearest steps, and of scans that check records and take no step. */
static double least_rate(void) {
    static struct trace t;
    double least = INFINITY;
    for (int slot = 0; slot < SLOTS; slot++) {
        set(&t, &dearest[slot].at);
        least = fmin(least, rate_of(&t, 1));
        repeat(&t, &dearest[slot].at, full_length(kind_of(slot)), 16);
        least = fmin(least, rate_of(&t, 0));
    }
    return least;
}

/* The longest time of a scan of one step, of all inputs of the file. */
static double slowest;

static void time_step(const struct input *x) {
    static struct trace t;
    set_first(&t, x);
    slowest = fmax(slowest, time_of(&t, 1));
}

/* What is printed. */

static void print_table(void) {
    printf("x86-64 instructions of libstation.a, and the bytes that a start's memset blanks\n\n");
    printf("  %-42s %6d, and 8 bytes a number of the room\n", "a start, beside its records' checks", (int)cost.start);
    printf("  %-42s %6d\n", "a scan, beside its records' checks", (int)cost.scan);
    printf("  %-42s %6d\n", "each step of a scan, beside its own", (int)next_cost);
    for (int k = 0; k < KIND_COUNT; k++) {
        int more = full_length(&KINDS[k]) - least_length(&KINDS[k]);
        printf("  the check of a record: %-19s %6d", KINDS[k].name, (int)cost.check[k][0]);
        for (int n = 1; n <= more; n++) printf(", %d", (int)cost.check[k][n]);
        if (more) printf(" with 0 to %d coefficients", more);
        putchar('\n');
    }
    puts("\n  the dearest step found                 refracting     mirror");
    for (int k = 0; k < KIND_COUNT; k++)
        printf("  %-38s %10d %10d\n", KINDS[k].name, (int)dearest[2 * k].step, (int)dearest[2 * k + 1].step);
    printf("  %-38s %10d\n", "more for one of the first surface", (int)first_cost());
}

static int print_rate(const char *path) {
    double rate = least_rate();
    if (!read_dearest(path, time_step)) return 2;
    printf("\non this processor %.0f instructions a microsecond, the least of the dearest steps and the checks:\n",
           rate);
    printf("steps of a scan = (microseconds * %.0f - %d - its records' checks) / (dearest step of its kinds + %d)\n",
           rate, (int)(cost.scan + first_cost()), (int)next_cost);
    printf("where numbers are subnormal, a scan of one step was seen to take %.2f microseconds\n", slowest);
    return failed;
}

/* Of the recipe's kinds. */
static uint64_t dearest_in(const struct trace *t) {
    uint64_t most = 0;
    for (size_t at = 0; at < t->bytes; at += length_at(t->recipe + at)) {
        int slot;
        kind_at(t->recipe + at, &slot);
        if (dearest[slot].step > most) most = dearest[slot].step;
    }
    return most;
}

static int whole_steps(double steps) { return (int)fmin(fmax(steps, 0), UINT16_MAX); }

static int print_allowance(const char *path, const char *file, double time) {
    static struct trace t;
    double rate, step, rest;
    if (!start_lens(file, &t) || t.bytes == 0 || !(time > 0)) return fprintf(stderr, "steps: no lens, or no time\n"), 2;
    if (!read_dearest(path, time_step)) return 2;
    rate = least_rate(), step = (double)(dearest_in(&t) + next_cost);
    rest = (double)(cost.scan + first_cost() + checks(&t));
    printf("%9.0f  instructions in %g microseconds, at %.0f a microsecond\n", time * rate, time, rate);
    printf("%9d  off for a scan, and for a step of the first surface\n", (int)(cost.scan + first_cost()));
    printf("%9d  off for the checks of %d records\n", (int)checks(&t), (int)records(&t));
    printf("%9.0f  for each step, the dearest found of the recipe's kinds\n", step);
    printf("%9d  steps may a scan have\n", whole_steps((time * rate - rest) / step));
    printf("%9d  if numbers may be subnormal, at %.2f microseconds a step\n",
           whole_steps((time - rest / rate) / slowest), slowest);
    return failed;
}

/* The dearest of the file and of a short search, by both counters; and the samples held against them. */
static int table(int times, char **samples) {
    count_fixed_parts();
    hold_questions();
    begin_all();
    climb_all(times);
    for (int slot = 0; slot < SLOTS; slot++)
        expect(step_counted(&dearest[slot].at) == dearest[slot].step, "both counters agree on a step");
    print_table();
    for (; *samples; samples++)
        if (!hold_sample(*samples)) return fprintf(stderr, "steps: %s is no lens\n", *samples), 2;
    printf("\n%.1f million inputs were tried in this run\n", 1e-6 * (double)tries);
    return failed;
}

static int seek(double time, uint64_t from) {
    double end = microseconds() + 1e6 * time;
    seed = from;
    begin_all();
    while (microseconds() < end) climb_all(1000);
    for (int slot = 0; slot < SLOTS; slot++) {
        printf("# %s%s, %d\n", kind_of(slot)->name, slot % 2 ? " mirror" : "", (int)step_counted(&dearest[slot].at));
        write_step(&dearest[slot].at);
    }
    printf("# %.1f million inputs were tried\n", 1e-6 * (double)tries);
    return failed;
}

/* Counts what every command needs. The version's two instructions say that the counter is exact. */
static void prepare(void) {
    struct sigaction s = {.sa_sigaction = on_trap, .sa_flags = SA_SIGINFO};
    sigaction(SIGTRAP, &s, NULL);
    trap_version();
    expect(seen == 2, "a call of pilingrue_version takes two instructions");
    count_checks();
    count_full();
    count_next();
}

int main(int argc, char **argv) {
    const char *command = argc > 2 ? argv[1] : "";
    prepare();
    if (argc > 2 && !read_dearest(argv[2], take)) return 2;
    if (!strcmp(command, "rate")) return print_rate(argv[2]);
    if (!strcmp(command, "table") && argc > 3) return table(atoi(argv[3]), argv + 4);
    if (!strcmp(command, "seek") && argc > 3) return seek(atof(argv[3]), argc > 4 ? strtoull(argv[4], NULL, 10) : 1);
    if (!strcmp(command, "allow") && argc > 4) return print_allowance(argv[2], argv[3], atof(argv[4]));
    return fputs("usage: bench/steps, which says how\n", stderr), 2;
}
