/* Times the library's C entry points beside the rival, in one process; results are compared before anything is timed.
   Usage: main                  all cases, growth, refusals and scale
          main NAME SIDE COUNT  calls one case COUNT times and times nothing (for callgrind); SIDE is ours or rival */
#define _GNU_SOURCE
#include "rival.h"
#include <sched.h>
#include <stdio.h>
#include <stdlib.h>
#include <string.h>
#include <time.h>
#ifdef HAVE_ISAL
#include <isa-l.h>
#endif

enum { MAX_PLACES = 32768, MAX_PATTERNS = 64 };
/* All cases are gone through PASSES times, so that a busy second of the machine spoils no case; each time a case has ROUNDS rounds of batches. */
enum { PASSES = 30, ROUNDS = 5 };
static const double BATCH_NS = 200e3;

/* none to crossed_forest are calls of recover; the last two are calls of their own. */
typedef enum { NONE, FEW, PAIR, FOREST, LOOSE, LOOSE_FOREST, CROSSED, CROSSED_PAIR, CROSSED_FOREST, ENCODE, MESSAGE_OF, KINDS } kind;
static const char *const kind_names[KINDS] = {"none",    "few",          "pair",           "forest", "loose",     "loose_forest",
                                              "crossed", "crossed_pair", "crossed_forest", "encode", "message_of"};
/* The recovered case that a refusal is held against. */
static const kind recovered_kind[KINDS] = {
    [LOOSE] = PAIR, [LOOSE_FOREST] = FOREST, [CROSSED] = NONE, [CROSSED_PAIR] = PAIR, [CROSSED_FOREST] = FOREST};

typedef struct {
    const char *name;
    fumizhaki_plan plan;
} size_case;

/* The answer of 01 that the case is made for. */
static uint8_t expected(kind k) {
    if (k == LOOSE || k == LOOSE_FOREST) return 6;
    return k == CROSSED || k == CROSSED_PAIR || k == CROSSED_FOREST ? 5 : 0;
}

/* A case: a block, and patterns of marks that the calls take in turn, so that no branch predictor can learn one by heart. */
typedef struct {
    kind kind;
    fumizhaki_plan plan;
    size_t places, message_length, patterns;
    int damaged; /* an unmarked symbol is not the codeword's */
    _Alignas(64) uint8_t codeword[MAX_PLACES], block[MAX_PLACES], message[MAX_PLACES], marks[MAX_PATTERNS][MAX_PLACES / 8];
} input;

/* What a call leaves behind. */
typedef struct {
    uint8_t answer;
    size_t count;
    _Alignas(64) uint8_t block[MAX_PLACES], message[MAX_PLACES];
    uint16_t witness[4096];
} output;

static void fail(const char *what, const char *where) {
    printf("FAILED: %s: %s\n", where, what);
    exit(1);
}

static uint64_t seed = 1;

/* A number below m (splitmix64). */
static size_t below(size_t m) {
    uint64_t z = (seed += 0x9e3779b97f4a7c15u);
    z = (z ^ z >> 30) * 0xbf58476d1ce4e5b9u;
    z = (z ^ z >> 27) * 0x94d049bb133111ebu;
    return (size_t)((z ^ z >> 31) % m);
}

/* ---- the two sides ---- */

static void ours(const input *in, size_t i, output *out) {
    size_t t = in->plan.t, bytes = (in->places + 7) / 8;
    if (in->kind == ENCODE)
        out->answer = fumizhaki_encode(in->plan, in->message, in->message_length, out->block, in->places);
    else if (in->kind == MESSAGE_OF)
        out->answer = fumizhaki_message_of(in->plan, in->block, in->places, out->message, in->message_length);
    else {
        memcpy(out->block, in->block, in->places);
        out->answer = fumizhaki_recover(in->plan, out->block, in->places, in->marks[i], bytes, out->witness, 2 * t, &out->count);
    }
}

static void rival(const input *in, size_t i, output *out) {
    size_t t = in->plan.t, bytes = (in->places + 7) / 8;
    if (in->kind == ENCODE)
        out->answer = rival_encode(&in->plan, in->message, in->message_length, out->block, in->places);
    else if (in->kind == MESSAGE_OF)
        out->answer = rival_message_of(&in->plan, in->block, in->places, out->message, in->message_length);
    else {
        memcpy(out->block, in->block, in->places);
        out->answer = rival_recover(&in->plan, out->block, in->places, in->marks[i], bytes, out->witness, 2 * t, &out->count);
    }
}

/* The copy that precedes each call of recover, alone. */
static void restore(const input *in, size_t i, output *out) {
    (void)i;
    memcpy(out->block, in->block, in->places);
}

/* Both sides on one pattern: answers and buffers must be the same. Gives the answer. */
static uint8_t compare(const input *in, size_t i, const char *where) {
    static output a, b;
    memset(&a, 0xA5, sizeof a);
    memset(&b, 0xA5, sizeof b);
    ours(in, i, &a);
    rival(in, i, &b);
    if (memcmp(&a, &b, sizeof a) != 0) fail("the library and the rival differ", where);
    if (in->kind != MESSAGE_OF && a.answer == 0 && !in->damaged)
        if (memcmp(a.block, in->codeword, in->places) != 0) fail("not the expected codeword", where);
    if (in->kind == MESSAGE_OF && a.answer == 0 && memcmp(in->block, in->codeword, in->places) == 0)
        if (memcmp(a.message, in->message, in->message_length) != 0) fail("not the expected message", where);
    return a.answer;
}

/* ---- inputs ---- */

static void mark(uint8_t *marks, size_t c) {
    marks[c / 8] |= (uint8_t)(1 << c % 8);
}

static void unmark(uint8_t *marks, size_t c) {
    marks[c / 8] &= (uint8_t) ~(1 << c % 8);
}

static int marked(const uint8_t *marks, size_t c) {
    return marks[c / 8] >> c % 8 & 1;
}

static size_t gcd(size_t a, size_t b) {
    return b == 0 ? a : gcd(b, a % b);
}

/* A section whose shift and the next one's differ by a number prime to t: both may be lost but for one symbol. */
static size_t good_pair(const fumizhaki_plan *plan) {
    for (size_t j = 0; j + 1 < plan->n; j++)
        if (gcd((size_t)abs(plan->shifts[j + 1] - plan->shifts[j]), plan->t) == 1) return j;
    fail("no two neighbouring sections with a divisor of 1", "plan");
    return 0;
}

static size_t root(uint16_t *parent, size_t r) {
    while (parent[r] != r) r = parent[r] = parent[parent[r]];
    return r;
}

/* Marks place c and random places that close no cycle, as many as there can be; then one more if `closed`. */
static void mark_forest(const input *in, uint8_t *marks, size_t c, int closed) {
    static uint16_t order[MAX_PLACES], parent[4096];
    size_t t = in->plan.t, spare = c;
    for (size_t r = 0; r < 2 * t; r++) parent[r] = (uint16_t)r;
    for (size_t i = 0; i < in->places; i++) {
        size_t d = below(i + 1);
        order[i] = order[d];
        order[d] = (uint16_t)i;
    }
    for (size_t i = 0; i <= in->places; i++, c = order[i - 1]) {
        size_t k = c % t, a = root(parent, k), b = root(parent, t + (k + t - in->plan.shifts[c / t]) % t);
        if (a != b)
            mark(marks, c);
        else if (!marked(marks, c))
            spare = c;
        parent[a] = (uint16_t)b;
    }
    if (closed) mark(marks, spare);
}

/* One pattern of a case. `bad` is the place of the damaged symbol: without it the erasures fall in two components, and as it belongs to both,
   its damage shows in both. */
static void mark_pattern(const input *in, uint8_t *marks, size_t first, size_t bad) {
    size_t t = in->plan.t;
    kind k = in->kind;
    if (k == FEW)
        for (size_t i = 0; i < 8 && i < t / 4 + 1; i++) mark(marks, below(in->places));
    if (k == PAIR || k == CROSSED_PAIR || k == LOOSE)
        for (size_t c = first; c < first + 2 * t; c++) mark(marks, c);
    if (k == PAIR || k == CROSSED_PAIR) unmark(marks, first + (bad - first + 1 + below(2 * t - 1)) % (2 * t));
    if (k == FOREST || k == CROSSED_FOREST || k == LOOSE_FOREST) mark_forest(in, marks, bad, k == LOOSE_FOREST);
    if (k == CROSSED_PAIR || k == CROSSED_FOREST) unmark(marks, bad);
}

/* A codeword of a random message, its patterns of marks and its damage. */
static void prepare(input *in, const fumizhaki_plan *plan, kind k, const char *where) {
    size_t t = plan->t;
    seed = 1;
    memset(in, 0, sizeof *in);
    in->kind = k;
    in->plan = *plan;
    in->places = plan->n * t;
    for (in->patterns = 8; in->patterns < MAX_PATTERNS && in->patterns * in->places < 8 * MAX_PLACES;) in->patterns *= 2;
    if (fumizhaki_message_count(*plan, &in->message_length) != 0) fail("no plan", where);
    for (size_t i = 0; i < in->message_length; i++) in->message[i] = (uint8_t)below(256);
    if (fumizhaki_encode(*plan, in->message, in->message_length, in->codeword, in->places) != 0) fail("cannot encode", where);
    memcpy(in->block, in->codeword, in->places);
    size_t first = good_pair(plan) * t, bad = first + below(2 * t);
    for (size_t i = 0; i < in->patterns; i++) mark_pattern(in, in->marks[i], first, bad);
    in->damaged = expected(k) == 5;
    in->block[bad] ^= (uint8_t)in->damaged;
}

/* Both sides on small random plans, marks and damage. */
static void compare_random(void) {
    static input in;
    size_t seen[7] = {0};
    for (int i = 0; i < 20000; i++) {
        uint16_t shifts[32];
        size_t n = 2 + below(7), t = 1 + below(i % 2 ? 12 : 90);
        for (size_t j = 0; j < n; j++) shifts[j] = (uint16_t)below(t);
        memset(&in, 0, sizeof in);
        in.plan = fumizhaki_plan_of(n, t, shifts, n).plan;
        in.places = n * t;
        fumizhaki_message_count(in.plan, &in.message_length);
        for (size_t c = 0; c < in.message_length; c++) in.message[c] = (uint8_t)below(256);
        in.kind = ENCODE;
        if (fumizhaki_encode(in.plan, in.message, in.message_length, in.codeword, in.places) != 0) fail("cannot encode", "random plan");
        compare(&in, 0, "random plan");
        memcpy(in.block, in.codeword, in.places);
        size_t most = below(2 * t + 2);
        for (size_t k = 0; k < most; k++) mark(in.marks[0], below(in.places));
        for (size_t c = 0; c < in.places; c++)
            if (marked(in.marks[0], c)) in.block[c] = (uint8_t)below(256);
        size_t c = below(in.places);
        in.damaged = i % 4 == 3 && !marked(in.marks[0], c);
        in.block[c] ^= (uint8_t)in.damaged;
        in.kind = NONE;
        seen[compare(&in, 0, "random marks")]++;
        in.kind = MESSAGE_OF;
        compare(&in, 0, "random block");
    }
    if (!seen[0] || !seen[5] || !seen[6]) fail("an answer never came", "random marks");
    printf("# compared on random blocks: recovered %zu crossed %zu loose %zu, no difference\n", seen[0], seen[5], seen[6]);
}

/* ---- times ---- */

static double now(void) {
    struct timespec s;
    clock_gettime(CLOCK_MONOTONIC, &s);
    return (double)s.tv_sec * 1e9 + (double)s.tv_nsec;
}

typedef void once(const input *, size_t, output *);

/* Nanoseconds per call over a batch. */
static double batch(once *f, const input *in, size_t calls) {
    static output out;
    double start = now();
    for (size_t i = 0; i < calls; i++) {
        f(in, i & (in->patterns - 1), &out);
        __asm__ volatile("" ::: "memory");
    }
    return (now() - start) / (double)calls;
}

/* Calls that make a batch: all patterns, at least once. */
static size_t calls_of(once *f, const input *in) {
    size_t calls = in->patterns;
    while (batch(f, in, calls) * (double)calls < BATCH_NS) calls *= 2;
    return calls;
}

enum { OURS, RIVAL, RESTORE, SIDES };
static once *const sides[SIDES] = {ours, rival, restore};

/* A case under measurement: the best batch of each side so far. */
typedef struct {
    input in;
    size_t calls[SIDES];
    double best[SIDES];
} timing;

/* Rounds of batches, the sides taking turns. */
static void measure(timing *m) {
    for (int side = 0; side < SIDES; side++)
        if (m->calls[side] == 0) {
            m->calls[side] = calls_of(sides[side], &m->in);
            m->best[side] = batch(sides[side], &m->in, m->calls[side]);
        }
    for (int round = 0; round < ROUNDS; round++)
        for (int side = 0; side < SIDES; side++) {
            double ns = batch(sides[side], &m->in, m->calls[side]);
            if (ns < m->best[side]) m->best[side] = ns;
        }
}

/* Nanoseconds per call, less the copy that restores the block. */
static double ns_of(const timing *m, int side) {
    return m->best[side] - (m->in.kind < ENCODE ? m->best[RESTORE] : 0);
}

/* ---- scale ---- */

#ifdef HAVE_ISAL
/* Reed-Solomon with two parity sections by ISA-L: encoding; decoding the first two sections with the tables at hand; making these tables first. */
static uint8_t rs_block[MAX_PLACES], rs_copy[MAX_PLACES], rs_matrix[32 * 32], rs_tables[32 * 32 * 32], rs_back[32 * 32 * 32];
static size_t rs_n, rs_t;

static void rs_encode(const input *in, size_t i, output *out) {
    (void)in, (void)i, (void)out;
    uint8_t *part[32];
    for (size_t j = 0; j < rs_n; j++) part[j] = rs_block + j * rs_t;
    ec_encode_data((int)rs_t, (int)rs_n - 2, 2, rs_tables, part, part + rs_n - 2);
}

static void rs_decode(const input *in, size_t i, output *out) {
    (void)in, (void)i, (void)out;
    size_t k = rs_n - 2, lost = k < 2 ? k : 2;
    uint8_t *source[32], *target[2];
    for (size_t j = 0; j < k; j++) source[j] = rs_block + (j + lost) * rs_t;
    for (size_t j = 0; j < lost; j++) target[j] = rs_copy + j * rs_t;
    ec_encode_data((int)rs_t, (int)k, (int)lost, rs_back, source, target);
}

static void rs_invert_and_decode(const input *in, size_t i, output *out) {
    int k = (int)rs_n - 2, lost = k < 2 ? k : 2;
    uint8_t rest[32 * 32], inverse[32 * 32];
    memcpy(rest, rs_matrix + lost * k, (size_t)(k * k));
    if (gf_invert_matrix(rest, inverse, k) != 0) fail("cannot invert", "ISA-L");
    ec_init_tables(k, lost, inverse, rs_back);
    rs_decode(in, i, out);
}
#endif

static double best_of(once *f, const input *in) {
    size_t calls = calls_of(f, in);
    double best = batch(f, in, calls);
    for (int round = 0; round < PASSES * ROUNDS; round++) {
        double ns = batch(f, in, calls);
        if (ns < best) best = ns;
    }
    return best;
}

static void scale(const size_case *s) {
#ifdef HAVE_ISAL
    static input in;
    prepare(&in, &s->plan, NONE, s->name);
    rs_n = s->plan.n;
    rs_t = s->plan.t;
    int k = (int)rs_n - 2, lost = k < 2 ? k : 2;
    memcpy(rs_block, in.block, in.places);
    gf_gen_cauchy1_matrix(rs_matrix, (int)rs_n, k);
    ec_init_tables(k, 2, rs_matrix + k * k, rs_tables);
    rs_encode(&in, 0, NULL);
    rs_invert_and_decode(&in, 0, NULL);
    if (memcmp(rs_block, rs_copy, (size_t)lost * rs_t) != 0) fail("ISA-L does not decode", s->name);
    double copy = best_of(restore, &in);
    printf("scale %s_encode isal_ns %.0f memcpy_ns %.0f\n", s->name, best_of(rs_encode, &in), copy);
    printf("scale %s_decode isal_ns %.0f memcpy_ns %.0f\n", s->name, best_of(rs_decode, &in), copy);
    printf("scale %s_invert_and_decode isal_ns %.0f memcpy_ns %.0f\n", s->name, best_of(rs_invert_and_decode, &in), copy);
#else
    (void)s;
    (void)best_of;
#endif
}

/* ---- all of it ---- */

static const char *name_of(const size_case *s, int k) {
    static char name[64];
    snprintf(name, sizeof name, "%s_%s", s->name, kind_names[k]);
    return name;
}

static void call_only(const size_case *sizes, int how_many, char **argv) {
    static input in;
    static output out;
    for (int i = 0; i < how_many; i++)
        for (int k = 0; k < KINDS; k++) {
            if (strcmp(name_of(&sizes[i], k), argv[1]) != 0) continue;
            prepare(&in, &sizes[i].plan, (kind)k, argv[1]);
            for (long left = atol(argv[3]); left > 0; left--) (argv[2][0] == 'o' ? ours : rival)(&in, (size_t)left & (in.patterns - 1), &out);
            return;
        }
    fail("no such case", argv[1]);
}

/* The first four are the cases; the growth table takes the last three and the first. */
enum { SIZES = 4, ALL_SIZES = 7, GROWTH = 4 };
static const int growth[GROWTH] = {4, 5, 6, 0};
static timing at[ALL_SIZES][KINDS];

static double ours_ns(int i, int k) {
    return ns_of(&at[i][k], OURS);
}

static double ratio(int i, int k) {
    return ours_ns(i, k) / ns_of(&at[i][k], RIVAL);
}

/* A refusal in times of the recovered case. */
static double refusal_times(int i, int k) {
    return ours_ns(i, k) / ours_ns(i, recovered_kind[k]);
}

static double doubling(int step, int k) {
    return ours_ns(growth[step], k) / ours_ns(growth[step - 1], k);
}

static void print_results(const size_case *sizes) {
    for (int i = 0; i < SIZES; i++)
        for (int k = 0; k < KINDS; k++)
            printf("case %s ours_ns %.0f rival_ns %.0f ratio %.2f\n", name_of(&sizes[i], k), ours_ns(i, k), ns_of(&at[i][k], RIVAL), ratio(i, k));
    for (int i = 0; i < SIZES; i++)
        for (int k = 0; k < KINDS; k++)
            if (expected((kind)k))
                printf("refusal %s ns %.0f recovered_ns %.0f times %.2f\n", name_of(&sizes[i], k), ours_ns(i, k), ours_ns(i, recovered_kind[k]),
                       refusal_times(i, k));
    for (int k = 0; k < KINDS; k++) {
        double worst = 0;
        printf("growth %s", kind_names[k]);
        for (int step = 0; step < GROWTH; step++) {
            printf(" t%zu %.0f", sizes[growth[step]].plan.t, ours_ns(growth[step], k));
            if (step > 0 && worst < doubling(step, k)) worst = doubling(step, k);
        }
        printf(" worst_doubling %.2f\n", worst);
    }
}

int main(int argc, char **argv) {
    const size_case sizes[ALL_SIZES] = {
        {"n16_t2048", fumizhaki_straight(16, 2048).plan}, {"n32_t1024", fumizhaki_straight(32, 1024).plan},
        {"n14_t183", fumizhaki_ruler(14).plan},           {"n3_t7", fumizhaki_ruler(3).plan},
        {"n16_t256", fumizhaki_straight(16, 256).plan},   {"n16_t512", fumizhaki_straight(16, 512).plan},
        {"n16_t1024", fumizhaki_straight(16, 1024).plan}};
    if (argc == 4) {
        call_only(sizes, ALL_SIZES, argv);
        return 0;
    }
    cpu_set_t core;
    CPU_ZERO(&core);
    CPU_SET(sched_getcpu(), &core);
    sched_setaffinity(0, sizeof core, &core);
    setvbuf(stdout, NULL, _IOLBF, 0);
    compare_random();
    for (int i = 0; i < ALL_SIZES; i++)
        for (int k = 0; k < KINDS; k++) {
            input *in = &at[i][k].in;
            prepare(in, &sizes[i].plan, (kind)k, name_of(&sizes[i], k));
            for (size_t m = 0; m < in->patterns; m++)
                if (compare(in, m, name_of(&sizes[i], k)) != expected((kind)k)) fail("not the expected answer", name_of(&sizes[i], k));
        }
    for (int pass = 0; pass < PASSES; pass++)
        for (int i = 0; i < ALL_SIZES; i++)
            for (int k = 0; k < KINDS; k++) measure(&at[i][k]);
    print_results(sizes);
    for (int i = 0; i < SIZES; i++) scale(&sizes[i]);
    return 0;
}
