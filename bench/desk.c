/* The rival of the desk: a job on standard input, its sheet on standard output (document 01, "The job and its sheet"; 0D by 02), written by hand in C.
   One loop and a switch; recovery and sealing are the rival's. Same sheets as crates/desk, to the byte. */
#include "rival.h"
#include <stdbool.h>
#include <stdlib.h>
#include <string.h>
#include <unistd.h>

enum { SIZE = 1, SHIFT = 2, CROSSED = 5, COMMAND = 7, SHORT = 8, EARLY = 9, FAMILY = 10 };
enum { MAX_PLACES = 32768, MAX_ROWS = 4096 };
/* Bytes read at once; bytes of the sheet that may wait, and more than the longest line: a word, a count and 31,744 numbers, 179,366 bytes. */
enum { INPUT = 65536, SHEET = 65536, LINE = 196624 };
/* The longest command, and so one byte more than may be left over before a read. */
enum { LONGEST = 6 };

/* Kept out of the loop, so that its pointers stay in registers. */
#define ALONE __attribute__((noinline))

/* Bytes of each command, the first one among them. */
static const uint8_t length_of[14] = {0, 4, 4, 4, 3, 5, 1, 1, 3, 1, 4, 6, 2, 1};

static const uint16_t ruler_t[15] = {[3] = 7, 13, 21, 31, 48, 57, 73, 91, 120, 133, 168, 183};
static const uint8_t ruler_shifts[15][14] = {[3] = {0, 1, 3},
                                             {0, 1, 3, 9},
                                             {4, 0, 1, 14, 16},
                                             {0, 1, 3, 8, 12, 18},
                                             {0, 1, 3, 15, 20, 38, 42},
                                             {13, 36, 32, 1, 3, 43, 0, 52},
                                             {0, 1, 3, 7, 15, 31, 36, 54, 63},
                                             {61, 77, 81, 49, 3, 9, 27, 56, 1, 0},
                                             {45, 58, 35, 114, 1, 20, 3, 74, 31, 0, 53},
                                             {0, 1, 3, 12, 20, 38, 34, 81, 94, 88, 104, 109},
                                             {1, 0, 121, 108, 103, 30, 11, 162, 83, 46, 3, 34, 147},
                                             {0, 1, 3, 16, 23, 28, 42, 76, 82, 86, 119, 137, 154, 175}};

static fumizhaki_plan plan;
static size_t places; /* 0 as long as there is no plan, so that every place is outside it */
static _Alignas(64) uint8_t block[MAX_PLACES], message[MAX_PLACES];
static _Alignas(64) uint8_t marks[MAX_PLACES / 8 + 8]; /* eight more, so that a word can be taken at every byte */
static uint16_t witness[MAX_ROWS];
static _Alignas(64) uint8_t input[64 + INPUT]; /* what is left of a command is kept in front of the next part */
static char sheet[SHEET + LINE];

/* ---- the sheet ---- */

/* Writes what waits. A sheet that cannot be written stays incomplete. */
static char *flush(char *out) {
    for (char *from = sheet; from < out;) {
        ssize_t put = write(1, from, (size_t)(out - from));
        if (put <= 0) exit(0);
        from += put;
    }
    return sheet;
}

static inline char *put_word(char *out, const char *word, size_t length) {
    memcpy(out, word, length);
    return out + length;
}
#define PUT(out, word) put_word(out, word, sizeof word - 1)

/* A space and a number below 100,000. All five digits stand in one word, the first one lowest; leading zeros are shifted out, with no branch to guess. */
static inline char *put_small(char *out, uint32_t x) {
    uint32_t high = x / 100, a = x / 10000, b = high % 100, c = x - high * 100;
    uint32_t b1 = b * 103 >> 10, c1 = c * 103 >> 10; /* tenths of a number below 100 */
    uint64_t digits = a | b1 << 8 | (b - 10 * b1) << 16 | c1 << 24 | (uint64_t)(c - 10 * c1) << 32;
    unsigned leading = (x < 10000) + (x < 1000) + (x < 100) + (x < 10);
    digits = (digits | UINT64_C(0x3030303030)) >> 8 * leading;
    *out++ = ' ';
    memcpy(out, &digits, 8); /* x86-64: lowest byte first; what is too much is written over */
    return out + 5 - leading;
}

/* A symbol has 256 values; each one's text, its space in front, stands in a table with its length. */
static char value_text[256][5];

static void make_values(void) {
    for (uint32_t v = 0; v < 256; v++) {
        char text[16];
        value_text[v][4] = (char)(put_small(text, v) - text);
        memcpy(value_text[v], text, 4);
    }
}

static inline char *put_value(char *out, uint8_t v) {
    memcpy(out, value_text[v], 4);
    return out + value_text[v][4];
}

/* A space and any number. */
static char *put_number(char *out, uint64_t x) {
    char digits[20];
    size_t i = sizeof digits;
    do digits[--i] = (char)('0' + x % 10);
    while ((x /= 10) != 0);
    *out++ = ' ';
    return put_word(out, digits + i, sizeof digits - i);
}

static inline char *finish(char *out) {
    *out++ = '\n';
    return out - sheet > SHEET ? flush(out) : out;
}

/* ---- plans ---- */

static uint32_t gcd(uint32_t a, uint32_t b) {
    while (b != 0) {
        uint32_t r = a % b;
        a = b;
        b = r;
    }
    return a;
}

static uint32_t apart(uint32_t a, uint32_t b) {
    return a < b ? b - a : a - b;
}

static bool good_size(size_t n, size_t t) {
    return 2 <= n && n <= 32 && 1 <= t && t <= 2048 && n * t <= MAX_PLACES;
}

/* A new plan, its shifts 0. */
static ALONE void begin(size_t n, size_t t) {
    memset(&plan, 0, sizeof plan);
    plan.n = n;
    plan.t = t;
    places = n * t;
    memset(block, 0, places);
    memset(marks, 0, (places + 63) / 64 * 8); /* whole words, as they are counted */
}

static ALONE uint8_t straight(size_t n, size_t t) {
    if (!good_size(n, t)) return SIZE;
    if (t < n) return FAMILY;
    begin(n, t);
    for (size_t j = 0; j < n; j++) plan.shifts[j] = (uint16_t)j;
    return 0;
}

static ALONE uint8_t powers(size_t n, size_t t, uint32_t q) {
    if (!good_size(n, t)) return SIZE;
    if (n < 3 || t < n || q < 2 || gcd((uint32_t)t, q) != 1 || gcd((uint32_t)t, q - 1) != 1) return FAMILY;
    begin(n, t);
    size_t p = 1;
    for (size_t j = 0; j < n; j++, p = p * q % t) plan.shifts[j] = (uint16_t)p;
    return 0;
}

static ALONE uint8_t ruler(size_t n) {
    if (n < 2 || 32 < n) return SIZE;
    if (n < 3 || 14 < n) return FAMILY;
    begin(n, ruler_t[n]);
    for (size_t j = 0; j < n; j++) plan.shifts[j] = ruler_shifts[n][j];
    return 0;
}

/* ---- commands with a line ---- */

static size_t marked(void) {
    size_t count = 0;
    for (size_t i = 0; i < (places + 7) / 8; i += 8) {
        uint64_t word;
        memcpy(&word, marks + i, 8);
        if (word != 0) count += (size_t)__builtin_popcountll(word);
    }
    return count;
}

static ALONE char *recover(char *out) {
    size_t count;
    uint8_t answer = rival_recover(&plan, block, places, marks, (places + 7) / 8, witness, 2 * plan.t, &count);
    if (answer == 0) {
        out = put_small(PUT(out, "recovered"), (uint32_t)marked());
        memset(marks, 0, (places + 7) / 8);
        return finish(out);
    }
    out = answer == CROSSED ? PUT(out, "crossed") : PUT(out, "loose");
    out = put_small(out, (uint32_t)count);
    for (size_t i = 0; i < count; i++) out = put_small(out, witness[i]);
    return finish(out);
}

/* The data places are the first ones of each section, as many as the divisor of the sections behind it leaves. */
static ALONE char *seal(char *out) {
    size_t t = plan.t, count = 0, run[32];
    uint32_t divisor = (uint32_t)t, last = plan.shifts[plan.n - 1];
    run[plan.n - 1] = 0;
    for (size_t j = plan.n - 1; j-- > 0;) {
        uint32_t g = gcd(divisor, apart(plan.shifts[j], last));
        run[j] = t - divisor + g;
        divisor = g;
    }
    for (size_t j = 0; j < plan.n; j++) {
        memcpy(message + count, block + j * t, run[j]);
        count += run[j];
    }
    rival_encode(&plan, message, count, block, places);
    memset(marks, 0, (places + 7) / 8);
    return finish(put_small(PUT(out, "sealed"), (uint32_t)count));
}

/* The ruler rule: no difference of two shifts comes twice. */
static bool all_distinct(void) {
    bool seen[2048] = {false};
    for (size_t i = 0; i < plan.n; i++)
        for (size_t j = 0; j < plan.n; j++) {
            size_t d = plan.shifts[i] + plan.t - plan.shifts[j];
            d -= d < plan.t ? 0 : plan.t;
            if (i != j && seen[d]) return false;
            seen[d] |= i != j;
        }
    return true;
}

static ALONE char *figures(char *out) {
    uint32_t t = (uint32_t)plan.t, divisor = t, most = 1, most_near = 1;
    for (size_t i = 0; i < plan.n; i++) {
        divisor = gcd(divisor, apart(plan.shifts[i], plan.shifts[0]));
        for (size_t j = i + 1; j < plan.n; j++) {
            uint32_t g = gcd(t, apart(plan.shifts[i], plan.shifts[j]));
            if (most < g) most = g;
            if ((j == i + 1 || (i == 0 && j == plan.n - 1)) && most_near < g) most_near = g;
        }
    }
    uint32_t pair = 2 * t / most - 1, near = 2 * t / most_near - 1;
    uint32_t distance = plan.n == 2 ? pair + 1 : most == t ? 2 : all_distinct() ? 6 : 4;
    out = put_small(put_small(PUT(out, "figures"), 2 * t - divisor), pair);
    return finish(put_small(put_small(out, near), distance));
}

static inline size_t root(uint16_t *parent, size_t r) {
    while (parent[r] != r) r = parent[r] = parent[parent[r]];
    return r;
}

/* From the highest marked place down: one whose rows are joined already is the lowest of a ring. The list fills from its end, so it rises. */
static ALONE char *fetch(char *out) {
    static uint16_t parent[MAX_ROWS], list[MAX_PLACES];
    size_t t = plan.t, first = MAX_PLACES, c = places;
    for (size_t r = 0; r < 2 * t; r++) parent[r] = (uint16_t)r;
    for (size_t j = plan.n; j-- > 0;)
        for (size_t k = t, p = plan.shifts[j]; k-- > 0;) {
            c--;
            if (!(marks[c / 8] >> c % 8 & 1)) continue;
            size_t a = root(parent, k), b = root(parent, t + (k < p ? k + t - p : k - p));
            if (a == b) list[--first] = (uint16_t)c;
            parent[a] = (uint16_t)b;
        }
    out = put_small(PUT(out, "fetch"), (uint32_t)(MAX_PLACES - first));
    for (size_t i = first; i < MAX_PLACES; i++) out = put_small(out, list[i]);
    return finish(out);
}

/* Marks m places from c on: a short run in one word, a long one with whole bytes in the middle. */
static inline void mark_run(size_t c, size_t m) {
    uint8_t *at = marks + c / 8;
    if (m <= 56) {
        uint64_t word;
        memcpy(&word, at, 8);
        word |= ((UINT64_C(1) << m) - 1) << c % 8;
        memcpy(at, &word, 8);
        return;
    }
    size_t end = c + m;
    *at |= (uint8_t)(255 << c % 8);
    memset(at + 1, 255, end / 8 - c / 8 - 1);
    marks[end / 8] |= (uint8_t)((1 << end % 8) - 1);
}

/* ---- the loop ---- */

static inline size_t word_at(const uint8_t *at) {
    return (size_t)(at[0] | at[1] << 8);
}

int main(void) {
    const uint8_t *at = input + 64, *end = at;
    uint64_t before = 0; /* offset in the job of the first byte behind the 64 */
    char *out = sheet;
    uint8_t refusal = 0;
    bool last = false;
    make_values();
    for (;;) {
        /* A command is performed as soon as it is whole; only else is more read, and the lines so far are written before. */
        while (__builtin_expect((size_t)(end - at) < LONGEST, 0)) {
            size_t left = (size_t)(end - at);
            if (left > 0 && (*at == 0 || 13 < *at || length_of[*at] <= left)) break;
            if (last && left > 0) {
                refusal = SHORT;
                goto refused;
            }
            if (last) {
                flush(finish(PUT(out, "end")));
                return 0;
            }
            out = flush(out);
            before += (uint64_t)(end - input - 64);
            memmove(input + 64 - left, at, left);
            at = input + 64 - left;
            ssize_t got = read(0, input + 64, INPUT);
            if (got < 0) return 0;
            last = got == 0;
            end = input + 64 + got;
        }
        size_t c;
        switch (*at) {
        case 0x01:
            if (!good_size(at[1], word_at(at + 2))) {
                refusal = SIZE;
                goto refused;
            }
            begin(at[1], word_at(at + 2));
            at += 4;
            break;
        case 0x02:
            if (places == 0 || plan.n <= at[1]) goto early;
            if (plan.t <= word_at(at + 2)) {
                refusal = SHIFT;
                goto refused;
            }
            plan.shifts[at[1]] = (uint16_t)word_at(at + 2);
            at += 4;
            break;
        case 0x03:
            c = word_at(at + 1);
            if (places <= c) goto early;
            block[c] = at[3];
            marks[c / 8] &= (uint8_t) ~(1 << c % 8);
            at += 4;
            break;
        case 0x04:
            c = word_at(at + 1);
            if (places <= c) goto early;
            marks[c / 8] |= (uint8_t)(1 << c % 8);
            at += 3;
            break;
        case 0x05:
            c = word_at(at + 1);
            if (places == 0 || places < c + word_at(at + 3)) goto early;
            mark_run(c, word_at(at + 3));
            at += 5;
            break;
        case 0x06:
            if (places == 0) goto early;
            out = recover(out);
            at += 1;
            break;
        case 0x07:
            if (places == 0) goto early;
            out = seal(out);
            at += 1;
            break;
        case 0x08:
            c = word_at(at + 1);
            if (places <= c) goto early;
            out = finish(put_value(put_small(PUT(out, "symbol"), (uint32_t)c), block[c]));
            at += 3;
            break;
        case 0x09:
            if (places == 0) goto early;
            out = figures(out);
            at += 1;
            break;
        case 0x0A:
            refusal = straight(at[1], word_at(at + 2));
            if (refusal) goto refused;
            at += 4;
            break;
        case 0x0B:
            refusal = powers(at[1], word_at(at + 2), (uint32_t)word_at(at + 4));
            if (refusal) goto refused;
            at += 6;
            break;
        case 0x0C:
            refusal = ruler(at[1]);
            if (refusal) goto refused;
            at += 2;
            break;
        case 0x0D:
            if (places == 0) goto early;
            out = fetch(out);
            at += 1;
            break;
        default:
            refusal = COMMAND;
            goto refused;
        }
    }
early:
    refusal = EARLY;
refused:
    out = put_number(put_number(PUT(out, "refused"), refusal), before + (uint64_t)(at - input) - 64);
    flush(finish(out));
    return 0;
}
