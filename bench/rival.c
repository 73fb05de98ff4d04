/* The rival: the algorithm of crates/recovery and crates/sealing, written by hand in C.
   Tables for each of the 2t rows (top rows first): the sum of the block's symbols, the number of erasures left, the exclusive or of their codes.
   Marked symbols stay in the sums: settling a place finds what must be added to it.
   The code of a place is section * 2048 + offset, so no division is needed to take it apart. */
#include "rival.h"
#include <stdbool.h>
#include <string.h>

enum { SIZE = 1, SHIFT, LENGTH, SPARE, CROSSED, LOOSE };
enum { MAX_ROWS = 4096 };

typedef struct {
    uint8_t sum[MAX_ROWS];
    uint8_t left[MAX_ROWS + 8]; /* at most n; zeros past the last row, so that eight can be looked at in one word */
    uint16_t code[MAX_ROWS];
} tables;

/* Refusals 1 and 2. */
static uint8_t check_plan(const fumizhaki_plan *plan) {
    size_t n = plan->n, t = plan->t;
    if (n < 2 || 32 < n || t < 1 || 2048 < t || 32768 < n * t) return SIZE;
    bool over = false;
    for (size_t j = 0; j < n; j++) over |= t <= plan->shifts[j];
    return over ? SHIFT : 0;
}

/* Bottom row of the place at offset k of a section with shift p. */
static inline size_t bottom(size_t t, size_t p, size_t k) {
    return k + t - p + (k < p ? t : 0);
}

static inline void xor_into(uint8_t *restrict into, const uint8_t *restrict from, size_t length) {
    for (size_t i = 0; i < length; i++) into[i] ^= from[i];
}

/* The sums of all rows over the whole block. The first section is copied, so that nothing need be cleared. */
static void sum_rows(const fumizhaki_plan *plan, const uint8_t *restrict block, uint8_t *restrict sum) {
    size_t n = plan->n, t = plan->t, p = plan->shifts[0];
    memcpy(sum, block, t);
    memcpy(sum + t, block + p, t - p);
    memcpy(sum + 2 * t - p, block, p);
    for (size_t j = 1; j < n; j++) {
        const uint8_t *section = block + j * t;
        p = plan->shifts[j];
        xor_into(sum, section, t);
        xor_into(sum + t, section + p, t - p);
        xor_into(sum + 2 * t - p, section, p);
    }
}

/* Eight bytes of marks from byte i on, zeros past the end. */
static inline uint64_t load_marks(const uint8_t *marks, size_t length, size_t i) {
    uint64_t word = 0;
    if (length - i >= 8)
        memcpy(&word, marks + i, 8);
    else
        memcpy(&word, marks + i, length - i);
    return word; /* x86-64: lowest byte first, as the marks are */
}

static inline void clear_counts(tables *rows, size_t t) {
    memset(rows->left, 0, 2 * t + 8);
    memset(rows->code, 0, 2 * t * sizeof rows->code[0]);
}

/* Puts the place into its two rows. */
static inline void note(tables *restrict rows, size_t r, uint16_t code) {
    rows->left[r]++;
    rows->code[r] ^= code;
}

/* Notes the marked places from place `first` on on their rows. Gives their number. */
static inline size_t note_marks(const fumizhaki_plan *plan, const uint8_t *restrict marks, size_t first, tables *restrict rows) {
    size_t t = plan->t, length = (plan->n * t + 7) / 8, found = 0;
    size_t j = 0, from = 0, end = t, p = plan->shifts[0];
    clear_counts(rows, t);
    for (size_t i = first / 64 * 8; i < length; i += 8) {
        uint64_t word = load_marks(marks, length, i);
        if (8 * i < first) word &= ~UINT64_C(0) << (first - 8 * i);
        for (; word != 0; word &= word - 1) {
            size_t c = 8 * i + (size_t)__builtin_ctzll(word);
            while (end <= c) {
                from = end;
                end += t;
                p = plan->shifts[++j];
            }
            size_t k = c - from, b = bottom(t, p, k);
            uint16_t code = (uint16_t)(j << 11 | k);
            note(rows, k, code);
            note(rows, b, code);
            found++;
        }
    }
    return found;
}

/* Settles places as long as some row has one erasure left; lists them with their values and gives their number. In long chains the next row nearly
   always enters the queue, and a branch lets the processor run ahead; in scattered erasures it would be guessed wrong, and the tail is better computed. */
static inline size_t drain(const fumizhaki_plan *plan, tables *restrict rows, uint16_t *restrict queue, size_t tail, uint16_t *restrict place,
                           uint8_t *restrict value, bool chains) {
    size_t t = plan->t, count = 0;
    for (size_t head = 0; head < tail; head++) {
        size_t r = queue[head];
        if (rows->left[r] != 1) continue;
        uint16_t code = rows->code[r];
        uint8_t x = rows->sum[r];
        size_t j = code >> 11, k = code & 2047;
        size_t other = r < t ? bottom(t, plan->shifts[j], k) : k;
        place[count] = (uint16_t)(j * t + k);
        value[count++] = x;
        rows->left[r] = 0;
        rows->code[r] = 0;
        rows->sum[r] = 0;
        rows->sum[other] ^= x;
        rows->code[other] ^= code;
        queue[tail] = (uint16_t)other;
        if (chains) {
            if (__builtin_expect(--rows->left[other] == 1, 1)) tail++;
        } else
            tail += --rows->left[other] == 1;
    }
    return count;
}

static size_t peel(const fumizhaki_plan *plan, tables *restrict rows, uint16_t *restrict place, uint8_t *restrict value) {
    uint16_t queue[MAX_ROWS + 1];
    size_t rows_count = 2 * plan->t, tail = 0;
    for (size_t r = 0; r < rows_count; r += 8) {
        uint64_t eight;
        memcpy(&eight, rows->left + r, 8);
        if (eight == 0) continue;
        for (size_t s = r; s < r + 8; s++) {
            queue[tail] = (uint16_t)s;
            tail += rows->left[s] == 1;
        }
    }
    return tail < rows_count / 16 ? drain(plan, rows, queue, tail, place, value, true) : drain(plan, rows, queue, tail, place, value, false);
}

static bool all_zero(const uint8_t *bytes, size_t length) {
    uint8_t any = 0;
    for (size_t i = 0; i < length; i++) any |= bytes[i];
    return any == 0;
}

static void fill(uint8_t *restrict block, const uint16_t *restrict place, const uint8_t *restrict value, size_t count) {
    for (size_t i = 0; i < count; i++) block[place[i]] ^= value[i];
}

/* The root of row r, by halving the way up. Parents never rise, so a root is the lowest row of its component. */
static inline size_t find(uint16_t *parent, size_t r) {
    for (size_t up; (up = parent[r]) < r;) {
        uint16_t over = parent[up];
        parent[r] = over;
        r = over;
    }
    return r;
}

/* Joins the rows of the marked places from the highest down. Gives the first place that closes a cycle, or -1; parents become labels. */
static long join(const fumizhaki_plan *plan, const uint8_t *marks, uint16_t *parent) {
    size_t t = plan->t, length = (plan->n * t + 7) / 8, j = plan->n - 1, from = j * t, p = plan->shifts[j];
    long closing = -1;
    for (size_t r = 0; r < 2 * t; r++) parent[r] = (uint16_t)r;
    for (size_t i = (length - 1) / 8 * 8 + 8; i > 0;) {
        i -= 8;
        for (uint64_t word = load_marks(marks, length, i); word != 0;) {
            size_t bit = 63 - (size_t)__builtin_clzll(word), c = 8 * i + bit;
            word ^= UINT64_C(1) << bit;
            while (c < from) {
                from -= t;
                p = plan->shifts[--j];
            }
            size_t a = find(parent, c - from), b = find(parent, bottom(t, p, c - from));
            if (a < b)
                parent[b] = (uint16_t)a;
            else if (b < a)
                parent[a] = (uint16_t)b;
            else if (closing < 0)
                closing = (long)c;
        }
    }
    for (size_t r = 0; r < 2 * t; r++) parent[r] = parent[parent[r]];
    return closing;
}

/* The rows of the lowest component whose sum is not 0, rising, then zeros; gives their number, 0 if there is none. */
static size_t crossed(size_t rows, const uint16_t *restrict parent, const uint8_t *restrict sum, uint16_t *restrict witness) {
    uint8_t total[MAX_ROWS];
    size_t root = 0, count = 0;
    memset(total, 0, rows);
    for (size_t r = 0; r < rows; r++) total[parent[r]] ^= sum[r];
    while (root < rows && total[root] == 0) root++;
    if (root == rows) return 0;
    memset(witness, 0, rows * sizeof witness[0]);
    for (size_t r = root; r < rows; r++)
        if (parent[r] == root) witness[count++] = (uint16_t)r;
    return count;
}

/* The cycle whose lowest place is c: peel the erasures from c on; each row then has two of the cycle's places, and its code gives one for the other. */
static size_t cycle(const fumizhaki_plan *plan, const uint8_t *marks, size_t c, tables *rows, uint16_t *place, uint8_t *value, uint16_t *witness) {
    size_t t = plan->t, count = 0;
    note_marks(plan, marks, c, rows);
    peel(plan, rows, place, value);
    memset(witness, 0, 2 * t * sizeof witness[0]);
    uint16_t first = (uint16_t)(c / t << 11 | c % t), code = first;
    do {
        size_t k = code & 2047;
        witness[count++] = (uint16_t)((code >> 11) * t + k);
        code ^= rows->code[k];
        size_t j = code >> 11;
        witness[count++] = (uint16_t)(j * t + k);
        code ^= rows->code[bottom(t, plan->shifts[j], k)];
    } while (code != first);
    return count;
}

uint8_t rival_recover(const fumizhaki_plan *plan, uint8_t *block, size_t block_length, const uint8_t *marks, size_t marks_length,
                      uint16_t *witness, size_t witness_length, size_t *count) {
    tables rows;
    uint16_t place[MAX_ROWS + 1];
    uint8_t value[MAX_ROWS + 1];
    *count = 0;
    uint8_t refusal = check_plan(plan);
    if (refusal) return refusal;
    size_t t = plan->t, places = plan->n * t;
    if (block_length != places || marks_length != (places + 7) / 8 || witness_length != 2 * t) return LENGTH;
    if (places % 8 != 0 && marks[places / 8] >> (places % 8) != 0) return SPARE;
    sum_rows(plan, block, rows.sum);
    size_t erased = note_marks(plan, marks, 0, &rows);
    size_t settled = peel(plan, &rows, place, value);
    if (settled == erased && all_zero(rows.sum, 2 * t)) {
        fill(block, place, value, settled);
        memset(witness, 0, 2 * t * sizeof witness[0]);
        return 0;
    }
    /* Peeling leaves the sum of each component as it was, so the sums after it serve as well. */
    uint16_t parent[MAX_ROWS];
    long closing = join(plan, marks, parent);
    *count = crossed(2 * t, parent, rows.sum, witness);
    if (*count) return CROSSED;
    *count = cycle(plan, marks, (size_t)closing, &rows, place, value, witness);
    return LOOSE;
}

/* The number of message places of each section, its first ones; gives their total. */
static size_t find_runs(const fumizhaki_plan *plan, uint16_t *run) {
    size_t t = plan->t, total = 0;
    uint32_t divisor = (uint32_t)t, last = plan->shifts[plan->n - 1];
    run[plan->n - 1] = 0;
    for (size_t j = plan->n - 1; j-- > 0;) {
        uint32_t g = divisor, p = plan->shifts[j], rest = p < last ? last - p : p - last;
        while (g != 1 && rest != 0) {
            uint32_t r = g % rest;
            g = rest;
            rest = r;
        }
        run[j] = (uint16_t)(t - divisor + g);
        total += run[j];
        divisor = g;
    }
    return total;
}

uint8_t rival_encode(const fumizhaki_plan *plan, const uint8_t *message, size_t message_length, uint8_t *block, size_t block_length) {
    tables rows;
    uint16_t place[MAX_ROWS + 1], run[32];
    uint8_t value[MAX_ROWS + 1];
    uint8_t refusal = check_plan(plan);
    if (refusal) return refusal;
    size_t n = plan->n, t = plan->t;
    if (block_length != n * t || message_length != find_runs(plan, run)) return LENGTH;
    clear_counts(&rows, t);
    for (size_t j = 0; j < n; j++) {
        uint8_t *section = block + j * t;
        memcpy(section, message, run[j]);
        memset(section + run[j], 0, t - run[j]);
        message += run[j];
        for (size_t k = run[j]; k < t; k++) {
            uint16_t code = (uint16_t)(j << 11 | k);
            note(&rows, k, code);
            note(&rows, bottom(t, plan->shifts[j], k), code);
        }
    }
    sum_rows(plan, block, rows.sum);
    fill(block, place, value, peel(plan, &rows, place, value));
    return 0;
}

uint8_t rival_message_of(const fumizhaki_plan *plan, const uint8_t *block, size_t block_length, uint8_t *message, size_t message_length) {
    uint8_t sum[MAX_ROWS];
    uint16_t run[32];
    uint8_t refusal = check_plan(plan);
    if (refusal) return refusal;
    size_t n = plan->n, t = plan->t;
    if (block_length != n * t || message_length != find_runs(plan, run)) return LENGTH;
    sum_rows(plan, block, sum);
    if (!all_zero(sum, 2 * t)) return CROSSED;
    for (size_t j = 0; j < n; j++) {
        memcpy(message, block + j * t, run[j]);
        message += run[j];
    }
    return 0;
}
