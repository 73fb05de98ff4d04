/*
 * Fumizhaki: recovery of erased symbols in the blocks of a card recorder.
 *
 * The library is crates/capi/out/libcapi.a, for x86-64 Linux, made by `rt lib` in crates/capi. It is proved: what
 * each function promises is its contract in crates/capi/src/lib.rt, with the definitions of
 * crates/numbers/specs/Entries.antt, and Meanings.antt beside it says it number by number. The declarations below are
 * written by hand beside that crate, and the comments say the same in words; numbers and rules are document 01's.
 *
 * A block has n sections of t symbols; a symbol is a byte. Place c = j * t + k is symbol k of section j. It meets two
 * rows: top row k, and bottom row t + ((k - shifts[j]) mod t). A codeword is a block in which the symbols of every
 * row add up to 0 by exclusive or.
 *
 * Lengths, in elements, of a plan with n and t:
 *     block    n * t
 *     marks    (n * t + 7) / 8    place c is bit c % 8, lowest first, of byte c / 8; spare bits of the last byte are 0
 *     list     (n * t + 7) / 8    mark bits as well; what stands there before a call is no matter
 *     witness  2 * t
 *     message  what fumizhaki_message_count gives: at least 1, at most 31,744
 *
 * Answers:
 *     0   done
 *     1   size       n, t or n * t out of bounds: n from 2 to 32, t from 1 to 2,048, n * t at most 32,768
 *     2   shift      not n shifts, or one is t or more
 *     3   length     the length of a buffer is not the plan's
 *     4   spare      a spare mark bit is 1
 *     5   crossed    no codeword agrees
 *     6   loose      two or more codewords agree
 *     10  family     the family has no such plan
 * The first of 1, 2, 3, 4 that holds is given, and after it every buffer is as it was. 10 follows 1; 5 and 6 follow the
 * others.
 *
 * What a caller owes. A pointer with a length points to that many elements, which may be read and, where it is not
 * const, written until the call returns; with length 0 it may be NULL (no plan has an empty buffer, so such a call is
 * refused). An out parameter points to one size_t; it is written in every case. Nothing overlaps: what a call writes
 * is reached through one of its arguments only. For the rest any content is taken: each call tests its plan, its
 * lengths and its marks, and nothing outside what it is lent is read or written.
 *
 * No function keeps a state, allocates memory or waits: calls on different buffers may run at the same time in
 * different threads. As compiled with rattle-kit-5b, fumizhaki_recover takes about 34 KB of stack, fumizhaki_encode
 * about 43 KB and fumizhaki_fetch about 8 KB.
 */
#ifndef FUMIZHAKI_H
#define FUMIZHAKI_H

#include <stddef.h>
#include <stdint.h>

#ifdef __cplusplus
extern "C" {
#endif

/* A plan: n sections of t symbols, section j with shift shifts[j]. Entries past the first n influence nothing. */
typedef struct fumizhaki_plan {
    size_t n;
    size_t t;
    uint16_t shifts[32];
} fumizhaki_plan;

/* What a constructor answers: 0 and the plan, or a refusal and a plan that is all zeros, which every function refuses
   as size. */
typedef struct fumizhaki_made {
    uint8_t answer;
    fumizhaki_plan plan;
} fumizhaki_made;

/* The plan of these shifts; the entries past them are 0. Answers 0; 1; 2, also where shifts_length is not n. */
fumizhaki_made fumizhaki_plan_of(size_t n, size_t t, const uint16_t *shifts, size_t shifts_length);

/* shifts[j] = j; needs n at most t. Answers 0; 1; 10. */
fumizhaki_made fumizhaki_straight(size_t n, size_t t);

/* shifts[j] = q to the j, mod t; needs n from 3 to t, q at least 2, and t sharing no factor with q nor with q - 1.
   Answers 0; 1; 10. */
fumizhaki_made fumizhaki_powers(size_t n, size_t t, size_t q);

/* The ruler of n sections, with t and shifts from the table; needs n from 3 to 14. Answers 0; 1 where n is not from 2
   to 32; 10 for the others. */
fumizhaki_made fumizhaki_ruler(size_t n);

/* What refuses the plan: 0 where nothing does; 1; 2. */
uint8_t fumizhaki_verdict(fumizhaki_plan plan);

/* The number of message places, n * t - (2 * t - g), g being the greatest common divisor of t and all
   shifts[j] - shifts[0]. Answers 0; 1; 2. *count is 0 after 1 and 2. */
uint8_t fumizhaki_message_count(fumizhaki_plan plan, size_t *count);

/* The plan's figures. Answers 0; 1; 2. All four are 0 after 1 and 2.
     parity     the number of check places, 2 * t - g
     pair       the least of 2 * t / gcd(shifts[i] - shifts[j], t) - 1 over all pairs of sections: so many marked
                places inside two sections are never loose
     neighbour  the same over neighbouring sections: j and j + 1, and for n of 3 or more also n - 1 and 0
     distance   the least number of nonzero symbols in a nonzero codeword */
uint8_t fumizhaki_figures(fumizhaki_plan plan, size_t *parity, size_t *pair, size_t *neighbour, size_t *distance);

/* The number of marked places, counted from the bits. Answers 0; 1; 2; 3; 4. *count is 0 after 1 to 4. */
uint8_t fumizhaki_erasure_count(fumizhaki_plan plan, const uint8_t *marks, size_t marks_length, size_t *count);

/* Fills in the marked places of the block. A codeword agrees if it equals the block at every unmarked place; what
   stands at marked places influences nothing.
     0  Exactly one codeword agrees, and the block is now that codeword. witness is all zeros, *count is 0.
     5  None agrees; the block is kept. Two rows are joined if a chain of marked places leads from one to the other. Of
        the joined groups whose rows, over the unmarked places, do not add up to 0, witness has the one with the lowest
        row: all its rows, rising, then zeros; *count is their number. Whatever is put at the marked places, one of
        these rows does not add up to 0.
     6  Two or more agree; the block is kept. witness has a ring of marked places, from its lowest place on, then
        zeros; *count is its number of places. Neighbours in the list share a top row and a bottom row in turn, the
        last and the first a bottom row, and no row is passed twice. Of several rings it is the one whose lowest place is
        highest.
     1; 2; 3; 4  Block and witness are kept, *count is 0. */
uint8_t fumizhaki_recover(fumizhaki_plan plan, uint8_t *block, size_t block_length, const uint8_t *marks,
                          size_t marks_length, uint16_t *witness, size_t witness_length, size_t *count);

/* The fetch list: the marked places that are the lowest of some ring of marked places, as mark bits of its own. The bit
   of each of them is 1, every other bit of list is 0, spare bits too; *count is their number. Without their marks no
   ring is left, and no set of fewer places does that. Symbols play no part. Answers 0; 1; 2; 3; 4. Every answer but 0
   keeps the list, and *count is 0. */
uint8_t fumizhaki_fetch(fumizhaki_plan plan, const uint8_t *marks, size_t marks_length, uint8_t *list,
                        size_t list_length, size_t *count);

/* Writes to block the one codeword that carries the message: its symbols at the message places, in rising order, are
   the message. There is one for every message. Answers 0; 1; 2; 3. Every answer but 0 keeps the block. */
uint8_t fumizhaki_encode(fumizhaki_plan plan, const uint8_t *message, size_t message_length, uint8_t *block,
                         size_t block_length);

/* Writes to message the message that the block carries; takes no marks. Answers 0; 1; 2; 3; 5 where the block is no
   codeword. Every answer but 0 keeps the message buffer. */
uint8_t fumizhaki_message_of(fumizhaki_plan plan, const uint8_t *block, size_t block_length, uint8_t *message,
                             size_t message_length);

#ifdef __cplusplus
}
#endif

#endif
