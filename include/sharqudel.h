/*
 * Sharqudel for C: turns message numbers into carrier words and received words back into message numbers, after Davis
 * and Jedwab (1999). `rt lib`, in the folder crates/sharqudel, writes the archive out/libsharqudel.a there. From the C
 * library the archive needs only memcpy and memset.
 *
 * Shape. h is 1 to 3, and there are 2^h phases; m is 2 to 5, and a word has N = 2^m places. A symbol is a number below
 * 2^h.
 *
 * Words of messages. Place i is written x_1 .. x_m in binary, x_1 the most significant digit. A path is an order p of
 * 1 .. m with p(1) < p(m). Paths are numbered from 0 in dictionary order, and the first 2^w are in use, w = 0, 1, 3, 5
 * for m = 2, 3, 4, 5. A message number has w + h(m+1) bits: the path number highest, then c_1 to c_m, then c lowest,
 * each of these in h plain binary bits. Path number, c_1 to c_m and c are its label; labels are in order by the first
 * of these that differs. The word of a message has at each place, modulo 2^h, the symbol
 *   2^(h-1) (x_p(1) x_p(2) + .. + x_p(m-1) x_p(m)) + c_1 x_1 + .. + c_m x_m + c,
 * and its partner has 2^(h-1) x_p(1) more.
 *
 * Answers. Each function returns 0, or the number of a refusal (see below). Results are written through the last
 * pointers, and only if the function returns 0. If it returns a refusal that has a place (SHARQUDEL_SYMBOL or
 * SHARQUDEL_VALUE), it writes the place, and sharqudel_check then also writes which word. Nothing else is written: a
 * call that refuses leaves every other result, and every word, output and area, as it was.
 * Refusals are checked in this order: shape, octary, length, then the content.
 *
 * What the caller must ensure. A pointer that has a length points to that many elements, aligned for their type; it may
 * be null if the length is 0. A pointer to a result is never null. Memory that a call may write (outputs, areas,
 * results) does not overlap anything else that is passed to the call; memory that is only read may overlap.
 *
 * What the library guarantees. A call reads and writes nothing outside the given lengths and keeps no pointer. It uses
 * no memory but the stack, about 20 KB when decoding. Calls on different memory may run on different threads at the
 * same time. The answer, and the contents of every result, output and area after the call, are proved for every h, m,
 * length and content.
 */
#ifndef SHARQUDEL_H
#define SHARQUDEL_H

#include <stdbool.h>
#include <stddef.h>
#include <stdint.h>

#ifdef __cplusplus
extern "C" {
#endif

/* Why a call refuses. */
enum {
    SHARQUDEL_SHAPE = 1,   /* h or m is out of range */
    SHARQUDEL_LENGTH = 2,  /* wrong length of a word, output or soft slice for this shape, or an area shorter than N */
    SHARQUDEL_SYMBOL = 3,  /* a symbol is 2^h or more; place is the first such place, counted from 0 */
    SHARQUDEL_MESSAGE = 4, /* message number too large for this shape */
    SHARQUDEL_NO_WORD = 5, /* only in reading: no message has this word */
    SHARQUDEL_OCTARY = 6,  /* soft or hard decoding with h = 3 */
    SHARQUDEL_VALUE = 7    /* a transform input is outside -32768..32767; place is the first such place, from 0 */
};

/*
 * Writes the N symbols of the message's word to out, which must have exactly N places.
 * Refuses SHAPE, LENGTH, MESSAGE.
 */
uint32_t sharqudel_encode(uint32_t h, uint32_t m, uint64_t message, uint8_t *out, size_t out_length);

/* Writes the N symbols of the partner of the message's word to out. Refuses as sharqudel_encode does. */
uint32_t sharqudel_partner(uint32_t h, uint32_t m, uint64_t message, uint8_t *out, size_t out_length);

/*
 * Writes to pair whether two words of N symbols are a Golay pair: for each shift u from 1 to N - 1 and each phase k, as
 * many places i of both words together have symbol i minus symbol i + u equal to k, modulo 2^h, as have it equal to
 * k + 2^(h-1).
 * Refuses SHAPE, LENGTH (either word), SYMBOL. For SYMBOL it writes to place the first bad place of the first word, or
 * of the second if the first word has none, and to which the number of that word, 1 or 2.
 */
uint32_t sharqudel_check(uint32_t h, uint32_t m, const uint8_t *first, size_t first_length, const uint8_t *second,
                         size_t second_length, bool *pair, size_t *place, uint32_t *which);

/* Writes the message whose word is exactly these N symbols. Refuses SHAPE, LENGTH, SYMBOL, NO_WORD. */
uint32_t sharqudel_read(uint32_t h, uint32_t m, const uint8_t *word, size_t word_length, uint64_t *message,
                        size_t *place);

/*
 * Soft decoding, h = 1 or 2. Writes the message whose word has the greatest correlation with the values, that
 * correlation, and whether another message's word has the same; among equals the earliest label wins. All 16-bit values
 * are allowed. h = 1: N values, symbol 0 positive, symbol 1 negative. h = 2: 2N values, the real and then the imaginary
 * part of each place, symbols 0, 1, 2, 3 at 1, j, -1, -j. Refuses SHAPE, OCTARY, LENGTH.
 */
uint32_t sharqudel_soft(uint32_t h, uint32_t m, const int16_t *values, size_t values_length, uint64_t *message,
                        int32_t *correlation, bool *tied);

/*
 * Hard decoding, h = 1 or 2. Writes the message whose word is nearest to the symbols, its distance, and whether another
 * message's word is as near; among equals the earliest label wins. The distance is the number of places that differ for
 * h = 1, and the Lee distance for h = 2: the sum of the smaller of d and 4 - d, d being the difference modulo 4.
 * Refuses SHAPE, OCTARY, LENGTH, SYMBOL.
 */
uint32_t sharqudel_hard(uint32_t h, uint32_t m, const uint8_t *word, size_t word_length, uint64_t *message,
                        uint32_t *distance, bool *tied, size_t *place);

/*
 * Transforms the first N entries of the first area, using two areas of at least N entries each. Entry j of the spectrum
 * is the sum of the entries y_i, negated where the binary digits of i and j share an odd number of ones. The spectrum
 * is not copied: it is the first N entries of the area whose number is written to area, 1 (the first) for even m and 2
 * (the second) for odd m. The other area holds what there was before the last stage. Entries from N on stay as they
 * were.
 * Refuses SHAPE (m alone), LENGTH, VALUE. For VALUE it writes to place the first of the N entries of the first area
 * that is out of range.
 */
uint32_t sharqudel_transform(uint32_t m, int32_t *first, size_t first_length, int32_t *second, size_t second_length,
                             uint32_t *area, size_t *place);

/* Returns the refusal that sharqudel_transform would give for these areas as they are, or 0. Only reads both areas. */
uint32_t sharqudel_refusal(uint32_t m, const int32_t *first, size_t first_length, const int32_t *second,
                           size_t second_length, size_t *place);

#ifdef __cplusplus
}
#endif

#endif
