/*
 * A message is sent and comes back damaged. To build and run it from the repository's root folder:
 *   (cd crates/sharqudel && rt lib)
 *   mkdir -p target
 *   gcc -std=c99 -Iinclude examples/trip.c crates/sharqudel/out/libsharqudel.a -o target/trip && target/trip
 */
#include <inttypes.h>
#include <stdio.h>

#include "sharqudel.h"

enum { H = 2, M = 4, N = 1 << M }; /* four phases, sixteen carriers */

static void show(const char *name, const uint8_t *word)
{
    printf("%s ", name);
    for (size_t i = 0; i < N; i++)
        printf("%d", word[i]);
    printf("\n");
}

/* Prints the number of a refusal, and its place if it has one. */
static int refused(uint32_t kind, size_t place)
{
    printf("refused %" PRIu32, kind);
    if (kind == SHARQUDEL_SYMBOL || kind == SHARQUDEL_VALUE)
        printf(" at place %zu", place);
    printf("\n");
    return 1;
}

int main(void)
{
    uint8_t word[N], other[N];
    uint64_t message;
    uint32_t kind, distance, which;
    size_t place = 0;
    bool pair, tied;

    if ((kind = sharqudel_encode(H, M, 5120, word, N)) || (kind = sharqudel_partner(H, M, 5120, other, N)))
        return refused(kind, place);
    show("word   ", word);
    show("partner", other);
    if ((kind = sharqudel_check(H, M, word, N, other, N, &pair, &place, &which)))
        return refused(kind, place);
    printf("a Golay pair: %s\n", pair ? "yes" : "no");

    /* what a receiver hears of the word: 1, j, -1, -j at a level of 1,000 */
    static const int16_t phase[4][2] = {{1000, 0}, {0, 1000}, {-1000, 0}, {0, -1000}};
    int16_t heard[2 * N];
    int32_t correlation;
    for (size_t i = 0; i < N; i++) {
        heard[2 * i] = phase[word[i]][0];
        heard[2 * i + 1] = phase[word[i]][1];
    }
    if ((kind = sharqudel_soft(H, M, heard, 2 * N, &message, &correlation, &tied)))
        return refused(kind, place);
    printf("soft: message %" PRIu64 ", correlation %" PRId32 "%s\n", message, correlation, tied ? ", tied" : "");

    word[3] = 3;
    show("damaged", word);
    if ((kind = sharqudel_read(H, M, word, N, &message, &place)))
        refused(kind, place);
    if ((kind = sharqudel_hard(H, M, word, N, &message, &distance, &tied, &place)))
        return refused(kind, place);
    printf("hard: message %" PRIu64 ", distance %" PRIu32 "%s\n", message, distance, tied ? ", tied" : "");
    word[5] = 4;
    if ((kind = sharqudel_hard(H, M, word, N, &message, &distance, &tied, &place)))
        refused(kind, place);

    int32_t first[4] = {1, 2, 3, 4}, second[4] = {0};
    uint32_t area;
    if ((kind = sharqudel_transform(2, first, 4, second, 4, &area, &place)))
        return refused(kind, place);
    const int32_t *part = area == 1 ? first : second;
    printf("spectrum %d %d %d %d\n", part[0], part[1], part[2], part[3]);
    first[2] = 40000;
    if ((kind = sharqudel_refusal(2, first, 4, second, 4, &place)))
        refused(kind, place);
    return 0;
}
