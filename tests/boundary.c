/*
 * What the C boundary promises beside the answers: a call touches nothing outside the lengths that it is given, accepts
 * a null pointer if the length is 0, and leaves each cell that it does not write as it was.
 * Slices touch pages that may be neither read nor written, at their front or at their back, so that one element too far
 * ends the program; while a call only reads, its slices are in pages that may not be written. Prints how many checks
 * passed and failed.
 */
#define _DEFAULT_SOURCE
#include <stdio.h>
#include <stdlib.h>
#include <string.h>
#include <sys/mman.h>
#include <unistd.h>

#include "sharqudel.h"

enum { MOST = 64 };

static int passed, failed;

static void ask(const char *what, bool holds)
{
    if (holds) {
        passed++;
    } else {
        failed++;
        printf("FAILED  %s\n", what);
    }
}

/* One page between two that are closed. */
struct room {
    char *front;
    size_t size;
};

static struct room room_of(void)
{
    size_t page = (size_t)sysconf(_SC_PAGESIZE);
    char *all = mmap(NULL, 3 * page, PROT_NONE, MAP_PRIVATE | MAP_ANONYMOUS, -1, 0);
    if (all == MAP_FAILED || mprotect(all + page, page, PROT_READ | PROT_WRITE) != 0) {
        perror("no closed pages");
        exit(2);
    }
    return (struct room){all + page, page};
}

/* Whether what stands in a room may be written. */
static void open_to(struct room room, bool writing)
{
    if (mprotect(room.front, room.size, writing ? PROT_READ | PROT_WRITE : PROT_READ) != 0) {
        perror("no page of its own");
        exit(2);
    }
}

/* Where size bytes stand against the page behind them, or against the page before them. */
static void *against(struct room room, size_t size, bool behind)
{
    return behind ? room.front + room.size - size : room.front;
}

/* The cells of all calls, set to what no call writes, and the same cells to compare with. */
struct cells {
    uint64_t message;
    size_t place;
    int32_t correlation;
    uint32_t distance, which, area;
    bool pair, tied;
};

static struct cells fresh(void)
{
    struct cells cells;
    memset(&cells, 0, sizeof cells);
    cells.message = 0x5555555555555555;
    cells.place = 0x5555;
    cells.correlation = -0x5555;
    cells.distance = cells.which = cells.area = 0x5555;
    cells.pair = cells.tied = true;
    return cells;
}

static bool same(struct cells a, struct cells b)
{
    return a.message == b.message && a.place == b.place && a.correlation == b.correlation && a.distance == b.distance &&
           a.which == b.which && a.area == b.area && a.pair == b.pair && a.tied == b.tied;
}

/* A null pointer with length 0: refused for its length, or before that for its shape, and nothing is written. */
static void nulls(uint32_t h, uint32_t m)
{
    struct cells c = fresh();
    bool known = h >= 1 && h <= 3 && m >= 2 && m <= 5;
    uint32_t word = known ? SHARQUDEL_LENGTH : SHARQUDEL_SHAPE;
    uint32_t decoded = known && h == 3 ? SHARQUDEL_OCTARY : word;
    uint32_t areas = m >= 2 && m <= 5 ? SHARQUDEL_LENGTH : SHARQUDEL_SHAPE;
    ask("encode of null", sharqudel_encode(h, m, 0, NULL, 0) == word);
    ask("partner of null", sharqudel_partner(h, m, 0, NULL, 0) == word);
    ask("check of null", sharqudel_check(h, m, NULL, 0, NULL, 0, &c.pair, &c.place, &c.which) == word);
    ask("read of null", sharqudel_read(h, m, NULL, 0, &c.message, &c.place) == word);
    ask("soft of null", sharqudel_soft(h, m, NULL, 0, &c.message, &c.correlation, &c.tied) == decoded);
    ask("hard of null", sharqudel_hard(h, m, NULL, 0, &c.message, &c.distance, &c.tied, &c.place) == decoded);
    ask("refusal of null", sharqudel_refusal(m, NULL, 0, NULL, 0, &c.place) == areas);
    ask("transform of null", sharqudel_transform(m, NULL, 0, NULL, 0, &c.area, &c.place) == areas);
    ask("cells after null", same(c, fresh()));
}

/* The refusal of a word of a length, all of one symbol; 0 where its content is right. */
static uint32_t due(uint32_t h, uint32_t m, size_t length, unsigned symbol)
{
    if (h < 1 || h > 3 || m < 2 || m > 5)
        return SHARQUDEL_SHAPE;
    if (length != (size_t)1 << m)
        return SHARQUDEL_LENGTH;
    return symbol >> h ? SHARQUDEL_SYMBOL : 0;
}

/* The same of decoding. */
static uint32_t due_decoded(uint32_t h, uint32_t m, size_t length, unsigned symbol)
{
    uint32_t kind = due(h, m, length, symbol);
    return h == 3 && kind != SHARQUDEL_SHAPE ? SHARQUDEL_OCTARY : kind;
}

static bool all_are(const uint8_t *word, size_t length, uint8_t symbol)
{
    for (size_t i = 0; i < length; i++)
        if (word[i] != symbol)
            return false;
    return true;
}

/* Words of a length against closed pages, all of one symbol: two for the pair check, one read and decoded. */
static void words(struct room one, struct room two, uint32_t h, uint32_t m, size_t length, uint8_t symbol, bool behind)
{
    uint8_t *first = against(one, length, behind), *second = against(two, length, behind);
    memset(first, symbol, length);
    memset(second, symbol, length);
    open_to(one, false);
    open_to(two, false);
    struct cells c = fresh(), d = fresh(), e = fresh(), right = fresh();
    uint32_t kind = due(h, m, length, symbol), no_word = kind ? kind : SHARQUDEL_NO_WORD;
    uint32_t decoded = due_decoded(h, m, length, symbol);
    ask("check", sharqudel_check(h, m, first, length, second, length, &c.pair, &c.place, &c.which) == kind);
    ask("read", sharqudel_read(h, m, first, length, &d.message, &d.place) == no_word);
    ask("hard", sharqudel_hard(h, m, first, length, &e.message, &e.distance, &e.tied, &e.place) == decoded);
    open_to(one, true);
    open_to(two, true);
    right.pair = kind != 0;
    right.place = kind == SHARQUDEL_SYMBOL ? 0 : right.place;
    right.which = kind == SHARQUDEL_SYMBOL ? 1 : right.which;
    ask("the cells of check", same(c, right));
    right = fresh();
    right.place = kind == SHARQUDEL_SYMBOL ? 0 : right.place;
    ask("the cells of read", same(d, right));
    right.place = decoded == SHARQUDEL_SYMBOL ? 0 : fresh().place;
    if (decoded == 0)
        ask("the cells of hard", e.message < 131072 && e.distance <= length && e.place == right.place);
    else
        ask("the cells of hard, refused", same(e, right));
}

/* An output of a length against closed pages: encode and partner of message 0, and of one that no shape has. */
static void outputs(struct room one, uint32_t h, uint32_t m, size_t length, bool behind)
{
    uint8_t *out = against(one, length, behind);
    uint32_t kind = due(h, m, length, 0), beyond = kind ? kind : SHARQUDEL_MESSAGE;
    memset(out, 200, length);
    ask("encode of 2^63", sharqudel_encode(h, m, UINT64_C(1) << 63, out, length) == beyond);
    ask("partner of 2^63", sharqudel_partner(h, m, UINT64_C(1) << 63, out, length) == beyond);
    ask("an output that is refused", all_are(out, length, 200));
    ask("encode", sharqudel_encode(h, m, 0, out, length) == kind);
    ask("what encode leaves", kind ? all_are(out, length, 200) : out[0] == 0 && out[length - 1] < 1 << h);
    memset(out, 200, length);
    ask("partner", sharqudel_partner(h, m, 0, out, length) == kind);
    ask("what partner leaves", kind ? all_are(out, length, 200) : out[0] == 0 && out[length - 1] < 1 << h);
}

static void values(struct room one, uint32_t h, uint32_t m, size_t length, bool behind)
{
    int16_t *heard = against(one, 2 * length, behind);
    for (size_t i = 0; i < length; i++)
        heard[i] = -32768;
    open_to(one, false);
    struct cells c = fresh();
    uint32_t kind = sharqudel_soft(h, m, heard, length, &c.message, &c.correlation, &c.tied);
    open_to(one, true);
    size_t places = h != 2 ? length : length % 2 ? 0 : length / 2;
    ask("soft", kind == due_decoded(h, m, places, 0));
    ask("the cells of soft", kind == 0 ? c.message < 131072 && c.correlation > 0 : same(c, fresh()));
}

static void areas(struct room one, struct room two, uint32_t m, size_t length, int32_t value, bool behind)
{
    int32_t *first = against(one, 4 * length, behind), *second = against(two, 4 * length, behind);
    for (size_t i = 0; i < length; i++) {
        first[i] = value;
        second[i] = 9;
    }
    struct cells c = fresh(), d = fresh();
    open_to(one, false);
    open_to(two, false);
    uint32_t asked = sharqudel_refusal(m, first, length, second, length, &d.place);
    open_to(one, true);
    open_to(two, true);
    uint32_t kind = sharqudel_transform(m, first, length, second, length, &c.area, &c.place);
    uint32_t right = due(1, m, length < (size_t)1 << m ? length : (size_t)1 << m, 0);
    right = right == 0 && value == 40000 ? SHARQUDEL_VALUE : right;
    ask("the question and the transform", asked == right && kind == right && c.place == d.place);
    ask("the cell area", c.area == (kind == 0 ? 1 + m % 2 : 0x5555));
    ask("the cell place of transform", c.place == (kind == SHARQUDEL_VALUE ? 0 : 0x5555));
    size_t n = kind == 0 ? (size_t)1 << m : 0;
    bool stays = true;
    for (size_t i = n; i < length; i++)
        stays = stays && first[i] == value && second[i] == 9;
    ask("entries that stay", stays);
    ask("entry 0 of the spectrum", kind != 0 || (c.area == 1 ? first : second)[0] == (int32_t)n * value);
}

/* A clean word is not tied, and a word all of ones is: what a cell held before is no answer. */
static void ties(void)
{
    const uint8_t clean[4] = {0, 0, 0, 1}, ones[4] = {1, 1, 1, 1};
    const int16_t heard[4] = {9, 9, 9, -9}, silence[4] = {0};
    for (int before = 0; before <= 1; before++) {
        struct cells c = fresh();
        c.tied = before;
        ask("hard of a clean word", sharqudel_hard(1, 2, clean, 4, &c.message, &c.distance, &c.tied, &c.place) == 0 &&
                                        c.message == 0 && c.distance == 0 && !c.tied);
        c.tied = before;
        ask("hard of ones", sharqudel_hard(1, 2, ones, 4, &c.message, &c.distance, &c.tied, &c.place) == 0 &&
                                c.message == 1 && c.distance == 1 && c.tied);
        c.tied = before;
        ask("soft of a clean word", sharqudel_soft(1, 2, heard, 4, &c.message, &c.correlation, &c.tied) == 0 &&
                                        c.message == 0 && c.correlation == 36 && !c.tied);
        c.tied = before;
        ask("soft of silence", sharqudel_soft(1, 2, silence, 4, &c.message, &c.correlation, &c.tied) == 0 &&
                                   c.message == 0 && c.correlation == 0 && c.tied);
    }
}

/* The pair check writes yes and no, whatever its cell held, and names the second word. */
static void pairs(void)
{
    const uint8_t word[4] = {0, 0, 0, 2}, partner[4] = {0, 0, 2, 0}, bad[4] = {0, 4, 4, 0};
    for (int before = 0; before <= 1; before++) {
        struct cells c = fresh();
        c.pair = before;
        ask("yes", sharqudel_check(2, 2, word, 4, partner, 4, &c.pair, &c.place, &c.which) == 0 && c.pair);
        c.pair = before;
        ask("no", sharqudel_check(2, 2, word, 4, word, 4, &c.pair, &c.place, &c.which) == 0 && !c.pair);
        c.pair = before;
        uint32_t kind = sharqudel_check(2, 2, word, 4, bad, 4, &c.pair, &c.place, &c.which);
        ask("the second word", kind == SHARQUDEL_SYMBOL && c.pair == before && c.place == 1 && c.which == 2);
    }
}

int main(void)
{
    ties();
    pairs();
    struct room one = room_of(), two = room_of();
    for (uint32_t h = 0; h <= 4; h++)
        for (uint32_t m = 0; m <= 7; m++)
            nulls(h, m);
    nulls(UINT32_MAX, UINT32_MAX);
    for (int behind = 0; behind <= 1; behind++)
        for (uint32_t m = 1; m <= 6; m++)
            for (size_t length = 0; length <= MOST + 1; length++) {
                for (uint32_t h = 0; h <= 4; h++) {
                    words(one, two, h, m, length, 0, behind);
                    words(one, two, h, m, length, 200, behind);
                    outputs(one, h, m, length, behind);
                    values(one, h, m, length, behind);
                }
                areas(one, two, m, length, -32768, behind);
                areas(one, two, m, length, 40000, behind);
            }
    printf("%s  %d checks of the C boundary\n", failed ? "FAILED" : "ok    ", passed + failed);
    return failed != 0;
}
