/* `bench KIND ROUNDS` makes one turn, one start, one image check, one fit, one part of a schedule or one translation so many times by
   the library, `bench KIND ROUNDS plain` by the plain C of plain.c. It fails where an answer is not the one that is due. */
#include "images.h"
#include "plain.h"
#include "texts.h"
size_t bench_translate(const uint8_t *text, size_t n, uint8_t *image, size_t image_n);
uint32_t bench_check(const uint8_t *image, size_t n);
uint16_t bench_start(const uint8_t *image, size_t n);
uint16_t bench_rounds(const uint8_t *image, size_t n, const uint8_t *pairs, size_t pairs_n, uint8_t way, uint8_t task, uint8_t choice, uint32_t rounds);
uint16_t bench_fit(const uint8_t *image, size_t n, const uint8_t *pairs, size_t pairs_n, uint32_t rounds);
uint8_t bench_schedule(const uint8_t *image, size_t n, const uint8_t *pairs, size_t pairs_n, uint8_t *records, size_t room);

/* Two images of 1,024 rows and two tasks: a send and then stops, and sends up to two stops. */
static uint8_t stops[8 * 1024 + 1 + 4 + 8], sends[sizeof stops];
static void make_long(uint8_t *p, int n) {
    for (int i = 0; i < 1024; i++, p += 8) {
        if (i < n) { p[0] = 1; p[2] = 7; p[4] = (uint8_t)(i + 1); p[5] = (uint8_t)((i + 1) >> 8); } else p[0] = 12;
    }
    static const uint8_t tail[13] = {1, 0, 0, 1023 % 256, 1023 / 256, 0, 4, 1, 2, 8197 % 256, 8197 / 256, 0x5A, 1};
    for (size_t i = 0; i < sizeof tail; i++) p[i] = tail[i];
}

/* What is made again and again, from the state that the pairs lead to: a step in place, a step by value, a turn (the ways of
   bench_rounds), a start, a fit, a check. Or the pairs themselves: in one call of schedule so many times over, or one call for each
   time. */
enum what { STEP, VALUE, TURN, START, FIT, CHECK, LONGER, CALLS };
typedef struct { const char *name; enum what what; const uint8_t *image; size_t n; const uint8_t *pairs; size_t pairs_n; uint8_t task; } kind_t;
static const uint8_t none[1], one_turn[2] = {0, 0};
static const uint8_t all_wait[30] = {0, 0, 1, 0, 2, 0, 3, 0, 4, 0, 5, 0, 6, 0, 7, 0, 8, 0, 9, 0, 10, 0, 11, 0, 12, 0, 13, 0, 14, 0};
static const uint8_t there_and_back[4] = {0, 0, 1, 0};
static const uint8_t all_wait_and_close[32] = {0, 0, 1, 0, 2, 0, 3, 0, 4, 0, 5, 0, 6, 0, 7, 0, 8, 0, 9, 0, 10, 0, 11, 0, 12, 0, 13, 0, 14, 0, 15, 0};
static const kind_t kinds[] = {
    {"send", STEP, pass, sizeof pass, none, 0, 0},
    {"receive", STEP, pass, sizeof pass, one_turn, 2, 1},
    {"select", STEP, select8, sizeof select8, none, 0, 0},
    {"close", STEP, close15, sizeof close15, all_wait, 30, 15},
    {"send-15", STEP, send15, sizeof send15, all_wait, 30, 15},
    {"send-by-value", VALUE, pass, sizeof pass, none, 0, 0},
    {"receive-by-value", VALUE, pass, sizeof pass, one_turn, 2, 1},
    {"select-by-value", VALUE, select8, sizeof select8, none, 0, 0},
    {"close-by-value", VALUE, close15, sizeof close15, all_wait, 30, 15},
    {"send-15-by-value", VALUE, send15, sizeof send15, all_wait, 30, 15},
    {"start-4", START, pass, sizeof pass, none, 0, 0},
    {"turn-4", TURN, pass, sizeof pass, none, 0, 0},
    {"turn-32", TURN, close15, sizeof close15, all_wait, 30, 15},
    {"turn-1024", TURN, stops, sizeof stops, none, 0, 0},
    {"check-4", CHECK, pass, sizeof pass, none, 0, 0},
    {"check-64", CHECK, mixed, sizeof mixed, none, 0, 0},
    {"check-1024", CHECK, stops, sizeof stops, none, 0, 0},
    {"check-1024-sends", CHECK, sends, sizeof sends, none, 0, 0},
    {"fit-2", FIT, pass, sizeof pass, none, 0, 0},
    {"fit-16", FIT, close15, sizeof close15, all_wait, 30, 0},
    {"schedule-pair", LONGER, pass_on, sizeof pass_on, there_and_back, 4, 0},
    {"schedule-select", LONGER, select8_on, sizeof select8_on, there_and_back, 4, 0},
    {"schedule-waits", CALLS, close15, sizeof close15, all_wait, 30, 0},
    {"schedule-close", CALLS, close15, sizeof close15, all_wait_and_close, 32, 0},
};

/* The pairs of a kind so many times over, and room for their records. */
#define LONGEST 4096
static uint8_t pairs_made[LONGEST], records_made[3 * LONGEST];
static size_t make_pairs(const kind_t *k, uint32_t n) {
    size_t made = 0;
    for (; n && made + k->pairs_n <= LONGEST; n--) for (size_t i = 0; i < k->pairs_n; i++) pairs_made[made++] = k->pairs[i];
    return made;
}
/* Every turn of a schedule was made, and none refused. */
static int all_made(size_t pairs_n) {
    for (size_t i = 0; i < 3 * pairs_n; i += 6) if (records_made[i] == 0 || records_made[i] > 9) return 0;
    return 1;
}
static int library_schedule(const kind_t *k, uint32_t times) {
    size_t n = make_pairs(k, times);
    return bench_schedule(k->image, k->n, pairs_made, n, records_made, sizeof records_made) || !all_made(n);
}
static int plain_made(const kind_t *k, uint32_t times) {
    static plain_machine m;
    size_t n = make_pairs(k, times);
    if (plain_start(k->image, k->n, &m)) return 1;
    return plain_schedule(k->image, k->n, &m, pairs_made, n, records_made, sizeof records_made).number || !all_made(n);
}

static int library_rounds(const kind_t *k, uint32_t n) {
    switch (k->what) {
    case FIT: return bench_fit(k->image, k->n, k->pairs, k->pairs_n, n) != n;
    case CHECK:
        for (; n; n--) if (bench_check(k->image, k->n)) return 1;
        return 0;
    case START:
        for (; n; n--) if (bench_start(k->image, k->n)) return 1;
        return 0;
    case LONGER: return library_schedule(k, n);
    case CALLS:
        for (; n; n--) if (library_schedule(k, 1)) return 1;
        return 0;
    default: return bench_rounds(k->image, k->n, k->pairs, k->pairs_n, k->what, k->task, 0, n) != k->pairs_n / 2 + 1;
    }
}
/* Each round begins at the same state. Copied by the byte, so that no memcpy is counted as a turn's. */
static void again(plain_machine *m, const plain_machine *from) {
    for (size_t i = 0; i < sizeof *m; i++) ((volatile uint8_t *)m)[i] = ((const uint8_t *)from)[i];
}
static int plain_round(const kind_t *k, const plain_machine *from) {
    static plain_machine m;
    const uint8_t *trailer = k->image + k->n - 8, *body = trailer - (trailer[4] + 256 * trailer[5]);
    unsigned rows = trailer[0] + 256u * trailer[1];
    size_t place;
    switch (k->what) {
    case FIT: return !plain_fits(body, rows, trailer[2], trailer[3], from);
    case CHECK: return plain_check(k->image, k->n, &place);
    case START: return plain_start(k->image, k->n, &m);
    case TURN: again(&m, from); plain_turn(k->image, k->n, &m, k->task, 0); break;
    default: again(&m, from); plain_step(body, rows, &m, k->task, 0);
    }
    return m.stamp != from->stamp + 1;
}
static int plain_rounds(const kind_t *k, uint32_t n) {
    static plain_machine from;
    if (k->what == LONGER) return plain_made(k, n);
    if (k->what == CALLS) {
        for (; n; n--) if (plain_made(k, 1)) return 1;
        return 0;
    }
    if (plain_start(k->image, k->n, &from)) return 1;
    for (size_t i = 0; i + 1 < k->pairs_n; i += 2) plain_turn(k->image, k->n, &from, k->pairs[i], k->pairs[i + 1]);
    for (; n; n--) if (plain_round(k, &from)) return 1;
    return 0;
}
/* A text is translated by both first, and their images compared. */
static int translations(uint32_t rounds, int plain) {
    static uint8_t other[sizeof image_out];
    plain_refusal r;
    size_t n = bench_translate(text, text_size, image_out, sizeof image_out);
    if (n == 0 || n != plain_translate(text, text_size, other, sizeof other, &r)) return 1;
    for (size_t i = 0; i < n; i++) if (image_out[i] != other[i]) return 1;
    for (; rounds; rounds--) {
        if (plain) plain_translate(text, text_size, other, sizeof other, &r);
        else bench_translate(text, text_size, image_out, sizeof image_out);
    }
    return 0;
}

static int same(const char *a, const char *b) {
    while (*a && *a == *b) { a++; b++; }
    return *a == *b;
}
int main(int argc, char **argv) {
    uint32_t n = 0;
    if (argc < 3) return 2;
    for (const char *d = argv[2]; *d; d++) n = 10 * n + (uint32_t)(*d - '0');
    int plain = argc > 3;
    make_long(stops, 1);
    make_long(sends, 1022);
    for (size_t i = 0; i < sizeof kinds / sizeof kinds[0]; i++) {
        if (same(argv[1], kinds[i].name)) return plain ? plain_rounds(&kinds[i], n) : library_rounds(&kinds[i], n);
    }
    if (same(argv[1], "flat")) make_sends(0, "");
    else if (same(argv[1], "repeats")) make_sends(6, "repeat 1 ");
    else if (same(argv[1], "selects")) make_sends(6, "select case recv 0 ");
    else if (same(argv[1], "every-kind")) make_every_kind();
    else if (same(argv[1], "listing")) make_listing();
    else return 2;
    return translations(n, plain);
}
