/* Whether plain.c and the library say the same of damaged images: number and place. Up to four bytes of a good image are written
   over, most with values near those that count, and some images are cut short. */
#include "images.h"
#include "plain.h"
#include "say.h"
#define ROUNDS 400000
uint32_t bench_check(const uint8_t *image, size_t n);
static uint32_t state = 1;
static uint32_t below(uint32_t n) {
    state = state * 1664525u + 1013904223u;
    return (uint32_t)((uint64_t)state * n >> 32);
}
static uint8_t near(uint8_t b) {
    static const uint8_t edges[] = {0, 1, 5, 6, 8, 9, 11, 12, 13, 15, 16, 17, 63, 64, 90, 254, 255};
    switch (below(4)) {
    case 0: return (uint8_t)(b + 1);
    case 1: return (uint8_t)(b - 1);
    case 2: return edges[below(sizeof edges)];
    default: return (uint8_t)below(256);
    }
}
int main(void) {
    static const struct { const uint8_t *image; size_t n; } good[] = {
        {at_end, sizeof at_end}, {pass, sizeof pass}, {select8, sizeof select8}, {close15, sizeof close15}, {mixed, sizeof mixed}};
    static uint8_t image[sizeof mixed];
    size_t refused = 0;
    for (uint32_t i = 0; i < ROUNDS; i++) {
        uint32_t g = below(sizeof good / sizeof good[0]);
        size_t n = good[g].n, place;
        for (size_t k = 0; k < n; k++) image[k] = good[g].image[k];
        for (uint32_t k = below(5); k; k--) { uint32_t at = below((uint32_t)n); image[at] = near(image[at]); }
        size_t from = below(20) ? 0 : below((uint32_t)n + 1);
        uint8_t number = plain_check(image + from, n - from, &place);
        if (number + 256 * place != bench_check(image + from, n - from)) { say("plain.c and the library differ at damaged image ", i); return 1; }
        refused += number != 0;
    }
    say("damaged images of which the library says the same: ", ROUNDS);
    say("of them refused: ", refused);
    return 0;
}
