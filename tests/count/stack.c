/* Bytes of stack of one translation, one image check, one turn and one schedule: each is called on a painted stack of its own, and what is no
   longer paint is counted, less what a call that does nothing needs. */
#include "images.h"
#include "say.h"
#include "texts.h"
#define AREA 65536
#define PAINT 0xA5
size_t bench_translate(const uint8_t *text, size_t n, uint8_t *image, size_t image_n);
uint32_t bench_check(const uint8_t *image, size_t n);
uint16_t bench_rounds(const uint8_t *image, size_t n, const uint8_t *pairs, size_t pairs_n, uint8_t way, uint8_t task, uint8_t choice, uint32_t rounds);
uint8_t bench_schedule(const uint8_t *image, size_t n, const uint8_t *pairs, size_t pairs_n, uint8_t *records, size_t room);
static const uint8_t none[1], there_and_back[4] = {0, 0, 1, 0};
static uint8_t records[12];

static void nothing(void) { __asm__ volatile(""); }
static void translation(void) { bench_translate(text, text_size, image_out, sizeof image_out); }
static void image_check(void) { bench_check(pass, sizeof pass); }
static void whole_schedule(void) { bench_schedule(pass, sizeof pass, there_and_back, sizeof there_and_back, records, sizeof records); }
static void whole_turn(void) { bench_rounds(pass, sizeof pass, none, 0, 2, 0, 0, 1); }

static size_t used(void (*f)(void)) {
    static uint8_t area[AREA] __attribute__((aligned(16)));
    for (size_t i = 0; i < AREA; i++) area[i] = PAINT;
    __asm__ volatile("mov %%rsp, %%rbx\n mov %1, %%rsp\n call *%0\n mov %%rbx, %%rsp"
                     : "+a"(f) : "c"(area + AREA) : "rbx", "rdx", "rsi", "rdi", "r8", "r9", "r10", "r11", "r12", "r13", "r14", "r15", "memory", "cc",
                       "xmm0", "xmm1", "xmm2", "xmm3", "xmm4", "xmm5", "xmm6", "xmm7", "xmm8", "xmm9", "xmm10", "xmm11", "xmm12", "xmm13", "xmm14", "xmm15");
    size_t i = 0;
    while (i < AREA && area[i] == PAINT) i++;
    return AREA - i;
}
int main(void) {
    size_t base = used(nothing);
    make_sends(0, "");
    say("translation of 16,384 bytes, depth 0: ", used(translation) - base);
    make_sends(6, "repeat 1 ");
    say("translation of 16,384 bytes, six repeats deep: ", used(translation) - base);
    make_sends(6, "select case recv 0 ");
    say("translation of 16,384 bytes, six selects deep: ", used(translation) - base);
    make_every_kind();
    say("translation of 1,020 rows of every kind: ", used(translation) - base);
    make_listing();
    say("translation of the listing's job: ", used(translation) - base);
    say("image check: ", used(image_check) - base);
    say("start and whole turn: ", used(whole_turn) - base);
    say("start and schedule of two turns: ", used(whole_schedule) - base);
    return 0;
}
