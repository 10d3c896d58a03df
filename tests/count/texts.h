/* The texts that are translated: `text`, of `text_size` bytes. */
#include <stddef.h>
#include <stdint.h>
#define TEXT_SIZE 16384
static uint8_t text[TEXT_SIZE], image_out[8 * 1024 + 16 + 32 + 8];
static size_t text_size;
static uint8_t *put(uint8_t *p, const char *s) {
    while (*s) *p++ = (uint8_t)*s++;
    return p;
}
/* 16,384 bytes, blanks to the end: a channel and one task of 1,010 sends, 16 bytes each, inside so many of these blocks. */
static void make_sends(int depth, const char *block) {
    uint8_t *p = text;
    text_size = TEXT_SIZE;
    for (size_t i = 0; i < TEXT_SIZE; i++) text[i] = ' ';
    p = put(p, "chan 1 task ");
    for (int i = 0; i < depth; i++) p = put(p, block);
    for (int i = 0; i < 1010; i++) p = put(p, "send 0 12345\n") + 3;
    for (int i = 0; i < depth; i++) p = put(p, "end ");
    put(p, "end");
}
/* 1,020 rows of every kind in sixteen tasks of 63 or 64. */
static void make_every_kind(void) {
    uint8_t *p = put(text, "chan 1 chan 0 chan 16 chan 2\n");
    for (int t = 0; t < 16; t++) {
        p = put(p, "task ");
        for (int i = 0; i < 4; i++) {
            p = put(p, "repeat 3 send 0 7 recv 1 ifok forward 2 else close 3 end end range 0 send 2 65535 end\n"
                       "select case send 0 9 case forward 1 recv 2 case recv 3 default send 1 1 end stop\n");
        }
        p = put(p, t < 12 ? "send 0 1 recv nil forward 3 end\n" : "send 0 1 recv nil end\n");
    }
    text_size = (size_t)(p - text);
}
/* The job of document 01's listing. */
static void make_listing(void) {
    text_size = (size_t)(put(text, "chan 1\ntask send 0 7 send 0 9 close 0 end\ntask range 0 end end\n") - text);
}
