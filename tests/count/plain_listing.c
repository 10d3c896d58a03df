/* The listing program over plain.c: standard input to standard output. plain.sh compares it with the stored listings. */
#include <stdio.h>
#include <string.h>
#include "plain.h"
#define LIMIT 48000
static uint8_t input[LIMIT + 1], image[8 * 1024 + 16 + 32 + 8], schedule[LIMIT];

/* The length of the job text, which ends ahead of the first line `run`; behind: what follows that line. */
static size_t job_length(size_t n, size_t *behind) {
    size_t from = 0, to;
    for (; from < n; from = to + 1) {
        for (to = from; to < n && input[to] != '\n'; to++) {}
        if (to == from + 3 && !memcmp(input + from, "run", 3)) { *behind = to < n ? to + 1 : n; return from; }
    }
    *behind = n;
    return n;
}
/* The numbers of the schedule; -1 where it is bad or odd. */
static int read_schedule(size_t at, size_t n) {
    int count = 0;
    while (at < n) {
        unsigned v = 0;
        size_t from = at;
        for (; at < n && input[at] >= '0' && input[at] <= '9' && v < 256; at++) v = 10 * v + (input[at] - '0');
        if (at > from) {
            if (v > 255 || (input[from] == '0' && at > from + 1)) return -1;
            schedule[count++] = (uint8_t)v;
        }
        if (at < n && input[at] != ' ' && input[at] != '\n') return -1;
        at++;
    }
    return count % 2 ? -1 : count;
}
static void print_state(const plain_machine *m) {
    for (unsigned t = 0; t < m->tasks; t++) printf("task %u %u %u %u %u\n", t, m->task[t].status, m->task[t].reg, m->task[t].ok, m->task[t].row);
    for (unsigned c = 0; c < m->channels; c++) {
        printf("chan %u %u %u", c, m->chan[c].closed, m->chan[c].len);
        for (unsigned i = 0; i < m->chan[c].len; i++) printf(" %u", m->chan[c].value[i]);
        printf("\n");
    }
    printf("stamp %u %u\n", m->stamp, m->fault);
}
int main(void) {
    static plain_machine m;
    plain_refusal r;
    size_t behind, n = fread(input, 1, sizeof input, stdin);
    if (n > LIMIT) return puts("input too long") < 0;
    size_t length = plain_translate(input, job_length(n, &behind), image, sizeof image, &r);
    if (length == 0) return printf("refused %u %zu\n", r.number, r.place) < 0;
    int count = read_schedule(behind, n);
    if (count < 0) return puts("bad schedule") < 0;
    if (plain_start(image, length, &m)) return 1;
    for (int i = 0; i < count; i += 2) {
        plain_event e = plain_turn(image, length, &m, schedule[i], schedule[i + 1]);
        printf("%d %u %u %u %u %u\n", i / 2, schedule[i], e.number, e.channel, e.value, e.partner);
    }
    print_state(&m);
    return 0;
}
