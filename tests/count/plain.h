/* The calls of plain.c, the yardstick of docs/COSTS.md. */
#ifndef PLAIN_H
#define PLAIN_H
#include <stddef.h>
#include <stdint.h>
typedef struct { uint8_t number; size_t place; } plain_refusal;
typedef struct { uint8_t number, channel; uint16_t value; uint8_t partner; } plain_event;
typedef struct { uint8_t status, ok; uint16_t reg, row; uint8_t laps[6]; } plain_task;
typedef struct { uint8_t closed, len; uint16_t value[16]; } plain_chan;
typedef struct {
    plain_task task[16]; plain_chan chan[16]; uint8_t order[16], waiting, tasks, channels, fault, named; uint16_t stamp;
} plain_machine;
size_t plain_translate(const uint8_t *text, size_t n, uint8_t *image, size_t room, plain_refusal *r); /* 0: refused */
uint8_t plain_check(const uint8_t *image, size_t n, size_t *place);                                    /* 0: good */
int plain_fits(const uint8_t *body, unsigned rows, unsigned channels, unsigned tasks, const plain_machine *m);
uint8_t plain_start(const uint8_t *image, size_t n, plain_machine *m);
plain_event plain_step(const uint8_t *body, unsigned rows, plain_machine *m, unsigned t, unsigned choice);
plain_event plain_turn(const uint8_t *image, size_t n, plain_machine *m, unsigned t, unsigned choice);
/* A whole schedule: number 0 and the bytes of records written, or a refusal and its place. */
plain_refusal plain_schedule(const uint8_t *image, size_t n, plain_machine *m, const uint8_t *pairs, size_t pairs_n, uint8_t *records, size_t room);
#endif
