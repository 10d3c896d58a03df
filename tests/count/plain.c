/* What the proved library does, in plain C and with care: one translation, one image check, one turn, from document 01. A
   yardstick for docs/COSTS.md, not part of the product. plain.sh compares its answers with the stored listings and with the
   library's. */
#include "plain.h"

static unsigned get2(const uint8_t *p) { return p[0] | (unsigned)p[1] << 8; }
static void put2(uint8_t *p, unsigned n) { p[0] = (uint8_t)n; p[1] = (uint8_t)(n >> 8); }

/* WORDS */

enum { NONE, CHAN, TASK, SEND, FORWARD, RECV, CLOSE, RANGE, REPEAT, IFOK, ELSE, SELECT, CASE, DEFAULT, STOP, END, NIL, NUMBER, OTHER };

/* A row as pass 1 leaves it, in text order: `rows` is the rows of the whole statement, or of a case and its body. */
typedef struct { uint8_t op, chan; uint16_t arg, rows; } note_t;
typedef struct {
    const uint8_t *text, *end;                        /* the text */
    const uint8_t *word, *next; unsigned kind, value; /* the word to be read, and what stands behind it */
    unsigned channels, tasks, rows;
    uint8_t number; size_t place;                     /* the refusal */
    note_t note[1024];
    uint8_t capacity[16]; uint16_t first[16];
} job_t;

static int is_allowed(uint8_t b) { return ((uint8_t)(b - 'a') < 26) | ((uint8_t)(b - '0') < 10) | (b == ' ') | (b == '\n'); }
static int is_blank(uint8_t b) { return b <= ' '; } /* of an allowed byte */
static int is_digit(uint8_t b) { return (uint8_t)(b - '0') < 10; }

/* A word's bytes as a number, the first one highest. One of eight bytes or more has a highest byte and so is none of these. */
#define W3(a, b, c) ((uint64_t)(a) << 16 | (b) << 8 | (c))
#define W4(a, b, c, d) (W3(a, b, c) << 8 | (d))
#define W5(a, b, c, d, e) (W4(a, b, c, d) << 8 | (e))
#define W6(a, b, c, d, e, f) (W5(a, b, c, d, e) << 8 | (f))
#define W7(a, b, c, d, e, f, g) (W6(a, b, c, d, e, f) << 8 | (g))
static unsigned reserved(uint64_t key) {
    switch (key) {
    case W4('c', 'h', 'a', 'n'): return CHAN;
    case W4('t', 'a', 's', 'k'): return TASK;
    case W4('s', 'e', 'n', 'd'): return SEND;
    case W7('f', 'o', 'r', 'w', 'a', 'r', 'd'): return FORWARD;
    case W4('r', 'e', 'c', 'v'): return RECV;
    case W5('c', 'l', 'o', 's', 'e'): return CLOSE;
    case W5('r', 'a', 'n', 'g', 'e'): return RANGE;
    case W6('r', 'e', 'p', 'e', 'a', 't'): return REPEAT;
    case W4('i', 'f', 'o', 'k'): return IFOK;
    case W4('e', 'l', 's', 'e'): return ELSE;
    case W6('s', 'e', 'l', 'e', 'c', 't'): return SELECT;
    case W4('c', 'a', 's', 'e'): return CASE;
    case W7('d', 'e', 'f', 'a', 'u', 'l', 't'): return DEFAULT;
    case W4('s', 't', 'o', 'p'): return STOP;
    case W3('e', 'n', 'd'): return END;
    case W3('n', 'i', 'l'): return NIL;
    default: return OTHER;
    }
}
static void next_word(job_t *j) {
    const uint8_t *s = j->next, *end = j->end;
    while (s < end && is_blank(*s)) s++;
    const uint8_t *word = s;
    if (s == end) j->kind = NONE;
    else if (is_digit(*s)) {
        uint32_t v = 0;
        while (s < end && is_digit(*s)) v = 10 * v + (*s++ - '0');
        j->kind = (*word == '0' && s > word + 1) || (s < end && !is_blank(*s)) ? OTHER : NUMBER;
        j->value = s - word > 5 ? 65536 : v; /* six digits are over every range */
        while (s < end && !is_blank(*s)) s++;
    } else {
        uint64_t key = 0;
        do key = key << 8 | *s++; while (s < end && !is_blank(*s));
        j->kind = reserved(key);
    }
    j->word = word;
    j->next = s;
}

/* PASS 1: the refusals, and a note for each row */

static int refuse_at(job_t *j, uint8_t number, const uint8_t *at) { j->number = number; j->place = (size_t)(at - j->text); return 0; }
static int refuse(job_t *j, uint8_t number) { return j->kind == NONE ? refuse_at(j, 9, j->end) : refuse_at(j, number, j->word); }

static int number(job_t *j, unsigned limit, uint16_t *n) {
    if (j->kind != NUMBER) return refuse(j, 4);
    if (j->value > limit) return refuse(j, 5);
    *n = (uint16_t)j->value;
    next_word(j);
    return 1;
}
static int port(job_t *j, uint8_t *c) {
    if (j->kind == NUMBER && j->value < j->channels) *c = (uint8_t)j->value;
    else if (j->kind == NIL) *c = 255;
    else return refuse(j, j->kind == NUMBER ? 5 : 4);
    next_word(j);
    return 1;
}
static note_t *note(job_t *j, unsigned op) {
    if (j->rows == 1024) { refuse(j, 8); return 0; }
    note_t *r = &j->note[j->rows++];
    *r = (note_t){(uint8_t)op, 0, 0, 1};
    next_word(j);
    return r;
}
static int end(job_t *j) { if (j->kind != END) return refuse(j, 3); next_word(j); return 1; }
static int body(job_t *j, int depth);

static int operation(job_t *j, unsigned send) { /* send: the op of a send at this place, 1 or 9 */
    unsigned kind = j->kind;
    note_t *r = note(j, send + kind - SEND);
    return r && port(j, &r->chan) && (kind != SEND || number(j, 65535, &r->arg));
}
static int one_case(job_t *j, int depth, note_t *select) {
    if (select->chan == 8) return refuse(j, 6);
    if (j->rows == 1024) return refuse(j, 8); /* the row is the word case's */
    note_t *r = &j->note[j->rows];
    select->chan++;
    next_word(j);
    if (j->kind < SEND || j->kind > RECV) return refuse(j, 3);
    if (!operation(j, 9) || !body(j, depth)) return 0;
    r->rows = (uint16_t)(&j->note[j->rows] - r);
    return 1;
}
static int block(job_t *j, unsigned kind, int depth, note_t *r) {
    switch (kind) {
    case RANGE: if (!port(j, &r->chan)) return 0; break;
    case REPEAT: r->chan = (uint8_t)(depth - 1); if (!number(j, 255, &r->arg)) return 0; break;
    case SELECT:
        while (j->kind == CASE) if (!one_case(j, depth, r)) return 0;
        if (j->kind != DEFAULT) return end(j);
        r->arg = 1;
        next_word(j);
        break;
    default: /* ifok: arg is the rows of its first body until the rows are laid */
        if (!body(j, depth)) return 0;
        r->arg = (uint16_t)(&j->note[j->rows] - r - 1);
        if (j->kind != ELSE) return end(j);
        next_word(j);
    }
    return body(j, depth) && end(j);
}
static int body(job_t *j, int depth) {
    for (;;) {
        note_t *r;
        unsigned kind = j->kind;
        switch (kind) {
        case SEND: case FORWARD: case RECV: if (!operation(j, 1)) return 0; break;
        case CLOSE: if (!(r = note(j, 4)) || !port(j, &r->chan)) return 0; break;
        case STOP: if (!note(j, 12)) return 0; break;
        case RANGE: case REPEAT: case IFOK: case SELECT:
            if (depth == 6) return refuse(j, 7);
            r = note(j, kind == SELECT ? 8 : 5 + kind - RANGE);
            if (!r || !block(j, kind, depth + 1, r)) return 0;
            r->rows = (uint16_t)(&j->note[j->rows] - r);
            break;
        default: return 1;
        }
    }
}
static int read_job(job_t *j) {
    uint16_t n;
    next_word(j);
    for (; j->kind == CHAN; j->capacity[j->channels++] = (uint8_t)n) {
        if (j->channels == 16) return refuse(j, 6);
        next_word(j);
        if (!number(j, 16, &n)) return 0;
    }
    for (; j->kind == TASK; j->tasks++) {
        if (j->tasks == 16) return refuse(j, 6);
        next_word(j);
        j->first[j->tasks] = (uint16_t)j->rows;
        if (!body(j, 0)) return 0;
        if (j->kind != END) return refuse(j, 3);
        if (!note(j, 12)) return 0;
    }
    if (j->kind != NONE) return refuse(j, 3);
    return j->tasks ? 1 : refuse_at(j, 10, j->end);
}

/* PASS 2: the rows, from the notes */

static void put_row(uint8_t *p, const note_t *r, unsigned arg, unsigned next, unsigned other) {
    p[0] = r->op; p[1] = r->chan;
    put2(p + 2, arg); put2(p + 4, next); put2(p + 6, other);
}
static void lay_body(uint8_t *rows, const note_t *r, const note_t *e, unsigned i, unsigned after);

/* The case rows of a select from row i on, and all its bodies, of which the default's ends with note e. */
static void lay_select(uint8_t *rows, const note_t *r, const note_t *e, unsigned i, unsigned next) {
    unsigned cases = r->chan, at = i + 1 + cases;
    const note_t *c = r + 1;
    for (unsigned k = 1; k <= cases; k++, c += c->rows) {
        unsigned n = c->rows - 1u;
        put_row(rows + 8 * (i + k), c, c->arg, n ? at : next, 0);
        lay_body(rows, c + 1, c + 1 + n, at, next);
        at += n;
    }
    put_row(rows + 8 * i, r, r->arg, !r->arg ? 0 : c < e ? at : next, 0);
    lay_body(rows, c, e, at, next);
}
/* The body of the notes r to e, from row i on, which leads to row `after`. */
static void lay_body(uint8_t *rows, const note_t *r, const note_t *e, unsigned i, unsigned after) {
    while (r < e) {
        const note_t *behind = r + r->rows;
        unsigned next = behind < e ? i + r->rows : after;
        uint8_t *p = rows + 8 * i;
        switch (r->op) {
        case 5: case 6:
            put_row(p, r, r->arg, r->rows > 1 ? i + 1 : i, next);
            lay_body(rows, r + 1, behind, i + 1, i);
            break;
        case 7: {
            unsigned one = r->arg, mid = i + 1 + one;
            put_row(p, r, 0, one ? i + 1 : next, r + 1 + one < behind ? mid : next);
            lay_body(rows, r + 1, r + 1 + one, i + 1, next);
            lay_body(rows, r + 1 + one, behind, mid, next);
            break;
        }
        case 8: lay_select(rows, r, behind, i, next); break;
        case 12: put_row(p, r, 0, 0, 0); break;
        default: put_row(p, r, r->arg, next, 0);
        }
        i += r->rows;
        r = behind;
    }
}

size_t plain_translate(const uint8_t *text, size_t n, uint8_t *image, size_t room, plain_refusal *refusal) {
    job_t job, *j = &job;
    uint8_t bad = 0;
    *refusal = (plain_refusal){1, 0};
    if (n > 16384) return 0;
    for (size_t i = 0; i < n; i++) bad |= !is_allowed(text[i]); /* no way out of the loop, so that it goes by sixteen bytes */
    if (bad) {
        *refusal = (plain_refusal){2, 0};
        while (is_allowed(text[refusal->place])) refusal->place++;
        return 0;
    }
    j->text = j->next = text; j->end = text + n; j->channels = j->tasks = j->rows = 0;
    if (!read_job(j)) { *refusal = (plain_refusal){j->number, j->place}; return 0; }
    size_t span = 8 * j->rows + j->channels + 2 * j->tasks, length = span + 8;
    if (room < length) { *refusal = (plain_refusal){11, length}; return 0; }
    for (unsigned t = 0; t < j->tasks; t++) {
        unsigned i = j->first[t], stop = (t + 1 < j->tasks ? j->first[t + 1] : j->rows) - 1;
        lay_body(image, j->note + i, j->note + stop, i, stop);
        put_row(image + 8 * stop, j->note + stop, 0, 0, 0);
    }
    uint8_t *p = image + 8 * j->rows;
    for (unsigned c = 0; c < j->channels; c++) *p++ = j->capacity[c];
    for (unsigned t = 0; t < j->tasks; t++, p += 2) put2(p, j->first[t]);
    put2(p, j->rows); p[2] = (uint8_t)j->channels; p[3] = (uint8_t)j->tasks; put2(p + 4, (unsigned)span); p[6] = 0x5A; p[7] = 1;
    return length;
}

/* THE IMAGE CHECK, in place: each row is looked at once, and of a target only its op */

typedef struct { const uint8_t *body; unsigned rows, channels, tasks; } parts_t;
static int is_case(unsigned op) { return op - 9 < 3; }
static int is_target(const parts_t *p, unsigned n) { return n < p->rows && !is_case(p->body[8 * n]); }
static int is_port(const parts_t *p, unsigned c) { return c < p->channels || c == 255; }

/* A row that is no select and stands behind none as its case row. */
static int is_good(const parts_t *p, const uint8_t *r) {
    unsigned c = r[1], arg = get2(r + 2), next = get2(r + 4), other = get2(r + 6);
    switch (r[0]) {
    case 1: return is_port(p, c) && other == 0 && is_target(p, next);
    case 2: case 3: case 4: return is_port(p, c) && arg == 0 && other == 0 && is_target(p, next);
    case 5: return is_port(p, c) && arg == 0 && is_target(p, next) && is_target(p, other);
    case 6: return c <= 5 && arg <= 255 && is_target(p, next) && is_target(p, other);
    case 7: return c == 0 && arg == 0 && is_target(p, next) && is_target(p, other);
    case 12: return c == 0 && arg == 0 && next == 0 && other == 0;
    default: return 0;
    }
}
static int is_good_case(const parts_t *p, const uint8_t *r) {
    return is_port(p, r[1]) && (r[0] == 9 || get2(r + 2) == 0) && get2(r + 6) == 0 && is_target(p, get2(r + 4));
}
/* The first bad one of a select at row i and the case rows that it names, or the number of rows. */
static unsigned first_bad_case(const parts_t *p, unsigned i) {
    const uint8_t *r = p->body + 8 * i;
    unsigned cases = r[1], arg = get2(r + 2), next = get2(r + 4), bad = p->rows;
    if (cases > 8 || cases >= p->rows - i || arg > 1 || get2(r + 6) != 0 || (arg ? !is_target(p, next) : next != 0)) return i;
    for (unsigned k = cases; k > 0; k--) { /* from the last, since a row that is no case row makes the select the bad one */
        if (!is_case(r[8 * k])) return i;
        if (!is_good_case(p, r + 8 * k)) bad = i + k;
    }
    return bad;
}
static unsigned first_bad_row(const parts_t *p) {
    for (unsigned i = 0; i < p->rows; i++) {
        const uint8_t *r = p->body + 8 * i;
        if (r[0] == 8) {
            unsigned bad = first_bad_case(p, i);
            if (bad < p->rows) return bad;
            i += r[1];
        } else if (!is_good(p, r)) return i;
    }
    return p->rows;
}
static uint8_t check_parts(const uint8_t *image, size_t n, parts_t *p, size_t *place) {
    *place = 0;
    if (n < 8) return 21;
    const uint8_t *t = image + n - 8;
    if (t[6] != 0x5A) return 22;
    if (t[7] != 1) return 23;
    p->rows = get2(t); p->channels = t[2]; p->tasks = t[3];
    unsigned distance = get2(t + 4);
    if (p->rows < 1 || p->rows > 1024 || p->channels > 16 || p->tasks < 1 || p->tasks > 16) return 24;
    if (distance != 8 * p->rows + p->channels + 2 * p->tasks) return 24;
    if (distance > n - 8) return 25;
    p->body = t - distance;
    unsigned bad = first_bad_row(p);
    if (bad < p->rows) { *place = bad; return 26; }
    const uint8_t *capacity = p->body + 8 * p->rows, *first = capacity + p->channels;
    for (unsigned c = 0; c < p->channels; c++) if (capacity[c] > 16) { *place = c; return 27; }
    for (unsigned k = 0; k < p->tasks; k++) if (!is_target(p, get2(first + 2 * k))) { *place = k; return 28; }
    return 0;
}
uint8_t plain_check(const uint8_t *image, size_t n, size_t *place) { parts_t p; return check_parts(image, n, &p, place); }

/* ONE TURN, of a machine in place */

/* The row that offers a send (1) or a receive (0) on channel c, for a select its first such case; 0 if there is none. */
static const uint8_t *offers(const uint8_t *r, unsigned c, int send) {
    if (r[0] == 8) {
        for (unsigned k = 1; k <= r[1]; k++) if (r[8 * k + 1] == c && (r[8 * k] != 11) == send) return r + 8 * k;
        return 0;
    }
    return r[1] == c && (send ? r[0] == 1 || r[0] == 2 : r[0] == 3 || r[0] == 5) ? r : 0;
}
/* The place in the order of the first task that waits on c to send (1) or to receive (0), and the row that it offers; -1: nobody. */
static int first_waiter(const plain_machine *m, const parts_t *p, unsigned c, int send, const uint8_t **by) {
    for (unsigned i = 0; i < m->waiting; i++) {
        if ((*by = offers(p->body + 8 * m->task[m->order[i]].row, c, send))) return (int)i;
    }
    return -1;
}
static unsigned wake(plain_machine *m, unsigned i) {
    unsigned t = m->order[i];
    for (m->waiting--; i < m->waiting; i++) m->order[i] = m->order[i + 1];
    m->task[t].status = 0;
    return t;
}
static unsigned sent_by(const plain_task *x, const uint8_t *r) { return r[0] == 1 || r[0] == 9 ? get2(r + 2) : x->reg; }

static plain_event event(unsigned number, unsigned channel, unsigned value, unsigned partner) {
    return (plain_event){(uint8_t)number, (uint8_t)channel, (uint16_t)value, (uint8_t)partner};
}
static void got(plain_task *x, unsigned v, unsigned ok, unsigned row) { x->reg = (uint16_t)v; x->ok = (uint8_t)ok; x->row = (uint16_t)row; }
static plain_event fault(plain_machine *m, unsigned me, unsigned n, unsigned c) { m->fault = (uint8_t)n; m->named = (uint8_t)me; return event(10, c, n, me); }
static plain_event wait_here(plain_machine *m, unsigned me) { m->task[me].status = 1; m->order[m->waiting++] = (uint8_t)me; return event(7, 255, 0, 255); }

static plain_event send_on(plain_machine *m, const parts_t *p, unsigned me, unsigned c, unsigned v, unsigned next) {
    const uint8_t *by;
    if (c == 255) return wait_here(m, me);
    plain_chan *k = &m->chan[c];
    if (k->closed) return fault(m, me, 1, c);
    int i = first_waiter(m, p, c, 0, &by);
    if (i >= 0) {
        unsigned t = wake(m, (unsigned)i);
        got(&m->task[t], v, 1, get2(by + 4));
        m->task[me].row = (uint16_t)next;
        return event(2, c, v, t);
    }
    if (k->len == p->body[8 * p->rows + c]) return wait_here(m, me);
    k->value[k->len++] = (uint16_t)v;
    m->task[me].row = (uint16_t)next;
    return event(1, c, v, 255);
}
static plain_event receive_on(plain_machine *m, const parts_t *p, unsigned me, unsigned c, unsigned hit, unsigned miss) {
    const uint8_t *by;
    if (c == 255) return wait_here(m, me);
    plain_chan *k = &m->chan[c];
    int i = first_waiter(m, p, c, 1, &by);
    if (k->len == 0 && i < 0) {
        if (!k->closed) return wait_here(m, me);
        got(&m->task[me], 0, 0, miss);
        return event(5, c, 0, 255);
    }
    unsigned v = 0, sent = 0, t = 255, number = k->len ? 3 : 4;
    if (i >= 0) {
        t = wake(m, (unsigned)i);
        sent = sent_by(&m->task[t], by);
        m->task[t].row = (uint16_t)get2(by + 4);
    }
    if (k->len) {
        v = k->value[0];
        for (unsigned n = 1; n < k->len; n++) k->value[n - 1] = k->value[n];
        if (i >= 0) k->value[k->len - 1] = (uint16_t)sent; else k->len--;
    } else v = sent;
    got(&m->task[me], v, 1, hit);
    return event(number, c, v, t);
}
static plain_event close_on(plain_machine *m, const parts_t *p, unsigned me, unsigned c, unsigned next) {
    const uint8_t *by;
    unsigned kept = 0, woken;
    if (c == 255) return fault(m, me, 2, 255);
    if (m->chan[c].closed) return fault(m, me, 3, c);
    for (unsigned i = 0; i < m->waiting; i++) { /* who stays closes up: where nobody wakes, nothing has changed */
        unsigned t = m->order[i];
        plain_task *x = &m->task[t];
        if (!(by = offers(p->body + 8 * x->row, c, 0))) { m->order[kept++] = (uint8_t)t; continue; }
        got(x, 0, 0, get2(by + (by[0] == 5 ? 6 : 4)));
        x->status = 0;
    }
    woken = m->waiting - kept;
    if (woken == 0 && first_waiter(m, p, c, 1, &by) >= 0) return fault(m, me, 4, c);
    m->waiting = (uint8_t)kept;
    m->chan[c].closed = 1;
    m->task[me].row = (uint16_t)next;
    return event(6, c, woken, 255);
}
static int is_ready(const plain_machine *m, const parts_t *p, const uint8_t *r) {
    const uint8_t *by;
    unsigned c = r[1];
    if (c == 255) return 0;
    const plain_chan *k = &m->chan[c];
    if (r[0] == 11) return k->len || k->closed || first_waiter(m, p, c, 1, &by) >= 0;
    return k->closed || k->len < p->body[8 * p->rows + c] || first_waiter(m, p, c, 0, &by) >= 0;
}
static plain_event operate(plain_machine *m, const parts_t *p, unsigned me, const uint8_t *r) {
    unsigned next = get2(r + 4);
    if (r[0] == 3 || r[0] == 11) return receive_on(m, p, me, r[1], next, next);
    return send_on(m, p, me, r[1], sent_by(&m->task[me], r), next);
}
static plain_event select_one(plain_machine *m, const parts_t *p, unsigned me, const uint8_t *r, unsigned choice) {
    uint8_t ready[8];
    unsigned n = 0;
    for (unsigned k = 1; k <= r[1]; k++) if (is_ready(m, p, r + 8 * k)) ready[n++] = (uint8_t)k;
    if (n) return operate(m, p, me, r + 8 * ready[choice % n]);
    if (!r[2]) return wait_here(m, me);
    m->task[me].row = (uint16_t)get2(r + 4);
    return event(8, 255, 0, 255);
}
static plain_event act(plain_machine *m, const parts_t *p, unsigned me, unsigned choice) {
    plain_task *x = &m->task[me];
    const uint8_t *r = p->body + 8 * x->row;
    unsigned next = get2(r + 4), other = get2(r + 6);
    switch (r[0]) {
    case 4: return close_on(m, p, me, r[1], next);
    case 5: return receive_on(m, p, me, r[1], next, other);
    case 6: {
        uint8_t *laps = &x->laps[r[1]];
        int more = *laps < get2(r + 2);
        *laps = (uint8_t)(more ? *laps + 1 : 0);
        x->row = (uint16_t)(more ? next : other);
        return event(8, 255, 0, 255);
    }
    case 7: x->row = (uint16_t)(x->ok ? next : other); return event(8, 255, 0, 255);
    case 8: return select_one(m, p, me, r, choice);
    case 12: x->status = 2; return event(9, 255, 0, 255);
    default: return operate(m, p, me, r);
    }
}
static int can_wait(const uint8_t *r) { return (r[0] >= 1 && r[0] <= 3) || r[0] == 5 || (r[0] == 8 && r[2] == 0); }
static int fits(const plain_machine *m, const parts_t *p) {
    unsigned named = 0; /* a bit for each task that the order names */
    if (m->tasks != p->tasks || m->channels != p->channels || m->fault > 4 || m->waiting > 16) return 0;
    for (unsigned i = 0; i < m->waiting; i++) {
        unsigned t = m->order[i];
        if (t >= m->tasks || (named >> t & 1)) return 0;
        named |= 1u << t;
    }
    for (unsigned t = 0; t < m->tasks; t++) {
        const plain_task *x = &m->task[t];
        if (!is_target(p, x->row)) return 0;
        if ((named >> t & 1) != (x->status == 1)) return 0;
        if (x->status == 1 && !can_wait(p->body + 8 * x->row)) return 0;
    }
    for (unsigned c = 0; c < m->channels; c++) if (m->chan[c].len > p->body[8 * p->rows + c]) return 0;
    return 1;
}
int plain_fits(const uint8_t *body, unsigned rows, unsigned channels, unsigned tasks, const plain_machine *m) {
    parts_t p = {body, rows, channels, tasks};
    return fits(m, &p);
}
uint8_t plain_start(const uint8_t *image, size_t n, plain_machine *m) {
    parts_t p;
    size_t place;
    uint8_t bad = check_parts(image, n, &p, &place);
    if (bad) return bad;
    *m = (plain_machine){.tasks = (uint8_t)p.tasks, .channels = (uint8_t)p.channels};
    for (unsigned t = 0; t < p.tasks; t++) m->task[t].row = (uint16_t)get2(p.body + 8 * p.rows + p.channels + 2 * t);
    return 0;
}
/* The turn alone, on an image and a machine that are known to be good: what the library's step does. */
plain_event plain_step(const uint8_t *body, unsigned rows, plain_machine *m, unsigned t, unsigned choice) {
    parts_t p = {body, rows, m->channels, m->tasks};
    unsigned refused = m->fault ? 13 : t >= m->tasks ? 14 : m->task[t].status == 2 ? 16 : m->task[t].status == 1 ? 15 : 0;
    if (refused) return event(refused, 255, 0, 255);
    plain_event e = act(m, &p, t, choice);
    m->stamp++;
    return e;
}
plain_event plain_turn(const uint8_t *image, size_t n, plain_machine *m, unsigned t, unsigned choice) {
    parts_t p;
    size_t place;
    uint8_t bad = check_parts(image, n, &p, &place);
    if (bad) return event(bad, 255, 0, 255);
    if (!fits(m, &p)) return event(17, 255, 0, 255);
    return plain_step(p.body, p.rows, m, t, choice);
}
plain_refusal plain_schedule(const uint8_t *image, size_t n, plain_machine *m, const uint8_t *pairs, size_t pairs_n, uint8_t *records, size_t room) {
    parts_t p;
    size_t place;
    uint8_t bad = check_parts(image, n, &p, &place);
    if (bad) return (plain_refusal){bad, place};
    if (!fits(m, &p)) return (plain_refusal){17, 0};
    if (pairs_n % 2) return (plain_refusal){30, 0};
    if (room < 3 * pairs_n) return (plain_refusal){31, 3 * pairs_n};
    for (const uint8_t *end = pairs + pairs_n; pairs < end; pairs += 2, records += 6) {
        plain_event e = plain_step(p.body, p.rows, m, pairs[0], pairs[1]);
        records[0] = e.number;
        records[1] = pairs[0];
        records[2] = e.channel;
        put2(records + 3, e.value);
        records[5] = e.partner;
    }
    return (plain_refusal){0, 3 * pairs_n};
}
