// Budišin's correlator: each sample goes through the kernel and the stages, each with its delay line.
#include "correlators.h"
#include <string.h>

struct stage {
    int delay, code;
    unsigned next;
    struct sample line[128];
};

struct cascade {
    int kernel, stages;
    unsigned next;
    struct sample latest[16]; // the latest samples, for the ten-entry kernel
    struct stage stage[MOST_STAGES];
};

static const signed char ten_a[10] = {1, 1, -1, 1, -1, 1, -1, -1, 1, 1};
static const signed char ten_b[10] = {1, 1, -1, 1, 1, 1, 1, 1, -1, -1};

static void set_up(struct cascade *c, const struct sounding *s) {
    memset(c, 0, sizeof *c);
    c->kernel = s->kernel;
    c->stages = s->stages;
    for (int i = 0; i < s->stages; i++) {
        c->stage[i].delay = s->delay[i];
        c->stage[i].code = s->code[i];
    }
}

// Both sums of the ten latest samples, the latest with the last entry of each code.
static void push_ten(struct cascade *c, struct sample x, struct sample *p, struct sample *q) {
    *p = *q = (struct sample){0, 0};
    c->latest[c->next++ & 15] = x;
    for (unsigned i = 0; i < 10; i++) {
        struct sample v = c->latest[(c->next - 1 - i) & 15];
        p->x += ten_a[9 - i] * v.x;
        p->y += ten_a[9 - i] * v.y;
        q->x += ten_b[9 - i] * v.x;
        q->y += ten_b[9 - i] * v.y;
    }
}

// The value times the conjugate of a root: 1 and -1 for hall, 1, i, -1 and -i for radio.
static struct sample turned(int kind, int code, struct sample v) {
    if (kind == HALL)
        code *= 2;
    switch (code) {
    case 0: return v;
    case 1: return (struct sample){v.y, -v.x};
    case 2: return (struct sample){-v.x, -v.y};
    default: return (struct sample){-v.y, v.x};
    }
}

static void push(struct cascade *c, int kind, struct sample x, struct sample *out_p, struct sample *out_q) {
    struct sample p = x, q = x;
    if (c->kernel == 10)
        push_ten(c, x, &p, &q);
    for (int i = 0; i < c->stages; i++) {
        struct stage *s = &c->stage[i];
        struct sample u = turned(kind, s->code, s->line[(s->next - (unsigned)s->delay) & 127]);
        s->line[s->next++ & 127] = p;
        p = (struct sample){u.x + q.x, u.y + q.y};
        q = (struct sample){u.x - q.x, u.y - q.y};
    }
    *out_p = p;
    *out_q = q;
}

static int take_record(const struct sounding *s, const uint8_t *bytes, int second, struct sums *sums) {
    struct cascade c;
    set_up(&c, s);
    for (int t = 0; t < s->samples; t++) {
        struct sample x = {word_at(bytes), 0}, p, q;
        bytes += 2;
        if (s->kind == RADIO) {
            x.y = word_at(bytes);
            bytes += 2;
        }
        if (x.x == -32768 || x.y == -32768)
            return 0;
        push(&c, s->kind, x, &p, &q);
        int k = t - (s->span - 1);
        if (k >= 0) {
            sums->x[k] += second ? q.x : p.x;
            sums->y[k] += second ? q.y : p.y;
        }
    }
    return 1;
}

int budisin_sums(const struct sounding *s, struct sums *sums) {
    memset(sums, 0, sizeof *sums);
    return take_record(s, s->records, 0, sums) &&
           take_record(s, s->records + 2 * s->kind * s->samples, 1, sums);
}
