// Direct correlation: each sum from its definition, with both codes written out.
#include "correlators.h"
#include <string.h>

static struct sample times(struct sample v, struct sample w) {
    return (struct sample){v.x * w.x - v.y * w.y, v.x * w.y + v.y * w.x};
}

void make_codes(const struct sounding *s, struct codes *codes) {
    static const char *a = "++-+-+--++", *b = "++-+++++--";
    static const struct sample roots[4] = {{1, 0}, {0, 1}, {-1, 0}, {0, -1}};
    int span = s->kernel;
    memset(codes, 0, sizeof *codes);
    for (int k = 0; k < span; k++) {
        codes->a[k].x = a[k] == '+' ? 1 : -1;
        codes->b[k].x = b[k] == '+' ? 1 : -1;
    }
    for (int i = 0; i < s->stages; i++) {
        struct sample w = roots[s->kind == HALL ? 2 * s->code[i] : s->code[i]];
        struct codes old = *codes;
        for (int k = 0; k < span + s->delay[i] && k < MOST_SPAN; k++) {
            struct sample early = k < span ? times(w, old.a[k]) : (struct sample){0, 0};
            struct sample late = k < s->delay[i] ? (struct sample){0, 0} : old.b[k - s->delay[i]];
            codes->a[k] = (struct sample){early.x + late.x, early.y + late.y};
            codes->b[k] = (struct sample){early.x - late.x, early.y - late.y};
        }
        span += s->delay[i];
    }
}

static int read_record(const struct sounding *s, const uint8_t *bytes, int32_t *x, int32_t *y) {
    for (int t = 0; t < s->samples; t++) {
        x[t] = word_at(bytes + 2 * s->kind * t);
        y[t] = s->kind == RADIO ? word_at(bytes + 4 * t + 2) : 0;
        if (x[t] == -32768 || y[t] == -32768)
            return 0;
    }
    return 1;
}

// Adds the sums over j of conj(code[j]) times record[k + j].
static void correlate(const struct sounding *s, const struct sample *code, const int32_t *x, const int32_t *y, struct sums *sums) {
    for (int j = 0; j < s->span; j++) {
        int32_t u = code[j].x, v = code[j].y;
        if (s->kind == HALL) {
            for (int k = 0; k < s->room; k++)
                sums->x[k] += u * x[k + j];
        } else {
            for (int k = 0; k < s->room; k++) {
                sums->x[k] += u * x[k + j] + v * y[k + j];
                sums->y[k] += u * y[k + j] - v * x[k + j];
            }
        }
    }
}

int direct_sums(const struct sounding *s, struct sums *sums) {
    struct codes codes;
    int32_t x[MOST_SAMPLES], y[MOST_SAMPLES];
    make_codes(s, &codes);
    memset(sums, 0, sizeof *sums);
    if (!read_record(s, s->records, x, y))
        return 0;
    correlate(s, codes.a, x, y, sums);
    if (!read_record(s, s->records + 2 * s->kind * s->samples, x, y))
        return 0;
    correlate(s, codes.b, x, y, sums);
    return 1;
}
