// Sounding files and reports in plain C, with the least that a program on a controller would test.
#include "correlators.h"

int read_sounding(const uint8_t *file, size_t length, struct sounding *s) {
    if (length < 8 || file[0] != 1 || (size_t)(file[1] << 8 | file[2]) != length - 3)
        return 0;
    s->kind = file[3];
    s->kernel = file[4];
    s->stages = file[5];
    if ((s->kind != HALL && s->kind != RADIO) || (s->kernel != 1 && s->kernel != 10))
        return 0;
    if (s->stages > (s->kernel == 1 ? 7 : 4) || length < 8 + 2 * (size_t)s->stages)
        return 0;
    int delays = 0;
    for (int i = 0; i < s->stages; i++) {
        s->delay[i] = file[6 + 2 * i];
        s->code[i] = file[7 + 2 * i];
        delays |= s->delay[i] / s->kernel;
        if (s->delay[i] % s->kernel != 0 || s->code[i] >= 2 * s->kind)
            return 0;
    }
    if (delays != (1 << s->stages) - 1)
        return 0;
    const uint8_t *room = file + 6 + 2 * s->stages;
    s->room = room[0] << 8 | room[1];
    s->span = s->kernel << s->stages;
    s->samples = s->span + s->room - 1;
    s->records = room + 2;
    if (s->room < 1 || s->room > MOST_ROOM)
        return 0;
    return length == 8 + 2 * (size_t)s->stages + 2 * 2 * (size_t)s->kind * (size_t)s->samples;
}

// z / e rounded to the nearest, halves away from zero.
static int32_t rounded(int32_t z, int32_t e) {
    int32_t magnitude = z < 0 ? -z : z;
    int32_t nearest = (2 * magnitude + e) / (2 * e);
    return z < 0 ? -nearest : nearest;
}

static uint8_t *write_word(uint8_t *out, int32_t word) {
    out[0] = (uint8_t)(word >> 8);
    out[1] = (uint8_t)word;
    return out + 2;
}

size_t write_taps(const struct sounding *s, const struct sums *sums, uint8_t *out) {
    int32_t energy = 2 * s->span;
    uint8_t *next = out;
    *next++ = 1;
    next = write_word(next, 3 + 2 * s->kind * s->room);
    *next++ = (uint8_t)s->kind;
    next = write_word(next, s->room);
    for (int k = 0; k < s->room; k++) {
        next = write_word(next, rounded(sums->x[k], energy));
        if (s->kind == RADIO)
            next = write_word(next, rounded(sums->y[k], energy));
    }
    return (size_t)(next - out);
}
