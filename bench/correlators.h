// Correlators of two records over a Golay pair: the same sounding by four methods.
#ifndef CORRELATORS_H
#define CORRELATORS_H

#include <stddef.h>
#include <stdint.h>

enum { HALL = 1, RADIO = 2 };
enum { MOST_STAGES = 7, MOST_SPAN = 160, MOST_ROOM = 256 };
enum { MOST_SAMPLES = MOST_SPAN + MOST_ROOM - 1 };

// A sample x + iy; the y of a hall sample is 0.
struct sample {
    int32_t x, y;
};

// What a sounding file says.
struct sounding {
    int kind, kernel, stages, room;
    int delay[MOST_STAGES], code[MOST_STAGES];
    int span, samples;
    const uint8_t *records;
};

// The sums of a sounding, and both codes for the methods that need them.
struct sums {
    int32_t x[MOST_ROOM], y[MOST_ROOM];
};

struct codes {
    struct sample a[MOST_SPAN], b[MOST_SPAN];
};

// Fills the fields from a file. The answer is 0 if the file is none of these: whole, with a key and a room length in range.
int read_sounding(const uint8_t *file, size_t length, struct sounding *s);

// Writes the report of the sums, and answers its length.
size_t write_taps(const struct sounding *s, const struct sums *sums, uint8_t *out);

void make_codes(const struct sounding *s, struct codes *codes);

// Each reads the records and gives the sums, or answers 0 at a word of -32,768.
int budisin_sums(const struct sounding *s, struct sums *sums);
int direct_sums(const struct sounding *s, struct sums *sums);
int fft_sums(const struct sounding *s, struct sums *sums);

// A word of a record: two bytes, the high one first.
static inline int32_t word_at(const uint8_t *bytes) {
    return (int16_t)(bytes[0] << 8 | bytes[1]);
}

#endif
