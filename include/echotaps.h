// The library for programs in C: crates/echotaps_c, built by `rt lib` there as out/libechotaps_c.a.
#ifndef ECHOTAPS_H
#define ECHOTAPS_H

#include <stddef.h>
#include <stdint.h>

// Reads a sounding file and writes its report at the front of `out`, whose rest is kept. The answer is the length of
// the report, or minus the number of the refusal, and then `out` is left as it was. No heap is used, and nothing is
// kept between calls. The two blocks must not overlap.
int64_t echotaps_report(const uint8_t *file, size_t file_length, uint8_t *out, size_t out_length);

#endif
