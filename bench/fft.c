// Correlation by FFTW: both records and both codes transformed, multiplied and transformed back.
// The plans are made once and kept; the codes are transformed anew for each sounding, as they are made anew by the others.
#include "correlators.h"
#include <complex.h>
#include <fftw3.h>
#include <math.h>
#include <string.h>

enum { POINTS = 512 }; // at least as many as a record has samples

static fftw_complex *code_points, *record_points, *sum_points;
static fftw_plan code_plan, record_plan, back_plan;

static void make_plans(void) {
    code_points = fftw_alloc_complex(POINTS);
    record_points = fftw_alloc_complex(POINTS);
    sum_points = fftw_alloc_complex(POINTS);
    code_plan = fftw_plan_dft_1d(POINTS, code_points, code_points, FFTW_FORWARD, FFTW_MEASURE);
    record_plan = fftw_plan_dft_1d(POINTS, record_points, record_points, FFTW_FORWARD, FFTW_MEASURE);
    back_plan = fftw_plan_dft_1d(POINTS, sum_points, sum_points, FFTW_BACKWARD, FFTW_MEASURE);
}

static int transform_record(const struct sounding *s, const uint8_t *bytes) {
    memset(record_points, 0, POINTS * sizeof *record_points);
    for (int t = 0; t < s->samples; t++) {
        int32_t x = word_at(bytes + 2 * s->kind * t);
        int32_t y = s->kind == RADIO ? word_at(bytes + 4 * t + 2) : 0;
        if (x == -32768 || y == -32768)
            return 0;
        record_points[t] = x + I * y;
    }
    fftw_execute(record_plan);
    return 1;
}

static void transform_code(const struct sounding *s, const struct sample *code) {
    memset(code_points, 0, POINTS * sizeof *code_points);
    for (int k = 0; k < s->span; k++)
        code_points[k] = code[k].x + I * code[k].y;
    fftw_execute(code_plan);
}

static void add_product(void) {
    for (int k = 0; k < POINTS; k++)
        sum_points[k] += conj(code_points[k]) * record_points[k];
}

int fft_sums(const struct sounding *s, struct sums *sums) {
    struct codes codes;
    if (!code_points)
        make_plans();
    make_codes(s, &codes);
    memset(sum_points, 0, POINTS * sizeof *sum_points);
    if (!transform_record(s, s->records))
        return 0;
    transform_code(s, codes.a);
    add_product();
    if (!transform_record(s, s->records + 2 * s->kind * s->samples))
        return 0;
    transform_code(s, codes.b);
    add_product();
    fftw_execute(back_plan);
    for (int k = 0; k < s->room; k++) {
        sums->x[k] = (int32_t)lrint(creal(sum_points[k]) / POINTS);
        sums->y[k] = (int32_t)lrint(cimag(sum_points[k]) / POINTS);
    }
    return 1;
}
