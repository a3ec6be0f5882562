// Times one sounding, from the bytes of its file to the bytes of its report, by each method: bench [ROUNDS]
#include "../include/echotaps.h"
#include "correlators.h"
#include <pthread.h>
#include <stdio.h>
#include <stdlib.h>
#include <string.h>
#include <time.h>

enum { MOST_FILE = 3336, MOST_REPORT = 1030, RUNS = 21, METHODS = 4, STACK = 1 << 18 };

struct method {
    const char *name;
    int (*sums)(const struct sounding *, struct sums *); // none: the library
};

static const struct method methods[METHODS] = {
    {"library", 0},
    {"plain C, stage by stage", budisin_sums},
    {"plain C, direct", direct_sums},
#ifdef WITH_FFTW
    {"FFTW", fft_sums},
#endif
};

static size_t report_by(const struct method *m, const uint8_t *file, size_t length, uint8_t *out) {
    if (!m->sums) {
        int64_t answer = echotaps_report(file, length, out, MOST_REPORT);
        return answer < 0 ? 0 : (size_t)answer;
    }
    struct sounding s;
    struct sums sums;
    if (!read_sounding(file, length, &s) || !m->sums(&s, &sums))
        return 0;
    return write_taps(&s, &sums, out);
}

// Whole numbers in no order, the same in every run.
static uint32_t next_number(uint32_t *seed) {
    *seed = *seed * 1664525u + 1013904223u;
    return *seed >> 8;
}

// A file of this kind and kernel with as many stages as the kernel allows, room length 256 and records of any samples.
static size_t make_file(int kind, int kernel, uint32_t seed, uint8_t *file) {
    int stages = kernel == 1 ? 7 : 4;
    int samples = (kernel << stages) + MOST_ROOM - 1;
    size_t length = 8 + 2 * (size_t)stages + 4 * (size_t)kind * (size_t)samples;
    uint8_t *next = file;
    *next++ = 1;
    *next++ = (uint8_t)((length - 3) >> 8);
    *next++ = (uint8_t)(length - 3);
    *next++ = (uint8_t)kind;
    *next++ = (uint8_t)kernel;
    *next++ = (uint8_t)stages;
    for (int i = 0; i < stages; i++) {
        int place = (3 * i + 1) % stages; // the delays in another order than by size
        *next++ = (uint8_t)(kernel << place);
        *next++ = (uint8_t)(next_number(&seed) % (2 * (unsigned)kind));
    }
    *next++ = MOST_ROOM >> 8;
    *next++ = MOST_ROOM & 255;
    for (int t = 0; t < 2 * kind * samples; t++) {
        int32_t word = (int32_t)(next_number(&seed) % 65535u) - 32767;
        *next++ = (uint8_t)(word >> 8);
        *next++ = (uint8_t)word;
    }
    return length;
}

static double now(void) {
    struct timespec t;
    clock_gettime(CLOCK_MONOTONIC, &t);
    return (double)t.tv_sec * 1e6 + (double)t.tv_nsec / 1e3;
}

static int by_size(const void *a, const void *b) {
    double x = *(const double *)a, y = *(const double *)b;
    return (x > y) - (x < y);
}

// Microseconds for one sounding: the medians of RUNS runs of `rounds` soundings, the methods in turn in each run.
static void measure(const uint8_t *file, size_t length, int rounds, int count, double *medians) {
    static double times[METHODS][RUNS];
    static uint8_t out[MOST_REPORT];
    for (int run = 0; run < RUNS; run++)
        for (int m = 0; m < count; m++) {
            double start = now();
            for (int i = 0; i < rounds; i++)
                report_by(&methods[m], file, length, out);
            times[m][run] = (now() - start) / rounds;
        }
    for (int m = 0; m < count; m++) {
        qsort(times[m], RUNS, sizeof times[m][0], by_size);
        medians[m] = times[m][RUNS / 2];
    }
}

static int same_reports(const uint8_t *file, size_t length, int count) {
    uint8_t first[MOST_REPORT], out[MOST_REPORT];
    size_t size = report_by(&methods[0], file, length, first);
    for (int m = 1; m < count; m++)
        if (size == 0 || report_by(&methods[m], file, length, out) != size || memcmp(first, out, size) != 0)
            return 0;
    return 1;
}

static uint8_t one_file[MOST_FILE];
static size_t one_length;

static void *one_report(void *unused) {
    uint8_t out[MOST_REPORT];
    (void)unused;
    report_by(&methods[0], one_file, one_length, out);
    return 0;
}

static void *no_report(void *unused) {
    uint8_t out[MOST_REPORT];
    (void)unused;
    memset(out, 0, sizeof out);
    return out[one_length % MOST_REPORT] ? one_file : 0;
}

// How many bytes of a stack a thread writes that runs this.
static size_t stack_of(void *(*run)(void *)) {
    static uint8_t stack[STACK] __attribute__((aligned(4096)));
    pthread_attr_t attributes;
    pthread_t thread;
    size_t kept = 0;
    memset(stack, 0xA5, sizeof stack);
    pthread_attr_init(&attributes);
    pthread_attr_setstack(&attributes, stack, sizeof stack);
    if (pthread_create(&thread, &attributes, run, 0) == 0)
        pthread_join(thread, 0);
    pthread_attr_destroy(&attributes);
    while (kept < sizeof stack && stack[kept] == 0xA5)
        kept++;
    return sizeof stack - kept;
}

static void print_stack(void) {
    size_t most = 0, none = stack_of(no_report);
    for (int i = 0; i < 4; i++) {
        one_length = make_file(i < 2 ? HALL : RADIO, i % 2 ? 10 : 1, 7, one_file);
        size_t used = stack_of(one_report);
        most = used > most ? used : most;
    }
    printf("stack of the library's call: %zu bytes\n", most - none);
}

// One kind and kernel: the reports of many files compared, one of them timed.
static int measure_all(int kind, int kernel, int rounds) {
    static uint8_t file[MOST_FILE];
    const char *name = kind == HALL ? "hall" : "radio";
    double medians[METHODS];
    int count = METHODS;
    while (!methods[count - 1].name)
        count--;
    for (uint32_t seed = 1; seed <= 50; seed++)
        if (!same_reports(file, make_file(kind, kernel, seed, file), count)) {
            printf("%s, kernel %d, seed %u: the reports differ\n", name, kernel, seed);
            return 0;
        }
    measure(file, make_file(kind, kernel, 7, file), rounds, count, medians);
    printf("%s, span %d, room length %d\n", name, kernel == 1 ? 128 : 160, MOST_ROOM);
    for (int m = 0; m < count; m++)
        printf("  %-24s %8.2f us   library / this %6.2f\n", methods[m].name, medians[m], medians[0] / medians[m]);
    return 1;
}

int main(int argc, char **argv) {
    int rounds = argc > 1 ? atoi(argv[1]) : 400;
    for (int i = 0; i < 4; i++)
        if (!measure_all(i < 2 ? HALL : RADIO, i % 2 ? 10 : 1, rounds))
            return 1;
    print_stack();
    return 0;
}
