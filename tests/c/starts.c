/* Times power-on, and the CRC in it, of each library that is named, beside the same CRC in plain C: all in turns, in one run. So a library of
 * before a change is compared with one of after it. tools/benchmark builds and runs it.
 *
 *     starts LIBRARY.so ..
 *
 * The CRC alone is the time of a power-on that is refused with 22, the CRC, less that of one refused with 21, the signature, which is looked
 * at just before. One line each: words, and nanoseconds, the middle of the runs. */
#define _POSIX_C_SOURCE 200809L
#include "part.h"

#include <dlfcn.h>
#include <stdio.h>
#include <stdlib.h>
#include <time.h>

enum { RUNS = 2001, CALLS = 16, MOST = 4 };

typedef uint32_t power_on(nib_target *, const uint8_t *, size_t, uint8_t, const uint8_t *, size_t, uint8_t *, size_t, const uint8_t *, size_t,
                          const uint8_t *, size_t);

typedef struct start {
    uint8_t page[NIB_PAGE_LENGTH];
    nib_lent b;
    uint32_t answer;
} start;

static double now(void)
{
    struct timespec t;
    clock_gettime(CLOCK_MONOTONIC, &t);
    return 1e9 * (double)t.tv_sec + (double)t.tv_nsec;
}

static void must(int holds, const char *what)
{
    if (!holds) {
        fprintf(stderr, "starts: %s\n", what);
        exit(1);
    }
}

static uint8_t *zeros(size_t n)
{
    uint8_t *p = calloc(n + !n, 1);
    must(p != NULL, "no memory");
    return p;
}

static void open_start(start *s, const fields *f, uint32_t answer)
{
    make_page(s->page, f);
    nib_part part = nib_part_of(s->page);
    nib_lent b = {s->page, sizeof s->page, zeros(nib_array_length(part)), nib_array_length(part), zeros(nib_registers_length(part)),
                  nib_registers_length(part), zeros(nib_counts_length(part)), nib_counts_length(part), zeros(nib_flags_length(part)),
                  nib_flags_length(part)};
    s->b = b;
    s->answer = answer;
    if (answer == 21)
        s->page[0] ^= 1;
    if (answer == 22)
        s->page[255] ^= 1;
}

static double timed_start(power_on *call, const start *s)
{
    nib_target t;
    const nib_lent *b = &s->b;
    uint32_t wrong = 0;
    double from = now();
    for (unsigned i = 0; i < CALLS; i++)
        wrong |= s->answer ^ call(&t, b->page, b->page_length, DEVICE, b->array, b->array_length, b->registers, b->registers_length, b->counts,
                                  b->counts_length, b->flags, b->flags_length);
    double took = now() - from;
    must(wrong == 0, "power-on's answer");
    return took / CALLS;
}

/* ---- The CRC in plain C: by a table, a byte a step, and bit by bit ---- */

static uint16_t table[256];

static uint16_t eight_steps(uint16_t crc)
{
    for (unsigned bit = 0; bit < 8; bit++)
        crc = (uint16_t)(crc & 0x8000 ? crc << 1 ^ 0x8005 : crc << 1);
    return crc;
}

static __attribute__((noinline)) uint16_t crc_by_table(const uint8_t *s, size_t n)
{
    uint16_t crc = 0x4F4E;
    for (size_t i = 0; i < n; i++)
        crc = (uint16_t)(crc << 8 ^ table[crc >> 8 ^ s[i]]);
    return crc;
}

static __attribute__((noinline)) uint16_t crc_by_bits(const uint8_t *s, size_t n)
{
    uint16_t crc = 0x4F4E;
    for (size_t i = 0; i < n; i++)
        crc = eight_steps((uint16_t)(crc ^ s[i] << 8));
    return crc;
}

static double timed_crc(uint16_t (*crc)(const uint8_t *, size_t), const uint8_t *page)
{
    unsigned wrong = 0, stored = page[254] | page[255] << 8;
    double from = now();
    for (unsigned i = 0; i < CALLS; i++) {
        __asm__ volatile("" : : "r"(page) : "memory");
        wrong |= stored ^ crc(page, 254);
    }
    double took = now() - from;
    must(wrong == 0, "a CRC");
    return took / CALLS;
}

static int rising(const void *a, const void *b)
{
    double x = *(const double *)a, y = *(const double *)b;
    return (x > y) - (x < y);
}

static double middle(double *t)
{
    qsort(t, RUNS, sizeof *t, rising);
    return t[RUNS / 2];
}

int main(int argc, char **argv)
{
    static const fields wide = {8192, 448, 256, 16, 1, 4, 0x100, OPTIONAL_ALL};
    static double t[MOST][4][RUNS], plain[2][RUNS];
    static start starts[4];
    power_on *call[MOST];
    int libraries = argc - 1;

    must(1 <= libraries && libraries <= MOST, "one to four libraries are named");
    for (int l = 0; l < libraries; l++) {
        void *opened = dlopen(argv[1 + l], RTLD_NOW | RTLD_LOCAL);
        must(opened != NULL, argv[1 + l]);
        *(void **)&call[l] = dlsym(opened, "nib_power_on");
        must(call[l] != NULL, "no nib_power_on");
    }
    for (unsigned i = 0; i < 256; i++)
        table[i] = eight_steps((uint16_t)(i << 8));
    open_start(&starts[0], &T1, 21);
    open_start(&starts[1], &T1, 22);
    open_start(&starts[2], &T1, 0);
    open_start(&starts[3], &wide, 0);
    for (unsigned run = 0; run < RUNS; run++) {
        for (int l = 0; l < libraries; l++)
            for (unsigned k = 0; k < 4; k++)
                t[l][k][run] = timed_start(call[l], &starts[k]);
        plain[0][run] = timed_crc(crc_by_table, starts[2].page);
        plain[1][run] = timed_crc(crc_by_bits, starts[2].page);
    }
    for (int l = 0; l < libraries; l++) {
        double signature = middle(t[l][0]);
        printf("start %s crc %.1f T1 %.1f 8640 %.1f\n", argv[1 + l], middle(t[l][1]) - signature, middle(t[l][2]), middle(t[l][3]));
    }
    printf("start plain table %.1f bits %.1f\n", middle(plain[0]), middle(plain[1]));
    return 0;
}
