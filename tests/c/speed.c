/* Times the proved library and the plain C model of judge/ on the same records in the same run. tools/benchmark builds and runs it,
 * and makes a table of what it writes: one line for each measurement, words and nanoseconds.
 *
 *     speed                all of it
 *     speed TRACE COUNT    the proved library alone, on one trace (data, commands, refusals, jobs), so many times, for a profiler
 */
#define _POSIX_C_SOURCE 200809L
#include "part.h"
#include "plain.h"

#include <stdio.h>
#include <stdlib.h>
#include <time.h>

static double now(void)
{
    struct timespec t;
    clock_gettime(CLOCK_MONOTONIC, &t);
    return 1e9 * (double)t.tv_sec + (double)t.tv_nsec;
}

static void *bytes(size_t n, int fill)
{
    void *p = malloc(n + !n);
    if (!p)
        exit(2);
    return memset(p, fill, n);
}

static void must(int holds, const char *what)
{
    if (!holds) {
        fprintf(stderr, "speed: %s\n", what);
        exit(1);
    }
}

/* A part twice: once for each model. */
typedef struct side {
    nib_target t;
    struct plain_target plain;
    uint8_t *array, *registers, *counts;
} side;

typedef struct pair {
    nib_part part;
    uint8_t page[NIB_PAGE_LENGTH];
    uint8_t *flags;
    side proved, plain, libc;   /* the last for memcpy and memset alone */
} pair;

static void fresh(const pair *p, side *s)
{
    s->array = bytes(nib_array_length(p->part), 0xFF);
    s->registers = bytes(nib_registers_length(p->part), 0);
    s->counts = bytes(nib_counts_length(p->part), 0);
}

static nib_lent lent(const pair *p, const side *s)
{
    nib_lent b = {p->page, sizeof p->page, s->array, nib_array_length(p->part), s->registers, nib_registers_length(p->part),
                  s->counts, nib_counts_length(p->part), p->flags, nib_flags_length(p->part)};
    return b;
}

static uint32_t power(pair *p, int proved)
{
    nib_lent b = lent(p, proved ? &p->proved : &p->plain);
    return proved ? nib_lent_power_on(&p->proved.t, &b, DEVICE)
                  : plain_power_on(&p->plain.plain, b.page, b.page_length, DEVICE, b.array, b.array_length, b.registers, b.registers_length,
                                   b.counts, b.counts_length, b.flags, b.flags_length);
}

static void open_pair(pair *p, const fields *f)
{
    make_page(p->page, f);
    p->part = nib_part_of(p->page);
    p->flags = bytes(nib_flags_length(p->part), 0);
    fresh(p, &p->proved);
    fresh(p, &p->plain);
    fresh(p, &p->libc);
    must(power(p, 1) == 0 && power(p, 0) == 0, "power-on");
}

static uint32_t run_trace(pair *p, int proved, const uint8_t *in, size_t n, uint8_t *out)
{
    nib_lent b = lent(p, proved ? &p->proved : &p->plain);
    return proved ? nib_lent_trace(&p->proved.t, &b, in, n, out, n)
                  : plain_trace(&p->plain.plain, in, n, out, n, b.page, b.page_length, b.array, b.array_length, b.registers,
                                b.registers_length, b.counts, b.counts_length, b.flags, b.flags_length);
}

static uint32_t one(pair *p, int proved, uint8_t kind, uint8_t value)
{
    nib_lent b = lent(p, proved ? &p->proved : &p->plain);
    return proved ? nib_lent_event(&p->proved.t, &b, kind, value)
                  : plain_event(&p->plain.plain, kind, value, b.page, b.page_length, b.array, b.array_length, b.registers, b.registers_length,
                                b.counts, b.counts_length, b.flags, b.flags_length);
}

/* ---- Traces ---- */

typedef struct trace {
    uint8_t *to;
    size_t n, room;
} trace;

static void add(trace *w, unsigned kind, uint32_t value)
{
    if (w->n + 2 > w->room) {
        w->room = 2 * w->room + 4096;
        w->to = realloc(w->to, w->room);
        must(w->to != NULL, "no memory");
    }
    w->to[w->n++] = (uint8_t)kind;
    w->to[w->n++] = (uint8_t)value;
}

static void addresses(trace *w, uint32_t n, unsigned count)
{
    for (unsigned i = 0; i < count; i++)
        add(w, NIB_ADDRESS, n >> (8 * i));
}

/* Each page programmed in full and read back in full, each block erased first. */
static trace data_trace(const pair *p)
{
    trace w = {NULL, 0, 0};
    uint32_t x = 1;
    add(&w, 0, 0xFF);
    for (size_t l = 0; l < p->part.luns; l++)
        for (size_t b = 0; b < p->part.blocks; b++) {
            add(&w, 0, 0x60), addresses(&w, nib_row(p->part, l, b, 0), 3), add(&w, 0, 0xD0), add(&w, NIB_FINISH, (uint32_t)l);
            for (size_t g = 0; g < p->part.pages; g++) {
                uint32_t row = nib_row(p->part, l, b, g);
                add(&w, 0, 0x80), addresses(&w, 0, 2), addresses(&w, row, 3);
                for (size_t i = 0; i < p->part.page; i++)
                    add(&w, NIB_DATA_IN, (x = x * 1664525u + 1013904223u) >> 24);
                add(&w, 0, 0x10), add(&w, NIB_FINISH, (uint32_t)l);
                add(&w, 0, 0x00), addresses(&w, 0, 2), addresses(&w, row, 3), add(&w, 0, 0x30), add(&w, NIB_FINISH, (uint32_t)l);
                for (size_t i = 0; i < p->part.page; i++)
                    add(&w, NIB_DATA_OUT, 0);
            }
        }
    return w;
}

/* Short jobs on pages of 16 bytes: 80h and 10h with a byte, 00h and 30h, 60h and D0h, each with its finish, and a reset now and then. */
static trace job_trace(const pair *p)
{
    trace w = {NULL, 0, 0};
    add(&w, 0, 0xFF);
    for (uint32_t i = 0; i < 20000; i++) {
        uint32_t l = i % (uint32_t)p->part.luns, row = nib_row(p->part, l, i / 2 % p->part.blocks, i / 4 % p->part.pages);
        add(&w, 0, 0x80), addresses(&w, 0, 2), addresses(&w, row, 3), add(&w, NIB_DATA_IN, i);
        add(&w, 0, 0x10), add(&w, NIB_FINISH, l);
        add(&w, 0, 0x00), addresses(&w, 0, 2), addresses(&w, row, 3), add(&w, 0, 0x30), add(&w, NIB_FINISH, l);
        add(&w, 0, 0x60), addresses(&w, row, 3), add(&w, 0, 0xD0), add(&w, NIB_FINISH, l);
        if (i % 16 == 15)
            add(&w, 0, 0xFF);
    }
    return w;
}

/* Statuses, IDs, features, column changes, given-up reads: nothing that works on a page. */
static trace command_trace(const pair *p)
{
    trace w = {NULL, 0, 0};
    add(&w, 0, 0xFF);
    for (unsigned i = 0; i < 20000; i++) {
        uint32_t row = nib_row(p->part, i % p->part.luns, i % p->part.blocks, i % p->part.pages);
        add(&w, 0, 0x78), addresses(&w, row, 3), add(&w, NIB_DATA_OUT, 0), add(&w, NIB_DATA_OUT, 0);
        add(&w, 0, 0x70), add(&w, NIB_DATA_OUT, 0);
        add(&w, 0, 0x90), add(&w, NIB_ADDRESS, 0), add(&w, NIB_DATA_OUT, 0), add(&w, NIB_DATA_OUT, 0);
        add(&w, 0, 0xEE), add(&w, NIB_ADDRESS, 1);
        for (unsigned k = 0; k < 4; k++)
            add(&w, NIB_DATA_OUT, 0);
        add(&w, 0, 0xEF), add(&w, NIB_ADDRESS, 1);
        for (unsigned k = 0; k < 4; k++)
            add(&w, NIB_DATA_IN, k == 0 && i % 2 ? 0x40 : 0);
        add(&w, 0, 0x06), addresses(&w, i % p->part.page, 2), addresses(&w, row, 3), add(&w, 0, 0xE0), add(&w, NIB_DATA_OUT, 0);
        add(&w, 0, 0x05), addresses(&w, 0, 2), add(&w, 0, 0xE0), add(&w, NIB_DATA_OUT, 0);
        add(&w, NIB_PROTECT, i % 2), add(&w, NIB_PROTECT, 1);
    }
    return w;
}

/* Two refused records of three, of every rule that one event or a short job meets. */
static trace refusal_trace(const pair *p)
{
    trace w = {NULL, 0, 0};
    uint32_t far = nib_row(p->part, p->part.luns, 0, 0);
    add(&w, 0, 0xFF);
    for (unsigned i = 0; i < 20000; i++) {
        add(&w, 0, 0x42), add(&w, 0, 0x30), add(&w, 1, 7), add(&w, 2, 9), add(&w, NIB_DATA_OUT, 0);
        add(&w, 0, 0x60), addresses(&w, far, 3), add(&w, 0, 0xD0);
        add(&w, 0, 0x05), addresses(&w, (uint32_t)p->part.page, 2), add(&w, 0, 0xE0);
        add(&w, 0, 0xEF), add(&w, 1, 1), add(&w, 2, 3), add(&w, 2, 0);
        add(&w, NIB_FINISH, i % 5), add(&w, NIB_PROTECT, 2), add(&w, 9, 9), add(&w, NIB_DATA_OUT, 1);
        add(&w, 0, 0x90), add(&w, NIB_PROTECT, 1), add(&w, 1, 0x77), add(&w, 1, 0x77);
    }
    return w;
}

static void time_trace(const char *name, const fields *f, trace (*make)(const pair *))
{
    enum { RUNS = 60 };
    pair p;
    open_pair(&p, f);
    trace w = make(&p);
    uint8_t *out[2] = {bytes(w.n, 0), bytes(w.n, 0)};
    double best[2] = {1e18, 1e18};
    size_t refused = 0;

    for (unsigned run = 0; run < RUNS; run++)
        for (int proved = 0; proved < 2; proved++) {
            double start = now();
            must(run_trace(&p, proved, w.to, w.n, out[proved]) == 0, "a trace's answer");
            double took = now() - start;
            if (took < best[proved])
                best[proved] = took;
        }
    must(memcmp(out[0], out[1], w.n) == 0, "the replies differ");
    must(memcmp(p.proved.array, p.plain.array, nib_array_length(p.part)) == 0, "the arrays differ");
    for (size_t i = 0; i < w.n; i += 2)
        refused += out[0][i] == 2;
    printf("trace %s records %zu refused %zu proved %.3f plain %.3f\n", name, w.n / 2, refused, best[1] / (double)(w.n / 2),
           best[0] / (double)(w.n / 2));

    /* the same, one call an event */
    size_t some = w.n < 400000 ? w.n : 400000;
    best[0] = best[1] = 1e18;
    for (unsigned run = 0; run < RUNS / 2; run++)
        for (int proved = 0; proved < 2; proved++) {
            must(power(&p, proved) == 0, "power-on");
            double start = now();
            for (size_t i = 0; i < some; i += 2)
                one(&p, proved, w.to[i], w.to[i + 1]);
            double took = now() - start;
            if (took < best[proved])
                best[proved] = took;
        }
    printf("single %s records %zu refused 0 proved %.3f plain %.3f\n", name, some / 2, best[1] / (double)(some / 2),
           best[0] / (double)(some / 2));
}

/* ---- Page work: single events, the middle of many, less the same event on a page of 16 bytes ---- */

enum { TIMES = 2001 };

static int rising(const void *a, const void *b)
{
    double x = *(const double *)a, y = *(const double *)b;
    return (x > y) - (x < y);
}

static double middle(double *t, size_t n)
{
    qsort(t, n, sizeof *t, rising);
    return t[n / 2];
}

static double clock_cost(void)
{
    double t[TIMES];
    for (unsigned i = 0; i < TIMES; i++) {
        double start = now();
        t[i] = now() - start;
    }
    return middle(t, TIMES);
}

enum work { FILL, PROGRAM, READ, ERASE, WORKS };
static const char *const work_names[] = {"fill", "program", "read", "erase"};

/* One job on one page; the time of the event that does the work. */
static double timed_work(pair *p, int proved, enum work what, unsigned turn)
{
    uint32_t row = nib_row(p->part, 0, turn / p->part.pages % p->part.blocks, turn % p->part.pages);
    uint8_t first = what == ERASE ? 0x60 : what == READ ? 0x00 : 0x80;
    double start = now(), took = 0;
    uint32_t reply = one(p, proved, 0, first);
    if (what == FILL)
        took = now() - start;
    for (unsigned i = what == ERASE ? 2 : 0; i < 5; i++)
        reply |= one(p, proved, 1, (uint8_t)(i < 2 ? 0 : row >> (8 * (i - 2))));
    if (what == FILL) {
        one(p, proved, 0, 0xFF);
        must(reply == 0, "a fill");
        return took;
    }
    start = now();
    reply |= one(p, proved, 0, what == ERASE ? 0xD0 : what == READ ? 0x30 : 0x10);
    took = now() - start;
    must(reply == 0 && one(p, proved, NIB_FINISH, 0) == 0, "page work");
    return took;
}

/* What the C library takes for the same bytes at the same places. */
static double timed_bytes(const pair *p, enum work what, unsigned turn)
{
    size_t size = p->part.page, block = size * p->part.pages;
    size_t b = turn / p->part.pages % p->part.blocks, at = nib_page_start(p->part, 0, b, turn % p->part.pages);
    double start = now();
    switch (what) {
    case FILL: memset(p->libc.registers, 0xFF, size); break;
    case PROGRAM: memcpy(p->libc.array + at, p->libc.registers, size); break;
    case READ: memcpy(p->libc.registers, p->libc.array + at, size); break;
    default: memset(p->libc.array + b * block, 0xFF, block);
    }
    __asm__ volatile("" : : : "memory");
    return now() - start;
}

/* So that no program meets a page that is full. */
static void forget_counts(pair *p)
{
    memset(p->proved.counts, 0, nib_counts_length(p->part));
    memset(p->plain.counts, 0, nib_counts_length(p->part));
}

static void time_pages(const fields *f)
{
    fields small = *f;
    pair large_part, small_part;
    double cost = clock_cost();

    small.data = 16;
    small.spare = 0;
    open_pair(&large_part, f);
    open_pair(&small_part, &small);
    for (int proved = 0; proved < 2; proved++) {
        must(one(&large_part, proved, 0, 0xFF) == 0, "FFh");
        must(one(&small_part, proved, 0, 0xFF) == 0, "FFh");
    }
    for (enum work what = FILL; what < WORKS; what++) {
        static double t[5][TIMES];
        double m[5];
        /* by turns, so that what else runs on the machine falls on all of them alike */
        for (unsigned i = 0; i < TIMES; i++) {
            forget_counts(&large_part);
            forget_counts(&small_part);
            for (int proved = 0; proved < 2; proved++) {
                t[proved][i] = timed_work(&large_part, proved, what, i);
                t[2 + proved][i] = timed_work(&small_part, proved, what, i);
            }
            t[4][i] = timed_bytes(&large_part, what, i);
        }
        for (unsigned k = 0; k < 5; k++)
            m[k] = middle(t[k], TIMES) - cost;
        printf("page %s bytes %zu proved %.1f proved-alone %.1f plain %.1f plain-alone %.1f libc %.1f\n", work_names[what],
               large_part.part.page * (what == ERASE ? large_part.part.pages : 1), m[1], m[1] - m[3], m[0], m[0] - m[2], m[4]);
    }
    must(memcmp(small_part.proved.array, small_part.plain.array, nib_array_length(small_part.part)) == 0, "the arrays differ");
}

/* A 10h for the first page of a block whose other counts are 0, so that all of them are looked at, and one for the last
 * page, above which there is none to look at. */
static void time_order(const char *name, const fields *f)
{
    pair p;
    static double t[4][TIMES];
    double m[4], cost = clock_cost();
    unsigned last;

    open_pair(&p, f);
    last = (unsigned)p.part.pages - 1;
    for (int proved = 0; proved < 2; proved++)
        must(one(&p, proved, 0, 0xFF) == 0, "FFh");
    for (unsigned i = 0; i < TIMES; i++) {
        forget_counts(&p);
        for (int proved = 0; proved < 2; proved++) {
            t[proved][i] = timed_work(&p, proved, PROGRAM, 0);
            t[2 + proved][i] = timed_work(&p, proved, PROGRAM, last);
        }
    }
    must(p.proved.counts[0] == 1 && p.proved.counts[last] == 1, "programs in order");
    must(memcmp(p.proved.counts, p.plain.counts, nib_counts_length(p.part)) == 0, "the counts differ");
    for (unsigned k = 0; k < 4; k++)
        m[k] = middle(t[k], TIMES) - cost;
    printf("order %s pages %zu proved %.1f proved-last %.1f plain %.1f plain-last %.1f\n", name, p.part.pages, m[1],
           m[3], m[0], m[2]);
}

static void time_power(const char *name, const fields *f)
{
    pair p;
    double t[2][TIMES], cost = clock_cost();
    open_pair(&p, f);
    for (unsigned i = 0; i < TIMES; i++)
        for (int proved = 0; proved < 2; proved++) {
            double start = now();
            must(power(&p, proved) == 0, "power-on");
            t[proved][i] = now() - start;
        }
    printf("power %s proved %.1f plain %.1f\n", name, middle(t[1], TIMES) - cost, middle(t[0], TIMES) - cost);
}

int main(int argc, char **argv)
{
    static const fields heavy = {8192, 448, 8, 4, 2, 4, FEATURES_ALL, OPTIONAL_ALL};
    static const fields single = {8192, 448, 8, 8, 1, 8, FEATURES_ALL & ~2u, OPTIONAL_ALL};
    static const fields narrow = {16, 0, 4, 8, 2, 4, FEATURES_ALL, OPTIONAL_ALL};
    static const fields wide = {8192, 448, 256, 16, 1, 4, 0x100, OPTIONAL_ALL};
    static const fields tall = {16, 0, 256, 2, 1, 4, 0x100, OPTIONAL_ALL};
    static const fields tall_wide = {8192, 448, 256, 2, 1, 4, 0x100, OPTIONAL_ALL};

    if (argc == 3) {
        pair p;
        char kind = argv[1][0];
        open_pair(&p, kind == 'd' ? &heavy : kind == 'j' ? &narrow : &T1);
        trace w = kind == 'd' ? data_trace(&p) : kind == 'c' ? command_trace(&p) : kind == 'j' ? job_trace(&p) : refusal_trace(&p);
        uint8_t *out = bytes(w.n, 0);
        for (unsigned long i = strtoul(argv[2], NULL, 10); i > 0; i--)
            must(run_trace(&p, 1, w.to, w.n, out) == 0, "a trace's answer");
        return 0;
    }
    time_trace("data", &heavy, data_trace);
    time_trace("commands", &T1, command_trace);
    time_trace("refusals", &T1, refusal_trace);
    time_trace("jobs", &narrow, job_trace);
    time_pages(&single);
    time_order("16", &tall);
    time_order("8640", &tall_wide);
    time_power("T1", &T1);
    time_power("8640", &wide);
    return 0;
}
