/* Time to write and to read a list of programs of 8,640 bytes each, by the library and by plain C loops that do the same.
 *
 *   job_speed [ROUNDS]     prints nanoseconds a byte, and how many times the plain loop's time the library takes */
#define _POSIX_C_SOURCE 200809L
#include "nibtoggle.h"

#include <stdio.h>
#include <stdlib.h>
#include <string.h>
#include <time.h>

enum { BYTES = 8640, JOBS = 64, SIZE = 14 + 2 * BYTES };

static uint8_t data[BYTES], room[JOBS * SIZE];

static double now(void)
{
    struct timespec t;
    clock_gettime(CLOCK_MONOTONIC, &t);
    return (double)t.tv_sec + 1e-9 * (double)t.tv_nsec;
}

__attribute__((noinline)) static size_t plain_write(size_t column, size_t row, const uint8_t *bytes, size_t n, uint8_t *out, size_t length)
{
    if (row >> 24 || column >> 16)
        return 1;
    if (length < 14 || (length - 14) / 2 < n)
        return 2;
    uint8_t head[12] = {0, 0x80, 1, (uint8_t)column, 1, (uint8_t)(column >> 8), 1, (uint8_t)row, 1, (uint8_t)(row >> 8), 1, (uint8_t)(row >> 16)};
    memcpy(out, head, sizeof head);
    for (size_t i = 0; i < n; i++) {
        out[12 + 2 * i] = 2;
        out[12 + 2 * i + 1] = bytes[i];
    }
    out[12 + 2 * n] = 0;
    out[12 + 2 * n + 1] = 0x10;
    return 14 + 2 * n;
}

/* The number of whole programs from the front; stops at what is none. */
__attribute__((noinline)) static size_t plain_read(const uint8_t *t, size_t length, size_t *sum)
{
    size_t records = length / 2, at = 0, jobs = 0;
    while (at < records && t[2 * at] == 0 && t[2 * at + 1] == 0x80) {
        size_t p = at + 1, a = 0;
        while (a < 5 && p < records && t[2 * p] == 1) {
            a++;
            p++;
        }
        if (a < 5)
            break;
        size_t first = p;
        while (p < records && t[2 * p] == 2)
            p++;
        if (!(p < records && t[2 * p] == 0 && t[2 * p + 1] == 0x10))
            break;
        *sum += p - first + t[2 * (at + 1) + 1];
        at = p + 1;
        jobs++;
    }
    return jobs;
}

static size_t library_read(const uint8_t *t, size_t length, size_t *sum)
{
    size_t at = 0, jobs = 0;
    for (;;) {
        nib_job_found f = nib_job_at(t, length, at);
        if (f.kind != NIB_JOB_PROGRAM)
            return jobs;
        *sum += f.count + (f.column & 0xFF);
        at = f.next;
        jobs++;
    }
}

static void wrong(const char *what)
{
    printf("job_speed: WRONG: %s\n", what);
    exit(1);
}

int main(int argc, char **argv)
{
    int rounds = argc > 1 ? atoi(argv[1]) : 50;
    double best[4] = {1e9, 1e9, 1e9, 1e9};
    size_t sums[2] = {0, 0};
    for (size_t i = 0; i < BYTES; i++)
        data[i] = (uint8_t)(i * 167 + 13);
    for (int r = 0; r < rounds; r++) {
        double start = now();
        for (size_t j = 0; j < JOBS; j++)
            if (plain_write(j, 3 * j, data, BYTES, room + j * SIZE, SIZE) != SIZE)
                wrong("plain write");
        double plain = now() - start;
        start = now();
        for (size_t j = 0; j < JOBS; j++)
            if (nib_job_write(NIB_JOB_PROGRAM, j, 3 * j, 0, data, BYTES, room + j * SIZE, SIZE) != SIZE)
                wrong("write");
        double proved = now() - start;
        if (plain < best[0]) best[0] = plain;
        if (proved < best[1]) best[1] = proved;
        start = now();
        if (plain_read(room, sizeof room, &sums[0]) != JOBS)
            wrong("plain read");
        plain = now() - start;
        start = now();
        if (library_read(room, sizeof room, &sums[1]) != JOBS)
            wrong("read");
        proved = now() - start;
        if (plain < best[2]) best[2] = plain;
        if (proved < best[3]) best[3] = proved;
    }
    if (sums[0] != sums[1])
        wrong("what was read");
    double all = (double)BYTES * JOBS * 1e-9;
    printf("job_speed: write %.3f ns a byte, plain loop %.3f: %.2f times\n", best[1] / all, best[0] / all, best[1] / best[0]);
    printf("job_speed: read  %.3f ns a byte, plain loop %.3f: %.2f times\n", best[3] / all, best[2] / all, best[3] / best[2]);
    return 0;
}
