/* Whole jobs through the library: the worked table of the request (written, refused and read), every room around each job's
 * size, and lists that are no whole jobs. */
#include "nibtoggle.h"

#include <stdio.h>
#include <stdlib.h>
#include <string.h>

#define FILLED 0x5A

static int failures;

static void expect(int good, const char *what)
{
    if (!good) {
        printf("jobs: WRONG: %s\n", what);
        failures++;
    }
}

static size_t bytes_of(const char *hex, uint8_t *out)
{
    size_t n = 0;
    for (const char *at = hex; *at != 0;) {
        if (*at == ' ') {
            at++;
            continue;
        }
        char two[3] = {at[0], at[1], 0};
        out[n++] = (uint8_t)strtoul(two, NULL, 16);
        at += 2;
    }
    return n;
}

typedef struct job {
    uint8_t kind;
    size_t column, row, count;
    const char *bytes, *records;
} job;

static const job WRITTEN[] = {
    {NIB_JOB_READ, 0x0102, 0x030405, 0, "", "00 00 01 02 01 01 01 05 01 04 01 03 00 30"},
    {NIB_JOB_READ_OUT, 0, 0x20, 2, "", "00 06 01 00 01 00 01 20 01 00 01 00 00 E0 03 00 03 00"},
    {NIB_JOB_PROGRAM, 0x020F, 0x37, 0, "3C", "00 80 01 0F 01 02 01 37 01 00 01 00 02 3C 00 10"},
    {NIB_JOB_PROGRAM, 0, 0, 0, "", "00 80 01 00 01 00 01 00 01 00 01 00 00 10"},
    {NIB_JOB_ERASE, 0, 0x37, 0, "", "00 60 01 37 01 00 01 00 00 D0"},
    {NIB_JOB_STATUS, 0, 0x20, 1, "", "00 78 01 20 01 00 01 00 03 00"},
    {NIB_JOB_STATUS, 0, 0xFFFFFF, 0, "", "00 78 01 FF 01 FF 01 FF"},
};

/* In every room from none to more than enough: the records and nothing past them, or nothing at all. Then read back. */
static void written(const job *j)
{
    uint8_t bytes[16], records[64], room[80];
    size_t given = bytes_of(j->bytes, bytes), size = bytes_of(j->records, records);
    for (size_t length = 0; length < size + 8; length++) {
        memset(room, FILLED, sizeof room);
        size_t answer = nib_job_write(j->kind, j->column, j->row, j->count, bytes, given, room, length);
        size_t put = length < size ? 0 : size;
        expect(answer == (length < size ? (size_t)NIB_JOB_TOO_SMALL : size), j->records);
        expect(memcmp(room, records, put) == 0, "the records");
        for (size_t i = put; i < sizeof room; i++)
            expect(room[i] == FILLED, "the room past the records");
    }
    nib_job_found f = nib_job_at(records, size, 0);
    size_t cycles = j->kind == NIB_JOB_PROGRAM ? given : j->count;
    expect(f.kind == j->kind && f.column == j->column && f.row == j->row && f.count == cycles && f.next == size / 2, "the job back");
    expect(f.place == (j->kind == NIB_JOB_PROGRAM ? 6u : 0u), "the place of the bytes");
    expect(nib_job_misfit(records, size) == NIB_JOB_NO_MISFIT, "whole jobs");
}

static void refused(uint8_t kind, size_t column, size_t row, size_t count, size_t length, size_t answer)
{
    uint8_t room[32];
    memset(room, FILLED, sizeof room);
    expect(nib_job_write(kind, column, row, count, NULL, 0, length ? room : NULL, length) == answer, "an answer");
    for (size_t i = 0; i < sizeof room; i++)
        expect(room[i] == FILLED, "a room that stays");
}

/* A list, its kinds of jobs as digits, and its misfit (-1 none). */
static void listed(const char *hex, const char *kinds, long misfit)
{
    uint8_t records[64];
    char told[8] = "";
    size_t size = bytes_of(hex, records), at = 0, count = 0;
    nib_job_found f = nib_job_at(records, size, at);
    while (f.kind != NIB_JOB_END && f.kind != NIB_JOB_MISFIT && count < 7) {
        told[count++] = (char)('0' + f.kind);
        at = f.next;
        f = nib_job_at(records, size, at);
    }
    expect(strcmp(told, kinds) == 0, hex);
    expect(f.kind == (misfit < 0 ? NIB_JOB_END : NIB_JOB_MISFIT) && (misfit < 0 || f.next == (size_t)misfit), "where it ends");
    expect(nib_job_misfit(records, size) == (misfit < 0 ? NIB_JOB_NO_MISFIT : (size_t)misfit), "its misfit");
}

#define READ "00 00 01 02 01 01 01 05 01 04 01 03 00 30 "
#define PROGRAM "00 80 01 00 01 00 01 00 01 00 01 00 02 01 "

int main(void)
{
    size_t numbers[6] = {9, 9, 9, 9, 9, 9};

    for (size_t i = 0; i < sizeof WRITTEN / sizeof *WRITTEN; i++)
        written(&WRITTEN[i]);

    refused(NIB_JOB_ERASE, 0, 0x1000000, 0, 0, NIB_JOB_TOO_WIDE);
    refused(NIB_JOB_READ, 0x10000, 0, 0, 0, NIB_JOB_TOO_WIDE);
    refused(NIB_JOB_PROGRAM, SIZE_MAX, 0, 0, 32, NIB_JOB_TOO_WIDE);
    refused(NIB_JOB_STATUS, SIZE_MAX, 0, 13, 32, NIB_JOB_TOO_SMALL); /* a status has no column */
    refused(NIB_JOB_READ_OUT, 0, 0, SIZE_MAX, 32, NIB_JOB_TOO_SMALL);
    refused(NIB_JOB_STATUS, 0, 0, SIZE_MAX / 2 + 1, 32, NIB_JOB_TOO_SMALL);
    refused(0, 0, 0, 0, 32, NIB_JOB_NO_SUCH);
    refused(6, 0, 0, 0, 32, NIB_JOB_NO_SUCH);

    listed("", "", -1);
    listed(READ "00 78 01 20 01 00 01 00 03 00", "15", -1);
    listed("00 78 01 00 01 00 01 00", "5", -1);
    listed("00 78 01 00 01 00", "", 3);
    listed(PROGRAM "00 85 01 00 01 00", "", 7);
    listed(PROGRAM, "", 7);
    listed(PROGRAM "00 10", "3", -1);
    listed(READ "04 00", "1", 7);
    listed(READ "03 00", "1", 7);
    listed("00 00 01 00 01 00 01 00 01 00 01 00 00 35", "", 6);
    listed("00 FF", "", 0);
    listed("00 60 01 00 01 00 01 00 01 00", "", 4);
    listed("00 78 01 00 01 00 01 00 03 01", "5", 4);
    listed(READ "00", "1", 7);
    listed("00 78 01 00 01 00 01", "", 3);
    listed("00", "", 0);

    expect(nib_job_read(NULL, 0, 0, numbers, 5) == 7 && numbers[0] == 9, "no room for six numbers");
    expect(nib_job_read(NULL, 0, SIZE_MAX, numbers, 6) == NIB_JOB_END && numbers[5] == 0, "a place past the end");

    if (failures == 0)
        printf("jobs: the worked table, as written and as read\n");
    return failures != 0;
}
