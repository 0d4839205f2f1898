/* What the tests of the plain model share: checks that are counted, a small part in one struct, its page. */
#ifndef BENCH_H
#define BENCH_H

#include "plain.h"

#include <stdio.h>
#include <string.h>

static unsigned checks, wrong;

static void check(bool ok, const char *what)
{
    checks++;
    if (!ok) {
        wrong++;
        printf("WRONG: %s\n", what);
    }
}

/* A part small enough to lie in one struct. */
struct bench {
    struct plain_target t;
    uint8_t page[256];
    uint8_t array[40000], registers[4096], counts[256], flags[64];
    size_t array_len, registers_len, counts_len, flags_len;
};

static void put_number(uint8_t *page, unsigned at, unsigned bytes, uint32_t n)
{
    for (unsigned i = 0; i < bytes; i++)
        page[at + i] = (uint8_t)(n >> (8 * i));
}

/* By long division, another way than the model's. */
static uint16_t second_crc(const uint8_t *page)
{
    uint32_t remainder = 0x4F4E;
    for (unsigned bit = 0; bit < 254 * 8; bit++) {
        uint32_t in = page[bit / 8] >> (7 - bit % 8) & 1;
        uint32_t top = remainder >> 15 & 1;
        remainder = remainder << 1 & 0xFFFF;
        if (top != in)
            remainder ^= 0x8005;
    }
    return (uint16_t)remainder;
}

static void make_page(uint8_t *page, uint32_t data, uint32_t spare, uint32_t pages,
                      uint32_t blocks, uint32_t luns, uint32_t programs,
                      uint32_t features, uint32_t optional)
{
    memset(page, 0, 256);
    memcpy(page, "ONFI", 4);
    put_number(page, 6, 2, features);
    put_number(page, 8, 2, optional);
    page[64] = 0x2C;
    put_number(page, 80, 4, data);
    put_number(page, 84, 2, spare);
    put_number(page, 92, 4, pages);
    put_number(page, 96, 4, blocks);
    page[100] = (uint8_t)luns;
    page[101] = 0x23;
    page[110] = (uint8_t)programs;
    put_number(page, 254, 2, second_crc(page));
}

static uint32_t power(struct bench *b)
{
    return plain_power_on(&b->t, b->page, 256, 0xDA, b->array, b->array_len,
                          b->registers, b->registers_len, b->counts, b->counts_len,
                          b->flags, b->flags_len);
}

static void make_bench(struct bench *b, uint32_t data, uint32_t spare, uint32_t pages,
                       uint32_t blocks, uint32_t luns, uint32_t programs,
                       uint32_t features, uint32_t optional)
{
    memset(b, 0, sizeof *b);
    make_page(b->page, data, spare, pages, blocks, luns, programs, features, optional);
    b->flags_len = luns * blocks;
    b->counts_len = b->flags_len * pages;
    b->registers_len = luns * (data + spare);
    b->array_len = b->counts_len * (data + spare);
    memset(b->array, 0xFF, b->array_len);
    check(power(b) == 0, "power-on of a good part");
}

/* Runs n bytes of records as a trace, and on a copy one by one, which must end alike. The replies go to 'got', which
 * has one byte more; false where the trace is not run, or writes that byte. */
static bool run_records(struct bench *b, const uint8_t *in, size_t n, uint8_t *got)
{
    static struct bench copy;
    size_t need = (n + 1) / 2 * 2;
    bool same = true;

    copy = *b;
    got[need] = 0xEE;
    uint32_t r = plain_trace(&b->t, in, n, got, need, b->page, 256, b->array, b->array_len,
                             b->registers, b->registers_len, b->counts, b->counts_len,
                             b->flags, b->flags_len);
    for (size_t i = 0; i < n / 2; i++) {
        uint32_t e = plain_event(&copy.t, in[2 * i], in[2 * i + 1], copy.page, 256,
                                 copy.array, copy.array_len, copy.registers, copy.registers_len,
                                 copy.counts, copy.counts_len, copy.flags, copy.flags_len);
        same = same && got[2 * i] == e >> 8 && got[2 * i + 1] == (e & 0xFF);
    }
    check(same && memcmp(&copy.t, &b->t, sizeof copy.t) == 0
          && memcmp(copy.array, b->array, sizeof copy.array) == 0
          && memcmp(copy.registers, b->registers, sizeof copy.registers) == 0
          && memcmp(copy.counts, b->counts, sizeof copy.counts) == 0,
          "a trace ends as its events one by one");
    return r == 0 && got[need] == 0xEE;
}

#endif
