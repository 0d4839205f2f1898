/* Deterministic generator and runner.
 *
 * For each part and each kind of trace it makes traces, runs them and prints
 * one line of numbers; another implementation that prints the same lines has
 * given the same replies and left the same bytes. Meant to be ported line by
 * line: numbers are unsigned, state is lent as arrays, no product passes 64
 * bits, and two random numbers are never drawn in one expression.
 * A line depends on the seed, its part and its kind alone. */
#include "generate.h"
#include "plain.h"

#include <inttypes.h>
#include <stdio.h>
#include <stdlib.h>
#include <string.h>

/* Not to be ported: what the C program alone looks at, which draws nothing and prints no line. */
static bool holding = true;             /* the number of blank blocks is held to a walk; not with -x */
static bool number_true;                /* no lie in the record, nor counts or flags that power-on has not seen */
static uint64_t line_now;

/* ---- Random numbers and digests ---- */

static uint64_t below(uint64_t *g, uint64_t n)
{
    uint64_t x = g[G_RNG];
    x ^= x << 13;
    x ^= x >> 7;
    x ^= x << 17;
    g[G_RNG] = x;
    return (x >> 20) % n;
}

static uint64_t chance(uint64_t *g, uint64_t n)
{
    if (n == 0)
        return 0;
    if (below(g, n) == 0)
        return 1;
    return 0;
}

static void seed_line(uint64_t *g, uint64_t seed, uint64_t line)
{
    g[G_RNG] = UINT64_C(88172645463325252) ^ (seed % 4294967296) ^ ((line + 1) << 40);
    for (uint64_t i = 0; i < 16; i++)
        below(g, 2);
}

/* n below 2^32 */
static void absorb(uint64_t *g, uint64_t n)
{
    g[G_H1] = (g[G_H1] * 1000003 + n + 1) % 4294967291;
    g[G_H2] = (g[G_H2] * 16777619 + n + 1) % 4294967279;
}

static void absorb_bytes(uint64_t *g, const uint8_t *from, uint64_t start, uint64_t length)
{
    for (uint64_t i = 0; i < length; i++)
        absorb(g, from[start + i]);
}

static void fill_random(uint64_t *g, uint8_t *to, uint64_t length)
{
    for (uint64_t i = 0; i < length; i++)
        to[i] = (uint8_t)below(g, 256);
}

static void fill_with(uint8_t *to, uint64_t length, uint64_t value)
{
    for (uint64_t i = 0; i < length; i++)
        to[i] = (uint8_t)value;
}

/* ---- Parts ---- */

static uint64_t bits_for(uint64_t n)
{
    uint64_t bits = 0;
    uint64_t reach = 1;
    while (reach < n) {
        reach = reach * 2;
        bits = bits + 1;
    }
    return bits;
}

static uint64_t at_most(uint64_t n, uint64_t most)
{
    if (n < most)
        return n;
    return most;
}

/* Lengths from the fields; never past the memory there is. */
static void measure(uint64_t *g)
{
    const uint64_t *f = g + G_FIELD;
    uint64_t blocks = f[F_LUNS] * f[F_BLOCKS];
    uint64_t pages = blocks * f[F_PAGES];
    uint64_t size = f[F_DATA] + f[F_SPARE];
    g[G_SIZE] = size;
    g[G_PAGE_BITS] = bits_for(f[F_PAGES]);
    g[G_BLOCK_BITS] = bits_for(f[F_BLOCKS]);
    g[G_PAGE_LEN] = 256;
    g[G_ARRAY_LEN] = at_most(pages * size, MAX_ARRAY);
    g[G_REGISTERS_LEN] = at_most(f[F_LUNS] * size, MAX_REGISTERS);
    g[G_COUNTS_LEN] = at_most(pages, MAX_COUNTS);
    g[G_FLAGS_LEN] = at_most(blocks, MAX_FLAGS);
}

static void load_part(uint64_t *g, uint64_t part)
{
    for (uint64_t i = 0; i < TABLE_FIELDS; i++)
        g[G_FIELD + i] = PART_TABLE[part * TABLE_FIELDS + i];
    g[G_FIELD + F_CYCLES] = 35;
    g[G_FIELD + F_WIDE] = 0;
    g[G_FIELD + F_MANY] = 1;
    if (g[G_FIELD + F_LUNS] == 1)
        g[G_FIELD + F_MANY] = 0;
    measure(g);
}

static void load_knobs(uint64_t *g, uint64_t kind)
{
    for (uint64_t i = 0; i < KNOBS; i++)
        g[G_KNOB + i] = KNOB_TABLE[kind * KNOBS + i];
}

static void put_number(uint8_t *page, uint64_t at, uint64_t bytes, uint64_t n)
{
    for (uint64_t i = 0; i < bytes; i++) {
        page[at + i] = (uint8_t)(n % 256);
        n = n / 256;
    }
}

static uint64_t crc(const uint8_t *page)
{
    uint64_t c = 20302;         /* 4F4Eh */
    for (uint64_t i = 0; i < 254; i++) {
        c = c ^ ((uint64_t)page[i] * 256);
        for (uint64_t bit = 0; bit < 8; bit++) {
            uint64_t top = c / 32768;
            c = c * 2 % 65536;
            if (top == 1)
                c = c ^ 32773;  /* 8005h */
        }
    }
    return c;
}

static void mend_crc(uint8_t *page)
{
    uint64_t c = crc(page);
    put_number(page, 254, 2, c);
}

/* Bits that the model does not look at are random, like all other bytes. */
static uint64_t feature_bits(uint64_t *g)
{
    uint64_t options = g[G_FIELD + F_OPTIONS];
    uint64_t low = below(g, 32);
    uint64_t high = below(g, 128);
    return g[G_FIELD + F_WIDE] + g[G_FIELD + F_MANY] * 2 + options / 32 % 2 * 4 + low * 8
        + options / 8 % 2 * 256 + high * 512;
}

static uint64_t optional_bits(uint64_t *g)
{
    uint64_t options = g[G_FIELD + F_OPTIONS];
    uint64_t low = below(g, 4);
    uint64_t middle = below(g, 2);
    uint64_t high = below(g, 512);
    return low + options / 4 % 2 * 4 + options % 2 * 8 + options / 16 % 2 * 16 + middle * 32
        + options / 2 % 2 * 64 + high * 128;
}

static void make_page(uint64_t *g, uint8_t *page)
{
    const uint64_t *f = g + G_FIELD;
    fill_random(g, page, MAX_PAGE);
    page[0] = 0x4F;
    page[1] = 0x4E;
    page[2] = 0x46;
    page[3] = 0x49;
    uint64_t features = feature_bits(g);
    uint64_t optional = optional_bits(g);
    put_number(page, 6, 2, features);
    put_number(page, 8, 2, optional);
    put_number(page, 80, 4, f[F_DATA]);
    put_number(page, 84, 2, f[F_SPARE]);
    put_number(page, 92, 4, f[F_PAGES]);
    put_number(page, 96, 4, f[F_BLOCKS]);
    put_number(page, 100, 1, f[F_LUNS]);
    put_number(page, 101, 1, f[F_CYCLES]);
    put_number(page, 110, 1, f[F_PROGRAMS]);
    mend_crc(page);
    g[G_DEVICE] = below(g, 256);
}

static uint64_t first_count(uint64_t *g)
{
    uint64_t programs = g[G_FIELD + F_PROGRAMS];
    if (g[G_FIELD + F_COUNTS] == 0)
        return 0;
    if (g[G_FIELD + F_COUNTS] == 1)
        return below(g, programs + 1);
    return programs;
}

static uint64_t first_flag(uint64_t *g)
{
    if (g[G_FIELD + F_FLAGS] == 0)
        return 0;
    if (g[G_FIELD + F_FLAGS] == 1)
        return chance(g, 4);
    return at_most(below(g, 3), 1);
}

static void fill_buffers(uint64_t *g, uint8_t *array, uint8_t *registers, uint8_t *counts,
                         uint8_t *flags)
{
    fill_with(array, g[G_ARRAY_LEN], 255);
    if (g[G_FIELD + F_FILL] == 1)
        fill_random(g, array, g[G_ARRAY_LEN]);
    fill_random(g, registers, g[G_REGISTERS_LEN]);
    for (uint64_t i = 0; i < g[G_COUNTS_LEN]; i++)
        counts[i] = (uint8_t)first_count(g);
    for (uint64_t i = 0; i < g[G_FLAGS_LEN]; i++)
        flags[i] = (uint8_t)first_flag(g);
}

/* ---- Records ---- */

static void put(uint64_t *g, uint8_t *records, uint64_t kind, uint64_t value)
{
    uint64_t at = g[G_LEN];
    if (at + 2 <= TRACE_BYTES) {
        records[at] = (uint8_t)kind;
        records[at + 1] = (uint8_t)value;
        g[G_LEN] = at + 2;
    }
}

static uint64_t is_busy(const uint64_t *g, uint64_t lun)
{
    return (g[G_BUSY] >> lun) % 2;
}

static void set_busy(uint64_t *g, uint64_t lun)
{
    if (is_busy(g, lun) == 0)
        g[G_BUSY] = g[G_BUSY] + ((uint64_t)1 << lun);
}

static void put_finish(uint64_t *g, uint8_t *records, uint64_t lun)
{
    put(g, records, 4, lun);
    if (lun < 4 && is_busy(g, lun) == 1)
        g[G_BUSY] = g[G_BUSY] - ((uint64_t)1 << lun);
}

static void put_reset(uint64_t *g, uint8_t *records)
{
    put(g, records, 0, 255);
    g[G_BUSY] = 0;
    g[G_SELECTED] = 0;
}

static void put_bad(uint64_t *g, uint8_t *records)
{
    uint64_t what = below(g, 4);
    uint64_t value = below(g, 254);
    if (what == 0)
        put(g, records, 6 + below(g, 250), value);
    if (what == 1)
        put(g, records, 3, 1 + value);
    if (what == 2)
        put(g, records, 5, 2 + value);
    if (what == 3)
        put(g, records, 4, at_most(g[G_FIELD + F_LUNS] + value, 255));
}

/* One bus cycle, and before it what the knobs sprinkle in. */
static void cycle(uint64_t *g, uint8_t *records, uint64_t kind, uint64_t value)
{
    if (chance(g, g[G_KNOB + K_SPRINKLE]) == 1)
        put_finish(g, records, below(g, g[G_FIELD + F_LUNS]));
    if (chance(g, g[G_KNOB + K_BAD]) == 1)
        put_bad(g, records);
    if (chance(g, g[G_KNOB + K_GUARD]) == 1)
        put(g, records, 5, at_most(below(g, 3), 1));
    if (chance(g, g[G_KNOB + K_RESET]) == 1)
        put_reset(g, records);
    put(g, records, kind, value);
}

static void command(uint64_t *g, uint8_t *records, uint64_t value)
{
    cycle(g, records, 0, value);
}

static void address(uint64_t *g, uint8_t *records, uint64_t value)
{
    cycle(g, records, 1, value);
}

static void take_out(uint64_t *g, uint8_t *records, uint64_t n)
{
    for (uint64_t i = 0; i < n; i++)
        cycle(g, records, 3, 0);
}

/* ---- Addresses ---- */

static uint64_t row_of(const uint64_t *g, uint64_t lun, uint64_t block, uint64_t page)
{
    uint64_t low = page + (block << g[G_PAGE_BITS]);
    return (low + (lun << (g[G_PAGE_BITS] + g[G_BLOCK_BITS]))) % 16777216;
}

static uint64_t edge_row(uint64_t *g, uint64_t lun, uint64_t block, uint64_t page)
{
    uint64_t what = below(g, 10);
    uint64_t more = below(g, 4);
    uint64_t bits = g[G_PAGE_BITS] + g[G_BLOCK_BITS];
    if (what == 0)
        page = g[G_FIELD + F_PAGES] - 1;
    if (what == 1)
        page = g[G_FIELD + F_PAGES];
    if (what == 2)
        page = ((uint64_t)1 << g[G_PAGE_BITS]) - 1;
    if (what == 3)
        block = g[G_FIELD + F_BLOCKS] - 1;
    if (what == 4)
        block = g[G_FIELD + F_BLOCKS];
    if (what == 5)
        block = ((uint64_t)1 << g[G_BLOCK_BITS]) - 1;
    if (what == 6)
        lun = g[G_FIELD + F_LUNS];
    if (what == 7)
        lun = g[G_FIELD + F_LUNS] + more;
    if (what == 8)
        lun = lun + ((uint64_t)1 << (20 + more - bits));
    if (what == 9)
        lun = lun + ((uint64_t)2 << more);
    return row_of(g, lun, block, page);
}

/* How many of n there are to pick from. */
static uint64_t spot(const uint64_t *g, uint64_t n)
{
    if (g[G_KNOB + K_SPOT] == 1)
        return at_most(n, 2);
    return n;
}

static uint64_t pick_row(uint64_t *g, uint64_t lun)
{
    uint64_t pages = spot(g, g[G_FIELD + F_PAGES]);
    uint64_t blocks = spot(g, g[G_FIELD + F_BLOCKS]);
    uint64_t page = below(g, pages);
    uint64_t block = below(g, blocks);
    if (chance(g, g[G_KNOB + K_EDGE]) == 1)
        return edge_row(g, lun, block, page);
    return row_of(g, lun, block, page);
}

static void put_row(uint64_t *g, uint8_t *records, uint64_t lun, uint64_t row)
{
    address(g, records, row % 256);
    address(g, records, row / 256 % 256);
    address(g, records, row / 65536);
    g[G_SELECTED] = lun;
}

static uint64_t edge_column(uint64_t *g)
{
    uint64_t what = below(g, 7);
    uint64_t size = g[G_SIZE];
    if (what == 0)
        return size;
    if (what == 1)
        return size + 1;
    if (what == 2)
        return 65535;
    if (what == 3)
        return size + 255;
    if (what == 4)
        return 255;
    if (what == 5)
        return 256;
    return size - 1;
}

static uint64_t pick_column(uint64_t *g)
{
    uint64_t size = g[G_SIZE];
    uint64_t what = below(g, 4);
    if (chance(g, g[G_KNOB + K_EDGE]) == 1)
        return edge_column(g);
    if (what == 0)
        return 0;
    if (what == 1)
        return size - 1 - below(g, 12);
    return below(g, size);
}

static void put_column(uint64_t *g, uint8_t *records, uint64_t column)
{
    address(g, records, column % 256);
    address(g, records, column / 256);
}

/* How much data from a column on: near the end it goes to the end, or past it. */
static uint64_t pick_length(uint64_t *g, uint64_t column)
{
    uint64_t left = 0;
    if (column < g[G_SIZE])
        left = g[G_SIZE] - column;
    uint64_t some = below(g, 8);
    uint64_t past = chance(g, g[G_KNOB + K_PAST]);
    if (left <= 16 || (past == 1 && left <= 600))
        return left + past + past * (some % 2);
    return some;
}

static uint64_t pick_lun(uint64_t *g)
{
    return below(g, g[G_FIELD + F_LUNS]);
}

static void make_ready(uint64_t *g, uint8_t *records, uint64_t lun)
{
    if (g[G_KNOB + K_CARE] == 1 && is_busy(g, lun) == 1)
        put_finish(g, records, lun);
}

static void make_all_ready(uint64_t *g, uint8_t *records)
{
    for (uint64_t lun = 0; lun < g[G_FIELD + F_LUNS]; lun++)
        make_ready(g, records, lun);
}

/* After 30h, 35h, 10h, D0h: half of the time the finish follows. */
static void begin_work(uint64_t *g, uint8_t *records, uint64_t lun)
{
    set_busy(g, lun);
    uint64_t now = below(g, 2);
    if (now == 1)
        make_ready(g, records, lun);
}

/* ---- Jobs ---- */

/* 00h, a row, and 30h or 35h. */
static void load_page(uint64_t *g, uint8_t *records, uint64_t lun, uint64_t row, uint64_t second)
{
    uint64_t column = pick_column(g);
    make_ready(g, records, lun);
    command(g, records, 0x00);
    put_column(g, records, column);
    put_row(g, records, lun, row);
    command(g, records, second);
    begin_work(g, records, lun);
    if (below(g, 2) == 1)
        take_out(g, records, pick_length(g, column));
}

static void read_page(uint64_t *g, uint8_t *records, uint64_t lun, uint64_t row)
{
    load_page(g, records, lun, row, 0x30);
}

static void job_read(uint64_t *g, uint8_t *records)
{
    uint64_t lun = pick_lun(g);
    uint64_t row = pick_row(g, lun);
    read_page(g, records, lun, row);
}

static void job_lun_out(uint64_t *g, uint8_t *records)
{
    uint64_t lun = pick_lun(g);
    uint64_t row = pick_row(g, lun);
    uint64_t column = pick_column(g);
    make_ready(g, records, lun);
    command(g, records, 0x06);
    put_column(g, records, column);
    put_row(g, records, lun, row);
    command(g, records, 0xE0);
    take_out(g, records, pick_length(g, column));
}

static void job_out(uint64_t *g, uint8_t *records)
{
    uint64_t column = pick_column(g);
    make_ready(g, records, g[G_SELECTED]);
    command(g, records, 0x05);
    put_column(g, records, column);
    command(g, records, 0xE0);
    take_out(g, records, pick_length(g, column));
}

static void give_data(uint64_t *g, uint8_t *records, uint64_t column)
{
    uint64_t n = pick_length(g, column);
    for (uint64_t i = 0; i < n; i++) {
        uint64_t value = below(g, 256);
        cycle(g, records, 2, value);
    }
}

/* 80h or 85h, a row, data and moves, 10h. */
static void fill_page(uint64_t *g, uint8_t *records, uint64_t lun, uint64_t row, uint64_t first)
{
    uint64_t column = pick_column(g);
    uint64_t moves = below(g, 3);
    make_ready(g, records, lun);
    command(g, records, first);
    put_column(g, records, column);
    put_row(g, records, lun, row);
    give_data(g, records, column);
    for (uint64_t i = 0; i < moves; i++) {
        column = pick_column(g);
        command(g, records, 0x85);
        put_column(g, records, column);
        give_data(g, records, column);
    }
    command(g, records, 0x10);
    begin_work(g, records, lun);
}

static void program_page(uint64_t *g, uint8_t *records, uint64_t lun, uint64_t row)
{
    fill_page(g, records, lun, row, 0x80);
}

static void job_program(uint64_t *g, uint8_t *records)
{
    uint64_t lun = pick_lun(g);
    uint64_t row = pick_row(g, lun);
    program_page(g, records, lun, row);
}

static void erase_block(uint64_t *g, uint8_t *records, uint64_t lun, uint64_t row)
{
    make_ready(g, records, lun);
    command(g, records, 0x60);
    put_row(g, records, lun, row);
    command(g, records, 0xD0);
    begin_work(g, records, lun);
}

static void job_erase(uint64_t *g, uint8_t *records)
{
    uint64_t lun = pick_lun(g);
    uint64_t row = pick_row(g, lun);
    erase_block(g, records, lun, row);
}

static void job_lun_status(uint64_t *g, uint8_t *records)
{
    uint64_t lun = pick_lun(g);
    uint64_t row = pick_row(g, lun);
    command(g, records, 0x78);
    put_row(g, records, lun, row);
    take_out(g, records, 1 + below(g, 3));
    if (is_busy(g, lun) == 1 && below(g, 2) == 1) {
        put_finish(g, records, lun);
        take_out(g, records, 1);
    }
}

/* 70h; with care, no LUN but the selected one works. */
static void put_status(uint64_t *g, uint8_t *records)
{
    for (uint64_t lun = 0; lun < g[G_FIELD + F_LUNS]; lun++)
        if (lun != g[G_SELECTED])
            make_ready(g, records, lun);
    command(g, records, 0x70);
}

static void job_status(uint64_t *g, uint8_t *records)
{
    put_status(g, records);
    take_out(g, records, 1 + below(g, 3));
}

static void job_id(uint64_t *g, uint8_t *records)
{
    uint64_t which = below(g, 2);
    uint64_t ends = 2 + which * 2;
    make_all_ready(g, records);
    command(g, records, 0x90);
    if (chance(g, g[G_KNOB + K_EDGE]) == 1)
        address(g, records, below(g, 256));
    else
        address(g, records, which * 32);
    take_out(g, records, below(g, ends + 3));
}

static uint64_t parameter_count(uint64_t *g)
{
    uint64_t what = below(g, 4);
    uint64_t more = below(g, 3);
    if (chance(g, g[G_KNOB + K_LONG]) == 0)
        return below(g, 12);
    if (what == 0)
        return 255 + more;
    if (what == 1)
        return 511 + more;
    return 768 + more;
}

static void job_parameters(uint64_t *g, uint8_t *records)
{
    make_all_ready(g, records);
    command(g, records, 0xEC);
    if (chance(g, g[G_KNOB + K_EDGE]) == 1)
        address(g, records, below(g, 2) * 32);
    else
        address(g, records, 0);
    take_out(g, records, parameter_count(g));
}

static void job_get(uint64_t *g, uint8_t *records)
{
    make_all_ready(g, records);
    command(g, records, 0xEE);
    if (chance(g, g[G_KNOB + K_EDGE]) == 1)
        address(g, records, below(g, 4));
    else
        address(g, records, 1);
    take_out(g, records, below(g, 7));
}

static uint64_t feature_value(uint64_t *g, uint64_t place)
{
    uint64_t what = below(g, 16);
    if (what == 0)
        return below(g, 256);
    if (what == 1)
        return 64;
    if (what < 10 && place == 0)
        return 64;
    return 0;
}

static void job_set(uint64_t *g, uint8_t *records)
{
    uint64_t n = 4;
    make_all_ready(g, records);
    command(g, records, 0xEF);
    if (chance(g, g[G_KNOB + K_EDGE]) == 1)
        address(g, records, below(g, 4));
    else
        address(g, records, 1);
    if (below(g, 8) == 0)
        n = below(g, 6);
    for (uint64_t i = 0; i < n; i++) {
        uint64_t value = feature_value(g, i);
        cycle(g, records, 2, value);
    }
}

/* A row of 80h, whole or one cycle short, or of 60h, and a command that doesn't fit. */
static void job_give_up(uint64_t *g, uint8_t *records)
{
    uint64_t what = below(g, 3);
    uint64_t lun = pick_lun(g);
    uint64_t row = pick_row(g, lun);
    make_ready(g, records, lun);
    if (what == 2) {
        command(g, records, 0x60);
    } else {
        command(g, records, 0x80);
        put_column(g, records, 0);
    }
    if (what == 0) {
        address(g, records, row % 256);
        address(g, records, row / 256 % 256);
    } else {
        put_row(g, records, lun, row);
    }
    command(g, records, 0x70);
}

static void job_copy_read(uint64_t *g, uint8_t *records)
{
    uint64_t lun = pick_lun(g);
    uint64_t row = pick_row(g, lun);
    load_page(g, records, lun, row, 0x35);
}

static void job_copy_write(uint64_t *g, uint8_t *records)
{
    uint64_t lun = pick_lun(g);
    uint64_t row = pick_row(g, lun);
    fill_page(g, records, lun, row, 0x85);
}

/* What may come between a copyback's halves: half of the time nothing. */
static void between_halves(uint64_t *g, uint8_t *records)
{
    uint64_t what = below(g, 12);
    if (what == 0)
        job_program(g, records);
    if (what == 1)
        job_erase(g, records);
    if (what == 2)
        job_read(g, records);
    if (what == 3)
        job_lun_status(g, records);
    if (what == 4)
        job_copy_read(g, records);
    if (what == 5)
        job_give_up(g, records);
}

/* A page copied, mostly inside its LUN; at times once more, and at times read back. */
static void job_copy(uint64_t *g, uint8_t *records)
{
    uint64_t lun = pick_lun(g);
    uint64_t row = pick_row(g, lun);
    load_page(g, records, lun, row, 0x35);
    between_halves(g, records);
    if (below(g, 6) == 0)
        lun = pick_lun(g);
    row = pick_row(g, lun);
    fill_page(g, records, lun, row, 0x85);
    if (below(g, 4) == 0)
        fill_page(g, records, lun, row, 0x85);
    if (below(g, 2) == 0)
        read_page(g, records, lun, row);
}

/* ---- Polling jobs: a status, then 00h and data out go on with the output before it ---- */

/* 70h, or 78h of this LUN, or at times of any; and perhaps bytes of it. */
static void ask_status(uint64_t *g, uint8_t *records, uint64_t lun)
{
    uint64_t what = below(g, 8);
    uint64_t any = pick_lun(g);
    uint64_t bytes = below(g, 3);
    if (what == 7)
        lun = any;
    uint64_t row = pick_row(g, lun);
    if (what < 4) {
        put_status(g, records);
    } else {
        command(g, records, 0x78);
        put_row(g, records, lun, row);
    }
    take_out(g, records, bytes);
}

/* Mostly nothing; or a bench event, which keeps the memory, or a cycle that doesn't fit. */
static void put_between(uint64_t *g, uint8_t *records)
{
    uint64_t what = below(g, 24);
    uint64_t lun = pick_lun(g);
    if (what == 0)
        put_finish(g, records, lun);
    if (what == 1)
        put(g, records, 5, 1);
    if (what == 2)
        put_bad(g, records);
    if (what == 3)
        put(g, records, 1, 0);
    if (what == 4)
        put(g, records, 2, 0);
    if (what == 5)
        put(g, records, 0, 0xE0);
    if (what == 6)
        put(g, records, 0, 0x05);
}

/* None to three statuses, 00h, and n bytes. With care the LUN's finish comes before the statuses, among them, after 00h
 * or, one time in eight, not at all. */
static void poll(uint64_t *g, uint8_t *records, uint64_t lun, uint64_t n)
{
    uint64_t when = below(g, 8);
    uint64_t statuses = below(g, 8);
    if (when < 3)
        make_ready(g, records, lun);
    if (statuses > 0)
        ask_status(g, records, lun);
    if (when < 6)
        make_ready(g, records, lun);
    if (statuses > 4)
        ask_status(g, records, lun);
    if (statuses > 6)
        ask_status(g, records, lun);
    put_between(g, records);
    command(g, records, 0x00);
    if (when == 6)
        make_ready(g, records, lun);
    put_between(g, records);
    take_out(g, records, n);
}

/* A page read by 30h or 35h and polled for; at times some bytes come first, and at times it is polled for again. */
static void job_poll(uint64_t *g, uint8_t *records)
{
    uint64_t lun = pick_lun(g);
    uint64_t row = pick_row(g, lun);
    uint64_t column = pick_column(g);
    uint64_t copy = below(g, 4);
    uint64_t first = below(g, 8);
    make_ready(g, records, lun);
    command(g, records, 0x00);
    put_column(g, records, column);
    put_row(g, records, lun, row);
    command(g, records, copy == 0 ? 0x35 : 0x30);
    set_busy(g, lun);
    if (first < 4) {
        make_ready(g, records, lun);
        take_out(g, records, first);
    }
    uint64_t n = pick_length(g, column);
    poll(g, records, lun, n);
    if (below(g, 3) == 0)
        poll(g, records, lun, 1 + below(g, 4));
}

/* Output of every other kind, polled for. */
static void job_poll_other(uint64_t *g, uint8_t *records)
{
    uint64_t what = below(g, 8);
    uint64_t n = below(g, 6);
    if (what < 3)
        job_id(g, records);
    else if (what < 5)
        job_parameters(g, records);
    else if (what == 5)
        job_get(g, records);
    else if (what == 6)
        job_out(g, records);
    else
        job_lun_out(g, records);
    poll(g, records, g[G_SELECTED], n);
}

/* Columns around the ends of the copies and of a register. */
static uint64_t page_column(uint64_t *g)
{
    uint64_t what = below(g, 8);
    uint64_t more = below(g, 3);
    if (what < 3)
        return 766 + more;
    if (what == 3)
        return 254 + more;
    if (what == 4)
        return 511 + more;
    if (what == 5)
        return g[G_SIZE] - 1 + more;
    return below(g, 768);
}

/* 05h, which moves within the parameter page where that is open or kept behind 70h. */
static void page_move(uint64_t *g, uint8_t *records)
{
    uint64_t column = page_column(g);
    uint64_t n = below(g, 4);
    command(g, records, 0x05);
    put_column(g, records, column);
    command(g, records, 0xE0);
    take_out(g, records, n);
}

/* The parameter page, perhaps behind a status or polled for, and moves within it. */
static void job_page(uint64_t *g, uint8_t *records)
{
    uint64_t what = below(g, 8);
    uint64_t again = below(g, 4);
    uint64_t n = below(g, 3);
    make_all_ready(g, records);
    command(g, records, 0xEC);
    address(g, records, 0);
    take_out(g, records, n);
    if (what < 3)
        ask_status(g, records, g[G_SELECTED]);
    if (what == 3)
        poll(g, records, g[G_SELECTED], n);
    put_between(g, records);
    page_move(g, records);
    if (again > 0)
        page_move(g, records);
    if (again > 1)
        ask_status(g, records, g[G_SELECTED]);
    if (again > 1)
        page_move(g, records);
    if (again > 2)
        poll(g, records, g[G_SELECTED], n);
}

/* 00h after whatever came before, with or without a status; perhaps its first address; then data out, and a poll. */
static void job_bare(uint64_t *g, uint8_t *records)
{
    uint64_t what = below(g, 6);
    uint64_t lun = g[G_SELECTED];
    if (what < 4)
        ask_status(g, records, lun);
    command(g, records, 0x00);
    if (what % 2 == 1)
        address(g, records, 0);
    put_between(g, records);
    take_out(g, records, 1);
    poll(g, records, lun, 1);
}

/* The line goes low, something is tried, and mostly it goes high again. */
static void job_low(uint64_t *g, uint8_t *records)
{
    uint64_t what = below(g, 4);
    uint64_t back = below(g, 8);
    make_all_ready(g, records);
    put(g, records, 5, 0);
    if (what == 0)
        job_program(g, records);
    if (what == 1)
        job_erase(g, records);
    if (what == 2)
        job_read(g, records);
    if (what == 3)
        job_copy(g, records);
    make_all_ready(g, records);
    job_status(g, records);
    if (back != 0)
        put(g, records, 5, 1);
}

static void job_finish(uint64_t *g, uint8_t *records)
{
    for (uint64_t lun = 0; lun < g[G_FIELD + F_LUNS]; lun++)
        if (below(g, 2) == 1)
            put_finish(g, records, lun);
    put_finish(g, records, below(g, g[G_FIELD + F_LUNS] + 2));
}

/* A program and its status. */
static void program_looked(uint64_t *g, uint8_t *records, uint64_t lun, uint64_t row)
{
    program_page(g, records, lun, row);
    make_ready(g, records, lun);
    job_status(g, records);
}

/* The same, and the page read back. */
static void job_back(uint64_t *g, uint8_t *records)
{
    uint64_t lun = pick_lun(g);
    uint64_t row = pick_row(g, lun);
    program_looked(g, records, lun, row);
    read_page(g, records, lun, row);
}

/* The same page until its count is full and once more; then perhaps an erase. */
static void job_twice(uint64_t *g, uint8_t *records)
{
    uint64_t lun = pick_lun(g);
    uint64_t row = pick_row(g, lun);
    uint64_t n = 1 + below(g, g[G_FIELD + F_PROGRAMS] + 1);
    for (uint64_t i = 0; i < n; i++)
        program_looked(g, records, lun, row);
    if (below(g, 3) == 0)
        erase_block(g, records, lun, row);
}

/* The page to program after this one: one lower (ways 0, 1), one higher (2), at times the same, else any. */
static uint64_t next_page(uint64_t *g, uint64_t way, uint64_t page)
{
    uint64_t pages = g[G_FIELD + F_PAGES];
    uint64_t any = below(g, pages);
    uint64_t same = below(g, 4);
    if (same == 0)
        return page;
    if (way < 2 && page > 0)
        return page - 1;
    if (way == 2 && page + 1 < pages)
        return page + 1;
    return any;
}

/* Programs in one block, downward, upward or anyhow; half of the time it is erased first. */
static void job_order(uint64_t *g, uint8_t *records)
{
    uint64_t lun = pick_lun(g);
    uint64_t blocks = spot(g, g[G_FIELD + F_BLOCKS]);
    uint64_t block = below(g, blocks);
    uint64_t page = below(g, g[G_FIELD + F_PAGES]);
    uint64_t way = below(g, 4);
    uint64_t n = 2 + below(g, 3);
    if (below(g, 2) == 0)
        erase_block(g, records, lun, row_of(g, lun, block, page));
    for (uint64_t i = 0; i < n; i++) {
        program_looked(g, records, lun, row_of(g, lun, block, page));
        page = next_page(g, way, page);
    }
}

static void one_job(uint64_t *g, uint8_t *records, uint64_t job)
{
    switch (job) {
    case J_READ: job_read(g, records); break;
    case J_LUN_OUT: job_lun_out(g, records); break;
    case J_OUT: job_out(g, records); break;
    case J_PROGRAM: job_program(g, records); break;
    case J_ERASE: job_erase(g, records); break;
    case J_LUN_STATUS: job_lun_status(g, records); break;
    case J_STATUS: job_status(g, records); break;
    case J_ID: job_id(g, records); break;
    case J_PARAMETERS: job_parameters(g, records); break;
    case J_GET: job_get(g, records); break;
    case J_SET: job_set(g, records); break;
    case J_LOW: job_low(g, records); break;
    case J_RESET: put_reset(g, records); break;
    case J_FINISH: job_finish(g, records); break;
    case J_BACK: job_back(g, records); break;
    case J_TWICE: job_twice(g, records); break;
    case J_COPY: job_copy(g, records); break;
    case J_COPY_READ: job_copy_read(g, records); break;
    case J_COPY_WRITE: job_copy_write(g, records); break;
    case J_GIVE_UP: job_give_up(g, records); break;
    case J_POLL: job_poll(g, records); break;
    case J_POLL_OTHER: job_poll_other(g, records); break;
    case J_PAGE: job_page(g, records); break;
    case J_BARE: job_bare(g, records); break;
    default: job_order(g, records); break;
    }
}

/* ---- Noise and wrong cycles ---- */

static uint64_t near_command(uint64_t *g)
{
    uint64_t what = below(g, 40);
    if (what == 0)
        return 255;
    if (what < 3)
        return below(g, 256);
    return COMMAND_TABLE[below(g, COMMANDS - 1)];
}

static uint64_t near_address(uint64_t *g)
{
    uint64_t what = below(g, 8);
    if (what == 0)
        return below(g, 256);
    if (what == 1)
        return 32;
    if (what == 2)
        return below(g, 16);
    return below(g, 2);
}

static uint64_t near_data(uint64_t *g)
{
    uint64_t what = below(g, 4);
    if (what == 0)
        return below(g, 256);
    if (what == 1)
        return 64;
    return 0;
}

/* One record that looks like an event. */
static void near_record(uint64_t *g, uint8_t *records)
{
    uint64_t what = below(g, 32);
    if (what < 8)
        put(g, records, 0, near_command(g));
    else if (what < 19)
        put(g, records, 1, near_address(g));
    else if (what < 22)
        put(g, records, 2, near_data(g));
    else if (what < 28)
        put(g, records, 3, 0);
    else if (what < 30)
        put(g, records, 4, below(g, g[G_FIELD + F_LUNS]));
    else if (what == 30)
        put(g, records, 5, below(g, 2));
    else
        put_bad(g, records);
}

static void noise_record(uint64_t *g, uint8_t *records)
{
    uint64_t kind = below(g, 7);
    uint64_t value = below(g, 256);
    if (kind == 6)
        kind = below(g, 256);
    put(g, records, kind, value);
}

/* The last record moves to place 'at', the others make room. */
static void move_back(const uint64_t *g, uint8_t *records, uint64_t at)
{
    uint64_t i = g[G_LEN];
    uint8_t kind = records[i - 2];
    uint8_t value = records[i - 1];
    while (i > at + 2) {
        i = i - 1;
        records[i] = records[i - 2];
    }
    records[at] = kind;
    records[at + 1] = value;
}

static void remove_record(uint64_t *g, uint8_t *records, uint64_t at)
{
    g[G_LEN] = g[G_LEN] - 2;
    for (uint64_t i = at; i < g[G_LEN]; i++)
        records[i] = records[i + 2];
}

/* One wrong cycle in the job that began at byte 'from'. */
static void make_wrong(uint64_t *g, uint8_t *records, uint64_t from)
{
    uint64_t n = (g[G_LEN] - from) / 2;
    if (n == 0 || g[G_LEN] + 2 > TRACE_BYTES)
        return;
    uint64_t at = from + 2 * below(g, n);
    uint64_t what = below(g, 6);
    if (what == 0)
        records[at + 1] = (uint8_t)below(g, 256);
    if (what == 1) {
        records[at] = 0;
        records[at + 1] = (uint8_t)near_command(g);
    }
    if (what == 2)
        remove_record(g, records, at);
    if (what == 3) {
        near_record(g, records);
        move_back(g, records, at);
    }
    if (what == 4)
        records[at] = (uint8_t)below(g, 4);
    if (what == 5) {
        put(g, records, records[at], records[at + 1]);
        move_back(g, records, at);
    }
}

/* ---- Traces ---- */

static void put_jobs(uint64_t *g, uint8_t *records, uint64_t kind)
{
    while (g[G_LEN] < g[G_KNOB + K_RECORDS] * 2) {
        uint64_t from = g[G_LEN];
        uint64_t job = MIX_TABLE[kind * MIX + below(g, MIX)];
        one_job(g, records, job);
        if (chance(g, g[G_KNOB + K_WRONG]) == 1)
            make_wrong(g, records, from);
    }
}

/* Before the first FFh: cycles of every kind, FFh only as address or data. */
static void put_early(uint64_t *g, uint8_t *records)
{
    uint64_t n = 4 + below(g, 24);
    for (uint64_t i = 0; i < n; i++) {
        uint64_t at = g[G_LEN];
        near_record(g, records);
        if (records[at] == 0 && records[at + 1] == 255)
            records[at] = (uint8_t)(1 + below(g, 2));
    }
    put(g, records, 1, 255);
    put(g, records, 2, 255);
    put(g, records, 5, below(g, 2));
    put_reset(g, records);
    put(g, records, 5, 1);
}

static void make_trace(uint64_t *g, uint8_t *records, uint64_t kind, uint64_t fresh)
{
    g[G_LEN] = 0;
    if (kind == 9)
        put_early(g, records);
    else if (fresh == 1)
        put_reset(g, records);
    if (kind == 7)
        while (g[G_LEN] < g[G_KNOB + K_RECORDS] * 2)
            near_record(g, records);
    else if (kind == 8)
        while (g[G_LEN] < g[G_KNOB + K_RECORDS] * 2)
            noise_record(g, records);
    else
        put_jobs(g, records, kind);
}

/* ---- Running ---- */

/* With -t, one line for each thing that happens, and the digest after it. */
static void show(const uint64_t *g, const char *what, uint64_t a, uint64_t b, uint64_t c,
                 uint64_t d)
{
    if (g[G_SHOW] == 1)
        printf("%" PRIu64 " %s %" PRIu64 " %" PRIu64 " %" PRIu64 " %" PRIu64 " %" PRIu64 "\n",
               g[G_TRACE], what, a, b, c, d, g[G_H1]);
}

static void tally(uint64_t *g, uint64_t kind, uint64_t first, uint64_t second)
{
    g[G_EVENTS] = g[G_EVENTS] + 1;
    if (first == 2 && second < 26)
        g[G_REFUSED + second] = g[G_REFUSED + second] + 1;
    if (first < 2 && kind < 6)
        g[G_ACCEPTED + kind] = g[G_ACCEPTED + kind] + 1;
}

static void tally_replies(uint64_t *g, const uint8_t *records, uint64_t at, uint64_t bytes,
                          const uint8_t *replies)
{
    for (uint64_t i = 0; i < bytes; i = i + 2) {
        uint64_t value = 0;
        if (i + 1 < bytes)
            value = records[at + i + 1];
        tally(g, records[at + i], replies[i], replies[i + 1]);
        show(g, "record", (at + i) / 2, records[at + i], value,
             (uint64_t)replies[i] * 256 + replies[i + 1]);
    }
}

static uint64_t short_room(uint64_t *g, uint64_t need)
{
    uint64_t what = below(g, 3);
    if (what == 0)
        return need - 1;
    if (what == 1)
        return need - 2;
    return below(g, need);
}

/* Runs 'bytes' bytes from 'at' on; where the knob says so, first with too
 * little room. Four reply bytes past the room needed are digested too. */
static void run_batch(struct plain_target *t, uint64_t *g, const uint8_t *records, uint64_t at,
                      uint64_t bytes, uint8_t *replies, const uint8_t *page, uint8_t *array,
                      uint8_t *registers, uint8_t *counts, const uint8_t *flags)
{
    uint64_t need = (bytes + 1) / 2 * 2;
    fill_with(replies, need + 4, 238);
    if (chance(g, g[G_KNOB + K_SHORT]) == 1) {
        uint64_t room = short_room(g, need);
        uint64_t r = plain_trace(t, records + at, bytes, replies, room, page, g[G_PAGE_LEN],
                                 array, g[G_ARRAY_LEN], registers, g[G_REGISTERS_LEN],
                                 counts, g[G_COUNTS_LEN], flags, g[G_FLAGS_LEN]);
        absorb(g, r);
        absorb_bytes(g, replies, 0, need + 4);
        if (r == 16)
            g[G_REFUSED + 16] = g[G_REFUSED + 16] + 1;
        show(g, "room", at / 2, room, r, 0);
    }
    uint64_t more = below(g, 5);
    uint64_t done = plain_trace(t, records + at, bytes, replies, need + more, page, g[G_PAGE_LEN],
                                array, g[G_ARRAY_LEN], registers, g[G_REGISTERS_LEN],
                                counts, g[G_COUNTS_LEN], flags, g[G_FLAGS_LEN]);
    absorb(g, done);
    absorb_bytes(g, replies, 0, need + 4);
    tally_replies(g, records, at, bytes, replies);
}

/* One record by the call for one event. */
static void run_single(struct plain_target *t, uint64_t *g, const uint8_t *records, uint64_t at,
                       const uint8_t *page, uint8_t *array, uint8_t *registers,
                       uint8_t *counts, const uint8_t *flags)
{
    uint64_t reply = plain_event(t, records[at], records[at + 1], page, g[G_PAGE_LEN],
                                 array, g[G_ARRAY_LEN], registers, g[G_REGISTERS_LEN],
                                 counts, g[G_COUNTS_LEN], flags, g[G_FLAGS_LEN]);
    absorb(g, reply);
    tally(g, records[at], reply / 256, reply % 256);
    show(g, "event", at / 2, records[at], records[at + 1], reply);
}

static void absorb_rest(const struct plain_target *t, uint64_t *g, const uint8_t *page,
                        const uint8_t *registers)
{
    size_t start = 0;
    size_t length = 0;
    uint64_t which = plain_rest(t, g[G_PAGE_LEN], g[G_REGISTERS_LEN], &start, &length);
    absorb(g, which);
    absorb(g, start);
    absorb(g, length);
    if (which == 1)
        absorb_bytes(g, registers, start, length);
    if (which == 2)
        absorb_bytes(g, page, start, length);
    show(g, "rest", which, start, length, 0);
}

/* The number of blank blocks that the record keeps, by LUN. */
static void absorb_blanks(const struct plain_target *t, uint64_t *g)
{
    const struct plain_lun *l = t->lun;
    for (uint64_t i = 0; i < PLAIN_MAX_LUNS; i++)
        absorb(g, l[i].blank);
    show(g, "blanks", l[0].blank, l[1].blank, l[2].blank, l[3].blank);
}

/* The record's numbers that no reply need show: which LUNs have a copyback open, what a status keeps, and the blank
 * blocks. */
static void absorb_record(const struct plain_target *t, uint64_t *g)
{
    const struct plain_lun *l = t->lun;
    const struct plain_output *kept = &t->kept;
    for (uint64_t i = 0; i < PLAIN_MAX_LUNS; i++)
        absorb(g, l[i].copyback);
    show(g, "copybacks", l[0].copyback, l[1].copyback, l[2].copyback, l[3].copyback);
    absorb(g, kept->kind);
    absorb(g, kept->lun);
    absorb(g, kept->next);
    show(g, "kept", kept->kind, kept->lun, kept->next, 0);
    absorb_blanks(t, g);
}

static void set_output(struct plain_target *t, uint8_t kind, uint64_t lun, uint64_t next)
{
    t->sequence = (struct plain_sequence){0};
    t->output = (struct plain_output){.kind = kind, .lun = (uint32_t)lun, .next = (uint32_t)next};
    t->kept = (struct plain_output){0};
}

/* A bare 00h, with this kept. */
static void set_kept(struct plain_target *t, uint8_t kind, uint64_t lun, uint64_t next)
{
    t->sequence = (struct plain_sequence){.kind = PLAIN_SEQ_READ};
    t->output = (struct plain_output){0};
    t->kept = (struct plain_output){.kind = kind, .lun = (uint32_t)lun, .next = (uint32_t)next};
}

/* Spoils of the record's own numbers. */
static void spoil_number(struct plain_target *t, uint64_t what)
{
    switch (what) {
    case 0: t->powered = false; break;
    case 1: t->page_size = 15; break;
    case 2: t->page_size = 18433; break;
    case 3: t->pages = 0; break;
    case 4: t->pages = 257; break;
    case 5: t->blocks = 0; break;
    case 6: t->blocks = 4097; break;
    case 7: t->luns = 0; break;
    case 8: t->luns = 5; break;
    case 9: t->programs = 0; break;
    case 10: t->programs = 9; break;
    case 11: t->selected = t->luns; break;
    case 12: t->lun[3].working = true; break;
    case 30: t->lun[3].fail = true; break;
    case 47: t->lun[3].copyback = true; break;
    case 48: t->features |= 1; break;
    case 49: t->features &= 0xFFFD; break;
    case 54: t->lun[t->luns - 1].copyback = true; break;    /* legal, with the option or without */
    case 70: t->lun[0].blank = 0; break;                    /* legal */
    case 71: t->lun[t->luns - 1].blank = t->blocks; break;  /* legal */
    case 72: t->lun[0].blank = t->blocks + 1; break;
    case 73: t->lun[t->luns - 1].blank = t->blocks + 1; break;
    case 74: t->lun[3].blank = 1; break;
    default: break;
    }
}

/* Spoils of the output, and from 25 on their legal neighbours. */
static void spoil_output(struct plain_target *t, uint64_t what)
{
    switch (what) {
    case 18: set_output(t, PLAIN_OUT_REGISTER, 0, t->page_size + 1); break;
    case 19: set_output(t, PLAIN_OUT_REGISTER, t->luns, 0); break;
    case 20: set_output(t, PLAIN_OUT_STATUS, t->luns, 0); break;
    case 21: set_output(t, PLAIN_OUT_PARAMETERS, 0, 769); break;
    case 22: set_output(t, PLAIN_OUT_IDS, 0, 3); break;
    case 23: set_output(t, PLAIN_OUT_SIGNATURE, 0, 5); break;
    case 24: set_output(t, PLAIN_OUT_FEATURE, 0, 5); break;
    case 25: set_output(t, PLAIN_OUT_REGISTER, 0, t->page_size); break;
    case 26: set_output(t, PLAIN_OUT_PARAMETERS, 0, 768); break;
    case 27: set_output(t, PLAIN_OUT_IDS, 0, 2); break;
    case 28: set_output(t, PLAIN_OUT_SIGNATURE, 0, 4); break;
    case 29: set_output(t, PLAIN_OUT_FEATURE, 0, 4); break;
    default: break;
    }
}

/* Spoils of what is kept, and from 63 on their legal neighbours. */
static void spoil_kept(struct plain_target *t, uint64_t what)
{
    switch (what) {
    case 55: set_kept(t, PLAIN_OUT_REGISTER, 0, t->page_size + 1); break;
    case 56: set_kept(t, PLAIN_OUT_REGISTER, t->luns, 0); break;
    case 57: set_kept(t, PLAIN_OUT_STATUS, 0, 0); break;
    case 58: set_kept(t, PLAIN_OUT_PARAMETERS, 0, 769); break;
    case 59: set_kept(t, PLAIN_OUT_IDS, 0, 3); break;
    case 60: set_kept(t, PLAIN_OUT_SIGNATURE, 0, 5); break;
    case 61: set_kept(t, PLAIN_OUT_FEATURE, 0, 5); break;
    case 63: set_kept(t, PLAIN_OUT_REGISTER, t->luns - 1, t->page_size); break;
    case 64: set_kept(t, PLAIN_OUT_PARAMETERS, 0, 768); break;
    case 65: set_kept(t, PLAIN_OUT_IDS, 0, 2); break;
    case 66: set_kept(t, PLAIN_OUT_SIGNATURE, 0, 4); break;
    case 67: set_kept(t, PLAIN_OUT_FEATURE, 0, 4); break;
    case 68: set_kept(t, PLAIN_OUT_REGISTER, t->luns - 1, t->page_size - 1); break;
    default: break;
    }
}

/* A sequence whose addresses have all come. */
static void set_sequence(struct plain_target *t, uint8_t kind, uint8_t cycles, uint64_t column,
                         uint64_t lun, uint64_t block, uint64_t page)
{
    t->output = (struct plain_output){0};
    t->kept = (struct plain_output){0};
    t->sequence = (struct plain_sequence){
        .kind = kind, .cycles = cycles, .column = (uint32_t)column,
        .page = (uint32_t)page, .block = (uint32_t)block, .lun = (uint32_t)lun};
}

/* Spoils of the sequence. */
static void spoil_sequence(struct plain_target *t, uint64_t what)
{
    uint64_t size = t->page_size;
    uint64_t luns = t->luns;
    switch (what) {
    case 31: set_sequence(t, PLAIN_SEQ_READ, 5, size, 0, 0, 0); break;
    case 32: set_sequence(t, PLAIN_SEQ_READ, 5, 0, luns, 0, 0); break;
    case 33: set_sequence(t, PLAIN_SEQ_PROGRAM, 5, size + 1, 0, 0, 0); break;
    case 34: set_sequence(t, PLAIN_SEQ_PROGRAM, 5, 0, luns, 0, 0); break;
    case 35: set_sequence(t, PLAIN_SEQ_ERASE, 3, 0, luns, 0, 0); break;
    case 36: set_sequence(t, PLAIN_SEQ_LUN_COLUMN, 5, 0, luns, 0, 0); break;
    case 37: set_sequence(t, PLAIN_SEQ_COLUMN, 2, size, 0, 0, 0); break;
    case 38: set_sequence(t, PLAIN_SEQ_SET, 1, 0, 0, 0, 0); t->sequence.given = 4; break;
    case 39: set_sequence(t, PLAIN_SEQ_ERASE, 3, 0, 0, t->blocks, 0); break;
    case 40: set_sequence(t, PLAIN_SEQ_PROGRAM, 5, 0, 0, 0, t->pages); break;
    case 41: set_sequence(t, PLAIN_SEQ_READ, 5, 0, 0, t->blocks, 0); break;
    case 42: set_sequence(t, PLAIN_SEQ_MOVE, 0, 0, luns, 0, 0); t->sequence.first = 0x80; break;
    case 50: set_sequence(t, PLAIN_SEQ_COPYBACK, 5, size + 1, 0, 0, 0); break;
    case 51: set_sequence(t, PLAIN_SEQ_COPYBACK, 5, 0, luns, 0, 0); break;
    case 52: set_sequence(t, PLAIN_SEQ_MOVE, 0, 0, luns, 0, 0); t->sequence.first = 0x85; break;
    case 62: set_sequence(t, PLAIN_SEQ_COLUMN, 2, 768, 0, 0, 0); t->sequence.in_page = true; break;
    default: break;
    }
}

/* Legal neighbours of these: the largest numbers each field may hold. */
static void legal_sequence(struct plain_target *t, const uint64_t *g, uint64_t what)
{
    uint64_t size = t->page_size;
    uint64_t lun = t->luns - 1;
    uint64_t block = ((uint64_t)1 << g[G_BLOCK_BITS]) - 1;
    uint64_t page = ((uint64_t)1 << g[G_PAGE_BITS]) - 1;
    switch (what) {
    case 43: set_sequence(t, PLAIN_SEQ_PROGRAM, 5, size, lun, 0, 0); break;
    case 44: set_sequence(t, PLAIN_SEQ_ERASE, 3, 0, lun, t->blocks - 1, page); break;
    case 45: set_sequence(t, PLAIN_SEQ_LUN_COLUMN, 5, size - 1, lun, block, page); break;
    case 46: set_sequence(t, PLAIN_SEQ_READ, 5, size - 1, lun, t->blocks - 1, t->pages - 1); break;
    case 53: set_sequence(t, PLAIN_SEQ_COPYBACK, 5, size, lun, t->blocks - 1, t->pages - 1); break;
    case 69: set_sequence(t, PLAIN_SEQ_COLUMN, 2, 767, 0, 0, 0); t->sequence.in_page = true; break;
    default: break;
    }
}

/* Spoils of one lent length: one short. */
static void spoil_length(uint64_t *g, uint64_t what)
{
    if (what == 13)
        g[G_ARRAY_LEN] = g[G_ARRAY_LEN] - 1;
    if (what == 14)
        g[G_REGISTERS_LEN] = g[G_REGISTERS_LEN] - 1;
    if (what == 15)
        g[G_COUNTS_LEN] = g[G_COUNTS_LEN] - 1;
    if (what == 16)
        g[G_FLAGS_LEN] = g[G_FLAGS_LEN] - 1;
    if (what == 17)
        g[G_PAGE_LEN] = g[G_PAGE_LEN] - 1;
}

/* Lengths that a spoiled geometry would ask, so that only its limits refuse it. */
static void follow_geometry(const struct plain_target *t, uint64_t *g)
{
    uint64_t blocks = (uint64_t)t->luns * t->blocks;
    uint64_t pages = blocks * t->pages;
    g[G_ARRAY_LEN] = at_most(pages * t->page_size, MAX_ARRAY);
    g[G_REGISTERS_LEN] = at_most((uint64_t)t->luns * t->page_size, MAX_REGISTERS);
    g[G_COUNTS_LEN] = at_most(pages, MAX_COUNTS);
    g[G_FLAGS_LEN] = at_most(blocks, MAX_FLAGS);
}

static uint64_t fills_bits(uint64_t n)
{
    if ((uint64_t)1 << bits_for(n) == n)
        return 1;
    return 0;
}

/* Some spoils can't be written down for every part. */
static uint64_t pick_spoil(uint64_t *g)
{
    uint64_t what = below(g, SPOILS);
    if (g[G_FIELD + F_LUNS] == 4 && (what == 12 || what == 30 || what == 47 || what == 74))
        what = 11;
    if (g[G_FIELD + F_LUNS] == 1 && what == 49)
        what = 48;
    if ((what == 39 || what == 41) && fills_bits(g[G_FIELD + F_BLOCKS]) == 1)
        what = 35;
    if (what == 40 && fills_bits(g[G_FIELD + F_PAGES]) == 1)
        what = 34;
    return what;
}

static uint64_t is_legal(uint64_t what)
{
    if (what >= 25 && what <= 29)
        return 1;
    if (what >= 43 && what <= 46)
        return 1;
    if (what == 53 || what == 54)
        return 1;
    if (what >= 63 && what <= 71)
        return 1;
    return 0;
}

/* One event, then a trace of it and an odd byte, on a spoiled copy. A legal
 * neighbour gets data out (43, 53: data in), which changes no lent byte. */
static void run_spoiled(const struct plain_target *t, uint64_t *g, uint8_t *replies,
                        const uint8_t *page, uint8_t *array, uint8_t *registers,
                        uint8_t *counts, const uint8_t *flags)
{
    struct plain_target c = *t;
    uint8_t records[3] = {3, 0, 0};
    uint64_t what = pick_spoil(g);
    uint64_t legal = is_legal(what);
    uint64_t follow = below(g, 2);
    if (what == 43 || what == 53)       /* data in at P */
        records[0] = 2;
    if (legal == 0) {
        records[0] = (uint8_t)below(g, 6);
        records[1] = (uint8_t)below(g, 256);
    }
    show(g, "spoil", what, follow, 0, 0);
    spoil_number(&c, what);
    spoil_output(&c, what);
    spoil_kept(&c, what);
    spoil_sequence(&c, what);
    legal_sequence(&c, g, what);
    spoil_length(g, what);
    if (follow == 1 && what >= 1 && what <= 8)
        follow_geometry(&c, g);
    absorb_rest(&c, g, page, registers);
    uint64_t due = g[G_REFUSED + 13] + 1 - legal;
    run_single(&c, g, records, 0, page, array, registers, counts, flags);
    if (g[G_REFUSED + 13] != due)
        g[G_SURPRISES] = g[G_SURPRISES] + 1;
    run_batch(&c, g, records, 0, 3, replies, page, array, registers, counts, flags);
    absorb_blanks(&c, g);
    measure(g);
}

/* One time in eight the record itself gets an untrue number of blank blocks that 13 lets pass, 0 or all, and the trace
 * goes on with it: so programs meet a number that stops at 0, and erases one that stops at all. */
static void lie_blank(struct plain_target *t, uint64_t *g)
{
    uint64_t what = below(g, 16);
    uint64_t lun = pick_lun(g);
    if (what > 1)
        return;
    uint64_t number = what * g[G_FIELD + F_BLOCKS];
    t->lun[lun].blank = (uint32_t)number;
    show(g, "lie", lun, number, 0, 0);
    number_true = false;
}

/* ---- In C alone: the number of blank blocks that is kept is the one that a walk gives ---- */

static void walk(const struct plain_target *t, const uint8_t *counts, const uint8_t *flags, uint32_t *walked)
{
    for (uint32_t lun = 0; lun < PLAIN_MAX_LUNS; lun++)
        walked[lun] = plain_blank_walk(t, lun, counts, flags);
}

static void hold(const struct plain_target *t, const uint64_t *g, uint64_t at, const uint32_t *walked)
{
    for (uint32_t lun = 0; lun < PLAIN_MAX_LUNS; lun++) {
        uint32_t kept = t->lun[lun].blank;
        if (kept == walked[lun])
            continue;
        fprintf(stderr, "generate: part %" PRIu64 " kind %" PRIu64 " trace %" PRIu64 " record %" PRIu64 ": LUN %" PRIu32
                " keeps %" PRIu32 " blank blocks and has %" PRIu32 "\n",
                line_now / KINDS, line_now % KINDS, g[G_TRACE], at / 2, lun, kept, walked[lun]);
        exit(1);
    }
}

/* Before the records and after each: they are run one by one on a copy with buffers of its own, where array and
 * registers may hold anything. Walked again only where a count has changed. */
static void hold_records(const struct plain_target *t, const uint64_t *g, const uint8_t *records, uint64_t at,
                         uint64_t bytes, const uint8_t *page, const uint8_t *counts, const uint8_t *flags)
{
    static uint8_t array[MAX_ARRAY], registers[MAX_REGISTERS], own[MAX_COUNTS], seen[MAX_COUNTS];
    struct plain_target c = *t;
    uint32_t walked[PLAIN_MAX_LUNS];
    if (!number_true)
        return;
    memcpy(own, counts, g[G_COUNTS_LEN]);
    memcpy(seen, counts, g[G_COUNTS_LEN]);
    walk(&c, own, flags, walked);
    hold(&c, g, at, walked);
    for (uint64_t i = at; i < at + bytes; i = i + 2) {
        plain_event(&c, records[i], records[i + 1], page, g[G_PAGE_LEN], array, g[G_ARRAY_LEN],
                    registers, g[G_REGISTERS_LEN], own, g[G_COUNTS_LEN], flags, g[G_FLAGS_LEN]);
        if (memcmp(own, seen, g[G_COUNTS_LEN]) != 0) {
            memcpy(seen, own, g[G_COUNTS_LEN]);
            walk(&c, own, flags, walked);
        }
        hold(&c, g, i, walked);
    }
}

/* ---- Whole traces ---- */

/* Batches of 'step' bytes; with a step of one record, event by event. */
static void run_trace(struct plain_target *t, uint64_t *g, const uint8_t *records,
                      uint8_t *replies, const uint8_t *page, uint8_t *array, uint8_t *registers,
                      uint8_t *counts, const uint8_t *flags)
{
    uint64_t at = 0;
    uint64_t step = 2 + 2 * below(g, g[G_KNOB + K_STEP]);
    while (at < g[G_LEN]) {
        uint64_t bytes = at_most(step, g[G_LEN] - at);
        uint64_t odd = 0;
        if (at + bytes < g[G_LEN])      /* the odd byte is the next record's first */
            odd = chance(g, g[G_KNOB + K_ODD]);
        hold_records(t, g, records, at, bytes, page, counts, flags);
        if (step == 2)
            run_single(t, g, records, at, page, array, registers, counts, flags);
        else
            run_batch(t, g, records, at, bytes + odd, replies, page, array, registers, counts,
                      flags);
        absorb_rest(t, g, page, registers);
        absorb_record(t, g);
        if (chance(g, g[G_KNOB + K_SPOIL]) == 1) {
            run_spoiled(t, g, replies, page, array, registers, counts, flags);
            lie_blank(t, g);
        }
        at = at + bytes;
    }
}

static void absorb_buffers(uint64_t *g, const uint8_t *array, const uint8_t *registers,
                           const uint8_t *counts, const uint8_t *flags)
{
    absorb_bytes(g, array, 0, g[G_ARRAY_LEN]);
    absorb_bytes(g, registers, 0, g[G_REGISTERS_LEN]);
    absorb_bytes(g, counts, 0, g[G_COUNTS_LEN]);
    absorb_bytes(g, flags, 0, g[G_FLAGS_LEN]);
}

/* ---- Lines ---- */

static void mend_contents(const uint64_t *g, uint8_t *counts, uint8_t *flags)
{
    for (uint64_t i = 0; i < g[G_COUNTS_LEN]; i++)
        counts[i] = (uint8_t)at_most(counts[i], g[G_FIELD + F_PROGRAMS]);
    for (uint64_t i = 0; i < g[G_FLAGS_LEN]; i++)
        flags[i] = (uint8_t)at_most(flags[i], 1);
}

/* What power-on looked at may hold anything later. */
static void change_contents(uint64_t *g, uint64_t kind, uint8_t *page, uint8_t *counts,
                            uint8_t *flags)
{
    if (kind == 5 || kind == 15)
        fill_random(g, page, 256);
    if (kind != 14)
        return;
    for (uint64_t i = 0; i < 4; i++) {
        uint64_t at = below(g, g[G_COUNTS_LEN]);
        counts[at] = (uint8_t)below(g, 256);
        at = below(g, g[G_FLAGS_LEN]);
        uint64_t bad = below(g, 2);
        flags[at] = (uint8_t)(bad * below(g, 256));
    }
}

static void power_up(struct plain_target *t, uint64_t *g, uint64_t kind, uint8_t *page,
                     uint8_t *array, uint8_t *registers, uint8_t *counts, uint8_t *flags)
{
    mend_contents(g, counts, flags);
    make_page(g, page);
    uint64_t r = plain_power_on(t, page, 256, (uint8_t)g[G_DEVICE], array, g[G_ARRAY_LEN],
                                registers, g[G_REGISTERS_LEN], counts, g[G_COUNTS_LEN],
                                flags, g[G_FLAGS_LEN]);
    absorb(g, r);
    absorb_bytes(g, registers, 0, g[G_REGISTERS_LEN]);
    show(g, "power", r, 0, 0, 0);
    absorb_blanks(t, g);
    g[G_BUSY] = 0;
    g[G_SELECTED] = 0;
    change_contents(g, kind, page, counts, flags);
    number_true = holding && kind != 14;
}

/* All traces of one part and one kind. */
static void run_line(uint64_t *g, uint64_t seed, uint64_t count, uint64_t part, uint64_t kind,
                     uint8_t *records, uint8_t *replies, uint8_t *page, uint8_t *array,
                     uint8_t *registers, uint8_t *counts, uint8_t *flags)
{
    struct plain_target t = {0};
    fill_with(page, MAX_PAGE, 0);
    seed_line(g, seed, part * KINDS + kind);
    load_part(g, part);
    load_knobs(g, kind);
    fill_buffers(g, array, registers, counts, flags);
    for (uint64_t i = 0; i < g[G_KNOB + K_TRACES] * count; i++) {
        uint64_t fresh = chance(g, 3);
        if (i == 0 || kind == 9)
            fresh = 1;
        g[G_TRACE] = i;
        if (fresh == 1)
            power_up(&t, g, kind, page, array, registers, counts, flags);
        make_trace(g, records, kind, fresh);
        run_trace(&t, g, records, replies, page, array, registers, counts, flags);
        absorb_buffers(g, array, registers, counts, flags);
        show(g, "buffers", 0, 0, 0, 0);
    }
}

/* ---- Power-on ---- */

static void bad_field(uint64_t *g)
{
    static const uint32_t wrong[9] = {15, 2049, 257, 4097, 5, 9, 34, 1, 0};
    static const uint8_t field[9] = {F_DATA, F_SPARE, F_PAGES, F_BLOCKS, F_LUNS, F_PROGRAMS,
                                     F_CYCLES, F_WIDE, F_MANY};
    uint64_t what = below(g, 9);
    g[G_FIELD + field[what]] = wrong[what];
    if (what == 8)              /* bit 1 matters with more than one LUN only */
        g[G_FIELD + F_LUNS] = 2;
}

static void bad_length(uint64_t *g)
{
    uint64_t what = below(g, 4);
    uint64_t more = below(g, 2);
    g[G_ARRAY_LEN + what] = g[G_ARRAY_LEN + what] + 2 * more - 1;
}

static void bad_content(uint64_t *g, uint8_t *counts, uint8_t *flags)
{
    uint64_t what = below(g, 4);
    uint64_t count = below(g, g[G_COUNTS_LEN]);
    uint64_t flag = below(g, g[G_FLAGS_LEN]);
    if (what == 0)
        counts[count] = (uint8_t)(g[G_FIELD + F_PROGRAMS] + 1);
    if (what == 1)
        counts[count] = 255;
    if (what == 2)
        flags[flag] = 2;
    if (what == 3)
        flags[flag] = 255;
}

/* Damages a page that is whole so far: 21 and 22. */
static void bad_page(uint64_t *g, uint8_t *page, uint64_t signed_wrong, uint64_t crc_wrong)
{
    if (signed_wrong == 1) {
        uint64_t at = below(g, 4);
        uint64_t bit = below(g, 8);
        page[at] = (uint8_t)(page[at] ^ ((uint64_t)1 << bit));
        mend_crc(page);
    }
    if (crc_wrong == 1) {
        uint64_t at = 4 + below(g, 252);
        uint64_t bit = below(g, 8);
        page[at] = (uint8_t)(page[at] ^ ((uint64_t)1 << bit));
    }
}

static void bad_page_length(uint64_t *g)
{
    uint64_t what = below(g, 3);
    if (what == 0)
        g[G_PAGE_LEN] = 255;
    if (what == 1)
        g[G_PAGE_LEN] = 257;
    if (what == 2)
        g[G_PAGE_LEN] = below(g, 255);
}

/* Powers on as lent, then tries each job on what came of it. */
static void power_case(struct plain_target *t, uint64_t *g, uint8_t *records, uint8_t *replies,
                       uint8_t *page, uint8_t *array, uint8_t *registers, uint8_t *counts,
                       uint8_t *flags)
{
    uint64_t r = plain_power_on(t, page, g[G_PAGE_LEN], (uint8_t)g[G_DEVICE],
                                array, g[G_ARRAY_LEN], registers, g[G_REGISTERS_LEN],
                                counts, g[G_COUNTS_LEN], flags, g[G_FLAGS_LEN]);
    absorb(g, r);
    g[G_REFUSED + r] = g[G_REFUSED + r] + 1;
    absorb_buffers(g, array, registers, counts, flags);
    show(g, "power", r, 0, 0, 0);
    absorb_blanks(t, g);
    number_true = holding && r == 0;
    g[G_LEN] = 0;
    put_reset(g, records);
    if (r == 0)
        for (uint64_t job = 0; job < JOBS; job++)
            one_job(g, records, job);
    else
        put_bad(g, records);
    run_trace(t, g, records, replies, page, array, registers, counts, flags);
    absorb_buffers(g, array, registers, counts, flags);
    show(g, "buffers", 0, 0, 0, 0);
    g[G_TRACE] = g[G_TRACE] + 1;
}

/* A small part with the damages 'one' and 'two', each 20 to 25 or 0 for none. */
static void damaged_case(struct plain_target *t, uint64_t *g, uint64_t one, uint64_t two,
                         uint8_t *records, uint8_t *replies, uint8_t *page, uint8_t *array,
                         uint8_t *registers, uint8_t *counts, uint8_t *flags)
{
    load_part(g, 2 + below(g, 6));
    fill_buffers(g, array, registers, counts, flags);
    if (one == 25 || two == 25)
        bad_content(g, counts, flags);
    if (one == 24 || two == 24)
        bad_length(g);
    if (one == 23 || two == 23)
        bad_field(g);
    make_page(g, page);
    bad_page(g, page, one == 21 || two == 21, one == 22 || two == 22);
    if (one == 20 || two == 20)
        bad_page_length(g);
    power_case(t, g, records, replies, page, array, registers, counts, flags);
}

/* The smallest part with one field at a limit or past it. */
static void limit_case(struct plain_target *t, uint64_t *g, uint64_t limit, uint64_t many,
                       uint8_t *records, uint8_t *replies, uint8_t *page, uint8_t *array,
                       uint8_t *registers, uint8_t *counts, uint8_t *flags)
{
    load_part(g, 7);
    g[G_FIELD + F_MANY] = many;
    g[G_FIELD + LIMIT_TABLE[limit * 2]] = LIMIT_TABLE[limit * 2 + 1];
    measure(g);
    g[G_FIELD + F_COUNTS] = 0;
    fill_buffers(g, array, registers, counts, flags);
    make_page(g, page);
    power_case(t, g, records, replies, page, array, registers, counts, flags);
}

/* One byte of a good page changed, the CRC mended. */
static void byte_case(struct plain_target *t, uint64_t *g, uint64_t at,
                      uint8_t *records, uint8_t *replies, uint8_t *page, uint8_t *array,
                      uint8_t *registers, uint8_t *counts, uint8_t *flags)
{
    load_part(g, 2 + below(g, 6));
    fill_buffers(g, array, registers, counts, flags);
    make_page(g, page);
    uint64_t bit = below(g, 8);
    page[at] = (uint8_t)(page[at] ^ ((uint64_t)1 << bit));
    if (at < 254)
        mend_crc(page);
    power_case(t, g, records, replies, page, array, registers, counts, flags);
}

static void run_power_line(uint64_t *g, uint64_t seed, uint64_t count, uint64_t kind,
                           uint8_t *records, uint8_t *replies, uint8_t *page, uint8_t *array,
                           uint8_t *registers, uint8_t *counts, uint8_t *flags)
{
    struct plain_target t = {0};
    fill_with(page, MAX_PAGE, 0);
    seed_line(g, seed, PARTS * KINDS + kind);
    load_knobs(g, 11);
    for (uint64_t i = 0; i < count * 24; i++) {
        if (kind == 0)
            for (uint64_t one = 19; one < 26; one++)
                damaged_case(&t, g, one, 0, records, replies, page, array, registers, counts, flags);
        if (kind == 1)
            for (uint64_t one = 20; one < 25; one++)
                for (uint64_t two = one + 1; two < 26; two++)
                    damaged_case(&t, g, one, two, records, replies, page, array, registers, counts, flags);
        if (kind == 2 && i % 8 < 2)
            for (uint64_t limit = 0; limit < LIMITS; limit++)
                limit_case(&t, g, limit, i % 2, records, replies, page, array, registers, counts, flags);
        if (kind == 3 && i % 24 == 0)
            for (uint64_t at = 0; at < 256; at++)
                byte_case(&t, g, at, records, replies, page, array, registers, counts, flags);
    }
}

/* ---- Printing: the only part with text ---- */

static void print_line(const uint64_t *g, uint64_t part, uint64_t kind)
{
    printf("%" PRIu64 " %" PRIu64 " %" PRIu64 " %" PRIu64 " %" PRIu64 " ",
           part, kind, g[G_EVENTS], g[G_H1], g[G_H2]);
    for (uint64_t n = 1; n <= 14; n++)
        printf(" %" PRIu64, g[G_REFUSED + n]);
    printf(" %" PRIu64 " ", g[G_REFUSED + 16]);
    for (uint64_t k = 0; k < 6; k++)
        printf(" %" PRIu64, g[G_ACCEPTED + k]);
    if (part == PARTS) {
        printf("  %" PRIu64, g[G_REFUSED]);
        for (uint64_t n = 20; n <= 25; n++)
            printf(" %" PRIu64, g[G_REFUSED + n]);
    }
    printf("\n");
}

static void add_up(uint64_t *total, const uint64_t *g)
{
    total[G_EVENTS] += g[G_EVENTS];
    total[G_SURPRISES] += g[G_SURPRISES];
    for (uint64_t i = G_REFUSED; i < G_NUMBERS; i++)
        total[i] += g[i];
    total[G_H1] = (total[G_H1] * 1000003 + g[G_H1] + 1) % 4294967291;
    total[G_H2] = (total[G_H2] * 16777619 + g[G_H2] + 1) % 4294967279;
}

/* True where every refusal and every kind of event came up often enough. */
static int enough(const uint64_t *total)
{
    int ok = total[G_EVENTS] >= 2200000 && total[G_SURPRISES] == 0;
    for (uint64_t n = 1; n <= 14; n++)
        ok = ok && total[G_REFUSED + n] >= 1000;
    ok = ok && total[G_REFUSED + 16] >= 1000;
    for (uint64_t n = 20; n <= 25; n++)
        ok = ok && total[G_REFUSED + n] >= 20;
    for (uint64_t k = 0; k < 6; k++)
        ok = ok && total[G_ACCEPTED + k] >= 10000;
    return ok;
}

static void print_totals(const uint64_t *total)
{
    printf("total events %" PRIu64 " digest %" PRIu64 " %" PRIu64 "\n",
           total[G_EVENTS], total[G_H1], total[G_H2]);
    printf("refused 1-14 16:");
    for (uint64_t n = 1; n <= 14; n++)
        printf(" %" PRIu64, total[G_REFUSED + n]);
    printf(" %" PRIu64 "\n", total[G_REFUSED + 16]);
    printf("accepted command address in out finish protect:");
    for (uint64_t k = 0; k < 6; k++)
        printf(" %" PRIu64, total[G_ACCEPTED + k]);
    printf("\npower-on 0 20-25: %" PRIu64, total[G_REFUSED]);
    for (uint64_t n = 20; n <= 25; n++)
        printf(" %" PRIu64, total[G_REFUSED + n]);
    printf("\nspoiled events with another reply than due: %" PRIu64 "\n", total[G_SURPRISES]);
}

/* generate [-x ERROR] [-t PART KIND] [SEED [COUNT]]
 * With -t that line alone, and before it what happens: the trace's number, then
 *   power ANSWER 0 0 0          a power-on
 *   record PLACE KIND VALUE REPLY   a record of a batch
 *   event PLACE KIND VALUE REPLY    one event
 *   room PLACE ROOM ANSWER 0    a batch with too little room
 *   rest WHICH START LENGTH 0   the unread rest
 *   copybacks OPEN OPEN OPEN OPEN   by LUN, 1 where one is open
 *   kept KIND LUN NEXT 0        what a status keeps: the kind as in plain.h, 0 nothing
 *   blanks N N N N              blank blocks as the record keeps them, by LUN
 *   spoil WHAT FOLLOW 0 0       what follows is on a spoiled copy, up to and with its blanks
 *   lie LUN NUMBER 0 0          from now on the record has this number of blank blocks
 *   buffers 0 0 0 0             the end of the trace
 * and last the first digest. A reply is its first byte times 256 plus the second. */
int main(int argc, char **argv)
{
    static uint8_t records[TRACE_BYTES], replies[REPLY_BYTES], page[MAX_PAGE], array[MAX_ARRAY],
        registers[MAX_REGISTERS], counts[MAX_COUNTS], flags[MAX_FLAGS];
    uint64_t total[G_NUMBERS] = {0};
    uint64_t seed = 1, count = 1, error = 0, only = LINES;
    int at = 1;

    if (at + 1 < argc && strcmp(argv[at], "-x") == 0) {
        error = strtoull(argv[at + 1], NULL, 10);
        at += 2;
    }
    if (at + 2 < argc && strcmp(argv[at], "-t") == 0) {
        only = strtoull(argv[at + 1], NULL, 10) * KINDS + strtoull(argv[at + 2], NULL, 10);
        at += 3;
    }
    if (at < argc)
        seed = strtoull(argv[at++], NULL, 10);
    if (at < argc)
        count = strtoull(argv[at++], NULL, 10);
    holding = error == 0;
#ifdef PLAIN_ERRORS
    plain_error = (unsigned)error;
#else
    if (error != 0) {
        fprintf(stderr, "generate: built without PLAIN_ERRORS\n");
        return 2;
    }
#endif

    if (only == LINES)
        printf("# part kind events digest digest  refused 1-14 16  accepted 0-5"
               "  (part %d: power-on 0 20-25)\n", PARTS);
    for (uint64_t line = 0; line < LINES; line++) {
        uint64_t g[G_NUMBERS] = {0};
        uint64_t part = line / KINDS, kind = line % KINDS;
        line_now = line;
        if (only != LINES && only != line)
            continue;
        if (only == line)
            g[G_SHOW] = 1;
        if (part < PARTS)
            run_line(g, seed, count, part, kind, records, replies, page, array, registers,
                     counts, flags);
        else
            run_power_line(g, seed, count, kind, records, replies, page, array, registers,
                           counts, flags);
        print_line(g, part, kind);
        add_up(total, g);
    }
    if (only != LINES)
        return 0;
    print_totals(total);
    return error == 0 && !enough(total);
}
