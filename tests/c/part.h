/* Parts for the C tests: a parameter page from its fields, and the worked parts T1 and T2. */
#ifndef PART_H
#define PART_H

#include "nibtoggle.h"

#include <string.h>

typedef struct fields {
    uint32_t data, spare, pages, blocks, luns, programs;
    unsigned features;          /* bit 1 more LUNs than one, bit 2 pages in any order, bit 8 program-clear */
    unsigned optional;          /* bit 2 EEh and EFh, bit 3 78h, bit 4 copyback, bit 6 06h */
} fields;

enum { FEATURES_ALL = 0x102, OPTIONAL_ALL = 0x5C, OPTIONAL_T1 = 0x4C, MAKER = 0x2C, DEVICE = 0x68 };

static const fields T1 = {512, 16, 4, 8, 2, 4, FEATURES_ALL, OPTIONAL_T1};

static void put(uint8_t *page, unsigned at, unsigned bytes, uint32_t n)
{
    for (unsigned i = 0; i < bytes; i++)
        page[at + i] = (uint8_t)(n >> (8 * i));
}

/* Polynomial 8005h, start 4F4Eh, most significant bit first. */
static void put_crc(uint8_t *page)
{
    unsigned crc = 0x4F4E;
    for (unsigned i = 0; i < 254; i++) {
        crc ^= (unsigned)page[i] << 8;
        for (unsigned bit = 0; bit < 8; bit++)
            crc = (crc & 0x8000 ? crc << 1 ^ 0x8005 : crc << 1) & 0xFFFF;
    }
    put(page, 254, 2, crc);
}

static void make_page(uint8_t *page, const fields *f)
{
    memset(page, 0, NIB_PAGE_LENGTH);
    memcpy(page, "ONFI", 4);
    put(page, 6, 2, f->features);
    put(page, 8, 2, f->optional);
    page[64] = MAKER;
    put(page, 80, 4, f->data);
    put(page, 84, 2, f->spare);
    put(page, 92, 4, f->pages);
    put(page, 96, 4, f->blocks);
    page[100] = (uint8_t)f->luns;
    page[101] = 0x23;
    page[110] = (uint8_t)f->programs;
    put_crc(page);
}

#endif
