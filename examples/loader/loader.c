/* The loader of loader.h. */
#include "loader.h"

#include <string.h>

enum { RESET = 0xFF, READ = 0x00, START_READ = 0x30, CHANGE_COLUMN = 0x05, START_OUTPUT = 0xE0, PROGRAM = 0x80,
       START_PROGRAM = 0x10, STATUS_OF_LUN = 0x78, PARAMETERS = 0xEC, SET_FEATURE = 0xEF, READY = 0x40, FAIL = 0x01,
       PROGRAM_CLEAR = 0x0100 };

/* One step after the other, and no other after the first that is refused. */
#define TRY(step) do { unsigned answer_ = (step); if (answer_ != LOADER_OK) return answer_; } while (0)

static unsigned command(loader *l, uint8_t value) { return l->bus.command(l->bus.of, value); }

static unsigned place(loader *l, size_t lun, size_t block, size_t page, size_t column)
{
    size_t row = (lun << l->block_bits | block) << l->page_bits | page;
    uint8_t a[5] = {(uint8_t)column, (uint8_t)(column >> 8), (uint8_t)row, (uint8_t)(row >> 8), (uint8_t)(row >> 16)};
    return l->bus.address(l->bus.of, a, sizeof a);
}

static size_t number(const uint8_t *page, size_t first, size_t size)
{
    size_t n = 0;
    while (size-- > 0)
        n = n << 8 | page[first + size];
    return n;
}

static unsigned bits(size_t n)
{
    unsigned b = 0;
    while (n > 1 && (n - 1) >> b != 0)
        b++;
    return b;
}

static int whole(const uint8_t *page)
{
    unsigned crc = 0x4F4E;
    for (size_t i = 0; i < 254; i++) {
        crc ^= (unsigned)page[i] << 8;
        for (int k = 0; k < 8; k++)
            crc = (crc & 0x8000 ? crc << 1 ^ 0x8005 : crc << 1) & 0xFFFF;
    }
    return memcmp(page, "ONFI", 4) == 0 && crc == number(page, 254, 2);
}

unsigned loader_open(loader *l, loader_bus bus)
{
    static const uint8_t zero[1] = {0}, one[1] = {1}, on[4] = {0x40, 0, 0, 0};
    uint8_t page[256];
    int copy = 0;
    l->bus = bus;
    TRY(command(l, RESET));
    TRY(command(l, PARAMETERS));
    TRY(bus.address(bus.of, zero, sizeof zero));
    do {
        if (copy++ == 3)
            return LOADER_NO_PAGE;
        TRY(bus.read(bus.of, page, sizeof page));
    } while (!whole(page));
    l->data_bytes = number(page, 80, 4);
    l->spare_bytes = number(page, 84, 2);
    l->pages = number(page, 92, 4);
    l->blocks = number(page, 96, 4);
    l->luns = page[100];
    l->page_bits = bits(l->pages);
    l->block_bits = bits(l->blocks);
    if ((number(page, 6, 2) & PROGRAM_CLEAR) != 0) {
        TRY(command(l, SET_FEATURE));
        TRY(bus.address(bus.of, one, sizeof one));
        TRY(bus.write(bus.of, on, sizeof on));
    }
    return LOADER_OK;
}

/* Polls until the LUN is ready; *done: whether its work was done. */
unsigned loader_wait(loader *l, size_t lun, int *done)
{
    size_t row = lun << (l->block_bits + l->page_bits);
    uint8_t a[3] = {(uint8_t)row, (uint8_t)(row >> 8), (uint8_t)(row >> 16)}, status;
    for (int polls = 0; polls < LOADER_POLLS; polls++) {
        TRY(command(l, STATUS_OF_LUN));
        TRY(l->bus.address(l->bus.of, a, sizeof a));
        TRY(l->bus.read(l->bus.of, &status, 1));
        if (status & READY) {
            *done = !(status & FAIL);
            return LOADER_OK;
        }
    }
    return LOADER_NOT_READY;
}

/* A page into its LUN's register, and output opened at the column. */
static unsigned open_page(loader *l, size_t lun, size_t block, size_t page, size_t column)
{
    uint8_t a[2] = {(uint8_t)column, (uint8_t)(column >> 8)};
    int done;
    TRY(command(l, READ));
    TRY(place(l, lun, block, page, column));
    TRY(command(l, START_READ));
    TRY(loader_wait(l, lun, &done));
    /* the polls ended the output: it is opened again, on the LUN that they named last */
    TRY(command(l, CHANGE_COLUMN));
    TRY(l->bus.address(l->bus.of, a, sizeof a));
    return command(l, START_OUTPUT);
}

/* *good: the first page's first spare byte is not the maker's mark, 00h, and every page's data bytes are erased: many
 * parts take a block's pages upward only, and fail a program below a written one. */
static unsigned look(loader *l, size_t lun, size_t block, int *good)
{
    uint8_t byte = 0xFF;
    if (l->spare_bytes > 0) {
        TRY(open_page(l, lun, block, 0, l->data_bytes));
        TRY(l->bus.read(l->bus.of, &byte, 1));
    }
    *good = byte != 0x00;
    for (size_t page = 0; *good && page < l->pages; page++) {
        TRY(open_page(l, lun, block, page, 0));
        for (size_t i = 0; *good && i < l->data_bytes; i++) {
            TRY(l->bus.read(l->bus.of, &byte, 1));
            *good = byte == 0xFF;
        }
    }
    return LOADER_OK;
}

/* The first good and free block from *block on. */
static unsigned find(loader *l, size_t lun, size_t *block)
{
    int good;
    for (; *block < l->blocks; ++*block) {
        TRY(look(l, lun, *block, &good));
        if (good)
            return LOADER_OK;
    }
    return LOADER_NO_FREE_BLOCK;
}

static unsigned compare(loader *l, size_t lun, const loader_preset *p)
{
    uint8_t byte;
    TRY(open_page(l, lun, p->block, 0, 0));
    for (size_t i = 0; i < p->length; i++) {
        TRY(l->bus.read(l->bus.of, &byte, 1));
        if (byte != p->bytes[i])
            return LOADER_NOT_AS_SAVED;
    }
    return LOADER_OK;
}

unsigned loader_save(loader *l, loader_preset *presets, size_t luns)
{
    int left[LOADER_MAX_LUNS] = {0}, some = 0, done;
    for (size_t lun = 0; lun < luns; lun++) {
        if (lun >= LOADER_MAX_LUNS || (presets[lun].length > 0 && lun >= l->luns) || presets[lun].length > l->data_bytes)
            return LOADER_NO_SUCH_PRESET;
        presets[lun].block = 0;
        some |= left[lun] = presets[lun].length > 0;
    }
    while (some) {
        /* all blocks are found before the first LUN works, so that every LUN is given its program while others work */
        for (size_t lun = 0; lun < luns; lun++)
            if (left[lun])
                TRY(find(l, lun, &presets[lun].block));
        for (size_t lun = 0; lun < luns; lun++)
            if (left[lun]) {
                TRY(command(l, PROGRAM));
                TRY(place(l, lun, presets[lun].block, 0, 0));
                TRY(l->bus.write(l->bus.of, presets[lun].bytes, presets[lun].length));
                TRY(command(l, START_PROGRAM));
            }
        some = 0;
        for (size_t lun = 0; lun < luns; lun++)
            if (left[lun]) {
                TRY(loader_wait(l, lun, &done));
                /* a program that failed may have spoilt its block: the preset goes to the next one */
                left[lun] = !done;
                presets[lun].block += !done;
                some |= !done;
            }
    }
    for (size_t lun = 0; lun < luns; lun++)
        if (presets[lun].length > 0)
            TRY(compare(l, lun, &presets[lun]));
    return LOADER_OK;
}
