/* Tests of the loader on the model: a part of T1's page with bad blocks, LUNs that take some polls.
 *
 *     cc -Iinclude examples/loader/loader.c examples/loader/test_loader.c target/host/libnibtoggle.a -o target/loader
 *     target/loader
 */
#include "bench.h"

#include <stdio.h>
#include <string.h>

/* T1's parameter page: 512+16 bytes a page, 4 pages a block, 8 blocks, 2 LUNs, every option. */
static const uint8_t page[NIB_PAGE_LENGTH] = {
    [0] = 'O', 'N', 'F', 'I', [6] = 0x02, 0x01, [8] = 0x4C, [64] = 0x2C, [80] = 0x00, 0x02, [84] = 16, [92] = 4,
    [96] = 8, [100] = 2, 0x23, [110] = 4, [254] = 0xCF, 0x10,
};
static uint8_t array[33792], registers[1056], counts[64], flags[16];
static const uint8_t A[] = "sonar preset A", B[] = "sonar preset B", nothing[513];
static bench b;
static loader l;
static int checks, failures;

static void check(int held, const char *what)
{
    checks++;
    if (!held) {
        failures++;
        printf("FAILED: %s\n", what);
    }
}
#define CHECK(test) check(test, #test)

/* A fresh part on the bench, of which some blocks are bad, and the loader on it. */
static unsigned fresh(const char *bad, int marks, unsigned autofinish)
{
    nib_lent lent = {page, sizeof page, array, sizeof array, registers, sizeof registers, counts, sizeof counts,
                     flags, sizeof flags};
    memset(&b, 0, sizeof b);
    memset(array, 0xFF, sizeof array);
    memset(counts, 0, sizeof counts);
    for (size_t i = 0; i < sizeof flags; i++)
        flags[i] = bad[i] == 'x';
    if (marks)
        nib_put_marks(page, array, flags);
    b.lent = lent;
    b.autofinish = autofinish;
    if (nib_lent_power_on(&b.target, &b.lent, 0x68) != 0)
        return LOADER_NO_PAGE;
    return loader_open(&l, bench_bus(&b));
}

static const uint8_t *held(size_t lun, size_t block) { return array + nib_page_start(nib_part_of(page), lun, block, 0); }

int main(void)
{
    loader_preset both[] = {{A, sizeof A, 0}, {B, sizeof B, 0}}, second[] = {{NULL, 0, 0}, {B, sizeof B, 0}};
    loader_preset three[] = {{A, sizeof A, 0}, {NULL, 0, 0}, {B, sizeof B, 0}}, large[] = {{nothing, sizeof nothing, 0}};

    /* marked blocks are skipped, and both LUNs work at once */
    CHECK(fresh("x.......xx......", 1, 3) == LOADER_OK);
    CHECK(loader_save(&l, both, 2) == LOADER_OK);
    CHECK(both[0].block == 1 && both[1].block == 2 && b.both);
    CHECK(memcmp(held(0, 1), A, sizeof A) == 0 && memcmp(held(1, 2), B, sizeof B) == 0);
    CHECK(counts[4] == 1 && counts[40] == 1);

    /* blocks in use are skipped */
    CHECK(loader_save(&l, both, 2) == LOADER_OK && both[0].block == 2 && both[1].block == 3);

    /* bad blocks that nobody marked: the program fails, and the preset goes to another block */
    CHECK(fresh("xx......x.......", 0, 2) == LOADER_OK);
    CHECK(loader_save(&l, both, 2) == LOADER_OK && both[0].block == 2 && both[1].block == 1);
    CHECK(held(0, 0)[0] == 0xFF && memcmp(held(0, 2), A, sizeof A) == 0);

    /* T1 takes a block's pages upward only: a block with a higher page written is not free; and where such a page reads
     * FFh still, the program fails and the preset goes to another block */
    CHECK(fresh("................", 1, 1) == LOADER_OK);
    array[nib_page_start(nib_part_of(page), 0, 0, 3)] = 'x';
    counts[3] = counts[32 + 2] = 1;
    CHECK(loader_save(&l, both, 2) == LOADER_OK && both[0].block == 1 && both[1].block == 1);
    CHECK(counts[0] == 0 && counts[4] == 1 && counts[32] == 0 && counts[36] == 1);
    CHECK(held(1, 0)[0] == 0xFF && memcmp(held(1, 1), B, sizeof B) == 0);

    /* a LUN that is left alone */
    CHECK(fresh("................", 1, 1) == LOADER_OK);
    CHECK(loader_save(&l, second, 2) == LOADER_OK && held(0, 0)[0] == 0xFF && held(1, 0)[0] == 's');

    /* what can't be had */
    CHECK(loader_save(&l, three, 3) == LOADER_NO_SUCH_PRESET);
    CHECK(loader_save(&l, large, 1) == LOADER_NO_SUCH_PRESET);
    CHECK(fresh("xxxxxxxx........", 1, 1) == LOADER_OK);
    CHECK(loader_save(&l, both, 2) == LOADER_NO_FREE_BLOCK);
    CHECK(fresh("................", 1, 0) == LOADER_OK);
    CHECK(loader_save(&l, both, 2) == LOADER_NOT_READY);
    CHECK(fresh("................", 1, 1) == LOADER_OK);
    CHECK(nib_lent_event(&b.target, &b.lent, NIB_PROTECT, 0) == NIB_ACCEPTED);
    CHECK(loader_save(&l, both, 2) == NIB_REFUSED_PROTECTED);

    printf("loader: %d checks, %d failed\n", checks, failures);
    return failures != 0;
}
