/* A loader test in C: stations A (LUN 0) and B (LUN 1) save a preset at the same time, and A looks at its register again.
 *
 *     tools/build-host
 *     cc -Iinclude examples/lost_preset.c target/host/libnibtoggle.a -o target/lost_preset && target/lost_preset
 */
#include "nibtoggle.h"

#include <stdio.h>
#include <string.h>

/* T1's parameter page: 512+16 bytes a page, 4 pages a block, 8 blocks, 2 LUNs, every option. */
static const uint8_t page[NIB_PAGE_LENGTH] = {
    [0] = 'O', 'N', 'F', 'I', [6] = 0x02, 0x01, [8] = 0x4C, [64] = 0x2C, [80] = 0x00, 0x02, [84] = 16, [92] = 4, [96] = 8,
    [100] = 2, 0x23, [110] = 4, [254] = 0xCF, 0x10,
};
static uint8_t array[33792], registers[1056], counts[64], flags[16];
static const nib_lent lent = {page, sizeof page, array, sizeof array, registers, sizeof registers, counts, sizeof counts,
                              flags, sizeof flags};

/* Whether the records were run; each refusal is told. */
static int send(nib_target *t, const uint8_t *records, size_t length)
{
    uint8_t replies[64];
    uint32_t answer = nib_lent_trace(t, &lent, records, length, replies, sizeof replies);
    if (answer != 0) {
        printf("nothing was run, %u: %s\n", (unsigned)answer, nib_words(answer));
        return 0;
    }
    for (size_t i = 0; i < length; i += 2)
        if (replies[i] == 2)
            printf("record %zu refused with %u: %s\n", i / 2, replies[i + 1], nib_words(replies[i + 1]));
        else if (replies[i] == 1)
            printf(" %02X", replies[i + 1]);
    return 1;
}

int main(void)
{
    /* kind, value: FFh, or FFh and program-clear on; A's program, B's program, both finish; 06h to E0h on LUN 0, two bytes out */
    static const uint8_t off[] = {0, 0xFF}, on[] = {0, 0xFF, 0, 0xEF, 1, 1, 2, 0x40, 2, 0, 2, 0, 2, 0};
    static const uint8_t story[] = {
        0, 0x80, 1, 0, 1, 0, 1, 0, 1, 0, 1, 0, 2, 0x3C, 2, 0xA5, 0, 0x10,
        0, 0x80, 1, 0, 1, 0, 1, 32, 1, 0, 1, 0, 2, 0x11, 2, 0x22, 0, 0x10,
        4, 0, 4, 1, 0, 0x06, 1, 0, 1, 0, 1, 0, 1, 0, 1, 0, 0, 0xE0, 3, 0, 3, 0,
    };
    for (int clear = 1; clear >= 0; clear--) {
        nib_target t;
        memset(array, 0xFF, sizeof array);
        memset(counts, 0, sizeof counts);
        uint32_t answer = nib_lent_power_on(&t, &lent, 0x68);
        if (answer != 0) {
            printf("power-on refused with %u: %s\n", (unsigned)answer, nib_words(answer));
            return 1;
        }
        printf("program-clear %s: A reads", clear ? "on" : "off");
        if (!send(&t, clear ? on : off, clear ? sizeof on : sizeof off) || !send(&t, story, sizeof story))
            return 1;
        printf(", and its page has %02X %02X\n", array[0], array[1]);
    }
    return 0;
}
