/* A loader that polls, as ONFI drivers do: after 30h it asks 70h until the part is ready, and then it sends 00h with no
 * address and reads on.
 *
 *     tools/build-host
 *     cc -Iinclude examples/polling.c target/host/libnibtoggle.a -o target/polling && target/polling
 *
 * 70h ends the output that was open, and the part keeps it behind the status. A bare 00h is an open sequence until its
 * data out, so the 00h is sent only where data follows: a driver that ends every poll with 00h has its next command
 * refused. */
#include "nibtoggle.h"

#include <stdio.h>
#include <stdlib.h>
#include <string.h>

/* T1's parameter page: 512+16 bytes a page, 4 pages a block, 8 blocks, 2 LUNs, every option. */
static const uint8_t page[NIB_PAGE_LENGTH] = {
    [0] = 'O', 'N', 'F', 'I', [6] = 0x02, 0x01, [8] = 0x4C, [64] = 0x2C, [80] = 0x00, 0x02, [84] = 16, [92] = 4,
    [96] = 8, [100] = 2, 0x23, [110] = 4, [254] = 0xCF, 0x10,
};
static uint8_t array[33792], registers[1056], counts[64], flags[16];
static const nib_lent lent = {page, sizeof page, array, sizeof array, registers, sizeof registers,
                              counts, sizeof counts, flags, sizeof flags};
static nib_target target;

/* ---- The bench: one bus cycle, and a LUN that works finishes after three statuses ---- */

/* One event, and its reply. A refusal is told, and ends the program. */
static uint32_t accepted(uint8_t kind, uint8_t value)
{
    uint32_t reply = nib_lent_event(&target, &lent, kind, value);
    unsigned refusal = nib_refusal(reply);
    if (refusal != 0) {
        printf("event %u %02X refused with %u: %s\n", kind, value, refusal, nib_words(refusal));
        exit(1);
    }
    return reply;
}

static uint8_t cycle(uint8_t kind, uint8_t value)
{
    static unsigned statuses;
    uint32_t reply = accepted(kind, value);
    size_t lun = target.output_lun;
    int busy = kind == NIB_DATA_OUT && target.output == NIB_OUTPUT_STATUS && target.working[lun];
    if (busy && ++statuses % 3 == 0)
        accepted(NIB_FINISH, (uint8_t)lun);
    return (uint8_t)reply;
}

/* ---- The loader, which knows bus cycles alone ---- */

static void command(uint8_t value) { cycle(NIB_COMMAND, value); }

static void address(uint32_t value, unsigned cycles)
{
    for (unsigned i = 0; i < cycles; i++)
        cycle(NIB_ADDRESS, (uint8_t)(value >> (8 * i)));
}

static void data_out(char *to, size_t count)
{
    for (size_t i = 0; i < count; i++)
        to[i] = (char)cycle(NIB_DATA_OUT, 0);
}

/* 70h until the part is ready: how many polls. What was open before is kept behind the status. */
static unsigned wait_ready(void)
{
    for (unsigned polls = 1; polls <= 1000; polls++) {
        command(0x70);
        if (cycle(NIB_DATA_OUT, 0) & 0x40)
            return polls;
    }
    return 0;
}

static unsigned read_page(uint32_t row, uint32_t column, char *to, size_t count)
{
    command(0x00);
    address(column, 2);
    address(row, 3);
    command(0x30);
    unsigned polls = wait_ready();
    command(0x00);              /* no address: on with the page, at its next byte */
    data_out(to, count);
    return polls;
}

static void read_parameters(uint32_t copy, char *to, size_t count)
{
    command(0xEC);
    address(0x00, 1);
    wait_ready();
    command(0x05);              /* with the parameter page open, or kept behind 70h, 05h moves within its 768 bytes */
    address(256 * copy, 2);
    command(0xE0);
    data_out(to, count);
}

int main(void)
{
    static const char preset[] = "sonar preset";
    char seen[sizeof preset] = "", signature[5] = "";
    nib_part part = nib_part_of(page);
    uint32_t answer;

    memset(array, 0xFF, sizeof array);
    memcpy(array + nib_page_start(part, 1, 5, 3), preset, sizeof preset - 1);
    answer = nib_lent_power_on(&target, &lent, 0x68);
    if (answer != 0) {
        printf("power-on refused with %u: %s\n", (unsigned)answer, nib_words(answer));
        return 1;
    }
    command(0xFF);
    unsigned polls = read_page(nib_row(part, 1, 5, 3), 0, seen, sizeof preset - 1);
    printf("LUN 1, block 5, page 3, after %u polls: %s\n", polls, seen);
    read_parameters(2, signature, 4);
    printf("parameter page, copy 2: %s\n", signature);
    return polls != 4 || strcmp(seen, preset) != 0 || strcmp(signature, "ONFI") != 0;
}
