/* The worked cases of the requirements, event by event through the C functions: the whole case, cases (a) to (j), the lost preset, the
 * unread rest, traces with short room and an odd byte, power-on's refusals. */
#include "part.h"

#include <stdio.h>
#include <stdlib.h>

static unsigned checks, failures;

/* The record without the padding at its end. */
enum { USED = offsetof(nib_target, blank) + sizeof(((nib_target *)0)->blank) };

static void same(const char *what, unsigned long long is, unsigned long long should)
{
    checks++;
    if (is != should) {
        failures++;
        printf("%s: %llX, and %llX is due\n", what, is, should);
    }
}

/* A part and all that is lent with it. */
typedef struct bench {
    nib_target t;
    nib_lent b;
    nib_part part;
    uint8_t page[NIB_PAGE_LENGTH];
    uint8_t *flags;
} bench;

static void *bytes(size_t n, int fill)
{
    void *p = malloc(n);
    if (!p)
        exit(2);
    return memset(p, fill, n);
}

static void open_bench(bench *x, const fields *f)
{
    make_page(x->page, f);
    x->part = nib_part_of(x->page);
    x->b.page = x->page;
    x->b.page_length = sizeof x->page;
    x->b.array_length = nib_array_length(x->part);
    x->b.registers_length = nib_registers_length(x->part);
    x->b.counts_length = nib_counts_length(x->part);
    x->b.flags_length = nib_flags_length(x->part);
    x->b.array = bytes(x->b.array_length, 0xFF);
    x->b.registers = bytes(x->b.registers_length, 0);
    x->b.counts = bytes(x->b.counts_length, 0);
    x->b.flags = x->flags = bytes(x->b.flags_length, 0);
    memset(&x->t, 0xEE, sizeof x->t);
    same("power-on", nib_lent_power_on(&x->t, &x->b, DEVICE), 0);
}

static void close_bench(bench *x)
{
    free(x->b.array);
    free(x->b.registers);
    free(x->b.counts);
    free(x->flags);
}

static uint32_t event(bench *x, uint8_t kind, uint8_t value)
{
    return nib_lent_event(&x->t, &x->b, kind, value);
}

static uint32_t command(bench *x, uint8_t value) { return event(x, NIB_COMMAND, value); }
static uint32_t address(bench *x, uint8_t value) { return event(x, NIB_ADDRESS, value); }
static uint32_t data_in(bench *x, uint8_t value) { return event(x, NIB_DATA_IN, value); }
static uint32_t data_out(bench *x) { return event(x, NIB_DATA_OUT, 0); }

/* The last reply of a column's two cycles, of a row's three. */
static uint32_t column(bench *x, unsigned n)
{
    same("first column cycle", address(x, (uint8_t)n), NIB_ACCEPTED);
    return address(x, (uint8_t)(n >> 8));
}

static uint32_t row(bench *x, uint32_t n)
{
    same("first row cycle", address(x, (uint8_t)n), NIB_ACCEPTED);
    same("second row cycle", address(x, (uint8_t)(n >> 8)), NIB_ACCEPTED);
    return address(x, (uint8_t)(n >> 16));
}

static void program(bench *x, uint32_t at, unsigned col, const uint8_t *data, size_t n)
{
    same("80h", command(x, 0x80), NIB_ACCEPTED);
    same("column", column(x, col), NIB_ACCEPTED);
    same("row", row(x, at), NIB_ACCEPTED);
    for (size_t i = 0; i < n; i++)
        same("data in", data_in(x, data[i]), NIB_ACCEPTED);
    same("10h", command(x, 0x10), NIB_ACCEPTED);
}

static uint32_t status(bench *x, uint32_t at)
{
    same("78h", command(x, 0x78), NIB_ACCEPTED);
    same("row of 78h", row(x, at), NIB_ACCEPTED);
    return data_out(x);
}

#define REFUSED(n) (0x200u + (n))
#define BYTE(n) (0x100u + (n))

/* "Whole case, a just powered target": each event with its answer, and every lent byte afterwards. */
static void whole_case(void)
{
    static const uint8_t in[] = {0, 0xFF, 0, 0x90, 1, 0x20, 3, 0, 3, 0, 3, 0, 3, 0, 3, 0};
    static const uint8_t out[] = {0, 0, 0, 0, 0, 0, 1, 0x4F, 1, 0x4E, 1, 0x46, 1, 0x49, 2, 8};
    bench x;
    uint8_t replies[sizeof out + 2];
    nib_target after;

    open_bench(&x, &T1);
    for (size_t i = 0; i < x.b.registers_length; i++)
        same("register byte after power-on", x.b.registers[i], 0xFF);
    for (size_t i = 0; i < sizeof in; i += 2)
        same("whole case", event(&x, in[i], in[i + 1]), (uint32_t)out[i] << 8 | out[i + 1]);
    after = x.t;
    for (size_t i = 0; i < x.b.array_length; i++)
        same("array byte", x.b.array[i], 0xFF);
    for (size_t i = 0; i < x.b.counts_length; i++)
        same("count", x.b.counts[i], 0);

    /* again as one trace, with two bytes of room to spare: they stay */
    same("power-on again", nib_lent_power_on(&x.t, &x.b, DEVICE), 0);
    memset(replies, 0xCC, sizeof replies);
    same("trace", nib_lent_trace(&x.t, &x.b, in, sizeof in, replies, sizeof replies), 0);
    same("replies", (unsigned)memcmp(replies, out, sizeof out), 0);
    same("room to spare", replies[sizeof out] == 0xCC && replies[sizeof out + 1] == 0xCC, 1);
    same("the same record", (unsigned)memcmp(&x.t, &after, USED), 0);
    close_bench(&x);
}

/* Cases (a) to (j). */
static void cases(void)
{
    fields f2 = T1;
    bench x, y;
    static const uint8_t a5 = 0xA5, c3 = 0x3C;
    uint32_t at;

    open_bench(&x, &T1);
    f2.pages = 3;
    f2.blocks = 5;
    open_bench(&y, &f2);
    same("(a)", x.b.array_length, 33792);
    same("(b) row", nib_row(x.part, 1, 5, 3), 55);
    same("(b) place", nib_page_start(x.part, 1, 5, 3), 29040);
    same("(c)", nib_row(y.part, 0, 4, 2), 18);
    command(&x, 0xFF);
    command(&y, 0xFF);

    for (unsigned i = 0; i < 2; i++) {
        command(&y, 0x80);
        column(&y, 0);
        same(i ? "(e)" : "(d)", row(&y, i ? 20 : 15), REFUSED(4));
    }
    command(&y, 0x80);
    column(&y, 0);
    same("(c) row 18", row(&y, 18), NIB_ACCEPTED);
    same("(c) selects LUN 0", y.t.selected, 0);
    command(&y, 0xFF);

    command(&x, 0x80);
    column(&x, 0);
    same("(f)", row(&x, 64), REFUSED(4));
    command(&x, 0x80);
    same("(g) 527", column(&x, 527), NIB_ACCEPTED);
    command(&x, 0xFF);
    command(&x, 0x80);
    same("(g) 528", column(&x, 528), REFUSED(4));

    at = nib_row(x.part, 1, 5, 3);
    program(&x, at, 0, &a5, 1);
    same("(i) working", status(&x, at), BYTE(0x80));
    same("finish", event(&x, NIB_FINISH, 1), NIB_ACCEPTED);
    same("(i) ready", status(&x, at), BYTE(0xE0));
    program(&x, at, 0, &c3, 1);
    same("finish", event(&x, NIB_FINISH, 1), NIB_ACCEPTED);
    same("(h)", x.b.array[29040], 0x24);
    same("(h) next byte", x.b.array[29041], 0xFF);
    same("(h) count", x.b.counts[29040 / 528], 2);
    for (size_t i = 0; i < x.b.array_length; i++)
        if (i != 29040)
            same("(h) other byte", x.b.array[i], 0xFF);

    program(&x, at, 0, NULL, 0);
    event(&x, NIB_FINISH, 1);
    program(&x, at, 0, NULL, 0);
    event(&x, NIB_FINISH, 1);
    same("four programs", x.b.counts[29040 / 528], 4);
    program(&x, at, 0, NULL, 0);        /* one more than the part allows */
    event(&x, NIB_FINISH, 1);
    same("count stays", x.b.counts[29040 / 528], 4);
    same("(i) failed", status(&x, at), BYTE(0xE1));
    same("reset", command(&x, 0xFF), NIB_ACCEPTED);
    same("protect low", event(&x, NIB_PROTECT, 0), NIB_ACCEPTED);
    same("(i) line low", status(&x, at), BYTE(0x60));
    command(&x, 0x60);
    same("row of 60h", row(&x, at), NIB_ACCEPTED);
    same("D0h with the line low", command(&x, 0xD0), REFUSED(7));
    same("protect high", event(&x, NIB_PROTECT, 1), NIB_ACCEPTED);

    command(&x, 0x80);
    column(&x, 527);
    row(&x, at);
    same("(j) at 527", data_in(&x, 0), NIB_ACCEPTED);
    same("(j) the next", data_in(&x, 0), REFUSED(8));

    command(&x, 0x60);
    row(&x, at);
    same("D0h", command(&x, 0xD0), NIB_ACCEPTED);
    event(&x, NIB_FINISH, 1);
    same("erased", x.b.array[29040], 0xFF);
    same("count after erase", x.b.counts[29040 / 528], 0);
    close_bench(&x);
    close_bench(&y);
}

/* Two stations save at once; A looks at its register again. */
static void lost_preset(int clear)
{
    static const uint8_t a[] = {0x3C, 0xA5}, b[] = {0x11, 0x22};
    bench x;

    open_bench(&x, &T1);
    command(&x, 0xFF);
    if (clear) {
        same("EFh", command(&x, 0xEF), NIB_ACCEPTED);
        same("feature 01h", address(&x, 1), NIB_ACCEPTED);
        for (unsigned i = 0; i < 4; i++)
            same("feature byte", data_in(&x, i ? 0 : 0x40), NIB_ACCEPTED);
        same("program-clear", x.t.clear, 1);
    }
    program(&x, nib_row(x.part, 0, 0, 0), 0, a, 2);
    program(&x, nib_row(x.part, 1, 0, 0), 0, b, 2);
    event(&x, NIB_FINISH, 0);
    event(&x, NIB_FINISH, 1);
    same("06h", command(&x, 0x06), NIB_ACCEPTED);
    column(&x, 0);
    row(&x, nib_row(x.part, 0, 0, 0));
    same("E0h", command(&x, 0xE0), NIB_ACCEPTED);
    same("A's first byte", data_out(&x), BYTE(clear ? 0x3Cu : 0xFFu));
    same("A's second byte", data_out(&x), BYTE(clear ? 0xA5u : 0xFFu));
    same("A's preset in the array", x.b.array[0] == 0x3C && x.b.array[1] == 0xA5, 1);
    same("B's preset in the array", x.b.array[nib_page_start(x.part, 1, 0, 0)], 0x11);
    close_bench(&x);
}

static void rest(void)
{
    bench x;
    uint64_t r;

    open_bench(&x, &T1);
    same("no output", nib_lent_rest(&x.t, &x.b), 0);
    command(&x, 0xFF);
    command(&x, 0x00);
    column(&x, 500);
    row(&x, nib_row(x.part, 1, 0, 0));
    same("30h", command(&x, 0x30), NIB_ACCEPTED);
    same("while the LUN works", nib_lent_rest(&x.t, &x.b), 0);
    event(&x, NIB_FINISH, 1);
    same("a byte", data_out(&x), BYTE(0xFF));
    r = nib_lent_rest(&x.t, &x.b);
    same("registers", nib_rest_buffer(r), NIB_REST_REGISTERS);
    same("start", nib_rest_start(r), 528 + 501);
    same("length", nib_rest_length(r), 27);
    same("another length of the registers", nib_rest(&x.t, x.b.page, 256, x.b.registers, x.b.registers_length - 1), 0);
    same("NULL with length 0", nib_rest(&x.t, NULL, 0, NULL, 0), 0);

    command(&x, 0xEC);
    address(&x, 0);
    for (unsigned i = 0; i < 300; i++)
        same("parameter byte", data_out(&x), BYTE(x.page[i % 256]));
    r = nib_lent_rest(&x.t, &x.b);
    same("parameters", nib_rest_buffer(r), NIB_REST_PARAMETERS);
    same("start", nib_rest_start(r), 44);
    same("length", nib_rest_length(r), 212);
    for (unsigned i = 300; i < 768; i++)
        data_out(&x);
    same("all copies read", nib_lent_rest(&x.t, &x.b), 0);
    same("past the third copy", data_out(&x), REFUSED(8));
    close_bench(&x);
}

/* Copyback on a part that has it: the register is kept, changed and written; the record has the mark and the first
 * command. */
static void copyback(void)
{
    static const uint8_t bytes_in[] = {0x11, 0x22, 0x33}, bytes_due[] = {0x11, 0x55, 0x33, 0xFF};
    fields w = T1;
    bench x;
    uint32_t at;

    w.optional |= NIB_OPTIONAL_COPYBACK;
    open_bench(&x, &w);
    at = nib_row(x.part, 0, 0, 0);
    command(&x, 0xFF);
    program(&x, at, 0, bytes_in, sizeof bytes_in);
    event(&x, NIB_FINISH, 0);
    same("00h", command(&x, 0x00), NIB_ACCEPTED);
    same("column of 00h", column(&x, 0), NIB_ACCEPTED);
    same("row of 00h", row(&x, at), NIB_ACCEPTED);
    same("35h", command(&x, 0x35), NIB_ACCEPTED);
    same("open on LUN 0", x.t.copyback[0] == 1 && x.t.copyback[1] == 0, 1);
    event(&x, NIB_FINISH, 0);
    same("85h", command(&x, 0x85), NIB_ACCEPTED);
    same("its number", x.t.first, NIB_FIRST_COPYBACK_PROGRAM);
    same("column of 85h", column(&x, 1), NIB_ACCEPTED);
    same("LUN 1 has none open", row(&x, nib_row(x.part, 1, 0, 0)), REFUSED(NIB_REFUSED_NO_COPYBACK));
    same("85h again", command(&x, 0x85), NIB_ACCEPTED);
    same("column of 85h", column(&x, 1), NIB_ACCEPTED);
    same("row of 85h", row(&x, nib_row(x.part, 0, 1, 0)), NIB_ACCEPTED);
    same("takes data", x.t.sequence == NIB_SEQUENCE_FILLING && x.t.first == NIB_FIRST_COPYBACK_PROGRAM, 1);
    same("data", data_in(&x, 0x55), NIB_ACCEPTED);
    same("10h", command(&x, 0x10), NIB_ACCEPTED);
    same("closed", x.t.copyback[0], 0);
    same("written", memcmp(x.b.array + nib_page_start(x.part, 0, 1, 0), bytes_due, sizeof bytes_due) == 0, 1);
    close_bench(&x);
}

/* A block's pages upward: a program below a written page is accepted, changes nothing but the LUN's record, and FAIL
 * tells; the same page again, other blocks, an erased one and a part with feature bit 2 are as ever. */
static void page_order(void)
{
    static const uint8_t zero = 0x00;
    fields w = T1;
    bench x;
    size_t three, one;

    for (unsigned any = 0; any < 2; any++) {
        w.features = FEATURES_ALL | (any ? NIB_FEATURE_ANY_ORDER : 0u);
        w.optional = OPTIONAL_ALL;
        open_bench(&x, &w);
        three = nib_page_start(x.part, 1, 5, 3);
        one = nib_page_start(x.part, 1, 5, 1);
        command(&x, 0xFF);
        program(&x, nib_row(x.part, 1, 5, 3), 0, &zero, 1);
        event(&x, NIB_FINISH, 1);
        same("page 3", status(&x, 32), BYTE(0xE0));
        program(&x, nib_row(x.part, 1, 5, 1), 0, &zero, 1);
        same("page 1 works", status(&x, 32), BYTE(0x80));
        event(&x, NIB_FINISH, 1);
        same("page 1 below page 3", status(&x, 32), any ? BYTE(0xE0) : BYTE(0xE1));
        same("its mark", x.t.fail[1], !any);
        same("its byte", x.b.array[one], any ? 0x00 : 0xFF);
        same("its count", x.b.counts[one / 528], any);
        program(&x, nib_row(x.part, 1, 5, 3), 1, &zero, 1);
        event(&x, NIB_FINISH, 1);
        same("page 3 again", status(&x, 32), BYTE(0xE0));
        same("its bytes", x.b.array[three] == 0x00 && x.b.array[three + 1] == 0x00 && x.b.counts[three / 528] == 2, 1);
        program(&x, nib_row(x.part, 1, 4, 0), 0, &zero, 1);
        event(&x, NIB_FINISH, 1);
        same("another block", status(&x, 32), BYTE(0xE0));

        same("00h", command(&x, 0x00), NIB_ACCEPTED);
        same("column of 00h", column(&x, 0), NIB_ACCEPTED);
        same("row of 00h", row(&x, nib_row(x.part, 1, 5, 3)), NIB_ACCEPTED);
        same("35h", command(&x, 0x35), NIB_ACCEPTED);
        event(&x, NIB_FINISH, 1);
        same("85h", command(&x, 0x85), NIB_ACCEPTED);
        same("column of 85h", column(&x, 0), NIB_ACCEPTED);
        same("row of 85h", row(&x, nib_row(x.part, 1, 5, 2)), NIB_ACCEPTED);
        same("its 10h", command(&x, 0x10), NIB_ACCEPTED);
        event(&x, NIB_FINISH, 1);
        same("copyback downward", status(&x, 32), any ? BYTE(0xE0) : BYTE(0xE1));
        same("its byte", x.b.array[nib_page_start(x.part, 1, 5, 2)], any ? 0x00 : 0xFF);
        same("closed", x.t.copyback[1], 0);

        command(&x, 0x60);
        row(&x, nib_row(x.part, 1, 5, 0));
        same("D0h", command(&x, 0xD0), NIB_ACCEPTED);
        event(&x, NIB_FINISH, 1);
        program(&x, nib_row(x.part, 1, 5, 1), 0, &zero, 1);
        event(&x, NIB_FINISH, 1);
        same("page 1 after an erase", status(&x, 32), BYTE(0xE0));
        same("its byte", x.b.array[one], 0x00);
        x.b.counts[one / 528 + 1] = 1;                  /* a host may write a count: it is the one that is looked at */
        program(&x, nib_row(x.part, 1, 5, 1), 0, &zero, 1);
        event(&x, NIB_FINISH, 1);
        same("page 1 below a count that was written", status(&x, 32), any ? BYTE(0xE0) : BYTE(0xE1));
        close_bench(&x);
    }
}

/* A loader that polls: 70h until the page has come, then 00h and data out; the record has what is kept meanwhile. 05h
 * within the parameter page. */
static void polling(void)
{
    static const uint8_t bytes_in[] = {0x11, 0x22, 0x33};
    bench x;
    uint32_t at;
    uint64_t r;

    open_bench(&x, &T1);
    at = nib_row(x.part, 1, 0, 0);
    command(&x, 0xFF);
    program(&x, at, 0, bytes_in, sizeof bytes_in);
    event(&x, NIB_FINISH, 1);
    same("00h", command(&x, 0x00), NIB_ACCEPTED);
    same("column of 00h", column(&x, 1), NIB_ACCEPTED);
    same("row of 00h", row(&x, at), NIB_ACCEPTED);
    same("30h", command(&x, 0x30), NIB_ACCEPTED);
    same("nothing kept", x.t.kept == NIB_OUTPUT_NONE && x.t.kept_lun == 0 && x.t.kept_at == 0, 1);
    same("70h", command(&x, 0x70), NIB_ACCEPTED);
    same("the register is kept", x.t.kept == NIB_OUTPUT_REGISTER && x.t.kept_lun == 1 && x.t.kept_at == 1, 1);
    same("busy", data_out(&x), BYTE(0x80));
    event(&x, NIB_FINISH, 1);
    same("ready", data_out(&x), BYTE(0xE0));
    same("no unread rest behind a status", nib_lent_rest(&x.t, &x.b), 0);
    same("00h with no address", command(&x, 0x00), NIB_ACCEPTED);
    same("a sequence", x.t.sequence == NIB_SEQUENCE_COLUMNS && x.t.first == NIB_FIRST_READ && x.t.got == 0, 1);
    same("still kept", x.t.kept == NIB_OUTPUT_REGISTER && x.t.output == NIB_OUTPUT_NONE, 1);
    same("no unread rest after a bare 00h", nib_lent_rest(&x.t, &x.b), 0);
    same("protect event", event(&x, NIB_PROTECT, 1), REFUSED(11));
    same("the next byte", data_out(&x), BYTE(0x22));
    same("plain output", x.t.sequence == NIB_SEQUENCE_NONE && x.t.output == NIB_OUTPUT_REGISTER && x.t.output_at == 2, 1);
    same("nothing kept", x.t.kept == NIB_OUTPUT_NONE && x.t.kept_lun == 0 && x.t.kept_at == 0, 1);
    r = nib_lent_rest(&x.t, &x.b);
    same("its rest", nib_rest_buffer(r) == NIB_REST_REGISTERS && nib_rest_start(r) == 528 + 2, 1);
    same("its length", nib_rest_length(r), 526);
    same("78h of the LUN", status(&x, nib_row(x.part, 1, 7, 3)), BYTE(0xE0));
    same("keeps it", x.t.kept == NIB_OUTPUT_REGISTER && x.t.kept_at == 2, 1);
    same("00h", command(&x, 0x00), NIB_ACCEPTED);
    same("on", data_out(&x), BYTE(0x33));
    same("78h of another LUN", status(&x, 0), BYTE(0xE0));
    same("loses it", x.t.kept, NIB_OUTPUT_NONE);
    same("00h", command(&x, 0x00), NIB_ACCEPTED);
    same("nothing to go on with", data_out(&x), REFUSED(NIB_REFUSED_OUT_OF_PLACE));

    same("ECh", command(&x, 0xEC), NIB_ACCEPTED);
    same("its address", address(&x, 0), NIB_ACCEPTED);
    same("70h", command(&x, 0x70), NIB_ACCEPTED);
    same("the page is kept", x.t.kept == NIB_OUTPUT_PARAMETERS && x.t.kept_at == 0, 1);
    same("05h", command(&x, 0x05), NIB_ACCEPTED);
    same("its number", x.t.first, NIB_FIRST_CHANGE_COLUMN_IN_PAGE);
    same("column 767", column(&x, 767), NIB_ACCEPTED);
    same("E0h", command(&x, 0xE0), NIB_ACCEPTED);
    same("the last byte", data_out(&x), BYTE(x.page[255]));
    same("05h, the page all read", command(&x, 0x05), NIB_ACCEPTED);
    same("column 768", column(&x, 768), REFUSED(4));
    same("05h, nothing open", command(&x, 0x05), NIB_ACCEPTED);
    same("its number", x.t.first, NIB_FIRST_CHANGE_COLUMN);
    same("column 528", column(&x, 528), REFUSED(4));
    close_bench(&x);
}

/* One number of the record set to what no run gives it is 13, and its neighbour is not. */
static void kept_records(void)
{
    static const struct { uint8_t kept; size_t lun, at; uint32_t due; } tried[] = {
        {NIB_OUTPUT_REGISTER, 1, 528, NIB_ACCEPTED}, {NIB_OUTPUT_REGISTER, 1, 529, REFUSED(13)},
        {NIB_OUTPUT_REGISTER, 2, 0, REFUSED(13)}, {NIB_OUTPUT_PARAMETERS, 1, 0, REFUSED(13)},
        {NIB_OUTPUT_PARAMETERS, 0, 768, NIB_ACCEPTED}, {NIB_OUTPUT_PARAMETERS, 0, 769, REFUSED(13)},
        {NIB_OUTPUT_STATUS, 0, 0, REFUSED(13)}, {NIB_OUTPUT_STATUS, 1, 0, REFUSED(13)},
        {NIB_OUTPUT_IDS, 0, 2, NIB_ACCEPTED}, {NIB_OUTPUT_IDS, 0, 3, REFUSED(13)},
        {NIB_OUTPUT_SIGNATURE, 0, 4, NIB_ACCEPTED}, {NIB_OUTPUT_SIGNATURE, 0, 5, REFUSED(13)},
        {NIB_OUTPUT_FEATURE, 0, 4, NIB_ACCEPTED}, {NIB_OUTPUT_FEATURE, 0, 5, REFUSED(13)},
        {NIB_OUTPUT_NONE, 1, 0, REFUSED(13)}, {NIB_OUTPUT_NONE, 0, 1, REFUSED(13)}, {7, 0, 0, REFUSED(13)},
        {NIB_OUTPUT_REGISTER, SIZE_MAX, 0, REFUSED(13)}, {NIB_OUTPUT_REGISTER, 0, SIZE_MAX, REFUSED(13)}};
    bench x;
    nib_target before;

    open_bench(&x, &T1);
    command(&x, 0xFF);
    command(&x, 0x70);
    for (size_t i = 0; i < sizeof tried / sizeof tried[0]; i++) {
        before = x.t;
        x.t.kept = tried[i].kept;
        x.t.kept_lun = tried[i].lun;
        x.t.kept_at = tried[i].at;
        same("kept", command(&x, 0x70), tried[i].due);
        x.t = before;
    }
    /* 05h, both its cycles given, E0h due: in the page a column is below 768, else below P */
    for (unsigned i = 0; i < 4; i++) {
        before = x.t;
        x.t.output = NIB_OUTPUT_NONE;
        x.t.output_lun = 0;
        x.t.sequence = NIB_SEQUENCE_DUE;
        x.t.first = i < 2 ? NIB_FIRST_CHANGE_COLUMN_IN_PAGE : NIB_FIRST_CHANGE_COLUMN;
        x.t.column = (i < 2 ? 767 : 527) + i % 2;
        same("column of 05h", command(&x, 0xE0), i % 2 ? REFUSED(13) : NIB_ACCEPTED);
        x.t = before;
    }
    x.t.first = 13;
    x.t.sequence = NIB_SEQUENCE_DUE;
    same("no such first command", command(&x, 0xE0), REFUSED(13));
    close_bench(&x);
}

static void erase(bench *x, uint32_t at)
{
    same("60h", command(x, 0x60), NIB_ACCEPTED);
    same("row of 60h", row(x, at), NIB_ACCEPTED);
    same("D0h", command(x, 0xD0), NIB_ACCEPTED);
}

static void blank_are(const bench *x, const char *what, unsigned lun0, unsigned lun1)
{
    same(what, x->t.blank[0], lun0);
    same("LUN 1's blank blocks", x->t.blank[1], lun1);
    same("no LUN 2 and 3", x->t.blank[2] == 0 && x->t.blank[3] == 0, 1);
}

/* The numbers of blank blocks: walked at power-on, moved by 10h and D0h where they proceed, kept by all else. */
static void blank_blocks(void)
{
    static const uint8_t zero = 0x00;
    bench x;

    open_bench(&x, &T1);
    blank_are(&x, "a new part", 8, 8);
    x.flags[1] = 1;
    x.b.counts[8 * 4 + 3] = 1;          /* the last page of LUN 1's first block */
    same("power-on again", nib_lent_power_on(&x.t, &x.b, DEVICE), 0);
    blank_are(&x, "a bad block, a page of LUN 1", 7, 7);
    command(&x, 0xFF);
    program(&x, nib_row(x.part, 0, 0, 0), 0, &zero, 1);
    blank_are(&x, "a block's first program, at 10h", 6, 7);
    event(&x, NIB_FINISH, 0);
    blank_are(&x, "its finish", 6, 7);
    program(&x, nib_row(x.part, 0, 0, 1), 0, NULL, 0);
    event(&x, NIB_FINISH, 0);
    blank_are(&x, "its second program", 6, 7);
    program(&x, nib_row(x.part, 0, 1, 0), 0, &zero, 1);
    event(&x, NIB_FINISH, 0);
    blank_are(&x, "a program of a bad block", 6, 7);
    same("which fails", x.t.fail[0], 1);
    program(&x, nib_row(x.part, 0, 2, 0), 0, NULL, 0);
    blank_are(&x, "a program without data", 5, 7);
    same("FFh", command(&x, 0xFF), NIB_ACCEPTED);
    blank_are(&x, "FFh keeps them", 5, 7);
    erase(&x, nib_row(x.part, 1, 0, 0));
    blank_are(&x, "an erase, at D0h", 5, 8);
    event(&x, NIB_FINISH, 1);
    erase(&x, nib_row(x.part, 1, 7, 0));
    event(&x, NIB_FINISH, 1);
    blank_are(&x, "an erase of a blank block", 5, 8);
    erase(&x, nib_row(x.part, 0, 1, 0));
    event(&x, NIB_FINISH, 0);
    blank_are(&x, "an erase of a bad block", 5, 8);
    same("power-on over what there is", nib_lent_power_on(&x.t, &x.b, DEVICE), 0);
    blank_are(&x, "walked again", 5, 8);
    close_bench(&x);
}

/* A lent record whose number is untrue: it stops at 0 and at the LUN's blocks, and past those it is 13. */
static void untrue_blanks(void)
{
    bench x;
    nib_target before;

    open_bench(&x, &T1);
    command(&x, 0xFF);
    x.t.blank[0] = 0;
    program(&x, nib_row(x.part, 0, 0, 0), 0, NULL, 0);
    blank_are(&x, "no blank block, and one programmed", 0, 8);
    event(&x, NIB_FINISH, 0);
    x.t.blank[0] = 8;
    erase(&x, nib_row(x.part, 0, 0, 0));
    blank_are(&x, "all blank, and one erased", 8, 8);
    before = x.t;
    x.t.blank[0] = 9;
    same("more than the LUN has", event(&x, NIB_FINISH, 0), REFUSED(13));
    same("it stays", x.t.blank[0], 9);
    x.t = before;
    x.t.blank[1] = UINT16_MAX;
    same("as many as fit", command(&x, 0xFF), REFUSED(13));
    x.t = before;
    x.t.blank[2] = 1;
    same("one of a LUN that is not there", command(&x, 0xFF), REFUSED(13));
    x.t = before;
    same("as before", event(&x, NIB_FINISH, 0), NIB_ACCEPTED);
    close_bench(&x);
}

static void refused_calls(void)
{
    static const uint8_t odd[] = {0, 0xFF, 7};
    bench x;
    uint8_t replies[4] = {9, 9, 9, 9};
    nib_target before, powered;
    nib_lent wrong;

    open_bench(&x, &T1);
    before = x.t;
    same("short room", nib_lent_trace(&x.t, &x.b, odd, 3, replies, 3), 16);
    same("nothing written", replies[0] == 9 && replies[1] == 9 && replies[2] == 9, 1);
    same("nothing run", (unsigned)memcmp(&x.t, &before, USED), 0);
    same("odd byte", nib_lent_trace(&x.t, &x.b, odd, 3, replies, 4), 0);
    same("its reply", replies[2] == 2 && replies[3] == 12, 1);
    same("empty trace", nib_lent_trace(&x.t, &x.b, NULL, 0, NULL, 0), 0);

    powered = x.t;
    x.t.sequence = 8;
    before = x.t;
    same("no such sequence", command(&x, 0xFF), REFUSED(13));
    same("it stays", (unsigned)memcmp(&x.t, &before, USED), 0);
    x.t = powered;
    x.t.high = 2;
    same("a mark of 2", command(&x, 0xFF), REFUSED(13));
    x.t = powered;
    x.t.row = 1;
    same("a row with no sequence", command(&x, 0xFF), REFUSED(13));
    x.t = powered;
    x.t.pages = SIZE_MAX;
    same("a geometry past all limits", command(&x, 0xFF), REFUSED(13));
    x.t = powered;
    x.t.data_bytes = 15;
    same("too few data bytes", command(&x, 0xFF), REFUSED(13));
    x.t = powered;
    x.t.features |= NIB_FEATURE_WIDE_BUS;
    same("a 16-bit bus", command(&x, 0xFF), REFUSED(13));
    x.t = powered;
    x.t.features &= (uint16_t)~NIB_FEATURE_MORE_LUNS;
    same("two LUNs that the features don't allow", command(&x, 0xFF), REFUSED(13));
    x.t = powered;
    x.t.optional_commands &= (uint16_t)~NIB_OPTIONAL_STATUS_ENHANCED;
    same("78h is not offered", command(&x, 0x78), REFUSED(1));
    x.t.optional_commands |= NIB_OPTIONAL_STATUS_ENHANCED;
    same("78h is offered", command(&x, 0x78), NIB_ACCEPTED);
    same("its number", x.t.first, NIB_FIRST_STATUS_ENHANCED);
    x.t = powered;
    x.t.copyback[1] = 2;
    same("a copyback of 2", command(&x, 0xFF), REFUSED(13));
    x.t = powered;
    x.t.copyback[2] = 1;
    same("a copyback of a LUN that is not there", command(&x, 0xFF), REFUSED(13));
    x.t = powered;
    x.t.copyback[1] = 1;
    same("a copyback without its option", command(&x, 0xFF), NIB_ACCEPTED);
    x.t = powered;
    same("all NULL", nib_event(&x.t, 0, 0xFF, NULL, 0, NULL, 0, NULL, 0, NULL, 0, NULL, 0), REFUSED(13));
    same("as before", command(&x, 0xFF), NIB_ACCEPTED);
    same("words", strcmp(nib_words(nib_refusal(REFUSED(13))), "") != 0, 1);

    wrong = x.b;
    wrong.page_length = 255;
    same("20", nib_lent_power_on(&x.t, &wrong, DEVICE), 20);
    same("unpowered", command(&x, 0xFF), REFUSED(13));
    same("all numbers 0", x.t.data_bytes == 0 && x.t.features == 0 && x.t.luns == 0 && x.t.device == 0, 1);
    same("no blank block", x.t.blank[0], 0);
    x.page[0] = 'o';
    same("21", nib_lent_power_on(&x.t, &x.b, DEVICE), 21);
    x.page[0] = 'O';
    x.page[130] ^= 1;
    same("22", nib_lent_power_on(&x.t, &x.b, DEVICE), 22);
    x.page[130] ^= 1;
    x.page[110] = 9;
    put_crc(x.page);
    same("23", nib_lent_power_on(&x.t, &x.b, DEVICE), 23);
    x.page[110] = 4;
    put_crc(x.page);
    wrong = x.b;
    wrong.array_length--;
    same("24", nib_lent_power_on(&x.t, &wrong, DEVICE), 24);
    x.b.counts[3] = 5;
    same("25", nib_lent_power_on(&x.t, &x.b, DEVICE), 25);
    x.b.counts[3] = 4;
    same("powered again", nib_lent_power_on(&x.t, &x.b, DEVICE), 0);
    close_bench(&x);
}

/* The checker for other people's pages: a good answer, the worst, a damaged first copy, no good copy, another length, short room. */
static void checked_pages(void)
{
    static const uint8_t all[5] = {80, 92, 100, 106, 110};
    static const fields f = {2048, 64, 64, 8, 1, 4, 0, 0};
    uint8_t answer[NIB_ANSWER_LENGTH];
    uint64_t report[10];
    nib_page_check c;

    make_page(answer, &f);
    answer[105] = 75;
    answer[106] = 3;
    put_crc(answer);
    memcpy(answer + 256, answer, 256);
    memcpy(answer + 512, answer, 256);
    memset(&c, 0xEE, sizeof c);
    same("a good answer", nib_check_page(&c, answer, sizeof answer), NIB_CHECK_DONE);
    same("its copy, and nothing broken", c.copy == 0 && c.broken == 0 && c.rules[0] == 0, 1);
    same("its endurance", c.has_endurance ? c.endurance : 0, 75000);
    answer[7] ^= 1;
    same("the first copy damaged", nib_check_page(&c, answer, sizeof answer), NIB_CHECK_DONE);
    same("the second is taken", c.copy, 1);
    answer[256 + 7] ^= 1;
    same("the second too", nib_check_page(&c, answer, sizeof answer) == NIB_CHECK_DONE ? c.copy : 9, 2);
    answer[512 + 7] ^= 1;
    same("no good copy", nib_check_page(&c, answer, sizeof answer), NIB_CHECK_NO_GOOD_COPY);
    same("the record stays", c.copy == 2 && c.endurance == 75000, 1);
    same("another length", nib_check_page(&c, answer, sizeof answer - 1), NIB_CHECK_LENGTH);
    same("none", nib_check_page(&c, NULL, 0), NIB_CHECK_LENGTH);

    put(answer, 80, 4, 513);
    put(answer, 92, 4, 3);
    answer[100] = answer[110] = 0;
    answer[105] = 1;
    answer[106] = 17;
    put_crc(answer);
    same("the worst", nib_check_page(&c, answer, sizeof answer), NIB_CHECK_DONE);
    same("all five", c.broken, 5);
    same("in byte order", memcmp(c.rules, all, sizeof all) == 0, 1);
    same("no endurance", c.has_endurance == 0 && c.endurance == 0, 1);
    same("in words", strcmp(nib_rule_name(c.rules[1]), "pages a block") == 0 && strcmp(nib_rule_words(c.rules[1]), "a multiple of 32") == 0, 1);
    memset(report, 0xEE, sizeof report);
    same("short room", nib_page_report(answer, sizeof answer, report, 8), NIB_CHECK_ROOM);
    same("stays", report[0], 0xEEEEEEEEEEEEEEEEu);
    same("more room", nib_page_report(answer, sizeof answer, report, 10), NIB_CHECK_DONE);
    same("nine numbers", report[1] == 5 && report[6] == 110 && report[8] == 0 && report[9] == 0xEEEEEEEEEEEEEEEEu, 1);
}

/* A text with whole jobs on a part, by the functions of text and the writer of jobs: the trace's length, or minus the reason
 * of its first bad word. */
static int job_text(const char *text, nib_part p, uint8_t *trace, size_t room)
{
    uint64_t state = NIB_TEXT_WITH_PART;
    size_t n = 0, given = 0, values[5] = {0};
    uint8_t data[64];
    for (size_t i = 0; i <= strlen(text); i++) {
        uint8_t byte = text[i] ? (uint8_t)text[i] : '\n';
        uint64_t said = nib_text_on_part(nib_text_said(state, byte), p.luns, p.blocks, p.pages, (uint16_t)p.page);
        unsigned what = (unsigned)(said >> 16), value = (unsigned)(said & 0xFFFF), kind = nib_text_job(state, byte);
        if (what == NIB_SAID_WRONG)
            return -(int)value;
        if (what == NIB_SAID_RECORD)
            trace[n++] = (uint8_t)(value >> 8), trace[n++] = (uint8_t)value;
        if (what == NIB_SAID_LUN)
            memset(values, 0, sizeof values), given = 0;
        if (what >= NIB_SAID_LUN && what <= NIB_SAID_COUNT)
            values[what - NIB_SAID_LUN] = value;
        if (what == NIB_SAID_DATA && given < sizeof data)
            data[given++] = (uint8_t)value;
        if (kind)
            n += nib_job_write((uint8_t)kind, values[3], nib_row_number(p.luns, p.blocks, p.pages, values[0], values[1], values[2]),
                               values[4], data, given, trace + n, room - n);
        state = nib_text_next(state, byte);
    }
    return (int)n;
}

/* Words for whole jobs: each job, its end at a letter, a job's word and a line end, and every reason of a bad word. */
static void job_words(void)
{
    nib_part t1 = {528, 4, 8, 2}, t2 = {528, 3, 5, 2};
    static const uint8_t due[] = {0, 0x80, 1, 0x0F, 1, 2, 1, 0x37, 1, 0, 1, 0, 2, 0x3C, 2, 0xA5, 0, 0x10, 4, 1,
                                  0, 0x00, 1, 0, 1, 0, 1, 0x37, 1, 0, 1, 0, 0, 0x30, 0, 0x60, 1, 0x34, 1, 0, 1, 0, 0, 0xD0,
                                  0, 0x06, 1, 7, 1, 0, 1, 0x20, 1, 0, 1, 0, 0, 0xE0, 3, 0, 3, 0, 0, 0x78, 1, 0, 1, 0, 1, 0, 3, 0};
    static const struct { const char *text; int why; } bad[] = {
        {"3c", 1}, {"c", 2}, {"program 0 0 0 0 3", 3}, {"erase 0 x1", 4}, {"c erase", 5}, {"erase 0", 7}, {"erase 0 c ff", 7}, {"read", 7},
        {"status 0 1 2", 8}, {"erase 2 0", 9}, {"erase 0 8", 10}, {"read 0 0 4 0", 11}, {"read 0 0 0 528", 12}, {"read-out 1 528 1", 12}};
    uint8_t trace[256], out[256];
    int n = job_text("program 1 5 3 527 3c a5  f 1\nread 1 5 3 0  erase 1 5 # away\nread-out 1 7 2\nstatus 0 1", t1, trace, sizeof trace);
    same("job words", n == (int)sizeof due && memcmp(trace, due, sizeof due) == 0, 1);
    for (size_t i = 0; i < sizeof bad / sizeof bad[0]; i++)
        same(bad[i].text, (unsigned)-job_text(bad[i].text, t1, trace, sizeof trace), (unsigned)bad[i].why);
    same("no part", nib_text_said(nib_text_next(nib_text_next(nib_text_next(nib_text_next(0, 'r'), 'e'), 'a'), 'd'), ' '),
         (uint64_t)NIB_SAID_WRONG << 16 | 6);
    for (size_t l = 0; l < 3; l++)
        for (size_t b = 0; b < 6; b++)
            for (size_t g = 0; g < 4; g++)
                same("nib_row_number", nib_row_number(2, 5, 3, l, b, g), nib_page_exists(t2, l, b, g) ? nib_row(t2, l, b, g) : 1u << 24);

    static const char *lines[] = {"program LUN 1 block 5 page 3, column 527, 2 bytes", "finish LUN 1", "read LUN 1 block 5 page 3, column 0",
                                  "erase LUN 1 block 5", "read-out LUN 1, column 7, 2 bytes", "status LUN 0, 1 byte"};
    size_t at = 0;
    for (size_t i = 0; i < 6; i++) {
        size_t said = nib_say_line(due, sizeof due, at, t1.luns, t1.blocks, t1.pages, (uint16_t)t1.page, out, sizeof out);
        same(lines[i], said == strlen(lines[i]) && memcmp(out, lines[i], said) == 0, 1);
        at = nib_line_next(due, sizeof due, at);
    }
    same("the trace's end", at == sizeof due / 2 && nib_line_next(due, sizeof due, at) == at, 1);
    same("nothing there", nib_say_line(due, sizeof due, at, 0, 0, 0, 0, out, sizeof out), 0);
    same("far past the end", nib_line_next(due, sizeof due, SIZE_MAX), SIZE_MAX);
}

/* A script's expectations: what holds, what is said of what does not, and where a list ends. */
static void expectations(void)
{
    static const char text[] = "= 3c a5 ok\n! 5";
    static const uint8_t given[] = {0x3C, 0xA5}, wanted[] = {0x3C, 0xFF};
    static const char due[] = "expected bytes 3Ch FFh; 3Ch A5h came", ends[] = "2 of 5 expectations failed; nothing was stored";
    uint8_t out[256];
    uint64_t state = 0, since = 0;
    unsigned listed = 0, bytes = 0, oks = 0, refusals = 0;
    for (size_t i = 0; i < sizeof text; i++) {
        uint8_t byte = (uint8_t)(text[i] ? text[i] : '\n');
        uint64_t said = nib_text_said(state, byte);
        bytes += said >> 16 == NIB_SAID_EXPECTED;
        oks += said >> 16 == NIB_SAID_OK;
        refusals += said >> 16 == NIB_SAID_REFUSED && (said & 0xFFFF) == 5;
        listed += nib_text_listed(state, byte);
        state = nib_text_next(state, byte);
    }
    same("a script's words", bytes == 2 && oks == 1 && refusals == 1 && listed == 1, 1);
    since = nib_expect_next(since, 1, 1, 0x3C);
    since = nib_expect_next(since, 2, 1, 0xA5);
    same("ok holds", nib_expect_ok(since), 1);
    same("bytes hold", nib_expect_bytes(since, given, sizeof given, given, sizeof given), 1);
    same("other bytes do not", nib_expect_bytes(since, given, sizeof given, wanted, sizeof wanted), 0);
    same("nor fewer", nib_expect_bytes(since, given, sizeof given, given, 1), 0);
    size_t n = nib_say_not_bytes(since, given, sizeof given, wanted, sizeof wanted, out, sizeof out);
    same("what came instead", n == sizeof due - 1 && memcmp(out, due, n) == 0, 1);
    since = nib_expect_next(since, 3, 2, 5);
    same("a refusal holds", nib_expect_refusal(since, 5), 1);
    same("another does not", nib_expect_refusal(since, 4), 0);
    same("ok does not", nib_expect_ok(since), 0);
    since = nib_expect_next(since, 4, 2, 5);
    same("a second refusal", nib_expect_refusal(since, 5), 0);
    n = nib_say_failed(2, 5, out, sizeof out);
    same("how it went", n == sizeof ends - 1 && memcmp(out, ends, n) == 0, 1);
}

/* A command's words are these. */
static int says(uint8_t value, uint8_t inside, const char *words)
{
    uint8_t out[64];
    size_t n = nib_say_event(0, NIB_COMMAND, value, inside, out, sizeof out);
    return n == strlen(words) && memcmp(out, words, n) == 0;
}

/* Rows that are looked at, the version, and a text to a trace and back, with the words of its events. */
static void text_and_words(void)
{
    nib_part t2 = {528, 3, 5, 2};
    uint32_t row = 77;
    same("nib_row_of, a page", (unsigned)nib_row_of(t2, 1, 4, 2, &row), 1);
    same("nib_row_of, its row", row, nib_row(t2, 1, 4, 2));
    for (unsigned i = 0; i < 3; i++) {
        row = 77;
        same("nib_row_of, no page", (unsigned)nib_row_of(t2, i == 0 ? 2 : 0, i == 1 ? 5 : 0, i == 2 ? 3 : 0, &row), 0);
        same("nib_row_of, row stays", row, 77);
    }
    same("nib_version", nib_version(), NIB_VERSION_NUMBER);

    static const char text[] = "c 80  a 00 37 # save\no 3\nf 1 p 0\nx 07\n", back[] = "c 80\na 00 37\no 3\nf 1\np 0\nx 07\n";
    static const uint8_t due[] = {0, 0x80, 1, 0, 1, 0x37, 3, 0, 3, 0, 3, 0, 4, 1, 5, 0, 7};
    uint8_t trace[32], out[256];
    size_t n = 0, written = 0;
    uint64_t state = 0;
    for (size_t i = 0; i < sizeof text - 1; i++) {
        uint64_t said = nib_text_said(state, (uint8_t)text[i]);
        unsigned value = (unsigned)(said & 0xFFFF);
        same("no word is bad", said >> 16 == NIB_SAID_WRONG, 0);
        for (unsigned k = 0; said >> 16 == NIB_SAID_OUTS && k < value; k++) {
            trace[n++] = NIB_DATA_OUT;
            trace[n++] = 0;
        }
        if (said >> 16 == NIB_SAID_RECORD)
            trace[n++] = (uint8_t)(value >> 8);
        if (said >> 16 == NIB_SAID_RECORD || said >> 16 == NIB_SAID_BYTE)
            trace[n++] = (uint8_t)value;
        state = nib_text_next(state, (uint8_t)text[i]);
    }
    same("a text's trace", n == sizeof due && memcmp(trace, due, n) == 0, 1);
    state = 0;
    for (size_t i = 0; i < n; i++) {
        written += nib_back_text(state, trace[i], out + written, sizeof out - written);
        state = nib_back_next(state, trace[i]);
    }
    written += nib_back_end(state, out + written, sizeof out - written);
    same("a trace's text", written == sizeof back - 1 && memcmp(out, back, written) == 0, 1);
    job_words();
    expectations();
    same("words that have no room", nib_say_event(0, NIB_COMMAND, 0x80, 0, out, 7), 7);
    same("words to nowhere", nib_say_event(0, NIB_COMMAND, 0x80, 0, NULL, 0), 0);
    same("35h", says(0x35, 1, "command 35h  start copyback read"), 1);
    same("85h with no sequence open", says(0x85, 0, "command 85h  copyback program"), 1);
    same("85h inside one", says(0x85, 1, "command 85h  change column"), 1);
    for (unsigned number = 0; number < 256; number++) {
        size_t said = nib_say_rule((uint8_t)number, out, sizeof out);
        same("one table of words", said == strlen(nib_words(number)) && memcmp(out, nib_words(number), said) == 0, 1);
    }
}

int main(void)
{
    whole_case();
    cases();
    lost_preset(1);
    lost_preset(0);
    rest();
    copyback();
    page_order();
    polling();
    kept_records();
    blank_blocks();
    untrue_blanks();
    refused_calls();
    checked_pages();
    text_and_words();
    printf("whole: %u checks, %u failed\n", checks, failures);
    return failures != 0;
}
