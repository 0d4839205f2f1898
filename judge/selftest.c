/* Checks of the plain model: document 01's whole case, its cases (a) to (j),
 * the makers' CRCs, and the readings that are easy to get wrong. sequences.c has the change requests'. */
#include "bench.h"
#include "maker-pages.h"

#define ALL_OPTIONS 0x004C      /* 78h, 06h, EEh/EFh */
#define ALL_FEATURES 0x0102     /* many LUNs, 40h */

static void make_t1(struct bench *b)
{
    make_bench(b, 512, 16, 4, 8, 2, 4, ALL_FEATURES, ALL_OPTIONS);
}

static void make_t2(struct bench *b)
{
    make_bench(b, 512, 16, 3, 5, 2, 4, ALL_FEATURES, ALL_OPTIONS);
}

static size_t from_hex(const char *text, uint8_t *to)
{
    size_t n = 0;
    unsigned half = 0, digits = 0;
    for (; *text; text++) {
        char c = *text;
        unsigned d = c >= '0' && c <= '9' ? (unsigned)(c - '0')
            : c >= 'A' && c <= 'F' ? (unsigned)(c - 'A' + 10) : 99;
        if (d == 99)
            continue;
        half = half * 16 + d;
        if (++digits % 2 == 0) {
            to[n++] = (uint8_t)half;
            half = 0;
        }
    }
    return n;
}

/* Runs the records and compares the replies. */
static void run(struct bench *b, const char *records, const char *replies, const char *what)
{
    uint8_t in[512], want[512], got[512];
    size_t n = from_hex(records, in), w = from_hex(replies, want);
    size_t need = (n + 1) / 2 * 2;
    bool ok = run_records(b, in, n, got) && w == need && memcmp(got, want, w) == 0;

    check(ok, what);
    if (!ok) {
        printf("  got");
        for (size_t i = 0; i < need; i++)
            printf(" %02X", got[i]);
        printf("\n");
    }
}

static void rest(struct bench *b, uint32_t which, size_t start, size_t length, const char *what)
{
    size_t s, l;
    uint32_t w = plain_rest(&b->t, 256, b->registers_len, &s, &l);
    check(w == which && s == start && l == length, what);
}

static void whole_case(struct bench *b)
{
    make_t1(b);
    run(b, "00FF 0090 0120 0300 0300 0300 0300 0300",
        "0000 0000 0000 014F 014E 0146 0149 0208", "document 01's whole case");
}

static void lettered_cases(struct bench *b)
{
    make_t1(b);
    check(b->array_len == 33792, "(a)");
    b->array_len--;
    check(power(b) == 24, "(a) one less");
    b->array_len += 2;
    check(power(b) == 24, "(a) one more");

    make_t1(b);
    run(b, "00FF 0080 0100 0100 0137 0100 0100 0211 0010",
        "0000 0000 0000 0000 0000 0000 0000 0000 0000", "(b) program row 55");
    check(b->array[29040] == 0x11 && b->counts[55] == 1, "(b) array place");
    check(b->t.lun[1].working && !b->t.lun[0].working && b->t.selected == 1, "(b) LUN 1");
    b->array[29040] = 0xFF;
    bool clean = true;
    for (size_t i = 0; i < b->array_len; i++)
        clean = clean && b->array[i] == 0xFF;
    check(clean, "(b) nowhere else");

    make_t2(b);
    run(b, "00FF 0080 0100 0100 0112 0100 0100 0222 0010",
        "0000 0000 0000 0000 0000 0000 0000 0000 0000", "(c) program row 18");
    check(b->array[(4 * 3 + 2) * 528] == 0x22 && b->counts[14] == 1, "(c) block 4, page 2");

    make_t2(b);
    run(b, "00FF 0080 0100 0100 010F 0100 0100", "0000 0000 0000 0000 0000 0000 0204", "(d)");
    run(b, "00FF 0080 0100 0100 0114 0100 0100", "0000 0000 0000 0000 0000 0000 0204", "(e)");
    make_t1(b);
    run(b, "00FF 0080 0100 0100 0140 0100 0100", "0000 0000 0000 0000 0000 0000 0204", "(f) 80h");
    run(b, "0078 0140 0100 0100", "0000 0000 0000 0204", "(f) 78h");
    run(b, "0006 0100 0100 0140 0100 0100", "0000 0000 0000 0000 0000 0204", "(f) 06h");
    run(b, "0005 010F 0102 00E0", "0000 0000 0000 0000", "(g) column 527");
    run(b, "0005 0110 0102", "0000 0000 0204", "(g) column 528");

    make_t1(b);
    b->array[0] = 0xA5;
    run(b, "00FF 0080 0100 0100 0100 0100 0100 023C 0010",
        "0000 0000 0000 0000 0000 0000 0000 0000 0000", "(h) program");
    check(b->array[0] == 0x24, "(h)");

    make_t1(b);
    b->flags[0] = 1;
    run(b, "00FF 0070 0300", "0000 0000 01E0", "(i) ready");
    run(b, "0060 0100 0100 0100 00D0 0070 0300 0400 0300",
        "0000 0000 0000 0000 0000 0000 0180 0000 01E1", "(i) working, failed");
    run(b, "00FF 0500 0070 0300", "0000 0000 0000 0160", "(i) line low");

    make_t1(b);
    run(b, "00FF 0080 010F 0102 0100 0100 0100 0255 0256 0257",
        "0000 0000 0000 0000 0000 0000 0000 0000 0208 0203", "(j)");
    check(b->registers[527] == 0x55 && b->registers[528] == 0xFF, "(j) bytes");
}

static void maker_crcs(void)
{
    static uint8_t counts[2 * 4096 * 128], flags[2 * 4096], registers[2 * 8640];
    uint8_t none = 0;
    for (unsigned i = 0; i < 6; i++) {
        const struct maker_page *m = &maker_pages[i];
        struct plain_target t;
        uint8_t page[256];
        memcpy(page, m->page, 256);
        unsigned luns = page[100];
        check(page[254] + 256u * page[255] == m->crc, "printed CRC lies least significant first");
        check(second_crc(page) == m->crc, "second CRC");
        check(plain_power_on(&t, page, 256, m->device_id, &none, 0, registers, 0, counts, 0, flags, 0)
              == 24, "maker's page up to its lengths");
        /* The array is only measured at power-on, so its length alone will do. */
        uint64_t bytes = (uint64_t)luns * 4096 * 128 * 8640;
        if (bytes <= SIZE_MAX)
            check(plain_power_on(&t, page, 256, m->device_id, &none, (size_t)bytes,
                                 registers, luns * 8640, counts, luns * 4096u * 128,
                                 flags, luns * 4096) == 0 && t.powered
                  && t.page_size == 8640 && t.pages == 128 && t.blocks == 4096 && t.luns == luns
                  && t.programs == 4 && t.maker == 0x2C && t.device == m->device_id,
                  "maker's page powers on");
        page[128] = 0;
        check(plain_power_on(&t, page, 256, m->device_id, &none, 0, registers, 0, counts, 0, flags, 0)
              == 22, "damaged page");
        check(!t.powered && t.page_size == 0, "refused power-on leaves nothing");
    }
}

static void records(struct bench *b)
{
    uint8_t in[3] = {0, 0xFF, 0}, out[4] = {9, 9, 9, 9};
    make_t1(b);
    run(b, "0070 01FF 02FF 0300 0301 0600 0502 0500 0501 0400 0300 01",
        "0202 0202 0202 0202 020C 020C 020C 0000 0000 020A 0202 020C", "before the first FFh");
    check(plain_trace(&b->t, in, 3, out, 3, b->page, 256, b->array, b->array_len, b->registers,
                      b->registers_len, b->counts, b->counts_len, b->flags, b->flags_len) == 16
          && out[0] == 9 && !b->t.reset_seen, "room for an odd byte too");
    b->t.powered = false;
    run(b, "00FF 0700 0402 05", "020D 020D 020D 020D", "unpowered");
    rest(b, 0, 0, 0, "unpowered rest");

    make_t1(b);
    run(b, "00FF 0080 0100 0302 0900 0100 0500 0402 0503 0100 0100 0100 0210 0010 0400",
        "0000 0000 0000 020C 020C 0000 020B 020A 020C 0000 0000 0000 0000 0000 0000",
        "bench refusals drop no sequence");
    check(b->array[0] == 0x10, "and the program is whole");
    run(b, "0060 0100 0100 0100 00D0 0500 0502 0402 0400 0400",
        "0000 0000 0000 0000 0000 020B 020C 020A 0000 020A", "bench events while a LUN works");
}

static void orders(struct bench *b)
{
    make_t1(b);
    run(b, "00FF 0000 0101 0142 00E0 0030 0000 0042 0100",
        "0000 0000 0000 0204 0203 0203 0000 0201 0203", "1 before 3, refusals drop");
    run(b, "0060 0100 0100 0100 00D0 0090 0000 0090 0300",
        "0000 0000 0000 0000 0000 0206 0000 0203 0203", "3 before 6");
    run(b, "0000 0100 0100 0108 0101 0100", "0000 0000 0000 0000 0000 0204", "4 before 5, far LUN");
    run(b, "0005 0110 0102 0005 0100 0100 0070 0300",
        "0000 0000 0204 0000 0000 0205 0000 0180", "05h on a working LUN");
    run(b, "0078 0120 0100 0100 0300 0070 0300 0300",
        "0000 0000 0000 0000 01E0 0206 0203 0203", "78h while LUN 0 works, then 70h");
    run(b, "0400 0070 0300", "0000 0000 01E0", "70h after the finish");
    run(b, "0500 0080 0100 0100 0100 0100 0100 0010 0060 0100 0100 0100 00D0 0501",
        "0000 0000 0000 0000 0000 0000 0000 0207 0000 0000 0000 0000 0207 0000",
        "7 at 10h and D0h only");
    run(b, "0078 0100 0300", "0000 0000 0203", "data out before the third cycle");
    run(b, "0080 0100 0100 0100 0100 0100 0100", "0000 0000 0000 0000 0000 0000 0203",
        "a sixth address");
    run(b, "0080 0100 0100 0100 0100 0100 0085 0101 0010",
        "0000 0000 0000 0000 0000 0000 0000 0000 0203", "10h with a half-given move");
    run(b, "0080 0100 0100 0100 0100 0100 0085 0085",
        "0000 0000 0000 0000 0000 0000 0000 0203", "85h in a move");
    run(b, "0080 0100 0100 0100 0100 0100 0085 0110 0102",
        "0000 0000 0000 0000 0000 0000 0000 0000 0204", "move to 528");
    run(b, "0080 010F 0102 0100 0100 0100 0201 0085 0102 0100 0203 0103",
        "0000 0000 0000 0000 0000 0000 0000 0000 0000 0000 0000 0203", "move at the end");
    run(b, "0080 010F 0102 0100 0100 0100 0201 0010 0400",
        "0000 0000 0000 0000 0000 0000 0000 0000 0000", "10h at the end");
}

static void outputs(struct bench *b)
{
    make_t1(b);
    b->array[528 * 4 + 2] = 0x77;
    b->array[528 * 4 + 527] = 0x88;
    run(b, "00FF 0000 0102 0100 0104 0100 0100 0030", "0000 0000 0000 0000 0000 0000 0000 0000",
        "read");
    rest(b, 0, 0, 0, "no rest while it works");
    run(b, "0400 0500 0501", "0000 0000 0000", "bench events keep output");
    rest(b, 1, 2, 526, "rest from the column");
    run(b, "0300", "0177", "first byte");
    rest(b, 1, 3, 525, "rest after it");
    run(b, "0005 010F 0102", "0000 0000 0000", "05h");
    rest(b, 0, 0, 0, "no rest in a sequence");
    run(b, "00E0 0300", "0000 0188", "last byte");
    rest(b, 0, 0, 0, "no rest at the end");
    run(b, "0300 0300", "0208 0203", "past the end, then no output");
    run(b, "0006 010F 0102 0120 0100 0100 00E0 0300 0070 0006 010F 0102 011F 0100 0100 00E0 0300",
        "0000 0000 0000 0000 0000 0000 0000 01FF 0000 0000 0000 0000 0000 0000 0000 0000 0188",
        "06h on each LUN");
    run(b, "0000 0100 0100 0100 0100 0100 0030 0300 0300 0400 0300",
        "0000 0000 0000 0000 0000 0000 0000 0205 0203 0000 0203", "data out while it works");
    run(b, "0090 0100 0300 0300 0300", "0000 0000 012C 01DA 0208", "IDs");
    run(b, "0090 0101", "0000 0204", "90h with 01h");
    run(b, "00EC 0120", "0000 0204", "ECh with 20h");
    run(b, "00EC 0100", "0000 0000", "ECh");
    for (unsigned i = 0; i < 768; i++) {
        char want[8];
        rest(b, 2, i % 256, 256 - i % 256, "rest of the present copy");
        snprintf(want, sizeof want, "01%02X", b->page[i % 256]);
        run(b, "0300", want, "parameter byte");
    }
    rest(b, 0, 0, 0, "rest after the third copy");
    run(b, "0300 0300", "0208 0203", "byte 769");
}

static void kept(struct bench *b, uint8_t kind, uint32_t lun, uint32_t next, const char *what)
{
    const struct plain_output *k = &b->t.kept;
    check(k->kind == kind && k->lun == lun && k->next == next, what);
}

static void polling(struct bench *b)
{
    make_t1(b);
    b->array[3] = 0x33;
    run(b, "00FF 0000 0103 0100 0100 0100 0100 0030 0070", "0000 0000 0000 0000 0000 0000 0000 0000 0000", "read, 70h");
    kept(b, PLAIN_OUT_REGISTER, 0, 3, "70h keeps the register");
    run(b, "0300 0402 0700 0301 0502 0400 0300 0500 0501",
        "0180 020A 020C 020C 020C 0000 01E0 0000 0000", "bench events");
    kept(b, PLAIN_OUT_REGISTER, 0, 3, "they keep it");
    rest(b, 0, 0, 0, "no rest behind a status");
    run(b, "0078 011F 0100", "0000 0000 0000", "78h, two cycles");
    kept(b, PLAIN_OUT_REGISTER, 0, 3, "78h's row has yet to decide");
    run(b, "0100 0000", "0000 0000", "LUN 0's block 7, 00h");
    kept(b, PLAIN_OUT_REGISTER, 0, 3, "the same LUN");
    rest(b, 0, 0, 0, "no rest after a bare 00h");
    run(b, "0501 0400 0300", "020B 020A 0133", "a sequence is open; then the byte");
    kept(b, PLAIN_OUT_NONE, 0, 0, "plain output again");
    rest(b, 1, 4, 524, "with its rest");
    run(b, "0070 0000 0100", "0000 0000 0000", "00h with an address");
    kept(b, PLAIN_OUT_NONE, 0, 0, "is a plain read");
    run(b, "0300", "0203", "whose data out is 3");

    run(b, "00EC 0100 0300 0078 0100 0100", "0000 0000 014F 0000 0000 0000", "the page, 78h");
    kept(b, PLAIN_OUT_PARAMETERS, 0, 1, "until the row");
    run(b, "0100", "0000", "the row");
    kept(b, PLAIN_OUT_NONE, 0, 0, "which names no register");
    run(b, "00EC 0100 0070", "0000 0000 0000", "the page, 70h");
    kept(b, PLAIN_OUT_PARAMETERS, 0, 0, "70h keeps the page");
    run(b, "0005 0100", "0000 0000", "05h");
    kept(b, PLAIN_OUT_NONE, 0, 0, "a first command");
    check(b->t.sequence.in_page, "within the page");
    run(b, "0102 00E0", "0000 0000", "column 512");
    rest(b, 2, 0, 256, "the third copy");
    run(b, "00FF 0070 0005 0110 0102", "0000 0000 0000 0000 0204", "05h behind an empty status");
    run(b, "0090 0120 0070 00FF", "0000 0000 0000 0000", "FFh");
    kept(b, PLAIN_OUT_NONE, 0, 0, "loses it");
    run(b, "00EE 0101 0300 0070 0010", "0000 0000 0100 0000 0203", "a refused cycle");
    kept(b, PLAIN_OUT_NONE, 0, 0, "loses it too");
}

static void features(struct bench *b)
{
    make_t1(b);
    run(b, "00FF 00EF 0101 0240 0200 0200 00EE", "0000 0000 0000 0000 0000 0000 0203",
        "three bytes of EFh");
    run(b, "00EE 0101 0300 0300 0300 0300 0300", "0000 0000 0100 0100 0100 0100 0208",
        "take no hold");
    run(b, "00EF 0101 0240 0200 0200 0200 0200", "0000 0000 0000 0000 0000 0000 0203",
        "the fifth byte");
    run(b, "00EE 0101 0300 0300 0300 0300 0300 0300",
        "0000 0000 0140 0100 0100 0100 0208 0203", "EEh");
    run(b, "00EF 0101 0241 00EF 0101 0240 0240 00EF 0102 00EE 0100",
        "0000 0000 0209 0000 0000 0000 0209 0000 0204 0000 0204", "9 and 4");
    /* program-clear on: one register, at the third row cycle */
    memset(b->registers, 0x12, sizeof b->registers);
    run(b, "0080 0100 0100 0120 0100", "0000 0000 0000 0000 0000", "80h, clear on");
    check(b->registers[0] == 0x12 && b->registers[528] == 0x12, "not yet");
    run(b, "0100", "0000", "last row cycle");
    check(b->registers[0] == 0x12 && b->registers[528] == 0xFF && b->registers[1055] == 0xFF
          && b->registers[527] == 0x12, "LUN 1's only");
    run(b, "00FF 00EE 0101 0300", "0000 0000 0000 0100", "FFh turns it off");
    memset(b->registers, 0x12, sizeof b->registers);
    run(b, "0080", "0000", "80h, clear off");
    check(b->registers[0] == 0xFF && b->registers[1055] == 0xFF, "all at once");

    make_bench(b, 16, 0, 1, 1, 1, 1, 0, 4);
    run(b, "00FF 00EF 0101 0240 00EF 0101 0200 0200 0200 0200 0078 0006 00E0",
        "0000 0000 0000 0209 0000 0000 0000 0000 0000 0000 0201 0201 0203",
        "40h, 78h and 06h not offered");
    make_bench(b, 16, 0, 1, 1, 1, 1, 0x100, 0x48);
    run(b, "00FF 0000 00EE 0000 00EF 00EC", "0000 0000 0201 0000 0201 0000",
        "EEh and EFh not offered");
    run(b, "00FF 0078 0100 0100 0100 0300 0060 0101 0100 0100",
        "0000 0000 0000 0000 0000 01E0 0000 0000 0000 0204", "fields of 0 bits");
}

static void rows(struct bench *b)
{
    make_t2(b);
    run(b, "00FF 0060 010F 0100 0100 00D0 0400",
        "0000 0000 0000 0000 0000 0000 0000", "60h does not look at page bits");
    run(b, "0060 0114 0100 0100", "0000 0000 0000 0204", "but at the block");
    run(b, "0078 013F 0100 0100 0300 0070 0300", "0000 0000 0000 0000 01E0 0000 01E0",
        "78h only at the LUN");
    check(b->t.selected == 1, "and selects it");
    run(b, "0078 0140 0100 0100", "0000 0000 0000 0204", "78h of LUN 2");
    check(b->t.selected == 1, "a refused row does not");
    run(b, "0006 0100 0100 011F 0100 0100 00E0", "0000 0000 0000 0000 0000 0000 0000",
        "06h only at the LUN");
    run(b, "0078 0100 0100 0180", "0000 0000 0000 0204", "the LUN field is all the rest");
}

static void programs(struct bench *b)
{
    make_t1(b);
    const char *program = "0080 0100 0100 0100 0100 0100 0010 0400 0070 0300";
    const char *good = "0000 0000 0000 0000 0000 0000 0000 0000 0000 01E0";
    const char *bad = "0000 0000 0000 0000 0000 0000 0000 0000 0000 01E1";
    run(b, "00FF", "0000", "FFh");
    for (unsigned i = 0; i < 4; i++)
        run(b, program, good, "program with no data");
    check(b->counts[0] == 4, "count rises by one");
    run(b, program, bad, "the fifth fails");
    check(b->counts[0] == 4, "count stays");
    run(b, "0060 0100 0100 0100 00D0 0400 0300", "0000 0000 0000 0000 0000 0000 0203", "erase");
    check(b->counts[0] == 0, "count 0 after erase");
    run(b, program, good, "and again");
    b->counts[0] = 200;
    run(b, program, bad, "a count far above");
    run(b, "0000 0100 0100 0100 0100 0100 0030 0400 0070 0300",
        "0000 0000 0000 0000 0000 0000 0000 0000 0000 01E0", "a read sets FAIL 0");
    b->flags[0] = 7;
    b->array[1] = 0x5A;
    run(b, "0060 0101 0100 0100 00D0 0400 0070 0300",
        "0000 0000 0000 0000 0000 0000 0000 01E1", "a bad block is not erased");
    check(b->array[1] == 0x5A && b->counts[0] == 200, "it stays");
    run(b, "00FF 0070 0300", "0000 0000 01E0", "FFh sets FAIL 0");
}

/* T1's page has feature bit 2 clear. */
static void page_order(struct bench *b)
{
    make_t1(b);
    b->counts[3] = 200;
    b->array[2 * 528] = 0x5A;
    run(b, "00FF 0080 0100 0100 0102 0100 0100 0200 0010 0070 0300 0400 0300",
        "0000 0000 0000 0000 0000 0000 0000 0000 0000 0000 0180 0000 01E1", "page 2 below page 3, which was lent full");
    check(b->array[2 * 528] == 0x5A && b->counts[2] == 0 && b->counts[3] == 200, "array and counts stay");
    check(b->registers[0] == 0x00, "and the register");
    b->counts[3] = 0;
    b->counts[1] = 4;
    b->counts[4] = b->counts[8] = b->counts[35] = 4;
    run(b, "0080 0100 0100 0102 0100 0100 0200 0010 0400 0070 0300",
        "0000 0000 0000 0000 0000 0000 0000 0000 0000 0000 01E0", "lower pages, other blocks, LUN 1's block 0");
    check(b->array[2 * 528] == 0x00 && b->counts[2] == 1, "page 2 is programmed");
    b->flags[0] = 1;
    run(b, "0080 0100 0100 0102 0100 0100 0010 0400 0070 0300",
        "0000 0000 0000 0000 0000 0000 0000 0000 0000 01E1", "a bad block fails in any order");

    make_bench(b, 512, 16, 4, 8, 2, 4, ALL_FEATURES | 4, ALL_OPTIONS);
    b->counts[3] = 4;
    run(b, "00FF 0080 0100 0100 0100 0100 0100 0010 0400 0070 0300",
        "0000 0000 0000 0000 0000 0000 0000 0000 0000 0000 01E0", "feature bit 2 set");
    check(b->counts[0] == 1, "any order");
}

/* The numbers that LUNs 0 and 1 keep; the others have none. */
static void blank(struct bench *b, uint32_t zero, uint32_t one, const char *what)
{
    const struct plain_lun *l = b->t.lun;
    check(l[0].blank == zero && l[1].blank == one && l[2].blank == 0 && l[3].blank == 0, what);
}

/* The same, and a walk gives them too. */
static void blank_walked(struct bench *b, uint32_t zero, uint32_t one, const char *what)
{
    blank(b, zero, one, what);
    check(plain_blank_walk(&b->t, 0, b->counts, b->flags) == zero
          && plain_blank_walk(&b->t, 1, b->counts, b->flags) == one
          && plain_blank_walk(&b->t, 2, b->counts, b->flags) == 0, what);
}

/* Part W of the worked sequences. */
static void make_w(struct bench *b, uint32_t programs)
{
    make_bench(b, 512, 16, 4, 8, 2, programs, 0x010E, 0x005D);
}

/* 80h .. 10h of a row below 256 with no data, and 60h .. D0h, none of it refused. */
static void program_row(struct bench *b, unsigned row)
{
    char records[64];
    snprintf(records, sizeof records, "0080 0100 0100 01%02X 0100 0100 0010", row);
    run(b, records, "0000 0000 0000 0000 0000 0000 0000", "a program");
}

static void erase_row(struct bench *b, unsigned row)
{
    char records[64];
    snprintf(records, sizeof records, "0060 01%02X 0100 0100 00D0", row);
    run(b, records, "0000 0000 0000 0000 0000", "an erase");
}

static void blank_blocks(struct bench *b)
{
    make_w(b, 4);
    blank_walked(b, 8, 8, "all blank at power-on");
    run(b, "00FF", "0000", "FFh");
    blank_walked(b, 8, 8, "FFh");
    run(b, "0080 0100 0100 0100 0100 0100", "0000 0000 0000 0000 0000 0000", "80h's row");
    blank_walked(b, 8, 8, "not at the row");
    run(b, "0010", "0000", "10h");
    blank_walked(b, 7, 8, "at 10h");
    run(b, "0400", "0000", "finish");
    blank_walked(b, 7, 8, "not at the finish");
    program_row(b, 1);
    blank_walked(b, 7, 8, "another page of the block");
    run(b, "0400", "0000", "finish");
    erase_row(b, 2);
    blank_walked(b, 8, 8, "at D0h");
    run(b, "0400", "0000", "finish");
    blank_walked(b, 8, 8, "not at its finish");

    make_w(b, 4);
    run(b, "00FF", "0000", "FFh");
    program_row(b, 0);
    run(b, "0400 0080 0100 0100 0104 0100 0100 0201 0070", "0000 0000 0000 0000 0000 0000 0000 0000 0203", "given up");
    blank_walked(b, 7, 8, "given up");
    run(b, "0500 0080 0100 0100 0120 0100 0100 0010", "0000 0000 0000 0000 0000 0000 0000 0207", "line low");
    blank_walked(b, 7, 8, "line low");
    run(b, "0060 0100 0100 0100 00D0", "0000 0000 0000 0000 0207", "an erase, line low");
    blank_walked(b, 7, 8, "an erase, line low");

    make_w(b, 1);
    b->flags[1] = 1;
    check(power(b) == 0, "power-on with a bad block");
    blank_walked(b, 7, 8, "a bad block is not blank");
    run(b, "00FF", "0000", "FFh");
    program_row(b, 4);
    blank_walked(b, 7, 8, "a bad block programmed");
    run(b, "0400", "0000", "finish");
    erase_row(b, 4);
    blank_walked(b, 7, 8, "a bad block erased");
    run(b, "0400", "0000", "finish");
    program_row(b, 0);
    blank_walked(b, 6, 8, "a good one programmed");
    run(b, "0400", "0000", "finish");
    program_row(b, 0);
    blank_walked(b, 6, 8, "a full page");

    make_w(b, 4);
    run(b, "00FF", "0000", "FFh");
    program_row(b, 0x20);
    blank_walked(b, 8, 7, "LUN 1");
    run(b, "00FF", "0000", "FFh while it works");
    blank_walked(b, 8, 7, "FFh keeps the number");
    erase_row(b, 0x1C);
    blank_walked(b, 8, 7, "a blank block erased");

    make_w(b, 4);
    b->counts[3] = 1;
    b->flags[1] = 1;
    check(power(b) == 0, "power-on with a count and a bad block");
    blank_walked(b, 6, 8, "from power-on");
    b->flags_len++;
    check(power(b) == 24, "a refused power-on");
    blank(b, 0, 0, "leaves no number");
}

/* A record or counts that were lent: the number may be untrue, and stops at its ends. */
static void blank_lent(struct bench *b)
{
    make_w(b, 4);
    run(b, "00FF", "0000", "FFh");
    b->t.lun[0].blank = 0;
    program_row(b, 0);
    blank(b, 0, 8, "written to 0, then a program of a blank block");
    b->t.lun[0].blank = 8;
    run(b, "0400", "0000", "finish");
    erase_row(b, 0);
    blank(b, 8, 8, "written to 8, then an erase of a block that was not blank");
    b->t.lun[0].blank = 9;
    run(b, "00FF 0070 0100 0200 0300 0400 0501 0700 00",
        "020D 020D 020D 020D 020D 020D 020D 020D 020D", "written to 9, every event is 13");
    rest(b, 0, 0, 0, "and there is no rest");
    blank(b, 9, 8, "13 changes nothing");
    b->t.lun[0].blank = 3;
    run(b, "0400", "0000", "written to 3, the finish is accepted");
    program_row(b, 0);
    blank(b, 2, 8, "from there it moves as ever");
    run(b, "00FF", "0000", "FFh");
    blank(b, 2, 8, "and FFh keeps it");

    make_w(b, 4);
    run(b, "00FF", "0000", "FFh");
    memset(b->counts, 1, b->counts_len);
    erase_row(b, 0);
    blank(b, 8, 8, "counts lent, then an erase");
    b->flags[1] = 1;
    b->counts[0] = b->counts[4] = b->counts[5] = b->counts[6] = b->counts[7] = 0;
    run(b, "0400", "0000", "finish");
    program_row(b, 4);
    blank(b, 8, 8, "a block lent bad does not proceed");
    run(b, "0400", "0000", "finish");
    program_row(b, 0);
    blank(b, 7, 8, "the counts as they are at the 10h decide");
    b->flags[1] = 0;
    run(b, "0400", "0000", "finish");
    program_row(b, 4);
    blank(b, 6, 8, "and the flag");
}

static uint32_t refused_with(struct bench *b, unsigned at, unsigned bytes, uint32_t n)
{
    make_page(b->page, 512, 16, 4, 8, 2, 4, ALL_FEATURES, ALL_OPTIONS);
    put_number(b->page, at, bytes, n);
    put_number(b->page, 254, 2, second_crc(b->page));
    return power(b);
}

static void power_ons(struct bench *b)
{
    make_t1(b);
    memset(b->registers, 0x33, sizeof b->registers);
    check(refused_with(b, 80, 4, 15) == 23 && refused_with(b, 80, 4, 16) == 24
          && refused_with(b, 80, 4, 16384) == 24 && refused_with(b, 80, 4, 16385) == 23, "data");
    check(refused_with(b, 84, 2, 2048) == 24 && refused_with(b, 84, 2, 2049) == 23, "spare");
    check(refused_with(b, 92, 4, 0) == 23 && refused_with(b, 92, 4, 257) == 23
          && refused_with(b, 92, 4, 65536 + 4) == 23, "pages");
    check(refused_with(b, 96, 4, 0) == 23 && refused_with(b, 96, 4, 4097) == 23, "blocks");
    check(refused_with(b, 100, 1, 0) == 23 && refused_with(b, 100, 1, 5) == 23, "LUNs");
    check(refused_with(b, 6, 2, 0x103) == 23 && refused_with(b, 6, 2, 0x100) == 23, "features");
    check(refused_with(b, 101, 1, 0x22) == 23, "address cycles");
    check(refused_with(b, 110, 1, 0) == 23 && refused_with(b, 110, 1, 9) == 23, "programs");
    check(refused_with(b, 0, 1, 'o') == 21, "signature");
    check(b->registers[0] == 0x33, "a refusal changes no lent byte");
    b->counts[63] = 5;
    check(refused_with(b, 12, 1, 9) == 25, "count");
    b->counts[63] = 4;
    b->flags[15] = 2;
    check(refused_with(b, 12, 1, 9) == 25, "flag");
    b->flags[15] = 1;
    check(refused_with(b, 12, 1, 9) == 0 && b->registers[1055] == 0xFF, "unlisted bytes");
}

/* Rule 13 on the record as it is written here: data out is refused with it, or not. */
static void usable(struct bench *b, bool good, const char *what)
{
    uint32_t reply = plain_event(&b->t, 3, 0, b->page, 256, b->array, b->array_len, b->registers, b->registers_len,
                                 b->counts, b->counts_len, b->flags, b->flags_len);
    check((reply != 0x20D) == good, what);
}

static void numbers(struct bench *b)
{
    make_t1(b);
    b->t.features = 0xFFFE;
    usable(b, true, "any features but bit 0");
    b->t.features = 0x0103;
    usable(b, false, "feature bit 0");
    b->t.features = 0xFFFC;
    usable(b, false, "two LUNs without feature bit 1");
    make_bench(b, 16, 0, 1, 1, 1, 1, 0, 0);
    usable(b, true, "one LUN without it");

    make_t1(b);
    b->t.lun[1].copyback = true;
    usable(b, true, "a copyback open without optional bit 4");
    b->t.lun[2].copyback = true;
    usable(b, false, "a copyback of a LUN past the count");

    for (unsigned lun = 0; lun < 2; lun++) {
        make_t1(b);
        b->t.lun[lun].blank = 0;
        usable(b, true, "no blank block");
        b->t.lun[lun].blank = 8;
        usable(b, true, "8 of 8 blank");
        b->t.lun[lun].blank = 9;
        usable(b, false, "9 of 8");
        b->t.lun[lun].blank = UINT32_MAX;
        usable(b, false, "one less than 0");
        make_t1(b);
        b->t.lun[2 + lun].blank = 1;
        usable(b, false, "a blank block of a LUN past the count");
    }
    make_bench(b, 16, 0, 1, 1, 1, 1, 0, 0);
    b->t.lun[0].blank = 1;
    usable(b, true, "1 of 1 blank");
    b->t.lun[1].blank = 1;
    usable(b, false, "a second LUN's where there is one");

    make_t1(b);
    b->t.sequence = (struct plain_sequence){.kind = PLAIN_SEQ_COPYBACK, .cycles = 5, .column = 528};
    usable(b, true, "a copyback's data at P");
    b->t.sequence = (struct plain_sequence){.kind = PLAIN_SEQ_COPYBACK, .cycles = 5, .column = 529};
    usable(b, false, "and past it");
    b->t.sequence = (struct plain_sequence){.kind = PLAIN_SEQ_COPYBACK, .cycles = 5, .page = 4};
    usable(b, false, "a copyback's page that isn't there");
    b->t.sequence = (struct plain_sequence){.kind = PLAIN_SEQ_MOVE, .first = 0x85, .lun = 1, .block = 7, .page = 3};
    usable(b, true, "a move in a copyback");
    b->t.sequence = (struct plain_sequence){.kind = PLAIN_SEQ_MOVE, .lun = 1, .block = 7, .page = 3};
    usable(b, false, "a move in no program");
}

/* Rule 13 on what is kept, behind a status, and on 05h's mark. */
static void kept_usable(struct bench *b, uint8_t kind, uint32_t lun, uint32_t next, bool good, const char *what)
{
    b->t.output = (struct plain_output){.kind = PLAIN_OUT_STATUS};
    b->t.kept = (struct plain_output){.kind = kind, .lun = lun, .next = next};
    usable(b, good, what);
}

static void kept_numbers(struct bench *b)
{
    make_t1(b);
    run(b, "00FF", "0000", "FFh");
    kept_usable(b, PLAIN_OUT_REGISTER, 1, 528, true, "LUN 1's register kept at P");
    kept_usable(b, PLAIN_OUT_REGISTER, 1, 529, false, "past P");
    kept_usable(b, PLAIN_OUT_REGISTER, 2, 0, false, "LUN 2's");
    kept_usable(b, PLAIN_OUT_PARAMETERS, 0, 768, true, "the page at 768");
    kept_usable(b, PLAIN_OUT_PARAMETERS, 0, 769, false, "at 769");
    kept_usable(b, PLAIN_OUT_STATUS, 0, 0, false, "a status is not kept");
    kept_usable(b, PLAIN_OUT_IDS, 0, 2, true, "IDs at 2");
    kept_usable(b, PLAIN_OUT_IDS, 0, 3, false, "at 3");
    kept_usable(b, PLAIN_OUT_SIGNATURE, 0, 4, true, "the signature at 4");
    kept_usable(b, PLAIN_OUT_SIGNATURE, 0, 5, false, "at 5");
    kept_usable(b, PLAIN_OUT_FEATURE, 0, 4, true, "feature bytes at 4");
    kept_usable(b, PLAIN_OUT_FEATURE, 0, 5, false, "at 5");
    kept_usable(b, PLAIN_OUT_FEATURE + 1, 0, 0, false, "no such output");

    make_t1(b);
    b->t.sequence = (struct plain_sequence){.kind = PLAIN_SEQ_COLUMN, .cycles = 2, .in_page = true, .column = 767};
    usable(b, true, "05h within the page at 767");
    b->t.sequence = (struct plain_sequence){.kind = PLAIN_SEQ_COLUMN, .cycles = 2, .in_page = true, .column = 768};
    usable(b, false, "at 768");
    b->t.sequence = (struct plain_sequence){.kind = PLAIN_SEQ_COLUMN, .cycles = 1, .in_page = true, .column = 256};
    usable(b, false, "a half-given column of 256");
    b->t.sequence = (struct plain_sequence){.kind = PLAIN_SEQ_COLUMN, .cycles = 2, .column = 528};
    usable(b, false, "05h at P, and not within the page");
}

int main(void)
{
    static struct bench b;
    whole_case(&b);
    lettered_cases(&b);
    maker_crcs();
    records(&b);
    orders(&b);
    outputs(&b);
    polling(&b);
    features(&b);
    rows(&b);
    programs(&b);
    page_order(&b);
    blank_blocks(&b);
    blank_lent(&b);
    power_ons(&b);
    numbers(&b);
    kept_numbers(&b);
    printf("%u checks, %u wrong\n", checks, wrong);
    return wrong != 0;
}
