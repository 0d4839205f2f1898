/* Bad input through the C functions: random records, with random damage to the target's record and to the lengths.
 *
 *     bad [COUNT [SEED]]        so many records, 1,000,000 where not said
 *
 * Each buffer lies against a page that can't be touched, at its end or at its start by turns, so that a byte read or written past
 * it ends the program; the other side has guard bytes, or is poisoned where AddressSanitizer is on (the library itself is then
 * built to be watched). A length that is lent wrong is still a length that is there.
 *
 * Beside it runs the plain C model of judge/, on buffers of its own: what both are given, both must answer alike, byte by byte. Checked of
 * damaged records: the reply is of a form that there is; 13 changes nothing; what is not 13 is never 13 at the next event. */
#define _DEFAULT_SOURCE
#include "part.h"
#include "plain.h"

#include <stdio.h>
#include <stdlib.h>
#include <sys/mman.h>
#include <unistd.h>

#if defined(__has_feature)
#if __has_feature(address_sanitizer)
#define WATCHED 1
#endif
#elif defined(__SANITIZE_ADDRESS__)
#define WATCHED 1
#endif
#ifdef WATCHED
#include <sanitizer/asan_interface.h>
#else
#define ASAN_POISON_MEMORY_REGION(at, n) ((void)0)
#define ASAN_UNPOISON_MEMORY_REGION(at, n) ((void)0)
#endif

/* The record without the padding at its end, which says nothing. */
enum { USED = offsetof(nib_target, blank) + sizeof(((nib_target *)0)->blank),
       /* sizes and words come first, then its size_t numbers, its bytes, and last the numbers of blank blocks */
       WORDS = offsetof(nib_target, pages) / sizeof(uint16_t),
       NUMBERS = (offsetof(nib_target, powered) - offsetof(nib_target, pages)) / sizeof(size_t), SPARE = 80, GUARD = 0x5A, LONGEST = 4000 };

static uint64_t state = 1;

static uint32_t random32(void)
{
    state ^= state >> 12;
    state ^= state << 25;
    state ^= state >> 27;
    return (uint32_t)((state * UINT64_C(2685821657736338717)) >> 32);
}

static uint32_t below(uint32_t n) { return (uint32_t)((uint64_t)random32() * n >> 32); }
static int chance(uint32_t percent) { return below(100) < percent; }

static uint64_t records_run, damaged_records, damaged_lengths, refused13, survived;
static uint64_t met[26], replies_met[3], kept_met[7], blank_met[2];

static void fail(const char *what)
{
    printf("bad: %s, after %llu records\n", what, (unsigned long long)records_run);
    exit(1);
}

/* ---- Fenced memory ---- */

typedef struct room {
    uint8_t *start, *end;       /* all that can be touched: between two pages that can't */
    uint8_t *at;                /* the lent part */
    size_t length;
} room;

static room make_room(size_t most)
{
    size_t unit = (size_t)sysconf(_SC_PAGESIZE);
    size_t bytes = (most / unit + 1) * unit;
    uint8_t *whole = mmap(NULL, bytes + 2 * unit, PROT_NONE, MAP_PRIVATE | MAP_ANONYMOUS, -1, 0);
    room r;

    if (whole == MAP_FAILED || mprotect(whole + unit, bytes, PROT_READ | PROT_WRITE) != 0)
        fail("no memory");
    r.start = r.at = whole + unit;
    r.end = r.start + bytes;
    r.length = 0;
    memset(r.start, GUARD, bytes);
    return r;
}

/* Lends so many bytes of the room, against its upper or its lower fence; what they hold stays. */
static uint8_t *lend(room *r, size_t length, int upper)
{
    uint8_t *to = upper ? r->end - length : r->start;
    ASAN_UNPOISON_MEMORY_REGION(r->start, (size_t)(r->end - r->start));
    memmove(to, r->at, length < r->length ? length : r->length);
    if (length > r->length)
        memset(to + r->length, 0, length - r->length);
    r->at = to;
    r->length = length;
    if (upper)
        memset(r->start, GUARD, (size_t)(to - r->start));
    else
        memset(to + length, GUARD, (size_t)(r->end - to - (ptrdiff_t)length));
    ASAN_POISON_MEMORY_REGION(r->start, (size_t)(r->at - r->start));
    ASAN_POISON_MEMORY_REGION(r->at + length, (size_t)(r->end - r->at - (ptrdiff_t)length));
    return to;
}

static void check_guards(const room *r)
{
#ifndef WATCHED
    for (const uint8_t *p = r->start; p < r->at; p++)
        if (*p != GUARD)
            fail("a byte before a buffer has changed");
    for (const uint8_t *p = r->at + r->length; p < r->end; p++)
        if (*p != GUARD)
            fail("a byte after a buffer has changed");
#else
    (void)r;                    /* poisoned: a touch was reported */
#endif
}

/* ---- A part, for the proved model and the plain one ---- */

enum { PAGE, ARRAY, REGISTERS, COUNTS, FLAGS, BUFFERS };

typedef struct model {
    fields f;
    nib_part part;
    nib_target *t;              /* in a room of its own */
    room record, buffer[BUFFERS], records, replies;
    size_t right[BUFFERS];
    struct plain_target plain;
    uint16_t blank[NIB_MAX_LUNS];       /* the record's numbers of blank blocks when they were last looked at */
    uint8_t *mine[BUFFERS];     /* the plain model's, unfenced */
    uint8_t in[LONGEST], out[LONGEST + 2];
    uint8_t *before;            /* room for a copy of any buffer */
} model;

static nib_lent lent_of(const model *m)
{
    nib_lent b;
    b.page = m->buffer[PAGE].at, b.page_length = m->buffer[PAGE].length;
    b.array = m->buffer[ARRAY].at, b.array_length = m->buffer[ARRAY].length;
    b.registers = m->buffer[REGISTERS].at, b.registers_length = m->buffer[REGISTERS].length;
    b.counts = m->buffer[COUNTS].at, b.counts_length = m->buffer[COUNTS].length;
    b.flags = m->buffer[FLAGS].at, b.flags_length = m->buffer[FLAGS].length;
    return b;
}

static void check_all_guards(const model *m)
{
    check_guards(&m->record);
    check_guards(&m->records);
    check_guards(&m->replies);
    for (unsigned i = 0; i < BUFFERS; i++)
        check_guards(&m->buffer[i]);
}

/* All lengths right; against which fence, by chance. */
static void lend_right(model *m)
{
    for (unsigned i = 0; i < BUFFERS; i++)
        lend(&m->buffer[i], m->right[i], chance(70));
}

static void check_blank(const model *m)
{
    for (unsigned l = 0; l < NIB_MAX_LUNS; l++)
        if (m->t->blank[l] != m->plain.lun[l].blank)
            fail("a number of blank blocks is not the plain model's");
}

/* How often the numbers of blank blocks go down and up in single events. */
static void count_blank(model *m)
{
    for (unsigned l = 0; l < NIB_MAX_LUNS; l++) {
        blank_met[0] += m->t->blank[l] < m->blank[l];
        blank_met[1] += m->t->blank[l] > m->blank[l];
        m->blank[l] = m->t->blank[l];
    }
}

static void check_kept(const model *m)
{
    if (m->t->kept != m->plain.kept.kind || m->t->kept_lun != m->plain.kept.lun || m->t->kept_at != m->plain.kept.next)
        fail("what is kept behind a status is not the plain model's");
    kept_met[m->t->kept]++;
}

static void check_same(const model *m)
{
    for (unsigned i = 0; i < BUFFERS; i++)
        if (memcmp(m->buffer[i].at, m->mine[i], m->right[i]) != 0)
            fail("a buffer is not the plain model's");
    for (unsigned l = 0; l < NIB_MAX_LUNS; l++)
        if (m->t->working[l] != m->plain.lun[l].working || m->t->fail[l] != m->plain.lun[l].fail
            || m->t->copyback[l] != m->plain.lun[l].copyback)
            fail("a LUN's marks are not the plain model's");
    for (unsigned l = 0; l < NIB_MAX_LUNS; l++)
        if (m->t->blank[l] != plain_blank_walk(&m->plain, l, m->mine[COUNTS], m->mine[FLAGS]))
            fail("a number of blank blocks is not the walk's");
    check_blank(m);
    check_kept(m);
}

static uint32_t plain_power(model *m, const size_t *n, uint8_t device)
{
    return plain_power_on(&m->plain, m->mine[PAGE], n[PAGE], device, m->mine[ARRAY], n[ARRAY], m->mine[REGISTERS], n[REGISTERS],
                          m->mine[COUNTS], n[COUNTS], m->mine[FLAGS], n[FLAGS]);
}

static void open_model(model *m, const fields *f)
{
    size_t largest = 0;
    uint8_t page[NIB_PAGE_LENGTH];

    m->f = *f;
    make_page(page, f);
    m->part = nib_part_of(page);
    m->right[PAGE] = NIB_PAGE_LENGTH;
    m->right[ARRAY] = nib_array_length(m->part);
    m->right[REGISTERS] = nib_registers_length(m->part);
    m->right[COUNTS] = nib_counts_length(m->part);
    m->right[FLAGS] = nib_flags_length(m->part);
    for (unsigned i = 0; i < BUFFERS; i++) {
        m->buffer[i] = make_room(m->right[i] + SPARE);
        lend(&m->buffer[i], m->right[i], 1);
        m->mine[i] = calloc(1, m->right[i] + SPARE);
        if (m->right[i] > largest)
            largest = m->right[i];
    }
    m->before = malloc(largest + SPARE);
    m->record = make_room(sizeof(nib_target));
    m->t = (nib_target *)lend(&m->record, sizeof(nib_target), 1);
    m->records = make_room(LONGEST);
    m->replies = make_room(LONGEST + 2);
    memcpy(m->buffer[PAGE].at, page, sizeof page);
    memset(m->buffer[ARRAY].at, 0xFF, m->right[ARRAY]);
    for (size_t i = 0; i < m->right[FLAGS]; i++)
        m->buffer[FLAGS].at[i] = chance(10);
    for (unsigned i = 0; i < BUFFERS; i++)
        memcpy(m->mine[i], m->buffer[i].at, m->right[i]);
    nib_lent b = lent_of(m);
    if (nib_lent_power_on(m->t, &b, DEVICE) != 0 || plain_power(m, m->right, DEVICE) != 0)
        fail("power-on");
    check_same(m);
    memcpy(m->blank, m->t->blank, sizeof m->blank);
}

/* ---- Random records: whole jobs with wrong cycles among them, and noise ---- */

typedef struct writer {
    uint8_t *to;
    size_t n, most;
} writer;

static void add(writer *w, unsigned kind, uint32_t value)
{
    if (w->n + 2 <= w->most) {
        w->to[w->n++] = (uint8_t)kind;
        w->to[w->n++] = (uint8_t)value;
    }
}

static void noise(writer *w)
{
    static const uint8_t commands[] = {0x00, 0x30, 0x35, 0x05, 0xE0, 0x06, 0x60, 0xD0, 0x70, 0x78, 0x80, 0x10, 0x85, 0x90, 0xEC, 0xEE, 0xEF, 0xFF};
    if (chance(40))
        add(w, NIB_COMMAND, commands[below(sizeof commands)]);
    else if (chance(60))
        add(w, below(6), chance(50) ? below(3) : random32());
    else
        add(w, random32(), random32());
}

static uint32_t some_row(const model *m)
{
    if (chance(4))
        return random32();
    return nib_row(m->part, below((uint32_t)m->part.luns + chance(4)), below((uint32_t)m->part.blocks + chance(4)),
                   below((uint32_t)m->part.pages + chance(4)));
}

static uint32_t some_column(const model *m)
{
    uint32_t p = (uint32_t)m->part.page;
    return chance(70) ? below(p) : chance(80) ? p - 3 + below(5) : random32() & 0xFFFF;
}

static void addresses(writer *w, uint32_t n, unsigned bytes)
{
    for (unsigned i = 0; i < bytes; i++) {
        if (chance(1))
            noise(w);
        add(w, NIB_ADDRESS, n >> (8 * i));
    }
}

static void many(writer *w, const model *m, unsigned kind)
{
    uint32_t n = chance(80) ? below(12) : below((uint32_t)m->part.page + 4);
    for (uint32_t i = 0; i < n; i++)
        add(w, kind, kind == NIB_DATA_IN ? random32() : 0);
}

static void job(writer *w, const model *m)
{
    uint32_t row = some_row(m);
    switch (below(19)) {
    case 0: case 1: case 14:                                    /* read, and of a copyback's halves the first */
        add(w, 0, 0x00), addresses(w, some_column(m), 2), addresses(w, row, 3), add(w, 0, chance(60) ? 0x30 : 0x35);
        if (chance(80))
            add(w, NIB_FINISH, below((uint32_t)m->part.luns));
        many(w, m, NIB_DATA_OUT);
        break;
    case 2: case 3: case 4: case 15:                            /* program, and of a copyback's halves the second */
        add(w, 0, chance(60) ? 0x80 : 0x85), addresses(w, some_column(m), 2), addresses(w, row, 3), many(w, m, NIB_DATA_IN);
        if (chance(30))
            add(w, 0, 0x85), addresses(w, some_column(m), 2), many(w, m, NIB_DATA_IN);
        add(w, 0, 0x10);
        break;
    case 5:                                                     /* erase */
        add(w, 0, 0x60), addresses(w, row, 3), add(w, 0, 0xD0);
        break;
    case 6:                                                     /* status */
        add(w, 0, 0x78), addresses(w, row, 3), many(w, m, NIB_DATA_OUT);
        break;
    case 7:
        add(w, 0, 0x70), many(w, m, NIB_DATA_OUT);
        break;
    case 8:                                                     /* column changes */
        add(w, 0, 0x06), addresses(w, some_column(m), 2), addresses(w, row, 3), add(w, 0, 0xE0), many(w, m, NIB_DATA_OUT);
        break;
    case 9:
        add(w, 0, 0x05), addresses(w, some_column(m), 2), add(w, 0, 0xE0), many(w, m, NIB_DATA_OUT);
        break;
    case 16: case 17: case 18:                                  /* what is open, polled for, and gone on with */
        for (uint32_t n = 1 + below(3); n > 0; n--) {
            if (chance(70))
                add(w, 0, 0x70);
            else
                add(w, 0, 0x78), addresses(w, chance(80) ? nib_row(m->part, m->t->selected, 0, 0) : row, 3);
            if (chance(60))
                add(w, NIB_DATA_OUT, 0);
        }
        if (chance(30))                                         /* within the parameter page, open or kept */
            add(w, 0, 0x05), addresses(w, chance(70) ? below(790) : some_column(m), 2), add(w, 0, 0xE0);
        else
            add(w, 0, 0x00);
        many(w, m, NIB_DATA_OUT);
        break;
    case 10:                                                    /* identification */
        add(w, 0, chance(50) ? 0x90 : 0xEC), add(w, 1, chance(50) ? 0 : 0x20);
        for (uint32_t i = below(chance(90) ? 8 : 780); i > 0; i--)
            add(w, NIB_DATA_OUT, 0);
        break;
    case 11:                                                    /* features */
        add(w, 0, 0xEF), add(w, 1, 1);
        for (unsigned i = 0; i < 4; i++)
            add(w, NIB_DATA_IN, i == 0 && chance(60) ? 0x40 : chance(5) ? random32() : 0);
        add(w, 0, 0xEE), add(w, 1, 1), many(w, m, NIB_DATA_OUT);
        break;
    case 12:
        add(w, NIB_PROTECT, below(2));
        if (chance(70))
            add(w, NIB_PROTECT, 1);
        break;
    default:
        noise(w);
    }
    if (chance(15))
        add(w, 0, 0xFF);
    for (uint32_t l = 0; l < m->part.luns; l++)
        if (chance(60))
            add(w, NIB_FINISH, l);
}

static size_t some_records(model *m)
{
    writer w = {m->in, 0, chance(93) ? 40u + below(200) : LONGEST - 2};
    if (chance(10)) {
        while (w.n + 2 <= w.most)
            noise(&w);
    } else {
        for (unsigned i = 0; i < 200 && w.n + 2 <= w.most; i++)
            job(&w, m);
    }
    if (chance(10))
        m->in[w.n++] = (uint8_t)random32();
    return w.n;
}

/* ---- Checks of what came ---- */

static void check_reply(uint32_t reply, unsigned kind)
{
    unsigned first = reply >> 8, second = reply & 0xFF;
    if (first > 2 || (first == 0 && second != 0) || (first == 2 && (second < 1 || second > 14)))
        fail("a reply of no form that there is");
    if (first == 1 && kind != NIB_DATA_OUT)
        fail("a byte from a cycle that gives none");
    replies_met[first]++;
    if (first == 2)
        met[second]++;
}

static void check_rest(const model *m)
{
    nib_lent b = lent_of(m);
    uint64_t rest = nib_lent_rest(m->t, &b);
    size_t start = nib_rest_start(rest), length = nib_rest_length(rest);
    size_t all = nib_rest_buffer(rest) == NIB_REST_REGISTERS ? b.registers_length : b.page_length;
    if (nib_rest_buffer(rest) > 2 || (nib_rest_buffer(rest) == 0 && rest != 0) || start > all || length > all - start)
        fail("an unread rest that lies outside its buffer");
}

/* ---- The turns ---- */

/* A trace or single events, both models alike. */
static void run_both(model *m)
{
    size_t n = some_records(m), need = nib_replies_length(n);
    nib_lent b;

    lend_right(m);
    b = lent_of(m);
    if (chance(50)) {
        size_t space = chance(4) ? below((uint32_t)need + 1) : need;
        uint8_t *in = lend(&m->records, n, chance(70)), *out = lend(&m->replies, space, chance(70));
        memcpy(in, m->in, n);
        uint32_t answer = nib_lent_trace(m->t, &b, in, n, out, space);
        uint32_t due = plain_trace(&m->plain, m->in, n, m->out, space, m->mine[PAGE], m->right[PAGE], m->mine[ARRAY], m->right[ARRAY],
                                   m->mine[REGISTERS], m->right[REGISTERS], m->mine[COUNTS], m->right[COUNTS], m->mine[FLAGS], m->right[FLAGS]);
        if (answer != due || answer != (space < need ? 16u : 0u))
            fail("a trace's answer");
        if (answer == 0 && memcmp(out, m->out, need) != 0)
            fail("a trace's replies are not the plain model's");
        if (memcmp(in, m->in, n) != 0)
            fail("the records have changed");
        if (answer == 0)
            for (size_t i = 0; i < need; i += 2)
                check_reply((uint32_t)out[i] << 8 | out[i + 1], i + 1 < n ? in[i] : 255);
        records_run += need / 2;
    } else {
        for (size_t i = 0; i + 1 < n; i += 2) {
            uint32_t reply = nib_lent_event(m->t, &b, m->in[i], m->in[i + 1]);
            uint32_t due = plain_event(&m->plain, m->in[i], m->in[i + 1], m->mine[PAGE], m->right[PAGE], m->mine[ARRAY], m->right[ARRAY],
                                       m->mine[REGISTERS], m->right[REGISTERS], m->mine[COUNTS], m->right[COUNTS], m->mine[FLAGS], m->right[FLAGS]);
            if (reply != due)
                fail("a reply is not the plain model's");
            check_reply(reply, m->in[i]);
            check_kept(m);
            check_blank(m);
            count_blank(m);
            records_run++;
        }
    }
    check_rest(m);
    check_all_guards(m);
    check_same(m);
    memcpy(m->blank, m->t->blank, sizeof m->blank);
}

/* A number near one that may pass, or any. */
static size_t some_number(const model *m)
{
    switch (below(6)) {
    case 0: return below(4);
    case 1: return below(300);
    case 2: return m->part.page - 2 + below(4);
    case 3: return (size_t)1 << below(64);
    case 4: return SIZE_MAX - below(3);
    default: return (size_t)random32() << 32 | random32();
    }
}

/* A number of blank blocks, mostly one that passes. */
static uint16_t some_blank(const model *m, unsigned lun)
{
    if (lun >= m->part.luns)
        return (uint16_t)chance(2);
    return (uint16_t)(chance(95) ? below((uint32_t)m->part.blocks + 1) : m->part.blocks + 1);
}

static void damage_record(model *m)
{
    uint8_t *bytes = (uint8_t *)m->t;
    switch (below(6)) {
    case 0:
        for (size_t i = 0; i < sizeof(nib_target); i++)
            bytes[i] = (uint8_t)random32();
        break;
    case 1:
        for (uint32_t n = 1 + below(3); n > 0; n--)
            bytes[below(USED)] ^= (uint8_t)(1u << below(8));
        break;
    case 2:
        for (uint32_t n = 1 + below(3); n > 0; n--)
            bytes[offsetof(nib_target, powered) + below(USED - offsetof(nib_target, powered))] = (uint8_t)below(chance(80) ? 9 : 256);
        break;
    case 3: {
        size_t n = some_number(m);
        memcpy(bytes + offsetof(nib_target, pages) + sizeof n * below(NUMBERS), &n, sizeof n);
        break;
    }
    case 4: {
        uint16_t n = (uint16_t)(chance(50) ? some_number(m) : random32());
        memcpy(bytes + sizeof n * below(WORDS), &n, sizeof n);
        break;
    }
    default:                    /* another sequence and output, with numbers that may fit it */
        m->t->sequence = (uint8_t)below(9);
        m->t->first = (uint8_t)below(14);
        m->t->got = (uint8_t)below(4);
        m->t->low = chance(50) ? 0 : (uint8_t)random32();
        m->t->mid = chance(50) ? 0 : (uint8_t)random32();
        m->t->value = chance(60) ? 0 : chance(50) ? 0x40 : (uint8_t)random32();
        m->t->column = chance(50) ? 0 : chance(80) ? some_column(m) : 766 + below(4);
        m->t->row = chance(50) ? 0 : some_row(m);
        m->t->output = (uint8_t)below(8);
        m->t->output_lun = below(3);
        m->t->output_at = chance(50) ? 0 : some_column(m);
        m->t->kept = (uint8_t)(chance(50) ? 0 : below(8));
        m->t->kept_lun = chance(60) ? 0 : below(3);
        m->t->kept_at = chance(50) ? 0 : chance(50) ? below(6) : chance(80) ? some_column(m) : 766 + below(4);
        for (unsigned l = 0; l < NIB_MAX_LUNS; l++)
            m->t->copyback[l] = l < m->part.luns ? chance(50) : chance(10), m->t->blank[l] = some_blank(m, l);
    }
    damaged_records++;
}

/* Wrong lengths, all of them there; NULL where one is 0, by chance. */
static nib_lent damage_lengths(model *m)
{
    nib_lent b;
    for (unsigned i = 0; i < BUFFERS; i++) {
        size_t n = m->right[i];
        if (chance(40))
            n = chance(30) ? 0 : chance(50) ? below((uint32_t)n + SPARE) : n - 1 + below(3);
        lend(&m->buffer[i], n, chance(70));
    }
    b = lent_of(m);
    if (b.page_length == 0 && chance(50)) b.page = NULL;
    if (b.array_length == 0 && chance(50)) b.array = NULL;
    if (b.registers_length == 0 && chance(50)) b.registers = NULL;
    if (b.counts_length == 0 && chance(50)) b.counts = NULL;
    if (b.flags_length == 0 && chance(50)) b.flags = NULL;
    damaged_lengths++;
    return b;
}

/* Everything lent as it was when the plain model last agreed. */
static void restore(model *m, const nib_target *record)
{
    for (unsigned i = 0; i < BUFFERS; i++) {
        lend(&m->buffer[i], m->right[i], 1);
        memcpy(m->buffer[i].at, m->mine[i], m->right[i]);
    }
    *m->t = *record;
}

static int unchanged(const model *m, const nib_target *record, const nib_lent *b)
{
    if (memcmp(m->t, record, USED) != 0)
        return 0;
    for (unsigned i = 0; i < BUFFERS; i++) {
        size_t n = m->buffer[i].length < m->right[i] ? m->buffer[i].length : m->right[i];
        if (memcmp(m->buffer[i].at, m->mine[i], n) != 0)
            return 0;
    }
    (void)b;
    return 1;
}

/* Some events on a damaged record, or with damaged lengths, or both; then all as it was. */
static void run_damaged(model *m)
{
    nib_target kept = *m->t, damaged;
    nib_lent b;
    int lengths = chance(50);

    if (lengths)
        b = damage_lengths(m);
    else
        lend_right(m), b = lent_of(m);
    if (!lengths || chance(30))
        damage_record(m);
    damaged = *m->t;
    check_rest(m);
    int refused = 0;
    size_t n = some_records(m) / 2;
    if (n > 30)
        n = 1 + below(30);
    for (size_t i = 0; i < n; i++) {
        uint8_t kind = m->in[2 * i], value = m->in[2 * i + 1];
        uint32_t reply = nib_lent_event(m->t, &b, kind, value);
        check_reply(reply, kind);
        records_run++;
        if (i == 0)
            refused = nib_refusal(reply) == NIB_REFUSED_TARGET;
        else if (refused != (nib_refusal(reply) == NIB_REFUSED_TARGET))
            fail("13 comes or goes between two events");
        if (refused) {
            refused13++;
            if (i == 0 && !unchanged(m, &damaged, &b))
                fail("13 has changed something");
        }
    }
    if (refused && !unchanged(m, &damaged, &b))
        fail("13 has changed something");
    survived += !refused;
    /* the same record once more as a trace */
    size_t bytes = 2 * n + chance(20);
    if (bytes > 2 * n)
        m->in[2 * n] = (uint8_t)random32();
    size_t need = nib_replies_length(bytes), space = chance(10) ? below((uint32_t)need + 1) : need + below(2);
    uint8_t *in = lend(&m->records, bytes, chance(70)), *out = lend(&m->replies, space, chance(70));
    memcpy(in, m->in, bytes);
    uint32_t answer = nib_lent_trace(m->t, &b, bytes ? in : NULL, bytes, space ? out : NULL, space);
    if (answer != (space < need ? 16u : 0u))
        fail("a trace's answer");
    if (answer == 0) {
        for (size_t i = 0; i < need; i += 2) {
            uint32_t reply = (uint32_t)out[i] << 8 | out[i + 1];
            check_reply(reply, i + 1 < bytes ? in[i] : 255);
            if (refused != (nib_refusal(reply) == NIB_REFUSED_TARGET))
                fail("13 comes or goes in a trace");
        }
        records_run += need / 2;
    }
    if (refused && !unchanged(m, &damaged, &b))
        fail("a trace that is 13 has changed something");
    check_rest(m);
    check_all_guards(m);
    restore(m, &kept);
}

/* Power-on with damage: both models alike; then all as it was. */
static void power_damaged(model *m)
{
    nib_target kept = *m->t;
    struct plain_target kept_plain = m->plain;
    size_t n[BUFFERS];
    nib_lent b;
    int powers = 0;

    if (chance(50))
        b = damage_lengths(m);
    else
        lend_right(m), b = lent_of(m);
    if (b.page_length == NIB_PAGE_LENGTH && chance(60)) {
        static const uint8_t at[] = {0, 6, 7, 8, 80, 81, 84, 85, 92, 93, 96, 97, 100, 101, 110, 254};
        uint8_t *page = m->buffer[PAGE].at;
        for (uint32_t i = below(3); i > 0; i--)
            page[chance(80) ? at[below(sizeof at)] : below(256)] = (uint8_t)(chance(50) ? random32() : below(6));
        if (chance(70))
            put_crc(page);
    }
    if (b.counts_length && chance(10))
        m->buffer[COUNTS].at[below((uint32_t)b.counts_length)] = (uint8_t)below(12);
    if (b.flags_length && chance(10))
        m->buffer[FLAGS].at[below((uint32_t)b.flags_length)] = (uint8_t)below(3);
    /* the plain model sees the same bytes */
    uint8_t *copy[BUFFERS];
    for (unsigned i = 0; i < BUFFERS; i++) {
        n[i] = m->buffer[i].length;
        copy[i] = m->mine[i];
        m->mine[i] = malloc(n[i] + 1);
        memcpy(m->mine[i], m->buffer[i].at, n[i]);
    }
    memset(m->t, (int)random32(), sizeof *m->t);
    uint32_t answer = nib_lent_power_on(m->t, &b, (uint8_t)random32());
    if (answer != plain_power(m, n, 0) || (answer != 0 && (answer < 20 || answer > 25)))
        fail("power-on's answer");
    met[answer]++;
    powers = answer == 0;
    check_blank(m);
    for (unsigned i = 0; i < BUFFERS; i++)
        if (memcmp(m->buffer[i].at, m->mine[i], n[i]) != 0)
            fail("a byte after power-on");
    if (nib_lent_event(m->t, &b, 0, 0xFF) != (powers ? NIB_ACCEPTED : 0x20Du))
        fail("the first FFh after power-on");
    records_run++;
    check_rest(m);
    check_all_guards(m);
    for (unsigned i = 0; i < BUFFERS; i++) {
        free(m->mine[i]);
        m->mine[i] = copy[i];
    }
    m->plain = kept_plain;
    restore(m, &kept);
}

int main(int argc, char **argv)
{
    static const fields parts[] = {
        {512, 16, 4, 8, 2, 4, FEATURES_ALL, OPTIONAL_T1},       /* T1 */
        {512, 16, 3, 5, 2, 4, FEATURES_ALL, OPTIONAL_T1},       /* T2 */
        {512, 16, 4, 8, 2, 4, 0x10E, 0x5D},                     /* W */
        {16, 0, 1, 1, 1, 1, 0, 0},
        {16, 1, 3, 5, 4, 2, FEATURES_ALL, OPTIONAL_ALL},
        {254, 3, 2, 3, 3, 8, 0x002, 0x48},
        {40, 2, 5, 9, 2, 3, FEATURES_ALL, 0x44},
    };
    enum { PARTS = sizeof parts / sizeof parts[0] };
    static model models[PARTS];
    uint64_t count = argc > 1 ? strtoull(argv[1], NULL, 10) : 1000000;
    state = argc > 2 ? strtoull(argv[2], NULL, 10) * UINT64_C(0x9E3779B97F4A7C15) | 1 : UINT64_C(0x9E3779B97F4A7C15);

    for (unsigned i = 0; i < PARTS; i++)
        open_model(&models[i], &parts[i]);
    while (records_run < count) {
        model *m = &models[below(PARTS)];
        switch (below(10)) {
        case 0: case 1: case 2:
            run_both(m);
            break;
        case 3:
            power_damaged(m);
            break;
        default:
            run_damaged(m);
        }
    }
    printf("bad: %llu records; %llu damaged records, %llu damaged lengths; %llu runs on damage were not 13\n",
           (unsigned long long)records_run, (unsigned long long)damaged_records, (unsigned long long)damaged_lengths,
           (unsigned long long)survived);
    printf("bad: replies 00 %llu, 01 %llu, 02 %llu; refusals", (unsigned long long)replies_met[0], (unsigned long long)replies_met[1],
           (unsigned long long)replies_met[2]);
    for (unsigned i = 1; i < 26; i++)
        if (met[i])
            printf(" %u:%llu", i, (unsigned long long)met[i]);
    printf("; kept behind a status: registers %llu, pages %llu, IDs %llu, signatures %llu, feature bytes %llu\n",
           (unsigned long long)kept_met[NIB_OUTPUT_REGISTER], (unsigned long long)kept_met[NIB_OUTPUT_PARAMETERS],
           (unsigned long long)kept_met[NIB_OUTPUT_IDS], (unsigned long long)kept_met[NIB_OUTPUT_SIGNATURE],
           (unsigned long long)kept_met[NIB_OUTPUT_FEATURE]);
    printf("bad: blank blocks: %llu times one fewer, %llu times one more\n", (unsigned long long)blank_met[0],
           (unsigned long long)blank_met[1]);
    /* a test that met nothing has tested nothing */
    for (unsigned i = NIB_OUTPUT_REGISTER; i <= NIB_OUTPUT_FEATURE; i++)
        if (i != NIB_OUTPUT_STATUS && kept_met[i] == 0 && count >= 1000000)
            fail("an output was never kept");
    if (count >= 1000000 && (blank_met[0] == 0 || blank_met[1] == 0))
        fail("a number of blank blocks never moved");
    for (unsigned i = 1; i <= 25; i++)
        if ((i <= 14 || i >= 20) && met[i] == 0 && count >= 1000000)
            fail("a refusal was never met");
    if (count >= 1000000 && (survived < 100 || refused13 < 1000))
        fail("too little damage, or too much");
    printf("bad: nothing wrong\n");
    return 0;
}
