#include "plain.h"

#include <string.h>

/* Builder's errors, by number as errors.sh names them: ERR(n, wrong, right).
 * None can write outside a lent buffer. Without PLAIN_ERRORS all are gone. */
#ifdef PLAIN_ERRORS
unsigned plain_error;
#define ERR(n, wrong, right) (plain_error == (n) ? (wrong) : (right))
#else
#define ERR(n, wrong, right) (right)
#endif

/* Replies, first byte times 256 plus the second. */
#define ACCEPTED 0u
#define BYTE(b) (0x100u | (uint32_t)(b))
#define REFUSED(n) (0x200u | (uint32_t)(n))

struct lent {
    const uint8_t *page;
    uint8_t *array;
    uint8_t *registers;
    uint8_t *counts;
    const uint8_t *flags;
    size_t page_len, array_len, registers_len, counts_len, flags_len;
};

/* Address cycles of each sequence, and how many of them are a column's.
 * 'closes': its last address cycle is its end. */
static const struct shape {
    uint8_t cycles, columns;
    bool closes;
} shapes[PLAIN_SEQ_KINDS] = {
    [PLAIN_SEQ_READ] = {5, 2, false},
    [PLAIN_SEQ_COLUMN] = {2, 2, false},
    [PLAIN_SEQ_LUN_COLUMN] = {5, 2, false},
    [PLAIN_SEQ_ERASE] = {3, 0, false},
    [PLAIN_SEQ_STATUS] = {3, 0, true},
    [PLAIN_SEQ_PROGRAM] = {5, 2, false},
    [PLAIN_SEQ_COPYBACK] = {5, 2, false},
    [PLAIN_SEQ_MOVE] = {2, 2, true},
    [PLAIN_SEQ_ID] = {1, 0, true},
    [PLAIN_SEQ_PARAMETERS] = {1, 0, true},
    [PLAIN_SEQ_GET] = {1, 0, true},
    [PLAIN_SEQ_SET] = {1, 0, false},
};

static const uint8_t signature[4] = {'O', 'N', 'F', 'I'};

/* Bits of the two words. */
enum { FEATURE_WIDE = 0, FEATURE_LUNS = 1, FEATURE_ANY_ORDER = 2, FEATURE_CLEAR = 8 };
enum { OPTION_FEATURES = 2, OPTION_78H = 3, OPTION_COPYBACK = 4, OPTION_06H = 6 };

static bool has(uint16_t word, unsigned bit)
{
    return word >> bit & 1;
}

/* ---- Rule 13 ---- */

static bool in_limits(uint32_t n, uint32_t low, uint32_t high)
{
    return low <= n && n <= high;
}

/* A whole column: below P, or for 05h within the parameter page below 768. */
static bool column_exists(const struct plain_target *t, const struct plain_sequence *s)
{
    if (s->in_page && ERR(63, false, true))
        return s->column < PLAIN_COPIES_END;
    return s->column < ERR(6, t->page_size + 1, t->page_size);
}

static bool geometry_usable(const struct plain_target *t)
{
    return in_limits(t->page_size, 16, 16384 + 2048)
        && in_limits(t->pages, 1, 256)
        && in_limits(t->blocks, 1, 4096)
        && in_limits(t->luns, 1, PLAIN_MAX_LUNS)
        && in_limits(t->programs, 1, 8)
        && !has(t->features, FEATURE_WIDE)
        && (t->luns == 1 || ERR(33, true, has(t->features, FEATURE_LUNS)));
}

/* 64 bits: the largest array is past 32. */
static bool lengths_fit(const struct plain_target *t, const struct lent *b)
{
    uint64_t blocks = (uint64_t)t->luns * t->blocks;
    uint64_t pages = blocks * t->pages;

    return b->page_len == PLAIN_PAGE_BYTES
        && b->array_len == pages * t->page_size
        && b->registers_len == (uint64_t)t->luns * t->page_size
        && b->counts_len == pages
        && b->flags_len == blocks;
}

static bool luns_usable(const struct plain_target *t)
{
    if (t->selected >= t->luns)
        return false;
    for (uint32_t l = 0; l < t->luns; l++)
        if (t->lun[l].blank > ERR(100, t->blocks + 1, t->blocks))
            return false;
    for (uint32_t l = t->luns; l < PLAIN_MAX_LUNS; l++)
        if (t->lun[l].working || t->lun[l].fail || t->lun[l].copyback || ERR(101, false, t->lun[l].blank != 0))
            return false;
    return true;
}

/* A whole row, as its command asks. */
static bool row_usable(const struct plain_target *t, const struct plain_sequence *s)
{
    switch (s->kind) {
    case PLAIN_SEQ_READ:
    case PLAIN_SEQ_PROGRAM:
    case PLAIN_SEQ_COPYBACK:
    case PLAIN_SEQ_MOVE:
        return s->page < t->pages && s->block < t->blocks && s->lun < t->luns;
    case PLAIN_SEQ_ERASE:
        return s->block < t->blocks && s->lun < t->luns;
    default:
        return s->lun < t->luns;
    }
}

static bool sequence_usable(const struct plain_target *t)
{
    const struct plain_sequence *s = &t->sequence;
    if (s->kind == PLAIN_SEQ_NONE)
        return true;
    if (s->kind >= PLAIN_SEQ_KINDS)
        return false;

    const struct shape *shape = &shapes[s->kind];
    unsigned n = s->cycles;
    if (n > shape->cycles || (n == shape->cycles && shape->closes))
        return false;

    if (s->kind == PLAIN_SEQ_SET)
        return n == 0 || (s->given < 4
                          && (s->given == 0 || s->p1 == 0 || s->p1 == 0x40));

    if (shape->columns != 0 && n == 1 && s->column > 0xFF)
        return false;
    if (shape->columns != 0 && n >= 2) {
        bool taking = (s->kind == PLAIN_SEQ_PROGRAM || s->kind == PLAIN_SEQ_COPYBACK) && n == 5;
        if (!column_exists(t, s) && !(taking && s->column == t->page_size))
            return false;
    }

    if (s->kind == PLAIN_SEQ_MOVE)      /* the program's row is there already */
        return row_usable(t, s) && (s->first == 0x80 || s->first == 0x85);
    if (shape->cycles == 3 || shape->cycles == 5) {
        unsigned given = n > shape->columns ? n - shape->columns : 0;
        if (given == 3)
            return row_usable(t, s);
        if (given != 0)
            return s->row >> (8 * given) == 0;
    }
    return true;
}

static bool output_usable(const struct plain_target *t, const struct plain_output *o)
{
    switch (o->kind) {
    case PLAIN_OUT_NONE:
        return true;
    case PLAIN_OUT_REGISTER:
        return o->lun < t->luns && o->next <= t->page_size;
    case PLAIN_OUT_PARAMETERS:
        return o->next <= ERR(8, PLAIN_COPIES_END + 1u, (uint32_t)PLAIN_COPIES_END);
    case PLAIN_OUT_STATUS:
        return o->lun < t->luns;
    case PLAIN_OUT_IDS:
        return o->next <= 2;
    case PLAIN_OUT_SIGNATURE:
    case PLAIN_OUT_FEATURE:
        return o->next <= 4;
    default:
        return false;
    }
}

static bool record_usable(const struct plain_target *t)
{
    return t->powered && geometry_usable(t)
        && luns_usable(t) && sequence_usable(t)
        && output_usable(t, &t->output) && output_usable(t, &t->kept) && t->kept.kind != PLAIN_OUT_STATUS;
}

static bool usable(const struct plain_target *t, const struct lent *b)
{
    return record_usable(t) && lengths_fit(t, b);
}

/* ---- Places in the lent buffers ---- */

static uint8_t *register_of(const struct plain_target *t, const struct lent *b, uint32_t lun)
{
    return b->registers + (size_t)lun * t->page_size;
}

static size_t block_index(const struct plain_target *t, uint32_t lun, uint32_t block)
{
    return (size_t)lun * t->blocks + block;
}

/* ---- Blank blocks ---- */

/* All of these counts are 0. */
static bool unwritten(const uint8_t *counts, uint32_t pages)
{
    for (uint32_t page = 0; page < pages; page++)
        if (counts[page] != 0)
            return false;
    return true;
}

uint32_t plain_blank_walk(const struct plain_target *t, uint32_t lun, const uint8_t *counts, const uint8_t *flags)
{
    uint32_t blank = 0;
    for (uint32_t block = 0; lun < t->luns && block < t->blocks; block++) {
        size_t at = block_index(t, ERR(106, 0, lun), block);
        bool good = ERR(97, true, flags[at] == 0);
        if (good && unwritten(counts + at * t->pages, ERR(98, 1, t->pages)))
            blank++;
    }
    return blank;
}

/* A lent record, or lent counts, may make the number untrue: it stops at 0 and at blocks. */
static void one_blank_less(struct plain_target *t, uint32_t lun)
{
    struct plain_lun *l = &t->lun[ERR(91, (lun + 1) % t->luns, lun)];
    if (ERR(103, true, l->blank > 0))
        l->blank--;
}

static void one_blank_more(struct plain_target *t, uint32_t lun)
{
    struct plain_lun *l = &t->lun[ERR(91, (lun + 1) % t->luns, lun)];
    if (ERR(102, true, l->blank < t->blocks))
        l->blank++;
}

/* ---- Small parts of a step ---- */

static bool any_works(const struct plain_target *t)
{
    for (uint32_t l = 0; l < t->luns; l++)
        if (t->lun[l].working)
            return true;
    return false;
}

static bool other_works(const struct plain_target *t, uint32_t lun)
{
    for (uint32_t l = 0; l < t->luns; l++)
        if (l != lun && t->lun[l].working)
            return true;
    return false;
}

static void close_sequence(struct plain_target *t)
{
    t->sequence = (struct plain_sequence){0};
}

static void open_output(struct plain_target *t, uint8_t kind, uint32_t lun, uint32_t next)
{
    close_sequence(t);
    t->output = (struct plain_output){.kind = kind, .lun = lun, .next = next};
}

static void forget(struct plain_target *t)
{
    t->kept = (struct plain_output){0};
}

/* What a refused bus cycle leaves: the memory counts as output. */
static void drop(struct plain_target *t)
{
    close_sequence(t);
    if (ERR(5, false, true))
        t->output = (struct plain_output){0};
    if (ERR(58, false, true))
        forget(t);
}

static void start_work(struct plain_target *t, uint32_t lun, bool fail)
{
    t->lun[lun].working = true;
    t->lun[lun].fail = fail;
    close_sequence(t);
}

static uint8_t status_of(const struct plain_target *t, uint32_t lun)
{
    uint8_t status = ERR(18, true, t->line_high) ? 0x80 : 0;
    if (!t->lun[lun].working)
        status |= 0x60;
    if (t->lun[lun].fail && (ERR(26, true, false) || !t->lun[lun].working))
        status |= 0x01;
    return status;
}

/* ---- Commands ---- */

static uint32_t first_command(struct plain_target *t, uint8_t kind)
{
    if (t->sequence.kind != PLAIN_SEQ_NONE)
        return REFUSED(3);
    t->output = (struct plain_output){0};
    forget(t);
    t->sequence.kind = kind;
    return ACCEPTED;
}

static bool status_open(const struct plain_target *t)
{
    uint8_t kind = t->output.kind;
    return kind == PLAIN_OUT_STATUS || (kind == PLAIN_OUT_NONE && ERR(58, true, ERR(72, true, false)));
}

/* What a status would keep now: the output that is open, or what an earlier status keeps. */
static struct plain_output behind_status(const struct plain_target *t)
{
    struct plain_output none = {0};
    if (status_open(t))
        return ERR(66, none, t->kept);
    return ERR(65, t->output.kind != PLAIN_OUT_REGISTER, false) ? none : t->output;
}

/* 00h. After a status the memory stays, as it may be a bare 00h; straight after other output there is none. */
static uint32_t read_command(struct plain_target *t)
{
    struct plain_output kept = {0};
    if (status_open(t))
        kept = t->kept;
    else if (ERR(59, true, false))
        kept = t->output;
    uint32_t reply = first_command(t, PLAIN_SEQ_READ);
    if (reply == ACCEPTED)
        t->kept = kept;
    return reply;
}

/* 00h so far without an address. */
static bool bare_00h(const struct plain_target *t)
{
    return t->sequence.kind == PLAIN_SEQ_READ && t->sequence.cycles == 0;
}

/* 05h: with the parameter page open, or kept behind 70h, it moves within the page. */
static uint32_t column_command(struct plain_target *t)
{
    bool kept = status_open(t) && t->kept.kind == PLAIN_OUT_PARAMETERS;
    bool open = t->output.kind == PLAIN_OUT_PARAMETERS
        && ERR(74, t->output.next < PLAIN_COPIES_END, true);
    if (ERR(75, bare_00h(t), false))
        close_sequence(t);
    uint32_t reply = first_command(t, PLAIN_SEQ_COLUMN);
    if (reply == ACCEPTED)
        t->sequence.in_page = open || ERR(73, false, kept);
    return reply;
}

/* 78h: its row decides whether what is kept stays. */
static uint32_t lun_status_command(struct plain_target *t)
{
    struct plain_output kept = behind_status(t);
    uint32_t reply = first_command(t, PLAIN_SEQ_STATUS);
    if (reply == ACCEPTED && ERR(67, false, true))
        t->kept = kept;
    return reply;
}

/* 90h, ECh, EEh, EFh: all LUNs ready. */
static uint32_t quiet_command(struct plain_target *t, uint8_t kind)
{
    bool works = any_works(t);
    if (works && ERR(13, true, t->sequence.kind == PLAIN_SEQ_NONE))
        return REFUSED(6);
    return first_command(t, kind);
}

static uint32_t status_command(struct plain_target *t)
{
    if (t->sequence.kind != PLAIN_SEQ_NONE)
        return REFUSED(3);
    if (other_works(t, t->selected))
        return REFUSED(6);
    t->kept = behind_status(t);
    open_output(t, PLAIN_OUT_STATUS, t->selected, 0);
    return ACCEPTED;
}

static uint32_t program_command(struct plain_target *t, const struct lent *b)
{
    if (ERR(22, !t->line_high, false) && t->sequence.kind == PLAIN_SEQ_NONE)
        return REFUSED(7);
    uint32_t reply = first_command(t, PLAIN_SEQ_PROGRAM);
    if (reply == ACCEPTED && ERR(1, true, ERR(2, false, !t->program_clear)))
        memset(b->registers, 0xFF, b->registers_len);
    return reply;
}

/* True where all addresses of this sequence are there. */
static bool complete(const struct plain_target *t, uint8_t kind)
{
    return t->sequence.kind == kind && t->sequence.cycles == shapes[kind].cycles;
}

/* A program of either kind, all its addresses there. */
static bool takes_data(const struct plain_target *t)
{
    return complete(t, PLAIN_SEQ_PROGRAM) || complete(t, PLAIN_SEQ_COPYBACK);
}

/* 30h; and 35h, which reads as 30h does and opens a copyback on the LUN. */
static uint32_t read_start(struct plain_target *t, const struct lent *b, bool copyback)
{
    if (!complete(t, PLAIN_SEQ_READ))
        return REFUSED(3);
    struct plain_sequence s = t->sequence;
    struct plain_lun *l = &t->lun[s.lun];
    size_t page = block_index(t, s.lun, s.block) * t->pages + s.page;
    memcpy(register_of(t, b, s.lun), b->array + page * t->page_size, t->page_size);
    start_work(t, s.lun, l->fail && (ERR(15, true, false) || ERR(53, copyback, false)));
    open_output(t, PLAIN_OUT_REGISTER, s.lun, s.column);
    l->copyback = copyback || ERR(45, l->copyback, false);
    return ACCEPTED;
}

/* Page order: without feature bit 2 no page is programmed below one of its block that has been. The counts as they are
 * now decide; the page's own count is the other rule's. */
static bool out_of_order(const struct plain_target *t, const struct lent *b, const struct plain_sequence *s)
{
    size_t block = block_index(t, s->lun, s->block);
    const uint8_t *counts = b->counts + ERR(79, (block + 1) % b->flags_len, block) * t->pages;
    uint32_t from = ERR(77, s->page, ERR(78, 0, s->page + 1));
    uint32_t end = ERR(81, t->pages - 1, ERR(84, s->page + 2 < t->pages ? s->page + 2 : t->pages, t->pages));
    if (ERR(80, !has(t->features, FEATURE_ANY_ORDER), ERR(85, false, has(t->features, FEATURE_ANY_ORDER))))
        return false;
    for (uint32_t page = from; page < end; page++)
        if (counts[page] > ERR(86, 1, 0) && ERR(78, page != s->page, true))
            return true;
    return false;
}

static uint32_t program_start(struct plain_target *t, const struct lent *b)
{
    if (!takes_data(t) && ERR(27, t->sequence.kind != PLAIN_SEQ_MOVE, true))
        return REFUSED(3);
    struct plain_sequence s = t->sequence;
    bool copyback = s.kind == PLAIN_SEQ_COPYBACK;
    if (ERR(55, !t->line_high && copyback, false))
        t->lun[s.lun].copyback = false;
    size_t block = block_index(t, s.lun, s.block);
    size_t page = block * t->pages + s.page;
    bool blank = unwritten(b->counts + block * t->pages, t->pages);
    if (ERR(105, !t->line_high && blank, false))
        one_blank_less(t, s.lun);
    if (!t->line_high)
        return REFUSED(7);
    bool late = out_of_order(t, b, &s) && ERR(82, !copyback, true);
    bool fail = b->flags[block] != 0
        || b->counts[page] >= ERR(9, t->programs + 1, t->programs)
        || late;
    if (!fail || ERR(83, late && b->counts[page] < t->programs && b->flags[block] == 0, false)) {
        uint8_t *cells = b->array + page * t->page_size;
        const uint8_t *from = register_of(t, b, s.lun);
        for (uint32_t i = 0; i < t->page_size; i++)
            cells[i] = ERR(3, from[i], cells[i] & from[i]);
        b->counts[page]++;
    }
    if (ERR(89, fail, false) || (!fail && ERR(92, true, ERR(93, b->counts[page] == 1, blank))
                                 && ERR(87, false, true) && ERR(94, !copyback, true)))
        one_blank_less(t, s.lun);
    if (ERR(104, true, false))
        t->lun[s.lun].blank = plain_blank_walk(t, s.lun, b->counts, b->flags);
    if (copyback && ERR(39, false, true) && ERR(48, !fail, true))
        t->lun[s.lun].copyback = false;
    start_work(t, s.lun, fail);
    return ACCEPTED;
}

static uint32_t erase_start(struct plain_target *t, const struct lent *b)
{
    if (!complete(t, PLAIN_SEQ_ERASE))
        return REFUSED(3);
    struct plain_sequence s = t->sequence;
    size_t block = block_index(t, s.lun, s.block);
    bool blank = unwritten(b->counts + block * t->pages, t->pages);
    if (ERR(105, !t->line_high && !blank, false))
        one_blank_more(t, s.lun);
    if (!t->line_high)
        return REFUSED(7);
    bool fail = b->flags[block] != 0;
    if (!fail) {
        size_t bytes = (size_t)t->pages * t->page_size;
        memset(b->array + block * bytes, 0xFF, bytes);
        if (ERR(23, false, true))
            memset(b->counts + block * t->pages, 0, t->pages);
    }
    if (ERR(90, fail, false) || (!fail && ERR(99, true, !blank) && ERR(88, false, true)))
        one_blank_more(t, s.lun);
    if (ERR(104, true, false))
        t->lun[s.lun].blank = plain_blank_walk(t, s.lun, b->counts, b->flags);
    t->lun[s.lun].copyback = ERR(46, t->lun[s.lun].copyback, false);
    start_work(t, s.lun, fail);
    return ACCEPTED;
}

static uint32_t output_start(struct plain_target *t)
{
    if (complete(t, PLAIN_SEQ_COLUMN) && t->sequence.in_page)
        open_output(t, PLAIN_OUT_PARAMETERS, 0, t->sequence.column);
    else if (complete(t, PLAIN_SEQ_COLUMN))
        open_output(t, PLAIN_OUT_REGISTER, ERR(35, 0, t->selected), t->sequence.column);
    else if (complete(t, PLAIN_SEQ_LUN_COLUMN))
        open_output(t, PLAIN_OUT_REGISTER, t->sequence.lun, t->sequence.column);
    else
        return REFUSED(3);
    return ACCEPTED;
}

/* 85h inside a program that takes data. */
static uint32_t move_command(struct plain_target *t)
{
    t->sequence.first = t->sequence.kind == PLAIN_SEQ_COPYBACK ? 0x85 : 0x80;
    t->sequence.kind = PLAIN_SEQ_MOVE;
    t->sequence.cycles = 0;
    return ACCEPTED;
}

/* 85h elsewhere: the option is asked for only where it would be a first command. */
static uint32_t copyback_command(struct plain_target *t, const struct lent *b)
{
    if (t->sequence.kind == PLAIN_SEQ_NONE && !has(t->optional, OPTION_COPYBACK) && ERR(56, false, true))
        return REFUSED(ERR(49, 3, 1));
    uint32_t reply = first_command(t, PLAIN_SEQ_COPYBACK);
    if (reply == ACCEPTED && ERR(54, !t->program_clear, false))
        memset(b->registers, 0xFF, b->registers_len);
    return reply;
}

static uint32_t reset(struct plain_target *t, const struct lent *b)
{
    memset(b->registers, 0xFF, b->registers_len);
    for (uint32_t l = 0; l < t->luns; l++) {        /* the counts stay, and so does the number of blank blocks */
        t->lun[l].working = false;
        t->lun[l].fail = false;
        t->lun[l].copyback = ERR(47, t->lun[l].copyback, false);
        if (ERR(95, true, ERR(96, true, false)))
            t->lun[l].blank = ERR(95, t->blocks, 0);
    }
    close_sequence(t);
    t->output = (struct plain_output){0};
    if (ERR(72, false, true))
        forget(t);
    t->program_clear = ERR(17, t->program_clear, false);
    t->selected = ERR(16, t->selected, 0);
    t->reset_seen = true;
    return ACCEPTED;
}

static uint32_t command(struct plain_target *t, const struct lent *b, uint8_t c)
{
    switch (c) {
    case 0x00: return read_command(t);
    case 0x05: return column_command(t);
    case 0x06: if (!has(t->optional, OPTION_06H)) break;
               return first_command(t, PLAIN_SEQ_LUN_COLUMN);
    case 0x10: return program_start(t, b);
    case 0x30: return read_start(t, b, false);
    case 0x35: if (!has(t->optional, OPTION_COPYBACK) && ERR(42, false, true)) break;
               return read_start(t, b, true);
    case 0x60: return first_command(t, PLAIN_SEQ_ERASE);
    case 0x70: return status_command(t);
    case 0x78: if (!has(t->optional, OPTION_78H)) break;
               return lun_status_command(t);
    case 0x80: return program_command(t, b);
    case 0x85: if (!takes_data(t)) return copyback_command(t, b);
               if (ERR(50, !has(t->optional, OPTION_COPYBACK), false)) break;
               return move_command(t);
    case 0x90: return quiet_command(t, PLAIN_SEQ_ID);
    case 0xD0: return erase_start(t, b);
    case 0xE0: return output_start(t);
    case 0xEC: return quiet_command(t, PLAIN_SEQ_PARAMETERS);
    case 0xEE: if (!has(t->optional, OPTION_FEATURES)) break;
               return quiet_command(t, PLAIN_SEQ_GET);
    case 0xEF: if (!has(t->optional, OPTION_FEATURES)) break;
               return quiet_command(t, PLAIN_SEQ_SET);
    case 0xFF: return reset(t, b);
    }
    return REFUSED(ERR(11, t->sequence.kind != PLAIN_SEQ_NONE ? 3 : 1, 1));
}

/* ---- Address cycles ---- */

/* The fewest bits that hold every number below n. */
static unsigned width(uint32_t n)
{
    unsigned bits = 0;
    while ((UINT32_C(1) << bits) < n)
        bits++;
    return bits;
}

/* Page bits, block bits, and all the rest is the LUN. */
static void split_row(const struct plain_target *t, struct plain_sequence *s)
{
    unsigned page_bits = width(t->pages), block_bits = width(t->blocks);
    s->page = s->row & ((UINT32_C(1) << page_bits) - 1);
    s->block = s->row >> page_bits & ((UINT32_C(1) << block_bits) - 1);
    s->lun = s->row >> (page_bits + block_bits);
    if (ERR(4, true, false)) {
        s->page = s->row % t->pages;
        s->block = s->row / t->pages % t->blocks;
        s->lun = s->row / t->pages / t->blocks;
    }
    if (ERR(10, s->lun == t->luns, false))
        s->lun = t->luns - 1;
}

/* 80h's row, accepted: it closes the LUN's copyback, and with program-clear on fills its register. */
static void program_row(struct plain_target *t, const struct lent *b)
{
    uint32_t lun = t->sequence.lun;
    for (uint32_t l = 0; l < t->luns; l++)
        if (l == lun || ERR(40, true, false))
            t->lun[l].copyback = false;
    if (ERR(2, true, t->program_clear))
        memset(register_of(t, b, lun), 0xFF, t->page_size);
}

/* 78h's row, accepted: only a register of the LUN that it names stays kept. */
static void status_row(struct plain_target *t)
{
    bool same = t->kept.kind == PLAIN_OUT_REGISTER && ERR(57, true, t->kept.lun == t->sequence.lun);
    bool page = ERR(61, t->kept.kind == PLAIN_OUT_PARAMETERS, false);
    if (!same && !page)
        forget(t);
    open_output(t, PLAIN_OUT_STATUS, t->sequence.lun, 0);
}

static uint32_t whole_row(struct plain_target *t, const struct lent *b)
{
    struct plain_sequence *s = &t->sequence;
    bool whole = s->kind == PLAIN_SEQ_READ || s->kind == PLAIN_SEQ_PROGRAM || s->kind == PLAIN_SEQ_COPYBACK;
    bool by_block = whole || s->kind == PLAIN_SEQ_ERASE || ERR(21, s->kind == PLAIN_SEQ_STATUS, false);
    bool by_page = whole || ERR(20, s->kind == PLAIN_SEQ_ERASE, false);
    split_row(t, s);
    if (s->lun >= t->luns)
        return REFUSED(4);

    bool busy = t->lun[s->lun].working && s->kind != PLAIN_SEQ_STATUS;
    if (ERR(12, busy, false))
        return REFUSED(5);
    if ((by_block && s->block >= t->blocks) || (by_page && s->page >= t->pages))
        return REFUSED(4);
    bool none_open = s->kind == PLAIN_SEQ_COPYBACK && !t->lun[s->lun].copyback;
    if (ERR(41, none_open, false))
        return REFUSED(14);
    if (ERR(25, true, false))
        t->selected = s->lun;
    if (ERR(43, busy && s->kind == PLAIN_SEQ_PROGRAM, false))
        t->lun[s->lun].copyback = false;
    if (busy)
        return REFUSED(5);
    if (ERR(51, none_open, false))
        t->selected = s->lun;
    if (none_open)
        return REFUSED(14);

    if (ERR(37, s->kind != PLAIN_SEQ_LUN_COLUMN, true))
        t->selected = s->lun;
    if (s->kind == PLAIN_SEQ_STATUS)
        status_row(t);
    else if (s->kind == PLAIN_SEQ_PROGRAM)
        program_row(t, b);
    else if (ERR(38, s->kind == PLAIN_SEQ_COPYBACK, false))
        memset(register_of(t, b, s->lun), 0xFF, t->page_size);
    else if (ERR(44, s->kind == PLAIN_SEQ_ERASE, false))
        t->lun[s->lun].copyback = false;
    return ACCEPTED;
}

static uint32_t whole_column(struct plain_target *t)
{
    struct plain_sequence *s = &t->sequence;
    bool busy = s->kind == PLAIN_SEQ_COLUMN && !s->in_page && t->lun[t->selected].working;
    if (ERR(12, busy, false))
        return REFUSED(5);
    if (!column_exists(t, s))
        return REFUSED(4);
    if (busy)
        return REFUSED(5);
    if (s->kind == PLAIN_SEQ_MOVE) {    /* back to its program, at the new place */
        s->kind = s->first == 0x85 && ERR(52, false, true) ? PLAIN_SEQ_COPYBACK : PLAIN_SEQ_PROGRAM;
        s->cycles = shapes[s->kind].cycles;
        s->first = 0;
    }
    return ACCEPTED;
}

/* The one address of 90h, ECh, EEh, EFh. */
static uint32_t short_address(struct plain_target *t, uint8_t v)
{
    switch (t->sequence.kind) {
    case PLAIN_SEQ_ID:
        if (v != 0x00 && v != 0x20)
            return REFUSED(4);
        open_output(t, v == 0x00 ? PLAIN_OUT_IDS : PLAIN_OUT_SIGNATURE, 0, 0);
        return ACCEPTED;
    case PLAIN_SEQ_PARAMETERS:
        if (v != 0x00)
            return REFUSED(4);
        open_output(t, PLAIN_OUT_PARAMETERS, 0, 0);
        return ACCEPTED;
    case PLAIN_SEQ_GET:
        if (v != 0x01)
            return REFUSED(4);
        open_output(t, PLAIN_OUT_FEATURE, 0, 0);
        return ACCEPTED;
    default:                            /* EFh waits for its bytes */
        return v == 0x01 ? ACCEPTED : REFUSED(4);
    }
}

static uint32_t address(struct plain_target *t, const struct lent *b, uint8_t v)
{
    struct plain_sequence *s = &t->sequence;
    const struct shape *shape = &shapes[s->kind];
    unsigned n = s->cycles;
    if (n == shape->cycles)
        return REFUSED(3);
    if (bare_00h(t) && ERR(64, false, true))
        forget(t);                      /* it is a plain read */
    s->cycles++;
    if (shape->cycles == 1)
        return short_address(t, v);
    if (n < shape->columns) {
        s->column = n == 0 ? v : s->column | (uint32_t)v << 8;
        return n == 0 ? ACCEPTED : whole_column(t);
    }
    n -= shape->columns;
    s->row = n == 0 ? v : s->row | (uint32_t)v << (8 * n);
    return n < 2 ? ACCEPTED : whole_row(t, b);
}

/* ---- Data ---- */

static uint32_t feature_byte(struct plain_target *t, uint8_t v)
{
    struct plain_sequence *s = &t->sequence;
    bool offered = v == 0 || (s->given == 0 && v == 0x40 && has(t->features, FEATURE_CLEAR));
    if (!offered)
        return REFUSED(9);
    if (s->given == 0)
        s->p1 = v;
    s->given++;
    if (ERR(24, true, s->given == 4))
        t->program_clear = s->p1 == 0x40;
    if (s->given == 4)
        close_sequence(t);
    return ACCEPTED;
}

static uint32_t data_in(struct plain_target *t, const struct lent *b, uint8_t v)
{
    struct plain_sequence *s = &t->sequence;
    if (takes_data(t)) {
        if (s->column >= t->page_size)
            return ERR(7, ACCEPTED, REFUSED(8));
        register_of(t, b, s->lun)[s->column++] = v;
        return ACCEPTED;
    }
    if (complete(t, PLAIN_SEQ_SET))
        return feature_byte(t, v);
    return REFUSED(3);
}

/* Data out after a bare 00h: what was kept is the open output again. */
static void go_on(struct plain_target *t)
{
    t->output = t->kept;
    if (ERR(60, true, false))
        t->output.next = 0;
    forget(t);
    close_sequence(t);
}

static uint32_t data_out(struct plain_target *t, const struct lent *b)
{
    struct plain_output *o = &t->output;
    bool resumed = bare_00h(t);
    if (resumed)
        go_on(t);
    if (t->sequence.kind != PLAIN_SEQ_NONE)
        return REFUSED(3);
    switch (o->kind) {
    case PLAIN_OUT_REGISTER:
        if (t->lun[o->lun].working && ERR(36, false, true) && ERR(68, !resumed, true))
            return REFUSED(5);
        if (o->next >= t->page_size)
            return REFUSED(8);
        return BYTE(register_of(t, b, o->lun)[o->next++]);
    case PLAIN_OUT_PARAMETERS:
        if (o->next >= ERR(8, PLAIN_COPIES_END + 1u, (uint32_t)PLAIN_COPIES_END))
            return REFUSED(8);
        return BYTE(b->page[o->next++ % PLAIN_PAGE_BYTES]);
    case PLAIN_OUT_STATUS:
        return BYTE(status_of(t, o->lun));
    case PLAIN_OUT_IDS:
        if (o->next >= 2)
            return REFUSED(8);
        return BYTE(o->next++ == 0 ? t->maker : t->device);
    case PLAIN_OUT_SIGNATURE:
        if (o->next >= 4)
            return REFUSED(8);
        return BYTE(signature[o->next++]);
    case PLAIN_OUT_FEATURE:
        if (o->next >= 4)
            return REFUSED(8);
        return BYTE(o->next++ == 0 && t->program_clear ? 0x40 : 0);
    default:
        return REFUSED(3);
    }
}

/* ---- Bench events ---- */

static uint32_t finish(struct plain_target *t, const struct lent *b, uint8_t lun)
{
    if (lun >= t->luns || !t->lun[lun].working)
        return REFUSED(10);
    if (ERR(87, true, ERR(88, true, false)))
        t->lun[lun].blank = plain_blank_walk(t, lun, b->counts, b->flags);
    t->lun[ERR(14, t->selected, lun)].working = false;
    if (ERR(31, true, false))
        t->output = (struct plain_output){0};
    return ACCEPTED;
}

static uint32_t protect(struct plain_target *t, uint8_t level)
{
    bool high = level == 1;
    if (level > 1)
        return REFUSED(12);
    bool open = t->sequence.kind != PLAIN_SEQ_NONE && ERR(69, !bare_00h(t), true);
    if ((any_works(t) || open) && ERR(30, t->line_high != high, true))
        return REFUSED(11);
    t->line_high = high;
    return ACCEPTED;
}

/* ---- One event on a usable target ---- */

static uint32_t bus_cycle(struct plain_target *t, const struct lent *b, uint8_t kind, uint8_t value)
{
    if (!t->reset_seen && !(kind == 0 && value == 0xFF))
        return REFUSED(2);
    switch (kind) {
    case 0: return command(t, b, value);
    case 1: return address(t, b, value);
    case 2: return data_in(t, b, value);
    default: return data_out(t, b);
    }
}

static uint32_t bench_event(struct plain_target *t, const struct lent *b, uint8_t kind, uint8_t value)
{
    uint32_t reply = kind == 4 ? finish(t, b, value) : protect(t, value);
    if (ERR(62, reply != ACCEPTED, ERR(76, reply == ACCEPTED, false)))
        forget(t);
    return reply;
}

static uint32_t step(struct plain_target *t, const struct lent *b, uint8_t kind, uint8_t value)
{
    if (kind > 5 || (kind == 3 && value != 0)) {
        if (ERR(28, true, false))
            drop(t);
        if (ERR(62, true, false))
            forget(t);
        return REFUSED(12);
    }
    if (kind == 4 || kind == 5)
        return bench_event(t, b, kind, value);
    uint32_t reply = bus_cycle(t, b, kind, value);
    if (reply >= REFUSED(0))
        drop(t);
    return reply;
}

/* ---- Power-on ---- */

static uint32_t number_at(const uint8_t *page, unsigned at, unsigned bytes)
{
    uint32_t n = 0;
    for (unsigned i = 0; i < bytes; i++)
        n |= (uint32_t)page[at + i] << (8 * i);
    return n;
}

static uint16_t crc_of(const uint8_t *page)
{
    uint16_t crc = 0x4F4E;
    for (unsigned i = 0; i < 254; i++) {
        crc ^= (uint16_t)(page[i] << 8);
        for (unsigned bit = 0; bit < 8; bit++)
            crc = (uint16_t)(crc & 0x8000 ? crc << 1 ^ 0x8005 : crc << 1);
    }
    return crc;
}

/* Fields into *t; false where one is outside its limits. */
static bool take_fields(struct plain_target *t, const uint8_t *page)
{
    uint32_t data_bytes = number_at(page, 80, 4);
    uint32_t spare_bytes = number_at(page, 84, 2);

    t->pages = number_at(page, 92, 4);
    t->blocks = number_at(page, 96, 4);
    t->luns = page[100];
    t->programs = page[110];
    t->maker = page[64];
    t->features = (uint16_t)number_at(page, 6, 2);
    t->optional = (uint16_t)number_at(page, 8, 2);
    if (!in_limits(data_bytes, 16, 16384) || !in_limits(spare_bytes, 0, 2048))
        return false;
    t->page_size = data_bytes + spare_bytes;

    return geometry_usable(t) && page[101] == 0x23;
}

static bool contents_fit(const struct plain_target *t,
                         const uint8_t *counts, size_t counts_len,
                         const uint8_t *flags, size_t flags_len)
{
    for (size_t i = 0; i < counts_len; i++)
        if (counts[i] > t->programs)
            return false;
    for (size_t i = 0; i < flags_len; i++)
        if (flags[i] > ERR(34, 255, 1))
            return false;
    return true;
}

uint32_t plain_power_on(struct plain_target *t,
                        const uint8_t *page, size_t page_len, uint8_t device_id,
                        const uint8_t *array, size_t array_len,
                        uint8_t *registers, size_t registers_len,
                        const uint8_t *counts, size_t counts_len,
                        const uint8_t *flags, size_t flags_len)
{
    struct lent lens = {.page_len = page_len, .array_len = array_len,
                        .registers_len = registers_len,
                        .counts_len = counts_len, .flags_len = flags_len};
    struct plain_target n = {0};

    (void)array;                        /* its bytes decide nothing */
    memset(t, 0, sizeof *t);
    if (page_len != PLAIN_PAGE_BYTES)
        return 20;
    if (memcmp(page, signature, sizeof signature) != 0)
        return 21;
    if (crc_of(page) != number_at(page, 254, 2))
        return 22;
    if (!take_fields(&n, page))
        return 23;
    if (!lengths_fit(&n, &lens))
        return 24;
    if (!contents_fit(&n, counts, counts_len, flags, flags_len))
        return 25;

    memset(registers, 0xFF, registers_len);
    n.powered = true;
    n.device = device_id;
    n.line_high = true;
    for (uint32_t l = 0; l < n.luns; l++)
        n.lun[l].blank = plain_blank_walk(&n, l, counts, flags);
    *t = n;
    return 0;
}

/* ---- The other calls ---- */

uint32_t plain_event(struct plain_target *t, uint8_t kind, uint8_t value,
                     const uint8_t *page, size_t page_len,
                     uint8_t *array, size_t array_len,
                     uint8_t *registers, size_t registers_len,
                     uint8_t *counts, size_t counts_len,
                     const uint8_t *flags, size_t flags_len)
{
    struct lent b = {page, array, registers, counts, flags,
                     page_len, array_len, registers_len, counts_len, flags_len};
    if (!usable(t, &b))
        return REFUSED(13);
    return step(t, &b, kind, value);
}

uint32_t plain_trace(struct plain_target *t, const uint8_t *records, size_t n,
                     uint8_t *replies, size_t room,
                     const uint8_t *page, size_t page_len,
                     uint8_t *array, size_t array_len,
                     uint8_t *registers, size_t registers_len,
                     uint8_t *counts, size_t counts_len,
                     const uint8_t *flags, size_t flags_len)
{
    struct lent b = {page, array, registers, counts, flags,
                     page_len, array_len, registers_len, counts_len, flags_len};
    size_t whole = n / 2, odd = n % 2;

    if (room / 2 < whole + ERR(29, 0, odd))
        return 16;
    /* Once is enough: a step keeps a usable target usable, and [13] changes nothing. */
    bool ok = usable(t, &b);
    for (size_t i = 0; i < whole; i++) {
        uint32_t reply = ok ? step(t, &b, records[2 * i], records[2 * i + 1]) : REFUSED(13);
        replies[2 * i] = (uint8_t)(reply >> 8);
        replies[2 * i + 1] = (uint8_t)reply;
    }
    if (odd && ERR(29, room / 2 > whole, true)) {
        replies[2 * whole] = 2;
        replies[2 * whole + 1] = ERR(19, false, ok) ? 12 : 13;
    }
    return 0;
}

uint32_t plain_rest(const struct plain_target *t, size_t page_len, size_t registers_len,
                    size_t *start, size_t *length)
{
    bool behind = ERR(70, t->output.kind == PLAIN_OUT_STATUS, ERR(71, bare_00h(t), false));
    const struct plain_output *o = behind ? &t->kept : &t->output;

    *start = 0;
    *length = 0;
    if (!record_usable(t) || page_len != PLAIN_PAGE_BYTES
        || registers_len != (uint64_t)t->luns * t->page_size)
        return 0;
    if (t->sequence.kind != PLAIN_SEQ_NONE && ERR(71, !bare_00h(t), true))
        return 0;
    if (o->kind == PLAIN_OUT_REGISTER && !t->lun[o->lun].working && o->next < t->page_size) {
        *start = (size_t)o->lun * t->page_size + o->next;
        *length = t->page_size - o->next;
        return 1;
    }
    if (o->kind == PLAIN_OUT_PARAMETERS && o->next < PLAIN_COPIES_END) {
        if (ERR(32, o->next != 0 && o->next % PLAIN_PAGE_BYTES == 0, false))
            return 0;
        *start = o->next % PLAIN_PAGE_BYTES;
        *length = PLAIN_PAGE_BYTES - *start;
        return 2;
    }
    return 0;
}
