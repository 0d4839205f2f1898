/* Nibtoggle: a proved bench model of an ONFI NAND flash target, for C and C++.
 *
 * Bus cycles go in; replies, status and array contents come out. docs/MODEL.md of the repository has all of the
 * model's rules: events and replies, the commands, addresses, refusals, and what a driver meets.
 *
 * The functions below that are not inline are compiled from proved code: what they answer, and every byte that they
 * leave in the record and in the buffers, is settled by definitions (docs/STATEMENTS.md names them); of those that
 * write text or words, at the end, only how many bytes they write at most is. They allocate nothing, keep nothing
 * between calls, read no clock and call nothing but memcpy, memmove, memset and the like of the C library, so any
 * number of targets may be used at once, each by one thread at a time.
 *
 * WHAT THE CALLER LENDS. A target is a record (nib_target) and five buffers, all the caller's own:
 *
 *   page        256 parameter bytes, as the part gives them for ECh; they say how large all the rest is
 *   array       LUNs * blocks * pages * P bytes, P being data plus spare bytes of a page; in order of LUN, block, page
 *   registers   LUNs * P bytes, one page register for each LUN
 *   counts      LUNs * blocks * pages bytes, how often each page was programmed since its block was erased
 *   flags       LUNs * blocks bytes, 0 a good block, 1 a factory bad one
 *
 * nib_part_of() below gives the part from the parameter bytes, and nib_array_length(), nib_registers_length(),
 * nib_counts_length() and nib_flags_length() give these numbers from the part.
 *
 * WHAT THE CALLER OWES, and nothing else. Of each pointer and the length after it: that many bytes are there,
 * readable, and writable where the pointer is not const; the record is a whole nib_target, aligned as its type
 * asks. The record and the buffers that a call may write (registers at power-on; array, registers, counts and
 * replies otherwise; a job's room and numbers) overlap nothing else that the same call is lent. A pointer may be NULL
 * where its length is 0;
 * t is never NULL. No other thread writes to any of it during a call. The bytes must last for one call only, and
 * may lie elsewhere at the next one.
 *
 * What the bytes hold, and how long the buffers are, is NOT owed: any bytes in the record, and any lengths, are
 * answered. A record that no state packs to, or a length that is not what the record's geometry gives, is refusal
 * 13, and changes nothing. */
#ifndef NIBTOGGLE_H
#define NIBTOGGLE_H

#include <stddef.h>
#include <stdint.h>

#ifdef __cplusplus
extern "C" {
#endif

/* The version of this header; nib_version() is that of the library, and has the same number: major, minor and patch,
 * a byte each. While major is 0, a change of minor may change the record. */
#define NIB_VERSION "0.6.1"
#define NIB_VERSION_NUMBER UINT32_C(1537)
uint32_t nib_version(void);

/* ---- The record ----
 *
 * Plain numbers: it may be copied, stored, compared byte by byte (padding aside) and written to a file for the same
 * kind of machine. A new record is made by nib_power_on, which reads nothing of what was there before. Reading it is
 * welcome; whoever writes to it gets 13, or a target in the state that was written. 136 bytes where size_t has 8. */
typedef struct nib_target {
    /* The part, as its page says. */
    uint16_t data_bytes;    /* of a page: 16 to 16384 */
    uint16_t spare_bytes;   /* of a page: 0 to 2048 */
    uint16_t features;      /* features supported: bytes 6 and 7, of which enum nib_feature names bits */
    uint16_t optional_commands;     /* optional commands supported: bytes 8 and 9; enum nib_optional names bits */
    size_t pages;           /* a block */
    size_t blocks;          /* a LUN */
    size_t luns;            /* 1 to 4 */
    size_t programs;        /* a page, between erases: 1 to 8 */
    /* Where it stands. */
    size_t selected;        /* LUN of the last accepted row address; 0 after FFh */
    size_t column, row;     /* of the open sequence; 0 where it has none */
    size_t output_lun;      /* LUN whose register or status comes out; 0 where the output has none */
    size_t output_at;       /* place of the next byte that comes out; 0 where the output has none */
    size_t kept_lun;        /* the same two of the output that is kept behind a status */
    size_t kept_at;
    /* 0 or 1, each of them, down to fail; and copyback below. */
    uint8_t powered;        /* 0: every event is refused with 13 */
    uint8_t high;           /* the protect line is high: programs and erases are allowed */
    uint8_t clear;          /* program-clear is on: 80h clears the addressed LUN's register alone */
    uint8_t seen;           /* the first FFh has come */
    uint8_t working[4];     /* by LUN: from 30h, 35h, 10h or D0h to its finish event */
    uint8_t fail[4];        /* by LUN: the last program or erase failed: it was accepted, and did not proceed. A program
                               does not on a bad block, on a page programmed as often as it may be, and out of page
                               order (NIB_FEATURE_ANY_ORDER); an erase does not on a bad block */
    /* ID bytes, as 90h with 00h gives them. */
    uint8_t maker, device;
    /* The open sequence. */
    uint8_t sequence;       /* enum nib_sequence */
    uint8_t first;          /* enum nib_first: the command that opened it; 0 where it names none */
    uint8_t got;            /* address cycles or feature bytes of it that have come */
    uint8_t low, mid;       /* the bytes of a half-given address */
    uint8_t value;          /* the first byte of a half-given feature */
    uint8_t output;         /* enum nib_output: what data-out cycles give */
    uint8_t copyback[4];    /* by LUN: 35h has read a page, and 85h may program it */
    uint8_t kept;           /* enum nib_output: what was open before a status, for 00h and data out to go on with; never
                               a status */
    uint16_t blank[4];      /* by LUN: how many blocks have all counts 0 and are not bad; 0 for a LUN that is not there.
                               Counted at power-on and kept from then on: it moves at 10h and D0h, where they proceed,
                               and not at the finish. Counts or flags that the caller writes to are not counted again
                               before the next power-on */
} nib_target;

/* Features supported, bits of bytes 6 and 7 of the parameter bytes. */
enum nib_feature {
    NIB_FEATURE_WIDE_BUS = 1 << 0,          /* 16 bits: the model has no such part */
    NIB_FEATURE_MORE_LUNS = 1 << 1,         /* more LUNs than one */
    NIB_FEATURE_ANY_ORDER = 1 << 2,         /* a block's pages may be programmed in any order; without it a 10h for a
                                               page below one of its block whose count is above 0 does not proceed,
                                               and FAIL is 1 */
    NIB_FEATURE_PROGRAM_CLEAR = 1 << 8      /* 80h may clear the addressed LUN's register alone */
};

/* Optional commands supported, bits of bytes 8 and 9. */
enum nib_optional {
    NIB_OPTIONAL_FEATURES = 1 << 2,                 /* EEh and EFh: get features, set features */
    NIB_OPTIONAL_STATUS_ENHANCED = 1 << 3,          /* 78h: read status enhanced */
    NIB_OPTIONAL_COPYBACK = 1 << 4,                 /* 35h, and 85h with no sequence open: copyback */
    NIB_OPTIONAL_CHANGE_COLUMN_ENHANCED = 1 << 6    /* 06h: change read column enhanced */
};

enum nib_first {
    NIB_FIRST_READ = 0,                     /* 00h */
    NIB_FIRST_CHANGE_COLUMN = 1,            /* 05h: change read column, of a page register */
    NIB_FIRST_CHANGE_COLUMN_ENHANCED = 2,   /* 06h: change read column enhanced */
    NIB_FIRST_ERASE = 3,                    /* 60h */
    NIB_FIRST_STATUS = 4,                   /* 70h */
    NIB_FIRST_STATUS_ENHANCED = 5,          /* 78h: read status enhanced */
    NIB_FIRST_PROGRAM = 6,                  /* 80h */
    NIB_FIRST_READ_ID = 7,                  /* 90h */
    NIB_FIRST_PARAMETER_PAGE = 8,           /* ECh */
    NIB_FIRST_GET_FEATURES = 9,             /* EEh */
    NIB_FIRST_SET_FEATURES = 10,            /* EFh */
    NIB_FIRST_COPYBACK_PROGRAM = 11,        /* 85h with no sequence open */
    NIB_FIRST_CHANGE_COLUMN_IN_PAGE = 12    /* 05h with the parameter page open, or kept behind a status: its columns
                                               are below 768 */
};

enum nib_sequence {
    NIB_SEQUENCE_NONE = 0,
    NIB_SEQUENCE_COLUMNS = 1,   /* column cycles are due */
    NIB_SEQUENCE_ROWS = 2,      /* row cycles are due */
    NIB_SEQUENCE_SINGLE = 3,    /* the one address of 90h, ECh, EEh or EFh is due */
    NIB_SEQUENCE_DUE = 4,       /* the second command is due */
    NIB_SEQUENCE_FILLING = 5,   /* a program, opened by 80h or 85h, takes data */
    NIB_SEQUENCE_MOVING = 6,    /* such a program was given 85h, and waits for its two cycles */
    NIB_SEQUENCE_SETTING = 7    /* EFh takes its four bytes */
};

enum nib_output {
    NIB_OUTPUT_NONE = 0,
    NIB_OUTPUT_REGISTER = 1,
    NIB_OUTPUT_PARAMETERS = 2,
    NIB_OUTPUT_STATUS = 3,
    NIB_OUTPUT_IDS = 4,
    NIB_OUTPUT_SIGNATURE = 5,
    NIB_OUTPUT_FEATURE = 6
};

/* ---- Events ---- */

enum nib_kind {
    NIB_COMMAND = 0,            /* value: the command byte */
    NIB_ADDRESS = 1,            /* value: the address byte; a column is two, a row three, least significant first */
    NIB_DATA_IN = 2,            /* value: the byte */
    NIB_DATA_OUT = 3,           /* value: 0 */
    NIB_FINISH = 4,             /* the bench lets a LUN finish its work; value: the LUN */
    NIB_PROTECT = 5             /* the bench sets the protect line; value: 0 low, 1 high */
};

/* ---- Replies ----
 *
 * One number, first reply byte times 256 plus the second: 0 accepted; 100h plus the byte that a data-out cycle gave;
 * 200h plus the number of the refusal. */
#define NIB_ACCEPTED UINT32_C(0)

static inline int nib_is_byte(uint32_t reply) { return reply >> 8 == 1; }
static inline int nib_is_refused(uint32_t reply) { return reply >> 8 == 2; }
static inline uint8_t nib_byte(uint32_t reply) { return (uint8_t)reply; }       /* where nib_is_byte */
static inline unsigned nib_refusal(uint32_t reply) { return nib_is_refused(reply) ? (unsigned)(reply & 0xFF) : 0u; }

enum nib_refusal_number {
    NIB_REFUSED_UNKNOWN_COMMAND = 1,    /* command byte not known, or one whose option the part does not offer */
    NIB_REFUSED_BEFORE_RESET = 2,       /* bus cycle other than FFh before the first FFh */
    NIB_REFUSED_OUT_OF_PLACE = 3,       /* known cycle that does not fit the place reached */
    NIB_REFUSED_ADDRESS = 4,            /* row, column, feature or identification address not in range */
    NIB_REFUSED_LUN_WORKING = 5,        /* the LUN that is named, or whose register is read, works */
    NIB_REFUSED_OTHER_WORKING = 6,      /* 90h, ECh, EEh, EFh: any LUN works; 70h: one that is not selected works */
    NIB_REFUSED_PROTECTED = 7,          /* 10h or D0h with the protect line low */
    NIB_REFUSED_PAST_END = 8,           /* data in or out past the end */
    NIB_REFUSED_FEATURE_BYTE = 9,       /* feature byte that is not offered */
    NIB_REFUSED_FINISH = 10,            /* finish of a LUN that does not work or does not exist */
    NIB_REFUSED_PROTECT_EVENT = 11,     /* protect event while a LUN works or a sequence is open */
    NIB_REFUSED_BAD_RECORD = 12,        /* unknown kind, data out with a value not 0, protect above 1, odd last byte */
    NIB_REFUSED_TARGET = 13,            /* not powered, or a length or a number of the record that can't be */
    NIB_REFUSED_NO_COPYBACK = 14,       /* 85h's row: no copyback is open on its LUN */
    NIB_REFUSED_ROOM = 16,              /* a trace's reply room is too short; nothing changes */
    NIB_REFUSED_PAGE_LENGTH = 20,       /* power-on: the parameter bytes are not 256 */
    NIB_REFUSED_SIGNATURE = 21,         /* power-on: they don't start with "ONFI" */
    NIB_REFUSED_CRC = 22,               /* power-on */
    NIB_REFUSED_FIELD = 23,             /* power-on: a field outside the model's limits */
    NIB_REFUSED_BUFFER_LENGTH = 24,     /* power-on: array, registers, counts or flags */
    NIB_REFUSED_CONTENTS = 25           /* power-on: a count above programs a page, or a flag above 1 */
};

/* The rule of a refusal number in words, for messages; "" where there is none. */
static inline const char *nib_words(unsigned refusal)
{
    switch (refusal) {
    case 1: return "command byte not known, or not offered by this part";
    case 2: return "bus cycle other than FFh before the first FFh";
    case 3: return "known cycle that doesn't fit the place reached";
    case 4: return "row, column, feature or identification address not in range";
    case 5: return "the LUN is working";
    case 6: return "a LUN is working; for 70h, one other than the selected LUN";
    case 7: return "10h or D0h with the protect line low";
    case 8: return "data in or out past the end";
    case 9: return "feature byte not offered";
    case 10: return "finish of a LUN that is not working or doesn't exist";
    case 11: return "protect event while a LUN works or a sequence is open";
    case 12: return "bad record";
    case 13: return "target not powered, or a length or a number of the record that can't be";
    case 14: return "no copyback is open there";
    case 16: return "reply room too short";
    case 20: return "the parameter bytes are not 256";
    case 21: return "the parameter bytes don't start with ONFI";
    case 22: return "the CRC is not that of the parameter bytes";
    case 23: return "a field of the parameter bytes is outside its limits";
    case 24: return "a buffer's length is not what the parameter bytes give";
    case 25: return "a count above programs a page, or a flag above 1";
    default: return "";
    }
}

/* ---- The functions ---- */

/* An answer that is not looked at is warned of, where the compiler can: power-on may be refused, and a trace not
 * run. */
#if defined(__GNUC__)
#define NIB_LOOK __attribute__((warn_unused_result))
#else
#define NIB_LOOK
#endif

/* Power-on. Answers 0, or the refusal, 20 to 25 (a plain number here, with no 200h). Whatever *t held before is
 * replaced: by the first record of a powered target where the answer is 0, and by an unpowered one, all numbers 0,
 * where it is not. On success the registers are filled with FFh; no other lent byte ever changes, and none at all
 * on a refusal. device_id is the second byte that 90h with 00h gives (the first stands in the parameter bytes). The
 * array's bytes are not looked at. */
NIB_LOOK
uint32_t nib_power_on(nib_target *t, const uint8_t *page, size_t page_length, uint8_t device_id,
                      const uint8_t *array, size_t array_length, uint8_t *registers, size_t registers_length,
                      const uint8_t *counts, size_t counts_length, const uint8_t *flags, size_t flags_length);

/* One event. Answers its reply, as above. A refused bus cycle drops the open sequence and ends the output, and
 * changes nothing else; a refused bench event (finish, protect), 12 and 13 change nothing at all. */
uint32_t nib_event(nib_target *t, uint8_t kind, uint8_t value, const uint8_t *page, size_t page_length,
                   uint8_t *array, size_t array_length, uint8_t *registers, size_t registers_length,
                   uint8_t *counts, size_t counts_length, const uint8_t *flags, size_t flags_length);

/* A trace: two-byte records, kind and value, one event each, and two reply bytes for each, the first and the
 * second. Refusals do not stop it. An odd last byte is a record with a reply of its own (12, or 13). Answers 0; or
 * 16 where replies_length is less than nib_replies_length(records_length), and then nothing is run and nothing
 * changes. Reply bytes past those needed stay as they are. Record, buffers and replies are what nib_event gives
 * record by record; a trace is the quick way for many. */
NIB_LOOK
uint32_t nib_trace(nib_target *t, const uint8_t *records, size_t records_length,
                   uint8_t *replies, size_t replies_length, const uint8_t *page, size_t page_length,
                   uint8_t *array, size_t array_length,
                   uint8_t *registers, size_t registers_length, uint8_t *counts, size_t counts_length,
                   const uint8_t *flags, size_t flags_length);

/* The unread rest of the output, as a part of a lent buffer: the bytes that the next data-out cycles would give, up
 * to the end of the register or of the present copy of the parameter page. One number: which buffer, times 2^60,
 * plus where the part starts in it, times 2^30, plus its length. Buffer 1 is registers, 2 the parameter bytes, 0
 * none: no such output is open (nor is it behind a status, or after a bare 00h until its data out), the register's
 * LUN works, all has been read, or the record, page_length or registers_length is refused by 13; start and length are
 * then 0. Changes nothing. */
uint64_t nib_rest(const nib_target *t, const uint8_t *page, size_t page_length,
                  const uint8_t *registers, size_t registers_length);

enum nib_rest_of { NIB_REST_NONE = 0, NIB_REST_REGISTERS = 1, NIB_REST_PARAMETERS = 2 };

static inline unsigned nib_rest_buffer(uint64_t rest) { return (unsigned)(rest >> 60); }
static inline size_t nib_rest_start(uint64_t rest) { return (size_t)(rest >> 30 & 0x3FFFFFFF); }
static inline size_t nib_rest_length(uint64_t rest) { return (size_t)(rest & 0x3FFFFFFF); }

/* ---- Whole jobs ----
 *
 * The records of a job written, and records grouped back into jobs, by proved code: nobody has to put cycles together
 * by hand. Row and column are plain numbers; nib_row() below gives a row. No function here needs a target.
 *
 *   NIB_JOB_READ       00h, five addresses, 30h                       14 bytes of records
 *   NIB_JOB_READ_OUT   06h, five addresses, E0h, count data out       14 + 2 * count
 *   NIB_JOB_PROGRAM    80h, five addresses, the bytes as data in, 10h 14 + 2 * bytes_length
 *   NIB_JOB_ERASE      60h, three addresses, D0h                      10
 *   NIB_JOB_STATUS     78h, three addresses, count data out           8 + 2 * count */
enum nib_job_kind {
    NIB_JOB_END = 0,            /* nib_job_read: no record at that place */
    NIB_JOB_READ = 1,
    NIB_JOB_READ_OUT = 2,
    NIB_JOB_PROGRAM = 3,
    NIB_JOB_ERASE = 4,
    NIB_JOB_STATUS = 5,
    NIB_JOB_MISFIT = 6          /* nib_job_read: no whole job stands there */
};

enum nib_job_answer {
    NIB_JOB_NO_SUCH = 0,        /* kind is none of the five */
    NIB_JOB_TOO_WIDE = 1,       /* a row above 24 bits or a column above 16; said before the room is looked at */
    NIB_JOB_TOO_SMALL = 2       /* room_length is less than the records take */
};

/* The job's records, at the front of the room. Answers how many bytes they are (8 at least), or one of the three
 * above, and then nothing is written. Room past the records stays as it is. What a job does not have (the column of
 * an erase, the count of a read, the bytes of another job than a program) is not looked at. */
size_t nib_job_write(uint8_t kind, size_t column, size_t row, size_t count, const uint8_t *bytes, size_t bytes_length,
                     uint8_t *room, size_t room_length);

/* What stands at record number `at` of a list of records, in NIB_JOB_NUMBERS numbers, as nib_job_found has them.
 * Answers the first of them, nib_job_kind; or 7 where numbers_length is less than that, and then nothing is written.
 * Reading what was written gives the job back; all data out belongs to the read-out or status before it. An 85h move,
 * a finish event and every other cycle is a misfit. */
size_t nib_job_read(const uint8_t *records, size_t records_length, size_t at, size_t *numbers, size_t numbers_length);

enum { NIB_JOB_NUMBERS = 6 };

typedef struct nib_job_found {
    size_t kind;                /* enum nib_job_kind */
    size_t column, row;
    size_t count;               /* data cycles: out for a read-out or a status, in for a program */
    size_t place;               /* a program's bytes are the values of count records, from record number place on */
    size_t next;                /* the place after the job; of a misfit the first record that does not fit, or the place
                                   after the last where the list stops inside the job */
} nib_job_found;

/* The first record of a list that does not fit, or the place after the last where it stops inside a job;
 * NIB_JOB_NO_MISFIT where the list is whole jobs, none or more. */
size_t nib_job_misfit(const uint8_t *records, size_t records_length);

#define NIB_JOB_NO_MISFIT SIZE_MAX

static inline nib_job_found nib_job_at(const uint8_t *records, size_t records_length, size_t at)
{
    size_t n[NIB_JOB_NUMBERS];
    nib_job_found f;
    nib_job_read(records, records_length, at, n, NIB_JOB_NUMBERS);
    f.kind = n[0];
    f.column = n[1];
    f.row = n[2];
    f.count = n[3];
    f.place = n[4];
    f.next = n[5];
    return f;
}

/* ---- Other people's parameter pages ----
 *
 * A checker for what a part answers to ECh: 768 bytes, its parameter page three times. It looks at the first copy
 * with good signature and CRC, and lists every rule that this copy breaks, each by its first byte: 80 data bytes, 92
 * pages a block, 100 LUNs, 106 the multiplier of block endurance, 110 programs a page. Power-on has limits of its
 * own, which this doesn't look at. */
typedef struct nib_page_check {
    size_t copy;                /* the copy that is looked at, 0 to 2 */
    size_t broken;              /* how many rules it breaks, 0 to 5 */
    uint8_t rules[5];           /* their bytes, in byte order; 0 past them */
    int has_endurance;          /* 0 where the multiplier, byte 106, is above 16 */
    uint64_t endurance;         /* block endurance: byte 105 times ten to byte 106; 0 where there is none */
} nib_page_check;

enum nib_check_answer {
    NIB_CHECK_DONE = 0,
    NIB_CHECK_LENGTH = 1,       /* the answer has not 768 bytes */
    NIB_CHECK_NO_GOOD_COPY = 2, /* given only where none of the three has good signature and CRC */
    NIB_CHECK_ROOM = 16         /* nib_page_report: room for fewer than NIB_REPORT_LENGTH numbers */
};

enum { NIB_ANSWER_LENGTH = 768, NIB_REPORT_LENGTH = 9 };

/* The check as plain numbers: copy, broken, five rules, has_endurance, endurance. Answers NIB_CHECK_DONE, and the
 * first nine numbers are written; or another of the above, and none is. Room past nine numbers stays as it is. */
uint32_t nib_page_report(const uint8_t *answer, size_t answer_length, uint64_t *report, size_t report_length);

/* The same as a record. *c changes only where the answer is NIB_CHECK_DONE. */
static inline uint32_t nib_check_page(nib_page_check *c, const uint8_t *answer, size_t answer_length)
{
    uint64_t n[NIB_REPORT_LENGTH];
    uint32_t found = nib_page_report(answer, answer_length, n, NIB_REPORT_LENGTH);
    if (found != NIB_CHECK_DONE)
        return found;
    c->copy = (size_t)n[0];
    c->broken = (size_t)n[1];
    for (unsigned i = 0; i < 5; i++)
        c->rules[i] = (uint8_t)n[2 + i];
    c->has_endurance = n[7] != 0;
    c->endurance = n[8];
    return found;
}

/* What stands at a rule's byte, and what it should be; "" for a byte that has no rule. */
static inline const char *nib_rule_name(uint8_t rule)
{
    switch (rule) {
    case 80: return "data bytes";
    case 92: return "pages a block";
    case 100: return "LUNs";
    case 106: return "endurance multiplier";
    case 110: return "programs a page";
    default: return "";
    }
}

static inline const char *nib_rule_words(uint8_t rule)
{
    switch (rule) {
    case 80: return "a power of two, at least 512";
    case 92: return "a multiple of 32";
    case 100: return "at least 1";
    case 106: return "at most 16";
    case 110: return "at least 1";
    default: return "";
    }
}

/* Reply bytes that a trace of so many record bytes needs. */
static inline size_t nib_replies_length(size_t records_length) { return records_length + records_length % 2; }

/* ---- Lengths from the parameter bytes ---- */

enum {
    NIB_PAGE_LENGTH = 256,      /* parameter bytes */
    NIB_MAX_LUNS = 4
};

typedef struct nib_part {
    size_t page, pages, blocks, luns;
} nib_part;

/* The part that 256 parameter bytes describe. Nothing is checked: power-on says 23 where the model has no such part. */
static inline nib_part nib_part_of(const uint8_t *page)
{
    nib_part p;
    p.page = ((size_t)page[80] | (size_t)page[81] << 8 | (size_t)page[82] << 16 | (size_t)page[83] << 24)
        + ((size_t)page[84] | (size_t)page[85] << 8);
    p.pages = (size_t)page[92] | (size_t)page[93] << 8 | (size_t)page[94] << 16 | (size_t)page[95] << 24;
    p.blocks = (size_t)page[96] | (size_t)page[97] << 8 | (size_t)page[98] << 16 | (size_t)page[99] << 24;
    p.luns = page[100];
    return p;
}

static inline size_t nib_array_length(nib_part p) { return p.luns * p.blocks * p.pages * p.page; }
static inline size_t nib_registers_length(nib_part p) { return p.luns * p.page; }
static inline size_t nib_counts_length(nib_part p) { return p.luns * p.blocks * p.pages; }
static inline size_t nib_flags_length(nib_part p) { return p.luns * p.blocks; }

/* Where a page starts in the array, and a LUN's register in the registers. */
static inline size_t nib_page_start(nib_part p, size_t lun, size_t block, size_t page)
{
    return ((lun * p.blocks + block) * p.pages + page) * p.page;
}
static inline size_t nib_register_start(nib_part p, size_t lun) { return lun * p.page; }

/* For an array that is made anew: the makers' marks of its blocks. The first spare byte of a block's first page becomes
 * 00h where its flag is set, and FFh where it is not. A part with no spare bytes has no place for them, and its array
 * stays as it is. */
static inline void nib_put_marks(const uint8_t *page, uint8_t *array, const uint8_t *flags)
{
    nib_part p = nib_part_of(page);
    size_t spare = (size_t)page[84] | (size_t)page[85] << 8;
    for (size_t i = 0; spare > 0 && i < nib_flags_length(p); i++)
        array[i * p.pages * p.page + p.page - spare] = flags[i] ? 0x00 : 0xFF;
}

/* Bits of a row address's field that holds 0 to n - 1. */
static inline unsigned nib_field_bits(size_t n)
{
    unsigned bits = 0;
    while (n > 1 && (n - 1) >> bits != 0)
        bits++;
    return bits;
}

/* The row address of a page: page bits, block bits, the rest LUN. Its three cycles are its bytes, least significant
 * first. */
static inline uint32_t nib_row(nib_part p, size_t lun, size_t block, size_t page)
{
    unsigned page_bits = nib_field_bits(p.pages), block_bits = nib_field_bits(p.blocks);
    return (uint32_t)(lun << (page_bits + block_bits) | block << page_bits | page);
}

/* Whether there is such a page. */
static inline int nib_page_exists(nib_part p, size_t lun, size_t block, size_t page)
{
    return lun < p.luns && block < p.blocks && page < p.pages;
}

/* nib_row, looked at first: 1 and *row where the page exists; 0 where it does not, and *row stays as it is. (nib_row
 * takes any numbers, and those of a page that does not exist may be another page's row.) */
static inline int nib_row_of(nib_part p, size_t lun, size_t block, size_t page, uint32_t *row)
{
    if (!nib_page_exists(p, lun, block, page))
        return 0;
    *row = nib_row(p, lun, block, page);
    return 1;
}

/* ---- All that is lent, held together: the same calls with fewer words ---- */

typedef struct nib_lent {
    const uint8_t *page;
    size_t page_length;
    uint8_t *array;
    size_t array_length;
    uint8_t *registers;
    size_t registers_length;
    uint8_t *counts;
    size_t counts_length;
    const uint8_t *flags;
    size_t flags_length;
} nib_lent;

NIB_LOOK
static inline uint32_t nib_lent_power_on(nib_target *t, const nib_lent *b, uint8_t device_id)
{
    return nib_power_on(t, b->page, b->page_length, device_id, b->array, b->array_length,
                        b->registers, b->registers_length, b->counts, b->counts_length, b->flags, b->flags_length);
}

static inline uint32_t nib_lent_event(nib_target *t, const nib_lent *b, uint8_t kind, uint8_t value)
{
    return nib_event(t, kind, value, b->page, b->page_length, b->array, b->array_length,
                     b->registers, b->registers_length, b->counts, b->counts_length, b->flags, b->flags_length);
}

NIB_LOOK
static inline uint32_t nib_lent_trace(nib_target *t, const nib_lent *b, const uint8_t *records, size_t records_length,
                                      uint8_t *replies, size_t replies_length)
{
    return nib_trace(t, records, records_length, replies, replies_length, b->page, b->page_length,
                     b->array, b->array_length, b->registers, b->registers_length, b->counts, b->counts_length,
                     b->flags, b->flags_length);
}

static inline uint64_t nib_lent_rest(const nib_target *t, const nib_lent *b)
{
    return nib_rest(t, b->page, b->page_length, b->registers, b->registers_length);
}

/* ---- Text and words ----
 *
 * A trace as people write it, as nib reads and writes it; events, replies and refusals in words, as nib explain tells
 * them; and a trace told as jobs, as nib jobs tells it. A text is given byte by byte, and a line end after its last
 * byte; so is a trace that is to be text. How far it has come is a number, 0 at the start. A text that begins with
 * NIB_TEXT_WITH_PART may also have words for whole jobs, as `program 1 5 3 0 3c a5`. */
#define NIB_TEXT_WITH_PART (UINT64_C(1) << 45)

/* What has been read after one byte more of a text. */
uint64_t nib_text_next(uint64_t state, uint8_t byte);

/* What that byte adds to the trace: enum nib_said times 65,536, and the value. Ask before nib_text_next, with the
 * same state. */
uint64_t nib_text_said(uint64_t state, uint8_t byte);

enum nib_said {
    NIB_SAID_NOTHING = 0,
    NIB_SAID_RECORD = 1,        /* value: the record's kind times 256, and its value */
    NIB_SAID_BYTE = 2,          /* value: a byte of the trace as it is */
    NIB_SAID_OUTS = 3,          /* value: so many data outs */
    NIB_SAID_WRONG = 4,         /* value: why the word is bad, 1 to 14, for nib_say_wrong */
    NIB_SAID_LUN = 5,           /* a value of a job: its LUN, always the first; */
    NIB_SAID_BLOCK = 6,
    NIB_SAID_PAGE = 7,
    NIB_SAID_COLUMN = 8,
    NIB_SAID_COUNT = 9,         /* how many data outs; */
    NIB_SAID_DATA = 10,         /* a byte of a program */
    NIB_SAID_OK = 11,           /* expected, and no part of the trace: nothing was refused; */
    NIB_SAID_EXPECTED = 12,     /* value: a byte of the list that must have come; */
    NIB_SAID_REFUSED = 13       /* value: the refusal that must have come */
};

/* 1 where a list of expected bytes ends with that byte, with what it says as the list's last; else 0. It means nothing
 * where the word is bad. */
uint8_t nib_text_listed(uint64_t state, uint8_t byte);

/* What that byte adds, on a part: NIB_SAID_WRONG where it is a value that the part has not. columns is the page size,
 * P. A part of 2^24 rows at most, as every part within the limits is. */
uint64_t nib_text_on_part(uint64_t said, size_t luns, size_t blocks, size_t pages, uint16_t columns);

/* The job that ends with that byte, enum nib_job_kind, where no word is bad; 0 for none. Ask it as nib_text_said is
 * asked, and take what that byte adds as the job's last value. A value that did not come is 0. Its row is
 * nib_row_number's, and nib_job_write writes it. */
uint8_t nib_text_job(uint64_t state, uint8_t byte);

/* The row of a page, as nib_row has it; 16,777,216, which nib_job_write answers as too wide, where there is none. */
size_t nib_row_number(size_t luns, size_t blocks, size_t pages, size_t lun, size_t block, size_t page);

/* 1 where that byte begins a word, else 0: an error names the last one that began. */
uint8_t nib_text_begins(uint64_t state, uint8_t byte);

/* What has been written after one byte more of a trace, and the text of that byte; then the text of the trace's end.
 * Each of these, and of the words below, writes at most length bytes to out, with no 0 after them, and answers how
 * many: 128 are room for each. */
uint64_t nib_back_next(uint64_t state, uint8_t byte);
size_t nib_back_text(uint64_t state, uint8_t byte, uint8_t *out, size_t length);
size_t nib_back_end(uint64_t state, uint8_t *out, size_t length);

/* A record in words; where odd is not 0, its first byte alone, as the odd last byte of a trace. inside is not 0 where
 * a sequence is open when it comes (t->sequence != NIB_SEQUENCE_NONE): 85h is then a change of column, and else a
 * copyback program. */
size_t nib_say_event(uint8_t odd, uint8_t kind, uint8_t value, uint8_t inside, uint8_t *out, size_t length);

/* A reply in words. lun is the LUN that the event was about, which refusal 5 names. */
size_t nib_say_reply(uint8_t first, uint8_t second, size_t lun, uint8_t *out, size_t length);

/* A refusal's rule in words, those of nib_words; none where no rule has the number. */
size_t nib_say_rule(uint8_t number, uint8_t *out, size_t length);

/* Why a word of a text is bad. */
size_t nib_say_wrong(uint8_t which, uint8_t *out, size_t length);

/* A status byte in words, as `ready, FAIL`: where a data out gave it, t->output being NIB_OUTPUT_STATUS before the
 * event. */
size_t nib_say_status(uint8_t byte, uint8_t *out, size_t length);

/* A row in words, with as much of it as its command looks at, as `row 000037h: LUN 1, block 5, page 3`: at the address
 * cycle that completes it, t->sequence being NIB_SEQUENCE_ROWS and t->got 2 before the event. first is t->first. */
size_t nib_say_row(uint8_t first, size_t row, size_t luns, size_t blocks, size_t pages, uint8_t *out, size_t length);

/* Data in a row is told in one line: accepted data in; data out that gave a byte; data out that gave one and the same
 * status byte. What is held back is a number, 0 at the start; divided by 1,024 it is how many cycles are. Ask of each
 * event, by its record and its reply; status is not 0 where the output was a status before it. nib_fold_goes: 1 where
 * what is held back goes out first; nib_fold_next: what is held back then: no cycles where the event is told by
 * itself. */
uint64_t nib_fold_next(uint64_t state, uint8_t kind, uint8_t value, uint8_t first, uint8_t second, uint8_t status);
uint8_t nib_fold_goes(uint64_t state, uint8_t kind, uint8_t value, uint8_t first, uint8_t second, uint8_t status);

/* What is held back, and its replies. bytes are the first of its bytes, as many as are to be shown. */
size_t nib_say_run(uint64_t state, const uint8_t *bytes, size_t bytes_length, uint8_t *out, size_t length);
size_t nib_say_run_reply(uint64_t state, const uint8_t *bytes, size_t bytes_length, uint8_t *out, size_t length);

/* One reply more in a tally of NIB_TALLY_LENGTH numbers, all 0 at first: number 0 is how many events were accepted,
 * number n how many rule n refused. And the tally of so many events in words; 512 bytes are room for it. */
enum { NIB_TALLY_LENGTH = 17 };
void nib_tally(size_t *counts, size_t counts_length, uint8_t first, uint8_t second);
size_t nib_say_tally(size_t events, const size_t *counts, size_t counts_length, uint8_t *out, size_t length);

/* A list of records told as jobs, line by line. The line at record number `at`, counted from 0, in words: a whole job,
 * as `program LUN 1 block 5 page 3, column 0, 3 bytes`; a finish event; or what is no job. With luns 0 no part is
 * known, and a job has its row. The words of a line name records counted from 1. */
size_t nib_say_line(const uint8_t *records, size_t records_length, size_t at, size_t luns, size_t blocks, size_t pages,
                    uint16_t columns, uint8_t *out, size_t length);

/* Where the next line begins; `at` itself where the list has no record there. */
size_t nib_line_next(const uint8_t *records, size_t records_length, size_t at);

/* ---- What a script expects ----
 *
 * A text may say what must be answered: `= 3c a5`, `! 5`, `ok`. An expectation speaks of the events since the one
 * before it, or since the text's beginning. What they were answered is a number, 0 where none has come: set it to 0
 * after each expectation. With one byte of the text there come, in this order: what nib_text_said says, the job that
 * ends, the list of expected bytes that ends (nib_text_listed), and NIB_SAID_OK. */

/* What has been answered after one event more: its number in the script, counted from 1, and its reply's two bytes. */
uint64_t nib_expect_next(uint64_t state, size_t number, uint8_t first, uint8_t second);

/* 1 where the expectation holds, else 0. ok: none of the events was refused. A refusal: the last of them was refused
 * so, and no other was. Bytes: none was refused, and the bytes that their data outs gave are just those wanted. */
uint8_t nib_expect_ok(uint64_t state);
uint8_t nib_expect_refusal(uint64_t state, uint8_t refusal);
uint8_t nib_expect_bytes(uint64_t state, const uint8_t *given, size_t given_length, const uint8_t *wanted,
                         size_t wanted_length);

/* What was expected and what came instead, in words, where it does not hold; last is the number of the last event. Of a
 * list its first 16 bytes are told. 256 bytes are room for each. */
size_t nib_say_not_ok(uint64_t state, uint8_t *out, size_t length);
size_t nib_say_not_refusal(uint64_t state, size_t last, uint8_t refusal, uint8_t *out, size_t length);
size_t nib_say_not_bytes(uint64_t state, const uint8_t *given, size_t given_length, const uint8_t *wanted,
                         size_t wanted_length, uint8_t *out, size_t length);

/* How a script went: `12 events, 5 expectations`, and `2 of 5 expectations failed; nothing was stored`. */
size_t nib_say_script(size_t events, size_t expected, uint8_t *out, size_t length);
size_t nib_say_failed(size_t failed, size_t expected, uint8_t *out, size_t length);

#ifdef __cplusplus
}
#endif

#endif
