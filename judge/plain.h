/* The plain model of the NAND target of document 01, with copyback (A1), polling loaders (A2), page order (A4) and
 * blank blocks (A7): one struct, one switch. It is written from the documents alone, to judge the proved model by. */
#ifndef PLAIN_H
#define PLAIN_H

#include <stdbool.h>
#include <stddef.h>
#include <stdint.h>

enum {
    PLAIN_MAX_LUNS = 4,
    PLAIN_PAGE_BYTES = 256,     /* parameter bytes */
    PLAIN_COPIES_END = 768      /* ECh gives them three times */
};

enum plain_sequence_kind {
    PLAIN_SEQ_NONE,
    PLAIN_SEQ_READ,             /* 00h .. 30h or 35h */
    PLAIN_SEQ_COLUMN,           /* 05h .. E0h */
    PLAIN_SEQ_LUN_COLUMN,       /* 06h .. E0h */
    PLAIN_SEQ_ERASE,            /* 60h .. D0h */
    PLAIN_SEQ_STATUS,           /* 78h */
    PLAIN_SEQ_PROGRAM,          /* 80h .. 10h */
    PLAIN_SEQ_COPYBACK,         /* 85h .. 10h */
    PLAIN_SEQ_MOVE,             /* 85h inside one of these two */
    PLAIN_SEQ_ID,               /* 90h */
    PLAIN_SEQ_PARAMETERS,       /* ECh */
    PLAIN_SEQ_GET,              /* EEh */
    PLAIN_SEQ_SET,              /* EFh */
    PLAIN_SEQ_KINDS
};

enum plain_output_kind {
    PLAIN_OUT_NONE,
    PLAIN_OUT_REGISTER,
    PLAIN_OUT_PARAMETERS,
    PLAIN_OUT_STATUS,
    PLAIN_OUT_IDS,
    PLAIN_OUT_SIGNATURE,
    PLAIN_OUT_FEATURE
};

struct plain_lun {
    bool working;
    bool fail;
    bool copyback;              /* opened by 35h */
    uint32_t blank;             /* blocks with all counts 0 that are not bad: walked at power-on, then kept */
};

/* A whole row is kept as its fields, so that each number has its own range. */
struct plain_sequence {
    uint8_t kind;               /* enum plain_sequence_kind */
    uint8_t cycles;             /* address cycles so far */
    uint8_t given;              /* EFh: feature bytes so far */
    uint8_t p1;                 /* EFh: the first of them */
    uint8_t first;              /* move: its program's first command, 80h or 85h */
    bool in_page;               /* 05h: told at its command that it moves within the parameter page */
    uint32_t column;            /* bytes so far; in a program the next place, up to P */
    uint32_t row;               /* bytes so far */
    uint32_t page;              /* 00h, 80h, 85h */
    uint32_t block;             /* 00h, 80h, 85h, 60h */
    uint32_t lun;               /* 00h, 80h, 85h, 60h, 06h */
};

struct plain_output {
    uint8_t kind;               /* enum plain_output_kind */
    uint32_t lun;               /* register, status */
    uint32_t next;              /* next byte; the end stands for 'all given' */
};

struct plain_target {
    bool powered;
    uint32_t page_size;         /* P, data plus spare */
    uint32_t pages;             /* a block */
    uint32_t blocks;            /* a LUN */
    uint32_t luns;
    uint32_t programs;          /* a page */
    uint16_t features;          /* the words as the page has them */
    uint16_t optional;
    uint8_t maker;
    uint8_t device;
    bool line_high;
    bool program_clear;
    bool reset_seen;
    uint32_t selected;
    struct plain_lun lun[PLAIN_MAX_LUNS];
    struct plain_sequence sequence;
    struct plain_output output;
    struct plain_output kept;   /* behind a status: the output that 00h and data out go on with; never a status */
};

/* Power-on: 0, or the refusal 20 to 25, which leaves *t all zero. */
uint32_t plain_power_on(struct plain_target *t,
                        const uint8_t *page, size_t page_len, uint8_t device_id,
                        const uint8_t *array, size_t array_len,
                        uint8_t *registers, size_t registers_len,
                        const uint8_t *counts, size_t counts_len,
                        const uint8_t *flags, size_t flags_len);

/* One event: its first reply byte times 256, plus the second. */
uint32_t plain_event(struct plain_target *t, uint8_t kind, uint8_t value,
                     const uint8_t *page, size_t page_len,
                     uint8_t *array, size_t array_len,
                     uint8_t *registers, size_t registers_len,
                     uint8_t *counts, size_t counts_len,
                     const uint8_t *flags, size_t flags_len);

/* A trace of n bytes: 0, or 16 where the reply room is too short. */
uint32_t plain_trace(struct plain_target *t, const uint8_t *records, size_t n,
                     uint8_t *replies, size_t room,
                     const uint8_t *page, size_t page_len,
                     uint8_t *array, size_t array_len,
                     uint8_t *registers, size_t registers_len,
                     uint8_t *counts, size_t counts_len,
                     const uint8_t *flags, size_t flags_len);

/* The unread rest: 1 a part of the registers, 2 of the parameter page,
 * 0 an empty part, always with start and length 0. It is asked with these two
 * buffers lent, so [13] looks at the record and at these two lengths. */
uint32_t plain_rest(const struct plain_target *t, size_t page_len, size_t registers_len,
                    size_t *start, size_t *length);

/* The blank blocks of a LUN, counted: what the record keeps, where it and the buffers have been this model's alone.
 * 0 for a LUN that there isn't. */
uint32_t plain_blank_walk(const struct plain_target *t, uint32_t lun, const uint8_t *counts, const uint8_t *flags);

#ifdef PLAIN_ERRORS
extern unsigned plain_error;    /* which builder's error is on, 0 none */
#endif

#endif
