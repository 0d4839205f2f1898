/* Numbers of the generator: places in its state g, knobs, tables.
 * The state is one array of numbers, so that a language without structs by
 * reference, heap or statics can lend it on as it stands here. */
#ifndef GENERATE_H
#define GENERATE_H

#include <stdint.h>

enum {
    PARTS = 22,
    KINDS = 17,                 /* kinds of traces */
    POWER_KINDS = 4,            /* kinds of power-on cases */
    LINES = PARTS * KINDS + POWER_KINDS,
    SPOILS = 75,
    MAX_PAGE = 260,             /* room for a length of 257 */
    MAX_ARRAY = 131072,
    MAX_REGISTERS = 36864,
    MAX_COUNTS = 8192,
    MAX_FLAGS = 8192,
    TRACE_BYTES = 8192,         /* 4096 records */
    REPLY_BYTES = 8200
};

/* Knobs: how a kind of trace is made. 'one in n' is never for n = 0. */
enum {
    K_TRACES,                   /* traces of a line */
    K_RECORDS,                  /* records of a trace, about */
    K_STEP,                     /* longest batch between two looks at the rest */
    K_CARE,                     /* 1: finish a LUN before a job names it */
    K_SPRINKLE,                 /* a finish event before one in n cycles */
    K_EDGE,                     /* one in n addresses is at or past an edge */
    K_SPOT,                     /* 1: few rows, so that counts fill up */
    K_PAST,                     /* one in n counts of data goes past the end */
    K_LONG,                     /* one in n ECh reads is long */
    K_BAD,                      /* a bad record before one in n cycles */
    K_GUARD,                    /* a protect event before one in n cycles */
    K_RESET,                    /* FFh before one in n cycles */
    K_SHORT,                    /* one in n batches first has too little room */
    K_ODD,                      /* one in n batches has an odd byte */
    K_WRONG,                    /* one in n jobs has a wrong cycle */
    K_SPOIL,                    /* a spoiled event after one in n batches */
    KNOBS
};

/* Fields of a part, in the order of the table of parts. */
enum {
    F_DATA,
    F_SPARE,
    F_PAGES,
    F_BLOCKS,
    F_LUNS,
    F_PROGRAMS,
    F_OPTIONS,                  /* 1: 78h, 2: 06h, 4: EEh/EFh, 8: 40h, 16: copyback, 32: any order */
    F_FILL,                     /* array: 0 FFh, 1 random */
    F_COUNTS,                   /* 0 none, 1 random, 2 full */
    F_FLAGS,                    /* 0 good, 1 one in four bad, 2 two in three */
    F_CYCLES,                   /* from here on not in the table: byte 101 */
    F_WIDE,                     /* feature bit 0 */
    F_MANY,                     /* feature bit 1 */
    FIELDS,
    TABLE_FIELDS = F_CYCLES
};

/* The state. */
enum {
    G_RNG,
    G_H1,
    G_H2,
    G_EVENTS,
    G_SURPRISES,                /* spoiled events not answered 13 */
    G_LEN,                      /* bytes of the trace so far */
    G_BUSY,                     /* LUNs the generator takes to be working, a bit each */
    G_SELECTED,                 /* the LUN it takes to be selected */
    G_DEVICE,
    G_SIZE,                     /* P */
    G_PAGE_BITS,
    G_BLOCK_BITS,
    G_PAGE_LEN,                 /* lengths to lend */
    G_ARRAY_LEN,
    G_REGISTERS_LEN,
    G_COUNTS_LEN,
    G_FLAGS_LEN,
    G_SHOW,                     /* 1: what happens is printed, see -t */
    G_TRACE,                    /* the trace's number in its line */
    G_FIELD,                    /* the part's fields */
    G_KNOB = G_FIELD + FIELDS,
    G_REFUSED = G_KNOB + KNOBS, /* how often each refusal number was met; 0 accepted */
    G_ACCEPTED = G_REFUSED + 26,/* accepted events by kind */
    G_NUMBERS = G_ACCEPTED + 6
};

/* data, spare, pages, blocks, LUNs, programs, options, fill, counts, flags */
static const uint32_t PART_TABLE[PARTS * TABLE_FIELDS] = {
    512, 16, 4, 8, 2, 4, 31, 1, 0, 0,           /*  0 T1 */
    512, 16, 3, 5, 2, 4, 63, 0, 0, 0,           /*  1 T2 */
    64, 8, 5, 3, 1, 3, 31, 1, 1, 1,             /*  2 one LUN */
    32, 4, 3, 5, 4, 2, 63, 1, 1, 1,             /*  3 four LUNs */
    40, 0, 1, 7, 3, 4, 63, 1, 0, 1,             /*  4 one page a block, no spare */
    24, 1, 6, 1, 2, 8, 31, 0, 1, 0,             /*  5 one block a LUN */
    16, 0, 1, 1, 4, 1, 31, 1, 0, 0,             /*  6 row is the LUN, P 16 */
    16, 0, 1, 1, 1, 8, 31, 1, 2, 0,             /*  7 the smallest */
    2048, 64, 4, 6, 2, 4, 63, 1, 1, 1,          /*  8 larger P */
    128, 3, 4, 4, 2, 4, 62, 1, 0, 0,            /*  9 no 78h */
    100, 11, 3, 4, 2, 4, 29, 0, 1, 1,           /* 10 no 06h */
    64, 16, 6, 5, 3, 3, 27, 1, 0, 1,            /* 11 no EEh, EFh */
    96, 4, 5, 3, 2, 2, 55, 1, 1, 0,             /* 12 no 40h */
    48, 5, 3, 3, 3, 4, 0, 1, 0, 1,              /* 13 no option */
    33, 2, 2, 9, 2, 1, 31, 1, 0, 2,             /* 14 bad blocks, one program a page */
    20, 4, 7, 3, 4, 8, 63, 1, 2, 0,             /* 15 full counts, eight programs */
    16, 0, 256, 2, 2, 4, 31, 1, 1, 1,           /* 16 most pages */
    16, 0, 1, 4096, 2, 2, 63, 1, 1, 1,          /* 17 most blocks */
    250, 7, 5, 6, 3, 4, 63, 0, 0, 1,            /* 18 P 257 */
    16384, 2048, 1, 2, 2, 4, 31, 1, 0, 0,       /* 19 largest P */
    255, 1, 4, 4, 4, 4, 63, 1, 1, 1,            /* 20 P 256 */
    60, 3, 4, 3, 2, 4, 15, 1, 1, 1              /* 21 no copyback */
};

/* traces, records, step, care, sprinkle, edge, spot, past,
 * long, bad, guard, reset, short, odd, wrong, spoil */
static const uint32_t KNOB_TABLE[KINDS * KNOBS] = {
    8, 900, 12, 1, 0, 0, 0, 16,     8, 0, 0, 0, 0, 0, 0, 0,         /*  0 whole jobs */
    8, 900, 12, 1, 6, 60, 0, 24,    24, 0, 0, 0, 0, 0, 0, 0,        /*  1 LUNs mixed */
    8, 900, 12, 1, 24, 30, 0, 12,   24, 0, 0, 0, 0, 64, 1, 0,       /*  2 a wrong cycle */
    8, 900, 12, 1, 12, 40, 0, 24,   24, 0, 12, 0, 0, 0, 6, 0,       /*  3 protect line */
    8, 900, 6, 1, 40, 20, 0, 2,     3, 0, 0, 0, 0, 0, 0, 0,         /*  4 ends */
    8, 900, 12, 1, 24, 40, 1, 24,   24, 0, 0, 200, 0, 0, 8, 0,      /*  5 features */
    8, 900, 12, 1, 24, 40, 0, 24,   24, 6, 80, 0, 0, 3, 12, 0,      /*  6 bad records */
    6, 900, 12, 0, 0, 0, 0, 0,      0, 0, 0, 0, 0, 0, 0, 0,         /*  7 near noise */
    6, 900, 12, 0, 0, 0, 0, 0,      0, 0, 0, 0, 0, 8, 0, 0,         /*  8 noise */
    40, 60, 6, 1, 12, 20, 0, 8,     0, 20, 20, 0, 0, 12, 4, 0,      /*  9 before FFh */
    8, 800, 6, 1, 12, 30, 0, 12,    12, 0, 0, 0, 0, 0, 6, 2,        /* 10 spoiled */
    8, 800, 9, 1, 12, 30, 0, 12,    12, 30, 0, 0, 2, 4, 6, 0,       /* 11 short rooms */
    8, 900, 12, 1, 16, 2, 0, 12,    24, 0, 0, 0, 0, 0, 0, 0,        /* 12 edges */
    8, 900, 12, 0, 9, 20, 0, 12,    24, 0, 60, 200, 0, 0, 6, 0,     /* 13 busy LUNs */
    8, 900, 12, 1, 16, 40, 1, 24,   0, 0, 0, 0, 0, 0, 20, 0,        /* 14 counts, bad blocks */
    2, 4000, 2048, 0, 6, 12, 1, 8,  8, 24, 40, 400, 2, 2, 4, 1,     /* 15 all of it, long */
    8, 900, 6, 1, 16, 40, 0, 8,     12, 60, 80, 400, 0, 0, 16, 0    /* 16 polling */
};

/* Jobs, and the mix of each kind of trace. */
enum {
    J_READ,
    J_LUN_OUT,
    J_OUT,
    J_PROGRAM,
    J_ERASE,
    J_LUN_STATUS,
    J_STATUS,
    J_ID,
    J_PARAMETERS,
    J_GET,
    J_SET,
    J_LOW,
    J_RESET,
    J_FINISH,
    J_BACK,
    J_TWICE,
    J_COPY,
    J_COPY_READ,
    J_COPY_WRITE,
    J_GIVE_UP,
    J_POLL,
    J_POLL_OTHER,
    J_PAGE,
    J_BARE,
    J_ORDER,
    JOBS
};

enum { MIX = 26 };
static const uint8_t MIX_TABLE[KINDS * MIX] = {
    0, 0, 1, 2, 3, 3, 3, 4, 5, 6, 7, 8, 9, 10, 14, 15, 16, 16, 18, 19, 20, 21, 22, 23, 24, 24,
    0, 0, 0, 1, 1, 2, 3, 3, 3, 4, 4, 5, 5, 5, 6, 14, 16, 16, 17, 18, 20, 21, 22, 23, 24, 24,
    0, 0, 1, 2, 3, 3, 3, 4, 5, 6, 7, 8, 9, 10, 10, 14, 16, 16, 18, 19, 20, 21, 22, 23, 24, 24,
    3, 3, 3, 4, 4, 4, 11, 11, 11, 11, 6, 5, 0, 14, 10, 12, 16, 16, 18, 18, 20, 21, 22, 23, 24, 24,
    0, 1, 1, 2, 2, 3, 3, 3, 7, 7, 8, 9, 10, 14, 5, 2, 16, 16, 16, 19, 20, 21, 22, 23, 24, 24,
    9, 9, 10, 10, 10, 10, 3, 3, 3, 0, 1, 14, 2, 12, 4, 5, 16, 16, 17, 19, 20, 21, 22, 23, 24, 24,
    0, 0, 1, 2, 3, 3, 3, 4, 5, 6, 7, 8, 9, 10, 14, 15, 16, 16, 18, 19, 20, 21, 22, 23, 24, 24,
    0, 0, 0, 0, 0, 0, 0, 0, 0, 0, 0, 0, 0, 0, 0, 0, 0, 0, 0, 0, 0, 0, 0, 0, 0, 0,
    0, 0, 0, 0, 0, 0, 0, 0, 0, 0, 0, 0, 0, 0, 0, 0, 0, 0, 0, 0, 0, 0, 0, 0, 0, 0,
    0, 1, 2, 3, 3, 4, 5, 5, 6, 6, 7, 7, 8, 9, 10, 13, 16, 17, 18, 19, 20, 21, 22, 23, 24, 24,
    0, 0, 1, 2, 3, 3, 3, 4, 5, 6, 7, 8, 9, 10, 14, 12, 16, 16, 18, 19, 20, 21, 22, 23, 24, 24,
    0, 0, 1, 2, 3, 3, 3, 4, 5, 6, 7, 8, 9, 10, 14, 12, 16, 16, 18, 19, 20, 21, 22, 23, 24, 24,
    0, 0, 1, 1, 2, 2, 3, 3, 4, 4, 5, 5, 7, 8, 9, 10, 16, 17, 18, 19, 20, 21, 22, 23, 24, 24,
    0, 0, 1, 1, 2, 2, 3, 3, 4, 5, 6, 6, 7, 8, 9, 10, 16, 17, 18, 19, 20, 21, 22, 23, 24, 24,
    3, 3, 3, 3, 4, 4, 14, 14, 15, 15, 15, 15, 5, 6, 0, 14, 16, 16, 17, 18, 20, 21, 22, 23, 24, 24,
    0, 1, 2, 3, 4, 5, 6, 7, 8, 9, 10, 11, 12, 13, 14, 15, 16, 17, 18, 19, 20, 21, 22, 23, 24, 24,
    20, 20, 20, 20, 20, 20, 20, 20, 20, 21, 21, 21, 22, 22, 22, 23, 23, 0, 3, 4, 5, 6, 14, 16, 24, 20
};

/* The commands there are; FFh comes last, so that it is easily left out. */
enum { COMMANDS = 18 };
static const uint8_t COMMAND_TABLE[COMMANDS] = {
    0x00, 0x05, 0x06, 0x10, 0x30, 0x35, 0x60, 0x70, 0x78, 0x80,
    0x85, 0x90, 0xD0, 0xE0, 0xEC, 0xEE, 0xEF, 0xFF
};

/* Limits at power-on: field, value. */
enum { LIMITS = 58 };
static const uint32_t LIMIT_TABLE[LIMITS * 2] = {
    F_DATA, 0, F_DATA, 15, F_DATA, 16, F_DATA, 17,
    F_DATA, 16383, F_DATA, 16384, F_DATA, 16385, F_DATA, 65552, F_DATA, 16777232,
    F_SPARE, 0, F_SPARE, 1, F_SPARE, 2047, F_SPARE, 2048, F_SPARE, 2049, F_SPARE, 65535,
    F_PAGES, 0, F_PAGES, 1, F_PAGES, 2, F_PAGES, 255, F_PAGES, 256, F_PAGES, 257,
    F_PAGES, 65537, F_PAGES, 16777217,
    F_BLOCKS, 0, F_BLOCKS, 1, F_BLOCKS, 2, F_BLOCKS, 4095, F_BLOCKS, 4096, F_BLOCKS, 4097,
    F_BLOCKS, 65537, F_BLOCKS, 16777217,
    F_LUNS, 0, F_LUNS, 1, F_LUNS, 2, F_LUNS, 3, F_LUNS, 4, F_LUNS, 5, F_LUNS, 255,
    F_PROGRAMS, 0, F_PROGRAMS, 1, F_PROGRAMS, 2, F_PROGRAMS, 7, F_PROGRAMS, 8,
    F_PROGRAMS, 9, F_PROGRAMS, 255,
    F_CYCLES, 0, F_CYCLES, 34, F_CYCLES, 35, F_CYCLES, 36, F_CYCLES, 51, F_CYCLES, 19,
    F_CYCLES, 163,
    F_WIDE, 0, F_WIDE, 1, F_MANY, 0, F_MANY, 1,
    F_OPTIONS, 0, F_OPTIONS, 63
};

#endif
