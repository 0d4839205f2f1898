/* A loader to start from: it saves the presets of several stations, one LUN each, at the same time, into a part that it
 * knows nothing of. It asks the part how large it is, skips the blocks that the maker marked bad, looks for free ones,
 * programs the LUNs one while the other works, polls until each is ready, goes to another block where a program failed,
 * and reads back what it saved. loader.py is the same in Python; bench.h has the model as its bus. */
#ifndef LOADER_H
#define LOADER_H

#include <stddef.h>
#include <stdint.h>

enum { LOADER_MAX_LUNS = 4, LOADER_POLLS = 1000 };      /* no LUN takes more polls than that */

/* Bus cycles, on the model or on a board of your own. Each answers 0; or a refusal's number, which only a bench has. */
typedef struct loader_bus {
    void *of;
    unsigned (*command)(void *of, uint8_t value);
    unsigned (*address)(void *of, const uint8_t *values, size_t n);
    unsigned (*write)(void *of, const uint8_t *bytes, size_t n);
    unsigned (*read)(void *of, uint8_t *bytes, size_t n);
} loader_bus;

enum loader_answer {
    LOADER_OK = 0,              /* 1 to 13 are the bench's refusals */
    LOADER_NO_PAGE = 100,       /* no copy of the parameter page is whole */
    LOADER_NOT_READY,           /* a LUN does not get ready */
    LOADER_NO_FREE_BLOCK,
    LOADER_NO_SUCH_PRESET,      /* too long, or for a LUN that there is not */
    LOADER_NOT_AS_SAVED         /* what is read is not what was saved */
};

typedef struct loader {
    loader_bus bus;
    size_t data_bytes, spare_bytes, pages, blocks, luns;
    unsigned page_bits, block_bits;
} loader;

/* A preset, for the LUN that its place in a list says. No bytes: the LUN is left alone. */
typedef struct loader_preset {
    const uint8_t *bytes;
    size_t length;
    size_t block;               /* where it went to */
} loader_preset;

unsigned loader_open(loader *l, loader_bus bus);
unsigned loader_wait(loader *l, size_t lun, int *done);
unsigned loader_save(loader *l, loader_preset *presets, size_t luns);

#endif
