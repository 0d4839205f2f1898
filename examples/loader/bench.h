/* The model as the loader's bus. A LUN that works is let finish once its status byte has been read `autofinish` times. */
#ifndef LOADER_BENCH_H
#define LOADER_BENCH_H

#include "loader.h"
#include "nibtoggle.h"

typedef struct bench {
    nib_target target;
    nib_lent lent;
    unsigned autofinish, polls[NIB_MAX_LUNS];
    int both;                   /* every LUN worked at once, some time */
} bench;

static inline unsigned bench_event(bench *b, uint8_t kind, uint8_t value, uint8_t *byte)
{
    uint32_t reply = nib_lent_event(&b->target, &b->lent, kind, value);
    size_t working = 0;
    if (nib_refusal(reply) != 0)
        return nib_refusal(reply);
    if (byte != NULL)
        *byte = nib_byte(reply);
    for (size_t lun = 0; lun < b->target.luns; lun++)
        working += b->target.working[lun];
    b->both |= working == b->target.luns;
    if (kind == NIB_DATA_OUT && b->target.output == NIB_OUTPUT_STATUS && b->target.working[b->target.output_lun]) {
        size_t lun = b->target.output_lun;
        if (++b->polls[lun] == b->autofinish) {
            b->polls[lun] = 0;
            nib_lent_event(&b->target, &b->lent, NIB_FINISH, (uint8_t)lun);
        }
    }
    return LOADER_OK;
}

static inline unsigned bench_command(void *of, uint8_t value) { return bench_event(of, NIB_COMMAND, value, NULL); }

static inline unsigned bench_each(bench *b, uint8_t kind, const uint8_t *bytes, size_t n)
{
    unsigned answer = LOADER_OK;
    for (size_t i = 0; i < n && answer == LOADER_OK; i++)
        answer = bench_event(b, kind, bytes[i], NULL);
    return answer;
}

static inline unsigned bench_address(void *of, const uint8_t *values, size_t n)
{
    return bench_each(of, NIB_ADDRESS, values, n);
}

static inline unsigned bench_write(void *of, const uint8_t *bytes, size_t n)
{
    return bench_each(of, NIB_DATA_IN, bytes, n);
}

static inline unsigned bench_read(void *of, uint8_t *bytes, size_t n)
{
    unsigned answer = LOADER_OK;
    for (size_t i = 0; i < n && answer == LOADER_OK; i++)
        answer = bench_event(of, NIB_DATA_OUT, 0, &bytes[i]);
    return answer;
}

static inline loader_bus bench_bus(bench *b)
{
    loader_bus bus = {b, bench_command, bench_address, bench_write, bench_read};
    return bus;
}

#endif
