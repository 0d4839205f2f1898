/* Holds include/nibtoggle.h to the layout and the function types that the prover and its compiler have: layout.h is written by
 * tools/host_layout.py while the library is built. A difference does not compile. */
#include "nibtoggle.h"

#include "layout.h"

#include <stdio.h>

_Static_assert(sizeof(nib_target) == NIB_LAYOUT_SIZE, "size of nib_target");
_Static_assert(_Alignof(nib_target) == NIB_LAYOUT_ALIGNMENT, "alignment of nib_target");
#define SAME(field, place, bytes) \
    _Static_assert(offsetof(nib_target, field) == (place), "place of " #field); \
    _Static_assert(sizeof(((nib_target *)0)->field) == (bytes), "size of " #field);
NIB_LAYOUT(SAME)

/* No field of the header is missing there: the bytes of all fields together are those up to the last one's end, since the record has
 * padding at its end alone. */
#define BYTES(field, place, bytes) + (bytes)
_Static_assert((0 NIB_LAYOUT(BYTES)) == offsetof(nib_target, blank) + sizeof(((nib_target *)0)->blank),
               "bytes of all fields");

int main(void)
{
    printf("layout: %d fields in %d bytes, %d with padding, and %d functions' types, as proved\n", NIB_LAYOUT_FIELDS, 0 NIB_LAYOUT(BYTES),
           NIB_LAYOUT_SIZE, NIB_LAYOUT_FUNCTIONS);
    return 0;
}
