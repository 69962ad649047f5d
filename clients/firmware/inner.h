/*
 * What the functions of the proved modules take beside the structs of trigger.h: for at.c and
 * rack_at.c.
 */
#ifndef INNER_H
#define INNER_H

#include "trigger.h"

/*
 * Bytes, or a row of cards, as a module takes them: a pointer in eight bytes, and a length of eight
 * on every processor.
 */
typedef struct {
    const void *start;
    uint64_t len;
} slice;

_Static_assert(offsetof(slice, len) == 8, "a length is at 8");

/* A struct has the size that the module passes. */
#define SAME(type, size) _Static_assert(sizeof(type) == (size), "trigger.h has another " #type " than the module")

static inline slice slice_of(const void *start, size_t len)
{
    slice s = {start, len};
    return s;
}

#endif
