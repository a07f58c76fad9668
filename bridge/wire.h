/*
 * What client.c and server.c say to each other. A frame goes over with the lists lent for writing first, is worked on in place, and
 * comes back cut after those. Each list begins at a multiple of 8 bytes. Both sides run on one machine, and both are little-endian.
 */
#ifndef ASDRIFEN_WIRE_H
#define ASDRIFEN_WIRE_H

#include <stddef.h>
#include <stdint.h>

enum { LISTS = 5, NUMBERS = 8 };

enum function {
    PUBLISH,
    POISON_INDEXES,
    HELD,
    PUBLISH_BY_VALUE,
    PREPARE_INDEX_DESTINATIONS,
    ROLLBACK_INDEX_DESTINATIONS,
    REMOVE_INDEX_SOURCES,
    COUNT,
    CACHED_DETACH,
    REFRESHED_DETACH,
    DETACH_BEFORE_RETIRE,
    CANONICAL_BUCKETS_SORT,
    CANONICAL_BUCKETS_BITMAP,
    STAMP_PRECEDES_SNAPSHOT
};

struct frame {
    uint64_t bytes;          /* of the whole request, this part included */
    uint64_t bytes_back;     /* of the reply: this part, and the lists lent for writing */
    uint64_t lengths[LISTS]; /* of each list, in bytes */
    uint64_t function;
    uint32_t numbers[NUMBERS]; /* all arguments that are no lists, in their order; in the reply all numbers of the result */
};

/* The bytes that a list takes in a frame. */
static inline uint64_t padded(uint64_t bytes)
{
    return (bytes + 7) & ~(uint64_t)7;
}

#endif
