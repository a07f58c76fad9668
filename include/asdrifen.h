/*
 * Asdrifen: the posting index of a forecast ensemble, with proofs.
 *
 * Link with target/staticlib/libexports.a (tools/build-library makes it). It is code for x86-64 Linux and asks for nothing but
 * memset.
 *
 * Common to all calls:
 *
 * - Any numbers may come in. A call either refuses by number and then changes nothing, or does its work. It allocates nothing
 *   and keeps nothing between calls. Two threads may call at once on different lists.
 * - A list is a pointer and a length. The length counts elements, not bytes: numbers, or guards where the list is one of guards,
 *   or the bytes of a strip. Where it is 0, the pointer may be NULL.
 * - Lists of one call must not overlap, and a head that is lent by pointer must not lie in one of them.
 * - Every list stays yours. A list behind a const pointer is only read. Any other may be written, within its length alone, and
 *   only until the call returns. A pointer to a head is never NULL.
 * - A head, a view and a result go by value, unless a pointer is written. Keep the head or the view that a call returns, and give
 *   it to the next call: the old one no longer fits its table or node.
 */
#ifndef ASDRIFEN_H
#define ASDRIFEN_H

#include <stddef.h>
#include <stdint.h>

#ifdef __cplusplus
extern "C" {
#endif

/* ---- The answers ---- */

/* Of every call: all went well. */
#define ASDRIFEN_ACCEPTED 0u

/*
 * Of the posting calls. Checks run in this order, and the first that applies is told. 1 to 9 and 14 change nothing; 10 and 11 leave
 * all as it was before; 12 and 13 set the poison flag, and from then on counts of this index are withheld.
 */
#define ASDRIFEN_TABLE 1u     /* table or head is not well formed: do not count from it */
#define ASDRIFEN_POISONED 2u  /* the poison flag was set at entry: withhold the index's counts */
#define ASDRIFEN_LIST 3u      /* change list ill formed or over 256 changes; guards odd or over 1,024 */
#define ASDRIFEN_STRIP 4u     /* strip over 1,024 bytes, or a byte above 2 */
#define ASDRIFEN_ROOM 5u      /* record list shorter than the change list has changes */
#define ASDRIFEN_GUARD 6u     /* names the first change whose binding is not below the count, or whose key is not held */
#define ASDRIFEN_RECORD 14u   /* rollback: names the first place of the record that means no destination, or repeats one */
#define ASDRIFEN_TWICE 7u     /* names two changes with one destination: named is the lower, other the higher */
#define ASDRIFEN_PRESENT 8u   /* names the first change whose destination stands in the table already */
#define ASDRIFEN_OVERLAP 9u   /* publish: names the first change whose source is a destination of the list */
#define ASDRIFEN_STORE 10u    /* storage refused to insert the change named; all is undone: try again */
#define ASDRIFEN_FULL 11u     /* no room for the change named; all is undone: a larger table */
#define ASDRIFEN_UNDO 12u     /* an undo failed. Names the change not inserted; rollback: the last one not removed */
#define ASDRIFEN_SOURCE 13u   /* the source of the change named could not be removed */

/* Of the lane calls. 20 to 23 change nothing. */
#define ASDRIFEN_LANE_HEIGHT 20u /* the height is 0 or above 32 */
#define ASDRIFEN_LANE_VIEW 21u   /* not guarded, or retired, or a lane at or above the height attached, or a flag not 0 or 1 */
#define ASDRIFEN_LANE_WINDOW 22u /* refreshed pass: an attached lane is not in the window */
#define ASDRIFEN_LANE_STRIP 23u  /* strip over 1,024 bytes, or a byte above 2 */
#define ASDRIFEN_LANE_OFFSET 24u /* storage met an error: keep the view, and detach again from it */
#define ASDRIFEN_LANE_BUDGET 25u /* the rounds lent are used up: keep the view, and lend more rounds */

/* Of the bucket calls. A refusal writes nothing. */
#define ASDRIFEN_BUCKET_LIMITS 30u /* more than 4,096 numbers, or more than 65,536 buckets */
#define ASDRIFEN_BUCKET_ROOM 31u   /* output or scratch is too short */
#define ASDRIFEN_BUCKET_RANGE 32u  /* names the first element that is not below the bucket count */

/* ---- The types ---- */

/* What stands beside a table: how many indexes there are, at most 64; how many postings are in use; the poison flag, 0 or 1. */
typedef struct { uint32_t bindings, used, poisoned; } asdrifen_head;

/* A held guard: whoever publishes holds this key of this index. */
typedef struct { uint32_t binding, key; } asdrifen_guard;

/* An answer, and what it names. other: the second change of answer 7, else 0. */
typedef struct { uint32_t answer, named, other; } asdrifen_told;

/* The head that a call leaves, and its answer. */
typedef struct { asdrifen_head head; asdrifen_told told; } asdrifen_done;

/*
 * A node whose lanes are being detached. height is how many lanes it has, 1 to 32. The flags guarded and retired are 0 or 1;
 * anything else is answered 21, and comes back as it was lent. attached and window are masks: lane l is bit l.
 */
typedef struct { uint32_t height, guarded, retired, attached, window; } asdrifen_view;

/* The view that a call leaves, its answer, and a value: of a pass 1 for yes and 0 for no, of a detach the rounds made. */
typedef struct { asdrifen_view view; uint32_t answer, value; } asdrifen_detached;

/* ---- The posting calls ---- */

/*
 * table:   three numbers to a posting (binding, key, row), ascending. The first head.used postings are in use, and every number
 *          past them is 0. At most 12,288 numbers, 4,096 postings.
 * changes: six numbers to a change (binding, row, before flag, before key, after flag, after key), at most 256 changes. A flag is
 *          1, or 0 and its key then 0. With the before flag the row leaves that key: a source. With the after flag it comes to
 *          that key: a destination.
 * guards:  the keys that are held, at most 1,024. Each key that a change names must be among them.
 * strip:   how storage behaves, a byte to each insertion and removal in their order, at most 1,024. 0: it is done. An insertion
 *          with 1 or 2 fails, and changes nothing. A removal with 1 fails, and the posting stays; with 2 it fails, and the posting
 *          is gone. Past the end every byte is 0: NULL and 0 mean a storage that does not fail.
 * record:  where the numbers of the changes that have a destination are written. It needs as many places as there are changes;
 *          places past those named stay as they were.
 */

/*
 * Publishes a change list: puts every destination in, and then takes every source out. The head is changed in place. Accepted, it
 * names how many numbers it has written to the record.
 */
asdrifen_told asdrifen_publish(asdrifen_head *head, uint32_t *table, size_t table_len,
    const uint32_t *changes, size_t changes_len, const asdrifen_guard *guards, size_t guards_len,
    const uint8_t *strip, size_t strip_len, uint32_t *record, size_t record_len);

/*
 * Sets the poison flag of a head in place, and nothing else. Every later publish and count with this head is refused: with 2, or
 * with 1 where head or table is not well formed.
 */
void asdrifen_poison_indexes(asdrifen_head *head);

/* 1 where the key of this binding is among the guards, else 0. */
uint32_t asdrifen_held(const asdrifen_guard *guards, size_t guards_len, uint32_t binding, uint32_t key);

/*
 * The calls below take the head by value and return the one that they leave. Their guards are flat numbers, two to a guard
 * (binding, key), and guards_len counts the numbers.
 */

/* The same as asdrifen_publish. */
asdrifen_done asdrifen_publish_by_value(asdrifen_head head, uint32_t *table, size_t table_len,
    const uint32_t *changes, size_t changes_len, const uint32_t *guards, size_t guards_len,
    const uint8_t *strip, size_t strip_len, uint32_t *record, size_t record_len);

/* The first half of a publish: puts every destination in, or none. Accepted, it names how many numbers of the record it wrote. */
asdrifen_done asdrifen_prepare_index_destinations(asdrifen_head head, uint32_t *table, size_t table_len,
    const uint32_t *changes, size_t changes_len, const uint32_t *guards, size_t guards_len,
    const uint8_t *strip, size_t strip_len, uint32_t *record, size_t record_len);

/*
 * Takes the destinations of a record out of the table again. The whole record that is lent counts: lend the length that prepare
 * named.
 */
asdrifen_done asdrifen_rollback_index_destinations(asdrifen_head head, uint32_t *table, size_t table_len,
    const uint32_t *changes, size_t changes_len, const uint32_t *guards, size_t guards_len,
    const uint8_t *strip, size_t strip_len, const uint32_t *record, size_t record_len);

/* The second half of a publish: takes every source out. */
asdrifen_done asdrifen_remove_index_sources(asdrifen_head head, uint32_t *table, size_t table_len,
    const uint32_t *changes, size_t changes_len, const uint32_t *guards, size_t guards_len,
    const uint8_t *strip, size_t strip_len);

/* How many postings this key of this index has: accepted, it names the number. What a refusal names is no count. */
asdrifen_told asdrifen_count(asdrifen_head head, const uint32_t *table, size_t table_len, uint32_t binding, uint32_t key);

/* ---- The lane calls ---- */

/*
 * contents: what readers of the node hold pinned. It is lent for reading, and no call changes it.
 * strip:    how storage behaves, a byte to each lane tried and to each refresh, at most 1,024. A lane that is tried with 0 is
 *           detached, if it was attached; with 1 it is not; 2 is an error. A refresh with 0 sets the window to the attached lanes;
 *           with 1 it detaches the lowest of them first; 2 is an error. Past the end every byte is 0.
 */

/* One pass over the lanes of the window, from the top lane down. Value 1: no lane is attached any more. */
asdrifen_detached asdrifen_cached_detach(asdrifen_view view, const uint32_t *contents, size_t contents_len,
    const uint8_t *strip, size_t strip_len);

/* One pass with a refreshed window, which must hold every attached lane. Value 1: there was no lane left to try. */
asdrifen_detached asdrifen_refreshed_detach(asdrifen_view view, const uint32_t *contents, size_t contents_len,
    const uint8_t *strip, size_t strip_len);

/*
 * Detaches the node from all its lanes and retires it, in at most so many rounds. Two more than half the strip's bytes are always
 * enough, unless storage meets an error.
 */
asdrifen_detached asdrifen_detach_before_retire(asdrifen_view view, const uint32_t *contents, size_t contents_len,
    const uint8_t *strip, size_t strip_len, uint32_t rounds);

/* ---- The bucket calls ---- */

/*
 * Writes the distinct elements of the input to the output, ascending, and names how many they are. The output needs as many places
 * as the smaller of input_len and buckets; places past those named stay as they were.
 */
asdrifen_told asdrifen_canonical_buckets_sort(const uint32_t *input, size_t input_len, uint32_t buckets,
    uint32_t *output, size_t output_len);

/*
 * The same by way of membership bits, which the scratch then holds: bucket b is bit b % 32 of number b / 32. It needs a number for
 * every 32 buckets, rounded up, and may hold anything before.
 */
asdrifen_told asdrifen_canonical_buckets_bitmap(const uint32_t *input, size_t input_len, uint32_t buckets,
    uint32_t *output, size_t output_len, uint32_t *scratch, size_t scratch_len);

/* 1 where the stamp is less than the snapshot, else 0. */
uint32_t asdrifen_stamp_precedes_snapshot(uint64_t stamp, uint64_t snapshot);

#ifdef __cplusplus
}
#endif

#endif
