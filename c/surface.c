/*
 * Calls every function of asdrifen.h, accepted and refused, and holds every number that comes back to what the rules say. Prints a
 * line for each call. At the first difference it says which number differs, and ends with status 1.
 */
#include "asdrifen.h"

#include <inttypes.h>
#include <stdio.h>
#include <stdlib.h>
#include <string.h>

/* A list of a case, with its length. A list that a case does not mention is empty, and is then lent as NULL. */
struct list {
    size_t length;
    uint32_t at[15];
};

#define OF(...) {sizeof((uint32_t[]){__VA_ARGS__}) / sizeof(uint32_t), {__VA_ARGS__}}
#define COUNT_OF(array) (sizeof(array) / sizeof *(array))

static const char *call;
static unsigned calls;

static void same(const char *what, uint32_t got, uint32_t wanted)
{
    if (got == wanted)
        return;
    fprintf(stderr, "surface: %s: %s is %" PRIu32 ", not %" PRIu32 "\n", call, what, got, wanted);
    exit(1);
}

static void same_list(const char *what, const uint32_t *got, struct list wanted)
{
    for (size_t k = 0; k < wanted.length; k++) {
        if (got[k] == wanted.at[k])
            continue;
        fprintf(stderr, "surface: %s: number %zu of %s is %" PRIu32 ", not %" PRIu32 "\n", call, k, what, got[k], wanted.at[k]);
        exit(1);
    }
}

static void same_told(asdrifen_told got, asdrifen_told wanted)
{
    same("the answer", got.answer, wanted.answer);
    same("what is named", got.named, wanted.named);
    same("the other number named", got.other, wanted.other);
}

static void same_head(asdrifen_head got, asdrifen_head wanted)
{
    same("bindings of the head", got.bindings, wanted.bindings);
    same("used of the head", got.used, wanted.used);
    same("poisoned of the head", got.poisoned, wanted.poisoned);
}

static void passed(void)
{
    calls++;
    printf("%s\n", call);
}

static uint32_t *lent(struct list *list)
{
    return list->length > 0 ? list->at : NULL;
}

/* The bytes of a strip, or NULL for the empty one. */
static uint8_t *bytes_of(const struct list *strip, uint8_t *bytes)
{
    for (size_t k = 0; k < strip->length; k++)
        bytes[k] = (uint8_t)strip->at[k];
    return strip->length > 0 ? bytes : NULL;
}

/* ---- The posting calls ---- */

enum posting_call { PUBLISH, PUBLISH_BY_VALUE, PREPARE, ROLLBACK, REMOVE };

struct posting_case {
    const char *name;
    enum posting_call call;
    asdrifen_head head;
    struct list table, changes, guards, strip, record;
    asdrifen_head head_after;
    asdrifen_told told;
    struct list table_after, record_after;
};

/* Rows 1, 2 and 3 stand under key 5 of index 0. */
#define STANDS OF(0, 5, 1, 0, 5, 2, 0, 5, 3, 0, 0, 0)
/* Row 1 goes from key 5 to key 6. */
#define MOVES OF(0, 1, 1, 5, 1, 6)
#define HELD OF(0, 5, 0, 6)
#define BOTH OF(0, 5, 1, 0, 5, 2, 0, 5, 3, 0, 6, 1)
#define MOVED OF(0, 5, 2, 0, 5, 3, 0, 6, 1, 0, 0, 0)
#define GONE OF(0, 5, 2, 0, 5, 3, 0, 0, 0, 0, 0, 0)
/* A table with room for two more, where rows 4 and 5 come to key 6. */
#define WIDE OF(0, 5, 1, 0, 5, 2, 0, 5, 3, 0, 0, 0, 0, 0, 0)
#define TWO_COME OF(0, 4, 0, 0, 1, 6, 0, 5, 0, 0, 1, 6)
#define ONE_STAYS OF(0, 5, 1, 0, 5, 2, 0, 5, 3, 0, 6, 4, 0, 0, 0)

#define AS_LENT_BY(head_, table_, record_) .head = head_, .table = table_, .record = record_, .head_after = head_, .table_after = table_, \
    .record_after = record_
#define HEAD(bindings, used, poisoned) {bindings, used, poisoned}
#define NOTHING {0, {0}}
#define TELLS(answer, named, other) .told = {answer, named, other}

static const struct posting_case posting_cases[] = {
    /* publish, head by value */
    {"publish_by_value: accepted", PUBLISH_BY_VALUE, .head = {2, 3, 0}, .table = STANDS, .changes = MOVES, .guards = HELD,
        .record = OF(9, 9), .head_after = {2, 3, 0}, TELLS(ASDRIFEN_ACCEPTED, 1, 0), .table_after = MOVED, .record_after = OF(0, 9)},
    {"publish_by_value: every list NULL, accepted", PUBLISH_BY_VALUE, AS_LENT_BY(HEAD(0, 0, 0), NOTHING, NOTHING),
        TELLS(ASDRIFEN_ACCEPTED, 0, 0)},
    {"publish_by_value: more used than there is room, 1", PUBLISH_BY_VALUE, AS_LENT_BY(HEAD(2, 5, 0), STANDS, OF(9)),
        .changes = MOVES, .guards = HELD, TELLS(ASDRIFEN_TABLE, 0, 0)},
    {"publish_by_value: poison flag 2, 1", PUBLISH_BY_VALUE, AS_LENT_BY(HEAD(2, 3, 2), STANDS, OF(9)), .changes = MOVES,
        .guards = HELD, TELLS(ASDRIFEN_TABLE, 0, 0)},
    {"publish_by_value: poison flag 4294967295, 1", PUBLISH_BY_VALUE, AS_LENT_BY(HEAD(2, 3, 4294967295u), STANDS, OF(9)),
        .changes = MOVES, .guards = HELD, TELLS(ASDRIFEN_TABLE, 0, 0)},
    {"publish_by_value: poisoned, 2", PUBLISH_BY_VALUE, AS_LENT_BY(HEAD(2, 3, 1), STANDS, OF(9)), .changes = MOVES, .guards = HELD,
        TELLS(ASDRIFEN_POISONED, 0, 0)},
    {"publish_by_value: five numbers for a change, 3", PUBLISH_BY_VALUE, AS_LENT_BY(HEAD(2, 3, 0), STANDS, OF(9)),
        .changes = OF(0, 1, 1, 5, 1), .guards = HELD, TELLS(ASDRIFEN_LIST, 0, 0)},
    {"publish_by_value: a change flag of 2, 3", PUBLISH_BY_VALUE, AS_LENT_BY(HEAD(2, 3, 0), STANDS, OF(9)),
        .changes = OF(0, 1, 2, 5, 1, 6), .guards = HELD, TELLS(ASDRIFEN_LIST, 0, 0)},
    {"publish_by_value: three numbers for the guards, 3", PUBLISH_BY_VALUE, AS_LENT_BY(HEAD(2, 3, 0), STANDS, OF(9)),
        .changes = MOVES, .guards = OF(0, 5, 0), TELLS(ASDRIFEN_LIST, 0, 0)},
    {"publish_by_value: a byte of 3, 4", PUBLISH_BY_VALUE, AS_LENT_BY(HEAD(2, 3, 0), STANDS, OF(9)), .changes = MOVES,
        .guards = HELD, .strip = OF(0, 3), TELLS(ASDRIFEN_STRIP, 0, 0)},
    {"publish_by_value: no record list, 5", PUBLISH_BY_VALUE, AS_LENT_BY(HEAD(2, 3, 0), STANDS, NOTHING), .changes = MOVES,
        .guards = HELD, TELLS(ASDRIFEN_ROOM, 0, 0)},
    {"publish_by_value: no guards, 6", PUBLISH_BY_VALUE, AS_LENT_BY(HEAD(2, 3, 0), STANDS, OF(9)), .changes = MOVES,
        TELLS(ASDRIFEN_GUARD, 0, 0)},
    {"publish_by_value: the second change not held, 6", PUBLISH_BY_VALUE, AS_LENT_BY(HEAD(2, 3, 0), WIDE, OF(9, 9)),
        .changes = OF(0, 4, 0, 0, 1, 6, 0, 5, 0, 0, 1, 7), .guards = OF(0, 6), TELLS(ASDRIFEN_GUARD, 1, 0)},
    {"publish_by_value: one destination twice, 7", PUBLISH_BY_VALUE, AS_LENT_BY(HEAD(2, 3, 0), WIDE, OF(9, 9)),
        .changes = OF(0, 4, 0, 0, 1, 6, 0, 4, 0, 0, 1, 6), .guards = OF(0, 6), TELLS(ASDRIFEN_TWICE, 0, 1)},
    {"publish_by_value: there already, 8", PUBLISH_BY_VALUE, AS_LENT_BY(HEAD(2, 3, 0), STANDS, OF(9)), .changes = OF(0, 1, 0, 0, 1, 5),
        .guards = OF(0, 5), TELLS(ASDRIFEN_PRESENT, 0, 0)},
    {"publish_by_value: a source that comes only now, 9", PUBLISH_BY_VALUE, AS_LENT_BY(HEAD(2, 3, 0), WIDE, OF(9, 9)),
        .changes = OF(0, 4, 0, 0, 1, 6, 0, 4, 1, 6, 0, 0), .guards = OF(0, 6), TELLS(ASDRIFEN_OVERLAP, 1, 0)},
    {"publish_by_value: storage refuses, 10", PUBLISH_BY_VALUE, AS_LENT_BY(HEAD(2, 3, 0), STANDS, OF(9)), .changes = MOVES,
        .guards = HELD, .strip = OF(1), TELLS(ASDRIFEN_STORE, 0, 0)},
    {"publish_by_value: no room for the second, 11", PUBLISH_BY_VALUE, AS_LENT_BY(HEAD(2, 3, 0), STANDS, OF(9, 9)), .changes = TWO_COME,
        .guards = OF(0, 6), TELLS(ASDRIFEN_FULL, 1, 0)},
    {"publish_by_value: an undo fails, 12", PUBLISH_BY_VALUE, .head = {2, 3, 0}, .table = WIDE, .changes = TWO_COME, .guards = OF(0, 6),
        .strip = OF(0, 1, 1), .record = OF(9, 9), .head_after = {2, 4, 1}, TELLS(ASDRIFEN_UNDO, 1, 0), .table_after = ONE_STAYS,
        .record_after = OF(9, 9)},
    {"publish_by_value: an undo fails with the posting gone, 12", PUBLISH_BY_VALUE, .head = {2, 3, 0}, .table = WIDE,
        .changes = TWO_COME, .guards = OF(0, 6), .strip = OF(0, 1, 2), .record = OF(9, 9), .head_after = {2, 3, 1},
        TELLS(ASDRIFEN_UNDO, 1, 0), .table_after = WIDE, .record_after = OF(9, 9)},
    {"publish_by_value: a source stays, 13", PUBLISH_BY_VALUE, .head = {2, 3, 0}, .table = STANDS, .changes = MOVES, .guards = HELD,
        .strip = OF(0, 1), .record = OF(9), .head_after = {2, 4, 1}, TELLS(ASDRIFEN_SOURCE, 0, 0), .table_after = BOTH,
        .record_after = OF(0)},

    /* publish, head and guards lent */
    {"publish: accepted", PUBLISH, .head = {2, 3, 0}, .table = STANDS, .changes = MOVES, .guards = HELD, .record = OF(9, 9),
        .head_after = {2, 3, 0}, TELLS(ASDRIFEN_ACCEPTED, 1, 0), .table_after = MOVED, .record_after = OF(0, 9)},
    {"publish: every list NULL, accepted", PUBLISH, AS_LENT_BY(HEAD(64, 0, 0), NOTHING, NOTHING), TELLS(ASDRIFEN_ACCEPTED, 0, 0)},
    {"publish: poison flag 2, 1", PUBLISH, AS_LENT_BY(HEAD(2, 3, 2), STANDS, OF(9)), .changes = MOVES, .guards = HELD,
        TELLS(ASDRIFEN_TABLE, 0, 0)},
    {"publish: poison flag 4294967295, 1", PUBLISH, AS_LENT_BY(HEAD(2, 3, 4294967295u), STANDS, OF(9)), .changes = MOVES,
        .guards = HELD, TELLS(ASDRIFEN_TABLE, 0, 0)},
    {"publish: poisoned, 2", PUBLISH, AS_LENT_BY(HEAD(2, 3, 1), STANDS, OF(9)), .changes = MOVES, .guards = HELD,
        TELLS(ASDRIFEN_POISONED, 0, 0)},
    {"publish: no guards, 6", PUBLISH, AS_LENT_BY(HEAD(2, 3, 0), STANDS, OF(9)), .changes = MOVES, TELLS(ASDRIFEN_GUARD, 0, 0)},
    {"publish: binding and key of a guard exchanged, 6", PUBLISH, AS_LENT_BY(HEAD(2, 3, 0), STANDS, OF(9)), .changes = MOVES,
        .guards = OF(0, 5, 6, 0), TELLS(ASDRIFEN_GUARD, 0, 0)},
    {"publish: one destination twice, 7", PUBLISH, AS_LENT_BY(HEAD(2, 3, 0), WIDE, OF(9, 9)),
        .changes = OF(0, 4, 0, 0, 1, 6, 0, 4, 0, 0, 1, 6), .guards = OF(0, 6), TELLS(ASDRIFEN_TWICE, 0, 1)},
    {"publish: an undo fails, 12", PUBLISH, .head = {2, 3, 0}, .table = WIDE, .changes = TWO_COME, .guards = OF(0, 6),
        .strip = OF(0, 1, 1), .record = OF(9, 9), .head_after = {2, 4, 1}, TELLS(ASDRIFEN_UNDO, 1, 0), .table_after = ONE_STAYS,
        .record_after = OF(9, 9)},
    {"publish: a source fails and is gone, 13", PUBLISH, .head = {2, 3, 0}, .table = STANDS, .changes = MOVES, .guards = HELD,
        .strip = OF(0, 2), .record = OF(9), .head_after = {2, 3, 1}, TELLS(ASDRIFEN_SOURCE, 0, 0), .table_after = MOVED,
        .record_after = OF(0)},

    /* its two halves, and the way back */
    {"prepare_index_destinations: accepted", PREPARE, .head = {2, 3, 0}, .table = STANDS, .changes = MOVES, .guards = HELD,
        .record = OF(9, 9), .head_after = {2, 4, 0}, TELLS(ASDRIFEN_ACCEPTED, 1, 0), .table_after = BOTH, .record_after = OF(0, 9)},
    {"prepare_index_destinations: every list NULL, accepted", PREPARE, AS_LENT_BY(HEAD(0, 0, 0), NOTHING, NOTHING),
        TELLS(ASDRIFEN_ACCEPTED, 0, 0)},
    {"prepare_index_destinations: poisoned, 2", PREPARE, AS_LENT_BY(HEAD(2, 3, 1), STANDS, OF(9)), .changes = MOVES, .guards = HELD,
        TELLS(ASDRIFEN_POISONED, 0, 0)},
    {"prepare_index_destinations: storage refuses, 10", PREPARE, AS_LENT_BY(HEAD(2, 3, 0), STANDS, OF(9)), .changes = MOVES,
        .guards = HELD, .strip = OF(2), TELLS(ASDRIFEN_STORE, 0, 0)},
    {"rollback_index_destinations: accepted", ROLLBACK, .head = {2, 4, 0}, .table = BOTH, .changes = MOVES, .guards = HELD,
        .record = OF(0), .head_after = {2, 3, 0}, TELLS(ASDRIFEN_ACCEPTED, 0, 0), .table_after = STANDS, .record_after = OF(0)},
    {"rollback_index_destinations: every list NULL, accepted", ROLLBACK, AS_LENT_BY(HEAD(0, 0, 0), NOTHING, NOTHING),
        TELLS(ASDRIFEN_ACCEPTED, 0, 0)},
    {"rollback_index_destinations: no such change, 14", ROLLBACK, AS_LENT_BY(HEAD(2, 4, 0), BOTH, OF(0, 1)), .changes = MOVES,
        .guards = HELD, TELLS(ASDRIFEN_RECORD, 1, 0)},
    {"rollback_index_destinations: a change twice, 14", ROLLBACK, AS_LENT_BY(HEAD(2, 4, 0), BOTH, OF(0, 0)), .changes = MOVES,
        .guards = HELD, TELLS(ASDRIFEN_RECORD, 1, 0)},
    {"rollback_index_destinations: a removal fails, 12", ROLLBACK, .head = {2, 4, 0}, .table = BOTH, .changes = MOVES, .guards = HELD,
        .strip = OF(1), .record = OF(0), .head_after = {2, 4, 1}, TELLS(ASDRIFEN_UNDO, 0, 0), .table_after = BOTH,
        .record_after = OF(0)},
    {"remove_index_sources: accepted", REMOVE, .head = {2, 3, 0}, .table = STANDS, .changes = MOVES, .guards = HELD,
        .head_after = {2, 2, 0}, TELLS(ASDRIFEN_ACCEPTED, 0, 0), .table_after = GONE},
    {"remove_index_sources: every list NULL, accepted", REMOVE, AS_LENT_BY(HEAD(0, 0, 0), NOTHING, NOTHING),
        TELLS(ASDRIFEN_ACCEPTED, 0, 0)},
    {"remove_index_sources: poisoned, 2", REMOVE, AS_LENT_BY(HEAD(2, 3, 1), STANDS, NOTHING), .changes = MOVES, .guards = HELD,
        TELLS(ASDRIFEN_POISONED, 0, 0)},
    {"remove_index_sources: a removal fails, 13", REMOVE, .head = {2, 3, 0}, .table = STANDS, .changes = MOVES, .guards = HELD,
        .strip = OF(2), .head_after = {2, 2, 1}, TELLS(ASDRIFEN_SOURCE, 0, 0), .table_after = GONE},
};

static asdrifen_told published(struct posting_case *c, const uint8_t *strip)
{
    asdrifen_guard guards[8];
    size_t length = c->guards.length / 2;
    for (size_t k = 0; k < length; k++)
        guards[k] = (asdrifen_guard){c->guards.at[2 * k], c->guards.at[2 * k + 1]};
    return asdrifen_publish(&c->head, lent(&c->table), c->table.length, lent(&c->changes), c->changes.length,
        length > 0 ? guards : NULL, length, strip, c->strip.length, lent(&c->record), c->record.length);
}

static asdrifen_done by_value(struct posting_case *c, const uint8_t *strip)
{
    switch (c->call) {
    case PUBLISH:
        break;
    case PUBLISH_BY_VALUE:
        return asdrifen_publish_by_value(c->head, lent(&c->table), c->table.length, lent(&c->changes), c->changes.length,
            lent(&c->guards), c->guards.length, strip, c->strip.length, lent(&c->record), c->record.length);
    case PREPARE:
        return asdrifen_prepare_index_destinations(c->head, lent(&c->table), c->table.length, lent(&c->changes), c->changes.length,
            lent(&c->guards), c->guards.length, strip, c->strip.length, lent(&c->record), c->record.length);
    case ROLLBACK:
        return asdrifen_rollback_index_destinations(c->head, lent(&c->table), c->table.length, lent(&c->changes), c->changes.length,
            lent(&c->guards), c->guards.length, strip, c->strip.length, lent(&c->record), c->record.length);
    case REMOVE:
        return asdrifen_remove_index_sources(c->head, lent(&c->table), c->table.length, lent(&c->changes), c->changes.length,
            lent(&c->guards), c->guards.length, strip, c->strip.length);
    }
    asdrifen_told told = published(c, strip);
    return (asdrifen_done){c->head, told};
}

static void check_posting_calls(void)
{
    for (size_t k = 0; k < COUNT_OF(posting_cases); k++) {
        struct posting_case c = posting_cases[k];
        const struct posting_case *wanted = &posting_cases[k];
        uint8_t bytes[15];
        call = c.name;
        asdrifen_done done = by_value(&c, bytes_of(&c.strip, bytes));
        same_told(done.told, wanted->told);
        same_head(done.head, wanted->head_after);
        same_list("the table", c.table.at, wanted->table_after);
        same_list("the record", c.record.at, wanted->record_after);
        same_list("the changes", c.changes.at, wanted->changes);
        same_list("the guards", c.guards.at, wanted->guards);
        passed();
    }
}

/* The limit of guards: 1,024 of them are taken, and one more is 3. */
static void check_guards_at_their_limit(void)
{
    static asdrifen_guard guards[1025];
    static uint32_t flat[2050];
    const uint32_t changes[6] = {0, 1, 1, 5, 1, 6};
    for (uint32_t k = 0; k < 1025; k++) {
        guards[k] = (asdrifen_guard){0, k};
        flat[2 * k] = 0;
        flat[2 * k + 1] = k;
    }
    for (size_t length = 1024; length <= 1025; length++) {
        asdrifen_told wanted = {length == 1024 ? ASDRIFEN_ACCEPTED : ASDRIFEN_LIST, length == 1024, 0};
        uint32_t table[12] = {0, 5, 1, 0, 5, 2, 0, 5, 3}, record[1] = {9};
        asdrifen_head head = {2, 3, 0};
        call = length == 1024 ? "publish: 1,024 guards, accepted" : "publish: 1,025 guards, 3";
        same_told(asdrifen_publish(&head, table, 12, changes, 6, guards, length, NULL, 0, record, 1), wanted);
        same_head(head, (asdrifen_head){2, 3, 0});
        passed();

        uint32_t again[12] = {0, 5, 1, 0, 5, 2, 0, 5, 3};
        call = length == 1024 ? "publish_by_value: 1,024 guards, accepted" : "publish_by_value: 1,025 guards, 3";
        same_told(asdrifen_publish_by_value((asdrifen_head){2, 3, 0}, again, 12, changes, 6, flat, 2 * length, NULL, 0, record, 1).told,
            wanted);
        passed();
    }
}

/* The largest table: 4,096 postings, all in use, of which one goes. */
static void check_largest_table(void)
{
    static uint32_t table[12288];
    for (uint32_t k = 0; k < 4096; k++) {
        table[3 * k + 1] = 5;
        table[3 * k + 2] = k;
    }
    const uint32_t changes[6] = {0, 7, 1, 5, 0, 0};
    uint32_t record[1] = {9};
    asdrifen_head head = {1, 4096, 0};
    call = "publish: a full table of 12,288 numbers, accepted";
    same_told(asdrifen_publish(&head, table, 12288, changes, 6, &(asdrifen_guard){0, 5}, 1, NULL, 0, record, 1),
        (asdrifen_told){ASDRIFEN_ACCEPTED, 0, 0});
    same_head(head, (asdrifen_head){1, 4095, 0});
    same("row 6", table[3 * 6 + 2], 6);
    same("the row after it", table[3 * 7 + 2], 8);
    same_list("the end of the table", table + 12282, (struct list)OF(0, 5, 4095, 0, 0, 0));
    passed();
    call = "count: 4,095 postings";
    same_told(asdrifen_count(head, table, 12288, 0, 5), (asdrifen_told){ASDRIFEN_ACCEPTED, 4095, 0});
    passed();
}

static void check_poison_indexes(void)
{
    static const struct {
        const char *name;
        asdrifen_head head, after;
    } cases[] = {
        {"poison_indexes: sets the flag", {2, 3, 0}, {2, 3, 1}},
        {"poison_indexes: set already", {2, 3, 1}, {2, 3, 1}},
        {"poison_indexes: a damaged flag", {7, 4294967295u, 2}, {7, 4294967295u, 1}},
    };
    for (size_t k = 0; k < COUNT_OF(cases); k++) {
        asdrifen_head head = cases[k].head;
        call = cases[k].name;
        asdrifen_poison_indexes(&head);
        same_head(head, cases[k].after);
        passed();
    }
}

static void check_held(void)
{
    static const asdrifen_guard guards[2] = {{0, 5}, {4294967295u, 6}};
    static const struct {
        const char *name;
        size_t length;
        uint32_t binding, key, held;
    } cases[] = {
        {"held: the first guard", 2, 0, 5, 1},
        {"held: the last guard", 2, 4294967295u, 6, 1},
        {"held: past the length", 1, 4294967295u, 6, 0},
        {"held: binding and key exchanged", 2, 5, 0, 0},
        {"held: binding of one, key of another", 2, 0, 6, 0},
        {"held: NULL", 0, 0, 5, 0},
    };
    for (size_t k = 0; k < COUNT_OF(cases); k++) {
        call = cases[k].name;
        same("the answer", asdrifen_held(cases[k].length > 0 ? guards : NULL, cases[k].length, cases[k].binding, cases[k].key),
            cases[k].held);
        passed();
    }
}

static void check_count(void)
{
    static const struct {
        const char *name;
        asdrifen_head head;
        struct list table;
        uint32_t binding, key;
        asdrifen_told told;
    } cases[] = {
        {"count: three postings", {2, 3, 0}, STANDS, 0, 5, {ASDRIFEN_ACCEPTED, 3, 0}},
        {"count: no posting", {2, 3, 0}, STANDS, 0, 6, {ASDRIFEN_ACCEPTED, 0, 0}},
        {"count: NULL, no posting", {2, 0, 0}, NOTHING, 1, 5, {ASDRIFEN_ACCEPTED, 0, 0}},
        {"count: NULL and one used, 1", {2, 1, 0}, NOTHING, 1, 5, {ASDRIFEN_TABLE, 0, 0}},
        {"count: a number left past those in use, 1", {2, 2, 0}, STANDS, 0, 5, {ASDRIFEN_TABLE, 0, 0}},
        {"count: poison flag 2, 1", {2, 3, 2}, STANDS, 0, 5, {ASDRIFEN_TABLE, 0, 0}},
        {"count: poison flag 4294967295, 1", {2, 3, 4294967295u}, STANDS, 0, 5, {ASDRIFEN_TABLE, 0, 0}},
        {"count: poisoned, 2", {2, 3, 1}, STANDS, 0, 5, {ASDRIFEN_POISONED, 0, 0}},
        {"count: no such index, 6", {2, 3, 0}, STANDS, 2, 5, {ASDRIFEN_GUARD, 0, 0}},
    };
    for (size_t k = 0; k < COUNT_OF(cases); k++) {
        struct list table = cases[k].table;
        call = cases[k].name;
        same_told(asdrifen_count(cases[k].head, lent(&table), table.length, cases[k].binding, cases[k].key), cases[k].told);
        same_list("the table", table.at, cases[k].table);
        passed();
    }
}

/* ---- The lane calls ---- */

enum lane_call { CACHED, REFRESHED, DETACH };

struct lane_case {
    const char *name;
    enum lane_call call;
    asdrifen_view view;
    struct list strip;
    uint32_t rounds;
    asdrifen_detached detached;
};

#define EVERY 4294967295u

static const struct lane_case lane_cases[] = {
    /* height, guarded, retired, attached, window */
    {"cached_detach: yes", CACHED, {3, 1, 0, 7, 7}, NOTHING, 0, {{3, 1, 0, 0, 7}, ASDRIFEN_ACCEPTED, 1}},
    {"cached_detach: lane 0 is not in the window, no", CACHED, {3, 1, 0, 7, 6}, NOTHING, 0, {{3, 1, 0, 1, 6}, ASDRIFEN_ACCEPTED, 0}},
    {"cached_detach: 32 lanes, yes", CACHED, {32, 1, 0, EVERY, EVERY}, NOTHING, 0, {{32, 1, 0, 0, EVERY}, ASDRIFEN_ACCEPTED, 1}},
    {"cached_detach: no height, 20", CACHED, {0, 1, 0, 7, 7}, NOTHING, 0, {{0, 1, 0, 7, 7}, ASDRIFEN_LANE_HEIGHT, 0}},
    {"cached_detach: not guarded, 21", CACHED, {3, 0, 0, 7, 7}, NOTHING, 0, {{3, 0, 0, 7, 7}, ASDRIFEN_LANE_VIEW, 0}},
    {"cached_detach: guarded 2, 21", CACHED, {3, 2, 0, 7, 7}, NOTHING, 0, {{3, 2, 0, 7, 7}, ASDRIFEN_LANE_VIEW, 0}},
    {"cached_detach: retired 4294967295, 21", CACHED, {3, 1, EVERY, 7, 7}, NOTHING, 0, {{3, 1, EVERY, 7, 7}, ASDRIFEN_LANE_VIEW, 0}},
    {"cached_detach: a byte of 3, 23", CACHED, {3, 1, 0, 7, 7}, OF(0, 3), 0, {{3, 1, 0, 7, 7}, ASDRIFEN_LANE_STRIP, 0}},
    {"cached_detach: storage error at lane 1, 24", CACHED, {3, 1, 0, 7, 7}, OF(0, 2), 0, {{3, 1, 0, 3, 7}, ASDRIFEN_LANE_OFFSET, 0}},

    {"refreshed_detach: nothing attached, yes", REFRESHED, {3, 1, 0, 0, 0}, NOTHING, 0, {{3, 1, 0, 0, 0}, ASDRIFEN_ACCEPTED, 1}},
    {"refreshed_detach: lanes tried, no", REFRESHED, {3, 1, 0, 5, 7}, NOTHING, 0, {{3, 1, 0, 0, 7}, ASDRIFEN_ACCEPTED, 0}},
    {"refreshed_detach: lane 2 says no and goes on", REFRESHED, {3, 1, 0, 7, 7}, OF(1), 0, {{3, 1, 0, 4, 7}, ASDRIFEN_ACCEPTED, 0}},
    {"refreshed_detach: height 33, 20", REFRESHED, {33, 1, 0, 7, 7}, NOTHING, 0, {{33, 1, 0, 7, 7}, ASDRIFEN_LANE_HEIGHT, 0}},
    {"refreshed_detach: guarded 4294967295, 21", REFRESHED, {3, EVERY, 0, 7, 7}, NOTHING, 0, {{3, EVERY, 0, 7, 7}, ASDRIFEN_LANE_VIEW, 0}},
    {"refreshed_detach: retired 2, 21", REFRESHED, {3, 1, 2, 7, 7}, NOTHING, 0, {{3, 1, 2, 7, 7}, ASDRIFEN_LANE_VIEW, 0}},
    {"refreshed_detach: lane 0 not in the window, 22", REFRESHED, {3, 1, 0, 7, 6}, NOTHING, 0, {{3, 1, 0, 7, 6}, ASDRIFEN_LANE_WINDOW, 0}},
    {"refreshed_detach: a byte of 255, 23", REFRESHED, {3, 1, 0, 7, 7}, OF(255), 0, {{3, 1, 0, 7, 7}, ASDRIFEN_LANE_STRIP, 0}},
    {"refreshed_detach: storage error at lane 1, 24", REFRESHED, {3, 1, 0, 7, 7}, OF(0, 2), 0, {{3, 1, 0, 3, 7}, ASDRIFEN_LANE_OFFSET, 0}},

    {"detach_before_retire: two rounds", DETACH, {3, 1, 0, 7, 6}, NOTHING, 2, {{3, 1, 1, 0, 0}, ASDRIFEN_ACCEPTED, 2}},
    {"detach_before_retire: 4294967295 rounds lent", DETACH, {3, 1, 0, 7, 6}, NOTHING, EVERY, {{3, 1, 1, 0, 0}, ASDRIFEN_ACCEPTED, 2}},
    {"detach_before_retire: no round needed", DETACH, {3, 1, 0, 7, 7}, NOTHING, 0, {{3, 1, 1, 0, 7}, ASDRIFEN_ACCEPTED, 0}},
    {"detach_before_retire: height 33, 20", DETACH, {33, 1, 0, 7, 7}, NOTHING, 2, {{33, 1, 0, 7, 7}, ASDRIFEN_LANE_HEIGHT, 0}},
    {"detach_before_retire: retired, 21", DETACH, {3, 1, 1, 7, 7}, NOTHING, 2, {{3, 1, 1, 7, 7}, ASDRIFEN_LANE_VIEW, 0}},
    {"detach_before_retire: guarded 2, retired 4294967295, 21", DETACH, {3, 2, EVERY, 7, 7}, NOTHING, 2,
        {{3, 2, EVERY, 7, 7}, ASDRIFEN_LANE_VIEW, 0}},
    {"detach_before_retire: a lane at the height, 21", DETACH, {3, 1, 0, 8, 8}, NOTHING, 2, {{3, 1, 0, 8, 8}, ASDRIFEN_LANE_VIEW, 0}},
    {"detach_before_retire: a byte of 3, 23", DETACH, {3, 1, 0, 7, 6}, OF(3), 2, {{3, 1, 0, 7, 6}, ASDRIFEN_LANE_STRIP, 0}},
    {"detach_before_retire: the first refresh fails, 24", DETACH, {3, 1, 0, 7, 6}, OF(0, 0, 2), 2,
        {{3, 1, 0, 1, 6}, ASDRIFEN_LANE_OFFSET, 1}},
    {"detach_before_retire: one round is not enough, 25", DETACH, {3, 1, 0, 7, 6}, NOTHING, 1, {{3, 1, 0, 0, 1}, ASDRIFEN_LANE_BUDGET, 1}},
    {"detach_before_retire: no round lent, 25", DETACH, {3, 1, 0, 7, 6}, NOTHING, 0, {{3, 1, 0, 1, 6}, ASDRIFEN_LANE_BUDGET, 0}},
};

static asdrifen_detached detached_by(const struct lane_case *c, const uint32_t *contents, size_t length, const uint8_t *strip)
{
    switch (c->call) {
    case CACHED:
        return asdrifen_cached_detach(c->view, contents, length, strip, c->strip.length);
    case REFRESHED:
        return asdrifen_refreshed_detach(c->view, contents, length, strip, c->strip.length);
    case DETACH:
        break;
    }
    return asdrifen_detach_before_retire(c->view, contents, length, strip, c->strip.length, c->rounds);
}

static void check_lane_calls(void)
{
    for (size_t k = 0; k < COUNT_OF(lane_cases); k++) {
        const struct lane_case *c = &lane_cases[k];
        struct list contents = OF(5, 6, 7);
        uint8_t bytes[15];
        /* what readers hold pinned: now three numbers, now none */
        size_t length = k % 2 == 0 ? 3 : 0;
        call = c->name;
        asdrifen_detached got = detached_by(c, length > 0 ? contents.at : NULL, length, bytes_of(&c->strip, bytes));
        same("the answer", got.answer, c->detached.answer);
        same("the value", got.value, c->detached.value);
        same("height of the view", got.view.height, c->detached.view.height);
        same("guarded of the view", got.view.guarded, c->detached.view.guarded);
        same("retired of the view", got.view.retired, c->detached.view.retired);
        same("attached of the view", got.view.attached, c->detached.view.attached);
        same("window of the view", got.view.window, c->detached.view.window);
        same_list("the contents", contents.at, (struct list)OF(5, 6, 7));
        passed();
    }
}

/* ---- The bucket calls ---- */

struct bucket_case {
    const char *name, *bitmap_name;
    struct list input;
    uint32_t buckets;
    struct list output, scratch;
    asdrifen_told told;
    struct list output_after, scratch_after;
};

static const struct bucket_case bucket_cases[] = {
    {"canonical_buckets_sort: three of four", "canonical_buckets_bitmap: three of four", OF(3, 1, 3, 0), 4, OF(9, 9, 9, 9), OF(77, 77),
        {ASDRIFEN_ACCEPTED, 3, 0}, OF(0, 1, 3, 9), OF(11, 77)},
    {"canonical_buckets_sort: 33 buckets", "canonical_buckets_bitmap: 33 buckets", OF(32, 0), 33, OF(9, 9), OF(77, 77),
        {ASDRIFEN_ACCEPTED, 2, 0}, OF(0, 32), OF(1, 1)},
    {"canonical_buckets_sort: more numbers than buckets", "canonical_buckets_bitmap: more numbers than buckets", OF(1, 0, 1, 0, 1), 2,
        OF(9, 9), OF(77), {ASDRIFEN_ACCEPTED, 2, 0}, OF(0, 1), OF(3)},
    {"canonical_buckets_sort: no input", "canonical_buckets_bitmap: no input", NOTHING, 4, NOTHING, OF(77),
        {ASDRIFEN_ACCEPTED, 0, 0}, NOTHING, OF(0)},
    {"canonical_buckets_sort: no input, no buckets", "canonical_buckets_bitmap: no input, no buckets", NOTHING, 0, NOTHING, NOTHING,
        {ASDRIFEN_ACCEPTED, 0, 0}, NOTHING, NOTHING},
    {"canonical_buckets_sort: 65,537 buckets, 30", "canonical_buckets_bitmap: 65,537 buckets, 30", OF(3), 65537, OF(9), OF(77),
        {ASDRIFEN_BUCKET_LIMITS, 0, 0}, OF(9), OF(77)},
    {"canonical_buckets_sort: output too short, 31", "canonical_buckets_bitmap: output too short, 31", OF(3, 1, 3, 0), 4, OF(9, 9, 9),
        OF(77), {ASDRIFEN_BUCKET_ROOM, 0, 0}, OF(9, 9, 9), OF(77)},
    {"canonical_buckets_sort: 4 is out of range, 32", "canonical_buckets_bitmap: 4 is out of range, 32", OF(3, 4, 3, 7), 4,
        OF(9, 9, 9, 9), OF(77), {ASDRIFEN_BUCKET_RANGE, 4, 0}, OF(9, 9, 9, 9), OF(77)},
    {"canonical_buckets_sort: 4294967295, 32", "canonical_buckets_bitmap: 4294967295, 32", OF(4294967295u), 1, OF(9), OF(77),
        {ASDRIFEN_BUCKET_RANGE, 4294967295u, 0}, OF(9), OF(77)},
};

static void check_bucket_calls(void)
{
    for (size_t k = 0; k < COUNT_OF(bucket_cases); k++) {
        const struct bucket_case *wanted = &bucket_cases[k];
        struct bucket_case c = *wanted;
        call = wanted->name;
        same_told(asdrifen_canonical_buckets_sort(lent(&c.input), c.input.length, c.buckets, lent(&c.output), c.output.length),
            wanted->told);
        same_list("the output", c.output.at, wanted->output_after);
        same_list("the input", c.input.at, wanted->input);
        passed();
        c = *wanted;
        call = wanted->bitmap_name;
        same_told(asdrifen_canonical_buckets_bitmap(lent(&c.input), c.input.length, c.buckets, lent(&c.output), c.output.length,
                      lent(&c.scratch), c.scratch.length),
            wanted->told);
        same_list("the output", c.output.at, wanted->output_after);
        same_list("the scratch", c.scratch.at, wanted->scratch_after);
        same_list("the input", c.input.at, wanted->input);
        passed();
    }

    uint32_t input[2] = {1, 0}, output[2] = {9, 9};
    call = "canonical_buckets_bitmap: scratch NULL, 31";
    same_told(asdrifen_canonical_buckets_bitmap(input, 2, 2, output, 2, NULL, 0), (asdrifen_told){ASDRIFEN_BUCKET_ROOM, 0, 0});
    same_list("the output", output, (struct list)OF(9, 9));
    passed();
}

/* The largest input: 4,096 numbers, descending, are taken; one more is 30. */
static void check_largest_input(void)
{
    static uint32_t input[4097], output[4097], scratch[2048];
    for (uint32_t k = 0; k < 4097; k++)
        input[k] = 65535 - 15 * k;
    for (size_t length = 4096; length <= 4097; length++) {
        asdrifen_told wanted = {length == 4096 ? ASDRIFEN_ACCEPTED : ASDRIFEN_BUCKET_LIMITS, length == 4096 ? 4096 : 0, 0};
        for (int bitmap = 0; bitmap < 2; bitmap++) {
            call = bitmap ? (length == 4096 ? "canonical_buckets_bitmap: 4,096 numbers" : "canonical_buckets_bitmap: 4,097 numbers, 30")
                          : (length == 4096 ? "canonical_buckets_sort: 4,096 numbers" : "canonical_buckets_sort: 4,097 numbers, 30");
            memset(output, 0, sizeof output);
            same_told(bitmap ? asdrifen_canonical_buckets_bitmap(input, length, 65536, output, 4097, scratch, 2048)
                             : asdrifen_canonical_buckets_sort(input, length, 65536, output, 4097),
                wanted);
            for (uint32_t k = 0; k < 4097; k++)
                same("a number of the output", output[k], length == 4096 && k < 4096 ? input[4095 - k] : 0);
            passed();
        }
    }
}

static void check_stamp_precedes_snapshot(void)
{
    static const struct {
        const char *name;
        uint64_t stamp, snapshot;
        uint32_t precedes;
    } cases[] = {
        {"stamp_precedes_snapshot: 1, 2", 1, 2, 1},
        {"stamp_precedes_snapshot: 2, 2", 2, 2, 0},
        {"stamp_precedes_snapshot: 2, 1", 2, 1, 0},
        {"stamp_precedes_snapshot: 1, 4294967296", 1, 4294967296u, 1},
        {"stamp_precedes_snapshot: 4294967296, 1", 4294967296u, 1, 0},
        {"stamp_precedes_snapshot: the two largest", UINT64_MAX - 1, UINT64_MAX, 1},
        {"stamp_precedes_snapshot: the largest twice", UINT64_MAX, UINT64_MAX, 0},
    };
    for (size_t k = 0; k < COUNT_OF(cases); k++) {
        call = cases[k].name;
        same("the answer", asdrifen_stamp_precedes_snapshot(cases[k].stamp, cases[k].snapshot), cases[k].precedes);
        passed();
    }
}

int main(void)
{
    check_posting_calls();
    check_guards_at_their_limit();
    check_largest_table();
    check_poison_indexes();
    check_held();
    check_count();
    check_lane_calls();
    check_bucket_calls();
    check_largest_input();
    check_stamp_precedes_snapshot();
    printf("surface: %u calls, every number as the rules say\n", calls);
    return 0;
}
