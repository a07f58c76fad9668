/*
 * The other end of client.c: an x86-64 program, linked with the proved library, that an emulator runs. It reads a frame from
 * standard input, makes the call, writes the reply to standard output, and ends where the input does.
 *
 * The machine that builds it need not have the C library's headers for x86-64, so the four functions that it wants are declared
 * here.
 */
#include "asdrifen.h"
#include "wire.h"

extern long read(int file, void *place, size_t bytes);
extern long write(int file, const void *place, size_t bytes);
extern void *realloc(void *place, size_t bytes);
extern _Noreturn void _exit(int status);

/* The start of a list. An empty one is lent as NULL. */
static void *list_at(struct frame *frame, int list)
{
    unsigned char *next = (unsigned char *)(frame + 1);
    if (frame->lengths[list] == 0)
        return NULL;
    for (int k = 0; k < list; k++)
        next += padded(frame->lengths[k]);
    return next;
}

/* A list as the two arguments that it is in C. */
#define NUMBERS_AT(list) list_at(frame, list), frame->lengths[list] / sizeof(uint32_t)
#define GUARDS_AT(list) list_at(frame, list), frame->lengths[list] / sizeof(asdrifen_guard)
#define BYTES_AT(list) list_at(frame, list), frame->lengths[list]

static void put_told(uint32_t *n, asdrifen_told told)
{
    n[0] = told.answer;
    n[1] = told.named;
    n[2] = told.other;
}

static void put_head(uint32_t *n, asdrifen_head head)
{
    n[0] = head.bindings;
    n[1] = head.used;
    n[2] = head.poisoned;
}

static void put_done(uint32_t *n, asdrifen_done done)
{
    put_head(n, done.head);
    put_told(n + 3, done.told);
}

static void put_detached(uint32_t *n, asdrifen_detached detached)
{
    n[0] = detached.view.height;
    n[1] = detached.view.guarded;
    n[2] = detached.view.retired;
    n[3] = detached.view.attached;
    n[4] = detached.view.window;
    n[5] = detached.answer;
    n[6] = detached.value;
}

static void serve(struct frame *frame)
{
    uint32_t *n = frame->numbers;
    asdrifen_head head = {n[0], n[1], n[2]};
    asdrifen_view view = {n[0], n[1], n[2], n[3], n[4]};
    switch ((enum function)frame->function) {
    case PUBLISH:
        put_told(n + 3, asdrifen_publish(&head, NUMBERS_AT(0), NUMBERS_AT(2), GUARDS_AT(3), BYTES_AT(4), NUMBERS_AT(1)));
        put_head(n, head);
        return;
    case POISON_INDEXES:
        asdrifen_poison_indexes(&head);
        put_head(n, head);
        return;
    case HELD:
        n[0] = asdrifen_held(GUARDS_AT(0), n[0], n[1]);
        return;
    case PUBLISH_BY_VALUE:
        put_done(n, asdrifen_publish_by_value(head, NUMBERS_AT(0), NUMBERS_AT(2), NUMBERS_AT(3), BYTES_AT(4), NUMBERS_AT(1)));
        return;
    case PREPARE_INDEX_DESTINATIONS:
        put_done(n,
            asdrifen_prepare_index_destinations(head, NUMBERS_AT(0), NUMBERS_AT(2), NUMBERS_AT(3), BYTES_AT(4), NUMBERS_AT(1)));
        return;
    case ROLLBACK_INDEX_DESTINATIONS:
        put_done(n,
            asdrifen_rollback_index_destinations(head, NUMBERS_AT(0), NUMBERS_AT(2), NUMBERS_AT(3), BYTES_AT(4), NUMBERS_AT(1)));
        return;
    case REMOVE_INDEX_SOURCES:
        put_done(n, asdrifen_remove_index_sources(head, NUMBERS_AT(0), NUMBERS_AT(1), NUMBERS_AT(2), BYTES_AT(3)));
        return;
    case COUNT:
        put_told(n, asdrifen_count(head, NUMBERS_AT(0), n[3], n[4]));
        return;
    case CACHED_DETACH:
        put_detached(n, asdrifen_cached_detach(view, NUMBERS_AT(0), BYTES_AT(1)));
        return;
    case REFRESHED_DETACH:
        put_detached(n, asdrifen_refreshed_detach(view, NUMBERS_AT(0), BYTES_AT(1)));
        return;
    case DETACH_BEFORE_RETIRE:
        put_detached(n, asdrifen_detach_before_retire(view, NUMBERS_AT(0), BYTES_AT(1), n[5]));
        return;
    case CANONICAL_BUCKETS_SORT:
        put_told(n, asdrifen_canonical_buckets_sort(NUMBERS_AT(1), n[0], NUMBERS_AT(0)));
        return;
    case CANONICAL_BUCKETS_BITMAP:
        put_told(n, asdrifen_canonical_buckets_bitmap(NUMBERS_AT(2), n[0], NUMBERS_AT(0), NUMBERS_AT(1)));
        return;
    case STAMP_PRECEDES_SNAPSHOT:
        n[0] = asdrifen_stamp_precedes_snapshot(n[0] | (uint64_t)n[1] << 32, n[2] | (uint64_t)n[3] << 32);
        return;
    }
    _exit(4);
}

int main(void)
{
    size_t room = 1 << 18;
    unsigned char *place = realloc(NULL, room);
    if (!place)
        return 3;
    for (;;) {
        /* the client waits for its reply, so that nothing of a later frame can come with this one */
        size_t have = 0, want = sizeof(struct frame);
        while (have < want) {
            long got = read(0, place + have, room - have);
            if (got <= 0)
                return have > 0;
            have += (size_t)got;
            if (have >= sizeof(struct frame))
                want = ((struct frame *)(void *)place)->bytes;
            if (want > room) {
                room = want;
                place = realloc(place, room);
                if (!place)
                    return 3;
            }
        }
        struct frame *frame = (struct frame *)(void *)place;
        serve(frame);
        for (size_t sent = 0; sent < frame->bytes_back;) {
            long wrote = write(1, place + sent, frame->bytes_back - sent);
            if (wrote <= 0)
                return 2;
            sent += (size_t)wrote;
        }
    }
}
