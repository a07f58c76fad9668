/*
 * The functions of asdrifen.h for a machine that is not x86-64. The proved code is compiled for x86-64 alone, so each call goes
 * over to a child process, server.c, which the emulator runs, and the result comes back. It is for trying things out: on x86-64
 * a program links with the library itself.
 *
 * Any thread may call. A call takes an idle child, or starts one where there is none. The children end when this process does.
 */
#define _GNU_SOURCE
#include "asdrifen.h"
#include "wire.h"

#include <errno.h>
#include <pthread.h>
#include <spawn.h>
#include <stdio.h>
#include <stdlib.h>
#include <string.h>
#include <sys/socket.h>
#include <unistd.h>

/* A child, and the room for its frames. */
struct child {
    struct child *next;
    int socket;
    size_t room;
    struct frame *frame;
};

/* A list that is lent. */
struct lent {
    void *place;
    size_t bytes;
};

static struct child *idle;
static pthread_mutex_t idle_lock = PTHREAD_MUTEX_INITIALIZER;

static _Noreturn void give_up(const char *what, int number)
{
    fprintf(stderr, "asdrifen bridge: %s: %s\n", what, number ? strerror(number) : "no reason given");
    abort();
}

static struct child *started(void)
{
    int ends[2];
    if (socketpair(AF_UNIX, SOCK_STREAM | SOCK_CLOEXEC, 0, ends) != 0)
        give_up("no socket for the emulated library", errno);
    char *words[] = {EMULATOR, LOADER, "--library-path", LIBRARIES, SERVER, NULL};
    char *nothing[] = {NULL};
    posix_spawn_file_actions_t actions;
    pid_t process;
    posix_spawn_file_actions_init(&actions);
    posix_spawn_file_actions_adddup2(&actions, ends[1], 0);
    posix_spawn_file_actions_adddup2(&actions, ends[1], 1);
    int failed = posix_spawn(&process, EMULATOR, &actions, NULL, words, nothing);
    if (failed)
        give_up("cannot start the emulator " EMULATOR, failed);
    posix_spawn_file_actions_destroy(&actions);
    close(ends[1]);
    struct child *child = calloc(1, sizeof *child);
    if (!child)
        give_up("no memory", ENOMEM);
    child->socket = ends[0];
    return child;
}

static struct child *take(void)
{
    pthread_mutex_lock(&idle_lock);
    struct child *child = idle;
    if (child)
        idle = child->next;
    pthread_mutex_unlock(&idle_lock);
    return child ? child : started();
}

static void give_back(struct child *child)
{
    pthread_mutex_lock(&idle_lock);
    child->next = idle;
    idle = child;
    pthread_mutex_unlock(&idle_lock);
}

static void send_all(int socket, const void *place, size_t bytes)
{
    const char *next = place;
    while (bytes > 0) {
        ssize_t sent = send(socket, next, bytes, MSG_NOSIGNAL);
        if (sent < 0 && errno == EINTR)
            continue;
        if (sent <= 0)
            give_up("the emulated library has ended (" SERVER ")", errno);
        next += sent;
        bytes -= (size_t)sent;
    }
}

static void receive_all(int socket, void *place, size_t bytes)
{
    char *next = place;
    while (bytes > 0) {
        ssize_t got = recv(socket, next, bytes, MSG_WAITALL);
        if (got < 0 && errno == EINTR)
            continue;
        if (got <= 0)
            give_up("the emulated library has ended (" SERVER ")", got < 0 ? errno : 0);
        next += got;
        bytes -= (size_t)got;
    }
}

/* Makes one call: the first `written` lists are lent for writing. The numbers go over, and those of the result come back. */
static void cross(enum function function, uint32_t numbers[NUMBERS], size_t written, const struct lent lists[LISTS])
{
    struct child *child = take();
    uint64_t bytes = sizeof(struct frame), bytes_back = bytes;
    for (size_t k = 0; k < LISTS; k++) {
        bytes += padded(lists[k].bytes);
        if (k < written)
            bytes_back = bytes;
    }
    if (bytes > child->room) {
        free(child->frame);
        child->frame = calloc(1, bytes);
        if (!child->frame)
            give_up("no memory", ENOMEM);
        child->room = bytes;
    }
    struct frame *frame = child->frame;
    frame->bytes = bytes;
    frame->bytes_back = bytes_back;
    frame->function = function;
    memcpy(frame->numbers, numbers, sizeof frame->numbers);
    char *next = (char *)(frame + 1);
    for (size_t k = 0; k < LISTS; k++) {
        frame->lengths[k] = lists[k].bytes;
        if (lists[k].bytes > 0)
            memcpy(next, lists[k].place, lists[k].bytes);
        next += padded(lists[k].bytes);
    }
    send_all(child->socket, frame, bytes);
    receive_all(child->socket, frame, bytes_back);
    memcpy(numbers, frame->numbers, sizeof frame->numbers);
    next = (char *)(frame + 1);
    for (size_t k = 0; k < written; k++) {
        if (lists[k].bytes > 0)
            memcpy(lists[k].place, next, lists[k].bytes);
        next += padded(lists[k].bytes);
    }
    give_back(child);
}

/* Lists as they are lent. Only the first `written` ones of a call are ever written, so that const may go here. */
static struct lent numbers_of(const uint32_t *list, size_t length)
{
    return (struct lent){(void *)list, length * sizeof *list};
}

static struct lent guards_of(const asdrifen_guard *list, size_t length)
{
    return (struct lent){(void *)list, length * sizeof *list};
}

static struct lent bytes_of(const uint8_t *list, size_t length)
{
    return (struct lent){(void *)list, length};
}

static asdrifen_told told_of(const uint32_t n[NUMBERS])
{
    return (asdrifen_told){n[0], n[1], n[2]};
}

static asdrifen_done done_of(const uint32_t n[NUMBERS])
{
    return (asdrifen_done){{n[0], n[1], n[2]}, {n[3], n[4], n[5]}};
}

static asdrifen_detached detached_of(const uint32_t n[NUMBERS])
{
    return (asdrifen_detached){{n[0], n[1], n[2], n[3], n[4]}, n[5], n[6]};
}

asdrifen_told asdrifen_publish(asdrifen_head *head, uint32_t *table, size_t table_len, const uint32_t *changes, size_t changes_len,
    const asdrifen_guard *guards, size_t guards_len, const uint8_t *strip, size_t strip_len, uint32_t *record, size_t record_len)
{
    uint32_t n[NUMBERS] = {head->bindings, head->used, head->poisoned};
    cross(PUBLISH, n, 2,
        (struct lent[LISTS]){numbers_of(table, table_len), numbers_of(record, record_len), numbers_of(changes, changes_len),
            guards_of(guards, guards_len), bytes_of(strip, strip_len)});
    asdrifen_done done = done_of(n);
    *head = done.head;
    return done.told;
}

void asdrifen_poison_indexes(asdrifen_head *head)
{
    uint32_t n[NUMBERS] = {head->bindings, head->used, head->poisoned};
    cross(POISON_INDEXES, n, 0, (struct lent[LISTS]){{0}});
    *head = (asdrifen_head){n[0], n[1], n[2]};
}

uint32_t asdrifen_held(const asdrifen_guard *guards, size_t guards_len, uint32_t binding, uint32_t key)
{
    uint32_t n[NUMBERS] = {binding, key};
    cross(HELD, n, 0, (struct lent[LISTS]){guards_of(guards, guards_len)});
    return n[0];
}

asdrifen_done asdrifen_publish_by_value(asdrifen_head head, uint32_t *table, size_t table_len, const uint32_t *changes,
    size_t changes_len, const uint32_t *guards, size_t guards_len, const uint8_t *strip, size_t strip_len, uint32_t *record,
    size_t record_len)
{
    uint32_t n[NUMBERS] = {head.bindings, head.used, head.poisoned};
    cross(PUBLISH_BY_VALUE, n, 2,
        (struct lent[LISTS]){numbers_of(table, table_len), numbers_of(record, record_len), numbers_of(changes, changes_len),
            numbers_of(guards, guards_len), bytes_of(strip, strip_len)});
    return done_of(n);
}

asdrifen_done asdrifen_prepare_index_destinations(asdrifen_head head, uint32_t *table, size_t table_len, const uint32_t *changes,
    size_t changes_len, const uint32_t *guards, size_t guards_len, const uint8_t *strip, size_t strip_len, uint32_t *record,
    size_t record_len)
{
    uint32_t n[NUMBERS] = {head.bindings, head.used, head.poisoned};
    cross(PREPARE_INDEX_DESTINATIONS, n, 2,
        (struct lent[LISTS]){numbers_of(table, table_len), numbers_of(record, record_len), numbers_of(changes, changes_len),
            numbers_of(guards, guards_len), bytes_of(strip, strip_len)});
    return done_of(n);
}

asdrifen_done asdrifen_rollback_index_destinations(asdrifen_head head, uint32_t *table, size_t table_len, const uint32_t *changes,
    size_t changes_len, const uint32_t *guards, size_t guards_len, const uint8_t *strip, size_t strip_len, const uint32_t *record,
    size_t record_len)
{
    uint32_t n[NUMBERS] = {head.bindings, head.used, head.poisoned};
    cross(ROLLBACK_INDEX_DESTINATIONS, n, 1,
        (struct lent[LISTS]){numbers_of(table, table_len), numbers_of(record, record_len), numbers_of(changes, changes_len),
            numbers_of(guards, guards_len), bytes_of(strip, strip_len)});
    return done_of(n);
}

asdrifen_done asdrifen_remove_index_sources(asdrifen_head head, uint32_t *table, size_t table_len, const uint32_t *changes,
    size_t changes_len, const uint32_t *guards, size_t guards_len, const uint8_t *strip, size_t strip_len)
{
    uint32_t n[NUMBERS] = {head.bindings, head.used, head.poisoned};
    cross(REMOVE_INDEX_SOURCES, n, 1,
        (struct lent[LISTS]){numbers_of(table, table_len), numbers_of(changes, changes_len), numbers_of(guards, guards_len),
            bytes_of(strip, strip_len)});
    return done_of(n);
}

asdrifen_told asdrifen_count(asdrifen_head head, const uint32_t *table, size_t table_len, uint32_t binding, uint32_t key)
{
    uint32_t n[NUMBERS] = {head.bindings, head.used, head.poisoned, binding, key};
    cross(COUNT, n, 0, (struct lent[LISTS]){numbers_of(table, table_len)});
    return told_of(n);
}

asdrifen_detached asdrifen_cached_detach(asdrifen_view view, const uint32_t *contents, size_t contents_len, const uint8_t *strip,
    size_t strip_len)
{
    uint32_t n[NUMBERS] = {view.height, view.guarded, view.retired, view.attached, view.window};
    cross(CACHED_DETACH, n, 0, (struct lent[LISTS]){numbers_of(contents, contents_len), bytes_of(strip, strip_len)});
    return detached_of(n);
}

asdrifen_detached asdrifen_refreshed_detach(asdrifen_view view, const uint32_t *contents, size_t contents_len, const uint8_t *strip,
    size_t strip_len)
{
    uint32_t n[NUMBERS] = {view.height, view.guarded, view.retired, view.attached, view.window};
    cross(REFRESHED_DETACH, n, 0, (struct lent[LISTS]){numbers_of(contents, contents_len), bytes_of(strip, strip_len)});
    return detached_of(n);
}

asdrifen_detached asdrifen_detach_before_retire(asdrifen_view view, const uint32_t *contents, size_t contents_len,
    const uint8_t *strip, size_t strip_len, uint32_t rounds)
{
    uint32_t n[NUMBERS] = {view.height, view.guarded, view.retired, view.attached, view.window, rounds};
    cross(DETACH_BEFORE_RETIRE, n, 0, (struct lent[LISTS]){numbers_of(contents, contents_len), bytes_of(strip, strip_len)});
    return detached_of(n);
}

asdrifen_told asdrifen_canonical_buckets_sort(const uint32_t *input, size_t input_len, uint32_t buckets, uint32_t *output,
    size_t output_len)
{
    uint32_t n[NUMBERS] = {buckets};
    cross(CANONICAL_BUCKETS_SORT, n, 1, (struct lent[LISTS]){numbers_of(output, output_len), numbers_of(input, input_len)});
    return told_of(n);
}

asdrifen_told asdrifen_canonical_buckets_bitmap(const uint32_t *input, size_t input_len, uint32_t buckets, uint32_t *output,
    size_t output_len, uint32_t *scratch, size_t scratch_len)
{
    uint32_t n[NUMBERS] = {buckets};
    cross(CANONICAL_BUCKETS_BITMAP, n, 2,
        (struct lent[LISTS]){numbers_of(output, output_len), numbers_of(scratch, scratch_len), numbers_of(input, input_len)});
    return told_of(n);
}

uint32_t asdrifen_stamp_precedes_snapshot(uint64_t stamp, uint64_t snapshot)
{
    uint32_t n[NUMBERS] = {(uint32_t)stamp, (uint32_t)(stamp >> 32), (uint32_t)snapshot, (uint32_t)(snapshot >> 32)};
    cross(STAMP_PRECEDES_SNAPSHOT, n, 0, (struct lent[LISTS]){{0}});
    return n[0];
}
