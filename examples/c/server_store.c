/*
 * Notes through a list of a Redis or Valkey server, so that the next process may be on another
 * machine. It needs hiredis (libhiredis-dev), and is compiled only where that is installed.
 *
 * Snapshots are as secret as the messages: so is what the store keeps, and the way to it.
 */
#define _GNU_SOURCE
#include "server.h"

#ifdef WITH_STORE
#include <hiredis/hiredis.h>

#include <errno.h>
#include <poll.h>
#include <pthread.h>
#include <stdatomic.h>
#include <stdlib.h>
#include <string.h>
#include <unistd.h>

/* A list of a store, from one side. */
struct store {
    pthread_t thread;
    redisContext *context;
    char key[64];
    unsigned threads;
    int channels[THREADS];  /* of this process's threads */
    int input, output;      /* what is sent to output is pushed */
    atomic_int must_end;
    uint8_t bytes[sizeof(struct note) + NOTE];
};

static struct store *giver, *taker;

/* Connects to HOST:PORT/KEY; NULL where that can't be. */
static struct store *connect_to(const char *place, unsigned threads, const int *channels) {
    struct store *store = calloc(1, sizeof *store);
    char host[64];
    int port;
    if (!store || sscanf(place, "%63[^:]:%d/%63s", host, &port, store->key) != 3 ||
        !(store->context = redisConnect(host, port)) || store->context->err) {
        fprintf(stderr, "server: no store at %s\n", place);
        if (store && store->context)
            redisFree(store->context);
        free(store);
        return NULL;
    }
    store->threads = threads;
    memcpy(store->channels, channels, threads * sizeof channels[0]);
    return store;
}

static void start(struct store *store, void *(*run)(void *)) {
    errno = pthread_create(&store->thread, NULL, run, store);
    if (errno != 0)
        fail("pthread_create");
}

static void stop(struct store *store) {
    pthread_join(store->thread, NULL);
    redisFree(store->context);
    free(store);
}

/* Pushes a note; returns whether it is in the list. */
static int push(struct store *store, const struct note *note, size_t length) {
    memcpy(store->bytes, note, sizeof *note);
    redisReply *reply = redisCommand(store->context, "RPUSH %s %b", store->key, store->bytes,
                                     sizeof *note + length);
    const int pushed = reply && reply->type == REDIS_REPLY_INTEGER;
    if (reply)
        freeReplyObject(reply);
    return pushed;
}

/* Pushes each note. What can't be pushed stays in this process. */
static void *give(void *argument) {
    struct store *store = argument;
    struct pollfd waits = {store->input, POLLIN, 0};
    const struct note stay = {NOTE_STAY, 0, {0}, 0, 0};
    struct note note = {0};
    size_t length;
    while (note.kind != NOTE_END && poll(&waits, 1, -1) >= 0) {
        if (!note_take(store->input, &note, store->bytes + sizeof note, &length) ||
            note.kind == NOTE_END || push(store, &note, length))
            continue;
        for (unsigned i = 0; i < store->threads; i++)
            note_send(store->channels[i], &stay, NULL, 0);
        note_send(store->channels[port_thread(&note.peer, store->threads)], &note,
                  store->bytes + sizeof note, length);
    }
    return NULL;
}

/* Hands each note of the list to the thread of its peer. */
static void *take(void *argument) {
    struct store *store = argument;
    struct note note;
    while (!atomic_load(&store->must_end)) {
        redisReply *reply = redisCommand(store->context, "BLPOP %s 1", store->key);
        if (!reply) {
            fprintf(stderr, "server: the store: %s\n", store->context->errstr);
            break;
        }
        if (reply->type == REDIS_REPLY_ARRAY && reply->elements == 2 &&
            reply->element[1]->len >= sizeof note) {
            memcpy(&note, reply->element[1]->str, sizeof note);
            note_send(store->channels[port_thread(&note.peer, store->threads)], &note,
                      reply->element[1]->str + sizeof note, reply->element[1]->len - sizeof note);
        }
        freeReplyObject(reply);
    }
    return NULL;
}

int store_give(const char *place, unsigned threads, const int *channels) {
    int ends[2];
    giver = connect_to(place, threads, channels);
    if (!giver)
        return -1;
    channel_open(ends);
    giver->input = ends[0];
    giver->output = ends[1];
    start(giver, give);
    return giver->output;
}

int store_take(const char *place, unsigned threads, const int *channels) {
    taker = connect_to(place, threads, channels);
    if (!taker)
        return -1;
    start(taker, take);
    return 0;
}

void store_end(void) {
    const struct note end = {NOTE_END, 0, {0}, 0, 0};
    if (giver) {
        note_send(giver->output, &end, NULL, 0);
        const int files[] = {giver->input, giver->output};
        stop(giver);
        close(files[0]);
        close(files[1]);
    }
    if (taker) {
        atomic_store(&taker->must_end, 1);
        stop(taker);
    }
    giver = taker = NULL;
}
#else
int store_give(const char *place, unsigned threads, const int *channels) {
    (void)place, (void)threads, (void)channels;
    fprintf(stderr, "server: it was built without hiredis (apt install libhiredis-dev)\n");
    return -1;
}

int store_take(const char *place, unsigned threads, const int *channels) {
    return store_give(place, threads, channels);
}

void store_end(void) {
}
#endif
