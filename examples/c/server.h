/*
 * What the files of the server share. server.c says what it does.
 *
 * The server has a thread a core. Each has its own socket of the port, its own associations and
 * deadlines, and nothing is shared. A thread, also one of the next process, is reached by its
 * channel alone: what is sent there is a note.
 */
#ifndef SERVER_H
#define SERVER_H

#include <dcsctp.h>

#include <netinet/in.h>
#include <stdint.h>
#include <stdio.h>

/* Threads at most, and bytes of a note at most: a snapshot with all that a peer may wait for. */
enum { THREADS = 64, NOTE = 1 << 20 };

/* Bytes that wait at most for a peer, and that one has sent at most before they are taken. So no
 * message is longer than a window. */
enum { SEND_BUFFER = 256 << 10, WINDOW = 256 << 10, PACKET = 1500 };

static const uint64_t SECOND = 1000000000;

/* ---- server_port.c: the sockets of a port, and which gets a packet -------------------------- */

/* Opens one more socket of a port, at 127.0.0.1, and a free port if that is 0. Ends the program if
 * it can't. Returns its file. */
int port_open(uint16_t port);

/* The port of a socket. */
uint16_t port_number(int file);

/* From now on a packet comes to the socket whose number port_thread says. Sockets are numbered as
 * they were opened, and keep their numbers while none is closed, also in other processes. Returns 0,
 * or -1 and errno. */
int port_steer(int file, unsigned threads);

/* The thread that a peer belongs to, of so many. */
unsigned port_thread(const struct sockaddr_in *peer, unsigned threads);

/* ---- server_note.c: notes between threads and processes ------------------------------------- */

/* What a note is about. Its bytes follow it. */
enum note_kind {
    /* to a thread, by any */
    NOTE_PACKET = 1,  /* a packet of `peer`, which came to another socket */
    NOTE_ASSOCIATION, /* `peer` is yours: a snapshot that was taken at `moment` */
    NOTE_SOCKET,      /* read socket `index` from now on */
    /* to a thread, by the first thread of its process */
    NOTE_LEAVE,  /* hand all over: `int` files of the next process's channels; the sockets, too,
                    unless `index` is 1 */
    NOTE_STAY,   /* the next process has ended: serve on */
    NOTE_END,    /* shut all down, then end */
    NOTE_REPORT, /* answer with counts, and the same `index` */
    /* to the first thread */
    NOTE_COUNTS, /* of a thread: a struct counts */
    NOTE_READY,  /* the next process has its threads */
    NOTE_READS,  /* socket `index` is read now */
    NOTE_LEFT,   /* a thread has handed over all */
    NOTE_ENDED,  /* a thread has ended */
};

struct note {
    uint32_t kind, index;
    struct sockaddr_in peer;
    uint64_t moment;    /* by CLOCK_MONOTONIC */
    uint64_t is_silent; /* was the peer asked to be silent? */
};

/* Opens a channel: notes that are sent to files[1] come out of files[0]. Ends the program if it
 * can't. */
void channel_open(int files[2]);

/* Sends a note with its bytes. It waits for room, unless the note is a packet: that is lost, as it
 * may be on its way. Returns 0, or -1 and errno. */
int note_send(int channel, const struct note *note, const void *bytes, size_t length);

/* Takes the next note, with room for NOTE bytes. Returns 1, or 0 if there is none. */
int note_take(int channel, struct note *note, void *bytes, size_t *length);

/* ---- server_store.c: notes through a Redis or Valkey server ---------------------------------- */

/* What is sent to the channel that is returned goes to the list HOST:PORT/KEY; -1: there is none.
 * `channels` are those of this process's threads, which keep what can't be sent. */
int store_give(const char *place, unsigned threads, const int *channels);

/* From now on the threads get the notes of that list. Returns 0, or -1 if there is none. */
int store_take(const char *place, unsigned threads, const int *channels);

/* Ends both, before the channels are closed. */
void store_end(void);

/* ---- server_thread.c: the associations of a thread ------------------------------------------ */

/* What a thread has done. */
struct counts {
    uint64_t connected;                              /* now */
    uint64_t made, aborted, failed, refused;         /* associations */
    uint64_t messages, received, sent, forwarded;    /* messages, and packets */
    uint64_t taken, handed, silenced;                /* associations: over, on, asked to be silent */
    uint64_t away;                                   /* nanoseconds of the one that took longest */
};

/* What a thread begins with. */
struct start {
    unsigned index, threads;
    int first;             /* the channel of the process's first thread */
    int own;               /* where its own notes come out */
    int channels[THREADS]; /* of all threads */
    int sockets[THREADS];
    unsigned socket_count;
    size_t capacity;       /* associations */
    FILE *pcap;            /* where packets go, or NULL */
    struct counts counts;  /* once it has ended */
};

/* Serves until NOTE_END. `start` is a struct start. */
void *thread_run(void *start);

/* Ends the program. */
_Noreturn void fail(const char *what);

uint64_t clock_now(void);

#endif
