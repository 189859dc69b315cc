/*
 * A server with many associations on one UDP port, in a thread a core. It sends each message back.
 *
 *     server [--threads COUNT] [--pcap FILE] [--give STORE] [--take STORE]
 *            [PORT [ASSOCIATIONS [SECONDS]]]
 *
 * It listens on 127.0.0.1, at a free port if PORT is 0, and takes 1,000 associations a thread.
 * Every SECONDS it prints what they cost. load.c is a client of it. FILE gets the packets of all
 * associations, and Wireshark opens it: then there is one thread.
 *
 * SIGTERM or SIGINT ends all in an orderly way; those that haven't ended five seconds later are
 * aborted. SIGUSR2 starts the program anew, and hands the port and all associations to that
 * process, each as soon as it is ready. Their peers notice nothing. With --give the associations
 * go to STORE instead, HOST:PORT/KEY of a Redis or Valkey server, and to a process that was begun
 * with --take, perhaps on another machine. Their packets follow them for two seconds more, by
 * when something else must send them there.
 *
 * server_thread.c has the associations of a thread, and server.h says how the files go together.
 *
 * DTLS would be below each association, and it is missing here: so this server is for your own
 * machine. With DTLS an association is made where a handshake of DTLS has succeeded. Here any INIT
 * makes one, as anyone can send it under any address, and it has ten seconds to connect.
 */
#define _GNU_SOURCE
#include "server.h"
#include "trace.h"

#include <errno.h>
#include <fcntl.h>
#include <pthread.h>
#include <sched.h>
#include <signal.h>
#include <spawn.h>
#include <stdlib.h>
#include <string.h>
#include <sys/epoll.h>
#include <sys/resource.h>
#include <sys/signalfd.h>
#include <sys/socket.h>
#include <sys/wait.h>
#include <time.h>
#include <unistd.h>

extern char **environ;

/* How long packets follow to a store, in seconds, and how many arguments the next process gets. */
enum { TO_DRAIN = 2, ARGUMENTS = 16 };

/* What counts are asked for. */
enum purpose { TO_REPORT, TO_END, TO_TELL, PURPOSES };

struct server {
    char **arguments;
    unsigned wanted; /* threads; 0: one a core */
    size_t capacity;
    FILE *pcap;
    const char *gives, *takes; /* stores, or NULL */
    struct start starts[THREADS];
    pthread_t threads[THREADS];
    unsigned count, socket_count;
    int sockets[THREADS], inputs[THREADS], channels[THREADS];
    int is_read[THREADS];           /* each socket: does a thread of this process read it? */
    unsigned reads, left, ended;    /* sockets that are; threads that handed over all; that ended */
    int epoll, signals, own, first; /* own, first: the ends of the first thread's channel */
    int before;                     /* the first thread of the process before, or -1 */
    pid_t next;                     /* the process after this one, or 0 */
    int next_channels[THREADS];
    unsigned next_count;
    int must_restart, is_ending;
    uint64_t now, begun_at, report_every, report_at;
    uint64_t drained_at; /* when no packets follow to the next process */
    struct {
        unsigned answers;
        struct counts sum;
    } tallies[PURPOSES];
};

_Noreturn void fail(const char *what) {
    fprintf(stderr, "server: %s: %s\n", what, strerror(errno));
    exit(1);
}

uint64_t clock_now(void) {
    struct timespec time;
    if (clock_gettime(CLOCK_MONOTONIC, &time) != 0)
        fail("clock_gettime");
    return (uint64_t)time.tv_sec * SECOND + (uint64_t)time.tv_nsec;
}

/* ---- What it costs -------------------------------------------------------------------------- */

/* The processor time that was used, in milliseconds. */
static void processor_time(double *user, double *kernel) {
    struct rusage usage;
    if (getrusage(RUSAGE_SELF, &usage) != 0)
        fail("getrusage");
    *user = (double)usage.ru_utime.tv_sec * 1e3 + (double)usage.ru_utime.tv_usec / 1e3;
    *kernel = (double)usage.ru_stime.tv_sec * 1e3 + (double)usage.ru_stime.tv_usec / 1e3;
}

static double resident_bytes(void) {
    FILE *file = fopen("/proc/self/statm", "r");
    long size = 0, resident = 0;
    if (!file || fscanf(file, "%ld %ld", &size, &resident) != 2)
        fail("statm");
    fclose(file);
    return (double)resident * (double)sysconf(_SC_PAGESIZE);
}

/* Prints what was done since it was called last. The first call prints nothing. */
static void report(const struct server *server, const struct counts *counts) {
    static double empty, user, kernel;
    static struct counts last;
    const double seconds = (double)server->report_every / 1e9, resident = resident_bytes();
    double user_now, kernel_now;
    processor_time(&user_now, &kernel_now);
    if (empty > 0)
        printf("%llu connected, %.0f bytes each; a second: %.1f ms of processor and %.1f in the "
               "kernel, %.0f messages, %.0f packets received, %.0f sent\n",
               (unsigned long long)counts->connected,
               counts->connected ? (resident - empty) / (double)counts->connected : 0,
               (user_now - user) / seconds, (kernel_now - kernel) / seconds,
               (double)(counts->messages - last.messages) / seconds,
               (double)(counts->received - last.received) / seconds,
               (double)(counts->sent - last.sent) / seconds);
    else
        empty = resident;
    user = user_now;
    kernel = kernel_now;
    last = *counts;
}

static void print_end(const struct counts *all) {
    printf("%llu associations made, %llu aborted, %llu failed, %llu refused; %llu messages",
           (unsigned long long)all->made, (unsigned long long)all->aborted,
           (unsigned long long)all->failed, (unsigned long long)all->refused,
           (unsigned long long)all->messages);
    if (all->handed > 0)
        printf("; %llu handed over, %llu asked to be silent, %llu packets forwarded",
               (unsigned long long)all->handed, (unsigned long long)all->silenced,
               (unsigned long long)all->forwarded);
    if (all->taken > 0)
        printf("; %llu taken over", (unsigned long long)all->taken);
    puts("");
}

/* Adds what a thread has done. */
static void add_counts(struct counts *sum, const struct counts *one) {
    uint64_t *to = &sum->connected;
    const uint64_t *from = &one->connected;
    const uint64_t away = sum->away > one->away ? sum->away : one->away;
    for (size_t i = 0; i < sizeof *sum / sizeof *to; i++)
        to[i] += from[i];
    sum->away = away;
}

/* ---- Notes ---------------------------------------------------------------------------------- */

static void tell_all(const struct server *server, enum note_kind kind, uint32_t index,
                     const void *bytes, size_t length) {
    const struct note note = {kind, index, {0}, 0, 0};
    for (unsigned i = 0; i < server->count; i++)
        note_send(server->channels[i], &note, bytes, length);
}

/* Prints what all threads have answered. */
static void tell(struct server *server, enum purpose purpose) {
    struct counts *sum = &server->tallies[purpose].sum;
    if (purpose == TO_REPORT)
        report(server, sum);
    else if (purpose == TO_END)
        printf("ending %llu associations\n", (unsigned long long)sum->connected);
    else
        printf("process %d: %u threads, took over %llu associations in %.1f ms, the longest away "
               "for %.1f ms\n", (int)getpid(), server->count, (unsigned long long)sum->taken,
               (double)(server->now - server->begun_at) / 1e6, (double)sum->away / 1e6);
    memset(&server->tallies[purpose], 0, sizeof server->tallies[purpose]);
}

static void restart(struct server *server);

/* One more socket is read. Once all are, this process has all that the one before had. */
static void handle_reads(struct server *server, unsigned index) {
    server->is_read[index] = 1;
    if (++server->reads < server->socket_count)
        return;
    if (port_steer(server->sockets[0], server->count) != 0)
        fail("SO_ATTACH_REUSEPORT_CBPF");
    if (server->before >= 0) {
        close(server->before);
        server->before = -1;
        tell_all(server, NOTE_REPORT, TO_TELL, NULL, 0);
    } else {
        printf("port %u\nprocess %d: %u threads\n", port_number(server->sockets[0]),
               (int)getpid(), server->count);
    }
    if (server->must_restart)
        restart(server);
}

static void end(struct server *server) {
    if (!server->is_ending)
        tell_all(server, NOTE_END, 0, NULL, 0);
    server->is_ending = 1;
}

static void handle_note(struct server *server, const struct note *note, const void *bytes) {
    switch (note->kind) {
    case NOTE_COUNTS:
        add_counts(&server->tallies[note->index].sum, bytes);
        if (++server->tallies[note->index].answers == server->count)
            tell(server, note->index);
        break;
    case NOTE_READY:
        tell_all(server, NOTE_LEAVE, 0, server->next_channels,
                 server->next_count * sizeof server->next_channels[0]);
        break;
    case NOTE_READS:
        handle_reads(server, note->index);
        break;
    case NOTE_LEFT:
        if (++server->left == server->count)
            server->drained_at = server->now + (server->gives ? TO_DRAIN : 0) * SECOND;
        break;
    case NOTE_ENDED:
        server->ended++;
        break;
    default:
        break;
    }
}

static void take_notes(struct server *server) {
    static _Alignas(struct counts) uint8_t bytes[NOTE];
    struct note note;
    size_t length;
    while (note_take(server->own, &note, bytes, &length))
        handle_note(server, &note, bytes);
}

/* ---- The next process ----------------------------------------------------------------------- */

/* How many threads there are to be. */
static unsigned thread_count(const struct server *server) {
    cpu_set_t cores;
    unsigned count = server->wanted;
    if (count == 0 && sched_getaffinity(0, sizeof cores, &cores) == 0)
        count = (unsigned)CPU_COUNT(&cores);
    return count < 1 ? 1 : count > THREADS ? THREADS : count;
}

/* Writes what the next process gets: how many sockets and channels, and the number of each file. */
static void write_files(const struct server *server, const int *inputs, char *text, size_t size) {
    size_t length = (size_t)snprintf(text, size, "%d,%u,%u", server->first, server->socket_count,
                                     server->next_count);
    for (unsigned i = 0; i < server->socket_count; i++)
        length += (size_t)snprintf(text + length, size - length, ",%d", server->sockets[i]);
    for (unsigned i = 0; i < server->next_count; i++)
        length += (size_t)snprintf(text + length, size - length, ",%d,%d", inputs[i],
                                   server->next_channels[i]);
}

/* Starts the program anew, with these files alone. */
static int start_program(struct server *server, const int *inputs, char **arguments) {
    posix_spawn_file_actions_t files;
    posix_spawn_file_actions_init(&files);
    posix_spawn_file_actions_adddup2(&files, server->first, server->first);
    for (unsigned i = 0; i < server->socket_count; i++)
        posix_spawn_file_actions_adddup2(&files, server->sockets[i], server->sockets[i]);
    for (unsigned i = 0; i < server->next_count; i++) {
        posix_spawn_file_actions_adddup2(&files, inputs[i], inputs[i]);
        posix_spawn_file_actions_adddup2(&files, server->next_channels[i],
                                         server->next_channels[i]);
    }
    int failed = posix_spawnp(&server->next, arguments[0], &files, NULL, arguments, environ);
    posix_spawn_file_actions_destroy(&files);
    return failed;
}

static void close_next(struct server *server) {
    for (unsigned i = 0; i < server->next_count && !server->gives; i++)
        close(server->next_channels[i]);
    server->next_count = 0;
    server->next = 0;
}

/* Gives all to the store. */
static void give(struct server *server) {
    int channel = store_give(server->gives, server->count, server->channels);
    if (channel < 0)
        return;
    server->left = 0;
    server->next_count = 1;
    tell_all(server, NOTE_LEAVE, 1, &channel, sizeof channel);
}

/* Starts the next process. Once its threads run, it says NOTE_READY. */
static void restart(struct server *server) {
    char text[THREADS * 40], *arguments[ARGUMENTS + 3] = {server->arguments[0], "--after", text};
    int inputs[THREADS], ends[2];
    server->must_restart = server->reads < server->socket_count;
    if (server->must_restart || server->next_count > 0 || server->is_ending || server->pcap)
        return;
    if (server->gives) {
        give(server);
        return;
    }
    for (int i = 1; i < ARGUMENTS && server->arguments[i]; i++)
        arguments[i + 2] = server->arguments[i];
    server->left = 0;
    server->next_count = thread_count(server);
    for (unsigned i = 0; i < server->next_count; i++) {
        channel_open(ends);
        inputs[i] = ends[0];
        server->next_channels[i] = ends[1];
    }
    write_files(server, inputs, text, sizeof text);
    const int failed = start_program(server, inputs, arguments);
    for (unsigned i = 0; i < server->next_count; i++)
        close(inputs[i]);
    if (failed != 0) {
        fprintf(stderr, "server: %s: %s\n", arguments[0], strerror(failed));
        close_next(server);
    }
}

/* The next process has ended before it had all: what is still here stays. */
static void handle_child(struct server *server) {
    int status;
    if (server->next == 0 || waitpid(server->next, &status, WNOHANG) != server->next ||
        server->is_ending)
        return;
    fprintf(stderr, "server: the next process has ended\n");
    tell_all(server, NOTE_STAY, 0, NULL, 0);
    server->next = 0; /* (threads may still send to its channels, so these stay open) */
    server->next_count = 0;
}

/* Takes the files that the process before has written. */
static void inherit(struct server *server, char *text) {
    int numbers[3 + 3 * THREADS];
    unsigned count = 0;
    for (char *it = strtok(text, ","); it && count < 3 + 3 * THREADS; it = strtok(NULL, ",")) {
        numbers[count] = (int)strtol(it, NULL, 10);
        if (count != 1 && count != 2)
            fcntl(numbers[count], F_SETFD, FD_CLOEXEC);
        count++;
    }
    server->before = numbers[0];
    server->socket_count = (unsigned)numbers[1];
    server->count = (unsigned)numbers[2];
    memcpy(server->sockets, numbers + 3, server->socket_count * sizeof numbers[0]);
    for (unsigned i = 0; i < server->count; i++) {
        server->inputs[i] = numbers[3 + server->socket_count + 2 * i];
        server->channels[i] = numbers[4 + server->socket_count + 2 * i];
    }
}

/* ---- The first thread ----------------------------------------------------------------------- */

static void handle_signal(struct server *server) {
    struct signalfd_siginfo signal;
    if (read(server->signals, &signal, sizeof signal) != sizeof signal)
        return;
    if (signal.ssi_signo == SIGCHLD) {
        handle_child(server);
    } else if (signal.ssi_signo == SIGUSR2) {
        restart(server);
    } else if (!server->is_ending) {
        tell_all(server, NOTE_REPORT, TO_END, NULL, 0);
        end(server);
        if (server->next > 0)
            kill(server->next, SIGTERM);
    }
}

/* The process before has ended too early. What it had left is lost, and its sockets aren't. */
static void handle_orphaned(struct server *server) {
    struct note note = {NOTE_SOCKET, 0, {0}, 0, 0};
    epoll_ctl(server->epoll, EPOLL_CTL_DEL, server->before, NULL);
    for (; note.index < server->socket_count; note.index++)
        if (!server->is_read[note.index])
            note_send(server->channels[note.index % server->count], &note, NULL, 0);
}

static void watch(const struct server *server, int file, uint32_t what) {
    struct epoll_event event = {what, {.fd = file}};
    if (file < 0 || epoll_ctl(server->epoll, EPOLL_CTL_ADD, file, &event) != 0)
        fail("epoll");
}

/* Takes signals as something to read. */
static void open_files(struct server *server) {
    int ends[2];
    sigset_t signals;
    sigemptyset(&signals);
    sigaddset(&signals, SIGTERM);
    sigaddset(&signals, SIGINT);
    sigaddset(&signals, SIGUSR2);
    sigaddset(&signals, SIGCHLD);
    if (sigprocmask(SIG_BLOCK, &signals, NULL) != 0)
        fail("sigprocmask");
    channel_open(ends);
    server->own = ends[0];
    server->first = ends[1];
    server->signals = signalfd(-1, &signals, SFD_CLOEXEC | SFD_NONBLOCK);
    server->epoll = epoll_create1(EPOLL_CLOEXEC);
    watch(server, server->own, EPOLLIN);
    watch(server, server->signals, EPOLLIN);
    if (server->before >= 0)
        watch(server, server->before, 0); /* its end is reported */
}

/* Opens the port, with a socket and a channel for each thread, unless they are there already. */
static void open_port(struct server *server, uint16_t port) {
    int ends[2];
    for (unsigned i = server->count; i < thread_count(server) && server->before < 0; i++) {
        channel_open(ends);
        server->inputs[i] = ends[0];
        server->channels[i] = ends[1];
        server->count++;
    }
    if (server->socket_count > 0)
        port = port_number(server->sockets[0]);
    while (server->socket_count < server->count) {
        server->sockets[server->socket_count] = port_open(port);
        port = port_number(server->sockets[server->socket_count++]);
    }
}

static void start_threads(struct server *server) {
    for (unsigned i = 0; i < server->count; i++) {
        struct start *start = &server->starts[i];
        start->index = i;
        start->threads = server->count;
        start->first = server->first;
        start->own = server->inputs[i];
        memcpy(start->channels, server->channels, sizeof start->channels);
        memcpy(start->sockets, server->sockets, sizeof start->sockets);
        start->socket_count = server->socket_count;
        start->capacity = server->capacity;
        start->pcap = server->pcap;
        errno = pthread_create(&server->threads[i], NULL, thread_run, start);
        if (errno != 0)
            fail("pthread_create");
    }
}

/* Lets the threads read: the sockets that this process has opened, and the others once the process
 * before has handed over all. */
static void begin(struct server *server, unsigned inherited) {
    struct note note = {NOTE_READY, 0, {0}, 0, 0};
    if (server->before >= 0)
        note_send(server->before, &note, NULL, 0);
    note.kind = NOTE_SOCKET;
    for (note.index = inherited; note.index < server->socket_count; note.index++)
        note_send(server->channels[note.index % server->count], &note, NULL, 0);
}

/* How many milliseconds there are until there is something to do; -1 if there is nothing. */
static int milliseconds(const struct server *server) {
    uint64_t moment = server->report_every > 0 ? server->report_at : DCSCTP_NEVER;
    moment = moment < server->drained_at ? moment : server->drained_at;
    if (moment == DCSCTP_NEVER)
        return -1;
    return moment > server->now ? (int)((moment - server->now + 999999) / 1000000) : 0;
}

static void turn(struct server *server) {
    struct epoll_event events[3];
    int count = epoll_wait(server->epoll, events, 3, milliseconds(server));
    if (count < 0 && errno != EINTR)
        fail("epoll_wait");
    server->now = clock_now();
    for (int i = 0; i < count; i++) {
        if (events[i].data.fd == server->own)
            take_notes(server);
        else if (events[i].data.fd == server->signals)
            handle_signal(server);
        else if (server->before >= 0)
            handle_orphaned(server);
    }
    if (server->report_every > 0 && server->report_at <= server->now) {
        tell_all(server, NOTE_REPORT, TO_REPORT, NULL, 0);
        server->report_at = server->now + server->report_every;
    }
    if (server->drained_at <= server->now) {
        server->drained_at = DCSCTP_NEVER;
        end(server);
    }
}

/* Serves until a signal comes or the next process has all, and all threads have ended. */
static struct counts run(struct server *server) {
    struct counts all = {0};
    while (server->ended < server->count)
        turn(server);
    store_end();
    for (unsigned i = 0; i < server->count; i++) {
        pthread_join(server->threads[i], NULL);
        add_counts(&all, &server->starts[i].counts);
        close(server->channels[i]);
        close(server->inputs[i]);
    }
    for (unsigned i = 0; i < server->socket_count; i++)
        close(server->sockets[i]);
    close_next(server);
    close(server->own);
    close(server->first);
    close(server->signals);
    close(server->epoll);
    return all;
}

/* ---- Its arguments -------------------------------------------------------------------------- */

/* Takes the options; what is left of the arguments begins after the place that is returned. */
static int take_options(struct server *server, char **argv, char **path, char **files) {
    int i = 1;
    for (; argv[i] && argv[i + 1] && argv[i][0] == '-'; i += 2) {
        if (strcmp(argv[i], "--after") == 0) {
            *files = argv[i + 1];
            server->arguments = argv + i + 1;
        } else if (strcmp(argv[i], "--threads") == 0) {
            server->wanted = (unsigned)strtoul(argv[i + 1], NULL, 10);
        } else if (strcmp(argv[i], "--pcap") == 0) {
            *path = argv[i + 1];
        } else if (strcmp(argv[i], "--give") == 0) {
            server->gives = argv[i + 1];
        } else if (strcmp(argv[i], "--take") == 0) {
            server->takes = argv[i + 1];
        } else {
            break;
        }
    }
    return i - 1;
}

static void serve(struct server *server, uint16_t port, char *path, char *files) {
    unsigned inherited;
    if (path && !(server->pcap = dcsctp_pcap_open(path)))
        fail(path);
    if (path)
        server->wanted = 1;
    if (files)
        inherit(server, files);
    server->arguments[0] = program_invocation_name;
    open_files(server);
    inherited = server->socket_count;
    open_port(server, port);
    start_threads(server);
    begin(server, inherited);
    if (server->takes && store_take(server->takes, server->count, server->channels) != 0)
        exit(1);
    const struct counts all = run(server);
    if (server->pcap && dcsctp_pcap_close(server->pcap) != 0)
        fail(path);
    print_end(&all);
    if (all.aborted + all.failed > 0)
        exit(1);
}

int main(int argc, char **argv) {
    static struct server server;
    char *path = NULL, *files = NULL;
    server.arguments = argv;
    server.before = -1;
    server.drained_at = DCSCTP_NEVER;
    server.now = server.begun_at = clock_now();
    const int options = take_options(&server, argv, &path, &files);
    argc -= options;
    argv += options;
    const long port = argc > 1 ? strtol(argv[1], NULL, 10) : 5000;
    const long capacity = argc > 2 ? strtol(argv[2], NULL, 10) : 1000;
    const long seconds = argc > 3 ? strtol(argv[3], NULL, 10) : 0;
    if (argc > 4 || port < 0 || port > 65535 || capacity < 1 || capacity > 1000000 ||
        seconds < 0 || seconds > 86400) {
        fprintf(stderr, "usage: server [--threads COUNT] [--pcap FILE] [--give STORE] "
                        "[--take STORE] [PORT [ASSOCIATIONS [SECONDS]]]\n");
        return 2;
    }
    setvbuf(stdout, NULL, _IOLBF, 0);
    server.capacity = (size_t)capacity;
    server.report_every = (uint64_t)seconds * SECOND;
    serve(&server, (uint16_t)port, path, files);
    return 0;
}
