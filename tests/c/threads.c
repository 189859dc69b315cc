/* Sockets in several threads at the same time: the library has no state outside of its sockets. And
 * a socket that is made in one thread and used in another. Under valgrind it is helgrind that
 * looks. */
#include "pair.h"

#include <pthread.h>

enum { THREADS = 4, ROUNDS = 20 };

static dcsctp_options options;

static void *many_pairs(void *unused) {
    struct pair *pair = malloc(sizeof *pair);
    EQUAL("memory", pair != NULL, 1);
    for (int i = 0; i < ROUNDS; i++) {
        connect_pair(pair, &options, &options);
        EQUAL("send", send_bytes(&pair->a, 1, 20000), DCSCTP_OK);
        EQUAL("send", send_bytes(&pair->b, 2, 20000), DCSCTP_OK);
        settle(pair);
        EQUAL("A", take_messages(&pair->a, 20000), 1);
        EQUAL("B", take_messages(&pair->b, 20000), 1);
        destroy_pair(pair);
    }
    free(pair);
    return unused;
}

static void *make_pair(void *pair) {
    connect_pair(pair, &options, &options);
    return NULL;
}

static void *use_pair(void *at) {
    struct pair *pair = at;
    EQUAL("send", send_bytes(&pair->a, 1, 20000), DCSCTP_OK);
    settle(pair);
    EQUAL("B", take_messages(&pair->b, 20000), 1);
    return NULL;
}

static void in_a_thread(void *(*function)(void *), void *argument) {
    pthread_t thread;
    EQUAL("a thread", pthread_create(&thread, NULL, function, argument), 0);
    EQUAL("its end", pthread_join(thread, NULL), 0);
}

int main(void) {
    static struct pair pair;
    pthread_t threads[THREADS];
    options = quiet_options();
    for (int i = 0; i < THREADS; i++)
        EQUAL("a thread", pthread_create(&threads[i], NULL, many_pairs, NULL), 0);
    for (int i = 0; i < THREADS; i++)
        EQUAL("its end", pthread_join(threads[i], NULL), 0);
    in_a_thread(make_pair, &pair);
    in_a_thread(use_pair, &pair);
    destroy_pair(&pair);
    puts("threads: each has its own sockets");
    return 0;
}
