/* Sends N messages of 1,024 bytes between two sockets of usrsctp, for scripts/c-costs.sh. */
#include <stdlib.h>
#include <string.h>
#include <usrsctp.h>

static char a, z; /* the addresses of the two ends */
static long arrived;
static unsigned first, last; /* packets under way */
static struct {
    void *to;
    size_t length;
    char bytes[2000];
} packets[16];

static int output(void *from, void *packet, size_t length, uint8_t tos, uint8_t df) {
    (void)tos, (void)df;
    packets[last % 16].to = from == &a ? &z : &a;
    packets[last % 16].length = length;
    memcpy(packets[last++ % 16].bytes, packet, length);
    return 0;
}

static void settle(void) {
    for (; first != last; first++)
        usrsctp_conninput(packets[first % 16].to, packets[first % 16].bytes,
                          packets[first % 16].length, 0);
}

static int receive(struct socket *s, union sctp_sockstore from, void *bytes, size_t length,
                   struct sctp_rcvinfo info, int flags, void *user) {
    (void)s, (void)from, (void)info, (void)flags, (void)user;
    arrived += length == 1024;
    free(bytes);
    return 1;
}

static struct socket *bound(struct sockaddr_conn name) {
    struct socket *s;
    usrsctp_register_address(name.sconn_addr);
    s = usrsctp_socket(AF_CONN, SOCK_STREAM, IPPROTO_SCTP, receive, NULL, 0, NULL);
    usrsctp_set_non_blocking(s, 1);
    usrsctp_bind(s, (struct sockaddr *)&name, sizeof name);
    return s;
}

int main(int argc, char **argv) {
    static const char payload[1024];
    struct sockaddr_conn of_a = {.sconn_family = AF_CONN, .sconn_port = htons(5000)}, of_z = of_a;
    struct sctp_sndinfo info = {.snd_sid = 1};
    const long count = argc > 1 ? strtol(argv[1], NULL, 10) : 0;
    struct socket *from, *to;
    of_a.sconn_addr = &a, of_z.sconn_addr = &z;
    usrsctp_init_nothreads(0, output, NULL);
    from = bound(of_a), to = bound(of_z);
    usrsctp_listen(to, 1);
    usrsctp_connect(from, (struct sockaddr *)&of_a, sizeof of_a);
    settle();
    for (long i = 0; i < count; i++) {
        usrsctp_sendv(from, payload, sizeof payload, NULL, 0, &info, sizeof info,
                      SCTP_SENDV_SNDINFO, 0);
        settle();
    }
    return arrived != count;
}
