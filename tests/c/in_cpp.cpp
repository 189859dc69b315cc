/* dcsctp.h in C++11: what stands for no socket and for no send options is an expression, wherever one
 * may stand. */
#include <dcsctp.h>
#include <dcsctp_checksum.h>

#include <cstdio>
#include <cstdlib>
#include <type_traits>
#include <vector>

#define EQUAL(name, number, expected)                                                            \
    do {                                                                                         \
        if ((number) != (expected)) {                                                            \
            std::fprintf(stderr, "in_cpp: %s: %d, not %d\n", name, (int)(number),                \
                         (int)(expected));                                                       \
            std::exit(1);                                                                        \
        }                                                                                        \
    } while (0)

namespace {

static_assert(std::is_same<decltype(DCSCTP_SOCKET_INIT), dcsctp_socket>::value, "an expression");
static_assert(std::is_same<decltype(DCSCTP_SEND_INIT), dcsctp_send_options>::value,
              "an expression");
static_assert(std::is_trivial<dcsctp_socket>::value, "two words");
static_assert(std::is_same<decltype(DCSCTP_CHANNEL_LIMITS_INIT), dcsctp_channel_limits>::value,
              "an expression");
static_assert(std::is_same<decltype(DCSCTP_CHANNEL_OPTIONS_INIT), dcsctp_channel_options>::value,
              "an expression");

dcsctp_socket in_static = DCSCTP_SOCKET_INIT;

struct Inside {
    dcsctp_socket socket = DCSCTP_SOCKET_INIT;
    dcsctp_send_options how = DCSCTP_SEND_INIT;
};

struct Owner {
    dcsctp_socket socket;
    Owner() : socket(DCSCTP_SOCKET_INIT) {}
    ~Owner() { dcsctp_destroy(&socket); }
    Owner(const Owner &) = delete;
    Owner &operator=(const Owner &) = delete;
};

int32_t state_of(dcsctp_socket socket, dcsctp_send_options how = DCSCTP_SEND_INIT) {
    return how.flags == 0 ? dcsctp_state(&socket) : 1;
}

dcsctp_socket chosen(bool first) {
    return first ? in_static : DCSCTP_SOCKET_INIT;
}

void no_sockets() {
    dcsctp_socket one = DCSCTP_SOCKET_INIT, braced{DCSCTP_SOCKET_INIT};
    auto other = DCSCTP_SOCKET_INIT;
    std::vector<dcsctp_socket> many(2, DCSCTP_SOCKET_INIT);
    Inside inside;
    EQUAL("a variable", dcsctp_state(&one), DCSCTP_ERROR_NO_SOCKET);
    EQUAL("with braces", dcsctp_state(&braced), DCSCTP_ERROR_NO_SOCKET);
    EQUAL("auto", dcsctp_state(&other), DCSCTP_ERROR_NO_SOCKET);
    EQUAL("static", dcsctp_state(&in_static), DCSCTP_ERROR_NO_SOCKET);
    EQUAL("an element", dcsctp_state(&many[1]), DCSCTP_ERROR_NO_SOCKET);
    EQUAL("a member", dcsctp_state(&inside.socket), DCSCTP_ERROR_NO_SOCKET);
    EQUAL("an argument", state_of(DCSCTP_SOCKET_INIT), DCSCTP_ERROR_NO_SOCKET);
    EQUAL("two arguments", state_of(DCSCTP_SOCKET_INIT, DCSCTP_SEND_INIT),
          DCSCTP_ERROR_NO_SOCKET);
    EQUAL("a result", state_of(chosen(false)), DCSCTP_ERROR_NO_SOCKET);
}

void one_socket() {
    Owner owner;
    dcsctp_options options;
    uint8_t seed[32] = {1};
    const uint8_t bytes[] = {5};
    EQUAL("a seed", dcsctp_random_seed(seed), DCSCTP_OK);
    dcsctp_options_init(&options);
    EQUAL("size", options.size, sizeof options);
    EQUAL("create", dcsctp_create(&owner.socket, &options, seed, 0), DCSCTP_OK);
    dcsctp_send_options how = DCSCTP_SEND_INIT;
    EQUAL("send", dcsctp_send(&owner.socket, 1, 51, bytes, 1, &how), DCSCTP_OK);
    how.flags = 8;
    EQUAL("a bit without a meaning", dcsctp_send(&owner.socket, 1, 51, bytes, 1, &how),
          DCSCTP_ERROR_INVALID_SEND_OPTIONS);
    how = DCSCTP_SEND_INIT;
    EQUAL("send", dcsctp_send(&owner.socket, 1, 51, bytes, 1, &how), DCSCTP_OK);
    dcsctp_socket moved = owner.socket;
    owner.socket = DCSCTP_SOCKET_INIT;
    EQUAL("moved", dcsctp_state(&owner.socket), DCSCTP_ERROR_NO_SOCKET);
    EQUAL("moved", dcsctp_state(&moved), DCSCTP_STATE_CLOSED);
    dcsctp_destroy(&moved);
}

void checksum() {
    uint8_t packet[1200] = {19, 136, 19, 136};
    EQUAL("none", dcsctp_check_packet(packet, sizeof packet, 0), 0);
    EQUAL("finished", dcsctp_finish_packet(packet, sizeof packet), 1);
    EQUAL("right", dcsctp_check_packet(packet, sizeof packet, 0), 1);
}

} // namespace

int main() {
    no_sockets();
    one_socket();
    checksum();
    std::puts("in_cpp: what stands for none is an expression");
    return 0;
}
