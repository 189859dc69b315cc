// Two sockets in one process, and a message.
#include "dcsctp.hpp"
#include <iostream>
void carry(dcsctp::socket &from, dcsctp::socket &to) {
    dcsctp::event event;
    dcsctp::message message;
    while (from.poll_event(event))
        if (event.kind == dcsctp::event_kind::send_packet && to.handle_input(event.bytes) != dcsctp::error::ok)
            std::cerr << "out of memory\n";
    while (from.get_next_message(message))
        std::cout << message.text() << "\n";
}

int main() {
    dcsctp::socket a, b;
    const auto ok = dcsctp::error::ok;
    bool made = a.create(dcsctp::options(), {}) == ok && b.create(dcsctp::options(), {}) == ok;
    made = made && a.connect() == ok && a.send(1, 51, "hello") == ok;
    for (int round = 0; made && round < 4; round++)
        carry(a, b), carry(b, a);
}
