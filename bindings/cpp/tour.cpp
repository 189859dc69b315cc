// What a socket can do, as small programs of two sockets, A and B, in one process:
//
//     c++ -std=c++17 tour.cpp $(pkg-config --cflags --libs dcsctp) -o tour && ./tour
//
// They print what bindings/expected.txt says, as those of the other languages do.
#include "dcsctp.hpp"

#include <algorithm>
#include <iostream>
#include <map>

using namespace std::chrono_literals;
using dcsctp::error, dcsctp::event, dcsctp::event_kind, dcsctp::nanoseconds, dcsctp::options;

namespace {

constexpr std::uint32_t text = 51, binary = 53;

// The time at which each program begins. restore_from_state needs a clock past 60 s.
constexpr nanoseconds begin = 1h;

// No call of these programs fails, unless they say so.
void check(error result) {
    if (result != error::ok)
        throw std::system_error(result);
}

dcsctp::socket create(nanoseconds now, const options &how = options()) {
    dcsctp::socket socket;
    check(socket.create(how, now));
    return socket;
}

// What follows the name of an event.
std::string details(const event &it) {
    std::string said;
    switch (it.kind) {
    case event_kind::streams_reset_performed:
    case event_kind::streams_reset_failed:
    case event_kind::incoming_stream_reset:
        for (auto stream : it.streams)
            said += " " + std::to_string(stream);
        return said;
    case event_kind::buffered_amount_low:
        return " " + std::to_string(it.stream_id);
    case event_kind::lifecycle_fully_sent:
    case event_kind::lifecycle_delivered:
    case event_kind::lifecycle_end:
        return " " + std::to_string(it.lifecycle_id);
    case event_kind::aborted:
    case event_kind::error:
        return " " + std::to_string(static_cast<unsigned>(it.about));
    default:
        return said;
    }
}

// Takes all events and messages of a socket. Its packets go to the other one. Returns how many there were.
int carry(const char *name, dcsctp::socket &from, dcsctp::socket &to) {
    event event;
    dcsctp::message message;
    int packets = 0;
    while (from.poll_event(event))
        if (event.kind == event_kind::send_packet) {
            check(to.handle_input(event.bytes));
            packets++;
        } else {
            std::cout << name << ": " << event.name() << details(event) << "\n";
        }
    while (from.get_next_message(message))
        std::cout << name << " has a message on stream " << message.stream_id << " under " << message.ppid << ": "
                  << message.text() << "\n";
    return packets;
}

void say_state(const char *name, const dcsctp::socket &socket) {
    static const char *const names[] = {"closed", "connecting", "connected", "shutting down"};
    std::cout << name << " is " << names[static_cast<int>(socket.state())] << "\n";
}

void say(const char *what, error result) {
    std::cout << what << ": " << text_of(result) << "\n";
}

struct pair {
    dcsctp::socket a, b;
    nanoseconds now = begin;

    explicit pair(const options &how = options()) : a(create(begin, how)), b(create(begin, how)) {}

    static pair connected() {
        pair made;
        check(made.a.connect());
        made.settle();
        return made;
    }

    // Carries packets both ways until none is left.
    void settle() {
        int packets;
        do {
            packets = carry("A", a, b);
            packets += carry("B", b, a);
        } while (packets > 0);
    }

    // Lets the time pass until the next deadline of either socket.
    void pass() {
        const auto never = nanoseconds::max();
        const auto next = std::min(a.poll_timeout().value_or(never), b.poll_timeout().value_or(never));
        now = next == never ? now : next;
        check(a.advance_time(now));
        check(b.advance_time(now));
        settle();
    }

    // Waits until all that A has sent is acknowledged.
    void until_acknowledged() {
        settle();
        while (a.metrics() && a.metrics()->unack_data_count > 0)
            pass();
    }

    error send(std::string_view it) { return a.send(1, text, it); }
};

// ---- The programs ---------------------------------------------------------------------------------------------------

void connect() {
    pair pair;
    say_state("A", pair.a);
    check(pair.a.connect());
    say_state("A", pair.a);
    pair.settle();
    say_state("A", pair.a);
    say_state("B", pair.b);
}

void send() {
    pair pair = pair::connected();
    dcsctp::send_options named, how;
    named.lifecycle_id = 7;
    check(pair.a.send(1, text, "hello", named));
    how.unordered = true;
    how.lifetime = 1s;
    how.max_retransmissions = 0;
    std::vector<error> results;
    const error first = pair.a.send_many({{2, binary, "one"}, {2, binary, ""}, {3, binary, "two"}}, results, how);
    if (first != error::empty_payload)
        check(first);
    const char *before = "the three: ";
    for (error result : results) {
        std::cout << before << text_of(result);
        before = "; ";
    }
    std::cout << "\n";
    pair.until_acknowledged();
    check(pair.b.send(1, text, "hello to you"));
    pair.settle();
    if (const auto metrics = pair.a.metrics())
        std::cout << "A has sent " << metrics->tx_messages_count << " messages, and received "
                  << metrics->rx_messages_count << "\n";
}

// A data channel is two streams of one number. Each end resets its own; then the number can be used again.
void close_a_channel() {
    pair pair = pair::connected();
    check(pair.send("before"));
    pair.until_acknowledged();
    check(pair.a.reset_streams({1}));
    pair.settle();
    check(pair.b.reset_streams({1}));
    pair.settle();
    check(pair.send("once more"));
    pair.settle();
}

// Another socket continues in A's place. It may be in another process, since the snapshot is bytes.
void hand_over() {
    pair pair = pair::connected();
    std::vector<std::uint8_t> snapshot;
    check(pair.send("before"));
    const auto reasons = pair.a.handover_readiness();
    const error result = pair.a.get_handover_state_and_close(snapshot);
    std::cout << "reasons: " << reasons << "; " << text_of(result) << "\n";
    pair.until_acknowledged();
    std::cout << "reasons: " << pair.a.handover_readiness() << "\n";
    check(pair.a.get_handover_state_and_close(snapshot));
    pair.settle();
    pair.a = create(pair.now);
    check(pair.a.restore_from_state(snapshot));
    pair.settle();
    say("again", pair.a.restore_from_state(snapshot));
    check(pair.send("after"));
    pair.settle();
    say("other bytes", create(pair.now).restore_from_state("no snapshot"));
}

void shut_down() {
    pair pair = pair::connected();
    check(pair.send("last"));
    check(pair.a.shutdown());
    say_state("A", pair.a);
    say("a message", pair.send("too late"));
    pair.settle();
    pair.pass();
    say_state("A", pair.a);
    say_state("B", pair.b);
}

// Two ends with data channels. A is the DTLS client.
struct channel_pair {
    dcsctp::channels a, b;
    nanoseconds now = begin;
    std::map<std::pair<const dcsctp::channels *, dcsctp::channel>, std::string> labels;

    channel_pair() {
        check(a.create(options(), begin));
        check(b.create(options(), begin));
        check(a.set_role(true));
        check(b.set_role(false));
    }

    // Opens a channel, and remembers its label.
    error open(dcsctp::channels &end, const dcsctp::channel_options &how, dcsctp::channel &opened) {
        const error result = end.open(how, opened);
        labels[{&end, opened}] = how.label;
        return result;
    }

    // Takes all events of an end. Its packets go to the other one. Returns how many there were.
    int carry(const char *name, dcsctp::channels &from, dcsctp::channels &to) {
        using kind = dcsctp::channel_event_kind;
        dcsctp::channel_event it;
        int packets = 0;
        for (check(from.poll(it)); it.kind != kind::none; check(from.poll(it))) {
            if (const auto how = from.incoming_options())
                labels[{&from, it.channel}] = how->label;
            const std::string label = " \"" + labels[{&from, it.channel}] + "\"";
            if (it.kind == kind::send_packet) {
                check(to.handle_input(it.bytes));
                packets++;
            } else if (it.kind == kind::message && it.is_text) {
                std::cout << name << " has a text on" << label << ": " << it.text() << ".\n";
            } else if (it.kind == kind::message) {
                std::cout << name << " has " << it.bytes.size() << " bytes on" << label << "\n";
            } else {
                std::cout << name << ": " << it.name() << (it.channel == dcsctp::channel::none ? "" : label);
                if (it.kind == kind::closed)
                    std::cout << ", " << static_cast<unsigned>(it.why);
                std::cout << "\n";
            }
        }
        return packets;
    }

    // Carries packets both ways until none is left.
    void settle() {
        int packets;
        do {
            packets = carry("A", a, b);
            packets += carry("B", b, a);
        } while (packets > 0);
    }

    // Lets a second pass: then all is acknowledged.
    void wait() {
        settle();
        now += 1s;
        check(a.advance_time(now));
        check(b.advance_time(now));
        settle();
    }
};

void data_channels() {
    channel_pair pair;
    dcsctp::channel chat{}, fast{}, of_both{}, another{};
    dcsctp::channel_options how, agreed;
    check(pair.open(pair.a, {"chat"}, chat));
    say("too early", pair.a.send_text(chat, "hello"));
    check(pair.a.connect());
    pair.settle();
    std::cout << "A's has stream " << *pair.a.stream_of(chat) << "\n";
    check(pair.a.send_text(chat, "hello"));
    check(pair.a.send_text(chat, ""));
    check(pair.a.send_binary(chat, {1, 2, 3}));
    check(pair.a.close_channel(chat));
    say("too late", pair.a.send_text(chat, "hello"));
    pair.wait();
    how.label = "fast";
    how.ordered = false;
    how.max_retransmits = 0;
    how.protocol = "of ours";
    check(pair.open(pair.b, how, fast));
    pair.settle();
    std::cout << "B's has stream " << *pair.b.stream_of(fast) << "\n";
    agreed.label = "agreed";
    agreed.negotiated = 8;
    check(pair.open(pair.a, agreed, of_both));
    check(pair.open(pair.b, agreed, of_both));
    say("once more", pair.a.open(agreed, another));
    check(pair.a.shutdown());
    pair.wait();
    say("another", pair.a.open({}, another));
}

// A call that can't be made is an error, and changes nothing.
void mistakes() {
    dcsctp::socket none;
    options narrow, limits;
    narrow.mtu = 31;
    say("an mtu of 31", none.create(narrow, begin));
    limits.max_message_size = 10;
    limits.max_send_buffer_size = 10;
    pair pair(limits);
    std::vector<std::uint8_t> snapshot;
    say("a reset", pair.a.reset_streams({1}));
    say("a snapshot", pair.a.handover_bytes(snapshot));
    say("no bytes", pair.send(""));
    pair.settle();
    say("11 bytes", pair.send("hello there"));
    pair.settle();
    say("10 bytes", pair.send("hello here"));
    say("10 more", pair.send("hello here"));
    pair.settle();
    say("a packet without bytes", pair.a.handle_input({}));
    pair.settle();
    say("a close", pair.a.close());
    pair.settle();
    for (int number = -1; number >= -24; number--)
        std::cout << number << ": " << text_of(static_cast<error>(number)) << "\n";
}

} // namespace

int main() {
    const std::pair<const char *, void (*)()> programs[] = {
        {"connect", connect},     {"send", send},           {"close a channel", close_a_channel},
        {"hand over", hand_over}, {"shut down", shut_down}, {"data channels", data_channels},
        {"mistakes", mistakes},
    };
    const char *before = "";
    for (const auto &[name, program] : programs) {
        std::cout << before << name << "\n";
        program();
        before = "\n";
    }
}
