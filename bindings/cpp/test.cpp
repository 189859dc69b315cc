// Tests of dcsctp.hpp: empty sockets, moves, views, ends, and calls in any order, with any bytes.
#include "dcsctp.hpp"

#include <cstdlib>
#include <cstring>
#include <deque>
#include <memory>
#include <string>

using namespace std::chrono_literals;
using dcsctp::error, dcsctp::event_kind, dcsctp::nanoseconds, dcsctp::socket_state;
using bytes = std::vector<std::uint8_t>;

static_assert(!std::is_copy_constructible_v<dcsctp::socket> && !std::is_copy_assignable_v<dcsctp::socket>);
static_assert(std::is_nothrow_move_constructible_v<dcsctp::socket>);
static_assert(std::is_nothrow_move_assignable_v<dcsctp::socket>);
static_assert(!std::is_convertible_v<std::vector<int>, dcsctp::bytes_view>);
static_assert(!std::is_convertible_v<bytes, dcsctp::streams_view>);

namespace {

void expect(bool holds, const char *what) {
    if (!holds) {
        std::fprintf(stderr, "test: not so: %s\n", what);
        std::exit(1);
    }
}

#define EXPECT(fact) expect((fact), #fact)

dcsctp::socket create(const dcsctp_options &how = dcsctp::options()) {
    dcsctp::socket socket;
    EXPECT(socket.create(how, 1h) == error::ok);
    return socket;
}

// Each call on a socket that is empty.
void calls_without_socket(dcsctp::socket &it) {
    dcsctp::event event;
    dcsctp::message message;
    bytes snapshot;
    std::vector<error> results;
    const error commands[] = {
        it.connect(),
        it.shutdown(),
        it.close(),
        it.handle_input("a packet"),
        it.advance_time(2h),
        it.send(1, 51, "hello"),
        it.send_many({{1, 51, "hello"}}, results),
        it.send_many({}, results),
        it.reset_streams({1}),
        it.set_buffered_amount_low_threshold(1, 5),
        it.set_stream_priority(1, 5),
        it.set_max_message_size(5),
        it.get_handover_state_and_close(snapshot),
        it.handover_bytes(snapshot),
        it.restore_from_state("no snapshot"),
    };
    for (error result : commands)
        EXPECT(result == error::no_socket);
    event.kind = event_kind::closed;
    event.bytes = {1};
    message.payload = {1};
    EXPECT(!it.poll_event(event) && event.kind == event_kind::none && event.bytes.empty());
    EXPECT(!it.get_next_message(message) && message.payload.empty());
    dcsctp::bytes_view packet = "a packet", payload = "hello";
    EXPECT(!it.poll_event(event, packet) && packet.empty() && it.event_view().empty());
    EXPECT(!it.get_next_message(message, payload) && payload.empty() && it.message_view().empty());
    const dcsctp_counts counts = it.counts();
    EXPECT(counts.rx_packets_count == 0 && counts.tx_packets_count == 0 && counts.tx_messages_count == 0);
    EXPECT(!it.poll_timeout() && !it.metrics() && !it.has_failed() && it.verification_tag() == 0);
    EXPECT(it.messages_ready_count() == 0 && it.buffered_amount(1) == 0 && it.buffered_amount_low_threshold(1) == 0);
    EXPECT(it.stream_priority(1) == 0 && it.handover_readiness() == 0 && results.empty());
    EXPECT(it.state() == socket_state::no_socket && it.is_empty());
    EXPECT(it.get_options().mtu == 1191);
    it.destroy();
}

void empty_sockets() {
    dcsctp::socket none;
    calls_without_socket(none);
    dcsctp::socket destroyed = create();
    destroyed.destroy();
    calls_without_socket(destroyed);
    EXPECT(destroyed.create(dcsctp::options(), 1h) == error::ok);
    EXPECT(destroyed.create(dcsctp::options(), 1h) == error::already_created);

    dcsctp::socket first = create();
    EXPECT(first.connect() == error::ok);
    dcsctp::socket second = std::move(first);
    calls_without_socket(first);
    EXPECT(second.state() == socket_state::connecting);
    destroyed = std::move(second);
    calls_without_socket(second);
    dcsctp::socket &same = destroyed;
    destroyed = std::move(same);
    EXPECT(destroyed.state() == socket_state::connecting);

    std::vector<dcsctp::socket> many(3);
    many[0] = create();
    many.resize(100);
    EXPECT(many[0].state() == socket_state::closed && many[99].is_empty());
}

void views() {
    const std::string text = "hello";
    const std::array<std::byte, 2> raw = {std::byte{1}, std::byte{2}};
    const std::uint8_t numbers[] = {1, 2, 3};
    const auto size = [](dcsctp::bytes_view it) { return it.size(); };
    EXPECT(size("hello") == 5 && size(text) == 5 && size(std::string_view(text)) == 5 && size(bytes{1, 2}) == 2);
    EXPECT(size(raw) == 2 && size(numbers) == 3 && size({numbers, 2}) == 2 && size({}) == 0 && size("") == 0);
    EXPECT(size({4, 5, 6, 7}) == 4 && size({nullptr, 9}) == 0 && size(bytes()) == 0);
    EXPECT(dcsctp::bytes_view(nullptr, 0).data() && dcsctp::bytes_view(bytes()).data());
    EXPECT(dcsctp::bytes_view(text)[1] == 'e' && dcsctp::text_of(text) == "hello");
}

void errors() {
    const std::error_code code = error::not_ready;
    EXPECT(code && code.message() == "the socket can't be handed over now" && code == error::not_ready);
    EXPECT(!std::error_code(error::ok) && std::string(code.category().name()) == "dcsctp");
    EXPECT(std::strcmp(text_of(error::wrong_version), "the library has another version") == 0);
    dcsctp::socket socket = create();
    dcsctp_options other = dcsctp::options();
    other.size -= 8;
    dcsctp::socket none;
    EXPECT(none.create(other, 1h) == error::wrong_size);
    EXPECT(none.create(dcsctp::options(), dcsctp::seed{}, 1h) == error::invalid_options);
    EXPECT(none.create(dcsctp::options(), dcsctp::seed{1}, 1h) == error::ok);
    EXPECT(socket.handover_bytes(*std::make_unique<bytes>()) == error::nothing_to_copy);
}

// A message that takes many packets.
void long_message() {
    dcsctp::socket ends[2] = {create(), create()};
    dcsctp::event event;
    dcsctp::message message;
    bytes payload(25600);
    for (std::size_t at = 0; at < payload.size(); at++)
        payload[at] = static_cast<std::uint8_t>(at * 31 >> 3);
    EXPECT(ends[0].connect() == error::ok && ends[0].send(3, 53, payload) == error::ok);
    for (int round = 0; round < 80; round++)
        while (ends[round % 2].poll_event(event))
            if (event.kind == event_kind::send_packet)
                EXPECT(ends[1 - round % 2].handle_input(event.bytes) == error::ok);
    EXPECT(ends[1].messages_ready_count() == 1 && ends[1].get_next_message(message));
    EXPECT(message.stream_id == 3 && message.ppid == 53 && message.payload == payload);
    EXPECT(!ends[1].get_next_message(message));
}

// ---- Ends -----------------------------------------------------------------------------------------------------------

// Takes all events of a socket. Its packets go to the other one from where they lie. Returns how many there were.
std::size_t carry(dcsctp::socket &from, dcsctp::socket &to) {
    dcsctp::event event;
    dcsctp::bytes_view packet;
    std::size_t packets = 0;
    while (from.poll_event(event, packet)) {
        EXPECT(packet.empty() == (event.kind != event_kind::send_packet));
        EXPECT(packet.empty() == from.event_view().empty());
        if (packet.empty())
            continue;
        // (queries leave it where it is)
        EXPECT(event.bytes.empty() && from.event_view().data() == packet.data() && from.counts().tx_packets_count > 0);
        EXPECT(from.event_view().size() == packet.size() && to.handle_input(packet) == error::ok);
        packets++;
    }
    EXPECT(packet.empty() && from.event_view().empty());
    return packets;
}

struct couple {
    dcsctp::socket a, b;
    std::size_t of_a = 0, of_b = 0; // packets

    explicit couple(const dcsctp_options &how = dcsctp::options()) : a(create(how)), b(create(how)) {
        EXPECT(a.connect() == error::ok);
        settle();
        // INIT and COOKIE ECHO; INIT ACK and COOKIE ACK (RFC 9260, section 5.1)
        EXPECT(of_a == 2 && of_b == 2 && b.state() == socket_state::connected);
    }

    // Carries packets both ways until none is left.
    void settle() {
        std::size_t more_of_a, more_of_b;
        do {
            of_a += more_of_a = carry(a, b);
            of_b += more_of_b = carry(b, a);
        } while (more_of_a + more_of_b > 0);
    }

    void close() {
        EXPECT(a.close() == error::ok);
        settle();
        EXPECT(!a.metrics() && !b.metrics() && b.state() == socket_state::closed);
    }
};

bool is_counted(const dcsctp::socket &socket, std::size_t sent, std::size_t handed_in, std::size_t messages) {
    const dcsctp_counts counts = socket.counts();
    return counts.tx_packets_count == sent && counts.rx_packets_count == handed_in &&
           counts.tx_messages_count == messages;
}

void counts_after_an_end() {
    EXPECT(is_counted(create(), 0, 0, 0));
    couple pair;
    for (int round = 0; round < 3; round++)
        EXPECT(pair.a.send(1, 51, "hello") == error::ok);
    pair.close();
    EXPECT(is_counted(pair.a, pair.of_a, pair.of_b, 3) && is_counted(pair.b, pair.of_b, pair.of_a, 0));
}

// The tag that the next packet of a socket has (RFC 9260, section 3.1).
std::uint32_t tag_sent(dcsctp::socket &from) {
    dcsctp::event event;
    dcsctp::bytes_view packet;
    EXPECT(from.send(1, 51, "hello") == error::ok);
    while (packet.empty())
        EXPECT(from.poll_event(event, packet));
    std::uint32_t tag = 0;
    for (std::size_t at = 4; at < 8; at++)
        tag = tag << 8 | packet[at];
    return tag;
}

void tag_of_the_packets() {
    couple pair;
    const std::uint32_t of_a = pair.a.verification_tag(), of_b = pair.b.verification_tag();
    EXPECT(of_a != 0 && of_b != 0 && tag_sent(pair.a) == of_b && tag_sent(pair.b) == of_a);
    pair.close();
    EXPECT(pair.a.verification_tag() == 0 && pair.b.verification_tag() == 0 && create().verification_tag() == 0);
}

void checksums_of_the_caller() {
    dcsctp::options how;
    how.checksum_offload = 1;
    couple pair(how);
    dcsctp::event event;
    EXPECT(pair.a.send(1, 51, "hello") == error::ok);
    while (event.kind != event_kind::send_packet)
        EXPECT(pair.a.poll_event(event));
    for (std::size_t at = 8; at < 12; at++)
        EXPECT(event.bytes[at]++ == 0);
    EXPECT(pair.b.handle_input(event.bytes) == error::ok && pair.b.messages_ready_count() == 1);
}

void message_after_an_end(bool follow_rfc) {
    dcsctp::options how;
    how.follow_rfc = follow_rfc;
    couple pair(how);
    EXPECT(pair.a.send(1, 51, "hello") == error::ok && pair.a.send(2, 53, "good bye") == error::ok);
    pair.close();
    dcsctp::message message;
    dcsctp::bytes_view payload = "before";
    EXPECT(pair.b.messages_ready_count() == (follow_rfc ? 2 : 0));
    EXPECT(pair.b.get_next_message(message, payload) == follow_rfc);
    EXPECT(dcsctp::text_of(payload) == (follow_rfc ? "hello" : "") && message.payload.empty());
    EXPECT(message.stream_id == (follow_rfc ? 1 : 0) && pair.b.message_view().data() == payload.data());
    EXPECT(pair.b.get_next_message(message) == follow_rfc && message.text() == (follow_rfc ? "good bye" : ""));
    EXPECT(!pair.b.get_next_message(message) && message.payload.empty() && pair.b.message_view().empty());
}

void message_until_the_next() {
    couple pair;
    dcsctp::message message;
    EXPECT(pair.a.send(1, 51, "hello") == error::ok);
    pair.close();
    EXPECT(pair.b.messages_ready_count() == 1 && pair.a.connect() == error::ok);
    pair.settle();
    EXPECT(pair.b.state() == socket_state::connected && !pair.b.get_next_message(message));
}

void snapshot_and_options() {
    couple pair;
    bytes snapshot;
    EXPECT(pair.a.get_handover_state_and_close(snapshot) == error::ok);
    for (int row = 0; row < 7; row++) {
        dcsctp::options how;
        how.local_port = row == 0 ? 5001 : 5000;
        how.remote_port = row == 1 ? 5001 : 5000;
        how.announced_maximum_incoming_streams = row == 2 ? 9 : 65535;
        how.announced_maximum_outgoing_streams = row == 3 ? 9 : 65535;
        how.enable_partial_reliability = row != 4;
        how.enable_message_interleaving = row == 5;
        how.zero_checksum_method = row == 6;
        dcsctp::socket other = create(how);
        dcsctp::event event;
        EXPECT(other.restore_from_state(snapshot) == error::other_options);
        EXPECT(other.state() == socket_state::closed && !other.poll_event(event));
    }
    dcsctp::options how;
    how.max_message_size = 1000;
    pair.a = create(how);
    for (std::size_t place : {std::size_t(0), snapshot.size() / 2, snapshot.size() - 1}) {
        bytes changed = snapshot;
        changed[place] ^= 1;
        EXPECT(pair.a.restore_from_state(changed) == error::invalid_snapshot);
    }
    dcsctp::message message;
    EXPECT(pair.a.restore_from_state(snapshot) == error::ok && pair.a.send(1, 51, "after") == error::ok);
    pair.settle();
    EXPECT(pair.b.get_next_message(message) && message.text() == "after");
}

// ---- Data channels --------------------------------------------------------------------------------------------------

using dcsctp::channel, dcsctp::channel_end, dcsctp::channel_event_kind, dcsctp::channel_state;

static_assert(!std::is_copy_constructible_v<dcsctp::channels> && !std::is_copy_assignable_v<dcsctp::channels>);
static_assert(std::is_nothrow_move_constructible_v<dcsctp::channels>);
static_assert(std::is_nothrow_move_assignable_v<dcsctp::channels>);
static_assert(!std::is_constructible_v<dcsctp::socket, dcsctp::channels>);

// What an end has reported, but for packets and buffered_amount_low.
struct report {
    channel_event_kind kind;
    channel of;
    channel_end why;
    bool is_text;
    std::string bytes, label, protocol;
};

struct party {
    dcsctp::channels channels;
    std::vector<report> reports;
    dcsctp::channel_options options; // of the last incoming, without texts
    unsigned low = 0;

    // Takes all. Packets go to the peer from where they lie. Returns how many there were.
    unsigned take(party &peer) {
        dcsctp::channel_event event;
        unsigned packets = 0;
        while (channels.poll(event) == error::ok && event.kind != channel_event_kind::none) {
            bytes copied = {9};
            const bool has_bytes = event.kind == channel_event_kind::send_packet ||
                                   event.kind == channel_event_kind::message;
            EXPECT(channels.copy_bytes(copied) == (has_bytes ? error::ok : error::nothing_to_copy));
            EXPECT(dcsctp::text_of(copied) == event.text());
            EXPECT(channels.incoming_options().has_value() == (event.kind == channel_event_kind::incoming));
            if (event.kind == channel_event_kind::send_packet) {
                EXPECT(peer.channels.handle_input(event.bytes) == error::ok);
                packets++;
            } else if (event.kind == channel_event_kind::buffered_amount_low) {
                low++;
            } else {
                report one = {event.kind, event.channel, event.why, event.is_text, std::string(event.text()), {}, {}};
                if (const auto opened = channels.incoming_options()) {
                    one.label = opened->label;
                    one.protocol = opened->protocol;
                    options = *opened;
                }
                reports.push_back(one);
            }
        }
        EXPECT(event.kind == channel_event_kind::none && event.bytes.empty());
        return packets;
    }

    // The only report since the last time.
    report only() {
        EXPECT(reports.size() == 1);
        const report one = reports.front();
        reports.clear();
        return one;
    }

    error say(channel to) { return channels.send_text(to, "hello"); }
};

// Two ends with channels. A is the DTLS client.
struct parties {
    party a, b;
    nanoseconds now = 1h;
    dcsctp::options how;

    explicit parties(bool follow_rfc, bool is_connected = true,
                     const dcsctp_channel_limits &limits = dcsctp::channel_limits()) {
        how.follow_rfc = follow_rfc;
        EXPECT(a.channels.create(how, now, limits) == error::ok && b.channels.create(how, now) == error::ok);
        EXPECT(b.channels.set_role(false) == error::ok);
        if (is_connected) {
            EXPECT(a.channels.set_role(true) == error::ok && a.channels.connect() == error::ok);
            settle();
            EXPECT(a.only().kind == channel_event_kind::connected && b.only().kind == channel_event_kind::connected);
        }
    }

    // Lets a second pass, so that all is acknowledged.
    void settle() {
        for (int step = 0; step < 10; step++) {
            while (a.take(b) + b.take(a) > 0)
                continue;
            now += 100ms;
            EXPECT(a.channels.advance_time(now) == error::ok && b.channels.advance_time(now) == error::ok);
        }
    }

    // A channel that A opens, at both ends.
    std::pair<channel, channel> opened(const dcsctp::channel_options &with = {"chat"}) {
        channel of_a = channel::none;
        EXPECT(a.channels.open(with, of_a) == error::ok && of_a != channel::none);
        settle();
        const report at_a = a.only(), at_b = b.only();
        EXPECT(at_a.kind == channel_event_kind::opened && at_a.of == of_a);
        EXPECT(at_b.kind == channel_event_kind::incoming && at_b.of != channel::none && at_b.bytes.empty());
        EXPECT(at_b.label == with.label && at_b.protocol == with.protocol);
        return {of_a, at_b.of};
    }
};

void channels_without_socket(dcsctp::channels &it) {
    dcsctp::channel_event event;
    channel opened = channel(7);
    bytes copied;
    const error commands[] = {
        it.set_role(true),           it.open({"chat"}, opened),  it.send_text(opened, "hello"),
        it.send_binary(opened, {1}), it.close_channel(opened),   it.set_buffered_amount_low_threshold(opened, 5),
        it.poll(event),              it.copy_bytes(copied),      it.connect(),
        it.shutdown(),               it.close(),                 it.handle_input("a packet"),
        it.advance_time(2h),         it.set_max_message_size(5),
    };
    for (error result : commands)
        EXPECT(result == error::no_socket);
    EXPECT(opened == channel(7) && event.kind == channel_event_kind::none && it.view_bytes().empty());
    EXPECT(!it.incoming_options() && !it.stream_of(opened) && !it.metrics_of(opened) && !it.metrics());
    EXPECT(it.state_of(opened) == channel_state::closed && it.buffered_amount(opened) == 0);
    EXPECT(it.streams_in_use() == 0 && it.is_empty() && !it.poll_timeout());
}

void empty_channels() {
    dcsctp::channels none;
    channels_without_socket(none);
    dcsctp::options offload;
    offload.checksum_offload = 1;
    EXPECT(none.create(offload, 1h) == error::invalid_options);
    channels_without_socket(none);
    EXPECT(none.create(dcsctp::options(), dcsctp::seed{}, 1h) == error::invalid_options);
    EXPECT(none.create(dcsctp::options(), dcsctp::seed{1}, 1h) == error::ok);
    EXPECT(none.create(dcsctp::options(), 1h) == error::already_created && !none.is_empty());
    EXPECT(none.connect() == error::ok);
    dcsctp::channels other = std::move(none);
    channels_without_socket(none);
    none = std::move(other);
    channels_without_socket(other);
    EXPECT(none.state() == socket_state::connecting);
}

void channels_go_on_after_a_handover(bool follow_rfc) {
    parties pair(follow_rfc);
    const auto [of_a, of_b] = pair.opened();
    bytes snapshot;
    EXPECT(pair.a.channels.handover_readiness() == 0);
    EXPECT(pair.a.channels.get_handover_state_and_close(snapshot) == error::ok && !snapshot.empty());
    pair.a.take(pair.b);
    EXPECT(pair.a.only().kind == channel_event_kind::ended);
    EXPECT(pair.a.channels.handover_readiness() == DCSCTP_HANDOVER_WRONG_CONNECTION_STATE);
    pair.a.channels.destroy();
    EXPECT(pair.a.channels.create(pair.how, pair.now) == error::ok);
    EXPECT(pair.a.channels.restore_from_state(snapshot) == error::ok);
    EXPECT(pair.a.channels.state_of(of_a) == channel_state::open);
    pair.settle();
    EXPECT(pair.a.only().kind == channel_event_kind::connected);
    EXPECT(pair.b.say(of_b) == error::ok);
    pair.settle();
    const report message = pair.a.only();
    EXPECT(message.kind == channel_event_kind::message && message.of == of_a && message.bytes == "hello");
    EXPECT(pair.opened().first > of_a);
    EXPECT(pair.a.channels.restore_from_state(snapshot) == error::not_closed);
}

void channels_are_opened(bool follow_rfc) {
    parties pair(follow_rfc);
    std::uint16_t stream = 0;
    for (const dcsctp::channel_options &with : {
             dcsctp::channel_options{},
             dcsctp::channel_options{"chat", "grüße", false, 0, {}, 128},
             dcsctp::channel_options{"", "p", true, 4294967295, {}, 1024},
             dcsctp::channel_options{"label", "", false, {}, 66051ms, 512},
         }) {
        const auto [of_a, of_b] = pair.opened(with);
        const dcsctp::channel_options &there = pair.b.options;
        EXPECT(there.ordered == with.ordered && there.priority == with.priority && !there.negotiated);
        EXPECT(there.max_retransmits == with.max_retransmits && there.max_lifetime == with.max_lifetime);
        // (RFC 8832, section 6)
        EXPECT(pair.a.channels.stream_of(of_a) == stream && pair.b.channels.stream_of(of_b) == stream);
        EXPECT(pair.a.channels.state_of(of_a) == channel_state::open);
        EXPECT(pair.b.channels.state_of(of_b) == channel_state::open);
        stream = static_cast<std::uint16_t>(stream + 2);
    }
    EXPECT(pair.a.channels.streams_in_use() == 4 && pair.b.channels.streams_in_use() == 4);
}

void channels_carry_messages(bool follow_rfc) {
    parties pair(follow_rfc);
    const auto [of_a, of_b] = pair.opened();
    const std::string texts[] = {"hello", "grüße ∞", "", std::string("a\0b", 3), std::string(70000, 'x')};
    for (const std::string &text : texts)
        for (bool is_text : {true, false}) {
            EXPECT((is_text ? pair.a.channels.send_text(of_a, text) : pair.a.channels.send_binary(of_a, text)) ==
                   error::ok);
            pair.settle();
            const report got = pair.b.only();
            EXPECT(got.kind == channel_event_kind::message && got.of == of_b);
            EXPECT(got.is_text == is_text && got.bytes == text);
        }
    EXPECT(pair.b.say(of_b) == error::ok);
    pair.settle();
    EXPECT(pair.a.only().of == of_a);
    const auto at_a = pair.a.channels.metrics_of(of_a), at_b = pair.b.channels.metrics_of(of_b);
    const std::uint64_t size = 2 * (5 + 11 + 0 + 3 + 70000);
    EXPECT(at_a && at_a->messages_sent == 10 && at_a->bytes_sent == size && at_a->messages_received == 1);
    EXPECT(at_b && at_b->messages_received == 10 && at_b->bytes_received == size && at_b->bytes_sent == 5);
}

void channels_are_closed(bool follow_rfc) {
    parties pair(follow_rfc);
    channel before = channel::none;
    for (unsigned who = 1; who < 4; who++) {
        const auto [of_a, of_b] = pair.opened();
        EXPECT(of_a != before && pair.a.channels.stream_of(of_a) == std::uint16_t(0));
        EXPECT(!(who & 1) || pair.a.channels.close_channel(of_a) == error::ok);
        EXPECT(!(who & 2) || pair.b.channels.close_channel(of_b) == error::ok);
        EXPECT(pair.a.channels.state_of(of_a) == (who & 1 ? channel_state::closing : channel_state::open));
        pair.settle();
        for (auto [it, of] : {std::pair(&pair.a, of_a), std::pair(&pair.b, of_b)}) {
            const report last = it->only();
            EXPECT(last.kind == channel_event_kind::closed && last.of == of);
            EXPECT(last.why == channel_end::closed_by_resets);
            EXPECT(it->channels.state_of(of) == channel_state::closed && !it->channels.stream_of(of));
            EXPECT(it->say(of) == error::no_channel && it->channels.close_channel(of) == error::ok);
            EXPECT(it->channels.streams_in_use() == 0);
        }
        before = of_a;
    }
}

void channels_are_negotiated(bool follow_rfc) {
    parties pair(follow_rfc);
    dcsctp::channel_options agreed;
    agreed.negotiated = 1000;
    channel of_a = channel::none, of_b = channel::none, other = channel(7);
    EXPECT(pair.a.channels.open(agreed, of_a) == error::ok && pair.b.channels.open(agreed, of_b) == error::ok);
    pair.settle();
    EXPECT(pair.a.only().kind == channel_event_kind::opened && pair.b.only().of == of_b);
    EXPECT(pair.a.channels.open(agreed, other) == error::stream_in_use && other == channel(7));
    EXPECT(pair.b.say(of_b) == error::ok);
    pair.settle();
    const report got = pair.a.only();
    EXPECT(got.of == of_a && got.is_text && got.bytes == "hello" && pair.a.channels.stream_of(of_a) == 1000);
}

// Before the association and the role a channel waits.
void channels_wait(bool follow_rfc) {
    parties pair(follow_rfc, false);
    dcsctp::channels &it = pair.a.channels;
    channel early = channel::none;
    EXPECT(it.open({"early"}, early) == error::ok && it.state_of(early) == channel_state::connecting);
    EXPECT(pair.a.say(early) == error::no_channel && !it.stream_of(early) && !it.metrics_of(early));
    EXPECT(it.set_buffered_amount_low_threshold(early, 5) == error::no_channel && it.connect() == error::ok);
    pair.settle();
    EXPECT(pair.a.only().kind == channel_event_kind::connected && it.state_of(early) == channel_state::connecting);
    EXPECT(it.set_role(true) == error::ok && it.state_of(early) == channel_state::open);
    pair.settle();
    EXPECT(pair.a.only().of == early);
}

void channels_are_limited(bool follow_rfc) {
    dcsctp::channel_limits limits;
    limits.max_message_size = 4;
    limits.max_text = 4;
    limits.max_channels = 1;
    parties pair(follow_rfc, true, limits);
    channel of_b = channel::none;
    for (const char *label : {"chatter", "chat", ""}) {
        EXPECT(pair.b.channels.open({label}, of_b) == error::ok);
        pair.settle();
        const report got = pair.b.only();
        EXPECT(got.of == of_b);
        EXPECT(got.kind == (label == std::string("chat") ? channel_event_kind::opened : channel_event_kind::closed));
        EXPECT(got.kind == channel_event_kind::opened || got.why == channel_end::refused);
    }
    const report came = pair.a.only();
    EXPECT(came.label == "chat");
    EXPECT(pair.a.channels.set_max_message_size(3) == error::ok);
    EXPECT(pair.a.channels.send_text(came.of, "long") == error::message_too_large);
    EXPECT(pair.a.channels.open({"x", "", true, 1, 1ms}, of_b) == error::invalid_options);
    const std::string text(65536, 'x');
    EXPECT(pair.b.channels.open({text}, of_b) == error::message_too_large);
}

void channels_queue(bool follow_rfc) {
    parties pair(follow_rfc);
    const auto [of_a, of_b] = pair.opened();
    const unsigned before = pair.a.low;
    EXPECT(pair.a.channels.set_buffered_amount_low_threshold(of_a, 8000) == error::ok);
    error result = error::ok;
    for (int count = 0; result == error::ok; count++) {
        EXPECT(count < 1000);
        result = pair.a.channels.send_binary(of_a, bytes(40000));
    }
    EXPECT(result == error::resource_exhaustion && pair.a.channels.buffered_amount(of_a) > 8000);
    pair.settle();
    EXPECT(pair.a.low == before + 1 && pair.a.channels.buffered_amount(of_a) == 0);
}

void channels_end(bool follow_rfc) {
    for (bool is_abort : {true, false}) {
        parties pair(follow_rfc);
        const auto [of_a, of_b] = pair.opened();
        EXPECT((is_abort ? pair.a.channels.close() : pair.a.channels.shutdown()) == error::ok);
        pair.settle();
        for (auto [it, of] : {std::pair(&pair.a, of_a), std::pair(&pair.b, of_b)}) {
            EXPECT(it->reports.size() == 2 && it->reports[1].kind == channel_event_kind::ended);
            EXPECT(it->reports[0].of == of && it->reports[0].why == channel_end::lost);
            channel none = channel::none;
            EXPECT(it->channels.open({"late"}, none) == error::ended && none == channel::none);
            EXPECT(it->channels.state() == socket_state::closed);
        }
    }
}

void data_channels() {
    empty_channels();
    for (bool follow_rfc : {true, false}) {
        channels_are_opened(follow_rfc);
        channels_go_on_after_a_handover(follow_rfc);
        channels_carry_messages(follow_rfc);
        channels_are_closed(follow_rfc);
        channels_are_negotiated(follow_rfc);
        channels_wait(follow_rfc);
        channels_are_limited(follow_rfc);
        channels_queue(follow_rfc);
        channels_end(follow_rfc);
    }
}

// ---- Calls in any order ---------------------------------------------------------------------------------------------

// Numbers without a pattern, the same in each run.
std::uint32_t next(std::uint32_t below) {
    static std::uint32_t number = 2463534242;
    number ^= number << 13;
    number ^= number >> 17;
    number ^= number << 5;
    return number % below;
}

bytes any_bytes(std::uint32_t limit) {
    bytes made(next(limit + 1));
    for (auto &it : made)
        it = static_cast<std::uint8_t>(next(256));
    return made;
}

struct end {
    dcsctp::socket socket;
    std::deque<bytes> packets;
    nanoseconds now = 1h;
};

struct world {
    end ends[2];
    bytes snapshot;
    std::uint32_t follow_rfc;
    unsigned connected = 0, messages = 0, errors = 0;

    dcsctp::socket socket() {
        dcsctp::options how;
        how.follow_rfc = follow_rfc;
        how.max_message_size = 3000;
        how.max_send_buffer_size = 9000;
        return create(how);
    }

    void note(error result) {
        EXPECT(result != error::no_socket && result != error::out_of_memory && result != error::buffer_too_small);
        errors += result != error::ok;
    }

    bool poll(std::uint32_t at) {
        dcsctp::event event;
        if (!ends[at].socket.poll_event(event))
            return false;
        EXPECT(std::strcmp(event.name(), "unknown") != 0);
        if (event.kind == event_kind::send_packet)
            ends[1 - at].packets.push_back(event.bytes);
        connected += event.kind == event_kind::connected;
        return true;
    }

    void hand_in(std::uint32_t at) {
        bytes packet = next(20) ? bytes() : any_bytes(60);
        if (packet.empty() && !ends[at].packets.empty()) {
            packet = ends[at].packets.front();
            ends[at].packets.pop_front();
        }
        if (!packet.empty() && next(10) == 0)
            packet[next(static_cast<std::uint32_t>(packet.size()))] ^= 1;
        note(ends[at].socket.handle_input(packet));
    }

    void send(std::uint32_t at) {
        dcsctp::send_options how;
        std::vector<error> results;
        how.lifecycle_id = next(3);
        how.unordered = next(2);
        if (next(4) == 0)
            how.lifetime = 300ms;
        const bytes payload = any_bytes(next(3) ? 10 : 3300);
        const auto stream_id = static_cast<std::uint16_t>(next(3));
        if (next(2)) {
            note(ends[at].socket.send(stream_id, 51, payload, how));
            return;
        }
        const std::vector<dcsctp::outgoing_message> all(next(4), {stream_id, 53, payload});
        const error first = ends[at].socket.send_many(all, results, how);
        EXPECT(results.size() == all.size());
        error expected = error::ok;
        for (error result : results)
            if (expected == error::ok)
                expected = result;
        EXPECT(first == expected);
    }

    void end_it(std::uint32_t at) {
        dcsctp::socket &it = ends[at].socket;
        switch (next(8)) {
        case 0: return note(it.shutdown());
        case 1: return note(it.close());
        case 2: return note(it.get_handover_state_and_close(snapshot));
        case 3: return note(it.restore_from_state(snapshot));
        case 4:
            it = socket();
            ends[at].now = 1h;
            return note(it.restore_from_state(snapshot));
        default: return;
        }
    }

    void step() {
        const std::uint32_t at = next(2), kind = next(100);
        dcsctp::message message;
        if (kind < 30)
            poll(at);
        else if (kind < 60)
            hand_in(at);
        else if (kind < 75)
            send(at);
        else if (kind < 85)
            messages += ends[at].socket.get_next_message(message);
        else if (kind < 90)
            note(ends[at].socket.advance_time(ends[at].now += std::chrono::milliseconds(next(300))));
        else if (kind < 93)
            note(ends[at].socket.reset_streams({0, 1, 1}));
        else if (kind < 96)
            note(ends[at].socket.connect());
        else if (kind < 98)
            EXPECT(ends[at].socket.poll_timeout().value_or(nanoseconds::max()) >= ends[at].now);
        else
            end_it(at);
    }

    // Whatever was before, two ends that have closed connect once no packet is under way.
    void connect_again() {
        for (std::uint32_t at : {0, 1}) {
            note(ends[at].socket.close());
            while (poll(at))
                continue;
        }
        ends[0].packets.clear();
        ends[1].packets.clear();
        connected = 0;
        note(ends[0].socket.connect());
        for (std::uint32_t turn = 0; turn < 6; turn++) {
            end &to = ends[1 - turn % 2];
            while (poll(turn % 2))
                continue;
            for (; !to.packets.empty(); to.packets.pop_front())
                note(to.socket.handle_input(to.packets.front()));
        }
        EXPECT(connected == 2);
        EXPECT(ends[0].socket.state() == socket_state::connected && ends[1].socket.state() == socket_state::connected);
    }
};

void any_order(std::uint32_t follow_rfc) {
    unsigned messages = 0, errors = 0;
    for (int run = 0; run < 15; run++) {
        world world;
        world.follow_rfc = follow_rfc;
        world.ends[0].socket = world.socket();
        world.ends[1].socket = world.socket();
        for (int count = 0; count < 2000; count++)
            world.step();
        messages += world.messages;
        errors += world.errors;
        world.connect_again();
    }
    EXPECT(messages > 50 && errors > 50);
}

} // namespace

int main() {
    empty_sockets();
    views();
    errors();
    long_message();
    counts_after_an_end();
    tag_of_the_packets();
    checksums_of_the_caller();
    message_after_an_end(true);
    message_after_an_end(false);
    message_until_the_next();
    snapshot_and_options();
    data_channels();
    any_order(0);
    any_order(1);
}
