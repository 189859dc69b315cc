// dcsctp.hpp: dcsctp.h for C++17, in this header alone. A socket is a class that can be moved and not copied, and whose
// destructor frees it. dcsctp.h describes each call, its errors and its rules.
//
//     dcsctp::socket socket;
//     dcsctp::event event;                                     // reused, so it keeps its memory
//     dcsctp::message message;
//     auto stop = dcsctp::nanoseconds::max();
//     dcsctp::error error = socket.create(dcsctp::options(), now());
//     if (error == dcsctp::error::ok)
//         error = socket.connect();
//     while (error == dcsctp::error::ok && now() < stop) {
//         while (socket.poll_event(event))
//             if (event.kind == dcsctp::event_kind::send_packet)
//                 send(fd, event.bytes.data(), event.bytes.size(), 0);
//             else if (event.kind == dcsctp::event_kind::closed)
//                 stop = now() + std::chrono::seconds(4);      // the last packet may be lost
//             else if (event.kind == dcsctp::event_kind::aborted)
//                 stop = now();
//         while (socket.get_next_message(message))
//             use(message.stream_id, message.ppid, message.payload);
//         wait_until_readable(fd, std::min(stop, socket.poll_timeout().value_or(stop)));
//         error = socket.advance_time(now());
//         if (error == dcsctp::error::ok && (n = recv(fd, packet, sizeof packet, MSG_DONTWAIT)) >= 0)
//             error = socket.handle_input({packet, static_cast<std::size_t>(n)});
//     }
//
// After `closed` continue for 4 s: dcsctp.h says why. Wait for `connected` before you call `shutdown`: until the peer has
// answered the first INIT it sends nothing, and what is queued goes out in the next association.
//
// Errors are codes, not exceptions, and a compiler warns if you ignore one. Each is a std::error_code, too:
//     if (auto error = socket.connect(); error != dcsctp::error::ok)
//         throw std::system_error(error);
// Only std::bad_alloc is thrown, when a vector here can't grow. When the library can't allocate, it is an error.
//
// An event is a struct, not a std::variant: so one object serves for all, and its vectors grow only once. Packets and
// messages can also be used without a copy:
//     dcsctp::bytes_view packet;
//     while (socket.poll_event(event, packet))
//         if (event.kind == dcsctp::event_kind::send_packet)
//             send(fd, packet.data(), packet.size(), 0);
//
// `channels` has data channels in place of messages:
//     dcsctp::channels channels;
//     dcsctp::channel chat;
//     dcsctp::channel_event event;
//     error = channels.create(dcsctp::options(), now());
//     error = channels.set_role(is_dtls_client);
//     error = channels.connect();
//     error = channels.open({"chat"}, chat);
//     while ((error = channels.poll(event)) == dcsctp::error::ok && event.kind != dcsctp::channel_event_kind::none)
//         if (event.kind == dcsctp::channel_event_kind::send_packet)
//             send(fd, event.bytes.data(), event.bytes.size(), 0);
//         else if (event.kind == dcsctp::channel_event_kind::opened)
//             error = channels.send_text(event.channel, "hello");
//         else if (event.kind == dcsctp::channel_event_kind::message)
//             use(event.channel, event.is_text, event.bytes);
//
// A socket that was not created, was destroyed or moved from is empty: commands return error::no_socket, polls return
// nothing, and queries return 0 or nothing. Make one call at a time on a socket; a query is a call, too.
#ifndef DCSCTP_HPP
#define DCSCTP_HPP

#include <dcsctp.h>

#include <array>
#include <chrono>
#include <cstddef>
#include <cstdint>
#include <cstdio>
#include <initializer_list>
#include <iterator>
#include <limits>
#include <optional>
#include <string>
#include <string_view>
#include <system_error>
#include <type_traits>
#include <utility>
#include <vector>

namespace dcsctp {

// A moment is the time since any other moment, which is the same for all calls on a socket.
using std::chrono::nanoseconds;

// ---- Errors ---------------------------------------------------------------------------------------------------------

// The numbers of dcsctp.h, and one of this header.
enum class [[nodiscard]] error : std::int32_t {
    ok = DCSCTP_OK,
    out_of_memory = DCSCTP_ERROR_OUT_OF_MEMORY,
    failed = DCSCTP_ERROR_FAILED,
    no_socket = DCSCTP_ERROR_NO_SOCKET,
    already_created = DCSCTP_ERROR_ALREADY_CREATED,
    invalid_options = DCSCTP_ERROR_INVALID_OPTIONS,
    buffer_too_small = DCSCTP_ERROR_BUFFER_TOO_SMALL,
    nothing_to_copy = DCSCTP_ERROR_NOTHING_TO_COPY,
    empty_payload = DCSCTP_ERROR_EMPTY_PAYLOAD,
    message_too_large = DCSCTP_ERROR_MESSAGE_TOO_LARGE,
    resource_exhaustion = DCSCTP_ERROR_RESOURCE_EXHAUSTION,
    shutting_down = DCSCTP_ERROR_SHUTTING_DOWN,
    not_connected = DCSCTP_ERROR_NOT_CONNECTED,
    not_supported = DCSCTP_ERROR_NOT_SUPPORTED,
    not_ready = DCSCTP_ERROR_NOT_READY,
    invalid_snapshot = DCSCTP_ERROR_INVALID_SNAPSHOT,
    not_closed = DCSCTP_ERROR_NOT_CLOSED,
    invalid_send_options = DCSCTP_ERROR_INVALID_SEND_OPTIONS,
    wrong_size = DCSCTP_ERROR_WRONG_SIZE,
    other_options = DCSCTP_ERROR_OTHER_OPTIONS,
    has_channels = DCSCTP_ERROR_HAS_CHANNELS,
    no_channel = DCSCTP_ERROR_NO_CHANNEL,
    stream_in_use = DCSCTP_ERROR_STREAM_IN_USE,
    ended = DCSCTP_ERROR_ENDED,
    wrong_version = -1001, // the library has another version than dcsctp.h
    no_seed = DCSCTP_ERROR_NO_SEED,
};

inline const char *text_of(error it) {
    switch (it) {
    case error::wrong_version:
        return "the library has another version";
    default:
        return dcsctp_error_text(static_cast<std::int32_t>(it));
    }
}

class error_category_type final : public std::error_category {
public:
    const char *name() const noexcept override { return "dcsctp"; }
    std::string message(int number) const override { return text_of(static_cast<error>(number)); }
};

inline const std::error_category &error_category() {
    static const error_category_type category;
    return category;
}

inline std::error_code make_error_code(error it) {
    return {static_cast<int>(it), error_category()};
}

// ---- Views ----------------------------------------------------------------------------------------------------------

// Elements that are stored elsewhere, like std::span of C++20. `data` is never null, as dcsctp.h requires. A list in
// braces lives until the call has returned.
template <typename T>
class view {
    static constexpr bool has_bytes = std::is_same_v<T, std::uint8_t>;

    template <typename Element>
    static constexpr bool is_element =
        std::is_same_v<Element, T> ||
        (has_bytes && (std::is_same_v<Element, char> || std::is_same_v<Element, std::byte>));

    template <typename Container>
    using element_of = std::remove_const_t<std::remove_pointer_t<decltype(std::data(std::declval<Container &>()))>>;

public:
    view() = default;
    view(const T *data, std::size_t size) : data_(data ? data : &nothing), size_(data ? size : 0) {}
    view(std::initializer_list<T> list) : view(list.begin(), list.size()) {}

    // A text up to its zero.
    template <typename Bytes = T, typename = std::enable_if_t<std::is_same_v<Bytes, std::uint8_t>>>
    view(const char *text) : view(text ? std::string_view(text) : std::string_view()) {}

    // A vector, a string, or another contiguous container. Elements of char and std::byte count as bytes. An array of
    // char is a text, as above.
    template <typename Container, typename Element = element_of<const Container>,
              typename = std::enable_if_t<!std::is_base_of_v<view, Container> && is_element<Element> &&
                                          !(std::is_array_v<Container> && std::is_same_v<Element, char>)>>
    view(const Container &container)
        : view(reinterpret_cast<const T *>(std::data(container)), std::size(container)) {}

    const T *data() const { return data_; }
    std::size_t size() const { return size_; }
    bool empty() const { return size_ == 0; }
    const T *begin() const { return data_; }
    const T *end() const { return data_ + size_; }
    const T &operator[](std::size_t at) const { return data_[at]; }

private:
    static constexpr T nothing{};
    const T *data_ = &nothing;
    std::size_t size_ = 0;
};

using bytes_view = view<std::uint8_t>;
using streams_view = view<std::uint16_t>;

inline std::string_view text_of(bytes_view bytes) {
    return {reinterpret_cast<const char *>(bytes.data()), bytes.size()};
}

// ---- Options, events, messages --------------------------------------------------------------------------------------

// The fields of dcsctp_options, with their defaults. Times are in nanoseconds.
struct options : dcsctp_options {
    options() : dcsctp_options() { dcsctp_options_init(this); }
};

enum class event_kind : std::uint32_t {
    none = DCSCTP_EVENT_NONE,
    send_packet = DCSCTP_EVENT_SEND_PACKET,
    connected = DCSCTP_EVENT_CONNECTED,
    closed = DCSCTP_EVENT_CLOSED,
    connection_restarted = DCSCTP_EVENT_CONNECTION_RESTARTED,
    aborted = DCSCTP_EVENT_ABORTED,
    error = DCSCTP_EVENT_ERROR,
    buffered_amount_low = DCSCTP_EVENT_BUFFERED_AMOUNT_LOW,
    total_buffered_amount_low = DCSCTP_EVENT_TOTAL_BUFFERED_AMOUNT_LOW,
    streams_reset_failed = DCSCTP_EVENT_STREAMS_RESET_FAILED,
    streams_reset_performed = DCSCTP_EVENT_STREAMS_RESET_PERFORMED,
    incoming_stream_reset = DCSCTP_EVENT_INCOMING_STREAM_RESET,
    lifecycle_fully_sent = DCSCTP_EVENT_LIFECYCLE_FULLY_SENT,
    lifecycle_maybe_expired = DCSCTP_EVENT_LIFECYCLE_MAYBE_EXPIRED,
    lifecycle_expired = DCSCTP_EVENT_LIFECYCLE_EXPIRED,
    lifecycle_delivered = DCSCTP_EVENT_LIFECYCLE_DELIVERED,
    lifecycle_end = DCSCTP_EVENT_LIFECYCLE_END,
};

enum class error_kind : std::uint32_t {
    no_error = DCSCTP_KIND_NO_ERROR,
    too_many_retries = DCSCTP_KIND_TOO_MANY_RETRIES,
    not_connected = DCSCTP_KIND_NOT_CONNECTED,
    parse_failed = DCSCTP_KIND_PARSE_FAILED,
    wrong_sequence = DCSCTP_KIND_WRONG_SEQUENCE,
    peer_reported = DCSCTP_KIND_PEER_REPORTED,
    protocol_violation = DCSCTP_KIND_PROTOCOL_VIOLATION,
    resource_exhaustion = DCSCTP_KIND_RESOURCE_EXHAUSTION,
    unsupported_operation = DCSCTP_KIND_UNSUPPORTED_OPERATION,
};

// What a socket reports. Later versions of the library may add kinds: ignore them.
struct event {
    event_kind kind = event_kind::none;
    error_kind about = error_kind::no_error; // of aborted and error
    std::uint16_t stream_id = 0;             // of buffered_amount_low
    std::uint64_t lifecycle_id = 0;          // of lifecycle_..
    std::vector<std::uint8_t> bytes;         // of send_packet; and of aborted and error, which have a text
    std::vector<std::uint16_t> streams;      // of streams_reset_.. and incoming_stream_reset; none there: all streams

    std::string_view text() const { return text_of(bytes); }
    const char *name() const { return dcsctp_event_name(static_cast<std::uint32_t>(kind)); }
};

// A message that has arrived.
struct message {
    std::uint16_t stream_id = 0;
    std::uint32_t ppid = 0;
    std::vector<std::uint8_t> payload;

    std::string_view text() const { return text_of(payload); }
};

// A message of send_many. Its bytes are copied.
struct outgoing_message {
    std::uint16_t stream_id;
    std::uint32_t ppid;
    bytes_view payload;
};

// How a message is sent. By default: in order, until it is acknowledged.
struct send_options {
    std::uint64_t lifecycle_id = 0; // the name in events; 0: there are none
    bool unordered = false;
    std::optional<nanoseconds> lifetime;              // abandoned if it isn't acknowledged by then
    std::optional<std::uint16_t> max_retransmissions; // or rather than sent again more often
};

enum class socket_state : std::int32_t {
    no_socket = DCSCTP_ERROR_NO_SOCKET, // it is empty
    closed = DCSCTP_STATE_CLOSED,
    connecting = DCSCTP_STATE_CONNECTING,
    connected = DCSCTP_STATE_CONNECTED,
    shutting_down = DCSCTP_STATE_SHUTTING_DOWN,
};

// ---- The socket -----------------------------------------------------------------------------------------------------

using seed = std::array<std::uint8_t, 32>;

// A seed from the system's generator. Each socket needs another one.
inline std::optional<seed> random_seed() {
    seed made;
    std::FILE *file = std::fopen("/dev/urandom", "rb");
    if (!file)
        return std::nullopt;
    std::setvbuf(file, nullptr, _IONBF, 0);
    const bool is_whole = std::fread(made.data(), made.size(), 1, file) == 1;
    std::fclose(file);
    return is_whole ? std::optional(made) : std::nullopt;
}

// What `socket` and `channels` have in common.
class association {
public:
    association(const association &) = delete;
    association &operator=(const association &) = delete;

    // Creates a closed socket whose clock is at `now`, with a seed from the system, or with yours, which must be
    // secret and new. One of zeros is refused: error::invalid_options.
    error create(const dcsctp_options &how, nanoseconds now) {
        const std::optional<seed> drawn = random_seed();
        return drawn ? create(how, *drawn, now) : error::no_seed;
    }
    error create(const dcsctp_options &how, const seed &drawn, nanoseconds now) {
        if ((dcsctp_version() & ~DCSCTP_VERSION_UNPROVED) != DCSCTP_VERSION)
            return error::wrong_version;
        return done(dcsctp_create(&it_, &how, drawn.data(), number(now)));
    }

    // Frees the socket, whatever it is doing. The peer isn't informed. It can be created again.
    void destroy() { dcsctp_destroy(&it_); }

    error connect() { return done(dcsctp_connect(&it_)); }
    error shutdown() { return done(dcsctp_shutdown(&it_)); }
    error close() { return done(dcsctp_close(&it_)); }

    error handle_input(bytes_view packet) { return done(dcsctp_handle_input(&it_, packet.data(), packet.size())); }
    error advance_time(nanoseconds now) { return done(dcsctp_advance_time(&it_, number(now))); }

    // The next deadline; nothing if there is none before the end of std::chrono::nanoseconds.
    std::optional<nanoseconds> poll_timeout() const {
        std::uint64_t moment = DCSCTP_NEVER;
        dcsctp_poll_timeout(&it_, &moment);
        if (moment > static_cast<std::uint64_t>(nanoseconds::max().count()))
            return std::nullopt;
        return nanoseconds(static_cast<nanoseconds::rep>(moment));
    }

    socket_state state() const { return static_cast<socket_state>(dcsctp_state(&it_)); }
    bool is_empty() const { return state() == socket_state::no_socket; }
    bool has_failed() const { return dcsctp_has_failed(&it_) == 1; }

    // Our verification tag, which the peer's packets carry; 0 if the socket is closed or empty.
    std::uint32_t verification_tag() const {
        std::uint32_t tag = 0;
        dcsctp_verification_tag(&it_, &tag);
        return tag;
    }

    error set_max_message_size(std::size_t bytes) { return done(dcsctp_set_max_message_size(&it_, bytes)); }

    // The options; the defaults for an empty socket.
    options get_options() const {
        options read;
        dcsctp_get_options(&it_, &read);
        return read;
    }

    // The metrics; nothing if there is no peer yet.
    std::optional<dcsctp_metrics> metrics() const {
        dcsctp_metrics read = dcsctp_metrics();
        read.size = sizeof read;
        return dcsctp_get_metrics(&it_, &read) == 1 ? std::optional(read) : std::nullopt;
    }

    // Counts since the socket was created, also after an association has ended; 0 for an empty socket.
    dcsctp_counts counts() const {
        dcsctp_counts read = dcsctp_counts();
        read.size = sizeof read;
        dcsctp_get_counts(&it_, &read);
        return read;
    }

    // Why the socket can't be handed over now: the sum of DCSCTP_HANDOVER_.., or 0 if it can.
    std::uint32_t handover_readiness() const {
        std::uint32_t reasons = 0;
        dcsctp_get_handover_readiness(&it_, &reasons);
        return reasons;
    }

    // Takes a snapshot, with all channels, and ends the association here. If the copy fails by out_of_memory,
    // handover_bytes may be tried again.
    error get_handover_state_and_close(std::vector<std::uint8_t> &snapshot) {
        const error result = done(dcsctp_get_handover_state_and_close(&it_));
        return result == error::ok ? handover_bytes(snapshot) : result;
    }

    // Copies the last snapshot.
    error handover_bytes(std::vector<std::uint8_t> &snapshot) const {
        std::uint8_t nowhere = 0;
        std::size_t length = 0;
        const error result = done(dcsctp_handover_bytes(&it_, &nowhere, 0, &length));
        return result == error::buffer_too_small ? copy(snapshot, length, dcsctp_handover_bytes) : result;
    }

    error restore_from_state(bytes_view snapshot) {
        return done(dcsctp_restore_from_state(&it_, snapshot.data(), snapshot.size()));
    }

protected:
    association() = default;
    ~association() { destroy(); }
    association(association &&other) noexcept : it_(std::exchange(other.it_, DCSCTP_SOCKET_INIT)) {}
    association &operator=(association &&other) noexcept {
        if (this != &other) {
            destroy();
            it_ = std::exchange(other.it_, DCSCTP_SOCKET_INIT);
        }
        return *this;
    }

    // Results above 0 are no errors.
    static error done(std::int32_t result) { return result < 0 ? static_cast<error>(result) : error::ok; }

    static std::uint64_t number(nanoseconds time) {
        return time.count() < 0 ? 0 : static_cast<std::uint64_t>(time.count());
    }

    // Copies so many elements by a call of the library.
    template <typename T, typename Call>
    error copy(std::vector<T> &list, std::size_t length, Call call) const {
        T nowhere{};
        std::size_t written = 0;
        list.resize(length);
        const error result = done(call(&it_, length ? list.data() : &nowhere, length, &written));
        list.resize(result == error::ok ? written : 0);
        return result;
    }

    // The bytes that a view of the library shows.
    template <typename Call>
    bytes_view shown(Call call) const {
        const std::uint8_t *at = nullptr;
        std::size_t length = 0;
        return done(call(&it_, &at, &length)) == error::ok ? bytes_view(at, length) : bytes_view();
    }

    template <typename Call>
    std::size_t counted(Call call) const {
        std::size_t count = 0;
        call(&it_, &count);
        return count;
    }

    dcsctp_socket it_ = DCSCTP_SOCKET_INIT;
};

class socket : public association {
public:
    // Takes the oldest event. If there is none, `taken` is of kind none.
    bool poll_event(event &taken) {
        bytes_view packet;
        const bool is_taken = poll_event(taken, packet);
        if (!packet.empty())
            taken.bytes.assign(packet.begin(), packet.end());
        return is_taken;
    }

    // The same without a copy of a packet: `packet` shows it, instead of `taken.bytes`, until a call that isn't const.
    // For other events it is empty.
    bool poll_event(event &taken, bytes_view &packet) {
        dcsctp_event it = dcsctp_event();
        const bool is_taken = dcsctp_poll_event(&it_, &it) == 1;
        taken.kind = static_cast<event_kind>(it.kind);
        taken.about = static_cast<error_kind>(it.error_kind);
        taken.stream_id = static_cast<std::uint16_t>(it.stream_id);
        taken.lifecycle_id = it.lifecycle_id;
        taken.bytes.clear();
        taken.streams.clear();
        switch (taken.kind) {
        case event_kind::aborted:
        case event_kind::error:
            (void)copy(taken.bytes, it.length, dcsctp_event_bytes);
            break;
        case event_kind::streams_reset_failed:
        case event_kind::streams_reset_performed:
        case event_kind::incoming_stream_reset:
            (void)copy(taken.streams, it.length, dcsctp_event_streams);
            break;
        default:
            break;
        }
        packet = event_view();
        return is_taken;
    }

    // The packet of the last taken event, without a copy: until a call that isn't const. It is empty if the event has
    // none.
    bytes_view event_view() const { return shown(dcsctp_event_view); }

    std::size_t messages_ready_count() const { return counted(dcsctp_messages_ready_count); }

    // Takes the first message that is ready. If there is none, `taken` has no bytes.
    bool get_next_message(message &taken) {
        bytes_view payload;
        const bool is_taken = get_next_message(taken, payload);
        taken.payload.assign(payload.begin(), payload.end());
        return is_taken;
    }

    // The same without a copy: `payload` shows the bytes, instead of `taken.payload`, until a call that isn't const.
    bool get_next_message(message &taken, bytes_view &payload) {
        dcsctp_message it = dcsctp_message();
        const bool is_taken = dcsctp_get_next_message(&it_, &it) == 1;
        taken.stream_id = it.stream_id;
        taken.ppid = it.ppid;
        taken.payload.clear();
        payload = message_view();
        return is_taken;
    }

    // The bytes of the last taken message, without a copy: until a call that isn't const.
    bytes_view message_view() const { return shown(dcsctp_message_view); }

    error send(std::uint16_t stream_id, std::uint32_t ppid, bytes_view payload, const send_options &how = {}) {
        const dcsctp_send_options options = in_c(how);
        return done(dcsctp_send(&it_, stream_id, ppid, payload.data(), payload.size(), &options));
    }

    // Sends several messages in one call. `results` has one for each, unless the call returns an error of no message:
    // then it is empty.
    error send_many(const std::vector<outgoing_message> &messages, std::vector<error> &results,
                    const send_options &how = {}) {
        const dcsctp_send_options options = in_c(how);
        std::vector<dcsctp_outgoing_message> all;
        for (const outgoing_message &it : messages)
            all.push_back({it.payload.data(), it.payload.size(), it.ppid, it.stream_id, 0});
        all.emplace_back(); // (a place to point to, if there are none)
        std::vector<std::int32_t> numbers(all.size(), unwritten);
        const error result = done(
            dcsctp_send_many(&it_, all.data(), messages.size(), &options, numbers.data(), messages.size()));
        results.clear();
        for (std::size_t at = 0; at < messages.size() && numbers[at] != unwritten; at++)
            results.push_back(static_cast<error>(numbers[at]));
        return result;
    }

    error reset_streams(streams_view ids) { return done(dcsctp_reset_streams(&it_, ids.data(), ids.size())); }

    std::size_t buffered_amount(std::uint16_t stream_id) const {
        return counted([&](auto *at, auto *bytes) { return dcsctp_buffered_amount(at, stream_id, bytes); });
    }
    std::size_t buffered_amount_low_threshold(std::uint16_t stream_id) const {
        return counted(
            [&](auto *at, auto *bytes) { return dcsctp_buffered_amount_low_threshold(at, stream_id, bytes); });
    }
    error set_buffered_amount_low_threshold(std::uint16_t stream_id, std::size_t bytes) {
        return done(dcsctp_set_buffered_amount_low_threshold(&it_, stream_id, bytes));
    }
    std::uint16_t stream_priority(std::uint16_t stream_id) const {
        std::uint16_t priority = 0;
        dcsctp_get_stream_priority(&it_, stream_id, &priority);
        return priority;
    }
    error set_stream_priority(std::uint16_t stream_id, std::uint16_t priority) {
        return done(dcsctp_set_stream_priority(&it_, stream_id, priority));
    }

private:
    static constexpr std::int32_t unwritten = std::numeric_limits<std::int32_t>::max();

    static dcsctp_send_options in_c(const send_options &how) {
        dcsctp_send_options options = DCSCTP_SEND_INIT;
        options.lifecycle_id = how.lifecycle_id;
        options.lifetime = how.lifetime ? number(*how.lifetime) : 0;
        options.max_retransmissions = how.max_retransmissions.value_or(0);
        options.flags = (how.unordered ? DCSCTP_SEND_UNORDERED : 0) | (how.lifetime ? DCSCTP_SEND_LIFETIME : 0) |
                        (how.max_retransmissions ? DCSCTP_SEND_MAX_RETRANSMISSIONS : 0);
        return options;
    }
};

// ---- Data channels --------------------------------------------------------------------------------------------------

// A data channel: a number that `channels` never give twice.
enum class channel : std::uint64_t { none = 0 };

// What a channel is opened with. Texts are UTF-8. A message that was lost is sent again until it is acknowledged, or up
// to `max_retransmits` times, or for `max_lifetime`: set one of the two at most.
struct channel_options {
    std::string_view label = {};
    std::string_view protocol = {};
    bool ordered = true;
    std::optional<std::uint32_t> max_retransmits = {};
    std::optional<std::chrono::milliseconds> max_lifetime = {};
    std::uint16_t priority = 256;                 // 128, 256, 512 or 1,024
    std::optional<std::uint16_t> negotiated = {}; // the stream that both ends open it on
};

// The fields of dcsctp_channel_limits; 0 means the default.
struct channel_limits : dcsctp_channel_limits {
    channel_limits() : dcsctp_channel_limits(DCSCTP_CHANNEL_LIMITS_INIT) {}
};

enum class channel_event_kind : std::uint32_t {
    none = DCSCTP_CHANNEL_EVENT_NONE,
    send_packet = DCSCTP_CHANNEL_EVENT_SEND_PACKET,
    connected = DCSCTP_CHANNEL_EVENT_CONNECTED,
    opened = DCSCTP_CHANNEL_EVENT_OPENED,
    incoming = DCSCTP_CHANNEL_EVENT_INCOMING,
    message = DCSCTP_CHANNEL_EVENT_MESSAGE,
    buffered_amount_low = DCSCTP_CHANNEL_EVENT_BUFFERED_AMOUNT_LOW,
    closed = DCSCTP_CHANNEL_EVENT_CLOSED,
    ended = DCSCTP_CHANNEL_EVENT_ENDED,
};

enum class channel_end : std::uint32_t {
    closed_by_resets = DCSCTP_CHANNEL_CLOSED_BY_RESETS,
    refused = DCSCTP_CHANNEL_REFUSED,
    cant_be_reset = DCSCTP_CHANNEL_CANT_BE_RESET,
    lost = DCSCTP_CHANNEL_LOST,
    no_stream = DCSCTP_CHANNEL_NO_STREAM,
};

enum class channel_state : std::int32_t {
    connecting = DCSCTP_CHANNEL_CONNECTING,
    open = DCSCTP_CHANNEL_OPEN,
    closing = DCSCTP_CHANNEL_CLOSING,
    closed = DCSCTP_CHANNEL_CLOSED,
};

// What `channels` report. Later versions of the library may add kinds: ignore them.
struct channel_event {
    channel_event_kind kind = channel_event_kind::none;
    dcsctp::channel channel = dcsctp::channel::none; // but for send_packet, connected and ended
    bool is_text = false;                            // of message
    channel_end why = channel_end::closed_by_resets; // of closed
    bytes_view bytes; // of send_packet and message, without a copy: until a call that isn't const

    std::string_view text() const { return text_of(bytes); }
    const char *name() const {
        static const char *const names[] = {"none", "send packet", "connected", "channel opened", "incoming channel",
                                            "channel message", "channel buffered amount low", "channel closed",
                                            "channels ended"};
        return kind <= channel_event_kind::ended ? names[static_cast<std::uint32_t>(kind)] : "unknown";
    }
};

// Data channels (RFC 8831, RFC 8832), and the socket below them, which serves one association: create others for the
// next.
class channels : public association {
public:
    // Creates a closed socket with channels, as `socket` is created.
    error create(const dcsctp_options &how, nanoseconds now, const dcsctp_channel_limits &limits = channel_limits()) {
        return begun(association::create(how, now), limits);
    }
    error create(const dcsctp_options &how, const seed &drawn, nanoseconds now,
                 const dcsctp_channel_limits &limits = channel_limits()) {
        return begun(association::create(how, drawn, now), limits);
    }

    error set_role(bool is_dtls_client) { return done(dcsctp_channel_set_role(&it_, is_dtls_client)); }

    // Opens a channel. error::invalid_options: both limits are set.
    error open(const channel_options &how, channel &opened) {
        if (how.max_retransmits && how.max_lifetime)
            return error::invalid_options;
        const dcsctp_channel_options options = in_c(how);
        std::uint64_t number = 0;
        const error result = done(dcsctp_channel_open(&it_, &options, &number));
        if (result == error::ok)
            opened = static_cast<channel>(number);
        return result;
    }

    // Sends a message, which may be empty. `text` is UTF-8.
    error send_text(channel to, std::string_view text) { return sent(to, DCSCTP_CHANNEL_TEXT, text); }
    error send_binary(channel to, bytes_view bytes) { return sent(to, DCSCTP_CHANNEL_BINARY, bytes); }

    error close_channel(channel it) { return done(dcsctp_channel_close(&it_, number_of(it))); }

    // Takes the oldest event. If there is none, or after an error, it is of kind none. Take all before you wait, and
    // before each packet.
    error poll(channel_event &taken) {
        dcsctp_channel_event it = dcsctp_channel_event();
        const error result = done(dcsctp_channel_poll(&it_, &it));
        taken.kind = static_cast<channel_event_kind>(it.kind);
        taken.channel = static_cast<channel>(it.channel);
        const bool is_message = taken.kind == channel_event_kind::message;
        taken.is_text = is_message && it.detail == DCSCTP_CHANNEL_TEXT;
        taken.why = static_cast<channel_end>(is_message ? 0 : it.detail);
        taken.bytes = view_bytes();
        return result;
    }

    // The bytes of the last taken event, without a copy: until a call that isn't const. It is empty if the event has
    // none.
    bytes_view view_bytes() const { return shown(dcsctp_channel_view); }

    // Copies those bytes.
    error copy_bytes(std::vector<std::uint8_t> &bytes) const {
        return copy(bytes, view_bytes().size(), dcsctp_channel_bytes);
    }

    // What the peer has opened a channel with, if the last taken event is `incoming`. Its texts are there until a call
    // that isn't const.
    std::optional<channel_options> incoming_options() const {
        dcsctp_channel_options read = DCSCTP_CHANNEL_OPTIONS_INIT;
        if (done(dcsctp_channel_get_options(&it_, &read)) != error::ok)
            return std::nullopt;
        channel_options options;
        options.label = {read.label, read.label_length};
        options.protocol = {read.protocol, read.protocol_length};
        options.ordered = !read.is_unordered;
        options.priority = read.priority;
        if (read.reliability == DCSCTP_CHANNEL_RETRANSMISSIONS)
            options.max_retransmits = read.limit;
        if (read.reliability == DCSCTP_CHANNEL_LIFETIME)
            options.max_lifetime = std::chrono::milliseconds(read.limit);
        return options;
    }

    // The state of a channel. That of a channel of an empty socket is `closed`.
    channel_state state_of(channel it) const {
        const std::int32_t state = dcsctp_channel_state(&it_, number_of(it));
        return state < 0 ? channel_state::closed : static_cast<channel_state>(state);
    }

    // The stream of a channel; nothing while it is connecting, or when it is closed.
    std::optional<std::uint16_t> stream_of(channel it) const {
        std::uint16_t stream = 0;
        const bool has_one = dcsctp_channel_stream(&it_, number_of(it), &stream) == DCSCTP_OK;
        return has_one ? std::optional(stream) : std::nullopt;
    }

    // How many bytes are queued on a channel; 0 without a stream.
    std::size_t buffered_amount(channel it) const {
        return counted(
            [&](auto *at, auto *bytes) { return dcsctp_channel_buffered_amount(at, number_of(it), bytes); });
    }
    error set_buffered_amount_low_threshold(channel it, std::size_t bytes) {
        return done(dcsctp_channel_set_buffered_amount_low_threshold(&it_, number_of(it), bytes));
    }

    // What was counted of a channel; nothing without a stream.
    std::optional<dcsctp_channel_metrics> metrics_of(channel it) const {
        dcsctp_channel_metrics read = dcsctp_channel_metrics();
        read.size = sizeof read;
        const bool has_one = dcsctp_channel_get_metrics(&it_, number_of(it), &read) == DCSCTP_OK;
        return has_one ? std::optional(read) : std::nullopt;
    }

    // How many streams are in use, those of closing and refused channels, too.
    std::size_t streams_in_use() const { return counted(dcsctp_channel_count); }

private:
    static std::uint64_t number_of(channel it) { return static_cast<std::uint64_t>(it); }

    // A new socket gets channels. If it can't, it is destroyed.
    error begun(error created, const dcsctp_channel_limits &limits) {
        if (created != error::ok)
            return created;
        const error result = done(dcsctp_channel_begin(&it_, &limits));
        if (result != error::ok)
            destroy();
        return result;
    }

    error sent(channel to, std::uint32_t kind, bytes_view bytes) {
        return done(dcsctp_channel_send(&it_, number_of(to), kind, bytes.data(), bytes.size()));
    }

    static dcsctp_channel_options in_c(const channel_options &how) {
        dcsctp_channel_options options = DCSCTP_CHANNEL_OPTIONS_INIT;
        if (!how.label.empty())
            options.label = how.label.data();
        if (!how.protocol.empty())
            options.protocol = how.protocol.data();
        options.label_length = how.label.size();
        options.protocol_length = how.protocol.size();
        options.priority = how.priority;
        options.is_unordered = !how.ordered;
        options.is_negotiated = how.negotiated.has_value();
        options.stream = how.negotiated.value_or(0);
        if (how.max_retransmits) {
            options.reliability = DCSCTP_CHANNEL_RETRANSMISSIONS;
            options.limit = *how.max_retransmits;
        } else if (how.max_lifetime) {
            constexpr std::chrono::milliseconds::rep most = std::numeric_limits<std::uint32_t>::max();
            const auto time = how.max_lifetime->count();
            options.reliability = DCSCTP_CHANNEL_LIFETIME;
            options.limit = static_cast<std::uint32_t>(time < 0 ? 0 : time > most ? most : time);
        }
        return options;
    }
};

} // namespace dcsctp

template <>
struct std::is_error_code_enum<dcsctp::error> : std::true_type {};

#endif
