// Sockets of rattle_socket.h, each over one of dcsctp.h.
#include "rattle_socket.h"

#include <dcsctp.h>

#include <algorithm>
#include <cstring>
#include <utility>
#include <vector>

namespace dcsctp {
namespace {

constexpr uint64_t kMillisecond = 1000000;

// Moments of the library begin an hour before those of TimeMillis: dcsctp_restore_from_state needs a clock past 60 s.
constexpr uint64_t kEpoch = 3600 * 1000 * kMillisecond;

constexpr const char *kNotOurState = "the state isn't one of this library, or was changed";

// What a call of dcsctp.h may point to that has nothing to show.
constexpr uint8_t kNoBytes[1] = {0};

uint64_t Nanoseconds(DurationMs duration) {
    return *duration < 0 ? 0 : static_cast<uint64_t>(*duration) * kMillisecond;
}

absl::string_view TextOf(int32_t result) {
    return dcsctp_error_text(result);
}

// ---- Options --------------------------------------------------------------------------------------------------------

size_t Size(size_t bytes) {
    return std::min<size_t>(bytes, UINT32_MAX);
}

uint32_t Limit(absl::optional<int> count) {
    return count ? static_cast<uint32_t>(std::max(*count, 0)) : DCSCTP_NO_LIMIT;
}

void SetSizes(dcsctp_options &to, const DcSctpOptions &from) {
    to.mtu = from.mtu;
    to.max_message_size = from.max_message_size;
    to.max_receiver_window_buffer_size = Size(from.max_receiver_window_buffer_size);
    to.max_send_buffer_size = Size(from.max_send_buffer_size);
    to.per_stream_send_queue_limit = Size(from.max_send_buffer_size);
    to.total_buffered_amount_low_threshold = from.total_buffered_amount_low_threshold;
    to.cwnd_mtus_initial = from.cwnd_mtus_initial;
    to.cwnd_mtus_min = from.cwnd_mtus_min;
}

void SetTimes(dcsctp_options &to, const DcSctpOptions &from) {
    const auto &backoff = from.max_timer_backoff_duration;
    to.rtt_max = Nanoseconds(from.rtt_max);
    to.rto_initial = Nanoseconds(from.rto_initial);
    to.rto_max = Nanoseconds(from.rto_max);
    to.rto_min = Nanoseconds(from.rto_min);
    to.t1_init_timeout = Nanoseconds(from.t1_init_timeout);
    to.t1_cookie_timeout = Nanoseconds(from.t1_cookie_timeout);
    to.max_timer_backoff_duration = backoff ? Nanoseconds(*backoff) : DCSCTP_NEVER;
    to.heartbeat_interval = Nanoseconds(from.heartbeat_interval);
    to.delayed_ack_max_timeout = Nanoseconds(from.delayed_ack_max_timeout);
    to.min_rtt_variance = Nanoseconds(from.min_rtt_variance);
}

void SetOthers(dcsctp_options &to, const DcSctpOptions &from) {
    to.max_burst = from.max_burst;
    to.max_retransmissions = Limit(from.max_retransmissions);
    to.max_init_retransmits = Limit(from.max_init_retransmits);
    to.enable_partial_reliability = from.enable_partial_reliability;
    to.enable_message_interleaving = from.enable_message_interleaving;
    to.disable_checksum_verification = from.disable_checksum_verification;
    to.local_port = static_cast<uint16_t>(from.local_port);
    to.remote_port = static_cast<uint16_t>(from.remote_port);
    to.announced_maximum_incoming_streams = from.announced_maximum_incoming_streams;
    to.announced_maximum_outgoing_streams = from.announced_maximum_outgoing_streams;
    to.default_stream_priority = *from.default_stream_priority;
}

bool IsPort(int port) {
    return 0 <= port && port <= UINT16_MAX;
}

// Of options that have no counterpart, those that aren't the defaults.
std::vector<absl::string_view> OptionsWithoutEffect(const DcSctpOptions &options) {
    const DcSctpOptions defaults;
    std::vector<absl::string_view> texts;
    if (options.t2_shutdown_timeout != defaults.t2_shutdown_timeout)
        texts.emplace_back("the option t2_shutdown_timeout has no effect");
    if (options.avoid_fragmentation_cwnd_mtus != defaults.avoid_fragmentation_cwnd_mtus)
        texts.emplace_back("the option avoid_fragmentation_cwnd_mtus has no effect");
    return texts;
}

// ---- Messages and metrics -------------------------------------------------------------------------------------------

dcsctp_send_options InC(const SendOptions &how) {
    dcsctp_send_options options = DCSCTP_SEND_INIT;
    options.lifecycle_id = *how.lifecycle_id;
    if (*how.unordered)
        options.flags |= DCSCTP_SEND_UNORDERED;
    if (how.lifetime) {
        options.flags |= DCSCTP_SEND_LIFETIME;
        options.lifetime = Nanoseconds(*how.lifetime);
    }
    // (65,535 is MaxRetransmits::NoLimit)
    if (how.max_retransmissions && *how.max_retransmissions < UINT16_MAX) {
        options.flags |= DCSCTP_SEND_MAX_RETRANSMISSIONS;
        options.max_retransmissions = static_cast<uint16_t>(*how.max_retransmissions);
    }
    return options;
}

SendStatus StatusOf(int32_t result) {
    switch (result) {
    case DCSCTP_OK:
        return SendStatus::kSuccess;
    case DCSCTP_ERROR_EMPTY_PAYLOAD:
        return SendStatus::kErrorMessageEmpty;
    case DCSCTP_ERROR_MESSAGE_TOO_LARGE:
        return SendStatus::kErrorMessageTooLarge;
    case DCSCTP_ERROR_SHUTTING_DOWN:
        return SendStatus::kErrorShuttingDown;
    default:
        return SendStatus::kErrorResourceExhaustion;
    }
}

SctpImplementation PeerOf(uint32_t peer) {
    switch (peer) {
    case DCSCTP_PEER_DCSCTP_RS:
    case DCSCTP_PEER_DCSCTP_CC:
        return SctpImplementation::kDcsctp;
    case DCSCTP_PEER_USRSCTP:
        return SctpImplementation::kUsrSctp;
    case DCSCTP_PEER_OTHER:
        return SctpImplementation::kOther;
    default:
        return SctpImplementation::kUnknown;
    }
}

Metrics InterfaceMetrics(const dcsctp_metrics &from) {
    Metrics to;
    to.tx_packets_count = from.tx_packets_count;
    to.tx_messages_count = from.tx_messages_count;
    to.cwnd_bytes = from.cwnd_bytes;
    to.srtt_ms = static_cast<int>(from.srtt / kMillisecond);
    to.unack_data_count = from.unack_data_count;
    to.rx_packets_count = from.rx_packets_count;
    to.rx_messages_count = from.rx_messages_count;
    to.peer_rwnd_bytes = from.peer_rwnd_bytes;
    to.peer_implementation = PeerOf(from.peer_implementation);
    to.uses_message_interleaving = from.uses_message_interleaving != 0;
    to.negotiated_maximum_incoming_streams = from.negotiated_maximum_incoming_streams;
    to.negotiated_maximum_outgoing_streams = from.negotiated_maximum_outgoing_streams;
    return to;
}

// ---- Handover -------------------------------------------------------------------------------------------------------

// What marks a packed snapshot: no state of WebRTC's sockets has it, since their tie tag is random.
constexpr uint64_t kPacked = 0x7261747474a1e000;

// Each item of `tx.streams` carries eight bytes of the snapshot, in two fields of 32 bits.
constexpr size_t kPackedBytes = 8;

DcSctpSocketHandoverState Pack(const std::vector<uint8_t> &snapshot, bool was_connected) {
    DcSctpSocketHandoverState state;
    using State = DcSctpSocketHandoverState::SocketState;
    state.socket_state = was_connected ? State::kConnected : State::kClosed;
    state.tie_tag = kPacked;
    state.tx.next_tsn = static_cast<uint32_t>(snapshot.size());
    for (size_t at = 0; at < snapshot.size(); at += kPackedBytes) {
        uint32_t words[2] = {0, 0};
        std::memcpy(words, &snapshot[at], std::min(kPackedBytes, snapshot.size() - at));
        DcSctpSocketHandoverState::OutgoingStream item;
        item.id = static_cast<uint32_t>(at / kPackedBytes);
        item.next_unordered_mid = words[0];
        item.next_ordered_mid = words[1];
        state.tx.streams.push_back(item);
    }
    return state;
}

// The snapshot of a state, or nothing if it isn't a packed one. The library finds changes in the bytes.
std::vector<uint8_t> Unpack(const DcSctpSocketHandoverState &state) {
    const auto &items = state.tx.streams;
    std::vector<uint8_t> snapshot(items.size() * kPackedBytes);
    for (size_t at = 0; at < items.size(); at++) {
        const uint32_t words[2] = {items[at].next_unordered_mid, items[at].next_ordered_mid};
        std::memcpy(&snapshot[at * kPackedBytes], words, kPackedBytes);
    }
    const size_t length = state.tx.next_tsn;
    const bool is_packed = state.tie_tag == kPacked && (length + kPackedBytes - 1) / kPackedBytes == items.size();
    snapshot.resize(is_packed ? length : 0);
    return snapshot;
}

// ---- Sockets --------------------------------------------------------------------------------------------------------

// Whether messages that came before it must be delivered before this event.
bool EndsMessages(uint32_t kind) {
    return kind == DCSCTP_EVENT_CLOSED || kind == DCSCTP_EVENT_ABORTED || kind == DCSCTP_EVENT_INCOMING_STREAM_RESET;
}

class RattleSocket final : public DcSctpSocketInterface {
public:
    RattleSocket(DcSctpSocketCallbacks &callbacks, std::unique_ptr<PacketObserver> observer,
                 const DcSctpOptions &options, bool follow_rfc)
        : callbacks_(callbacks), observer_(std::move(observer)), options_(options),
          first_time_(std::min<int64_t>(*callbacks.TimeMillis(), 0)), warnings_(OptionsWithoutEffect(options)) {
        dcsctp_options in_c;
        dcsctp_options_init(&in_c);
        SetSizes(in_c, options);
        SetTimes(in_c, options);
        SetOthers(in_c, options);
        in_c.follow_rfc = follow_rfc;
        uint8_t seed[32];
        // (not from 0, since a seed of zeros is refused)
        for (size_t at = 0; at < sizeof seed; at += sizeof(uint32_t)) {
            const uint32_t word = callbacks.GetRandomInt(1, UINT32_MAX);
            std::memcpy(seed + at, &word, sizeof word);
        }
        if (IsPort(options.local_port) && IsPort(options.remote_port))
            created_ = dcsctp_create(&socket_, &in_c, seed, Now());
        timeout_ = callbacks.CreateTimeout(webrtc::TaskQueueBase::DelayPrecision::kHigh);
    }

    ~RattleSocket() override {
        StopTimeout();
        dcsctp_destroy(&socket_);
    }

    void ReceivePacket(rtc::ArrayView<const uint8_t> data) override {
        if (observer_)
            observer_->OnReceivedPacket(callbacks_.TimeMillis(), data);
        DrainInCallback();
        Call([&] { return dcsctp_handle_input(&socket_, data.empty() ? kNoBytes : data.data(), data.size()); });
    }

    void HandleTimeout(TimeoutID timeout_id) override {
        // (one that was stopped may still expire)
        if (due_ == DCSCTP_NEVER || *timeout_id != timeout_id_)
            return;
        due_ = DCSCTP_NEVER;
        Call([] { return DCSCTP_OK; });
    }

    void Connect() override {
        DrainInCallback();
        const int32_t result = Call([&] { return dcsctp_connect(&socket_); });
        if (result == DCSCTP_ERROR_NO_SOCKET)
            callbacks_.OnAborted(ErrorKind::kUnsupportedOperation, TextOf(created_));
        else if (result == DCSCTP_ERROR_FAILED)
            callbacks_.OnAborted(ErrorKind::kResourceExhaustion, TextOf(result));
    }

    void Shutdown() override {
        Call([&] { return dcsctp_shutdown(&socket_); });
    }

    void Close() override {
        Call([&] { return dcsctp_close(&socket_); });
        DrainInCallback();
    }

    SocketState state() const override {
        const int32_t state = dcsctp_state(&socket_);
        return state < 0 || has_failed_ ? SocketState::kClosed : static_cast<SocketState>(state);
    }

    const DcSctpOptions &options() const override { return options_; }

    void SetMaxMessageSize(size_t max_message_size) override {
        options_.max_message_size = max_message_size;
        Finish(dcsctp_set_max_message_size(&socket_, max_message_size));
    }

    void SetStreamPriority(StreamID stream_id, StreamPriority priority) override {
        Finish(dcsctp_set_stream_priority(&socket_, *stream_id, *priority));
    }

    StreamPriority GetStreamPriority(StreamID stream_id) const override {
        uint16_t priority = *options_.default_stream_priority;
        dcsctp_get_stream_priority(&socket_, *stream_id, &priority);
        return StreamPriority(priority);
    }

    SendStatus Send(DcSctpMessage message, const SendOptions &send_options) override {
        const dcsctp_send_options how = InC(send_options);
        const auto payload = message.payload();
        return StatusOf(Call([&] {
            return dcsctp_send(&socket_, *message.stream_id(), *message.ppid(),
                               payload.empty() ? kNoBytes : payload.data(), payload.size(), &how);
        }));
    }

    ResetStreamsStatus ResetStreams(rtc::ArrayView<const StreamID> outgoing_streams) override {
        std::vector<uint16_t> ids;
        ids.reserve(outgoing_streams.size() + 1); // (a place to point to, if there are none)
        for (StreamID id : outgoing_streams)
            ids.push_back(*id);
        switch (Call([&] { return dcsctp_reset_streams(&socket_, ids.data(), ids.size()); })) {
        case DCSCTP_OK:
            return ResetStreamsStatus::kPerformed;
        case DCSCTP_ERROR_NOT_SUPPORTED:
            return ResetStreamsStatus::kNotSupported;
        default:
            return ResetStreamsStatus::kNotConnected;
        }
    }

    size_t buffered_amount(StreamID stream_id) const override {
        size_t bytes = 0;
        dcsctp_buffered_amount(&socket_, *stream_id, &bytes);
        return bytes;
    }

    size_t buffered_amount_low_threshold(StreamID stream_id) const override {
        size_t bytes = 0;
        dcsctp_buffered_amount_low_threshold(&socket_, *stream_id, &bytes);
        return bytes;
    }

    void SetBufferedAmountLowThreshold(StreamID stream_id, size_t bytes) override {
        Finish(dcsctp_set_buffered_amount_low_threshold(&socket_, *stream_id, bytes));
    }

    absl::optional<Metrics> GetMetrics() const override {
        dcsctp_metrics metrics = dcsctp_metrics();
        metrics.size = sizeof metrics;
        if (has_failed_ || dcsctp_get_metrics(&socket_, &metrics) != 1)
            return absl::nullopt;
        return InterfaceMetrics(metrics);
    }

    SctpImplementation peer_implementation() const override {
        const auto metrics = GetMetrics();
        return metrics ? metrics->peer_implementation : SctpImplementation::kUnknown;
    }

    HandoverReadinessStatus GetHandoverReadiness() const override {
        uint32_t reasons = DCSCTP_HANDOVER_WRONG_CONNECTION_STATE;
        if (!has_failed_)
            dcsctp_get_handover_readiness(&socket_, &reasons);
        return HandoverReadinessStatus(static_cast<HandoverUnreadinessReason>(reasons));
    }

    absl::optional<DcSctpSocketHandoverState> GetHandoverStateAndClose() override {
        DrainInCallback();
        const bool was_connected = state() == SocketState::kConnected;
        std::vector<uint8_t> snapshot;
        const int32_t result = Call([&] {
            const int32_t taken = dcsctp_get_handover_state_and_close(&socket_);
            return taken == DCSCTP_OK ? CopySnapshot(snapshot) : taken;
        });
        DrainInCallback();
        if (result != DCSCTP_OK)
            return absl::nullopt;
        return Pack(snapshot, was_connected);
    }

    void RestoreFromState(const DcSctpSocketHandoverState &state) override {
        const std::vector<uint8_t> snapshot = Unpack(state);
        if (snapshot.empty())
            return callbacks_.OnError(ErrorKind::kParseFailed, kNotOurState);
        const int32_t result =
            Call([&] { return dcsctp_restore_from_state(&socket_, snapshot.data(), snapshot.size()); });
        if (result == DCSCTP_ERROR_INVALID_SNAPSHOT)
            callbacks_.OnError(ErrorKind::kParseFailed, kNotOurState);
        else if (result == DCSCTP_ERROR_NOT_CLOSED || result == DCSCTP_ERROR_OTHER_OPTIONS)
            callbacks_.OnError(ErrorKind::kUnsupportedOperation, TextOf(result));
    }

private:
    // The library has no time before 0. If the first one is, moments count from that.
    uint64_t Now() const {
        return static_cast<uint64_t>(*callbacks_.TimeMillis() - first_time_) * kMillisecond + kEpoch;
    }

    // Makes a call at the present time, and returns its result.
    template <typename Function>
    int32_t Call(Function function) {
        const int32_t result = dcsctp_advance_time(&socket_, Now());
        return Finish(result == DCSCTP_OK ? function() : result);
    }

    // Ends a call: makes the callbacks, and reports an error for which there is no event. In a callback the loop that
    // makes callbacks continues, so that it doesn't nest.
    int32_t Finish(int32_t result) {
        if (!is_draining_) {
            Warn();
            Drain();
            NoticeFailure();
            SetTimeout();
        }
        if (result == DCSCTP_ERROR_NO_SOCKET)
            callbacks_.OnError(ErrorKind::kUnsupportedOperation, TextOf(created_));
        else if (result == DCSCTP_ERROR_OUT_OF_MEMORY && !has_failed_)
            callbacks_.OnError(ErrorKind::kResourceExhaustion, TextOf(result));
        return result;
    }

    // Reports options without effect, once.
    void Warn() {
        for (absl::string_view text : std::exchange(warnings_, {}))
            callbacks_.OnError(ErrorKind::kUnsupportedOperation, text);
    }

    void NoticeFailure() {
        if (has_failed_ || dcsctp_has_failed(&socket_) != 1)
            return;
        has_failed_ = true;
        callbacks_.OnAborted(ErrorKind::kResourceExhaustion, TextOf(DCSCTP_ERROR_OUT_OF_MEMORY));
    }

    // ---- Callbacks

    // In a callback: makes the callbacks that are left, before a call that may begin another association, or after one
    // that lets none follow.
    void DrainInCallback() {
        if (is_draining_)
            Drain();
    }

    void Drain() {
        const bool was_draining = std::exchange(is_draining_, true);
        for (bool more = true; more;) {
            while (is_held_ || dcsctp_poll_event(&socket_, &event_) == 1) {
                is_held_ = true;
                DrainEvent();
            }
            more = DrainMessages();
        }
        is_draining_ = was_draining;
    }

    // Calls back for the event that was taken, unless a callback for a message has closed the socket: then that was
    // done by Close.
    void DrainEvent() {
        if (EndsMessages(event_.kind))
            DrainMessages();
        if (!std::exchange(is_held_, false))
            return;
        switch (event_.kind) {
        case DCSCTP_EVENT_SEND_PACKET:
            return SendPacket();
        case DCSCTP_EVENT_ABORTED:
        case DCSCTP_EVENT_ERROR:
            return OnText(event_.kind, static_cast<ErrorKind>(event_.error_kind));
        case DCSCTP_EVENT_STREAMS_RESET_FAILED:
        case DCSCTP_EVENT_STREAMS_RESET_PERFORMED:
        case DCSCTP_EVENT_INCOMING_STREAM_RESET:
            return OnReset(event_.kind);
        case DCSCTP_EVENT_LIFECYCLE_FULLY_SENT:
        case DCSCTP_EVENT_LIFECYCLE_MAYBE_EXPIRED:
        case DCSCTP_EVENT_LIFECYCLE_EXPIRED:
        case DCSCTP_EVENT_LIFECYCLE_DELIVERED:
        case DCSCTP_EVENT_LIFECYCLE_END:
            return OnLifecycle(event_.kind, LifecycleId(event_.lifecycle_id));
        default:
            return OnOther(event_.kind, StreamID(static_cast<uint16_t>(event_.stream_id)));
        }
    }

    // Whether there was a message.
    bool DrainMessages() {
        bool any = false;
        dcsctp_message message;
        while (dcsctp_get_next_message(&socket_, &message) == 1) {
            const uint8_t *at = nullptr;
            size_t length = 0;
            any = true;
            if (dcsctp_message_view(&socket_, &at, &length) == DCSCTP_OK)
                callbacks_.OnMessageReceived(DcSctpMessage(StreamID(message.stream_id), PPID(message.ppid),
                                                           std::vector<uint8_t>(at, at + length)));
        }
        return any;
    }

    // (the view stays, since this callback may not call the socket)
    void SendPacket() {
        const uint8_t *at = nullptr;
        size_t length = 0;
        if (dcsctp_event_view(&socket_, &at, &length) != DCSCTP_OK)
            return;
        const rtc::ArrayView<const uint8_t> packet(at, length);
        callbacks_.SendPacketWithStatus(packet);
        if (observer_)
            observer_->OnSentPacket(callbacks_.TimeMillis(), packet);
    }

    void OnText(uint32_t kind, ErrorKind error) {
        std::vector<char> text(event_.length + 1);
        size_t length = 0;
        auto *at = reinterpret_cast<uint8_t *>(text.data());
        if (dcsctp_event_bytes(&socket_, at, text.size(), &length) != DCSCTP_OK)
            length = 0;
        if (kind == DCSCTP_EVENT_ABORTED)
            callbacks_.OnAborted(error, absl::string_view(text.data(), length));
        else
            callbacks_.OnError(error, absl::string_view(text.data(), length));
    }

    void OnReset(uint32_t kind) {
        std::vector<uint16_t> numbers(event_.length + 1);
        size_t count = 0;
        if (dcsctp_event_streams(&socket_, numbers.data(), numbers.size(), &count) != DCSCTP_OK)
            return;
        const std::vector<StreamID> ids(numbers.begin(), numbers.begin() + count);
        if (kind == DCSCTP_EVENT_STREAMS_RESET_FAILED)
            callbacks_.OnStreamsResetFailed(ids, "the peer didn't perform the request");
        else if (kind == DCSCTP_EVENT_STREAMS_RESET_PERFORMED)
            callbacks_.OnStreamsResetPerformed(ids);
        else
            callbacks_.OnIncomingStreamsReset(ids);
    }

    void OnLifecycle(uint32_t kind, LifecycleId id) {
        switch (kind) {
        case DCSCTP_EVENT_LIFECYCLE_FULLY_SENT:
            return callbacks_.OnLifecycleMessageFullySent(id);
        case DCSCTP_EVENT_LIFECYCLE_MAYBE_EXPIRED:
            return callbacks_.OnLifecycleMessageExpired(id, true);
        case DCSCTP_EVENT_LIFECYCLE_EXPIRED:
            return callbacks_.OnLifecycleMessageExpired(id, false);
        case DCSCTP_EVENT_LIFECYCLE_DELIVERED:
            return callbacks_.OnLifecycleMessageDelivered(id);
        default:
            return callbacks_.OnLifecycleEnd(id);
        }
    }

    void OnOther(uint32_t kind, StreamID stream_id) {
        switch (kind) {
        case DCSCTP_EVENT_CONNECTED:
            return callbacks_.OnConnected();
        case DCSCTP_EVENT_CLOSED:
            return callbacks_.OnClosed();
        case DCSCTP_EVENT_CONNECTION_RESTARTED:
            return callbacks_.OnConnectionRestarted();
        case DCSCTP_EVENT_BUFFERED_AMOUNT_LOW:
            return callbacks_.OnBufferedAmountLow(stream_id);
        case DCSCTP_EVENT_TOTAL_BUFFERED_AMOUNT_LOW:
            return callbacks_.OnTotalBufferedAmountLow();
        default:
            return; // (of a later version)
        }
    }

    // ---- The timeout and the snapshot

    // Sets the timeout to the next deadline, rounded up to a millisecond.
    void SetTimeout() {
        uint64_t due = DCSCTP_NEVER;
        if (!has_failed_)
            dcsctp_poll_timeout(&socket_, &due);
        if (due == DCSCTP_NEVER)
            return StopTimeout();
        if (due == due_)
            return;
        const uint64_t now = Now();
        const uint64_t wait = due > now ? (due - now + kMillisecond - 1) / kMillisecond : 0;
        const DurationMs duration(static_cast<int32_t>(std::min<uint64_t>(wait, INT32_MAX)));
        const bool is_running = std::exchange(due_, due) != DCSCTP_NEVER;
        timeout_id_++;
        if (is_running)
            timeout_->Restart(duration, TimeoutID(timeout_id_));
        else
            timeout_->Start(duration, TimeoutID(timeout_id_));
    }

    void StopTimeout() {
        if (std::exchange(due_, DCSCTP_NEVER) != DCSCTP_NEVER)
            timeout_->Stop();
    }

    int32_t CopySnapshot(std::vector<uint8_t> &snapshot) const {
        size_t length = 0;
        snapshot.resize(1);
        const int32_t result = dcsctp_handover_bytes(&socket_, snapshot.data(), 0, &length);
        if (result != DCSCTP_ERROR_BUFFER_TOO_SMALL)
            return result;
        snapshot.resize(length);
        return dcsctp_handover_bytes(&socket_, snapshot.data(), length, &length);
    }

    DcSctpSocketCallbacks &callbacks_;
    const std::unique_ptr<PacketObserver> observer_;
    DcSctpOptions options_;
    const int64_t first_time_;
    std::vector<absl::string_view> warnings_;

    dcsctp_socket socket_ = DCSCTP_SOCKET_INIT;
    int32_t created_ = DCSCTP_ERROR_INVALID_OPTIONS; // what dcsctp_create has returned
    bool has_failed_ = false;                        // an allocation has failed, and that was reported

    bool is_draining_ = false;            // a callback may be under way
    bool is_held_ = false;                // `event_` was taken, and there was no callback for it yet
    dcsctp_event event_ = dcsctp_event(); // the last event

    std::unique_ptr<Timeout> timeout_;
    uint64_t due_ = DCSCTP_NEVER; // when it expires; DCSCTP_NEVER: it isn't running
    uint64_t timeout_id_ = 0;     // the last one
};

} // namespace

std::unique_ptr<DcSctpSocketInterface> CreateRattleSocket(DcSctpSocketCallbacks &callbacks,
                                                          std::unique_ptr<PacketObserver> observer,
                                                          const DcSctpOptions &options, bool follow_rfc) {
    return std::make_unique<RattleSocket>(callbacks, std::move(observer), options, follow_rfc);
}

} // namespace dcsctp
