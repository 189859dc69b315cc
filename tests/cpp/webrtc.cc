// Tests of WebRTC's interface of a socket, by what net/dcsctp/public/dcsctp_socket.h documents: two ends, over a link
// that loses none, 5 % or 15 % of the packets. They are the same for each implementation. DcSctpSocketFactory is the
// one that is linked, ours or WebRTC's. With -DBOTH, CreateRattleSocket is linked beside WebRTC's, and one end has
// each:
//
//     webrtc [MOST]                 the factory's sockets at both ends; MOST: no greater loss, of 1,000
//     webrtc [MOST] ours-theirs     with -DBOTH; or theirs-ours
#include "webrtc_ends.h"

#ifdef BOTH
#include "rattle_socket.h"
#endif

namespace {

std::unique_ptr<DcSctpSocketInterface> Theirs(DcSctpSocketCallbacks &callbacks,
                                              std::unique_ptr<PacketObserver> observer, const DcSctpOptions &options) {
    return DcSctpSocketFactory().Create("test", callbacks, std::move(observer), options);
}

End::Maker make_a = Theirs, make_z = Theirs;
int loss = 0;

// Ends with the chosen sockets, over a link that loses so many packets.
struct Pair : Ends {
    explicit Pair(const DcSctpOptions &options = {}) : Pair(options, options) {}
    Pair(const DcSctpOptions &of_a, const DcSctpOptions &of_z) : Ends(make_a, make_z, of_a, of_z) { world.loss = loss; }
};

// Bytes that no other message has.
Bytes Payload(size_t length, uint32_t number) {
    Bytes bytes(length);
    for (size_t at = 0; at < length; at++)
        bytes[at] = static_cast<uint8_t>((at * 31 + number * 7 + (at >> 8)) ^ (number >> 8));
    for (size_t at = 0; at < 4 && at < length; at++)
        bytes[at] = static_cast<uint8_t>(number >> (8 * at));
    return bytes;
}

bool Is(const DcSctpMessage &message, uint16_t stream, const Bytes &payload, uint32_t ppid = 53) {
    return *message.stream_id() == stream && *message.ppid() == ppid &&
           std::equal(payload.begin(), payload.end(), message.payload().begin(), message.payload().end());
}

// How many of these numbers have arrived, and whether those of each stream came in order and once.
struct Arrived {
    size_t count = 0;
    bool in_order = true, once = true;

    explicit Arrived(const End &end) {
        std::map<uint16_t, int64_t> last;
        std::map<uint32_t, int> seen;
        for (const DcSctpMessage &it : end.messages) {
            uint32_t number = 0;
            for (size_t at = 0; at < 4 && at < it.payload().size(); at++)
                number |= static_cast<uint32_t>(it.payload()[at]) << (8 * at);
            auto [place, is_new] = last.emplace(*it.stream_id(), -1);
            in_order = in_order && place->second < number;
            place->second = number;
            once = ++seen[number] == 1 && once;
            count++;
        }
    }
};

// ---- Associations

void Connecting() {
    DcSctpOptions options;
    options.announced_maximum_outgoing_streams = 100;
    options.mtu = 1000;
    Pair it(options, {});
    Expect(it.a.socket->state() == SocketState::kClosed && !it.a.socket->GetMetrics(), "it begins closed");
    Expect(it.a.socket->options().mtu == 1000, "it has the options that it was given");
    it.a.Connect();
    Expect(it.a.socket->state() == SocketState::kConnecting, "Connect is asynchronous");
    it.a.Connect();
    Expect(it.world.RunUntil([&] { return it.a.IsConnected() && it.z.IsConnected(); }), "both ends connect");
    it.world.Run(5000);
    Expect(it.a.connected == 1 && it.z.connected == 1, "OnConnected comes once at each end");
    const auto a = it.a.socket->GetMetrics(), z = it.z.socket->GetMetrics();
    Expect(a && z, "there are metrics");
    if (!a || !z)
        return;
    Expect(a->negotiated_maximum_outgoing_streams == 100 && z->negotiated_maximum_incoming_streams == 100,
           "the smaller number of streams is negotiated");
    Expect(a->negotiated_maximum_incoming_streams == 65535, "the other way, too");
    Expect(!a->uses_message_interleaving && !z->uses_message_interleaving, "without interleaving");
    Expect(a->tx_packets_count >= 2 && a->rx_packets_count >= 2, "packets are counted");
    it.a.Connect();
    it.world.Run(1000);
    Expect(it.a.connected == 1 && it.a.IsConnected(), "a connected socket isn't connected again");
}

void BothConnect() {
    Pair it;
    it.a.Connect();
    it.z.Connect();
    Expect(it.world.RunUntil([&] { return it.a.IsConnected() && it.z.IsConnected(); }), "both may connect");
    it.a.Send(1, Payload(10, 1));
    it.z.Send(1, Payload(10, 2));
    it.Settle();
    Expect(it.a.messages.size() == 1 && it.z.messages.size() == 1, "then messages arrive");
}

void NoPeer() {
    DcSctpOptions options;
    options.max_init_retransmits = 2;
    Pair it(options);
    it.world.is_cut = true;
    it.a.Connect();
    it.world.Run(60000);
    Expect(it.a.aborts.size() == 1 && it.a.aborts[0].first == ErrorKind::kTooManyRetries, "no peer: it gives up");
    Expect(it.a.socket->state() == SocketState::kClosed && it.a.connected == 0, "no peer: it is closed");
    it.world.is_cut = false;
    Expect(it.Connect(), "it can connect later");
}

void PeerGone() {
    DcSctpOptions options;
    options.max_retransmissions = 3;
    Pair it(options);
    it.Connect();
    it.world.is_cut = true;
    it.a.Send(1, Payload(10, 1));
    it.world.Run(120000);
    Expect(it.a.aborts.size() == 1 && it.a.aborts[0].first == ErrorKind::kTooManyRetries, "a silent peer is given up");
    Expect(it.a.socket->state() == SocketState::kClosed && it.a.closed == 0, "then it is closed");
}

void PeerSilentWhileIdle() {
    DcSctpOptions options;
    options.heartbeat_interval = DurationMs(1000);
    options.max_retransmissions = 2;
    Pair it(options);
    it.Connect();
    it.world.is_cut = true;
    it.world.Run(120000);
    Expect(it.a.aborts.size() == 1 && it.z.aborts.size() == 1, "heartbeats find that the peer is gone");
}

void PeerRestarts() {
    Pair it;
    it.Connect();
    it.a.Send(1, Payload(10, 1));
    it.Settle();
    it.a.Create({});
    Expect(it.a.socket->state() == SocketState::kClosed, "a new socket");
    it.a.Connect();
    Expect(it.world.RunUntil([&] { return it.a.IsConnected() && it.z.restarted == 1; }), "OnConnectionRestarted");
    it.a.Send(1, Payload(10, 2));
    it.z.Send(1, Payload(10, 3));
    it.Settle();
    Expect(it.z.messages.size() == 2 && it.a.messages.size() == 1, "after a restart messages arrive");
}

// ---- Messages

void Messages(bool interleaving, bool unordered) {
    DcSctpOptions options;
    options.enable_message_interleaving = interleaving;
    Pair it(options);
    SendOptions how;
    how.unordered = IsUnordered(unordered);
    it.a.Send(0, Payload(1, 0), how); // (queued before there is an association)
    Expect(it.Connect(), "it connects");
    const size_t lengths[] = {1, 4, 100, 1191, 5000, 70000};
    uint32_t number = 0;
    for (int round = 0; round < 5; round++)
        for (size_t length : lengths) {
            number++;
            it.a.Send(number % 7, Payload(length, number), how, number);
            it.z.Send(number % 5, Payload(length, number), how, number);
        }
    Expect(it.Settle(), "all is acknowledged");
    it.world.Run(1000);
    Expect(it.z.messages.size() == 31 && it.a.messages.size() == 30, "all messages arrive");
    size_t same = 0;
    for (const DcSctpMessage &message : it.a.messages)
        for (uint32_t sent = 1; sent <= number; sent++)
            same += *message.ppid() == sent && Is(message, sent % 5, Payload(lengths[(sent - 1) % 6], sent), sent);
    Expect(same == 30, "each once, with its stream, PPID and bytes");
    const auto metrics = it.a.socket->GetMetrics();
    Expect(metrics && metrics->uses_message_interleaving == interleaving, "interleaving as both have it");
    Expect(metrics && metrics->tx_messages_count == 31 && metrics->rx_messages_count == 30, "messages are counted");
    Expect(metrics && (loss > 0 || (metrics->srtt_ms >= 40 && metrics->srtt_ms <= 260)), "a round trip is measured");
}

void Order() {
    Pair it;
    it.Connect();
    for (uint32_t number = 0; number < 500; number++)
        it.a.Send(number % 3, Payload(4 + number % 2000, number));
    Expect(it.Settle(), "all is acknowledged");
    const Arrived arrived(it.z);
    Expect(arrived.count == 500 && arrived.once && arrived.in_order, "a stream's messages arrive once, in order");
}

void Unordered() {
    Pair it;
    it.Connect();
    it.Settle();
    it.world.is_cut = true;
    it.a.Send(1, Payload(100, 1));
    it.world.is_cut = false;
    it.world.loss = 0;
    SendOptions how;
    it.a.Send(1, Payload(100, 2), how);
    how.unordered = IsUnordered(true);
    it.a.Send(1, Payload(100, 3), how);
    Expect(it.Settle() && it.z.messages.size() == 3, "all arrive, though one was lost");
    const auto &all = it.z.messages;
    Expect(all.size() == 3 && Is(all[0], 1, Payload(100, 3)), "an unordered message doesn't wait for it");
    Expect(all.size() == 3 && Is(all[1], 1, Payload(100, 1)) && Is(all[2], 1, Payload(100, 2)), "an ordered one does");
}

void Priorities() {
    Pair it;
    Expect(*it.a.socket->GetStreamPriority(StreamID(5)) == 256, "the default priority");
    it.a.socket->SetStreamPriority(StreamID(5), StreamPriority(1000));
    Expect(*it.a.socket->GetStreamPriority(StreamID(5)) == 1000, "the priority that was set");
    for (uint32_t number = 0; number < 40; number++)
        it.a.Send(number < 20 ? 4 : 5, Payload(1000, number));
    it.Connect();
    const bool all = it.Settle() && it.z.messages.size() == 40;
    Expect(all, "all arrive");
    Expect(all && (loss > 0 || *it.z.messages[0].stream_id() == 5 || *it.z.messages[1].stream_id() == 5),
           "the greater priority is sent first");
}

void Lifecycles() {
    Pair it;
    it.Connect();
    SendOptions how;
    for (uint32_t id = 1; id <= 50; id++) {
        how.lifecycle_id = LifecycleId(id);
        it.a.Send(1, Payload(3000, id), how);
    }
    Expect(it.Settle(), "all is acknowledged");
    bool all = true;
    for (const auto &[id, seen] : it.a.lifecycles)
        all = all && seen.sent == 1 && seen.delivered == 1 && seen.expired == 0 && seen.ended == 1;
    Expect(all && it.a.lifecycles.size() == 50, "each is sent, delivered and ended");
    how.lifecycle_id = LifecycleId(99);
    it.a.Send(1, {}, how);
    Expect(it.a.lifecycles[99].ended == 1 && it.a.lifecycles[99].sent == 0, "OnLifecycleEnd after an error");
}

// ---- Partial reliability

void Lifetimes() {
    Pair it;
    it.Connect();
    it.Settle();
    it.world.is_cut = true;
    SendOptions how;
    how.lifetime = DurationMs(100);
    how.lifecycle_id = LifecycleId(1);
    it.a.Send(1, Payload(500, 1), how);
    // (longer than the window, so that some of it is never sent)
    how.lifecycle_id = LifecycleId(2);
    it.a.Send(1, Payload(200000, 2), how);
    how.lifecycle_id = LifecycleId(3);
    it.a.Send(1, Payload(500, 3), how);
    it.world.Run(5000);
    it.world.is_cut = false;
    it.a.Send(1, Payload(500, 4));
    Expect(it.world.RunUntil([&] { return !it.z.messages.empty(); }), "after messages that expired others arrive");
    it.Settle();
    Expect(it.z.messages.size() == 1 && Is(it.z.messages[0], 1, Payload(500, 4)), "and only these");
    const Lifecycle first = it.a.lifecycles[1], last = it.a.lifecycles[3];
    Expect(first.expired == 1 && first.maybe_delivered && first.sent == 1 && first.ended == 1, "sent, then expired");
    Expect(it.a.lifecycles[2].expired == 1 && it.a.lifecycles[2].ended == 1, "sent in part, then expired");
    Expect(last.expired == 1 && !last.maybe_delivered && last.sent == 0 && last.ended == 1, "expired, never sent");
}

void Retransmissions() {
    Pair it;
    it.Connect();
    it.Settle();
    it.world.is_cut = true;
    SendOptions how;
    how.max_retransmissions = 0;
    how.lifecycle_id = LifecycleId(1);
    it.a.Send(1, Payload(500, 1), how);
    how.max_retransmissions = 1;
    how.lifecycle_id = LifecycleId(2);
    it.a.Send(2, Payload(500, 2), how);
    it.world.Run(10);
    it.world.is_cut = false;
    it.world.loss = 0;
    it.a.Send(1, Payload(500, 3));
    Expect(it.world.RunUntil([&] { return it.z.messages.size() == 2; }), "two messages arrive");
    it.Settle();
    Expect(it.a.lifecycles[1].expired == 1 && it.a.lifecycles[1].maybe_delivered, "none sent again: expired");
    Expect(it.a.lifecycles[2].delivered == 1 && it.a.lifecycles[2].expired == 0, "one sent again: delivered");
    Expect(Arrived(it.z).once && it.z.messages.size() == 2, "and nothing else");
}

void ManyLifetimes() {
    Pair it;
    it.Connect();
    SendOptions how;
    for (uint32_t id = 1; id <= 300; id++) {
        how.lifetime = DurationMs(150);
        how.unordered = IsUnordered(id % 2 == 0);
        how.lifecycle_id = LifecycleId(id);
        it.a.Send(id % 2, Payload(2500, id), how);
        it.world.Run(3);
    }
    it.a.Send(3, Payload(10, 1000));
    Expect(it.world.RunUntil([&] { return !it.z.messages.empty() && *it.z.messages.back().stream_id() == 3; }) &&
               it.Settle(),
           "a link with loss and lifetimes doesn't stall");
    it.world.Run(5000);
    size_t delivered = 0, never = 0, ended = 0;
    for (const auto &[id, seen] : it.a.lifecycles) {
        delivered += seen.delivered;
        never += seen.expired && !seen.maybe_delivered;
        ended += seen.ended;
    }
    const size_t arrived = it.z.messages.size() - 1;
    Expect(ended == 300, "each message ends");
    Expect(delivered <= arrived && arrived <= 300 - never, "what arrives is what the callbacks say");
    Expect(Arrived(it.z).once, "nothing arrives twice");
    Expect(loss > 0 || delivered > 100, "without loss most are delivered");
}

// ---- Streams

void Resets(bool interleaving) {
    DcSctpOptions options;
    options.enable_message_interleaving = interleaving;
    Pair it(options);
    Expect(it.a.Reset({StreamID(1)}) == ResetStreamsStatus::kNotConnected, "no reset before there is an association");
    it.Connect();
    for (uint32_t number = 0; number < 20; number++)
        it.a.Send(1 + number % 3, Payload(2000, number));
    Expect(it.Settle(), "all is acknowledged");
    Expect(it.a.Reset({StreamID(1), StreamID(3)}) == ResetStreamsStatus::kPerformed, "a reset begins");
    Expect(it.world.RunUntil([&] { return it.a.resets.size() == 2 && it.z.peers_resets.size() >= 2; }),
           "both ends get to know of it");
    std::vector<uint16_t> ids = it.a.resets;
    std::sort(ids.begin(), ids.end());
    Expect(ids == std::vector<uint16_t>({1, 3}) && it.a.failed_resets.empty(), "of these streams");
    Expect(it.z.messages_at_reset == 20, "all messages come before OnIncomingStreamsReset");
    for (uint32_t number = 100; number < 110; number++)
        it.a.Send(1 + number % 3, Payload(100, number));
    Expect(it.Settle() && it.z.messages.size() == 30 && Arrived(it.z).in_order, "the streams can be used again");
    it.z.Reset({StreamID(1)});
    Expect(it.world.RunUntil([&] { return it.z.resets.size() == 1 && it.a.peers_resets.size() >= 1; }),
           "the peer may reset its streams, too");
}

void ResetOfQueued() {
    Pair it;
    it.Connect();
    for (uint32_t number = 0; number < 50; number++)
        it.a.Send(1, Payload(20000, number));
    Expect(it.a.socket->buffered_amount(StreamID(1)) > 500000, "much is queued");
    it.a.Reset({StreamID(1)});
    Expect(it.world.RunUntil([&] { return it.a.resets.size() == 1; }), "the reset is performed");
    it.Settle();
    Expect(it.z.messages.size() >= 1 && it.z.messages.size() < 50,
           "queued messages are removed, what was begun is sent");
    Expect(it.a.socket->buffered_amount(StreamID(1)) == 0, "nothing is queued then");
}

// As WebRTC closes a data channel: each end resets its stream when the other one has.
void ResetsAnswered() {
    Pair it;
    it.z.on_reset = [&](rtc::ArrayView<const StreamID> ids) {
        Expect(it.z.Reset({ids.begin(), ids.end()}) == ResetStreamsStatus::kPerformed, "a reset in a callback");
    };
    it.Connect();
    for (uint16_t stream = 0; stream < 10; stream++) {
        it.a.Send(stream, Payload(100, stream));
        it.Settle();
        it.a.Reset({StreamID(stream)});
        it.world.RunUntil([&] {
            return it.a.resets.size() > stream && it.a.peers_resets.size() > stream && it.z.resets.size() > stream;
        });
    }
    Expect(it.a.resets.size() == 10 && it.a.peers_resets.size() >= 10 && it.z.resets.size() >= 10,
           "ten channels are closed at both ends");
}

void BufferedAmounts() {
    DcSctpOptions options;
    options.total_buffered_amount_low_threshold = 15000;
    Pair it(options);
    const StreamID one(1), two(2);
    Expect(it.a.socket->buffered_amount_low_threshold(one) == 0, "the default threshold");
    it.a.socket->SetBufferedAmountLowThreshold(one, 2500);
    Expect(it.a.socket->buffered_amount_low_threshold(one) == 2500, "the threshold that was set");
    for (uint32_t number = 0; number < 20; number++)
        it.a.Send(1 + number % 2, Payload(1000, number));
    Expect(it.a.socket->buffered_amount(one) == 10000 && it.a.socket->buffered_amount(two) == 10000, "it is queued");
    Expect(it.a.low.empty() && it.a.total_low == 0, "no callback yet");
    it.Connect();
    Expect(it.Settle() && it.z.messages.size() == 20, "all arrive");
    Expect(it.a.low[1] == 1 && it.a.low[2] == 1 && it.a.low.size() == 2, "OnBufferedAmountLow comes once a stream");
    Expect(it.a.total_low == 1, "OnTotalBufferedAmountLow comes once");
    Expect(it.a.socket->buffered_amount(one) == 0 && it.z.low.empty(), "nothing is queued then");
}

// ---- Ends

void Shutdowns() {
    Pair it;
    it.Connect();
    for (uint32_t number = 0; number < 5; number++)
        it.a.Send(1, Payload(1000, number));
    it.a.socket->Shutdown();
    Expect(it.a.socket->state() == SocketState::kShuttingDown, "Shutdown is asynchronous");
    Expect(it.a.Send(1, Payload(10, 9)) == SendStatus::kErrorShuttingDown, "then nothing can be sent");
    Expect(it.world.RunUntil([&] { return it.a.closed == 1 && it.z.closed == 1; }), "OnClosed comes at both ends");
    it.world.Run(30000);
    Expect(it.z.messages.size() == 5 && Arrived(it.z).in_order, "outstanding data arrives before that");
    Expect(it.a.closed == 1 && it.z.closed == 1 && it.a.aborts.empty() && it.z.aborts.empty(), "once");
    Expect(it.a.socket->state() == SocketState::kClosed && it.z.socket->state() == SocketState::kClosed, "both closed");
    Expect(!it.world.IsAnyTimeoutRunning(), "no timeout runs then");
    Expect(it.Connect(), "it can connect again");
    it.a.Send(1, Payload(10, 10));
    Expect(it.Settle() && it.z.messages.size() == 6, "and send");
}

void Closes() {
    Pair it;
    it.Connect();
    it.world.loss = 0;
    it.a.Send(1, Payload(1000, 1));
    it.a.Close();
    Expect(it.a.closed == 1 && it.a.aborts.empty(), "OnClosed comes before Close returns");
    Expect(it.a.socket->state() == SocketState::kClosed, "it is closed");
    it.world.Run(5000);
    Expect(it.z.aborts.size() == 1 && it.z.aborts[0].first == ErrorKind::kPeerReported, "the peer gets an ABORT");
    Expect(it.z.socket->state() == SocketState::kClosed && it.z.closed == 0, "and is closed");
    it.a.Close();
    it.a.socket->Shutdown();
    Expect(it.a.closed == 1 && it.a.aborts.empty(), "a closed socket isn't closed again");
    Expect(!it.world.IsAnyTimeoutRunning(), "no timeout runs then");
}

void DestroyedWhileBusy() {
    Pair it;
    it.Connect();
    for (uint32_t number = 0; number < 50; number++)
        it.a.Send(1, Payload(5000, number));
    it.world.Run(50);
    it.a.socket.reset();
    it.world.Forget(&it.a);
    it.z.peer = nullptr;
    it.world.is_cut = true;
    Expect(it.z.IsConnected(), "the peer isn't informed");
}

// ---- Calls in callbacks

void Echo() {
    Pair it;
    it.z.on_message = [&](const DcSctpMessage &message) {
        const Bytes copy(message.payload().begin(), message.payload().end());
        Expect(it.z.Send(*message.stream_id(), copy) == SendStatus::kSuccess, "a message is sent in a callback");
    };
    it.Connect();
    for (uint32_t number = 0; number < 100; number++)
        it.a.Send(number % 4, Payload(700, number));
    Expect(it.world.RunUntil([&] { return it.a.messages.size() == 100; }), "all come back");
    Expect(Arrived(it.a).in_order && Arrived(it.a).once, "in order");
}

void CloseInCallback() {
    Pair it;
    it.world.loss = 0;
    it.z.on_message = [&](const DcSctpMessage &) {
        if (it.z.is_over)
            return;
        it.z.Close();
        Expect(it.z.closed == 1, "OnClosed comes before Close returns, also in a callback");
    };
    it.Connect();
    for (uint32_t number = 0; number < 30; number++)
        it.a.Send(number % 4, Payload(100, number));
    it.world.Run(5000);
    Expect(it.z.socket->state() == SocketState::kClosed && it.a.aborts.size() == 1, "both ends are closed");
}

void ConnectInCallback() {
    Pair it;
    it.Connect();
    it.a.on_end = [&] {
        it.a.on_end = nullptr;
        it.a.Connect();
    };
    it.a.socket->Shutdown();
    Expect(it.world.RunUntil([&] { return it.a.connected == 2 && it.z.connected == 2; }), "Connect in OnClosed");
    it.a.Send(1, Payload(10, 1));
    Expect(it.Settle() && it.z.messages.size() == 1, "then messages arrive");
}

// ---- Wrong calls

void WrongMessages() {
    DcSctpOptions options;
    options.max_message_size = 1000;
    options.max_send_buffer_size = 5000;
    Pair it(options);
    Expect(it.a.Send(1, {}) == SendStatus::kErrorMessageEmpty, "an empty message");
    Expect(it.a.Send(1, Payload(1001, 1)) == SendStatus::kErrorMessageTooLarge, "a message that is too large");
    Expect(it.a.errors.size() == 2, "OnError for each");
    it.a.socket->SetMaxMessageSize(2000);
    Expect(it.a.Send(1, Payload(2000, 2)) == SendStatus::kSuccess, "the size can be changed");
    Expect(it.a.socket->options().max_message_size == 2000, "which the options show");
    SendStatus status = SendStatus::kSuccess;
    for (uint32_t number = 3; number < 10 && status == SendStatus::kSuccess; number++)
        status = it.a.Send(1, Payload(1000, number));
    Expect(status == SendStatus::kErrorResourceExhaustion, "the send buffer is full");
    Expect(it.Connect() && it.Settle(), "what was accepted is sent");
    Expect(!it.z.messages.empty() && Is(it.z.messages[0], 1, Payload(2000, 2)), "and arrives unharmed");
    Expect(it.a.Send(1, Payload(1000, 11)) == SendStatus::kSuccess, "then there is room again");
}

void WrongPackets() {
    Pair it;
    const Bytes none, text{'h', 'e', 'l', 'l', 'o'}, zeros(200);
    it.a.socket->ReceivePacket(none);
    it.a.socket->ReceivePacket(text);
    it.a.socket->ReceivePacket(zeros);
    Expect(it.a.socket->state() == SocketState::kClosed, "wrong packets connect nothing");
    it.Connect();
    for (int round = 0; round < 200; round++) {
        Bytes any(it.world.random() % 300);
        for (uint8_t &byte : any)
            byte = static_cast<uint8_t>(it.world.random());
        it.a.socket->ReceivePacket(any);
    }
    it.a.socket->HandleTimeout(TimeoutID(0xffffffffffff));
    Expect(it.a.IsConnected() && !it.a.errors.empty(), "they are reported, and change nothing");
    it.a.Send(1, Payload(10, 1));
    Expect(it.Settle() && it.z.messages.size() == 1, "messages still arrive");
}

void WrongTimes() {
    Pair it;
    it.Connect();
    Expect(it.a.Reset({}) != ResetStreamsStatus::kNotSupported && it.a.IsConnected(), "a reset of no stream");
    it.a.Close();
    it.z.world.Run(1000);
    Expect(it.a.Reset({StreamID(1)}) == ResetStreamsStatus::kNotConnected, "no reset without an association");
    Expect(!it.a.socket->GetMetrics(), "no metrics either");
    it.a.is_over = false;
    Expect(it.a.Send(1, Payload(10, 1)) == SendStatus::kSuccess, "a message may wait for an association");
    Expect(it.a.socket->buffered_amount(StreamID(1)) == 10, "in the queue");
}

// ---- The link

void RefusedPackets() {
    Pair it;
    it.a.refused_of = 4;
    it.z.refused_of = 3;
    Expect(it.Connect(), "it connects, though packets aren't sent");
    for (uint32_t number = 0; number < 20; number++)
        it.a.Send(1, Payload(3000, number));
    Expect(it.Settle() && it.z.messages.size() == 20, "what isn't sent is sent again");
}

struct Counts {
    int sent = 0, received = 0;
};

class Counter : public PacketObserver {
public:
    explicit Counter(Counts &counts) : counts_(counts) {}
    void OnSentPacket(TimeMs, rtc::ArrayView<const uint8_t>) override { counts_.sent++; }
    void OnReceivedPacket(TimeMs, rtc::ArrayView<const uint8_t>) override { counts_.received++; }

private:
    Counts &counts_;
};

void Observers() {
    Counts counts;
    Pair it;
    it.a.Create({}, std::make_unique<Counter>(counts));
    it.Connect();
    for (uint32_t number = 0; number < 20; number++)
        it.a.Send(1, Payload(3000, number));
    it.Settle();
    const auto metrics = it.a.socket->GetMetrics();
    Expect(counts.sent == it.a.packets && counts.received > 0, "an observer gets each packet that is sent");
    Expect(metrics && metrics->rx_packets_count == static_cast<size_t>(counts.received), "and each that arrives");
    Expect(metrics && metrics->tx_packets_count == static_cast<size_t>(counts.sent), "as the metrics count them");
}

// ---- Handover

// A state, written field by field and read again, as a program must that hands it to another process.
class Copied {
public:
    explicit Copied(const DcSctpSocketHandoverState &from) {
        DcSctpSocketHandoverState copy = from;
        Fields(copy);
        is_reading_ = true;
        Fields(state);
    }
    DcSctpSocketHandoverState state;

private:
    template <typename T>
    void Field(T &field) {
        if (is_reading_)
            field = static_cast<T>(numbers_[next_++]);
        else
            numbers_.push_back(static_cast<uint64_t>(field));
    }
    template <typename T>
    void Length(std::vector<T> &list) {
        size_t length = list.size();
        Field(length);
        list.resize(length);
    }
    void Fields(DcSctpSocketHandoverState &it) {
        Field(it.socket_state), Field(it.my_verification_tag), Field(it.my_initial_tsn);
        Field(it.peer_verification_tag), Field(it.peer_initial_tsn), Field(it.tie_tag);
        Field(it.capabilities.partial_reliability), Field(it.capabilities.message_interleaving);
        Field(it.capabilities.reconfig), Field(it.capabilities.negotiated_maximum_incoming_streams);
        Field(it.capabilities.negotiated_maximum_outgoing_streams);
        Field(it.tx.next_tsn), Field(it.tx.next_reset_req_sn), Field(it.tx.cwnd), Field(it.tx.rwnd);
        Field(it.tx.ssthresh), Field(it.tx.partial_bytes_acked);
        Length(it.tx.streams);
        for (auto &stream : it.tx.streams) {
            Field(stream.id), Field(stream.next_ssn), Field(stream.next_unordered_mid);
            Field(stream.next_ordered_mid), Field(stream.priority);
        }
        Field(it.rx.seen_packet), Field(it.rx.last_cumulative_acked_tsn), Field(it.rx.last_assembled_tsn);
        Field(it.rx.last_completed_deferred_reset_req_sn), Field(it.rx.last_completed_reset_req_sn);
        Length(it.rx.ordered_streams);
        for (auto &stream : it.rx.ordered_streams)
            Field(stream.id), Field(stream.next_ssn);
        Length(it.rx.unordered_streams);
        for (auto &stream : it.rx.unordered_streams)
            Field(stream.id);
    }

    std::vector<uint64_t> numbers_;
    size_t next_ = 0;
    bool is_reading_ = false;
};

// Hands over an end to a new socket. Returns whether that is connected.
bool HandOver(End &end, const DcSctpOptions &options) {
    const int closed = end.closed, connected = end.connected;
    Expect(end.world.RunUntil([&] { return end.socket->GetHandoverReadiness().IsReady(); }), "it is ready");
    const auto state = end.socket->GetHandoverStateAndClose();
    Expect(state && end.closed == closed + 1, "OnClosed comes before the state is returned");
    Expect(end.socket->state() == SocketState::kClosed, "the old socket is closed");
    if (!state)
        return false;
    end.is_over = true;
    end.world.Run(100);
    end.Create(options);
    const size_t errors = end.errors.size();
    end.socket->RestoreFromState(Copied(*state).state);
    Expect(end.connected == connected + 1 && end.errors.size() == errors, "OnConnected follows a restored state");
    return end.IsConnected();
}

void Handovers(bool interleaving) {
    DcSctpOptions options;
    options.enable_message_interleaving = interleaving;
    Pair it(options);
    it.Connect();
    uint32_t number = 0;
    for (int round = 0; round < 4; round++) {
        for (int count = 0; count < 25; count++, number++) {
            it.a.Send(number % 3, Payload(2500, number));
            it.z.Send(number % 3, Payload(2500, number));
        }
        Expect(it.Settle(), "all is acknowledged");
        Expect(HandOver(round % 2 ? it.z : it.a, options), "it continues");
    }
    it.a.Send(1, Payload(10, number));
    it.z.Send(1, Payload(10, number));
    Expect(it.Settle() && it.a.messages.size() == 101 && it.z.messages.size() == 101, "no message is lost");
    Expect(Arrived(it.a).in_order && Arrived(it.z).in_order, "or out of order");
    Expect(it.a.aborts.empty() && it.z.aborts.empty() && it.a.restarted + it.z.restarted == 0,
           "the peer notices nothing");
    it.a.Reset({StreamID(1)});
    Expect(it.world.RunUntil([&] { return it.a.resets.size() == 1; }), "a stream can be reset then");
    const auto metrics = it.a.socket->GetMetrics();
    Expect(metrics && metrics->uses_message_interleaving == interleaving, "what was negotiated stays");
}

void HandoversRefused() {
    Pair it;
    it.a.Connect();
    Expect(it.a.socket->GetHandoverReadiness().Contains(HandoverUnreadinessReason::kWrongConnectionState),
           "a socket that connects isn't ready");
    Expect(!it.a.socket->GetHandoverStateAndClose(), "and gives no state");
    Expect(it.a.socket->state() == SocketState::kConnecting && it.a.closed == 0, "it goes on");
    it.Connect();
    for (uint32_t number = 0; number < 100; number++)
        it.a.Send(1, Payload(5000, number));
    const auto status = it.a.socket->GetHandoverReadiness();
    Expect(status.Contains(HandoverUnreadinessReason::kSendQueueNotEmpty), "one with queued messages isn't ready");
    Expect(status.Contains(HandoverUnreadinessReason::kRetransmissionQueueOutstandingData), "nor with data in flight");
    Expect(!it.a.socket->GetHandoverStateAndClose() && it.a.IsConnected(), "it gives no state, and stays connected");
    Expect(it.Settle() && it.z.messages.size() == 100, "all messages arrive");
    const size_t errors = it.z.errors.size();
    it.z.socket->RestoreFromState(DcSctpSocketHandoverState());
    Expect(it.z.errors.size() == errors + 1 && it.z.IsConnected(), "only a closed socket is restored");
}

// ---- All of them

struct Case {
    const char *name;
    std::function<void()> run;
};

const Case kCases[] = {
    {"connecting", Connecting},
    {"both connect", BothConnect},
    {"no peer", NoPeer},
    {"peer gone", PeerGone},
    {"peer silent while idle", PeerSilentWhileIdle},
    {"peer restarts", PeerRestarts},
    {"messages", [] { Messages(false, false); }},
    {"messages, unordered", [] { Messages(false, true); }},
    {"messages, interleaved", [] { Messages(true, false); }},
    {"messages, interleaved, unordered", [] { Messages(true, true); }},
    {"order", Order},
    {"unordered", Unordered},
    {"priorities", Priorities},
    {"lifecycles", Lifecycles},
    {"lifetimes", Lifetimes},
    {"retransmissions", Retransmissions},
    {"many lifetimes", ManyLifetimes},
    {"resets", [] { Resets(false); }},
    {"resets, interleaved", [] { Resets(true); }},
    {"reset of queued messages", ResetOfQueued},
    {"resets answered", ResetsAnswered},
    {"buffered amounts", BufferedAmounts},
    {"shutdowns", Shutdowns},
    {"closes", Closes},
    {"destroyed while busy", DestroyedWhileBusy},
    {"echo", Echo},
    {"close in a callback", CloseInCallback},
    {"connect in a callback", ConnectInCallback},
    {"wrong messages", WrongMessages},
    {"wrong packets", WrongPackets},
    {"wrong times", WrongTimes},
    {"refused packets", RefusedPackets},
    {"observers", Observers},
    {"handovers", [] { Handovers(false); }},
    {"handovers, interleaved", [] { Handovers(true); }},
    {"handovers refused", HandoversRefused},
};

bool ChooseSockets(const std::string &ends) {
#ifdef BOTH
    const End::Maker ours = [](auto &callbacks, auto observer, auto &options) {
        return CreateRattleSocket(callbacks, std::move(observer), options);
    };
    if (ends != "ours-theirs" && ends != "theirs-ours")
        return false;
    (ends == "ours-theirs" ? make_a : make_z) = ours;
    return true;
#else
    return ends.empty();
#endif
}

} // namespace

int main(int count, char **words) {
    const int most = count > 1 ? std::atoi(words[1]) : 1000;
    const std::string ends = count > 2 ? words[2] : "";
    if (!ChooseSockets(ends)) {
        std::fprintf(stderr, "webrtc: no such ends: %s\n", ends.c_str());
        return 2;
    }
    for (int per_mille : {0, 50, 150})
        for (const Case &it : kCases) {
            if (per_mille > most)
                break;
            loss = per_mille;
            setting = it.name + (", loss " + std::to_string(per_mille / 10)) + " %";
            it.run();
        }
    std::printf("webrtc: %d passed, %d failed\n", checks - failures, failures);
    return failures == 0 ? 0 : 1;
}
