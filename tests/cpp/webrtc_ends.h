// Two ends for tests of WebRTC's interface of a socket: a clock that only the test moves, timeouts by that clock, and a
// link that delays packets and loses some. Each end checks what the interface promises of every callback.
#ifndef WEBRTC_ENDS_H
#define WEBRTC_ENDS_H

#include <algorithm>
#include <cstdint>
#include <cstdio>
#include <cstdlib>
#include <functional>
#include <map>
#include <memory>
#include <random>
#include <string>
#include <utility>
#include <vector>

#include "net/dcsctp/public/dcsctp_socket.h"
#include "net/dcsctp/public/dcsctp_socket_factory.h"

using namespace dcsctp;
using Bytes = std::vector<uint8_t>;

inline int checks = 0, failures = 0;
inline std::string setting;

inline void Expect(bool holds, const std::string &name) {
    checks++;
    if (holds)
        return;
    failures++;
    std::fprintf(stderr, "webrtc: %s: not so: %s\n", setting.c_str(), name.c_str());
}

// Fails only: what every callback promises isn't worth a count.
inline void Require(bool holds, const char *name) {
    if (!holds)
        Expect(false, name);
}

class End;

// The clock, the timeouts and the link of one test.
class World {
public:
    class Wait : public Timeout {
    public:
        Wait(World &world, End &end) : world_(world), end_(end) { world_.waits_.push_back(this); }
        ~Wait() override {
            Require(!is_running_, "a timeout is stopped before it is released");
            auto &all = world_.waits_;
            all.erase(std::find(all.begin(), all.end(), this));
        }
        void Start(DurationMs duration, TimeoutID id) override {
            Require(!is_running_, "a timeout isn't started twice");
            Require(*duration >= 0, "a duration isn't negative");
            is_running_ = true;
            due_ = world_.now + *duration;
            id_ = *id;
        }
        void Stop() override { is_running_ = false; }

    private:
        friend class World;
        World &world_;
        End &end_;
        bool is_running_ = false;
        int64_t due_ = 0;
        uint64_t id_ = 0;
    };

    int64_t now = 1000;
    int64_t epoch = 0;              // TimeMillis where `now` is 0
    bool has_random_numbers = true; // otherwise each is the least
    int64_t delay = 20;
    int loss = 0; // of 1,000 packets
    bool is_cut = false;
    std::mt19937 random{1};

    void Carry(End *to, rtc::ArrayView<const uint8_t> packet) {
        if (!is_cut && static_cast<int>(random() % 1000) >= loss)
            packets_.push_back({now + delay, to, Bytes(packet.begin(), packet.end())});
    }
    void Forget(const End *end) {
        packets_.erase(std::remove_if(packets_.begin(), packets_.end(), [&](auto &it) { return it.to == end; }),
                       packets_.end());
    }

    // Runs until the fact holds, and returns whether it does; at most so long, in milliseconds.
    bool RunUntil(const std::function<bool()> &fact, int64_t most = 3600000);
    void Run(int64_t duration) {
        RunUntil([] { return false; }, duration);
    }
    bool IsAnyTimeoutRunning() const {
        return std::any_of(waits_.begin(), waits_.end(), [](auto *it) { return it->is_running_; });
    }

private:
    struct Packet {
        int64_t due;
        End *to;
        Bytes bytes;
    };
    bool Step(int64_t end);

    std::vector<Packet> packets_;
    std::vector<Wait *> waits_;
};

// What is known of a message with a LifecycleId.
struct Lifecycle {
    int sent = 0, expired = 0, delivered = 0, ended = 0;
    bool maybe_delivered = false;
};

// One end: a socket and its callbacks.
class End : public DcSctpSocketCallbacks {
public:
    using Maker = std::function<std::unique_ptr<DcSctpSocketInterface>(
        DcSctpSocketCallbacks &, std::unique_ptr<PacketObserver>, const DcSctpOptions &)>;

    End(World &the_world, Maker maker, const DcSctpOptions &options = {}) : world(the_world), maker_(std::move(maker)) {
        Create(options);
    }
    ~End() override { world.Forget(this); }

    void Create(const DcSctpOptions &options, std::unique_ptr<PacketObserver> observer = nullptr) {
        socket.reset();
        may_call_back_ = false;
        socket = maker_(*this, std::move(observer), options);
        may_call_back_ = true;
        is_over = false;
    }

    // ---- Calls
    void Connect() {
        is_over = false;
        socket->Connect();
    }
    void Close() {
        socket->Close();
        is_over = true;
    }
    SendStatus Send(uint16_t stream, const Bytes &payload, const SendOptions &how = {}, uint32_t ppid = 53) {
        return socket->Send(DcSctpMessage(StreamID(stream), PPID(ppid), payload), how);
    }
    ResetStreamsStatus Reset(std::vector<StreamID> ids) { return socket->ResetStreams(ids); }
    bool IsConnected() const { return socket->state() == SocketState::kConnected; }

    // ---- Callbacks that must not call the socket
    SendPacketStatus SendPacketWithStatus(rtc::ArrayView<const uint8_t> data) override {
        Require(data.size() <= socket->options().mtu, "a packet isn't longer than the MTU");
        packets++;
        if (refused_of > 0 && packets % refused_of == 0)
            return SendPacketStatus::kTemporaryFailure;
        world.Carry(peer, data);
        return SendPacketStatus::kSuccess;
    }
    std::unique_ptr<Timeout> CreateTimeout(webrtc::TaskQueueBase::DelayPrecision) override {
        return std::make_unique<World::Wait>(world, *this);
    }
    TimeMs TimeMillis() override { return TimeMs(world.now + world.epoch); }
    uint32_t GetRandomInt(uint32_t least, uint32_t beyond) override {
        if (!world.has_random_numbers)
            return least;
        return std::uniform_int_distribution<uint32_t>(least, beyond - 1)(world.random);
    }
    void OnLifecycleMessageFullySent(LifecycleId id) override {
        Lifecycle &it = At(id);
        Require(++it.sent == 1 && it.expired == 0 && it.delivered == 0, "a message is fully sent once, and first");
    }
    void OnLifecycleMessageExpired(LifecycleId id, bool maybe_delivered) override {
        Lifecycle &it = At(id);
        Require(++it.expired == 1 && it.delivered == 0, "a message expires once, and only if it wasn't delivered");
        it.maybe_delivered = maybe_delivered;
    }
    void OnLifecycleMessageDelivered(LifecycleId id) override {
        Lifecycle &it = At(id);
        Require(++it.delivered == 1 && it.expired == 0, "a message is delivered once, and only if it didn't expire");
    }
    void OnLifecycleEnd(LifecycleId id) override { At(id).ended++; }

    // ---- Callbacks that may call the socket
    void OnMessageReceived(DcSctpMessage message) override {
        Check("OnMessageReceived");
        messages.push_back(std::move(message));
        if (on_message)
            on_message(messages.back());
    }
    // (it may come after the end: late packets are reported)
    void OnError(ErrorKind error, absl::string_view text) override {
        Require(may_call_back_, "OnError doesn't come from a factory");
        Require(error != ErrorKind::kNoError, "an error has a kind");
        errors.emplace_back(error, text);
    }
    void OnAborted(ErrorKind error, absl::string_view text) override {
        Check("OnAborted");
        aborts.emplace_back(error, text);
        is_over = true;
        if (on_end)
            on_end();
    }
    void OnConnected() override {
        is_over = false;
        Check("OnConnected");
        connected++;
    }
    void OnClosed() override {
        Check("OnClosed");
        closed++;
        is_over = true;
        if (on_end)
            on_end();
    }
    void OnConnectionRestarted() override {
        Check("OnConnectionRestarted");
        restarted++;
    }
    void OnStreamsResetFailed(rtc::ArrayView<const StreamID> ids, absl::string_view) override {
        Check("OnStreamsResetFailed");
        Add(failed_resets, ids);
    }
    void OnStreamsResetPerformed(rtc::ArrayView<const StreamID> ids) override {
        Check("OnStreamsResetPerformed");
        Add(resets, ids);
    }
    void OnIncomingStreamsReset(rtc::ArrayView<const StreamID> ids) override {
        Check("OnIncomingStreamsReset");
        Add(peers_resets, ids);
        messages_at_reset = messages.size();
        if (on_reset)
            on_reset(ids);
    }
    void OnBufferedAmountLow(StreamID id) override {
        Check("OnBufferedAmountLow");
        low[*id]++;
    }
    void OnTotalBufferedAmountLow() override {
        Check("OnTotalBufferedAmountLow");
        total_low++;
    }

    World &world;
    End *peer = nullptr;
    std::unique_ptr<DcSctpSocketInterface> socket;
    int refused_of = 0; // each packet of that number isn't sent
    std::function<void(const DcSctpMessage &)> on_message;
    std::function<void()> on_end;
    std::function<void(rtc::ArrayView<const StreamID>)> on_reset;

    bool is_over = false; // no callback may follow
    int connected = 0, closed = 0, restarted = 0, total_low = 0, packets = 0;
    size_t messages_at_reset = 0;
    std::vector<std::pair<ErrorKind, std::string>> errors, aborts;
    std::vector<uint16_t> resets, failed_resets, peers_resets;
    std::map<uint16_t, int> low;
    std::vector<DcSctpMessage> messages;
    std::map<uint64_t, Lifecycle> lifecycles;

private:
    void Check(const char *callback) {
        if (is_over || !may_call_back_)
            Expect(false, std::string(callback) + " doesn't come after the end, nor from a factory");
    }
    static void Add(std::vector<uint16_t> &to, rtc::ArrayView<const StreamID> ids) {
        for (StreamID id : ids)
            to.push_back(*id);
    }
    Lifecycle &At(LifecycleId id) {
        Lifecycle &it = lifecycles[*id];
        Require(it.ended == 0, "nothing follows OnLifecycleEnd");
        return it;
    }

    Maker maker_;
    bool may_call_back_ = true;
};

// Two ends, and what is between them.
struct Ends {
    World world;
    End a, z;

    Ends(const End::Maker &make_a, const End::Maker &make_z, const DcSctpOptions &of_a, const DcSctpOptions &of_z)
        : a(world, make_a, of_a), z(world, make_z, of_z) {
        a.peer = &z;
        z.peer = &a;
    }
    bool Connect() {
        a.Connect();
        return world.RunUntil([&] { return a.IsConnected() && z.IsConnected(); });
    }
    // Until nothing is queued or in flight: then a socket is ready for a handover.
    bool Settle() {
        return world.RunUntil(
            [&] { return a.socket->GetHandoverReadiness().IsReady() && z.socket->GetHandoverReadiness().IsReady(); });
    }
};

inline bool World::RunUntil(const std::function<bool()> &fact, int64_t most) {
    const int64_t end = now + most;
    while (!fact())
        if (!Step(end))
            return fact();
    return true;
}

// Hands over the next packet, or lets the next timeout expire. Without either by then, it sets the clock there.
inline bool World::Step(int64_t end) {
    const auto packet = std::min_element(packets_.begin(), packets_.end(),
                                         [](const Packet &a, const Packet &b) { return a.due < b.due; });
    Wait *wait = nullptr;
    for (Wait *it : waits_)
        if (it->is_running_ && (!wait || it->due_ < wait->due_))
            wait = it;
    const bool is_packet = packet != packets_.end() && (!wait || packet->due <= wait->due_);
    const int64_t due = is_packet ? packet->due : wait ? wait->due_ : INT64_MAX;
    if (due > end) {
        now = std::max(now, end);
        return false;
    }
    now = std::max(now, due);
    if (is_packet) {
        const Packet taken = std::move(*packet);
        packets_.erase(packet);
        taken.to->socket->ReceivePacket(taken.bytes);
    } else {
        wait->is_running_ = false;
        wait->end_.socket->HandleTimeout(TimeoutID(wait->id_));
    }
    return true;
}

#endif
