// Sends N messages of 1,024 bytes between two sockets of WebRTC's interface, for scripts/c-costs.sh.
#include "net/dcsctp/public/dcsctp_socket_factory.h"

#include <cstdlib>
#include <deque>

using namespace dcsctp;

struct NoTimeout : Timeout {
    void Start(DurationMs, TimeoutID) override {}
    void Stop() override {}
};

struct End : DcSctpSocketCallbacks {
    std::deque<std::vector<uint8_t>> packets;
    long arrived = 0;
    std::unique_ptr<DcSctpSocketInterface> socket = DcSctpSocketFactory().Create("", *this, nullptr, {});

    SendPacketStatus SendPacketWithStatus(rtc::ArrayView<const uint8_t> it) override {
        packets.emplace_back(it.begin(), it.end());
        return SendPacketStatus::kSuccess;
    }
    std::unique_ptr<Timeout> CreateTimeout(webrtc::TaskQueueBase::DelayPrecision) override {
        return std::make_unique<NoTimeout>();
    }
    TimeMs TimeMillis() override { return TimeMs(1000); }
    uint32_t GetRandomInt(uint32_t low, uint32_t) override { return low + 7; }
    void OnMessageReceived(DcSctpMessage it) override { arrived += it.payload().size() == 1024; }
    void OnError(ErrorKind, absl::string_view) override {}
    void OnAborted(ErrorKind, absl::string_view) override {}
    void OnConnected() override {}
    void OnClosed() override {}
    void OnConnectionRestarted() override {}
    void OnStreamsResetFailed(rtc::ArrayView<const StreamID>, absl::string_view) override {}
    void OnStreamsResetPerformed(rtc::ArrayView<const StreamID>) override {}
    void OnIncomingStreamsReset(rtc::ArrayView<const StreamID>) override {}
};

void Settle(End &a, End &z) {
    while (!a.packets.empty() || !z.packets.empty())
        for (End *from : {&a, &z})
            for (; !from->packets.empty(); from->packets.pop_front())
                (from == &a ? z : a).socket->ReceivePacket(from->packets.front());
}

int main(int argc, char **argv) {
    const long count = argc > 1 ? std::atol(argv[1]) : 0;
    End a, z;
    a.socket->Connect();
    Settle(a, z);
    for (long i = 0; i < count; i++) {
        a.socket->Send(DcSctpMessage(StreamID(1), PPID(53), std::vector<uint8_t>(1024)), {});
        Settle(a, z);
    }
    return z.arrived != count;
}
