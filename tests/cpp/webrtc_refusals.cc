// Tests of what bindings/cpp/webrtc refuses, and how: options, states, timeouts, and each allocation of the library
// once. Only malloc and realloc of the library are refused, so link it with -Wl,--wrap=malloc,--wrap=realloc.
#include "rattle_socket.h"
#include "webrtc_ends.h"

extern "C" {
void *__real_malloc(size_t size);
void *__real_realloc(void *at, size_t size);
void *__wrap_malloc(size_t size);
void *__wrap_realloc(void *at, size_t size);
}

namespace {

// Which allocation is refused: each one counts down, and the one that gets to 0 fails.
int64_t until_refused = 0;

bool IsRefused() {
    return until_refused > 0 && --until_refused == 0;
}

} // namespace

void *__wrap_malloc(size_t size) {
    return IsRefused() ? nullptr : __real_malloc(size);
}

void *__wrap_realloc(void *at, size_t size) {
    return IsRefused() ? nullptr : __real_realloc(at, size);
}

namespace {

std::unique_ptr<DcSctpSocketInterface> Ours(DcSctpSocketCallbacks &callbacks, std::unique_ptr<PacketObserver> observer,
                                            const DcSctpOptions &options) {
    return CreateRattleSocket(callbacks, std::move(observer), options);
}

struct Pair : Ends {
    explicit Pair(const DcSctpOptions &of_a = {}) : Ends(Ours, Ours, of_a, {}) {}
};

// ---- Options

// Each call on a socket that couldn't be created.
void CallAll(End &end) {
    DcSctpSocketInterface &it = *end.socket;
    const Bytes bytes(12);
    it.ReceivePacket(bytes);
    it.HandleTimeout(TimeoutID(1));
    it.Shutdown();
    it.Close();
    it.SetMaxMessageSize(5);
    it.SetStreamPriority(StreamID(1), StreamPriority(5));
    it.SetBufferedAmountLowThreshold(StreamID(1), 5);
    Expect(*it.GetStreamPriority(StreamID(1)) == 256 && it.buffered_amount(StreamID(1)) == 0,
           "queries return defaults");
    Expect(it.buffered_amount_low_threshold(StreamID(1)) == 0 && !it.GetMetrics(), "queries return nothing");
    Expect(!it.GetHandoverReadiness().IsReady() && !it.GetHandoverStateAndClose(), "it isn't handed over");
    Expect(end.Send(1, bytes) == SendStatus::kErrorResourceExhaustion, "nothing is sent");
    Expect(end.Reset({StreamID(1)}) == ResetStreamsStatus::kNotConnected, "no stream is reset");
    Expect(it.state() == SocketState::kClosed && end.packets == 0, "it is closed");
}

void OptionsRefused() {
    struct {
        const char *name;
        std::function<void(DcSctpOptions &)> set;
    } const rows[] = {
        {"mtu 31", [](auto &it) { it.mtu = 31; }},
        {"mtu 65,536", [](auto &it) { it.mtu = 65536; }},
        {"local port -1", [](auto &it) { it.local_port = -1; }},
        {"remote port 65,536", [](auto &it) { it.remote_port = 65536; }},
    };
    for (const auto &row : rows) {
        setting = row.name;
        DcSctpOptions options;
        row.set(options);
        Pair it(options);
        Expect(it.a.errors.empty() && it.a.aborts.empty(), "the factory makes no callback");
        it.a.Connect();
        Expect(it.a.aborts.size() == 1 && it.a.aborts[0].first == ErrorKind::kUnsupportedOperation,
               "Connect: OnAborted");
        it.a.errors.clear();
        it.a.is_over = false;
        CallAll(it.a);
        Expect(it.a.errors.size() >= 8, "other calls: OnError");
    }
}

void OptionsWithoutEffect() {
    setting = "options without effect";
    DcSctpOptions options;
    options.t2_shutdown_timeout = DurationMs(1);
    options.avoid_fragmentation_cwnd_mtus = 1;
    options.max_send_buffer_size = options.max_receiver_window_buffer_size = SIZE_MAX;
    options.max_retransmissions = -1;
    options.rto_initial = DurationMs(-1);
    Pair it(options);
    it.Connect();
    Expect(it.a.errors.size() == 2, "two are reported");
    for (const auto &[kind, text] : it.a.errors)
        Expect(kind == ErrorKind::kUnsupportedOperation, text);
    it.world.Run(1000);
    Expect(it.a.errors.size() == 2, "once");
    Expect(it.z.errors.empty(), "the defaults aren't");
}

void ClocksAndNumbers() {
    setting = "a clock before 0, and numbers that are the least";
    World world;
    world.epoch = -3700000;
    world.has_random_numbers = false;
    End a(world, Ours), z(world, Ours);
    a.peer = &z;
    z.peer = &a;
    a.Connect();
    Expect(world.RunUntil([&] { return a.IsConnected() && z.IsConnected(); }, 60000), "it connects");
    world.Run(200000); // (past an hour before 0)
    world.is_cut = true;
    a.Send(1, Bytes(500, 5));
    world.is_cut = false;
    Expect(world.RunUntil([&] { return z.messages.size() == 1; }, 60000), "and sends again what was lost");
}

// ---- Callbacks

// Messages of one packet, each of whose callbacks closes the socket: no callback comes after Close has returned.
void CloseInCallbacks() {
    setting = "Close in callbacks";
    Pair it;
    bool has_returned = false;
    it.z.on_message = [&](const DcSctpMessage &) {
        Expect(!has_returned, "no message comes after Close");
        it.z.socket->Close();
        has_returned = true;
        Expect(it.z.closed == 1, "OnClosed comes before Close returns");
    };
    for (uint8_t number = 0; number < 10; number++)
        it.a.Send(1, Bytes(20, number));
    it.a.Connect();
    it.world.Run(5000);
    Expect(it.z.messages.size() > 1 && it.z.closed == 1, "all messages come before OnClosed, which comes once");
    Expect(it.a.aborts.size() == 1 && it.a.aborts[0].first == ErrorKind::kPeerReported, "the peer gets an ABORT");
}

// A callback that connects again: the messages that are ready come before that.
void ConnectInCallbacks() {
    setting = "Connect in callbacks";
    Pair it;
    it.z.on_message = [&](const DcSctpMessage &) {
        if (it.z.connected != 1)
            return;
        it.z.Close();
        it.z.Connect();
    };
    for (uint8_t number = 0; number < 10; number++)
        it.a.Send(1, Bytes(20, number));
    it.a.Connect();
    const auto is_again = [&] { return it.z.connected == 2 && it.a.connected == 2; };
    Expect(it.world.RunUntil(is_again, 60000), "it connects again");
    Expect(it.z.messages.size() > 1 && it.z.closed == 1, "and has all messages of the first packet");
}

void HandOverInCallback() {
    setting = "a handover in a callback";
    Pair it;
    it.Connect();
    it.Settle();
    it.z.on_message = [&](const DcSctpMessage &) {
        Expect(it.z.socket->GetHandoverStateAndClose().has_value(), "there is a state");
        Expect(it.z.closed == 1, "OnClosed comes before it is returned");
    };
    it.a.Send(1, Bytes(20, 1));
    it.world.Run(100);
    Expect(it.z.messages.size() == 1 && it.z.socket->state() == SocketState::kClosed, "the old socket is closed");
}

// ---- States

void StatesRefused() {
    setting = "states";
    Pair it;
    it.Connect();
    it.Settle();
    const auto taken = it.a.socket->GetHandoverStateAndClose();
    Expect(taken.has_value(), "there is a state");
    if (!taken)
        return;
    using State = DcSctpSocketHandoverState;
    struct {
        const char *name;
        std::function<void(State &)> change;
    } const rows[] = {
        {"one of WebRTC's", [](State &state) { state = State(), state.socket_state = State::SocketState::kConnected; }},
        {"another tie tag", [](State &state) { state.tie_tag ^= 1; }},
        {"another length", [](State &state) { state.tx.next_tsn--; }},
        {"no length", [](State &state) { state.tx.next_tsn = 0; }},
        {"the greatest length", [](State &state) { state.tx.next_tsn = UINT32_MAX; }},
        {"no streams", [](State &state) { state.tx.streams.clear(); }},
        {"a stream less", [](State &state) { state.tx.streams.pop_back(); }},
        {"another word", [](State &state) { state.tx.streams[1].next_ordered_mid ^= 256; }},
    };
    it.a.is_over = false;
    for (const auto &row : rows) {
        State state = *taken;
        row.change(state);
        const size_t errors = it.a.errors.size();
        it.a.socket->RestoreFromState(state);
        Expect(it.a.errors.size() == errors + 1 && it.a.errors.back().first == ErrorKind::kParseFailed, row.name);
    }
    Expect(it.a.socket->state() == SocketState::kClosed && it.a.connected == 1, "none is restored");
    it.a.socket->RestoreFromState(*taken);
    Expect(it.a.IsConnected() && it.a.connected == 2, "the state itself is");
}

void StateOfOtherOptions() {
    setting = "the state of a socket with other options";
    Pair it;
    it.Connect();
    it.Settle();
    const auto taken = it.a.socket->GetHandoverStateAndClose();
    DcSctpOptions options;
    options.local_port = 1;
    Pair other(options);
    if (taken)
        other.a.socket->RestoreFromState(*taken);
    Expect(other.a.errors.size() == 1 && other.a.errors[0].first == ErrorKind::kUnsupportedOperation, "it is refused");
    Expect(other.a.socket->state() == SocketState::kClosed && other.a.connected == 0, "and not restored");
}

void StateOfClosed() {
    setting = "the state of a closed socket";
    Pair it;
    const auto taken = it.a.socket->GetHandoverStateAndClose();
    Expect(taken && taken->socket_state == DcSctpSocketHandoverState::SocketState::kClosed, "there is one");
    it.z.socket->RestoreFromState(*taken);
    Expect(it.z.errors.empty() && it.z.connected == 0 && it.z.socket->state() == SocketState::kClosed,
           "it does nothing");
}

// ---- Allocations

// A short life of two ends. Returns whether they have got to its end.
bool Live(Pair &it) {
    SendOptions how;
    how.lifecycle_id = LifecycleId(1);
    it.a.Connect();
    it.a.Send(1, Bytes(3000, 1), how);
    if (!it.world.RunUntil([&] { return it.z.messages.size() == 1; }, 10000))
        return false;
    it.a.socket->SetStreamPriority(StreamID(3), StreamPriority(1));
    it.a.socket->SetBufferedAmountLowThreshold(StreamID(3), 10);
    it.a.Reset({StreamID(1)});
    it.world.RunUntil([&] { return it.a.socket->GetHandoverReadiness().IsReady() && it.a.resets.size() == 1; }, 10000);
    const auto state = it.a.socket->GetHandoverStateAndClose();
    if (!state)
        return false;
    it.a.is_over = false;
    it.a.socket->RestoreFromState(*state);
    it.a.Send(2, Bytes(10, 2));
    it.z.Send(2, Bytes(10, 2));
    if (!it.world.RunUntil([&] { return it.z.messages.size() == 2 && it.a.messages.size() == 1; }, 10000))
        return false;
    it.a.socket->Shutdown();
    return it.world.RunUntil([&] { return it.a.closed == 2 && it.z.closed == 1; }, 10000);
}

bool HasExhaustion(const decltype(End::errors) &reports) {
    return std::any_of(reports.begin(), reports.end(),
                       [](const auto &it) { return it.first == ErrorKind::kResourceExhaustion; });
}

bool IsReported(const End &end) {
    return HasExhaustion(end.aborts) || HasExhaustion(end.errors);
}

// What can still be called of a socket that has failed.
void CallAfterFailure(End &end) {
    const size_t aborts = end.aborts.size();
    if (!HasExhaustion(end.aborts))
        return;
    Expect(end.socket->state() == SocketState::kClosed && !end.socket->GetMetrics(), "a failed socket is closed");
    Expect(end.Send(1, Bytes(5)) == SendStatus::kErrorResourceExhaustion, "it sends nothing");
    end.Connect();
    Expect(end.aborts.size() == aborts + 1, "OnAborted refuses Connect");
}

void AllocationsRefused() {
    int refused = 0;
    for (int64_t number = 1; number < 100000; number++) {
        setting = "allocation " + std::to_string(number);
        until_refused = number;
        Pair it;
        const bool is_complete = Live(it);
        const bool was_refused = until_refused == 0;
        until_refused = 0;
        if (!was_refused) {
            Expect(is_complete, "all works if none is refused");
            break;
        }
        refused++;
        if (!IsReported(it.a) && !IsReported(it.z))
            it.a.Connect(); // (a socket that wasn't created says so only then)
        if (!IsReported(it.a) && !IsReported(it.z))
            it.z.Connect();
        const bool is_told = IsReported(it.a) || IsReported(it.z) || !it.a.aborts.empty() || !it.z.aborts.empty();
        Expect(is_told, "it is reported");
        CallAfterFailure(it.a);
        CallAfterFailure(it.z);
    }
    setting = "allocations";
    Expect(refused > 20, "some are refused");
}

} // namespace

int main() {
    OptionsRefused();
    OptionsWithoutEffect();
    ClocksAndNumbers();
    CloseInCallbacks();
    ConnectInCallbacks();
    HandOverInCallback();
    StatesRefused();
    StateOfOtherOptions();
    StateOfClosed();
    AllocationsRefused();
    std::printf("webrtc_refusals: %d passed, %d failed\n", checks - failures, failures);
    return failures == 0 ? 0 : 1;
}
