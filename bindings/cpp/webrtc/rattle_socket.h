// WebRTC's interface of a socket (net/dcsctp/public/dcsctp_socket.h) over dcsctp.h. Programs for WebRTC's own sockets
// use these without a change: docs/guide/from-webrtc.md shows how.
//
// It is written for the interface of January 2023, as Debian's libtgowt-dev has it. There a program is built by:
//
//     c++ -std=c++17 -DNDEBUG -DWEBRTC_POSIX -DWEBRTC_LINUX -isystem /usr/include/tg_owt program.cc rattle_socket.cc
//         dcsctp_socket_factory.cc $(pkg-config --cflags --libs dcsctp) -ltg_owt -labsl_strings
//
// Callbacks come on the thread of a call, before it returns, in the order in which things happened. Messages are the
// exception: those that a call has made ready come after its other callbacks, but before OnClosed, OnAborted and
// OnIncomingStreamsReset. If a callback calls the socket, that call's callbacks come once the first one returns. Close,
// GetHandoverStateAndClose, Connect and ReceivePacket don't wait: they make all earlier callbacks at once. Don't
// destroy a socket in its callback. Calls on one socket must not overlap; different sockets may be on different
// threads. After OnClosed hand over packets for 4 s more, as dcsctp.h says: OnError may report late ones.
//
// Time comes from TimeMillis, which must not go back. One Timeout of high precision, made by CreateTimeout, is set to
// the earliest of all deadlines.
//
// The options decide all limits, so WebRTC's defaults hold, not those of dcsctp.h. But `follow_rfc` of dcsctp.h is on.
// It keeps rules of the RFCs that WebRTC's sockets don't; for one, Shutdown first sends queued messages. The last
// argument of CreateRattleSocket, or -DDCSCTP_FOLLOW_RFC=0 for the factory, turns it off. The seed is eight words of
// GetRandomInt: if those can be guessed, so can the tags and TSNs. DTLS protects from that.
//
// A handover state holds the snapshot of dcsctp.h, packed into `tx.streams`. Treat it as opaque, as the interface says,
// and keep all its fields. Only this library restores it, in the same version. OnError refuses a state of WebRTC's
// sockets, and they must not be given one of these.
//
// What has no counterpart:
//
// - t2_shutdown_timeout: a SHUTDOWN is repeated after the timeout of data. avoid_fragmentation_cwnd_mtus: a window is
//   filled whatever its size. If one of them isn't the default, the first call reports it by OnError.
// - heartbeat_interval_include_rtt has no effect: the interval is as long as heartbeat_interval says.
// - max_timer_backoff_duration has no effect on the handshake, whose waits are doubled without a limit. Without
//   `follow_rfc` it has none on a SHUTDOWN or a request to reset streams.
// - Sizes of windows and buffers above 4,294,967,295 bytes count as that.
// - If dcsctp.h accepts no such options, Create returns a closed socket: OnError refuses each call, and OnAborted
//   Connect.
// - The status of SendPacketWithStatus is ignored: a packet that wasn't sent counts as sent and lost.
// - OnStreamsResetFailed gives no reason of the peer's. NotifyOutgoingMessageBufferEmpty is never called.
// - kReassemblyQueueDeliveredTSNsGap is never a reason against a handover, and of two reasons for incomplete messages
//   only kOrderedStreamHasUnassembledChunks is.
// - Nothing is logged, so log_prefix isn't used. Texts come by OnError and OnAborted.
// - Out of memory: OnAborted with kResourceExhaustion, and the socket can't be used again. If an allocation fails
//   before anything has changed, OnError reports it, and Send returns kErrorResourceExhaustion.
#ifndef NET_DCSCTP_PUBLIC_RATTLE_SOCKET_H_
#define NET_DCSCTP_PUBLIC_RATTLE_SOCKET_H_

#include <memory>

#include "net/dcsctp/public/dcsctp_options.h"
#include "net/dcsctp/public/dcsctp_socket.h"
#include "net/dcsctp/public/packet_observer.h"

namespace dcsctp {

// A closed socket. It makes no callback of DcSctpSocketCallbacks that begins with `On`. The callbacks must outlive it.
std::unique_ptr<DcSctpSocketInterface> CreateRattleSocket(DcSctpSocketCallbacks &callbacks,
                                                          std::unique_ptr<PacketObserver> observer,
                                                          const DcSctpOptions &options, bool follow_rfc = true);

} // namespace dcsctp

#endif
