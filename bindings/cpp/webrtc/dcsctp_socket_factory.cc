// DcSctpSocketFactory of rattle_socket.h, in place of WebRTC's file of this name.
#include "net/dcsctp/public/dcsctp_socket_factory.h"

#include <utility>

#include "rattle_socket.h"

#ifndef DCSCTP_FOLLOW_RFC
#define DCSCTP_FOLLOW_RFC 1
#endif

namespace dcsctp {

DcSctpSocketFactory::~DcSctpSocketFactory() = default;

std::unique_ptr<DcSctpSocketInterface> DcSctpSocketFactory::Create(absl::string_view, DcSctpSocketCallbacks &callbacks,
                                                                   std::unique_ptr<PacketObserver> packet_observer,
                                                                   const DcSctpOptions &options) {
    return CreateRattleSocket(callbacks, std::move(packet_observer), options, DCSCTP_FOLLOW_RFC != 0);
}

} // namespace dcsctp
