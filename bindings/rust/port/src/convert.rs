//! Values of upstream's types from those of `dcsctp-socket`, and back.

use crate::api::*;
use dcsctp_socket as inner;
use dcsctp_socket::{Error, Event};
use std::alloc::{handle_alloc_error, Layout};
use std::time::Duration;

/// Ends the process, as Rust does if it can't allocate.
pub(crate) fn out_of_memory() -> ! {
    handle_alloc_error(Layout::new::<u64>())
}

/// Whether old cookies are rejected: upstream accepts any.
fn cookie_lifetime() -> Duration {
    if cfg!(feature = "follow_rfc") {
        inner::Options::default().cookie_lifetime
    } else {
        Duration::MAX
    }
}

/// The options that a socket is created with. Three sizes have limits in the library.
pub(crate) fn options(o: &Options) -> inner::Options {
    let buffer = |bytes: usize| bytes.min(u32::MAX as usize);
    inner::Options {
        mtu: o.mtu.clamp(32, 65_535),
        max_message_size: o.max_message_size,
        max_receiver_window_buffer_size: buffer(o.max_receiver_window_buffer_size),
        max_send_buffer_size: buffer(o.max_send_buffer_size),
        per_stream_send_queue_limit: o.per_stream_send_queue_limit,
        total_buffered_amount_low_threshold: o.total_buffered_amount_low_threshold,
        default_stream_buffered_amount_low_threshold: o
            .default_stream_buffered_amount_low_threshold,
        cwnd_mtus_initial: o.cwnd_mtus_initial,
        cwnd_mtus_min: o.cwnd_mtus_min,
        rtt_max: o.rtt_max,
        rto_initial: o.rto_initial,
        rto_max: o.rto_max,
        rto_min: o.rto_min,
        t1_init_timeout: o.t1_init_timeout,
        t1_cookie_timeout: o.t1_cookie_timeout,
        cookie_lifetime: cookie_lifetime(),
        max_timer_backoff_duration: o.max_timer_backoff_duration,
        heartbeat_interval: o.heartbeat_interval,
        delayed_ack_max_timeout: o.delayed_ack_max_timeout,
        min_rtt_variance: o.min_rtt_variance,
        max_burst: o.max_burst,
        max_retransmissions: o.max_retransmissions,
        max_init_retransmits: o.max_init_retransmits,
        zero_checksum_method: o.zero_checksum_alternate_error_detection_method.0,
        enable_partial_reliability: o.enable_partial_reliability,
        enable_message_interleaving: o.enable_message_interleaving,
        disable_checksum_verification: o.disable_checksum_verification,
        enable_handover_with_outstanding_data: o.enable_handover_with_outstanding_data,
        local_port: o.local_port,
        remote_port: o.remote_port,
        announced_maximum_incoming_streams: o.announced_maximum_incoming_streams,
        announced_maximum_outgoing_streams: o.announced_maximum_outgoing_streams,
        default_stream_priority: o.default_stream_priority,
        checksum_offload: false,
        follow_rfc: cfg!(feature = "follow_rfc"),
    }
}

pub(crate) fn send_options(options: &SendOptions) -> inner::SendOptions {
    inner::SendOptions {
        lifecycle_id: options.lifecycle_id.map_or(0, |it| it.value()),
        unordered: options.unordered,
        lifetime: options.lifetime,
        max_retransmissions: options.max_retransmissions,
    }
}

/// Why a message of `len` bytes wasn't taken, where `limit` is `max_message_size`.
pub(crate) fn send_error(error: Error, len: usize, limit: usize) -> SendError {
    match error {
        Error::EmptyPayload => SendError::EmptyPayload,
        Error::MessageTooLarge => SendError::MessageTooLarge { len, limit },
        Error::ResourceExhaustion => SendError::ResourceExhaustion,
        Error::ShuttingDown => SendError::ShuttingDown,
        _ => out_of_memory(),
    }
}

/// The event; `None` for a kind that upstream doesn't have.
pub(crate) fn event(event: Event) -> Option<SocketEvent> {
    let id = LifecycleId::from;
    Some(match event {
        Event::SendPacket(packet) => SocketEvent::SendPacket(packet),
        Event::Connected => SocketEvent::OnConnected(),
        Event::Closed => SocketEvent::OnClosed(),
        Event::ConnectionRestarted => SocketEvent::OnConnectionRestarted(),
        Event::Aborted { kind, text } => SocketEvent::OnAborted(error_kind(kind), text),
        Event::Error { kind, text } => SocketEvent::OnError(error_kind(kind), text),
        Event::BufferedAmountLow(stream) => SocketEvent::OnBufferedAmountLow(StreamId(stream)),
        Event::TotalBufferedAmountLow => SocketEvent::OnTotalBufferedAmountLow(),
        Event::StreamsResetFailed(ids) => SocketEvent::OnStreamsResetFailed(streams(ids)),
        Event::StreamsResetPerformed(ids) => SocketEvent::OnStreamsResetPerformed(streams(ids)),
        Event::IncomingStreamReset(ids) => SocketEvent::OnIncomingStreamReset(streams(ids)),
        Event::LifecycleFullySent(n) => SocketEvent::OnLifecycleMessageFullySent(id(n)),
        Event::LifecycleMaybeExpired(n) => SocketEvent::OnLifecycleMessageMaybeExpired(id(n)),
        Event::LifecycleExpired(n) => SocketEvent::OnLifecycleMessageExpired(id(n)),
        Event::LifecycleDelivered(n) => SocketEvent::OnLifecycleMessageDelivered(id(n)),
        Event::LifecycleEnd(n) => SocketEvent::OnLifecycleEnd(id(n)),
        _ => return None,
    })
}

fn streams(ids: Vec<u16>) -> Vec<StreamId> {
    ids.into_iter().map(StreamId).collect()
}

fn error_kind(kind: inner::ErrorKind) -> ErrorKind {
    match kind {
        inner::ErrorKind::NoError => ErrorKind::NoError,
        inner::ErrorKind::TooManyRetries => ErrorKind::TooManyRetries,
        inner::ErrorKind::NotConnected => ErrorKind::NotConnected,
        inner::ErrorKind::ParseFailed => ErrorKind::ParseFailed,
        inner::ErrorKind::WrongSequence => ErrorKind::WrongSequence,
        inner::ErrorKind::PeerReported => ErrorKind::PeerReported,
        inner::ErrorKind::ProtocolViolation => ErrorKind::ProtocolViolation,
        inner::ErrorKind::ResourceExhaustion => ErrorKind::ResourceExhaustion,
        _ => ErrorKind::UnsupportedOperation,
    }
}

pub(crate) fn state(state: inner::State) -> SocketState {
    match state {
        inner::State::Closed => SocketState::Closed,
        inner::State::Connecting => SocketState::Connecting,
        inner::State::Connected => SocketState::Connected,
        _ => SocketState::ShuttingDown,
    }
}

pub(crate) fn metrics(it: inner::Metrics) -> Metrics {
    Metrics {
        tx_packets_count: it.tx_packets_count,
        tx_messages_count: it.tx_messages_count,
        rtx_packets_count: it.rtx_packets_count,
        rtx_bytes_count: it.rtx_bytes_count,
        cwnd_bytes: it.cwnd_bytes,
        srtt: it.srtt,
        unack_data_count: it.unack_data_count,
        rx_packets_count: it.rx_packets_count,
        rx_messages_count: it.rx_messages_count,
        peer_rwnd_bytes: it.peer_rwnd_bytes,
        peer_implementation: match it.peer_implementation {
            inner::Peer::Unknown => SctpImplementation::Unknown,
            inner::Peer::DcsctpRs => SctpImplementation::DcsctpRs,
            inner::Peer::DcsctpCc => SctpImplementation::DcsctpCc,
            inner::Peer::Usrsctp => SctpImplementation::UsrSctp,
            _ => SctpImplementation::Other,
        },
        uses_message_interleaving: it.uses_message_interleaving,
        uses_zero_checksum: it.uses_zero_checksum,
        negotiated_maximum_incoming_streams: it.negotiated_maximum_incoming_streams,
        negotiated_maximum_outgoing_streams: it.negotiated_maximum_outgoing_streams,
    }
}
