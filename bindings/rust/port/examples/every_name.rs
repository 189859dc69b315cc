//! A program for dcsctp 0.1.16 that uses each of its public names: messages over a link that loses packets, a handover
//! with data under way by a format of its own, a reset and a shutdown.

use dcsctp::api::handover::*;
use dcsctp::api::*;
use std::time::Duration;

type Outcome = Result<(), Box<dyn std::error::Error>>;

/// A socket behind the trait, and what it has reported.
struct Peer {
    socket: Box<dyn DcSctpSocket>,
    messages: Vec<(StreamId, PpId, usize)>,
    log: Vec<String>,
}

impl Peer {
    fn new(name: &str, options: &Options) -> Peer {
        Peer { socket: Box::new(Socket::new(name, options)), messages: Vec::new(), log: Vec::new() }
    }

    /// Takes all messages and events. Returns the packets.
    fn drain(&mut self) -> Vec<Vec<u8>> {
        while self.socket.messages_ready_count() > 0 {
            let Message { stream_id, ppid, payload } =
                self.socket.get_next_message().expect("a message");
            self.messages.push((stream_id, ppid, payload.len()))
        }
        let mut packets = Vec::new();
        while let Some(event) = self.socket.poll_event() {
            match event {
                SocketEvent::SendPacket(packet) => packets.push(packet),
                other => self.log.extend(line(other)),
            }
        }
        packets
    }

    fn has_logged(&self, line: &str) -> bool {
        self.log.iter().any(|it| it == line)
    }

    /// Is all that was sent acknowledged?
    fn is_idle(&self) -> bool {
        self.socket.get_metrics().is_some_and(|it| it.unack_data_count == 0)
    }
}

/// A line of the log.
fn line(event: SocketEvent) -> Option<String> {
    Some(match event {
        SocketEvent::SendPacket(_) => return None,
        SocketEvent::OnBufferedAmountLow(_) | SocketEvent::OnTotalBufferedAmountLow() => {
            return None
        }
        SocketEvent::OnConnected() => "connected".into(),
        SocketEvent::OnClosed() => "closed".into(),
        SocketEvent::OnConnectionRestarted() => "restarted".into(),
        SocketEvent::OnAborted(kind, text) => format!("aborted: {} {text}", words(kind)),
        SocketEvent::OnError(kind, text) => format!("error: {} {text}", words(kind)),
        SocketEvent::OnStreamsResetFailed(ids) => format!("not reset {ids:?}"),
        SocketEvent::OnStreamsResetPerformed(ids) => format!("reset {ids:?}"),
        SocketEvent::OnIncomingStreamReset(ids) => format!("reset by the peer {ids:?}"),
        SocketEvent::OnLifecycleMessageFullySent(id) => format!("sent {id}"),
        SocketEvent::OnLifecycleMessageMaybeExpired(id) => format!("maybe expired {id}"),
        SocketEvent::OnLifecycleMessageExpired(id) => format!("expired {id}"),
        SocketEvent::OnLifecycleMessageDelivered(id) => format!("delivered {id}"),
        SocketEvent::OnLifecycleEnd(id) => format!("end {}", id.value()),
    })
}

fn words(kind: ErrorKind) -> &'static str {
    match kind {
        ErrorKind::NoError => "nothing",
        ErrorKind::TooManyRetries => "a silent peer",
        ErrorKind::NotConnected => "no peer",
        ErrorKind::ParseFailed => "an unreadable packet",
        ErrorKind::WrongSequence => "a chunk out of place",
        ErrorKind::PeerReported => "the peer",
        ErrorKind::ProtocolViolation => "the protocol",
        ErrorKind::ResourceExhaustion => "a full buffer",
        ErrorKind::UnsupportedOperation => "no such thing",
    }
}

/// The time, and a link that loses one packet of 32.
struct Link {
    now: SocketTime,
    numbers: u64,
}

impl Link {
    fn loses(&mut self) -> bool {
        self.numbers =
            self.numbers.wrapping_mul(6364136223846793005).wrapping_add(1442695040888963407);
        (self.numbers >> 33) % 32 == 0
    }

    /// Carries packets, with 20 ms each way, until `is_done`.
    fn run(&mut self, a: &mut Peer, b: &mut Peer, is_done: impl Fn(&Peer, &Peer) -> bool) {
        for _ in 0..100_000 {
            let (to_b, to_a) = (a.drain(), b.drain());
            if is_done(a, b) {
                return;
            }
            if to_a.is_empty() && to_b.is_empty() {
                self.now = a.socket.poll_timeout().min(b.socket.poll_timeout());
                assert_ne!(self.now, SocketTime::infinite_future(), "{:?} {:?}", a.log, b.log);
            } else {
                self.now = self.now + Duration::from_millis(20);
            }
            for (peer, packets) in [(&mut *a, to_a), (&mut *b, to_b)] {
                peer.socket.advance_time(self.now);
                for packet in packets.iter().filter(|_| !self.loses()) {
                    peer.socket.handle_input(packet);
                }
            }
        }
        panic!("{:?} {:?}", a.log, b.log)
    }
}

/// Any options but the defaults.
fn options() -> Options {
    Options {
        mtu: 1200,
        heartbeat_interval: Duration::from_secs(10),
        max_retransmissions: None,
        max_init_retransmits: None,
        zero_checksum_alternate_error_detection_method:
            ZERO_CHECKSUM_ALTERNATE_ERROR_DETECTION_METHOD_LOWER_LAYER_DTLS,
        enable_message_interleaving: true,
        enable_handover_with_outstanding_data: true,
        immediate_sack_under_cwnd_mtus: 0,
        avoid_fragmentation_cwnd_mtus: 0,
        t2_shutdown_timeout: Duration::from_secs(1),
        heartbeat_interval_include_rtt: true,
        ..Options::default()
    }
}

/// All options have names.
fn check_names(options: Options) {
    let Options {
        local_port: _,
        remote_port: _,
        announced_maximum_incoming_streams: _,
        announced_maximum_outgoing_streams: _,
        mtu: _,
        max_message_size: _,
        default_stream_priority: _,
        max_receiver_window_buffer_size: _,
        max_send_buffer_size: _,
        per_stream_send_queue_limit: _,
        total_buffered_amount_low_threshold: _,
        default_stream_buffered_amount_low_threshold: _,
        rtt_max: _,
        rto_initial: _,
        rto_max: _,
        rto_min: _,
        t1_init_timeout: _,
        t1_cookie_timeout: _,
        t2_shutdown_timeout: _,
        max_timer_backoff_duration: _,
        heartbeat_interval: _,
        delayed_ack_max_timeout: _,
        min_rtt_variance: _,
        cwnd_mtus_initial: _,
        cwnd_mtus_min: _,
        avoid_fragmentation_cwnd_mtus: _,
        immediate_sack_under_cwnd_mtus: _,
        max_burst: _,
        max_retransmissions: _,
        max_init_retransmits: _,
        enable_partial_reliability: _,
        enable_message_interleaving: _,
        heartbeat_interval_include_rtt: _,
        zero_checksum_alternate_error_detection_method: method,
        disable_checksum_verification: _,
        enable_handover_with_outstanding_data: _,
    } = options;
    assert_ne!(method, ZERO_CHECKSUM_ALTERNATE_ERROR_DETECTION_METHOD_NONE);
    assert_eq!(method, ZeroChecksumAlternateErrorDetectionMethod(1));
}

fn check_errors(closed: &mut Peer) {
    let socket = &mut closed.socket;
    assert!(socket.get_metrics().is_none() && socket.state() == SocketState::Closed);
    assert_eq!(socket.reset_streams(&[StreamId(1)]), Err(ResetStreamsError::NotConnected));
    assert_ne!(ResetStreamsError::NotConnected, ResetStreamsError::NotSupported);
    let messages = vec![
        Message::new(StreamId(1), PpId(51), vec![1]),
        Message::new(StreamId(1), PpId(51), vec![]),
        Message::new(StreamId(1), PpId(51), vec![0; 300_000]),
    ];
    let BatchSendError(errors) =
        socket.send_many(messages, &SendOptions::default()).expect_err("two errors");
    let too_large = SendError::MessageTooLarge { len: 300_000, limit: 262_144 };
    assert_eq!(errors, [(1, SendError::EmptyPayload), (2, too_large)]);
    assert_ne!(SendError::ResourceExhaustion, SendError::ShuttingDown);
}

/// Sends messages of all kinds, each with a name.
fn send_all_kinds(peer: &mut Peer) -> Outcome {
    let socket = &mut peer.socket;
    socket.set_stream_priority(StreamId(2), 512);
    socket.set_buffered_amount_low_threshold(StreamId(2), 1000);
    assert_eq!(socket.get_stream_priority(StreamId(2)), 512);
    assert_eq!(socket.buffered_amount_low_threshold(StreamId(2)), 1000);
    for n in 1..=200u16 {
        let how = SendOptions {
            unordered: n % 3 == 0,
            lifetime: (n % 5 == 0).then_some(Duration::from_millis(300)),
            max_retransmissions: (n % 7 == 0).then_some(0),
            lifecycle_id: LifecycleId::new(n.into()),
        };
        socket
            .send(Message::new(StreamId(n % 4), PpId(53), vec![0; 100 * usize::from(n)]), &how)?;
    }
    Ok(())
}

/// The snapshot, copied field by field, as a format of the program's own does it.
fn copied(state: SocketHandoverState) -> SocketHandoverState {
    let SocketHandoverState {
        socket_state,
        my_verification_tag,
        my_initial_tsn,
        peer_verification_tag,
        peer_initial_tsn,
        tie_tag,
        capabilities,
        tx,
        rx,
    } = state;
    SocketHandoverState {
        socket_state: match socket_state {
            HandoverSocketState::Closed => HandoverSocketState::Closed,
            HandoverSocketState::Connected => HandoverSocketState::Connected,
        },
        my_verification_tag,
        my_initial_tsn,
        peer_verification_tag,
        peer_initial_tsn,
        tie_tag,
        capabilities: copied_capabilities(capabilities),
        tx: copied_transmission(tx),
        rx: copied_receive(rx),
    }
}

fn copied_capabilities(it: HandoverCapabilities) -> HandoverCapabilities {
    HandoverCapabilities {
        partial_reliability: it.partial_reliability,
        message_interleaving: it.message_interleaving,
        reconfig: it.reconfig,
        zero_checksum: it.zero_checksum,
        negotiated_maximum_incoming_streams: it.negotiated_maximum_incoming_streams,
        negotiated_maximum_outgoing_streams: it.negotiated_maximum_outgoing_streams,
    }
}

fn copied_transmission(it: HandoverTransmission) -> HandoverTransmission {
    HandoverTransmission {
        next_tsn: it.next_tsn,
        next_outgoing_message_id: it.next_outgoing_message_id,
        next_reset_req_sn: it.next_reset_req_sn,
        cwnd: it.cwnd,
        rwnd: it.rwnd,
        ssthresh: it.ssthresh,
        partial_bytes_acked: it.partial_bytes_acked,
        streams: it.streams.into_iter().map(copied_stream).collect(),
        queued_messages: it.queued_messages.into_iter().map(copied_message).collect(),
        outstanding_data: it.outstanding_data.into_iter().map(copied_data).collect(),
        last_cumulative_tsn_ack: it.last_cumulative_tsn_ack,
    }
}

fn copied_stream(it: HandoverOutgoingStream) -> HandoverOutgoingStream {
    HandoverOutgoingStream {
        id: it.id,
        next_ssn: it.next_ssn,
        next_unordered_mid: it.next_unordered_mid,
        next_ordered_mid: it.next_ordered_mid,
        priority: it.priority,
    }
}

fn copied_message(it: HandoverStreamMessage) -> HandoverStreamMessage {
    HandoverStreamMessage {
        stream_id: it.stream_id,
        ppid: it.ppid,
        payload: it.payload,
        expires_in_ms: it.expires_in_ms,
        max_retransmissions: it.max_retransmissions,
        unordered: it.unordered,
        lifecycle_id: it.lifecycle_id,
        message_id: it.message_id,
        remaining_offset: it.remaining_offset,
        mid: it.mid,
        ssn: it.ssn,
        fsn: it.fsn,
    }
}

fn copied_data(it: HandoverOutstandingData) -> HandoverOutstandingData {
    HandoverOutstandingData {
        mid: it.mid,
        stream_id: it.stream_id,
        ssn: it.ssn,
        fsn: it.fsn,
        ppid: it.ppid,
        payload: it.payload,
        expires_in_ms: it.expires_in_ms,
        max_retransmissions: it.max_retransmissions,
        is_beginning: it.is_beginning,
        is_end: it.is_end,
        is_unordered: it.is_unordered,
        lifecycle_id: it.lifecycle_id,
        time_since_sent_ms: it.time_since_sent_ms,
        retransmission_count: it.retransmission_count,
        acked: it.acked,
        is_abandoned: it.is_abandoned,
        is_nacked: it.is_nacked,
        is_to_be_retransmitted: it.is_to_be_retransmitted,
        message_id: it.message_id,
    }
}

fn copied_receive(it: HandoverReceive) -> HandoverReceive {
    let ordered =
        |it: HandoverOrderedStream| HandoverOrderedStream { id: it.id, next_ssn: it.next_ssn };
    let unordered = |it: HandoverUnorderedStream| HandoverUnorderedStream { id: it.id };
    HandoverReceive {
        seen_packet: it.seen_packet,
        last_cumulative_acked_tsn: it.last_cumulative_acked_tsn,
        last_assembled_tsn: it.last_assembled_tsn,
        last_completed_deferred_reset_req_sn: it.last_completed_deferred_reset_req_sn,
        last_completed_reset_req_sn: it.last_completed_reset_req_sn,
        ordered_streams: it.ordered_streams.into_iter().map(ordered).collect(),
        unordered_streams: it.unordered_streams.into_iter().map(unordered).collect(),
    }
}

/// Each reason, and how reasons are combined.
fn check_readiness(of_idle: HandoverReadiness) {
    let reasons = [
        HandoverReadiness::WRONG_CONNECTION_STATE,
        HandoverReadiness::SEND_QUEUE_NOT_EMPTY,
        HandoverReadiness::PENDING_STREAM_RESET_REQUEST,
        HandoverReadiness::DATA_TRACKER_TSN_BLOCKS_PENDING,
        HandoverReadiness::PENDING_STREAM_RESET,
        HandoverReadiness::STREAM_RESET_DEFERRED,
        HandoverReadiness::STREAM_HAS_UNASSEMBLED_CHUNKS,
        HandoverReadiness::RETRANSMISSION_QUEUE_OUTSTANDING_DATA,
        HandoverReadiness::RETRANSMISSION_QUEUE_FAST_RECOVERY,
        HandoverReadiness::RETRANSMISSION_QUEUE_NOT_EMPTY,
    ];
    assert!(reasons.iter().all(|it| !of_idle.contains(it.clone())));
    let all = reasons.into_iter().fold(of_idle, |all, it| all | (it & true));
    assert_eq!(all, HandoverReadiness(3807));
    assert_eq!(all & false, HandoverReadiness::READY);
}

/// Closes the socket with half of a transfer under way, and continues with another one.
fn hand_over(a: &mut Peer, link: &Link) -> Result<Peer, Box<dyn std::error::Error>> {
    for _ in 0..20 {
        let message = Message::new(StreamId(3), PpId(53), vec![9; 5000]);
        a.socket.send(message, &SendOptions::default())?;
    }
    let state = match a.socket.get_handover_state_and_close() {
        Ok(state) => state,
        Err(HandoverError::NotReady(reasons)) => return Err(reasons.to_string().into()),
    };
    assert!(!state.tx.queued_messages.is_empty() && !state.tx.outstanding_data.is_empty());
    a.drain();
    assert!(a.has_logged("closed"));
    let mut next = Peer::new("next", &options());
    next.socket.advance_time(link.now);
    let copy = copied(state);
    next.socket.restore_from_state(&copy)?;
    assert_eq!(next.socket.restore_from_state(&copy), Err(RestoreError::SocketNotClosed));
    Ok(next)
}

fn check_metrics(peer: &Peer) {
    let Metrics {
        tx_packets_count,
        tx_messages_count: _,
        rtx_packets_count: _,
        rtx_bytes_count: _,
        cwnd_bytes,
        srtt: _,
        unack_data_count,
        rx_packets_count,
        rx_messages_count: _,
        peer_rwnd_bytes,
        peer_implementation,
        uses_message_interleaving,
        uses_zero_checksum,
        negotiated_maximum_incoming_streams,
        negotiated_maximum_outgoing_streams,
    } = peer.socket.get_metrics().expect("a peer");
    assert!(tx_packets_count > 0 && rx_packets_count > 0 && cwnd_bytes > 0 && peer_rwnd_bytes > 0);
    assert!(uses_message_interleaving && uses_zero_checksum && unack_data_count == 0);
    assert_eq!(
        (negotiated_maximum_incoming_streams, negotiated_maximum_outgoing_streams),
        (65_535, 65_535)
    );
    // (a snapshot doesn't say it)
    assert!(match peer_implementation {
        SctpImplementation::Unknown => true,
        SctpImplementation::DcsctpRs | SctpImplementation::DcsctpCc => false,
        SctpImplementation::UsrSctp | SctpImplementation::Other => false,
    });
}

fn check_states(connected: &Peer) {
    let state = match connected.socket.state() {
        SocketState::Closed => "closed",
        SocketState::Connecting => "connecting",
        SocketState::Connected => "connected",
        SocketState::ShuttingDown => "shutting down",
    };
    assert_eq!(state, "connected");
    let moment = SocketTime::zero() + Duration::from_secs(2) - Duration::from_secs(1);
    assert_eq!(moment - SocketTime::zero(), Duration::from_secs(1));
    assert_eq!(LifecycleId::from(7).value(), 7);
}

fn main() -> Outcome {
    check_names(options());
    let mut link = Link { now: SocketTime::zero(), numbers: 7 };
    let (mut a, mut b) = (Peer::new("a", &options()), Peer::new("b", &options()));
    check_errors(&mut a);
    a.socket.connect();
    link.run(&mut a, &mut b, |a, _| a.has_logged("connected") && a.is_idle());
    assert_eq!(b.messages, [(StreamId(1), PpId(51), 1)]);
    check_states(&a);
    send_all_kinds(&mut a)?;
    link.run(&mut a, &mut b, |a, _| a.is_idle() && a.socket.buffered_amount(StreamId(0)) == 0);
    assert_eq!(a.log.iter().filter(|it| it.starts_with("end")).count(), 200);
    link.run(&mut a, &mut b, |a, _| a.socket.get_handover_readiness().is_ready());
    check_readiness(a.socket.get_handover_readiness());

    let mut a = hand_over(&mut a, &link)?;
    let long =
        |peer: &Peer| peer.messages.iter().filter(|it| it.2 == 5000 && it.0 == StreamId(3)).count();
    let before = long(&b);
    link.run(&mut a, &mut b, |a, b| long(b) == before + 20 && a.is_idle());
    check_metrics(&a);

    a.socket.reset_streams(&[StreamId(3)])?;
    link.run(&mut a, &mut b, |a, _| a.has_logged("reset [3]"));
    assert!(b.has_logged("reset by the peer [3]"));
    a.socket.set_max_message_size(10);
    assert_eq!(a.socket.options().max_message_size, 10);
    a.socket.shutdown();
    link.run(&mut a, &mut b, |a, b| a.has_logged("closed") && b.has_logged("closed"));
    b.socket.close();
    assert_eq!(Socket::new("c", &options()).verification_tag(), 0);
    println!("each name was used");
    Ok(())
}
