//! What upstream documents of its public interface, a test each.

use dcsctp::api::*;
use std::time::Duration;

const MS: Duration = Duration::from_millis(1);

fn socket(options: &Options) -> Socket {
    Socket::new("it", options)
}

fn at(ms: u32) -> SocketTime {
    SocketTime::zero() + MS * ms
}

fn packets(from: &mut Socket, seen: &mut Vec<SocketEvent>) -> Vec<Vec<u8>> {
    let mut out = Vec::new();
    while let Some(event) = from.poll_event() {
        match event {
            SocketEvent::SendPacket(it) => out.push(it),
            other => seen.push(other),
        }
    }
    out
}

/// Carries packets until there are none. Returns the other events.
fn carry(a: &mut Socket, b: &mut Socket) -> (Vec<SocketEvent>, Vec<SocketEvent>) {
    let (mut of_a, mut of_b) = (Vec::new(), Vec::new());
    loop {
        let (to_b, to_a) = (packets(a, &mut of_a), packets(b, &mut of_b));
        if to_a.is_empty() && to_b.is_empty() {
            return (of_a, of_b);
        }
        to_b.iter().for_each(|it| b.handle_input(it));
        to_a.iter().for_each(|it| a.handle_input(it));
    }
}

fn pair_with(options: &Options) -> (Socket, Socket) {
    let (mut a, mut b) = (socket(options), socket(options));
    a.connect();
    let (of_a, of_b) = carry(&mut a, &mut b);
    assert!(matches!(of_a[..], [SocketEvent::OnConnected()]));
    assert!(matches!(of_b[..], [SocketEvent::OnConnected()]));
    (a, b)
}

fn pair() -> (Socket, Socket) {
    pair_with(&Options::default())
}

fn message(stream: u16, bytes: usize) -> Message {
    Message::new(StreamId(stream), PpId(51), vec![1; bytes])
}

/// The events that name a message.
fn lifecycle(events: &[SocketEvent]) -> Vec<String> {
    let all = events.iter().map(|it| format!("{it:?}"));
    all.filter(|it| it.contains("Lifecycle")).collect()
}

fn plain() -> SendOptions {
    SendOptions::default()
}

#[test]
fn time_saturates_and_the_future_is_infinite() {
    assert_eq!(at(5) - at(9), Duration::ZERO);
    assert_eq!(SocketTime::infinite_future() + MS, SocketTime::infinite_future());
    assert_eq!(at(3) - MS * 9, SocketTime::zero());
    assert_eq!(socket(&Options::default()).poll_timeout(), SocketTime::infinite_future());
}

#[test]
fn an_earlier_moment_is_ignored() {
    let mut it = socket(&Options::default());
    it.advance_time(at(500));
    it.advance_time(at(100));
    it.connect();
    assert_eq!(it.poll_timeout(), at(1500));
}

#[test]
fn an_overdue_timer_is_due_now_and_never_before() {
    let (mut a, b) = (socket(&Options::default()), socket(&Options::default()));
    a.connect();
    assert_eq!(a.poll_timeout(), at(1000));
    a.advance_time(at(1000));
    assert!(a.poll_timeout() >= at(1000));
    drop(b);
}

#[test]
fn a_send_before_the_association_is_queued() {
    let (mut a, mut b) = (socket(&Options::default()), socket(&Options::default()));
    a.send(message(1, 10), &plain()).unwrap();
    assert_eq!(a.buffered_amount(StreamId(1)), 10);
    a.connect();
    carry(&mut a, &mut b);
    assert_eq!(b.messages_ready_count(), 1);
    assert_eq!(b.get_next_message().unwrap().payload.len(), 10);
    assert!(b.get_next_message().is_none());
}

#[test]
fn rejected_messages_have_events() {
    let mut it = socket(&Options { max_send_buffer_size: 100, ..Default::default() });
    let named = SendOptions { lifecycle_id: LifecycleId::new(5), ..plain() };
    assert_eq!(it.send(message(1, 0), &named), Err(SendError::EmptyPayload));
    let events: Vec<_> = std::iter::from_fn(|| it.poll_event()).collect();
    assert!(matches!(&events[..], [SocketEvent::OnLifecycleEnd(id),
        SocketEvent::OnError(ErrorKind::ProtocolViolation, _)] if id.value() == 5));
    it.set_max_message_size(50);
    assert_eq!(it.options().max_message_size, 50);
    let refused = it.send(message(1, 51), &plain());
    assert_eq!(refused, Err(SendError::MessageTooLarge { len: 51, limit: 50 }));
    it.send(message(1, 50), &plain()).unwrap();
    it.send(message(1, 50), &plain()).unwrap();
    assert_eq!(it.send(message(1, 1), &plain()), Err(SendError::ResourceExhaustion));
}

#[test]
fn a_stream_has_a_limit_of_its_own() {
    let mut it = socket(&Options { per_stream_send_queue_limit: 10, ..Default::default() });
    it.send(message(1, 10), &plain()).unwrap();
    assert_eq!(it.send(message(1, 1), &plain()), Err(SendError::ResourceExhaustion));
    it.send(message(2, 10), &plain()).unwrap();
}

#[test]
fn the_greatest_size_is_no_limit() {
    let options = Options {
        max_send_buffer_size: usize::MAX,
        per_stream_send_queue_limit: usize::MAX,
        max_message_size: usize::MAX,
        ..Default::default()
    };
    let (mut a, mut b) = pair_with(&options);
    a.send(message(1, 3_000_000), &plain()).unwrap();
    assert_eq!(a.options().max_send_buffer_size, usize::MAX);
    for n in 1..20 {
        carry(&mut a, &mut b);
        a.advance_time(at(n * 250));
        b.advance_time(at(n * 250));
    }
    assert_eq!(b.get_next_message().unwrap().payload.len(), 3_000_000);
}

#[test]
fn a_batch_continues_after_an_error_and_shares_packets() {
    let (mut a, mut b) = pair();
    let all = vec![message(1, 5), message(1, 0), message(2, 7), message(3, 300_000)];
    let BatchSendError(refused) = a.send_many(all, &plain()).unwrap_err();
    assert_eq!(
        refused,
        [
            (1, SendError::EmptyPayload),
            (3, SendError::MessageTooLarge { len: 300_000, limit: 262_144 })
        ]
    );
    let sent = packets(&mut a, &mut Vec::new());
    assert_eq!(sent.len(), 1);
    b.handle_input(&sent[0]);
    assert_eq!(b.messages_ready_count(), 2);
    a.send_many(vec![], &plain()).unwrap();
}

#[test]
fn an_incoming_message_may_be_longer_than_our_limit() {
    let (mut a, mut b) = pair();
    b.set_max_message_size(10);
    a.send(message(1, 1000), &plain()).unwrap();
    carry(&mut a, &mut b);
    assert_eq!(b.get_next_message().unwrap().payload.len(), 1000);
}

#[test]
fn a_delivered_message_has_three_events() {
    let (mut a, mut b) = pair();
    a.send(message(1, 9), &SendOptions { lifecycle_id: LifecycleId::new(7), ..plain() }).unwrap();
    let (mut of_a, _) = carry(&mut a, &mut b);
    b.advance_time(at(200));
    of_a.extend(carry(&mut a, &mut b).0);
    assert_eq!(
        lifecycle(&of_a),
        ["OnLifecycleMessageFullySent(7)", "OnLifecycleMessageDelivered(7)", "OnLifecycleEnd(7)"]
    );
}

#[test]
fn a_message_that_expires_unsent_has_two_events() {
    let mut a = socket(&Options::default());
    let how =
        SendOptions { lifecycle_id: LifecycleId::new(7), lifetime: Some(MS * 100), ..plain() };
    a.send(message(1, 9), &how).unwrap();
    a.advance_time(at(500));
    let mut b = socket(&Options::default());
    a.connect();
    let (of_a, _) = carry(&mut a, &mut b);
    assert_eq!(lifecycle(&of_a), ["OnLifecycleMessageExpired(7)", "OnLifecycleEnd(7)"]);
    assert_eq!(b.messages_ready_count(), 0);
}

#[test]
fn the_longest_lifetime_never_ends() {
    let (mut a, mut b) = pair();
    a.send(message(1, 9), &SendOptions { lifetime: Some(Duration::MAX), ..plain() }).unwrap();
    carry(&mut a, &mut b);
    assert_eq!(b.messages_ready_count(), 1);
}

#[test]
fn buffered_amount_falls_to_its_threshold() {
    let (mut a, mut b) = pair();
    assert_eq!(a.buffered_amount_low_threshold(StreamId(1)), 0);
    a.set_buffered_amount_low_threshold(StreamId(1), 1000);
    a.send(message(1, 50_000), &plain()).unwrap();
    let (mut of_a, _) = carry(&mut a, &mut b);
    b.advance_time(at(250));
    a.advance_time(at(250));
    of_a.extend(carry(&mut a, &mut b).0);
    let low = of_a.iter().filter(|it| matches!(it, SocketEvent::OnBufferedAmountLow(StreamId(1))));
    assert_eq!(low.count(), 1);
    assert_eq!(a.buffered_amount(StreamId(1)), 0);
}

#[test]
fn the_total_falls_to_its_threshold() {
    let options = Options { total_buffered_amount_low_threshold: 1000, ..Default::default() };
    let (mut a, mut b) = pair_with(&options);
    a.send(message(1, 50_000), &plain()).unwrap();
    let (of_a, _) = carry(&mut a, &mut b);
    let low = of_a.iter().filter(|it| matches!(it, SocketEvent::OnTotalBufferedAmountLow()));
    assert_eq!(low.count(), 1);
}

#[test]
fn the_greatest_priority_is_sent_first() {
    let (mut a, mut b) = pair();
    assert_eq!(a.get_stream_priority(StreamId(9)), 256);
    a.set_stream_priority(StreamId(9), 1000);
    a.send(message(1, 100_000), &plain()).unwrap();
    a.send(message(2, 10), &plain()).unwrap();
    a.send(message(9, 10), &plain()).unwrap();
    let mut order = Vec::new();
    for n in 1..20 {
        carry(&mut a, &mut b);
        a.advance_time(at(n * 250));
        b.advance_time(at(n * 250));
        while let Some(it) = b.get_next_message() {
            order.push(it.stream_id)
        }
    }
    assert_eq!(order, [StreamId(1), StreamId(9), StreamId(2)]);
}

#[test]
fn a_reset_is_reported_at_both_ends() {
    let (mut a, mut b) = pair();
    a.send(message(3, 10), &plain()).unwrap();
    carry(&mut a, &mut b);
    a.reset_streams(&[StreamId(3)]).unwrap();
    let (of_a, of_b) = carry(&mut a, &mut b);
    let has = |all: &[SocketEvent], text: &str| all.iter().any(|it| format!("{it:?}") == text);
    assert!(has(&of_a, "OnStreamsResetPerformed([3])"), "{of_a:?}");
    assert!(has(&of_b, "OnIncomingStreamReset([3])"), "{of_b:?}");
    a.reset_streams(&[]).unwrap();
}

#[test]
fn a_reset_needs_an_association() {
    let mut it = socket(&Options::default());
    assert_eq!(it.reset_streams(&[StreamId(1)]), Err(ResetStreamsError::NotConnected));
    it.connect();
    assert_eq!(it.reset_streams(&[StreamId(1)]), Err(ResetStreamsError::NotConnected));
}

#[test]
fn metrics_are_none_without_a_peer() {
    let mut it = socket(&Options::default());
    assert!(it.get_metrics().is_none());
    it.connect();
    assert!(it.get_metrics().is_none() && it.state() == SocketState::Connecting);
    let (a, b) = pair();
    let (m, n) = (a.get_metrics().unwrap(), b.get_metrics().unwrap());
    assert_eq!((m.tx_packets_count, m.rx_packets_count), (2, 2));
    assert_eq!(m.peer_implementation, SctpImplementation::DcsctpRs);
    assert_eq!(n.peer_implementation, SctpImplementation::Unknown);
    assert_eq!(m.negotiated_maximum_incoming_streams, 65_535);
    assert_eq!(m.cwnd_bytes, 11_910);
}

#[test]
fn shutdown_closes_both() {
    let (mut a, mut b) = pair();
    a.shutdown();
    assert_eq!(a.state(), SocketState::ShuttingDown);
    assert_eq!(a.send(message(1, 1), &plain()), Err(SendError::ShuttingDown));
    let (of_a, of_b) = carry(&mut a, &mut b);
    assert!(matches!(of_a.last(), Some(SocketEvent::OnClosed())));
    assert!(matches!(of_b.last(), Some(SocketEvent::OnClosed())));
}

#[test]
fn shutdown_sends_data_in_flight() {
    let (mut a, mut b) = pair();
    a.send(message(1, 100_000), &plain()).unwrap();
    a.shutdown();
    let mut took = 0;
    for n in 1..20 {
        loop {
            let (to_b, to_a) = (packets(&mut a, &mut vec![]), packets(&mut b, &mut vec![]));
            if to_a.is_empty() && to_b.is_empty() {
                break;
            }
            for it in to_b {
                b.handle_input(&it);
                took += std::iter::from_fn(|| b.get_next_message()).count();
            }
            to_a.iter().for_each(|it| a.handle_input(it));
        }
        a.advance_time(at(n * 250));
        b.advance_time(at(n * 250));
    }
    assert_eq!(took, 1);
    assert_eq!(a.state(), SocketState::Closed);
}

#[test]
fn close_aborts_and_is_the_last_event() {
    let (mut a, mut b) = pair();
    a.close();
    let (of_a, of_b) = carry(&mut a, &mut b);
    assert!(matches!(of_a[..], [SocketEvent::OnClosed()]));
    assert!(matches!(of_b[..], [SocketEvent::OnAborted(ErrorKind::PeerReported, _)]));
    a.close();
    assert!(a.poll_event().is_none());
}

#[test]
fn a_closed_socket_connects_again() {
    let (mut a, mut b) = pair();
    a.close();
    carry(&mut a, &mut b);
    b.connect();
    let (of_a, of_b) = carry(&mut a, &mut b);
    assert!(of_a.iter().chain(&of_b).all(|it| matches!(it, SocketEvent::OnConnected())));
    a.send(message(1, 1), &plain()).unwrap();
    carry(&mut a, &mut b);
    assert_eq!(b.messages_ready_count(), 1);
}

#[test]
fn a_restart_is_reported() {
    let (mut a, mut b) = pair();
    a.close();
    while a.poll_event().is_some() {}
    a.connect();
    let (_, of_b) = carry(&mut a, &mut b);
    assert!(matches!(of_b[..], [SocketEvent::OnConnectionRestarted(), SocketEvent::OnConnected()]));
}

#[test]
fn a_silent_peer_aborts_the_attempt() {
    let mut a = socket(&Options { max_init_retransmits: Some(1), ..Default::default() });
    a.connect();
    for _ in 0..3 {
        let due = a.poll_timeout();
        a.advance_time(due);
    }
    let last = std::iter::from_fn(|| a.poll_event()).last();
    assert!(matches!(last, Some(SocketEvent::OnAborted(ErrorKind::TooManyRetries, _))));
    assert_eq!(a.state(), SocketState::Closed);
}

#[test]
fn no_heartbeat_is_due_if_the_interval_is_zero() {
    let options = Options { heartbeat_interval: Duration::ZERO, ..Default::default() };
    let (a, _b) = pair_with(&options);
    assert_eq!(a.poll_timeout(), SocketTime::infinite_future());
    let due = pair().0.poll_timeout();
    if cfg!(feature = "follow_rfc") {
        assert!(at(30_250) <= due && due < at(30_750));
    } else {
        assert_eq!(due, at(30_000));
    }
}

#[test]
fn a_closed_socket_is_handed_over_without_events() {
    let mut it = socket(&Options::default());
    let state = it.get_handover_state_and_close().unwrap();
    assert!(it.poll_event().is_none());
    socket(&Options::default()).restore_from_state(&state).unwrap();
}

#[test]
fn a_handover_continues() {
    let (mut a, mut b) = pair();
    a.send(message(1, 10), &plain()).unwrap();
    carry(&mut a, &mut b);
    b.advance_time(at(200));
    carry(&mut a, &mut b);
    assert_eq!(a.get_handover_readiness(), HandoverReadiness::READY);
    let tag = a.verification_tag();
    let state = a.get_handover_state_and_close().unwrap();
    assert!(matches!(a.poll_event(), Some(SocketEvent::OnClosed())));
    assert!(a.poll_event().is_none() && a.state() == SocketState::Closed);
    assert_eq!(tag, state.my_verification_tag);
    let mut c = socket(&Options::default());
    c.advance_time(at(200));
    c.restore_from_state(&state).unwrap();
    assert_eq!(c.verification_tag(), tag);
    let again = c.restore_from_state(&state);
    assert_eq!(again, Err(RestoreError::SocketNotClosed));
    c.send(message(1, 20), &plain()).unwrap();
    b.send(message(1, 30), &plain()).unwrap();
    let (of_c, _) = carry(&mut c, &mut b);
    assert!(matches!(of_c.first(), Some(SocketEvent::OnConnected())));
    assert_eq!(b.get_next_message().unwrap().payload.len(), 10);
    assert_eq!(b.get_next_message().unwrap().payload.len(), 20);
    assert_eq!(c.get_next_message().unwrap().payload.len(), 30);
}

#[test]
fn a_handover_that_is_not_ready_says_why() {
    let (mut a, _b) = pair();
    a.send(message(1, 10), &plain()).unwrap();
    let Err(HandoverError::NotReady(why)) = a.get_handover_state_and_close() else { panic!() };
    assert!(why.contains(HandoverReadiness::RETRANSMISSION_QUEUE_OUTSTANDING_DATA));
    assert_eq!(format!("{why}"), "retransmission_queue_outstanding_data");
    let mut c = socket(&Options::default());
    c.connect();
    assert_eq!(c.get_handover_readiness(), HandoverReadiness::WRONG_CONNECTION_STATE);
}

#[test]
fn each_end_has_its_verification_tag() {
    let (mut a, mut b) = (socket(&Options::default()), socket(&Options::default()));
    assert_eq!(a.verification_tag(), 0);
    a.connect();
    carry(&mut a, &mut b);
    assert_ne!(a.verification_tag(), 0);
    let state = (a.verification_tag(), b.verification_tag());
    let of = |it: &mut Socket| {
        let state = it.get_handover_state_and_close().unwrap();
        (state.my_verification_tag, state.peer_verification_tag)
    };
    assert_eq!(of(&mut a), state);
    assert_eq!(of(&mut b), (state.1, state.0));
    assert_eq!(a.verification_tag(), 0);
}

/// It doesn't depend on which events were taken.
#[test]
fn the_verification_tag_is_that_of_the_packets() {
    let tag = |packet: &[u8]| u32::from_be_bytes(packet[4..8].try_into().unwrap());
    let (mut a, mut b) = (socket(&Options::default()), socket(&Options::default()));
    for round in ["first", "restart"] {
        a.connect();
        let own = a.verification_tag();
        let mut seen = Vec::new();
        for init in packets(&mut a, &mut seen) {
            b.handle_input(&init);
        }
        let init_ack = &packets(&mut b, &mut seen)[0];
        assert_eq!((own, a.state()), (tag(init_ack), SocketState::Connecting), "{round}");
        a.handle_input(init_ack);
        let cookie_echo = &packets(&mut a, &mut seen)[0];
        b.handle_input(cookie_echo);
        assert_eq!(b.verification_tag(), tag(cookie_echo), "{round}");
        carry(&mut a, &mut b);
        assert_eq!(a.verification_tag(), own, "{round}");
        a.close();
        while a.poll_event().is_some() {}
    }
}

#[test]
fn each_socket_has_its_own_random_numbers() {
    let tags = [(); 4].map(|()| {
        let mut it = socket(&Options::default());
        it.connect();
        it.verification_tag()
    });
    for at in 1..tags.len() {
        assert!(!tags[..at].contains(&tags[at]), "{tags:?}");
    }
}

#[test]
fn a_cookie_is_never_too_old_unless_rules_are_kept() {
    let (mut a, mut b) = (socket(&Options::default()), socket(&Options::default()));
    a.connect();
    packets(&mut a, &mut Vec::new()).iter().for_each(|it| b.handle_input(it));
    packets(&mut b, &mut Vec::new()).iter().for_each(|it| a.handle_input(it));
    b.advance_time(at(3_600_000));
    packets(&mut a, &mut Vec::new()).iter().for_each(|it| b.handle_input(it));
    let expected =
        if cfg!(feature = "follow_rfc") { SocketState::Closed } else { SocketState::Connected };
    assert_eq!(b.state(), expected);
}

#[test]
fn defaults_are_those_of_0_1_16() {
    let it = Options::default();
    assert_eq!((it.max_retransmissions, it.max_init_retransmits), (Some(10), Some(8)));
    assert_eq!((it.max_timer_backoff_duration, it.max_burst), (None, 4));
    assert_eq!((it.rto_initial, it.rto_min, it.rto_max), (MS * 500, MS * 400, MS * 60_000));
    assert_eq!((it.mtu, it.max_message_size), (1191, 256 * 1024));
    assert_eq!(it.max_receiver_window_buffer_size, 5 * 1024 * 1024);
    assert_eq!((it.cwnd_mtus_initial, it.cwnd_mtus_min), (10, 4));
}

#[test]
fn sockets_are_trait_objects_and_errors_have_texts() {
    let it: Box<dyn DcSctpSocket> = Box::new(socket(&Options::default()));
    drop(it);
    let error: Box<dyn std::error::Error> =
        Box::new(SendError::MessageTooLarge { len: 9, limit: 8 });
    assert_eq!(error.to_string(), "message size (9) exceeds configured max_message_size (8)");
}

#[test]
fn untaken_messages_end_with_their_association_unless_rules_are_kept() {
    let (mut a, mut b) = pair();
    a.send(message(1, 10), &plain()).unwrap();
    a.close();
    carry(&mut a, &mut b);
    assert_eq!(b.messages_ready_count(), usize::from(cfg!(feature = "follow_rfc")));
}

#[test]
fn a_socket_has_any_options() {
    for mtu in [0, 32, 64, 1191, 65_535, 100_000] {
        assert_eq!(socket(&Options { mtu, ..Default::default() }).options().mtu, mtu);
    }
    socket(&Options { max_receiver_window_buffer_size: usize::MAX, ..Default::default() });
    socket(&Options { max_burst: 0, rto_initial: Duration::ZERO, ..Default::default() });
    let never = Options {
        rto_max: Duration::MAX,
        t1_init_timeout: Duration::MAX,
        heartbeat_interval: Duration::MAX,
        ..Default::default()
    };
    socket(&never).connect();
}

#[test]
fn a_socket_with_other_options_continues() {
    let options = Options { enable_message_interleaving: true, ..Default::default() };
    let (mut a, mut b) = pair_with(&options);
    let state = a.get_handover_state_and_close().unwrap();
    let mut c = socket(&Options { mtu: 1000, ..Default::default() });
    c.restore_from_state(&state).unwrap();
    assert!(c.get_metrics().unwrap().uses_message_interleaving);
    c.send(message(1, 5000), &plain()).unwrap();
    carry(&mut c, &mut b);
    assert_eq!(b.get_next_message().unwrap().payload.len(), 5000);
}

#[test]
fn a_socket_without_a_method_continues_with_checksums() {
    let options = Options {
        zero_checksum_alternate_error_detection_method:
            ZERO_CHECKSUM_ALTERNATE_ERROR_DETECTION_METHOD_LOWER_LAYER_DTLS,
        ..Default::default()
    };
    let (mut a, _b) = pair_with(&options);
    let state = a.get_handover_state_and_close().unwrap();
    let mut c = socket(&Options::default());
    c.restore_from_state(&state).unwrap();
    assert!(!c.get_metrics().unwrap().uses_zero_checksum);
}

#[test]
fn a_reset_request_is_sent_again_after_doubled_waits() {
    let (mut a, _b) = pair();
    a.reset_streams(&[StreamId(1)]).unwrap();
    let mut due = Vec::new();
    for _ in 0..4 {
        due.push((a.poll_timeout() - SocketTime::zero()).as_millis());
        a.advance_time(a.poll_timeout());
    }
    assert_eq!(due, [500, 1500, 3500, 7500]);
}
