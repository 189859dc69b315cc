//! A safe socket: it owns its memory, and borrows keep the rules of `dcsctp.h`.

use crate::options::{moment, nanoseconds};
use crate::{
    version, Counts, Error, ErrorKind, Event, HandoverReadiness, Message, Metrics, Options,
    OutgoingMessage, SendOptions, State,
};
use dcsctp_sys as sys;
use std::time::Duration;
use std::{ptr, slice};

/// A socket. The crate's page shows the order of calls.
///
/// It may be moved to another thread, but can't be shared between threads or copied:
///
/// ```compile_fail,E0277
/// fn shared<T: Sync>() {}
/// shared::<dcsctp_socket::Socket>();
/// ```
///
/// ```compile_fail,E0277
/// fn copied<T: Clone>() {}
/// copied::<dcsctp_socket::Socket>();
/// ```
///
/// ```
/// fn moved<T: Send>() {}
/// moved::<dcsctp_socket::Socket>();
/// ```
// It has no `Sync`: a query is a call, too, and there is one call at a time.
#[derive(Debug)]
pub struct Socket(pub(crate) sys::dcsctp_socket);

// SAFETY: the library has no state outside of its sockets, and none is tied to a thread.
unsafe impl Send for Socket {}

impl Drop for Socket {
    fn drop(&mut self) {
        // SAFETY: it is the only copy of the two words.
        unsafe { sys::dcsctp_destroy(&mut self.0) }
    }
}

// SAFETY of all calls below: the field is the only copy of the two words, which a call of the library made, and there
// is one call at a time. A query takes a shared reference, and writes nothing of the socket. The other pointers come
// from references, slices and vectors, with their own lengths.
impl Socket {
    /// Creates a closed socket, whose clock is at `now`. The seed is secret and never used twice: `random_seed`
    /// makes one. A moment is the time since any other moment, which is the same for all calls on the socket.
    ///
    /// Errors: `InvalidOptions`, also if the seed is all zeros, `OutOfMemory`, `WrongVersion`, `WrongSize`.
    pub fn new(options: &Options, seed: &[u8; 32], now: Duration) -> Result<Socket, Error> {
        if !version::is_ours() {
            return Err(Error::WrongVersion);
        }
        let mut socket = Socket(sys::DCSCTP_SOCKET_INIT);
        let options = options.to_sys();
        Error::check(unsafe {
            sys::dcsctp_create(&mut socket.0, &options, seed.as_ptr(), nanoseconds(now))
        })?;
        Ok(socket)
    }

    // ---- Commands ---------------------------------------------------------------------------

    /// Begins an association: `Event::Connected` follows, or `Event::Aborted`. If the socket isn't closed, it does
    /// nothing. Errors: `Failed`, `OutOfMemory`.
    pub fn connect(&mut self) -> Result<(), Error> {
        Error::check(unsafe { sys::dcsctp_connect(&mut self.0) })
    }

    /// Wait for `Event::Connected` before this call: until the peer has answered the first INIT it sends nothing, and
    /// what is queued goes out in the next association.
    ///
    /// It ends the association in an orderly way: `Event::Closed` follows, or `Event::Aborted`. From now on `send`
    /// fails. On a closed socket it does nothing. Errors: `Failed`, `OutOfMemory`.
    pub fn shutdown(&mut self) -> Result<(), Error> {
        Error::check(unsafe { sys::dcsctp_shutdown(&mut self.0) })
    }

    /// Ends the association at once, by an ABORT: the last event is `Event::Closed`. Data in flight is lost; what is
    /// queued goes out in the next association. Messages that are ready can still be taken; without `follow_rfc` they are
    /// lost. On a closed socket it does nothing. Errors: `Failed`, `OutOfMemory`.
    pub fn close(&mut self) -> Result<(), Error> {
        Error::check(unsafe { sys::dcsctp_close(&mut self.0) })
    }

    // ---- Packets and time -------------------------------------------------------------------

    /// Handles a packet from the peer, of any bytes. One that can't be read adds an `Event::Error`.
    /// Errors: `Failed`, `OutOfMemory`.
    pub fn handle_input(&mut self, packet: &[u8]) -> Result<(), Error> {
        let (at, length) = (packet.as_ptr(), packet.len());
        Error::check(unsafe { sys::dcsctp_handle_input(&mut self.0, at, length) })
    }

    /// Sets the time, and handles expired timers. A moment before the last one does nothing.
    /// Errors: `Failed`, `OutOfMemory`.
    pub fn advance_time(&mut self, now: Duration) -> Result<(), Error> {
        Error::check(unsafe { sys::dcsctp_advance_time(&mut self.0, nanoseconds(now)) })
    }

    /// The next deadline, by which you must call `advance_time`; `None` if there is none.
    pub fn poll_timeout(&self) -> Option<Duration> {
        let mut deadline = sys::DCSCTP_NEVER;
        unsafe { sys::dcsctp_poll_timeout(&self.0, &mut deadline) };
        moment(deadline)
    }

    // ---- Events and messages ----------------------------------------------------------------

    /// Takes all events, one at a time. Those that aren't taken stay for the next call.
    pub fn events(&mut self) -> impl Iterator<Item = Event> + '_ {
        std::iter::from_fn(|| self.poll_event())
    }

    /// Takes the oldest event; `None` if there is none.
    pub fn poll_event(&mut self) -> Option<Event> {
        let mut event = sys::dcsctp_event::default();
        if unsafe { sys::dcsctp_poll_event(&mut self.0, &mut event) } != 1 {
            return None;
        }
        let (length, kind, id) = (event.length, event.error_kind, event.lifecycle_id);
        Some(match event.kind {
            sys::DCSCTP_EVENT_SEND_PACKET => Event::SendPacket(self.packet()),
            sys::DCSCTP_EVENT_CONNECTED => Event::Connected,
            sys::DCSCTP_EVENT_CLOSED => Event::Closed,
            sys::DCSCTP_EVENT_CONNECTION_RESTARTED => Event::ConnectionRestarted,
            sys::DCSCTP_EVENT_ABORTED => {
                Event::Aborted { kind: ErrorKind::of(kind), text: self.event_text(length) }
            }
            sys::DCSCTP_EVENT_ERROR => {
                Event::Error { kind: ErrorKind::of(kind), text: self.event_text(length) }
            }
            sys::DCSCTP_EVENT_BUFFERED_AMOUNT_LOW => {
                Event::BufferedAmountLow(event.stream_id as u16)
            }
            sys::DCSCTP_EVENT_TOTAL_BUFFERED_AMOUNT_LOW => Event::TotalBufferedAmountLow,
            sys::DCSCTP_EVENT_STREAMS_RESET_FAILED => {
                Event::StreamsResetFailed(self.event_streams(length))
            }
            sys::DCSCTP_EVENT_STREAMS_RESET_PERFORMED => {
                Event::StreamsResetPerformed(self.event_streams(length))
            }
            sys::DCSCTP_EVENT_INCOMING_STREAM_RESET => {
                Event::IncomingStreamReset(self.event_streams(length))
            }
            sys::DCSCTP_EVENT_LIFECYCLE_FULLY_SENT => Event::LifecycleFullySent(id),
            sys::DCSCTP_EVENT_LIFECYCLE_MAYBE_EXPIRED => Event::LifecycleMaybeExpired(id),
            sys::DCSCTP_EVENT_LIFECYCLE_EXPIRED => Event::LifecycleExpired(id),
            sys::DCSCTP_EVENT_LIFECYCLE_DELIVERED => Event::LifecycleDelivered(id),
            sys::DCSCTP_EVENT_LIFECYCLE_END => Event::LifecycleEnd(id),
            other => Event::Unknown(other),
        })
    }

    fn packet(&self) -> Vec<u8> {
        shown(|at, length| unsafe { sys::dcsctp_event_view(&self.0, at, length) })
    }

    fn event_text(&self, length: usize) -> String {
        let bytes = copied(length, |at, capacity, length| unsafe {
            sys::dcsctp_event_bytes(&self.0, at, capacity, length)
        });
        String::from_utf8_lossy(&bytes).into_owned()
    }

    fn event_streams(&self, count: usize) -> Vec<u16> {
        copied(count, |at, capacity, count| unsafe {
            sys::dcsctp_event_streams(&self.0, at, capacity, count)
        })
    }

    /// How many messages are ready to be taken.
    pub fn messages_ready_count(&self) -> usize {
        let mut count = 0;
        unsafe { sys::dcsctp_messages_ready_count(&self.0, &mut count) };
        count
    }

    /// Takes all messages that are ready, one at a time. Those that aren't taken stay for the next call.
    pub fn messages(&mut self) -> impl Iterator<Item = Message> + '_ {
        std::iter::from_fn(|| self.get_next_message())
    }

    /// Takes the first message that is ready; `None` if there is none. It may be of an association that has ended.
    /// Messages that are left when the next one begins are lost; without `follow_rfc` when their own ends.
    pub fn get_next_message(&mut self) -> Option<Message> {
        let mut message = sys::dcsctp_message::default();
        if unsafe { sys::dcsctp_get_next_message(&mut self.0, &mut message) } != 1 {
            return None;
        }
        let payload = shown(|at, length| unsafe { sys::dcsctp_message_view(&self.0, at, length) });
        Some(Message { stream_id: message.stream_id, ppid: message.ppid, payload })
    }

    /// Sends a message, whose bytes are copied. It is queued behind other messages of its stream, also before an
    /// association exists. If it fails, an `Event::Error` follows, too. After `OutOfMemory` the call may be tried again
    /// if `has_failed` is `false`.
    ///
    /// Errors: `EmptyPayload`, `MessageTooLarge`, `ShuttingDown`, `ResourceExhaustion`, `Failed`, `OutOfMemory`.
    pub fn send(
        &mut self,
        stream_id: u16,
        ppid: u32,
        payload: &[u8],
        options: &SendOptions,
    ) -> Result<(), Error> {
        let (at, length, options) = (payload.as_ptr(), payload.len(), options.to_sys());
        Error::check(unsafe {
            sys::dcsctp_send(&mut self.0, stream_id, ppid, at, length, &options)
        })
    }

    /// Sends several messages, each as `send` does, with the same options. Packets are made once, after the last.
    /// `Ok` has a result for each message. If one fails, later ones are sent all the same.
    ///
    /// Errors: `Failed`, `OutOfMemory`. After `OutOfMemory` the call may be tried again if `has_failed` is `false`;
    /// else some of the messages may have been sent.
    pub fn send_many(
        &mut self,
        messages: &[OutgoingMessage<'_>],
        options: &SendOptions,
    ) -> Result<Vec<Result<(), Error>>, Error> {
        const UNWRITTEN: i32 = i32::MAX;
        let outgoing: Vec<_> = messages
            .iter()
            .map(|it| sys::dcsctp_outgoing_message {
                payload: it.payload.as_ptr(),
                length: it.payload.len(),
                ppid: it.ppid,
                stream_id: it.stream_id,
                reserved: 0,
            })
            .collect();
        let (count, options) = (outgoing.len(), options.to_sys());
        let mut results = vec![UNWRITTEN; count];
        let (from, to) = (outgoing.as_ptr(), results.as_mut_ptr());
        let result =
            unsafe { sys::dcsctp_send_many(&mut self.0, from, count, &options, to, count) };
        // (the error of a message is written to its result; other errors write none)
        if results.contains(&UNWRITTEN) || results.is_empty() {
            Error::check(result)?;
        }
        Ok(results.into_iter().map(Error::check).collect())
    }

    // ---- Streams ----------------------------------------------------------------------------

    /// Resets outgoing streams, which closes data channels. First wait until `buffered_amount` of each stream and
    /// `unack_data_count` of `metrics` are 0: queued messages are dropped. `Event::StreamsReset..` follows; the peer
    /// gets `Event::IncomingStreamReset`.
    ///
    /// Errors: `NotConnected`, `NotSupported`, `Failed`, `OutOfMemory`.
    pub fn reset_streams(&mut self, stream_ids: &[u16]) -> Result<(), Error> {
        let (at, count) = (stream_ids.as_ptr(), stream_ids.len());
        Error::check(unsafe { sys::dcsctp_reset_streams(&mut self.0, at, count) })
    }

    /// How many bytes are queued on a stream.
    pub fn buffered_amount(&self, stream_id: u16) -> usize {
        let mut bytes = 0;
        unsafe { sys::dcsctp_buffered_amount(&self.0, stream_id, &mut bytes) };
        bytes
    }

    /// The low threshold of a stream: `Event::BufferedAmountLow` comes when its queued bytes fall to it.
    pub fn buffered_amount_low_threshold(&self, stream_id: u16) -> usize {
        let mut bytes = 0;
        unsafe { sys::dcsctp_buffered_amount_low_threshold(&self.0, stream_id, &mut bytes) };
        bytes
    }

    /// Sets that threshold, also for later associations. Errors: `Failed`, `OutOfMemory`.
    pub fn set_buffered_amount_low_threshold(
        &mut self,
        stream_id: u16,
        bytes: usize,
    ) -> Result<(), Error> {
        Error::check(unsafe {
            sys::dcsctp_set_buffered_amount_low_threshold(&mut self.0, stream_id, bytes)
        })
    }

    /// The priority of a stream: the one with the greatest is sent first.
    pub fn stream_priority(&self, stream_id: u16) -> u16 {
        let mut priority = 0;
        unsafe { sys::dcsctp_get_stream_priority(&self.0, stream_id, &mut priority) };
        priority
    }

    /// Sets that priority, also for later associations. Errors: `Failed`, `OutOfMemory`.
    pub fn set_stream_priority(&mut self, stream_id: u16, priority: u16) -> Result<(), Error> {
        Error::check(unsafe { sys::dcsctp_set_stream_priority(&mut self.0, stream_id, priority) })
    }

    // ---- Queries ----------------------------------------------------------------------------

    /// The state.
    pub fn state(&self) -> State {
        State::of(unsafe { sys::dcsctp_state(&self.0) })
    }

    /// Whether an allocation has failed, so that the socket can't be used any more.
    pub fn has_failed(&self) -> bool {
        unsafe { sys::dcsctp_has_failed(&self.0) == 1 }
    }

    /// Our verification tag, which the peer's packets carry; 0 if the socket is closed.
    pub fn verification_tag(&self) -> u32 {
        let mut tag = 0;
        unsafe { sys::dcsctp_verification_tag(&self.0, &mut tag) };
        tag
    }

    /// Sets `max_message_size`, for messages sent from now on.
    pub fn set_max_message_size(&mut self, bytes: usize) {
        unsafe { sys::dcsctp_set_max_message_size(&mut self.0, bytes) };
    }

    /// The options. `max_message_size` is as it was set last.
    pub fn options(&self) -> Options {
        let size = size_of::<sys::dcsctp_options>();
        let mut options = sys::dcsctp_options { size, ..Default::default() };
        unsafe { sys::dcsctp_get_options(&self.0, &mut options) };
        Options::from_sys(&options)
    }

    /// The metrics; `None` where the peer isn't known.
    pub fn metrics(&self) -> Option<Metrics> {
        let size = size_of::<sys::dcsctp_metrics>();
        let mut metrics = sys::dcsctp_metrics { size, ..Default::default() };
        let result = unsafe { sys::dcsctp_get_metrics(&self.0, &mut metrics) };
        (result == 1).then(|| Metrics::from_sys(&metrics))
    }

    /// What the socket has counted, whatever the state: an association that has ended doesn't matter.
    pub fn counts(&self) -> Counts {
        let size = size_of::<sys::dcsctp_counts>();
        let mut counts = sys::dcsctp_counts { size, ..Default::default() };
        unsafe { sys::dcsctp_get_counts(&self.0, &mut counts) };
        Counts::from_sys(&counts)
    }

    // ---- Handover to another process --------------------------------------------------------

    /// Why the socket can't be handed over now.
    pub fn handover_readiness(&self) -> HandoverReadiness {
        let mut reasons = 0;
        unsafe { sys::dcsctp_get_handover_readiness(&self.0, &mut reasons) };
        HandoverReadiness(reasons)
    }

    /// Takes a snapshot, from which `restore_from_state` continues in another process, and ends the association here.
    /// The peer isn't informed, and the last event is `Event::Closed`. Take all messages first. The snapshot is as
    /// secret as the messages, is used once, and by the same version of the library.
    ///
    /// Errors: `NotReady`, `Failed`, `OutOfMemory`. If `handover_bytes` returns the last one, it may be tried again.
    pub fn get_handover_state_and_close(&mut self) -> Result<Vec<u8>, Error> {
        Error::check(unsafe { sys::dcsctp_get_handover_state_and_close(&mut self.0) })?;
        self.handover_bytes()
    }

    /// The snapshot that was taken last. Errors: `NothingToCopy`, `OutOfMemory`.
    pub fn handover_bytes(&self) -> Result<Vec<u8>, Error> {
        let mut length = 0;
        let nowhere = &mut [];
        let result =
            unsafe { sys::dcsctp_handover_bytes(&self.0, nowhere.as_mut_ptr(), 0, &mut length) };
        if result != sys::DCSCTP_ERROR_BUFFER_TOO_SMALL {
            Error::check(result)?;
        }
        let mut result = sys::DCSCTP_OK;
        let bytes = copied(length, |at, capacity, length| {
            result = unsafe { sys::dcsctp_handover_bytes(&self.0, at, capacity, length) };
            result
        });
        Error::check(result)?;
        Ok(bytes)
    }

    /// Continues from a snapshot that another socket with these options gave: `Event::Connected` follows. The socket's
    /// clock must be past 60 s, since it counts times before the snapshot back from its own. Restore only what you
    /// trust. `OtherOptions`: they differ in a port, an announced number of streams, `enable_partial_reliability`,
    /// `enable_message_interleaving` or `zero_checksum_method`.
    ///
    /// Errors: `NotClosed`, `InvalidSnapshot`, `OtherOptions`, `Failed`, `OutOfMemory`.
    pub fn restore_from_state(&mut self, bytes: &[u8]) -> Result<(), Error> {
        let (at, length) = (bytes.as_ptr(), bytes.len());
        Error::check(unsafe { sys::dcsctp_restore_from_state(&mut self.0, at, length) })
    }
}

/// A copy of the bytes that a call of the library shows.
pub(crate) fn shown(show: impl FnOnce(*mut *const u8, *mut usize) -> i32) -> Vec<u8> {
    let (mut at, mut length) = (ptr::null(), 0);
    if show(&mut at, &mut length) != sys::DCSCTP_OK || length == 0 {
        return Vec::new();
    }
    // SAFETY: a call that returns DCSCTP_OK has written where so many bytes are, and no call has followed.
    unsafe { slice::from_raw_parts(at, length) }.to_vec()
}

/// A list of this length, which a call of the library copies.
fn copied<T: Copy>(length: usize, copy: impl FnOnce(*mut T, usize, *mut usize) -> i32) -> Vec<T> {
    let mut list = Vec::with_capacity(length);
    let mut written = 0;
    if copy(list.as_mut_ptr(), list.capacity(), &mut written) == sys::DCSCTP_OK {
        // SAFETY: a call that returns DCSCTP_OK has written so many, at most the capacity.
        unsafe { list.set_len(written) };
    }
    list
}
