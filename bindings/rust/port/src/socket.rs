//! The socket: each call of the trait by one of `dcsctp-socket`.

use crate::api::handover::{HandoverSocketState, SocketHandoverState};
use crate::api::*;
use crate::convert::{self, out_of_memory};
use crate::snapshot;
use dcsctp_socket as inner;
use dcsctp_socket::Error;
use std::time::Duration;

/// A socket. The crate's page shows the order of calls.
pub struct Socket {
    inner: inner::Socket,
    options: Options,
}

impl Socket {
    /// Creates a closed socket at the moment zero. The name has no effect.
    ///
    /// It panics if `/dev/urandom` can't be read, or if the library has another version.
    pub fn new(_name: &str, options: &Options) -> Self {
        let seed = inner::random_seed().expect("dcsctp: random numbers of /dev/urandom");
        match inner::Socket::new(&convert::options(options), &seed, Duration::ZERO) {
            Ok(inner) => Socket { inner, options: options.clone() },
            Err(Error::OutOfMemory) => out_of_memory(),
            Err(error) => panic!("dcsctp: {error}"),
        }
    }

    /// The verification tag of the packets that the peer sends; 0 if the socket is closed.
    pub fn verification_tag(&self) -> u32 {
        self.inner.verification_tag()
    }
}

/// A call to which upstream gives no result. All that can go wrong is memory.
fn done(result: Result<(), Error>) {
    match result {
        Ok(()) => {}
        Err(Error::OutOfMemory | Error::Failed) => out_of_memory(),
        Err(error) => unreachable!("dcsctp: {error}"),
    }
}

impl DcSctpSocket for Socket {
    fn poll_event(&mut self) -> Option<SocketEvent> {
        self.inner.events().find_map(convert::event)
    }

    fn get_next_message(&mut self) -> Option<Message> {
        let it = self.inner.get_next_message()?;
        Some(Message::new(StreamId(it.stream_id), PpId(it.ppid), it.payload))
    }

    fn handle_input(&mut self, packet: &[u8]) {
        done(self.inner.handle_input(packet))
    }

    fn advance_time(&mut self, now: SocketTime) {
        done(self.inner.advance_time(now - SocketTime::zero()))
    }

    fn poll_timeout(&self) -> SocketTime {
        let never = SocketTime::infinite_future();
        self.inner.poll_timeout().map_or(never, |it| SocketTime::zero() + it)
    }

    fn connect(&mut self) {
        done(self.inner.connect())
    }

    fn restore_from_state(&mut self, state: &SocketHandoverState) -> Result<(), RestoreError> {
        if self.inner.state() != inner::State::Closed {
            return Err(RestoreError::SocketNotClosed);
        }
        if matches!(state.socket_state, HandoverSocketState::Closed) {
            return Ok(());
        }
        match self.inner.restore_from_state(&snapshot::to_bytes(state, &self.options)) {
            Ok(()) => Ok(()),
            Err(Error::OutOfMemory | Error::Failed) => out_of_memory(),
            Err(error) => panic!("dcsctp: {error}"),
        }
    }

    fn shutdown(&mut self) {
        done(self.inner.shutdown())
    }

    fn close(&mut self) {
        done(self.inner.close())
    }

    fn state(&self) -> SocketState {
        convert::state(self.inner.state())
    }

    fn messages_ready_count(&self) -> usize {
        self.inner.messages_ready_count()
    }

    fn options(&self) -> Options {
        self.options.clone()
    }

    fn set_max_message_size(&mut self, max_message_size: usize) {
        self.options.max_message_size = max_message_size;
        self.inner.set_max_message_size(max_message_size)
    }

    fn set_stream_priority(&mut self, stream_id: StreamId, priority: u16) {
        done(self.inner.set_stream_priority(stream_id.0, priority))
    }

    fn get_stream_priority(&self, stream_id: StreamId) -> u16 {
        self.inner.stream_priority(stream_id.0)
    }

    fn send(&mut self, message: Message, send_options: &SendOptions) -> Result<(), SendError> {
        let (stream, ppid, payload) = (message.stream_id.0, message.ppid.0, &message.payload);
        let result = self.inner.send(stream, ppid, payload, &convert::send_options(send_options));
        let limit = self.options.max_message_size;
        result.map_err(|error| convert::send_error(error, payload.len(), limit))
    }

    fn send_many(
        &mut self,
        messages: Vec<Message>,
        send_options: &SendOptions,
    ) -> Result<(), BatchSendError> {
        let outgoing: Vec<_> = messages.iter().map(outgoing).collect();
        let Ok(results) = self.inner.send_many(&outgoing, &convert::send_options(send_options))
        else {
            out_of_memory()
        };
        let limit = self.options.max_message_size;
        let rejected = results.into_iter().zip(&messages).enumerate().filter_map(|(at, it)| {
            let (result, message) = it;
            Some((at, convert::send_error(result.err()?, message.payload.len(), limit)))
        });
        let rejected: Vec<_> = rejected.collect();
        if rejected.is_empty() {
            Ok(())
        } else {
            Err(BatchSendError(rejected))
        }
    }

    fn reset_streams(&mut self, outgoing_streams: &[StreamId]) -> Result<(), ResetStreamsError> {
        let ids: Vec<_> = outgoing_streams.iter().map(|it| it.0).collect();
        match self.inner.reset_streams(&ids) {
            Err(Error::NotConnected) => Err(ResetStreamsError::NotConnected),
            Err(Error::NotSupported) => Err(ResetStreamsError::NotSupported),
            result => {
                done(result);
                Ok(())
            }
        }
    }

    fn buffered_amount(&self, stream_id: StreamId) -> usize {
        self.inner.buffered_amount(stream_id.0)
    }

    fn buffered_amount_low_threshold(&self, stream_id: StreamId) -> usize {
        self.inner.buffered_amount_low_threshold(stream_id.0)
    }

    fn set_buffered_amount_low_threshold(&mut self, stream_id: StreamId, bytes: usize) {
        done(self.inner.set_buffered_amount_low_threshold(stream_id.0, bytes))
    }

    fn get_metrics(&self) -> Option<Metrics> {
        self.inner.metrics().map(convert::metrics)
    }

    fn get_handover_readiness(&self) -> HandoverReadiness {
        HandoverReadiness(self.inner.handover_readiness().0)
    }

    fn get_handover_state_and_close(&mut self) -> Result<SocketHandoverState, HandoverError> {
        match self.inner.get_handover_state_and_close() {
            Ok(bytes) => Ok(snapshot::from_bytes(&bytes)),
            Err(Error::NotReady) => Err(HandoverError::NotReady(self.get_handover_readiness())),
            Err(_) => out_of_memory(),
        }
    }
}

fn outgoing(message: &Message) -> inner::OutgoingMessage<'_> {
    let (stream_id, ppid) = (message.stream_id.0, message.ppid.0);
    inner::OutgoingMessage { stream_id, ppid, payload: &message.payload }
}
