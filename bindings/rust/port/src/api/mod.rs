//! The types and the trait that programs name.

mod errors;
mod event;
pub mod handover;
mod options;
mod values;

pub use crate::socket::Socket;
pub use errors::{BatchSendError, HandoverError, ResetStreamsError, RestoreError, SendError};
pub use event::{ErrorKind, SocketEvent};
pub use handover::HandoverReadiness;
pub use options::{
    Options, ZeroChecksumAlternateErrorDetectionMethod,
    ZERO_CHECKSUM_ALTERNATE_ERROR_DETECTION_METHOD_LOWER_LAYER_DTLS,
    ZERO_CHECKSUM_ALTERNATE_ERROR_DETECTION_METHOD_NONE,
};
pub use values::{
    LifecycleId, Message, Metrics, PpId, SctpImplementation, SendOptions, SocketState, SocketTime,
    StreamId,
};

use handover::SocketHandoverState;

/// What a socket can do. The crate's page shows the order of calls.
pub trait DcSctpSocket {
    /// Takes the oldest event.
    fn poll_event(&mut self) -> Option<SocketEvent>;

    /// Takes the first message that is ready. Take all of them before the next packet.
    fn get_next_message(&mut self) -> Option<Message>;

    /// Handles a packet from the peer, of any bytes.
    fn handle_input(&mut self, packet: &[u8]);

    /// Sets the time, and handles expired timers. A moment before the last one does nothing.
    fn advance_time(&mut self, now: SocketTime);

    /// When to call `advance_time` next. Every other call may change it.
    fn poll_timeout(&self) -> SocketTime;

    /// Begins an association: `OnConnected` follows, or `OnAborted`. If the socket isn't closed, it does nothing.
    fn connect(&mut self);

    /// Continues from a snapshot of another socket: `OnConnected` follows if that one was connected.
    fn restore_from_state(&mut self, state: &SocketHandoverState) -> Result<(), RestoreError>;

    /// Ends the association in an orderly way: `OnClosed` follows, or `OnAborted`.
    fn shutdown(&mut self);

    /// Ends the association at once, by an ABORT. The last event is `OnClosed`.
    fn close(&mut self);

    /// The state.
    fn state(&self) -> SocketState;

    /// How many messages are ready.
    fn messages_ready_count(&self) -> usize;

    /// The options. `max_message_size` is as it was set last.
    fn options(&self) -> Options;

    /// Sets `max_message_size`, for messages sent from now on.
    fn set_max_message_size(&mut self, max_message_size: usize);

    /// Sets the priority of a stream: the one with the greatest is sent first.
    fn set_stream_priority(&mut self, stream_id: StreamId, priority: u16);

    /// That priority.
    fn get_stream_priority(&self, stream_id: StreamId) -> u16;

    /// Sends a message. It is queued behind other messages of its stream, also before an association exists.
    fn send(&mut self, message: Message, send_options: &SendOptions) -> Result<(), SendError>;

    /// Sends several messages, each as `send` does. They share packets. If one fails, later ones are sent all the same.
    fn send_many(
        &mut self,
        messages: Vec<Message>,
        send_options: &SendOptions,
    ) -> Result<(), BatchSendError>;

    /// Resets outgoing streams, and drops what is queued on them. `OnStreamsResetPerformed` or `OnStreamsResetFailed`
    /// follows; the peer gets `OnIncomingStreamReset`.
    fn reset_streams(&mut self, outgoing_streams: &[StreamId]) -> Result<(), ResetStreamsError>;

    /// How many bytes are queued on a stream.
    fn buffered_amount(&self, stream_id: StreamId) -> usize;

    /// The low threshold of a stream.
    fn buffered_amount_low_threshold(&self, stream_id: StreamId) -> usize;

    /// Sets that threshold: `OnBufferedAmountLow` comes when the queued bytes fall to it.
    fn set_buffered_amount_low_threshold(&mut self, stream_id: StreamId, bytes: usize);

    /// The metrics. `None` without a peer.
    fn get_metrics(&self) -> Option<Metrics>;

    /// Whether a snapshot can be taken now, and if not, why.
    fn get_handover_readiness(&self) -> HandoverReadiness;

    /// Takes a snapshot, from which another socket continues, and closes this one. The peer isn't informed. The last event
    /// is `OnClosed` if the socket was connected.
    fn get_handover_state_and_close(&mut self) -> Result<SocketHandoverState, HandoverError>;
}
