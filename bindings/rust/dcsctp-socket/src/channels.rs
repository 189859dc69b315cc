//! Safe data channels over a socket of their own.

use crate::channel::if_there;
use crate::socket::shown;
use crate::{
    Channel, ChannelEnd, ChannelEvent, ChannelLimits, ChannelMetrics, ChannelOptions, ChannelState,
    Counts, Error, HandoverReadiness, Metrics, Options, Reliability, Socket, State,
};
use dcsctp_sys as sys;
use std::ffi::c_char;
use std::slice;
use std::time::Duration;

/// Data channels (RFC 8831, RFC 8832), and the socket below them, which serves one association: make others for the next
/// one. The loop is that of a `Socket`, without messages:
///
/// ```
/// use dcsctp_socket::{random_seed, ChannelEvent, ChannelLimits, ChannelOptions, Channels, Error, Options};
/// use std::time::Duration;
///
/// // Takes all events of an end. Its packets go to the other one; in a program, to the peer.
/// fn drain(from: &mut Channels, to: &mut Channels) -> Result<bool, Error> {
///     let mut has_packets = false;
///     while let Some(event) = from.poll_event()? {
///         match event {
///             ChannelEvent::SendPacket(packet) => {
///                 to.handle_input(&packet)?;
///                 has_packets = true;
///             }
///             ChannelEvent::Opened(channel) => from.send_text(channel, "hello")?,
///             ChannelEvent::Text(_, text) => assert_eq!(text, "hello"),
///             _ => {}
///         }
///     }
///     Ok(has_packets)
/// }
///
/// fn create(is_dtls_client: bool) -> Result<Channels, Box<dyn std::error::Error>> {
///     let (options, limits) = (Options::default(), ChannelLimits::default());
///     let mut channels = Channels::new(&options, &limits, &random_seed()?, Duration::ZERO)?;
///     channels.set_role(is_dtls_client)?;
///     Ok(channels)
/// }
///
/// fn main() -> Result<(), Box<dyn std::error::Error>> {
///     let (mut a, mut b) = (create(true)?, create(false)?);
///     let chat = a.open(&ChannelOptions::new("chat"))?;
///     a.connect()?;
///     while drain(&mut a, &mut b)? | drain(&mut b, &mut a)? {}
///     assert_eq!(a.metrics_of(chat).map(|it| it.messages_sent), Some(1));
///     Ok(())
/// }
/// ```
#[derive(Debug)]
pub struct Channels(Socket);

// SAFETY of all calls below: as of those of `Socket`, and a shown text or message is copied before the next call.
impl Channels {
    /// Creates a closed socket with channels, as `Socket::new` creates one. `InvalidOptions` also if the options have
    /// `checksum_offload`.
    pub fn new(
        options: &Options,
        limits: &ChannelLimits,
        seed: &[u8; 32],
        now: Duration,
    ) -> Result<Channels, Error> {
        let mut socket = Socket::new(options, seed, now)?;
        let limits = sys::dcsctp_channel_limits {
            size: size_of::<sys::dcsctp_channel_limits>(),
            max_message_size: limits.max_message_size,
            max_text: limits.max_text,
            max_channels: limits.max_channels,
        };
        Error::check(unsafe { sys::dcsctp_channel_begin(&mut socket.0, &limits) })?;
        Ok(Channels(socket))
    }

    /// Sets the role in DTLS: the client gives even streams, the server odd ones. Channels that were opened before get
    /// theirs now. Set it once, and before `connect` if you can: until then, what the peer opens is refused.
    /// Errors: `Failed`, `OutOfMemory`.
    pub fn set_role(&mut self, is_dtls_client: bool) -> Result<(), Error> {
        let role = i32::from(is_dtls_client);
        Error::check(unsafe { sys::dcsctp_channel_set_role(&mut self.0 .0, role) })
    }

    // ---- Channels ---------------------------------------------------------------------------

    /// Opens a channel. Messages can be sent once its state is `Open`: at once, unless the association, the role or room
    /// to send is missing. `ChannelEvent::Opened` says that the peer knows it.
    ///
    /// Errors: `MessageTooLarge` (a label or a protocol), `StreamInUse`, `Ended`, `Failed`, `OutOfMemory`. After the last
    /// the call may be tried again if `has_failed` is `false`.
    pub fn open(&mut self, options: &ChannelOptions) -> Result<Channel, Error> {
        let (options, mut number) = (options.to_sys(), 0);
        Error::check(unsafe { sys::dcsctp_channel_open(&mut self.0 .0, &options, &mut number) })?;
        Ok(Channel(number))
    }

    /// Sends a message of text, which may be empty. Its bytes are copied.
    ///
    /// Errors: `NoChannel` (it isn't open), `MessageTooLarge`, `ShuttingDown`, `ResourceExhaustion` (try again after
    /// `ChannelEvent::BufferedAmountLow`), `Failed`, `OutOfMemory`.
    pub fn send_text(&mut self, channel: Channel, text: &str) -> Result<(), Error> {
        self.send(channel, sys::DCSCTP_CHANNEL_TEXT, text.as_bytes())
    }

    /// Sends a message of bytes, as `send_text` does.
    pub fn send_binary(&mut self, channel: Channel, bytes: &[u8]) -> Result<(), Error> {
        self.send(channel, sys::DCSCTP_CHANNEL_BINARY, bytes)
    }

    fn send(&mut self, channel: Channel, kind: u32, bytes: &[u8]) -> Result<(), Error> {
        let (at, length) = (bytes.as_ptr(), bytes.len());
        Error::check(unsafe {
            sys::dcsctp_channel_send(&mut self.0 .0, channel.0, kind, at, length)
        })
    }

    /// Closes a channel. What was sent goes out first, and what comes on it from now on is dropped.
    /// `ChannelEvent::Closed` follows when both ends have reset the stream. Again it does nothing.
    /// Errors: `Failed`, `OutOfMemory`.
    pub fn close_channel(&mut self, channel: Channel) -> Result<(), Error> {
        Error::check(unsafe { sys::dcsctp_channel_close(&mut self.0 .0, channel.0) })
    }

    /// The state of a channel.
    pub fn state_of(&self, channel: Channel) -> ChannelState {
        ChannelState::of(unsafe { sys::dcsctp_channel_state(&self.0 .0, channel.0) })
    }

    /// The stream of a channel; `None` while it is connecting, or when it is closed.
    pub fn stream_of(&self, channel: Channel) -> Option<u16> {
        let mut stream = 0;
        let result = unsafe { sys::dcsctp_channel_stream(&self.0 .0, channel.0, &mut stream) };
        if_there(result, stream)
    }

    /// How many bytes are queued on a channel; 0 without a stream.
    pub fn buffered_amount(&self, channel: Channel) -> usize {
        let mut bytes = 0;
        unsafe { sys::dcsctp_channel_buffered_amount(&self.0 .0, channel.0, &mut bytes) };
        bytes
    }

    /// Sets the low threshold of a channel, which is 0 at first: `ChannelEvent::BufferedAmountLow` comes when its queued
    /// bytes fall from above it to it or below. Errors: `NoChannel` (it has no stream), `Failed`, `OutOfMemory`.
    pub fn set_buffered_amount_low_threshold(
        &mut self,
        channel: Channel,
        bytes: usize,
    ) -> Result<(), Error> {
        Error::check(unsafe {
            sys::dcsctp_channel_set_buffered_amount_low_threshold(&mut self.0 .0, channel.0, bytes)
        })
    }

    /// What was counted of a channel; `None` without a stream.
    pub fn metrics_of(&self, channel: Channel) -> Option<ChannelMetrics> {
        let size = size_of::<sys::dcsctp_channel_metrics>();
        let mut read = sys::dcsctp_channel_metrics { size, ..Default::default() };
        let result = unsafe { sys::dcsctp_channel_get_metrics(&self.0 .0, channel.0, &mut read) };
        let metrics = ChannelMetrics {
            messages_sent: read.messages_sent,
            bytes_sent: read.bytes_sent,
            messages_received: read.messages_received,
            bytes_received: read.bytes_received,
        };
        if_there(result, metrics)
    }

    /// How many streams are in use, those of closing and refused channels, too.
    pub fn streams_in_use(&self) -> usize {
        let mut count = 0;
        unsafe { sys::dcsctp_channel_count(&self.0 .0, &mut count) };
        count
    }

    // ---- Events -----------------------------------------------------------------------------

    /// Takes the oldest event; `None` if there is none. Take all before you wait, and before each packet.
    /// Errors: `Failed`, `OutOfMemory`.
    pub fn poll_event(&mut self) -> Result<Option<ChannelEvent>, Error> {
        let mut event = sys::dcsctp_channel_event::default();
        let result = unsafe { sys::dcsctp_channel_poll(&mut self.0 .0, &mut event) };
        Error::check(result)?;
        if result != 1 {
            return Ok(None);
        }
        let channel = Channel(event.channel);
        Ok(Some(match event.kind {
            sys::DCSCTP_CHANNEL_EVENT_SEND_PACKET => ChannelEvent::SendPacket(self.bytes()),
            sys::DCSCTP_CHANNEL_EVENT_CONNECTED => ChannelEvent::Connected,
            sys::DCSCTP_CHANNEL_EVENT_OPENED => ChannelEvent::Opened(channel),
            sys::DCSCTP_CHANNEL_EVENT_INCOMING => ChannelEvent::Incoming(channel, self.incoming()),
            sys::DCSCTP_CHANNEL_EVENT_MESSAGE if event.detail == sys::DCSCTP_CHANNEL_TEXT => {
                ChannelEvent::Text(channel, text(self.bytes()))
            }
            sys::DCSCTP_CHANNEL_EVENT_MESSAGE => ChannelEvent::Binary(channel, self.bytes()),
            sys::DCSCTP_CHANNEL_EVENT_BUFFERED_AMOUNT_LOW => {
                ChannelEvent::BufferedAmountLow(channel)
            }
            sys::DCSCTP_CHANNEL_EVENT_CLOSED => {
                ChannelEvent::Closed(channel, ChannelEnd::of(event.detail))
            }
            sys::DCSCTP_CHANNEL_EVENT_ENDED => ChannelEvent::Ended,
            other => ChannelEvent::Unknown(other),
        }))
    }

    /// A copy of the bytes of the last taken event.
    fn bytes(&self) -> Vec<u8> {
        shown(|at, length| unsafe { sys::dcsctp_channel_view(&self.0 .0, at, length) })
    }

    /// What the peer has opened the channel of the last taken event with.
    fn incoming(&self) -> ChannelOptions {
        let mut read = sys::DCSCTP_CHANNEL_OPTIONS_INIT;
        unsafe { sys::dcsctp_channel_get_options(&self.0 .0, &mut read) };
        let milliseconds = Duration::from_millis(u64::from(read.limit));
        ChannelOptions {
            label: text(unsafe { copied_text(read.label, read.label_length) }),
            protocol: text(unsafe { copied_text(read.protocol, read.protocol_length) }),
            ordered: read.is_unordered == 0,
            reliability: match read.reliability {
                sys::DCSCTP_CHANNEL_RETRANSMISSIONS => Reliability::Retransmissions(read.limit),
                sys::DCSCTP_CHANNEL_LIFETIME => Reliability::Lifetime(milliseconds),
                _ => Reliability::Reliable,
            },
            priority: read.priority,
            negotiated: None,
        }
    }

    // ---- Handover to another process --------------------------------------------------------

    /// Why the socket and its channels can't be handed over now.
    pub fn handover_readiness(&self) -> HandoverReadiness {
        self.0.handover_readiness()
    }

    /// As `Socket::get_handover_state_and_close`, with all channels: take all events before. The last event is
    /// `ChannelEvent::Ended`, and no channel gets `ChannelEvent::Closed`.
    pub fn get_handover_state_and_close(&mut self) -> Result<Vec<u8>, Error> {
        self.0.get_handover_state_and_close()
    }

    /// As `Socket::handover_bytes`.
    pub fn handover_bytes(&self) -> Result<Vec<u8>, Error> {
        self.0.handover_bytes()
    }

    /// As `Socket::restore_from_state`, on new channels: those of the snapshot continue under their numbers, and
    /// `ChannelEvent::Connected` follows. Low thresholds are 0.
    pub fn restore_from_state(&mut self, bytes: &[u8]) -> Result<(), Error> {
        self.0.restore_from_state(bytes)
    }

    // ---- The association --------------------------------------------------------------------

    /// As `Socket::connect`: `ChannelEvent::Connected` follows, or `ChannelEvent::Ended`.
    pub fn connect(&mut self) -> Result<(), Error> {
        self.0.connect()
    }

    /// As `Socket::shutdown`: `ChannelEvent::Ended` follows.
    pub fn shutdown(&mut self) -> Result<(), Error> {
        self.0.shutdown()
    }

    /// As `Socket::close`: it ends the association at once, and `ChannelEvent::Ended` is the last event.
    pub fn close(&mut self) -> Result<(), Error> {
        self.0.close()
    }

    /// As `Socket::handle_input`.
    pub fn handle_input(&mut self, packet: &[u8]) -> Result<(), Error> {
        self.0.handle_input(packet)
    }

    /// As `Socket::advance_time`.
    pub fn advance_time(&mut self, now: Duration) -> Result<(), Error> {
        self.0.advance_time(now)
    }

    /// As `Socket::poll_timeout`.
    pub fn poll_timeout(&self) -> Option<Duration> {
        self.0.poll_timeout()
    }

    /// Sets `max_message_size`, for messages sent from now on: the peer's limit, as its SDP says.
    pub fn set_max_message_size(&mut self, bytes: usize) {
        self.0.set_max_message_size(bytes)
    }

    /// The state of the association.
    pub fn state(&self) -> State {
        self.0.state()
    }

    /// Whether an allocation has failed, so that they can't be used any more.
    pub fn has_failed(&self) -> bool {
        self.0.has_failed()
    }

    /// As `Socket::verification_tag`.
    pub fn verification_tag(&self) -> u32 {
        self.0.verification_tag()
    }

    /// As `Socket::options`.
    pub fn options(&self) -> Options {
        self.0.options()
    }

    /// As `Socket::metrics`.
    pub fn metrics(&self) -> Option<Metrics> {
        self.0.metrics()
    }

    /// As `Socket::counts`.
    pub fn counts(&self) -> Counts {
        self.0.counts()
    }
}

/// The text of bytes, in which U+FFFD replaces what isn't UTF-8.
fn text(bytes: Vec<u8>) -> String {
    String::from_utf8(bytes).unwrap_or_else(|it| String::from_utf8_lossy(it.as_bytes()).into())
}

/// # Safety
///
/// So many bytes are there.
unsafe fn copied_text(at: *const c_char, length: usize) -> Vec<u8> {
    // SAFETY: the caller says so; the pointer is never null.
    unsafe { slice::from_raw_parts(at.cast::<u8>(), length) }.to_vec()
}
