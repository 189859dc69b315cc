package dcsctp

// #include <dcsctp.h>
// #include <stdlib.h>
import "C"

import (
	"math"
	"runtime"
	"time"
	"unsafe"
)

// Channels are data channels (RFC 8831, RFC 8832), and the socket below them, which serves one association: make others
// for the next one. Goroutines may share them. The loop is that of a Socket, without messages:
//
//	for event := range channels.Events() { // before Go 1.23 pass it a function
//		switch it := event.(type) {
//		case dcsctp.SendPacket:
//			conn.Write(it.Packet)
//		case dcsctp.ChannelOpened:
//			it.Channel.SendText("hello")
//		case dcsctp.ChannelMessage:
//			use(it.Channel.Label(), it.IsText, it.Data)
//		}
//	}
type Channels struct {
	*association
	known map[uint64]*Channel // until their last event
}

// Channel is a data channel, which Channels.Open or a ChannelIncoming gave. All events name it by this pointer.
type Channel struct {
	association *association
	number      uint64
	options     ChannelOptions
}

// ChannelOptions are what a channel is opened with. A message that was lost is sent again until it is acknowledged, or up
// to MaxRetransmits times, or for MaxLifetime, in whole milliseconds: set one of the two at most, by Limit.
type ChannelOptions struct {
	Label, Protocol string
	Unordered       bool
	MaxRetransmits  *uint32
	MaxLifetime     *time.Duration
	Priority        uint16  // 128, 256, 512 or 1,024, and the greatest is sent first; in Open 0 means 256
	Negotiated      *uint16 // the stream that both ends open it on, by Limit; then no OPEN is sent
}

// ChannelLimits are what a peer may do; 0 means the default.
type ChannelLimits struct {
	MaxMessageSize uint // bytes of a message; a longer one closes its channel: 262,144
	MaxText        uint // bytes of a label and a protocol; more are refused: 1,024
	MaxChannels    uint // with so many streams in use each channel is refused: 1,024
}

// ChannelState is the state of a channel.
type ChannelState int32

// The states. A channel that is connecting waits for the association, the role, or room to send.
const (
	ChannelStateConnecting ChannelState = C.DCSCTP_CHANNEL_CONNECTING
	ChannelStateOpen       ChannelState = C.DCSCTP_CHANNEL_OPEN
	ChannelStateClosing    ChannelState = C.DCSCTP_CHANNEL_CLOSING
	ChannelStateClosed     ChannelState = C.DCSCTP_CHANNEL_CLOSED
)

// ChannelEnd is why a channel is closed.
type ChannelEnd uint32

// The reasons.
const (
	ChannelClosedByResets ChannelEnd = C.DCSCTP_CHANNEL_CLOSED_BY_RESETS // one end has closed it, or both
	ChannelRefused        ChannelEnd = C.DCSCTP_CHANNEL_REFUSED          // the same before the peer knew it
	ChannelCantBeReset    ChannelEnd = C.DCSCTP_CHANNEL_CANT_BE_RESET    // the stream stays in use
	ChannelLost           ChannelEnd = C.DCSCTP_CHANNEL_LOST             // the association has ended
	ChannelNoStream       ChannelEnd = C.DCSCTP_CHANNEL_NO_STREAM        // no stream was free
)

type (
	// ChannelOpened: the peer knows a channel that this end has opened.
	ChannelOpened struct{ Channel *Channel }
	// ChannelIncoming: the peer has opened a channel.
	ChannelIncoming struct{ Channel *Channel }
	// ChannelMessage is a message, which may be empty. Text is UTF-8, which isn't checked.
	ChannelMessage struct {
		Channel *Channel
		IsText  bool
		Data    []byte
	}
	// ChannelBufferedAmountLow: the queued bytes of a channel have fallen to its threshold.
	ChannelBufferedAmountLow struct{ Channel *Channel }
	// ChannelClosed is the last event of a channel.
	ChannelClosed struct {
		Channel *Channel
		Reason  ChannelEnd
	}
	// ChannelsEnded: the association is over, and so are all its channels. Continue the loop for 4 s, as the package's
	// page says.
	ChannelsEnded struct{}
)

func (ChannelOpened) Name() string            { return "channel opened" }
func (ChannelIncoming) Name() string          { return "incoming channel" }
func (ChannelMessage) Name() string           { return "channel message" }
func (ChannelBufferedAmountLow) Name() string { return "channel buffered amount low" }
func (ChannelClosed) Name() string            { return "channel closed" }
func (ChannelsEnded) Name() string            { return "channels ended" }

// ChannelMetrics are what was counted of a channel.
type ChannelMetrics struct {
	MessagesSent     uint64
	BytesSent        uint64
	MessagesReceived uint64
	BytesReceived    uint64
}

// NewChannels creates a closed socket with channels, as New creates one. Errors: those of New; ErrInvalidOptions also if
// the options have ChecksumOffload.
func NewChannels(options Options, limits ChannelLimits, seed *[32]byte, now time.Duration) (*Channels, error) {
	at := new(association)
	if err := at.create(options, seed, now); err != nil {
		return nil, err
	}
	runtime.SetFinalizer(at, (*association).Destroy)
	of := C.dcsctp_channel_limits{
		size:             C.sizeof_dcsctp_channel_limits,
		max_message_size: C.size_t(limits.MaxMessageSize),
		max_text:         C.size_t(limits.MaxText),
		max_channels:     C.size_t(limits.MaxChannels),
	}
	err := check(at.do(func(at *C.dcsctp_socket) C.int32_t { return C.dcsctp_channel_begin(at, &of) }))
	if err != nil {
		at.Destroy()
		return nil, err
	}
	return &Channels{at, map[uint64]*Channel{}}, nil
}

// SetRole sets the role in DTLS: the client gives even streams, the server odd ones. Channels that were opened before
// get theirs now. Set it once, and before Connect if you can: until then, what the peer opens is refused. Errors:
// ErrNoSocket, ErrFailed, ErrOutOfMemory.
func (c *Channels) SetRole(isDTLSClient bool) error {
	role := C.int32_t(number(isDTLSClient))
	return check(c.do(func(at *C.dcsctp_socket) C.int32_t { return C.dcsctp_channel_set_role(at, role) }))
}

// Open opens a channel. Messages can be sent once its state is ChannelStateOpen: at once, unless the association, the
// role or room to send is missing. ChannelOpened says that the peer knows it. Errors: ErrNoSocket, ErrInvalidOptions
// (both limits are set), ErrMessageTooLarge (a label or a protocol), ErrStreamInUse, ErrEnded, ErrFailed,
// ErrOutOfMemory. After the last it may be tried again if HasFailed is false.
func (c *Channels) Open(options ChannelOptions) (*Channel, error) {
	if options.MaxRetransmits != nil && options.MaxLifetime != nil {
		return nil, ErrInvalidOptions
	}
	if options.Priority == 0 {
		options.Priority = 256
	}
	// C may not be handed pointers to Go in memory, so that memory is C's.
	length := len(options.Label) + len(options.Protocol)
	texts := (*C.char)(C.calloc(C.size_t(length+1), 1))
	if texts == nil {
		return nil, ErrOutOfMemory
	}
	defer C.free(unsafe.Pointer(texts))
	copy(unsafe.Slice((*byte)(unsafe.Pointer(texts)), length), options.Label+options.Protocol)
	how := options.inC(texts)
	var channel *Channel
	err := check(c.do(func(at *C.dcsctp_socket) C.int32_t {
		var number C.uint64_t
		result := C.dcsctp_channel_open(at, &how, &number)
		if result == C.DCSCTP_OK {
			channel = &Channel{c.association, uint64(number), options}
			c.known[uint64(number)] = channel
		}
		return result
	}))
	return channel, err
}

// inC returns the options with texts at a place of C, one behind the other.
func (o *ChannelOptions) inC(texts *C.char) C.dcsctp_channel_options {
	how := C.dcsctp_channel_options{
		size:            C.sizeof_dcsctp_channel_options,
		label:           texts,
		label_length:    C.size_t(len(o.Label)),
		protocol:        (*C.char)(unsafe.Add(unsafe.Pointer(texts), len(o.Label))),
		protocol_length: C.size_t(len(o.Protocol)),
		priority:        C.uint16_t(o.Priority),
		is_unordered:    C.uint16_t(number(o.Unordered)),
		is_negotiated:   C.uint16_t(number(o.Negotiated != nil)),
	}
	if o.Negotiated != nil {
		how.stream = C.uint16_t(*o.Negotiated)
	}
	if o.MaxRetransmits != nil {
		how.reliability, how.limit = C.DCSCTP_CHANNEL_RETRANSMISSIONS, C.uint32_t(*o.MaxRetransmits)
	}
	if o.MaxLifetime != nil {
		limit := C.uint32_t(math.MaxUint32)
		if time := o.MaxLifetime.Milliseconds(); time < 0 {
			limit = 0
		} else if time < math.MaxUint32 {
			limit = C.uint32_t(time)
		}
		how.reliability, how.limit = C.DCSCTP_CHANNEL_LIFETIME, limit
	}
	return how
}

// PollEvent takes the oldest event. If there is none, it is nil. Take all before you wait, and before each packet.
// Errors: ErrNoSocket, ErrFailed, ErrOutOfMemory.
func (c *Channels) PollEvent() (Event, error) {
	var taken Event
	err := check(c.do(func(at *C.dcsctp_socket) C.int32_t {
		var event C.dcsctp_channel_event
		result := C.dcsctp_channel_poll(at, &event)
		if result == 1 {
			taken = c.eventOf(at, &event)
		}
		return result
	}))
	return taken, err
}

// Events takes all events, one at a time, as those of a Socket. It also ends at an error of PollEvent.
func (c *Channels) Events() func(yield func(Event) bool) {
	return func(yield func(Event) bool) {
		for it, _ := c.PollEvent(); it != nil && yield(it); it, _ = c.PollEvent() {
		}
	}
}

func (c *Channels) eventOf(at *C.dcsctp_socket, event *C.dcsctp_channel_event) Event {
	channel := c.named(uint64(event.channel))
	switch event.kind {
	case C.DCSCTP_CHANNEL_EVENT_SEND_PACKET:
		return SendPacket{shownBytes(at)}
	case C.DCSCTP_CHANNEL_EVENT_CONNECTED:
		return Connected{}
	case C.DCSCTP_CHANNEL_EVENT_OPENED:
		return ChannelOpened{channel}
	case C.DCSCTP_CHANNEL_EVENT_INCOMING:
		channel = &Channel{c.association, uint64(event.channel), incomingOptions(at)}
		c.known[channel.number] = channel
		return ChannelIncoming{channel}
	case C.DCSCTP_CHANNEL_EVENT_MESSAGE:
		return ChannelMessage{channel, event.detail == C.DCSCTP_CHANNEL_TEXT, shownBytes(at)}
	case C.DCSCTP_CHANNEL_EVENT_BUFFERED_AMOUNT_LOW:
		return ChannelBufferedAmountLow{channel}
	case C.DCSCTP_CHANNEL_EVENT_CLOSED:
		delete(c.known, uint64(event.channel))
		return ChannelClosed{channel, ChannelEnd(event.detail)}
	case C.DCSCTP_CHANNEL_EVENT_ENDED:
		return ChannelsEnded{}
	default:
		return UnknownEvent{uint32(event.kind)}
	}
}

// Channel returns the channel with a number, also one that was restored. Of that the options are unknown.
func (c *Channels) Channel(number uint64) *Channel {
	var channel *Channel
	c.do(func(*C.dcsctp_socket) C.int32_t {
		channel = c.named(number)
		return C.DCSCTP_OK
	})
	if channel == nil {
		channel = &Channel{c.association, number, ChannelOptions{}}
	}
	return channel
}

// named returns the channel with a number; nil for 0.
func (c *Channels) named(number uint64) *Channel {
	channel := c.known[number]
	if channel == nil && number != 0 {
		channel = &Channel{c.association, number, ChannelOptions{}}
		c.known[number] = channel
	}
	return channel
}

// shownBytes returns a copy of the bytes of the last taken event.
func shownBytes(at *C.dcsctp_socket) []byte {
	var from *C.uint8_t
	var length C.size_t
	if C.dcsctp_channel_view(at, &from, &length) != C.DCSCTP_OK {
		return nil
	}
	return copied(from, length)
}

// incomingOptions returns what the peer has opened a channel with.
func incomingOptions(at *C.dcsctp_socket) (o ChannelOptions) {
	how := C.dcsctp_channel_options{size: C.sizeof_dcsctp_channel_options}
	if C.dcsctp_channel_get_options(at, &how) != C.DCSCTP_OK {
		return o
	}
	o.Label = string(copied((*C.uint8_t)(unsafe.Pointer(how.label)), how.label_length))
	o.Protocol = string(copied((*C.uint8_t)(unsafe.Pointer(how.protocol)), how.protocol_length))
	o.Unordered, o.Priority = how.is_unordered != 0, uint16(how.priority)
	switch how.reliability {
	case C.DCSCTP_CHANNEL_RETRANSMISSIONS:
		o.MaxRetransmits = Limit(uint32(how.limit))
	case C.DCSCTP_CHANNEL_LIFETIME:
		o.MaxLifetime = Limit(time.Duration(how.limit) * time.Millisecond)
	}
	return o
}

// StreamsInUse returns how many streams are in use, those of closing and refused channels, too.
func (c *Channels) StreamsInUse() int {
	var count C.size_t
	c.do(func(at *C.dcsctp_socket) C.int32_t { return C.dcsctp_channel_count(at, &count) })
	return int(count)
}

// do makes a call on the channel.
func (c *Channel) do(call func(at *C.dcsctp_socket, number C.uint64_t) C.int32_t) C.int32_t {
	return c.association.do(func(at *C.dcsctp_socket) C.int32_t { return call(at, C.uint64_t(c.number)) })
}

// Number returns a number that is never given twice by its Channels.
func (c *Channel) Number() uint64 { return c.number }

// Label returns what the channel is called.
func (c *Channel) Label() string { return c.options.Label }

// Options returns what the channel was opened with.
func (c *Channel) Options() ChannelOptions { return c.options }

// Send sends a message of bytes, which may be empty. They are copied. The state must be ChannelStateOpen. Errors:
// ErrNoSocket, ErrNoChannel, ErrMessageTooLarge, ErrShuttingDown, ErrResourceExhaustion (try again after
// ChannelBufferedAmountLow), ErrFailed, ErrOutOfMemory.
func (c *Channel) Send(data []byte) error { return c.send(C.DCSCTP_CHANNEL_BINARY, data) }

// SendText sends a message of text, which is UTF-8, as Send does.
func (c *Channel) SendText(text string) error { return c.send(C.DCSCTP_CHANNEL_TEXT, []byte(text)) }

func (c *Channel) send(kind C.uint32_t, data []byte) error {
	return check(c.do(func(at *C.dcsctp_socket, number C.uint64_t) C.int32_t {
		return C.dcsctp_channel_send(at, number, kind, first(data), C.size_t(len(data)))
	}))
}

// Close closes the channel. What was sent goes out first, and what comes from now on is dropped. ChannelClosed follows
// when both ends have reset the stream. Again it does nothing. Errors: ErrNoSocket, ErrFailed, ErrOutOfMemory.
func (c *Channel) Close() error {
	return check(c.do(func(at *C.dcsctp_socket, number C.uint64_t) C.int32_t {
		return C.dcsctp_channel_close(at, number)
	}))
}

// State returns the state. Without a socket it is ChannelStateClosed.
func (c *Channel) State() ChannelState {
	state := c.do(func(at *C.dcsctp_socket, number C.uint64_t) C.int32_t { return C.dcsctp_channel_state(at, number) })
	if state < 0 {
		return ChannelStateClosed
	}
	return ChannelState(state)
}

// Stream returns the stream, and whether there is one: not while the channel is connecting, nor when it is closed.
func (c *Channel) Stream() (uint16, bool) {
	var stream C.uint16_t
	result := c.do(func(at *C.dcsctp_socket, number C.uint64_t) C.int32_t {
		return C.dcsctp_channel_stream(at, number, &stream)
	})
	return uint16(stream), result == C.DCSCTP_OK
}

// BufferedAmount returns how many bytes are queued; 0 without a stream.
func (c *Channel) BufferedAmount() uint {
	var bytes C.size_t
	c.do(func(at *C.dcsctp_socket, number C.uint64_t) C.int32_t {
		return C.dcsctp_channel_buffered_amount(at, number, &bytes)
	})
	return uint(bytes)
}

// SetBufferedAmountLowThreshold sets the low threshold, which is 0 at first: ChannelBufferedAmountLow comes when the
// queued bytes fall from above it to it or below. Errors: ErrNoSocket, ErrNoChannel (it has no stream), ErrFailed,
// ErrOutOfMemory.
func (c *Channel) SetBufferedAmountLowThreshold(bytes uint) error {
	return check(c.do(func(at *C.dcsctp_socket, number C.uint64_t) C.int32_t {
		return C.dcsctp_channel_set_buffered_amount_low_threshold(at, number, C.size_t(bytes))
	}))
}

// Metrics returns what was counted; nil without a stream.
func (c *Channel) Metrics() *ChannelMetrics {
	read := C.dcsctp_channel_metrics{size: C.sizeof_dcsctp_channel_metrics}
	result := c.do(func(at *C.dcsctp_socket, number C.uint64_t) C.int32_t {
		return C.dcsctp_channel_get_metrics(at, number, &read)
	})
	if result != C.DCSCTP_OK {
		return nil
	}
	return &ChannelMetrics{
		uint64(read.messages_sent), uint64(read.bytes_sent), uint64(read.messages_received), uint64(read.bytes_received),
	}
}
