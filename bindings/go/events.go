package dcsctp

// #include <dcsctp.h>
import "C"

// Event is what a socket reports: one of the types below. Name has the words of dcsctp_event_name.
type Event interface {
	Name() string
}

// ErrorKind is what an error is about.
type ErrorKind uint32

// The kinds of error.
const (
	KindNoError              ErrorKind = C.DCSCTP_KIND_NO_ERROR
	KindTooManyRetries       ErrorKind = C.DCSCTP_KIND_TOO_MANY_RETRIES      // sent too often without an answer
	KindNotConnected         ErrorKind = C.DCSCTP_KIND_NOT_CONNECTED         // it needs an association
	KindParseFailed          ErrorKind = C.DCSCTP_KIND_PARSE_FAILED          // or it isn't for this association
	KindWrongSequence        ErrorKind = C.DCSCTP_KIND_WRONG_SEQUENCE        // it can't be handled in this state
	KindPeerReported         ErrorKind = C.DCSCTP_KIND_PEER_REPORTED         // an error of the peer's, or it aborted
	KindProtocolViolation    ErrorKind = C.DCSCTP_KIND_PROTOCOL_VIOLATION    // the peer, or the caller, broke a rule
	KindResourceExhaustion   ErrorKind = C.DCSCTP_KIND_RESOURCE_EXHAUSTION   // a buffer is full
	KindUnsupportedOperation ErrorKind = C.DCSCTP_KIND_UNSUPPORTED_OPERATION // it isn't supported
)

type (
	// SendPacket is a packet for the peer, of at most MTU bytes.
	SendPacket struct{ Packet []byte }
	// Connected: an association was made, by either end.
	Connected struct{}
	// Closed: it has ended, by a shutdown, Close or a handover. Continue the loop for 4 s, as the package's page says.
	Closed struct{}
	// ConnectionRestarted: the peer restarted. Then Connected comes.
	ConnectionRestarted struct{}
	// Aborted: it was cut off. Text may be empty.
	Aborted struct {
		Kind ErrorKind
		Text string
	}
	// ErrorEvent: something went wrong, and the association continues. Text may be empty.
	ErrorEvent struct {
		Kind ErrorKind
		Text string
	}
	// BufferedAmountLow: the queued bytes of this stream have fallen to its threshold.
	BufferedAmountLow struct{ StreamID uint16 }
	// TotalBufferedAmountLow: the queued bytes of all streams have fallen to the threshold.
	TotalBufferedAmountLow struct{}
	// StreamsResetFailed: streams of this end that weren't reset.
	StreamsResetFailed struct{ Streams []uint16 }
	// StreamsResetPerformed: streams of this end that were reset.
	StreamsResetPerformed struct{ Streams []uint16 }
	// IncomingStreamReset: streams of the peer that it has reset; none: all of them.
	IncomingStreamReset struct{ Streams []uint16 }
	// LifecycleFullySent: the whole message of this name was sent.
	LifecycleFullySent struct{ LifecycleID uint64 }
	// LifecycleMaybeExpired: it was abandoned after that.
	LifecycleMaybeExpired struct{ LifecycleID uint64 }
	// LifecycleExpired: it was abandoned before that.
	LifecycleExpired struct{ LifecycleID uint64 }
	// LifecycleDelivered: the peer acknowledged it.
	LifecycleDelivered struct{ LifecycleID uint64 }
	// LifecycleEnd: no event names it again.
	LifecycleEnd struct{ LifecycleID uint64 }
	// UnknownEvent is of a kind that a later version of the library may add. Ignore it.
	UnknownEvent struct{ Kind uint32 }
)

func name(kind C.uint32_t) string { return C.GoString(C.dcsctp_event_name(kind)) }

func (SendPacket) Name() string             { return name(C.DCSCTP_EVENT_SEND_PACKET) }
func (Connected) Name() string              { return name(C.DCSCTP_EVENT_CONNECTED) }
func (Closed) Name() string                 { return name(C.DCSCTP_EVENT_CLOSED) }
func (ConnectionRestarted) Name() string    { return name(C.DCSCTP_EVENT_CONNECTION_RESTARTED) }
func (Aborted) Name() string                { return name(C.DCSCTP_EVENT_ABORTED) }
func (ErrorEvent) Name() string             { return name(C.DCSCTP_EVENT_ERROR) }
func (BufferedAmountLow) Name() string      { return name(C.DCSCTP_EVENT_BUFFERED_AMOUNT_LOW) }
func (TotalBufferedAmountLow) Name() string { return name(C.DCSCTP_EVENT_TOTAL_BUFFERED_AMOUNT_LOW) }
func (StreamsResetFailed) Name() string     { return name(C.DCSCTP_EVENT_STREAMS_RESET_FAILED) }
func (StreamsResetPerformed) Name() string  { return name(C.DCSCTP_EVENT_STREAMS_RESET_PERFORMED) }
func (IncomingStreamReset) Name() string    { return name(C.DCSCTP_EVENT_INCOMING_STREAM_RESET) }
func (LifecycleFullySent) Name() string     { return name(C.DCSCTP_EVENT_LIFECYCLE_FULLY_SENT) }
func (LifecycleMaybeExpired) Name() string  { return name(C.DCSCTP_EVENT_LIFECYCLE_MAYBE_EXPIRED) }
func (LifecycleExpired) Name() string       { return name(C.DCSCTP_EVENT_LIFECYCLE_EXPIRED) }
func (LifecycleDelivered) Name() string     { return name(C.DCSCTP_EVENT_LIFECYCLE_DELIVERED) }
func (LifecycleEnd) Name() string           { return name(C.DCSCTP_EVENT_LIFECYCLE_END) }
func (UnknownEvent) Name() string           { return "unknown" }

func eventOf(event *C.dcsctp_event, bytes []byte, streams []uint16) Event {
	kind, id := ErrorKind(event.error_kind), uint64(event.lifecycle_id)
	switch event.kind {
	case C.DCSCTP_EVENT_SEND_PACKET:
		return SendPacket{bytes}
	case C.DCSCTP_EVENT_CONNECTED:
		return Connected{}
	case C.DCSCTP_EVENT_CLOSED:
		return Closed{}
	case C.DCSCTP_EVENT_CONNECTION_RESTARTED:
		return ConnectionRestarted{}
	case C.DCSCTP_EVENT_ABORTED:
		return Aborted{kind, string(bytes)}
	case C.DCSCTP_EVENT_ERROR:
		return ErrorEvent{kind, string(bytes)}
	case C.DCSCTP_EVENT_BUFFERED_AMOUNT_LOW:
		return BufferedAmountLow{uint16(event.stream_id)}
	case C.DCSCTP_EVENT_TOTAL_BUFFERED_AMOUNT_LOW:
		return TotalBufferedAmountLow{}
	case C.DCSCTP_EVENT_STREAMS_RESET_FAILED:
		return StreamsResetFailed{streams}
	case C.DCSCTP_EVENT_STREAMS_RESET_PERFORMED:
		return StreamsResetPerformed{streams}
	case C.DCSCTP_EVENT_INCOMING_STREAM_RESET:
		return IncomingStreamReset{streams}
	case C.DCSCTP_EVENT_LIFECYCLE_FULLY_SENT:
		return LifecycleFullySent{id}
	case C.DCSCTP_EVENT_LIFECYCLE_MAYBE_EXPIRED:
		return LifecycleMaybeExpired{id}
	case C.DCSCTP_EVENT_LIFECYCLE_EXPIRED:
		return LifecycleExpired{id}
	case C.DCSCTP_EVENT_LIFECYCLE_DELIVERED:
		return LifecycleDelivered{id}
	case C.DCSCTP_EVENT_LIFECYCLE_END:
		return LifecycleEnd{id}
	default:
		return UnknownEvent{uint32(event.kind)}
	}
}
