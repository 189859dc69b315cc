// Package dcsctp has an SCTP association (RFC 9260) for WebRTC data channels, without system calls: the C library of
// dcsctp, by cgo. dcsctp.h describes each call, its errors and its rules.
//
// You hand a socket the packets that arrive, and the time. It hands you the packets to send, the messages that have
// arrived, and events:
//
//  1. Take all events (Events), and send each packet to the peer. Take all messages (Messages).
//  2. Ask for the deadline (PollTimeout). Wait for a packet, or until then.
//  3. Set the time (AdvanceTime). Hand in one packet, if one has come (HandleInput). Continue at 1.
//
// Each packet, time or command may add events and messages, and move the deadline. Take all messages before you hand in
// the next packet: messages that are left when another association begins are lost.
//
// The loop ends at Aborted, or 4 s after Closed: until then the peer may need the last packet of the shutdown again.
// Wait for Connected before you call Shutdown.
//
// Channels have data channels in place of messages.
//
// pkg-config finds the library. With the build tag unproved it is the one that was built without proofs. Run it over
// DTLS, or over another layer that delivers only what the peer has sent. Its license is Apache-2.0.
package dcsctp

// #include <dcsctp.h>
// #include <stdlib.h>
import "C"

import (
	"crypto/rand"
	"math"
	"runtime"
	"sync"
	"time"
	"unsafe"
)

// Socket is a socket. Goroutines may share it. Don't copy it: a copy is no socket. If there is none, since it was
// destroyed, copied, or not made by New, then commands return ErrNoSocket, polls return nothing, and queries return 0.
type Socket struct {
	association
}

// What Socket and Channels have in common.
type association struct {
	mutex sync.Mutex
	c     C.dcsctp_socket
	own   uintptr // its address, which shows a copy
}

// What a pointer without elements points to.
var nothing [1]byte
var nowhere [1]uint16

// New creates a closed socket whose clock is at now, which is the time since any other moment, the same for all
// calls on the socket. The seed is secret and never used twice; if it is nil, the system's generator makes one. Errors:
// ErrInvalidOptions, also if the seed is all zeros, ErrOutOfMemory, ErrWrongVersion, and those of crypto/rand.
func New(options Options, seed *[32]byte, now time.Duration) (*Socket, error) {
	s := new(Socket)
	if err := s.create(options, seed, now); err != nil {
		return nil, err
	}
	runtime.SetFinalizer(s, (*Socket).Destroy)
	return s, nil
}

func (s *association) create(options Options, seed *[32]byte, now time.Duration) error {
	if C.dcsctp_version() & ^C.uint32_t(C.DCSCTP_VERSION_UNPROVED) != C.DCSCTP_VERSION {
		return ErrWrongVersion
	}
	if seed == nil {
		seed = new([32]byte)
		if _, err := rand.Read(seed[:]); err != nil {
			return err
		}
	}
	s.own = uintptr(unsafe.Pointer(s))
	how := options.inC()
	return check(C.dcsctp_create(&s.c, &how, (*C.uint8_t)(&seed[0]), nanoseconds(now)))
}

// do makes a call on the socket, one at a time. Without a socket it makes none.
func (s *association) do(call func(at *C.dcsctp_socket) C.int32_t) C.int32_t {
	if s == nil {
		return C.DCSCTP_ERROR_NO_SOCKET
	}
	s.mutex.Lock()
	defer s.mutex.Unlock()
	if s.own != uintptr(unsafe.Pointer(s)) {
		return C.DCSCTP_ERROR_NO_SOCKET
	}
	return call(&s.c)
}

// Destroy frees the socket, whatever it is doing. The peer isn't informed: Shutdown or Close does that. Again it does
// nothing.
func (s *association) Destroy() {
	s.do(func(at *C.dcsctp_socket) C.int32_t {
		C.dcsctp_destroy(at)
		return C.DCSCTP_OK
	})
}

// Connect begins an association: Connected follows, or the event of its end. If it isn't closed, it does nothing.
// Errors: ErrNoSocket, ErrFailed, ErrOutOfMemory.
func (s *association) Connect() error {
	return check(s.do(func(at *C.dcsctp_socket) C.int32_t { return C.dcsctp_connect(at) }))
}

// Shutdown ends the association in an orderly way: the event of its end follows. From now on Send fails. Wait for
// Connected before this call: until the peer has answered the first INIT it sends nothing, and queued messages are
// lost. Errors: ErrNoSocket, ErrFailed, ErrOutOfMemory.
func (s *association) Shutdown() error {
	return check(s.do(func(at *C.dcsctp_socket) C.int32_t { return C.dcsctp_shutdown(at) }))
}

// Close ends the association at once, by an ABORT: the last event is that of its end. Data in flight is lost; what is
// queued goes out in the next association. Messages that are ready can still be taken; without FollowRFC they are lost.
// It doesn't free the socket.
// Errors: ErrNoSocket, ErrFailed, ErrOutOfMemory.
func (s *association) Close() error {
	return check(s.do(func(at *C.dcsctp_socket) C.int32_t { return C.dcsctp_close(at) }))
}

// HandleInput handles a packet from the peer, of any bytes. One that can't be read adds an ErrorEvent. Errors:
// ErrNoSocket, ErrFailed, ErrOutOfMemory.
func (s *association) HandleInput(packet []byte) error {
	return check(s.do(func(at *C.dcsctp_socket) C.int32_t {
		return C.dcsctp_handle_input(at, first(packet), C.size_t(len(packet)))
	}))
}

// AdvanceTime sets the time, and handles expired timers. A moment before the last one does nothing. Errors:
// ErrNoSocket, ErrFailed, ErrOutOfMemory.
func (s *association) AdvanceTime(now time.Duration) error {
	return check(s.do(func(at *C.dcsctp_socket) C.int32_t { return C.dcsctp_advance_time(at, nanoseconds(now)) }))
}

// PollTimeout returns the next deadline, by which you must call AdvanceTime, and whether there is one.
func (s *association) PollTimeout() (time.Duration, bool) {
	moment := C.uint64_t(C.DCSCTP_NEVER)
	s.do(func(at *C.dcsctp_socket) C.int32_t { return C.dcsctp_poll_timeout(at, &moment) })
	return duration(moment), moment <= math.MaxInt64
}

// Events takes all events, one at a time. Those that aren't taken stay for the next call. As of Go 1.23:
//
//	for event := range socket.Events() {
//
// Before that, pass it a function, which returns whether to continue.
func (s *Socket) Events() func(yield func(Event) bool) {
	return func(yield func(Event) bool) {
		for it := s.PollEvent(); it != nil && yield(it); it = s.PollEvent() {
		}
	}
}

// Messages takes all messages that are ready, as Events takes events.
func (s *Socket) Messages() func(yield func(*Message) bool) {
	return func(yield func(*Message) bool) {
		for it := s.GetNextMessage(); it != nil && yield(it); it = s.GetNextMessage() {
		}
	}
}

// PollEvent takes the oldest event. If there is none, it is nil.
func (s *Socket) PollEvent() Event {
	var event C.dcsctp_event
	var bytes []byte
	var streams []uint16
	result := s.do(func(at *C.dcsctp_socket) C.int32_t {
		result := C.dcsctp_poll_event(at, &event)
		if result != 1 {
			return result
		}
		switch event.kind {
		case C.DCSCTP_EVENT_SEND_PACKET:
			var from *C.uint8_t
			var length C.size_t
			if C.dcsctp_event_view(at, &from, &length) == C.DCSCTP_OK {
				bytes = copied(from, length)
			}
		case C.DCSCTP_EVENT_ABORTED, C.DCSCTP_EVENT_ERROR:
			var written C.size_t
			bytes = make([]byte, event.length)
			C.dcsctp_event_bytes(at, first(bytes), event.length, &written)
			bytes = bytes[:written]
		case C.DCSCTP_EVENT_STREAMS_RESET_FAILED, C.DCSCTP_EVENT_STREAMS_RESET_PERFORMED,
			C.DCSCTP_EVENT_INCOMING_STREAM_RESET:
			var written C.size_t
			streams = make([]uint16, event.length)
			C.dcsctp_event_streams(at, firstStream(streams), event.length, &written)
			streams = streams[:written]
		}
		return result
	})
	if result != 1 {
		return nil
	}
	return eventOf(&event, bytes, streams)
}

// MessagesReadyCount returns how many messages are ready to be taken.
func (s *Socket) MessagesReadyCount() int {
	var count C.size_t
	s.do(func(at *C.dcsctp_socket) C.int32_t { return C.dcsctp_messages_ready_count(at, &count) })
	return int(count)
}

// GetNextMessage takes the first message that is ready. If there is none, it is nil. It may be of an association that
// has ended. Messages that are left when the next one begins are lost; without FollowRFC when their own ends.
func (s *Socket) GetNextMessage() *Message {
	var message C.dcsctp_message
	var payload []byte
	result := s.do(func(at *C.dcsctp_socket) C.int32_t {
		result := C.dcsctp_get_next_message(at, &message)
		var from *C.uint8_t
		var length C.size_t
		if result == 1 && C.dcsctp_message_view(at, &from, &length) == C.DCSCTP_OK {
			payload = copied(from, length)
		}
		return result
	})
	if result != 1 {
		return nil
	}
	return &Message{uint16(message.stream_id), uint32(message.ppid), payload}
}

// Send sends a message, whose bytes are copied. It is queued behind other messages of its stream, also before an
// association exists. If it fails, an ErrorEvent follows, too. After ErrOutOfMemory it may be tried again if HasFailed
// is false. Errors: ErrNoSocket, ErrEmptyPayload, ErrMessageTooLarge, ErrShuttingDown, ErrResourceExhaustion,
// ErrFailed, ErrOutOfMemory.
func (s *Socket) Send(streamID uint16, ppid uint32, payload []byte, options SendOptions) error {
	how := options.inC()
	return check(s.do(func(at *C.dcsctp_socket) C.int32_t {
		return C.dcsctp_send(at, C.uint16_t(streamID), C.uint32_t(ppid), first(payload), C.size_t(len(payload)), &how)
	}))
}

// SendMany sends several messages, each as Send does, with the same options. Packets are made once, after the last. It
// returns for each message nil or its error. If one fails, later ones are sent all the same. Errors: ErrNoSocket,
// ErrFailed, ErrOutOfMemory. After ErrOutOfMemory it may be tried again if HasFailed is false; else some of the messages
// may have been sent.
func (s *Socket) SendMany(messages []Message, options SendOptions) ([]error, error) {
	const unwritten = math.MaxInt32
	count, bytes := len(messages), 0
	for _, message := range messages {
		bytes += len(message.Payload)
	}
	// C may not be handed pointers to Go in memory, so that memory is C's.
	outgoing := (*C.dcsctp_outgoing_message)(C.calloc(C.size_t(count+1), C.sizeof_dcsctp_outgoing_message))
	payloads := (*C.uint8_t)(C.malloc(C.size_t(bytes + 1)))
	defer C.free(unsafe.Pointer(outgoing))
	defer C.free(unsafe.Pointer(payloads))
	if outgoing == nil || payloads == nil {
		return nil, ErrOutOfMemory
	}
	results := make([]C.int32_t, count+1)
	at := 0
	for index, message := range messages {
		from := unsafe.Slice((*byte)(payloads), bytes+1)[at:]
		copy(from, message.Payload)
		at += len(message.Payload)
		it := &unsafe.Slice(outgoing, count)[index]
		it.payload, it.length = (*C.uint8_t)(&from[0]), C.size_t(len(message.Payload))
		it.ppid, it.stream_id = C.uint32_t(message.PPID), C.uint16_t(message.StreamID)
		results[index] = unwritten
	}
	how := options.inC()
	err := check(s.do(func(at *C.dcsctp_socket) C.int32_t {
		return C.dcsctp_send_many(at, outgoing, C.size_t(count), &how, &results[0], C.size_t(count))
	}))
	if err != nil && (count == 0 || results[0] == unwritten) {
		return nil, err
	}
	each := make([]error, count)
	for index := range each {
		each[index] = check(results[index])
	}
	return each, nil
}

// ResetStreams resets outgoing streams, which closes data channels. First wait until BufferedAmount of each and
// UnackDataCount of Metrics are 0: queued messages are dropped. StreamsResetPerformed or StreamsResetFailed follows;
// the peer gets IncomingStreamReset. Errors: ErrNoSocket, ErrNotConnected, ErrNotSupported,
// ErrFailed, ErrOutOfMemory.
func (s *Socket) ResetStreams(streamIDs ...uint16) error {
	return check(s.do(func(at *C.dcsctp_socket) C.int32_t {
		return C.dcsctp_reset_streams(at, firstStream(streamIDs), C.size_t(len(streamIDs)))
	}))
}

// BufferedAmount returns how many bytes are queued on a stream.
func (s *Socket) BufferedAmount(streamID uint16) uint {
	var bytes C.size_t
	s.do(func(at *C.dcsctp_socket) C.int32_t { return C.dcsctp_buffered_amount(at, C.uint16_t(streamID), &bytes) })
	return uint(bytes)
}

// BufferedAmountLowThreshold returns the low threshold of a stream: BufferedAmountLow comes when its queued bytes fall
// to it.
func (s *Socket) BufferedAmountLowThreshold(streamID uint16) uint {
	var bytes C.size_t
	s.do(func(at *C.dcsctp_socket) C.int32_t {
		return C.dcsctp_buffered_amount_low_threshold(at, C.uint16_t(streamID), &bytes)
	})
	return uint(bytes)
}

// SetBufferedAmountLowThreshold sets that threshold, also for later associations. Errors: ErrNoSocket, ErrFailed,
// ErrOutOfMemory.
func (s *Socket) SetBufferedAmountLowThreshold(streamID uint16, bytes uint) error {
	return check(s.do(func(at *C.dcsctp_socket) C.int32_t {
		return C.dcsctp_set_buffered_amount_low_threshold(at, C.uint16_t(streamID), C.size_t(bytes))
	}))
}

// StreamPriority returns the priority of a stream: the one with the greatest is sent first.
func (s *Socket) StreamPriority(streamID uint16) uint16 {
	var priority C.uint16_t
	s.do(func(at *C.dcsctp_socket) C.int32_t {
		return C.dcsctp_get_stream_priority(at, C.uint16_t(streamID), &priority)
	})
	return uint16(priority)
}

// SetStreamPriority sets that priority, also for later associations. Errors: ErrNoSocket, ErrFailed, ErrOutOfMemory.
func (s *Socket) SetStreamPriority(streamID, priority uint16) error {
	return check(s.do(func(at *C.dcsctp_socket) C.int32_t {
		return C.dcsctp_set_stream_priority(at, C.uint16_t(streamID), C.uint16_t(priority))
	}))
}

// State returns the state, and NoSocket if there is no socket.
func (s *association) State() State {
	return State(s.do(func(at *C.dcsctp_socket) C.int32_t { return C.dcsctp_state(at) }))
}

// HasFailed reports whether an allocation has failed, so that the socket can't be used any more.
func (s *association) HasFailed() bool {
	return s.do(func(at *C.dcsctp_socket) C.int32_t { return C.dcsctp_has_failed(at) }) == 1
}

// VerificationTag returns our verification tag, which the peer's packets carry. If the socket is closed, it is 0.
func (s *association) VerificationTag() uint32 {
	var tag C.uint32_t
	s.do(func(at *C.dcsctp_socket) C.int32_t { return C.dcsctp_verification_tag(at, &tag) })
	return uint32(tag)
}

// SetMaxMessageSize sets MaxMessageSize, for messages sent from now on. Error: ErrNoSocket.
func (s *association) SetMaxMessageSize(bytes uint) error {
	return check(s.do(func(at *C.dcsctp_socket) C.int32_t {
		return C.dcsctp_set_max_message_size(at, C.size_t(bytes))
	}))
}

// Options returns the options. MaxMessageSize is as it was set last. If there is no socket, they are the defaults.
func (s *association) Options() Options {
	read := defaultOptions()
	s.do(func(at *C.dcsctp_socket) C.int32_t { return C.dcsctp_get_options(at, &read) })
	return optionsOf(&read)
}

// Metrics returns the metrics. If there is no peer yet, they are nil.
func (s *association) Metrics() *Metrics {
	read := C.dcsctp_metrics{size: C.sizeof_dcsctp_metrics}
	if s.do(func(at *C.dcsctp_socket) C.int32_t { return C.dcsctp_get_metrics(at, &read) }) != 1 {
		return nil
	}
	return metricsOf(&read)
}

// Counts returns counts since the socket was created, also after an association has ended.
func (s *association) Counts() Counts {
	read := C.dcsctp_counts{size: C.sizeof_dcsctp_counts}
	s.do(func(at *C.dcsctp_socket) C.int32_t { return C.dcsctp_get_counts(at, &read) })
	return Counts{uint(read.rx_packets_count), uint(read.tx_packets_count), uint(read.tx_messages_count)}
}

// HandoverReadiness returns why the socket can't be handed over now: the sum of Handover.., or 0 if it can.
func (s *association) HandoverReadiness() uint32 {
	var reasons C.uint32_t
	s.do(func(at *C.dcsctp_socket) C.int32_t { return C.dcsctp_get_handover_readiness(at, &reasons) })
	return uint32(reasons)
}

// GetHandoverStateAndClose takes a snapshot, from which RestoreFromState continues in another process, and ends the
// association here. The peer isn't informed, and the last event is Closed or ChannelsEnded. Take all events and messages
// first. The snapshot has the channels, but for their labels and low thresholds. It is as secret as the messages, is used
// once, and by the same version of the library. Errors: ErrNoSocket, ErrNotReady, ErrFailed, ErrOutOfMemory. If HandoverBytes returns the last one, it may be tried again.
func (s *association) GetHandoverStateAndClose() ([]byte, error) {
	err := check(s.do(func(at *C.dcsctp_socket) C.int32_t { return C.dcsctp_get_handover_state_and_close(at) }))
	if err != nil {
		return nil, err
	}
	return s.HandoverBytes()
}

// HandoverBytes returns the last snapshot. Errors: ErrNoSocket, ErrNothingToCopy, ErrOutOfMemory.
func (s *association) HandoverBytes() ([]byte, error) {
	var snapshot []byte
	err := check(s.do(func(at *C.dcsctp_socket) C.int32_t {
		var length C.size_t
		result := C.dcsctp_handover_bytes(at, first(nil), 0, &length)
		if result == C.DCSCTP_ERROR_BUFFER_TOO_SMALL {
			snapshot = make([]byte, length)
			result = C.dcsctp_handover_bytes(at, first(snapshot), length, &length)
		}
		return result
	}))
	if err != nil {
		return nil, err
	}
	return snapshot, nil
}

// RestoreFromState continues from a snapshot that another socket with these options gave: Connected follows. The time
// of this socket must be over a minute. Restore only what you trust. ErrOtherOptions: they differ in a port, an
// announced number of streams, EnablePartialReliability, EnableMessageInterleaving or ZeroChecksumMethod. Errors:
// ErrNoSocket, ErrNotClosed, ErrInvalidSnapshot, ErrOtherOptions, ErrFailed, ErrOutOfMemory.
func (s *association) RestoreFromState(snapshot []byte) error {
	return check(s.do(func(at *C.dcsctp_socket) C.int32_t {
		return C.dcsctp_restore_from_state(at, first(snapshot), C.size_t(len(snapshot)))
	}))
}

// copied returns a copy, in memory of Go, of bytes that a call has shown.
func copied(from *C.uint8_t, length C.size_t) []byte {
	bytes := make([]byte, length)
	copy(bytes, unsafe.Slice((*byte)(from), length))
	return bytes
}

// first points to the bytes, and is never nil.
func first(bytes []byte) *C.uint8_t {
	if len(bytes) == 0 {
		return (*C.uint8_t)(&nothing[0])
	}
	return (*C.uint8_t)(&bytes[0])
}

func firstStream(streams []uint16) *C.uint16_t {
	if len(streams) == 0 {
		return (*C.uint16_t)(&nowhere[0])
	}
	return (*C.uint16_t)(&streams[0])
}
