package dcsctp

// #include <dcsctp.h>
import "C"

import (
	"math"
	"time"
)

// Error is why a call failed, by its number in dcsctp.h. Unless the call says more, it has changed nothing then.
type Error int32

// The errors of dcsctp.h, which describes each, and one of this package.
const (
	ErrOutOfMemory        Error = C.DCSCTP_ERROR_OUT_OF_MEMORY
	ErrFailed             Error = C.DCSCTP_ERROR_FAILED
	ErrNoSocket           Error = C.DCSCTP_ERROR_NO_SOCKET
	ErrAlreadyCreated     Error = C.DCSCTP_ERROR_ALREADY_CREATED
	ErrInvalidOptions     Error = C.DCSCTP_ERROR_INVALID_OPTIONS
	ErrBufferTooSmall     Error = C.DCSCTP_ERROR_BUFFER_TOO_SMALL
	ErrNothingToCopy      Error = C.DCSCTP_ERROR_NOTHING_TO_COPY
	ErrEmptyPayload       Error = C.DCSCTP_ERROR_EMPTY_PAYLOAD
	ErrMessageTooLarge    Error = C.DCSCTP_ERROR_MESSAGE_TOO_LARGE
	ErrResourceExhaustion Error = C.DCSCTP_ERROR_RESOURCE_EXHAUSTION
	ErrShuttingDown       Error = C.DCSCTP_ERROR_SHUTTING_DOWN
	ErrNotConnected       Error = C.DCSCTP_ERROR_NOT_CONNECTED
	ErrNotSupported       Error = C.DCSCTP_ERROR_NOT_SUPPORTED
	ErrNotReady           Error = C.DCSCTP_ERROR_NOT_READY
	ErrInvalidSnapshot    Error = C.DCSCTP_ERROR_INVALID_SNAPSHOT
	ErrNotClosed          Error = C.DCSCTP_ERROR_NOT_CLOSED
	ErrInvalidSendOptions Error = C.DCSCTP_ERROR_INVALID_SEND_OPTIONS
	ErrWrongSize          Error = C.DCSCTP_ERROR_WRONG_SIZE
	ErrOtherOptions       Error = C.DCSCTP_ERROR_OTHER_OPTIONS
	ErrHasChannels        Error = C.DCSCTP_ERROR_HAS_CHANNELS
	ErrNoChannel          Error = C.DCSCTP_ERROR_NO_CHANNEL
	ErrStreamInUse        Error = C.DCSCTP_ERROR_STREAM_IN_USE
	ErrEnded              Error = C.DCSCTP_ERROR_ENDED
	ErrWrongVersion       Error = -1001 // the library has another version than dcsctp.h
)

func (e Error) Error() string {
	if e == ErrWrongVersion {
		return "the library has another version"
	}
	return C.GoString(C.dcsctp_error_text(C.int32_t(e)))
}

// check returns what a result says: an error if it is negative.
func check(result C.int32_t) error {
	if result < 0 {
		return Error(result)
	}
	return nil
}

// Never is no limit of a time, and NoLimit of a count.
const (
	Never   time.Duration = math.MaxInt64
	NoLimit uint32        = C.DCSCTP_NO_LIMIT
)

func nanoseconds(it time.Duration) C.uint64_t {
	if it < 0 {
		return 0
	}
	if it == Never {
		return C.DCSCTP_NEVER
	}
	return C.uint64_t(it)
}

func duration(it C.uint64_t) time.Duration {
	if it > math.MaxInt64 {
		return Never
	}
	return time.Duration(it)
}

// Options are what can be set. Sizes are in bytes. DefaultOptions has the defaults. dcsctp.h describes each at
// dcsctp_options, and says which values connect.
type Options struct {
	MTU                                     uint
	MaxMessageSize                          uint
	MaxReceiverWindowBufferSize             uint
	MaxSendBufferSize                       uint
	PerStreamSendQueueLimit                 uint
	TotalBufferedAmountLowThreshold         uint
	DefaultStreamBufferedAmountLowThreshold uint
	CwndMTUsInitial                         uint
	CwndMTUsMin                             uint
	RTTMax                                  time.Duration
	RTOInitial                              time.Duration
	RTOMax                                  time.Duration
	RTOMin                                  time.Duration
	T1InitTimeout                           time.Duration
	T1CookieTimeout                         time.Duration
	CookieLifetime                          time.Duration
	MaxTimerBackoffDuration                 time.Duration // or Never
	HeartbeatInterval                       time.Duration
	DelayedAckMaxTimeout                    time.Duration
	MinRTTVariance                          time.Duration
	MaxBurst                                int32
	MaxRetransmissions                      uint32 // or NoLimit
	MaxInitRetransmits                      uint32 // or NoLimit
	ZeroChecksumMethod                      uint32
	EnablePartialReliability                bool
	EnableMessageInterleaving               bool
	DisableChecksumVerification             bool
	EnableHandoverWithOutstandingData       bool
	LocalPort                               uint16
	RemotePort                              uint16
	AnnouncedMaximumIncomingStreams         uint16
	AnnouncedMaximumOutgoingStreams         uint16
	DefaultStreamPriority                   uint16
	ChecksumOffload                         bool
	FollowRFC                               bool
}

// DefaultOptions returns the options of the library.
func DefaultOptions() Options {
	read := defaultOptions()
	return optionsOf(&read)
}

func defaultOptions() C.dcsctp_options {
	read := C.dcsctp_options{size: C.sizeof_dcsctp_options}
	C.dcsctp_get_default_options(&read)
	return read
}

func (o *Options) inC() C.dcsctp_options {
	return C.dcsctp_options{
		size:                                C.sizeof_dcsctp_options,
		mtu:                                 C.size_t(o.MTU),
		max_message_size:                    C.size_t(o.MaxMessageSize),
		max_receiver_window_buffer_size:     C.size_t(o.MaxReceiverWindowBufferSize),
		max_send_buffer_size:                C.size_t(o.MaxSendBufferSize),
		per_stream_send_queue_limit:         C.size_t(o.PerStreamSendQueueLimit),
		total_buffered_amount_low_threshold: C.size_t(o.TotalBufferedAmountLowThreshold),
		default_stream_buffered_amount_low_threshold: C.size_t(o.DefaultStreamBufferedAmountLowThreshold),
		cwnd_mtus_initial:                     C.size_t(o.CwndMTUsInitial),
		cwnd_mtus_min:                         C.size_t(o.CwndMTUsMin),
		rtt_max:                               nanoseconds(o.RTTMax),
		rto_initial:                           nanoseconds(o.RTOInitial),
		rto_max:                               nanoseconds(o.RTOMax),
		rto_min:                               nanoseconds(o.RTOMin),
		t1_init_timeout:                       nanoseconds(o.T1InitTimeout),
		t1_cookie_timeout:                     nanoseconds(o.T1CookieTimeout),
		cookie_lifetime:                       nanoseconds(o.CookieLifetime),
		max_timer_backoff_duration:            nanoseconds(o.MaxTimerBackoffDuration),
		heartbeat_interval:                    nanoseconds(o.HeartbeatInterval),
		delayed_ack_max_timeout:               nanoseconds(o.DelayedAckMaxTimeout),
		min_rtt_variance:                      nanoseconds(o.MinRTTVariance),
		max_burst:                             C.int32_t(o.MaxBurst),
		max_retransmissions:                   C.uint32_t(o.MaxRetransmissions),
		max_init_retransmits:                  C.uint32_t(o.MaxInitRetransmits),
		zero_checksum_method:                  C.uint32_t(o.ZeroChecksumMethod),
		enable_partial_reliability:            number(o.EnablePartialReliability),
		enable_message_interleaving:           number(o.EnableMessageInterleaving),
		disable_checksum_verification:         number(o.DisableChecksumVerification),
		enable_handover_with_outstanding_data: number(o.EnableHandoverWithOutstandingData),
		local_port:                            C.uint16_t(o.LocalPort),
		remote_port:                           C.uint16_t(o.RemotePort),
		announced_maximum_incoming_streams:    C.uint16_t(o.AnnouncedMaximumIncomingStreams),
		announced_maximum_outgoing_streams:    C.uint16_t(o.AnnouncedMaximumOutgoingStreams),
		default_stream_priority:               C.uint16_t(o.DefaultStreamPriority),
		checksum_offload:                      C.uint16_t(number(o.ChecksumOffload)),
		follow_rfc:                            number(o.FollowRFC),
	}
}

func optionsOf(it *C.dcsctp_options) Options {
	return Options{
		MTU:                                     uint(it.mtu),
		MaxMessageSize:                          uint(it.max_message_size),
		MaxReceiverWindowBufferSize:             uint(it.max_receiver_window_buffer_size),
		MaxSendBufferSize:                       uint(it.max_send_buffer_size),
		PerStreamSendQueueLimit:                 uint(it.per_stream_send_queue_limit),
		TotalBufferedAmountLowThreshold:         uint(it.total_buffered_amount_low_threshold),
		DefaultStreamBufferedAmountLowThreshold: uint(it.default_stream_buffered_amount_low_threshold),
		CwndMTUsInitial:                         uint(it.cwnd_mtus_initial),
		CwndMTUsMin:                             uint(it.cwnd_mtus_min),
		RTTMax:                                  duration(it.rtt_max),
		RTOInitial:                              duration(it.rto_initial),
		RTOMax:                                  duration(it.rto_max),
		RTOMin:                                  duration(it.rto_min),
		T1InitTimeout:                           duration(it.t1_init_timeout),
		T1CookieTimeout:                         duration(it.t1_cookie_timeout),
		CookieLifetime:                          duration(it.cookie_lifetime),
		MaxTimerBackoffDuration:                 duration(it.max_timer_backoff_duration),
		HeartbeatInterval:                       duration(it.heartbeat_interval),
		DelayedAckMaxTimeout:                    duration(it.delayed_ack_max_timeout),
		MinRTTVariance:                          duration(it.min_rtt_variance),
		MaxBurst:                                int32(it.max_burst),
		MaxRetransmissions:                      uint32(it.max_retransmissions),
		MaxInitRetransmits:                      uint32(it.max_init_retransmits),
		ZeroChecksumMethod:                      uint32(it.zero_checksum_method),
		EnablePartialReliability:                it.enable_partial_reliability != 0,
		EnableMessageInterleaving:               it.enable_message_interleaving != 0,
		DisableChecksumVerification:             it.disable_checksum_verification != 0,
		EnableHandoverWithOutstandingData:       it.enable_handover_with_outstanding_data != 0,
		LocalPort:                               uint16(it.local_port),
		RemotePort:                              uint16(it.remote_port),
		AnnouncedMaximumIncomingStreams:         uint16(it.announced_maximum_incoming_streams),
		AnnouncedMaximumOutgoingStreams:         uint16(it.announced_maximum_outgoing_streams),
		DefaultStreamPriority:                   uint16(it.default_stream_priority),
		ChecksumOffload:                         it.checksum_offload != 0,
		FollowRFC:                               it.follow_rfc != 0,
	}
}

func number(it bool) C.uint32_t {
	if it {
		return 1
	}
	return 0
}

// Message is a message that has arrived, or that SendMany sends. PPID is the payload protocol identifier (RFC 8831,
// section 8).
type Message struct {
	StreamID uint16
	PPID     uint32
	Payload  []byte
}

// SendOptions say how a message is sent. By default: in order, until it is acknowledged.
type SendOptions struct {
	LifecycleID uint64 // the name in Lifecycle.. events; 0: there are none
	Unordered   bool
	// A message is abandoned if it isn't acknowledged by then, or rather than sent again more often. Both need partial
	// reliability (RFC 3758) at both ends. Limit makes them.
	Lifetime           *time.Duration
	MaxRetransmissions *uint16
}

// Limit makes a limit of SendOptions or ChannelOptions, or a stream of the latter.
func Limit[T time.Duration | uint16 | uint32](it T) *T {
	return &it
}

func (o *SendOptions) inC() C.dcsctp_send_options {
	how := C.dcsctp_send_options{lifecycle_id: C.uint64_t(o.LifecycleID)}
	if o.Unordered {
		how.flags |= C.DCSCTP_SEND_UNORDERED
	}
	if o.Lifetime != nil {
		how.flags |= C.DCSCTP_SEND_LIFETIME
		how.lifetime = nanoseconds(*o.Lifetime)
	}
	if o.MaxRetransmissions != nil {
		how.flags |= C.DCSCTP_SEND_MAX_RETRANSMISSIONS
		how.max_retransmissions = C.uint16_t(*o.MaxRetransmissions)
	}
	return how
}

// State is the state of a socket.
type State int32

// The states.
const (
	NoSocket          State = C.DCSCTP_ERROR_NO_SOCKET
	StateClosed       State = C.DCSCTP_STATE_CLOSED
	StateConnecting   State = C.DCSCTP_STATE_CONNECTING
	StateConnected    State = C.DCSCTP_STATE_CONNECTED
	StateShuttingDown State = C.DCSCTP_STATE_SHUTTING_DOWN
)

// Peer is which program the peer runs, by its cookie.
type Peer uint32

// The programs.
const (
	PeerUnknown  Peer = C.DCSCTP_PEER_UNKNOWN
	PeerDcsctpRs Peer = C.DCSCTP_PEER_DCSCTP_RS
	PeerDcsctpCc Peer = C.DCSCTP_PEER_DCSCTP_CC
	PeerUsrsctp  Peer = C.DCSCTP_PEER_USRSCTP
	PeerOther    Peer = C.DCSCTP_PEER_OTHER
)

// Why a socket can't be handed over.
const (
	HandoverWrongConnectionState               uint32 = C.DCSCTP_HANDOVER_WRONG_CONNECTION_STATE
	HandoverSendQueueNotEmpty                  uint32 = C.DCSCTP_HANDOVER_SEND_QUEUE_NOT_EMPTY
	HandoverPendingStreamResetRequest          uint32 = C.DCSCTP_HANDOVER_PENDING_STREAM_RESET_REQUEST
	HandoverDataTrackerTSNBlocksPending        uint32 = C.DCSCTP_HANDOVER_DATA_TRACKER_TSN_BLOCKS_PENDING
	HandoverPendingStreamReset                 uint32 = C.DCSCTP_HANDOVER_PENDING_STREAM_RESET
	HandoverStreamResetDeferred                uint32 = C.DCSCTP_HANDOVER_STREAM_RESET_DEFERRED
	HandoverStreamHasUnassembledChunks         uint32 = C.DCSCTP_HANDOVER_STREAM_HAS_UNASSEMBLED_CHUNKS
	HandoverRetransmissionQueueOutstandingData uint32 = C.DCSCTP_HANDOVER_RETRANSMISSION_QUEUE_OUTSTANDING_DATA
	HandoverRetransmissionQueueFastRecovery    uint32 = C.DCSCTP_HANDOVER_RETRANSMISSION_QUEUE_FAST_RECOVERY
	HandoverRetransmissionQueueNotEmpty        uint32 = C.DCSCTP_HANDOVER_RETRANSMISSION_QUEUE_NOT_EMPTY
	HandoverChannelsUnsettled                  uint32 = C.DCSCTP_HANDOVER_CHANNELS_UNSETTLED
	HandoverEventsNotTaken                     uint32 = C.DCSCTP_HANDOVER_EVENTS_NOT_TAKEN
)

// Metrics are counts since the socket was created, and the present state of the association. dcsctp.h describes each.
type Metrics struct {
	RtxBytesCount                    uint64
	SRTT                             time.Duration
	TxPacketsCount                   uint
	TxMessagesCount                  uint
	RtxPacketsCount                  uint
	CwndBytes                        uint
	UnackDataCount                   uint
	RxPacketsCount                   uint
	RxMessagesCount                  uint
	PeerRwndBytes                    uint32
	PeerImplementation               Peer
	UsesMessageInterleaving          bool
	UsesZeroChecksum                 bool
	NegotiatedMaximumIncomingStreams uint16
	NegotiatedMaximumOutgoingStreams uint16
}

func metricsOf(it *C.dcsctp_metrics) *Metrics {
	return &Metrics{
		RtxBytesCount:                    uint64(it.rtx_bytes_count),
		SRTT:                             duration(it.srtt),
		TxPacketsCount:                   uint(it.tx_packets_count),
		TxMessagesCount:                  uint(it.tx_messages_count),
		RtxPacketsCount:                  uint(it.rtx_packets_count),
		CwndBytes:                        uint(it.cwnd_bytes),
		UnackDataCount:                   uint(it.unack_data_count),
		RxPacketsCount:                   uint(it.rx_packets_count),
		RxMessagesCount:                  uint(it.rx_messages_count),
		PeerRwndBytes:                    uint32(it.peer_rwnd_bytes),
		PeerImplementation:               Peer(it.peer_implementation),
		UsesMessageInterleaving:          it.uses_message_interleaving != 0,
		UsesZeroChecksum:                 it.uses_zero_checksum != 0,
		NegotiatedMaximumIncomingStreams: uint16(it.negotiated_maximum_incoming_streams),
		NegotiatedMaximumOutgoingStreams: uint16(it.negotiated_maximum_outgoing_streams),
	}
}

// Counts are counts since the socket was created.
type Counts struct {
	RxPacketsCount  uint // packets handed in, readable or not
	TxPacketsCount  uint // packets sent
	TxMessagesCount uint // messages that Send accepted
}

// Version returns the version of the library: major, minor and patch, and whether it was built with proofs.
func Version() (major, minor, patch int, isProved bool) {
	number := C.dcsctp_version()
	return int(number >> 16 & 0xff), int(number >> 8 & 0xff), int(number & 0xff), number&C.DCSCTP_VERSION_UNPROVED == 0
}
