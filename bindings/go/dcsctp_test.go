package dcsctp

import (
	"bytes"
	"encoding/binary"
	"math/rand"
	"reflect"
	"runtime"
	"sync"
	"testing"
	"time"
)

func socket(t *testing.T) *Socket {
	options := DefaultOptions()
	options.MaxMessageSize, options.MaxSendBufferSize = 30000, 40000
	s, err := New(options, nil, time.Hour)
	if err != nil {
		t.Fatal(err)
	}
	t.Cleanup(s.Destroy)
	return s
}

// expect fails unless an error is the one that is expected.
func expect(t *testing.T, name string, got, expected error) {
	t.Helper()
	if got != expected {
		t.Errorf("%s: %v, not %v", name, got, expected)
	}
}

// callsWithoutSocket makes each call on a socket that isn't there.
func callsWithoutSocket(t *testing.T, s *Socket) {
	t.Helper()
	_, many := s.SendMany([]Message{{1, 51, []byte("hello")}}, SendOptions{})
	_, none := s.SendMany(nil, SendOptions{})
	_, handover := s.GetHandoverStateAndClose()
	_, snapshot := s.HandoverBytes()
	for name, err := range map[string]error{
		"Connect":                       s.Connect(),
		"Shutdown":                      s.Shutdown(),
		"Close":                         s.Close(),
		"HandleInput":                   s.HandleInput([]byte("packet")),
		"AdvanceTime":                   s.AdvanceTime(5),
		"Send":                          s.Send(1, 51, []byte("hello"), SendOptions{}),
		"SendMany":                      many,
		"SendMany of none":              none,
		"ResetStreams":                  s.ResetStreams(1),
		"SetBufferedAmountLowThreshold": s.SetBufferedAmountLowThreshold(1, 5),
		"SetStreamPriority":             s.SetStreamPriority(1, 5),
		"SetMaxMessageSize":             s.SetMaxMessageSize(5),
		"GetHandoverStateAndClose":      handover,
		"HandoverBytes":                 snapshot,
		"RestoreFromState":              s.RestoreFromState([]byte("no snapshot")),
	} {
		expect(t, name, err, ErrNoSocket)
	}
	_, hasDeadline := s.PollTimeout()
	if hasDeadline || s.PollEvent() != nil || s.GetNextMessage() != nil || s.MessagesReadyCount() != 0 {
		t.Error("a poll has something")
	}
	if s.Metrics() != nil || s.HasFailed() || s.State() != NoSocket || s.HandoverReadiness()+s.VerificationTag() != 0 {
		t.Error("a query answers")
	}
	if s.BufferedAmount(1) != 0 || s.BufferedAmountLowThreshold(1) != 0 || s.StreamPriority(1) != 0 {
		t.Error("a query of a stream answers")
	}
	if s.Options() != DefaultOptions() || s.Counts() != (Counts{}) {
		t.Error("other options, or counts")
	}
	s.Destroy()
}

func TestCallsWithoutSocketReturnAnError(t *testing.T) {
	callsWithoutSocket(t, new(Socket))
	s := socket(t)
	s.Destroy()
	callsWithoutSocket(t, s)
}

func TestCopyIsNoSocket(t *testing.T) {
	s := socket(t)
	expect(t, "connect", s.Connect(), nil)
	copied := reflect.New(reflect.TypeOf(s).Elem())
	copied.Elem().Set(reflect.ValueOf(s).Elem())
	callsWithoutSocket(t, copied.Interface().(*Socket))
	if s.State() != StateConnecting {
		t.Error("the socket has changed")
	}
}

func TestForgottenSocketsAreFreed(t *testing.T) {
	for range make([]struct{}, 1000) {
		if _, err := New(DefaultOptions(), nil, 0); err != nil {
			t.Fatal(err)
		}
	}
	runtime.GC()
}

func TestOptionsComeBack(t *testing.T) {
	options := DefaultOptions()
	if options.MTU != 1191 || options.MaxTimerBackoffDuration != 3*time.Second || options.MaxRetransmissions != 60 ||
		!options.FollowRFC {
		t.Errorf("other defaults: %+v", options)
	}
	// each field has another value
	value := reflect.ValueOf(&options).Elem()
	for at := 0; at < value.NumField(); at++ {
		switch field := value.Field(at); field.Kind() {
		case reflect.Bool:
			field.SetBool(!field.Bool())
		case reflect.Int64, reflect.Int32:
			field.SetInt(int64(at) + 100)
		default:
			field.SetUint(uint64(at) + 100)
		}
	}
	s, err := New(options, &[32]byte{1}, 0)
	if err != nil {
		t.Fatal(err)
	}
	defer s.Destroy()
	options.DisableChecksumVerification = false // (it has no effect with ChecksumOffload)
	if s.Options() != options {
		t.Errorf("%+v, not %+v", s.Options(), options)
	}
}

func TestSeedOfZerosIsRefused(t *testing.T) {
	if _, err := New(DefaultOptions(), new([32]byte), 0); err != ErrInvalidOptions {
		t.Errorf("%v, not %v", err, ErrInvalidOptions)
	}
	for at := 0; at < 32; at++ {
		seed := new([32]byte)
		seed[at] = 1
		s, err := New(DefaultOptions(), seed, 0)
		if err != nil {
			t.Fatal(at, err)
		}
		s.Destroy()
	}
}

func TestSettingsOfAStreamAreKept(t *testing.T) {
	s := socket(t)
	expect(t, "threshold", s.SetBufferedAmountLowThreshold(3, 77), nil)
	expect(t, "priority", s.SetStreamPriority(3, 9), nil)
	if s.BufferedAmountLowThreshold(3) != 77 || s.BufferedAmountLowThreshold(4) != 0 {
		t.Error("another threshold")
	}
	if s.StreamPriority(3) != 9 || s.StreamPriority(4) != 256 {
		t.Error("another priority")
	}
}

func TestSendOptionsSetTheirFieldsAndFlags(t *testing.T) {
	lifetime, count := Limit(9*time.Nanosecond), Limit(uint16(3))
	for flags, options := range map[uint32]SendOptions{
		0: {},
		1: {Unordered: true},
		2: {Lifetime: lifetime},
		4: {MaxRetransmissions: count},
		7: {LifecycleID: 7, Unordered: true, Lifetime: lifetime, MaxRetransmissions: count},
	} {
		how := options.inC()
		if uint32(how.flags) != flags || uint64(how.lifecycle_id) != options.LifecycleID {
			t.Errorf("%+v of %d", how, flags)
		}
		if (how.lifetime == 9) != (flags&2 != 0) || (how.max_retransmissions == 3) != (flags&4 != 0) {
			t.Errorf("%+v of %d", how, flags)
		}
	}
}

func TestLongMessageComesBackWhole(t *testing.T) {
	ends := []*Socket{socket(t), socket(t)}
	payload := bytes.Repeat([]byte("0123456789"), 2560)
	expect(t, "connect", ends[0].Connect(), nil)
	expect(t, "send", ends[0].Send(3, 53, payload, SendOptions{}), nil)
	for round := 0; round < 80; round++ {
		for event := ends[round%2].PollEvent(); event != nil; event = ends[round%2].PollEvent() {
			if it, ok := event.(SendPacket); ok {
				expect(t, "a packet", ends[1-round%2].HandleInput(it.Packet), nil)
			}
		}
	}
	if count := ends[1].MessagesReadyCount(); count != 1 {
		t.Fatalf("%d messages", count)
	}
	if got := ends[1].GetNextMessage(); !reflect.DeepEqual(*got, Message{3, 53, payload}) {
		t.Error("another message")
	}
	if ends[0].Metrics().PeerImplementation != PeerDcsctpRs {
		t.Error("another peer")
	}
}

// carry takes all events of a socket. Its packets go to the other one. It returns how many there were.
func carry(t *testing.T, from, to *Socket) uint {
	t.Helper()
	var packets uint
	for event := from.PollEvent(); event != nil; event = from.PollEvent() {
		if it, ok := event.(SendPacket); ok {
			expect(t, "a packet", to.HandleInput(it.Packet), nil)
			packets++
		}
	}
	return packets
}

// settle carries packets both ways until none is left. It returns how many each has sent.
func settle(t *testing.T, a, b *Socket) (ofA, ofB uint) {
	t.Helper()
	for {
		moreOfA, moreOfB := carry(t, a, b), carry(t, b, a)
		ofA, ofB = ofA+moreOfA, ofB+moreOfB
		if moreOfA+moreOfB == 0 {
			return ofA, ofB
		}
	}
}

func socketOf(t *testing.T, change func(*Options)) *Socket {
	t.Helper()
	options := DefaultOptions()
	change(&options)
	s, err := New(options, nil, time.Hour)
	if err != nil {
		t.Fatal(err)
	}
	t.Cleanup(s.Destroy)
	return s
}

func connected(t *testing.T, change func(*Options)) (a, b *Socket) {
	t.Helper()
	a, b = socketOf(t, change), socketOf(t, change)
	expect(t, "connect", a.Connect(), nil)
	// INIT and COOKIE ECHO; INIT ACK and COOKIE ACK (RFC 9260, section 5.1)
	if ofA, ofB := settle(t, a, b); ofA != 2 || ofB != 2 {
		t.Fatalf("%d packets, and %d", ofA, ofB)
	}
	return a, b
}

func TestEventsAndMessagesThatALoopLeavesAreStillThere(t *testing.T) {
	a, b := connected(t, func(*Options) {})
	for _, text := range []string{"one", "two", "three"} {
		expect(t, "send", a.Send(1, 51, []byte(text), SendOptions{}), nil)
	}
	settle(t, a, b)
	var taken []string
	b.Messages()(func(it *Message) bool {
		taken = append(taken, string(it.Payload))
		return len(taken) != 1
	})
	if len(taken) != 1 || b.MessagesReadyCount() != 2 {
		t.Errorf("taken: %v, left: %d", taken, b.MessagesReadyCount())
	}
	b.Messages()(func(it *Message) bool {
		taken = append(taken, string(it.Payload))
		return true
	})
	if !reflect.DeepEqual(taken, []string{"one", "two", "three"}) {
		t.Errorf("taken: %v", taken)
	}
	expect(t, "close", b.Close(), nil)
	var names []string
	for round := 0; round < 3; round++ {
		b.Events()(func(it Event) bool {
			names = append(names, it.Name())
			return false
		})
	}
	if !reflect.DeepEqual(names, []string{"send packet", "closed"}) {
		t.Errorf("events: %v", names)
	}
}

func TestCountsOutlastTheirAssociation(t *testing.T) {
	if s := socket(t); s.Counts() != (Counts{}) {
		t.Errorf("a new socket has counted %+v", s.Counts())
	}
	a, b := connected(t, func(*Options) {})
	for round := 0; round < 3; round++ {
		expect(t, "send", a.Send(1, 51, []byte("hello"), SendOptions{}), nil)
	}
	ofA, ofB := settle(t, a, b)
	expect(t, "close", a.Close(), nil)
	lastOfA, lastOfB := settle(t, a, b)
	ofA, ofB = 2+ofA+lastOfA, 2+ofB+lastOfB
	if a.Metrics() != nil || b.Metrics() != nil || b.State() != StateClosed {
		t.Error("the association hasn't ended")
	}
	if expected := (Counts{ofB, ofA, 3}); a.Counts() != expected {
		t.Errorf("A has counted %+v, not %+v", a.Counts(), expected)
	}
	if expected := (Counts{ofA, ofB, 0}); b.Counts() != expected {
		t.Errorf("B has counted %+v, not %+v", b.Counts(), expected)
	}
}

func TestVerificationTagIsThatOfThePacketsOfThePeer(t *testing.T) {
	if s := socket(t); s.VerificationTag() != 0 {
		t.Error("a new socket has a tag")
	}
	a, b := connected(t, func(*Options) {})
	for _, it := range [][2]*Socket{{a, b}, {b, a}} {
		expect(t, "send", it[0].Send(1, 51, []byte("hello"), SendOptions{}), nil)
		tag, packets := it[1].VerificationTag(), 0
		for event := it[0].PollEvent(); event != nil; event = it[0].PollEvent() {
			if it, ok := event.(SendPacket); ok {
				packets++
				// (RFC 9260, section 3.1)
				if binary.BigEndian.Uint32(it.Packet[4:]) != tag {
					t.Errorf("%v hasn't the tag %d", it.Packet, tag)
				}
			}
		}
		if tag == 0 || packets != 1 {
			t.Errorf("tag %d, %d packets", tag, packets)
		}
	}
	expect(t, "close", a.Close(), nil)
	if a.VerificationTag() != 0 {
		t.Error("a closed socket has a tag")
	}
}

func TestChecksumsAreLeftToWhoMakesThem(t *testing.T) {
	a, b := connected(t, func(o *Options) { o.ChecksumOffload = true })
	expect(t, "send", a.Send(1, 51, []byte("hello"), SendOptions{}), nil)
	for event := a.PollEvent(); event != nil; event = a.PollEvent() {
		if it, ok := event.(SendPacket); ok {
			// (RFC 9260, section 3.1)
			if binary.BigEndian.Uint32(it.Packet[8:]) != 0 {
				t.Errorf("%v has a checksum", it.Packet)
			}
			it.Packet[8] = 1
			expect(t, "a packet", b.HandleInput(it.Packet), nil)
		}
	}
	if b.MessagesReadyCount() != 1 {
		t.Error("no message came")
	}
}

func TestMessageOutlastsItsAssociationByFollowRFC(t *testing.T) {
	for _, followRFC := range []bool{true, false} {
		a, b := connected(t, func(it *Options) { it.FollowRFC = followRFC })
		var expected, taken []Message
		for _, it := range []Message{{1, 51, []byte("hello")}, {2, 53, []byte("good bye")}} {
			expect(t, "send", a.Send(it.StreamID, it.PPID, it.Payload, SendOptions{}), nil)
			if followRFC {
				expected = append(expected, it)
			}
		}
		expect(t, "close", a.Close(), nil)
		settle(t, a, b)
		if b.State() != StateClosed {
			t.Error("the association hasn't ended")
		}
		for it := b.GetNextMessage(); it != nil; it = b.GetNextMessage() {
			taken = append(taken, *it)
		}
		if !reflect.DeepEqual(taken, expected) {
			t.Errorf("FollowRFC %v: %v, not %v", followRFC, taken, expected)
		}
	}
}

func TestMessageIsLostWhenTheNextAssociationBegins(t *testing.T) {
	a, b := connected(t, func(*Options) {})
	expect(t, "send", a.Send(1, 51, []byte("hello"), SendOptions{}), nil)
	expect(t, "close", a.Close(), nil)
	settle(t, a, b)
	if b.State() != StateClosed || b.MessagesReadyCount() != 1 {
		t.Errorf("state %d, %d messages", b.State(), b.MessagesReadyCount())
	}
	expect(t, "connect", a.Connect(), nil)
	settle(t, a, b)
	if b.State() != StateConnected || b.GetNextMessage() != nil {
		t.Errorf("state %d, or a message", b.State())
	}
}

func TestSnapshotIsForTheOptionsThatItWasMadeWith(t *testing.T) {
	a, b := connected(t, func(*Options) {})
	snapshot, err := a.GetHandoverStateAndClose()
	expect(t, "handover", err, nil)
	for name, change := range map[string]func(*Options){
		"local port":   func(it *Options) { it.LocalPort = 5001 },
		"remote port":  func(it *Options) { it.RemotePort = 5001 },
		"incoming":     func(it *Options) { it.AnnouncedMaximumIncomingStreams = 9 },
		"outgoing":     func(it *Options) { it.AnnouncedMaximumOutgoingStreams = 9 },
		"reliability":  func(it *Options) { it.EnablePartialReliability = false },
		"interleaving": func(it *Options) { it.EnableMessageInterleaving = true },
		"checksums":    func(it *Options) { it.ZeroChecksumMethod = 1 },
	} {
		other := socketOf(t, change)
		expect(t, name, other.RestoreFromState(snapshot), ErrOtherOptions)
		if other.State() != StateClosed || other.PollEvent() != nil {
			t.Errorf("%s: it has changed", name)
		}
	}
	same := socketOf(t, func(it *Options) { it.MaxMessageSize = 1000 })
	for _, place := range []int{0, len(snapshot) / 2, len(snapshot) - 1} {
		changed := append([]byte{}, snapshot...)
		changed[place] ^= 1
		expect(t, "a changed byte", same.RestoreFromState(changed), ErrInvalidSnapshot)
	}
	expect(t, "restore", same.RestoreFromState(snapshot), nil)
	expect(t, "send", same.Send(1, 51, []byte("after"), SendOptions{}), nil)
	settle(t, same, b)
	if it := b.GetNextMessage(); it == nil || string(it.Payload) != "after" {
		t.Error("no message, or another")
	}
}

// connectAgain closes both ends and connects them: whatever was before, that succeeds once no packet is under way.
func connectAgain(t *testing.T, ends []*Socket) {
	t.Helper()
	for _, s := range ends {
		expect(t, "close", s.Close(), nil)
		for s.PollEvent() != nil {
		}
	}
	expect(t, "connect", ends[0].Connect(), nil)
	settle(t, ends[0], ends[1])
	if ends[0].State() != StateConnected || ends[1].State() != StateConnected {
		t.Errorf("states %d and %d", ends[0].State(), ends[1].State())
	}
}

// callsInAnyOrder makes any calls on two ends, and notes what they are answered.
func callsInAnyOrder(t *testing.T, chance *rand.Rand, followRFC bool, seen map[error]bool) {
	t.Helper()
	change := func(it *Options) { it.MaxMessageSize, it.MaxSendBufferSize, it.FollowRFC = 30000, 40000, followRFC }
	ends, packets := []*Socket{socketOf(t, change), socketOf(t, change)}, [2][][]byte{}
	now, snapshot := [2]time.Duration{time.Hour, time.Hour}, []byte{}
	for step := 0; step < 2000; step++ {
		at := chance.Intn(2)
		s := ends[at]
		var err error
		switch kind := chance.Intn(200); {
		case kind < 60:
			switch it := s.PollEvent().(type) {
			case SendPacket:
				packets[1-at] = append(packets[1-at], it.Packet)
			case UnknownEvent:
				t.Errorf("an event of kind %d", it.Kind)
			}
		case kind < 120:
			packet := make([]byte, chance.Intn(60))
			chance.Read(packet)
			if len(packets[at]) > 0 && chance.Intn(20) > 0 {
				packet, packets[at] = packets[at][0], packets[at][1:]
			}
			err = s.HandleInput(packet)
		case kind < 150:
			payload := make([]byte, []int{0, 10, 10, 3000, 40000}[chance.Intn(5)])
			err = s.Send(uint16(chance.Intn(3)), 51, payload, SendOptions{Unordered: chance.Intn(2) == 0})
			results, failure := s.SendMany(make([]Message, chance.Intn(3)), SendOptions{})
			for _, result := range results {
				expect(t, "a message without bytes", result, results[0])
			}
			expect(t, "many", failure, nil)
		case kind < 170:
			s.GetNextMessage()
		case kind < 180:
			now[at] += time.Duration(chance.Intn(300)) * time.Millisecond
			err = s.AdvanceTime(now[at])
		case kind < 185:
			err = s.ResetStreams([]uint16{0, 1, 1}[:chance.Intn(4)]...)
		case kind < 195:
			err = s.Connect()
		default:
			switch chance.Intn(6) {
			case 0:
				err = s.Shutdown()
			case 1:
				err = s.Close()
			case 2:
				snapshot, err = s.GetHandoverStateAndClose()
			case 3:
				_, err = s.HandoverBytes()
			case 4:
				s.Destroy()
				ends[at], now[at] = socketOf(t, change), time.Hour
				err = ends[at].RestoreFromState(snapshot)
			}
		}
		seen[err] = true
	}
	connectAgain(t, ends)
}

func TestCallsInAnyOrderReturn(t *testing.T) {
	chance, seen := rand.New(rand.NewSource(1)), map[error]bool{}
	for run := 0; run < 20; run++ {
		callsInAnyOrder(t, chance, run%2 == 0, seen)
	}
	for _, err := range []error{ErrEmptyPayload, ErrMessageTooLarge, ErrNotConnected, ErrInvalidSnapshot} {
		if !seen[err] {
			t.Errorf("no call was answered: %v", err)
		}
	}
	if seen[ErrNoSocket] || seen[ErrOutOfMemory] || seen[ErrBufferTooSmall] {
		t.Errorf("a call was answered by one of %v", seen)
	}
}

func TestGoroutinesShareASocket(t *testing.T) {
	a, b := socket(t), socket(t)
	expect(t, "connect", a.Connect(), nil)
	var group sync.WaitGroup
	for _, ends := range [][2]*Socket{{a, b}, {b, a}, {a, b}} {
		from, to := ends[0], ends[1]
		group.Add(1)
		go func() {
			defer group.Done()
			for round := 0; round < 300; round++ {
				_ = from.Send(1, 53, []byte("hello"), SendOptions{})
				for event := from.PollEvent(); event != nil; event = from.PollEvent() {
					if it, ok := event.(SendPacket); ok {
						_ = to.HandleInput(it.Packet)
					}
				}
				for from.GetNextMessage() != nil {
				}
			}
		}()
	}
	group.Wait()
	if a.HasFailed() || b.HasFailed() {
		t.Error("a socket has failed")
	}
}
