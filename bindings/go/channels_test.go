package dcsctp

import (
	"bytes"
	"reflect"
	"runtime"
	"strings"
	"testing"
	"time"
)

// party is one end with channels, and what it has reported.
type party struct {
	t        *testing.T
	channels *Channels
	events   []Event // but for packets and ChannelBufferedAmountLow
	low      int
}

// parties are two ends. A is the DTLS client.
type parties struct {
	t    *testing.T
	a, b party
	now  time.Duration
}

func newParties(t *testing.T, followRFC bool, limits ChannelLimits) *parties {
	t.Helper()
	p := &parties{t: t, now: time.Hour}
	options := DefaultOptions()
	options.FollowRFC = followRFC
	for index, it := range []*party{&p.a, &p.b} {
		channels, err := NewChannels(options, limits, nil, p.now)
		if err != nil {
			t.Fatal(err)
		}
		t.Cleanup(channels.Destroy)
		*it = party{t: t, channels: channels}
		if index == 1 {
			expect(t, "role", channels.SetRole(false), nil)
			limits = ChannelLimits{}
		}
	}
	return p
}

func connectedParties(t *testing.T, followRFC bool, limits ChannelLimits) *parties {
	t.Helper()
	p := newParties(t, followRFC, limits)
	expect(t, "role", p.a.channels.SetRole(true), nil)
	expect(t, "connect", p.a.channels.Connect(), nil)
	p.settle()
	p.a.reported(Connected{})
	p.b.reported(Connected{})
	return p
}

// carry takes all events. Packets go to the peer. It returns how many there were.
func (p *party) carry(to *party) (packets int) {
	p.channels.Events()(func(event Event) bool {
		switch it := event.(type) {
		case SendPacket:
			expect(p.t, "packet", to.channels.HandleInput(it.Packet), nil)
			packets++
		case ChannelBufferedAmountLow:
			p.low++
		default:
			p.events = append(p.events, event)
		}
		return true
	})
	return packets
}

// settle lets a second pass, so that all is acknowledged.
func (p *parties) settle() {
	p.t.Helper()
	for step := 0; step < 10; step++ {
		for p.a.carry(&p.b)+p.b.carry(&p.a) > 0 {
		}
		p.now += 100 * time.Millisecond
		expect(p.t, "time", p.a.channels.AdvanceTime(p.now), nil)
		expect(p.t, "time", p.b.channels.AdvanceTime(p.now), nil)
	}
}

// reported fails unless these are the events since the last time.
func (p *party) reported(events ...Event) {
	p.t.Helper()
	if !reflect.DeepEqual(p.events, events) {
		p.t.Fatalf("%+v, not %+v", p.events, events)
	}
	p.events = nil
}

// opened returns a channel that A opens, at both ends.
func (p *parties) opened(options ChannelOptions) (*Channel, *Channel) {
	p.t.Helper()
	ofA, err := p.a.channels.Open(options)
	expect(p.t, "open", err, nil)
	p.settle()
	p.a.reported(ChannelOpened{ofA})
	if len(p.b.events) != 1 {
		p.t.Fatalf("%+v", p.b.events)
	}
	event, ok := p.b.events[0].(ChannelIncoming)
	if !ok {
		p.t.Fatalf("%+v", p.b.events)
	}
	p.b.events = nil
	return ofA, event.Channel
}

// each runs a test with FollowRFC and without.
func each(t *testing.T, test func(t *testing.T, p *parties)) {
	for _, followRFC := range []bool{true, false} {
		test(t, connectedParties(t, followRFC, ChannelLimits{}))
	}
}

func TestChannelIsAtThePeerAsItWasOpened(t *testing.T) {
	each(t, func(t *testing.T, p *parties) {
		for index, options := range []ChannelOptions{
			{Priority: 256},
			{Label: "chat", Protocol: "grüße", Unordered: true, MaxRetransmits: Limit(uint32(0)), Priority: 128},
			{Protocol: "p", MaxRetransmits: Limit(uint32(4294967295)), Priority: 1024},
			{Label: "a\x00b", Unordered: true, MaxLifetime: Limit(66051 * time.Millisecond), Priority: 512},
		} {
			ofA, ofB := p.opened(options)
			for _, it := range []*Channel{ofA, ofB} {
				if !reflect.DeepEqual(it.Options(), options) || it.Label() != options.Label {
					t.Errorf("%+v, not %+v", it.Options(), options)
				}
				// RFC 8832, section 6
				if stream, ok := it.Stream(); !ok || int(stream) != 2*index || it.State() != ChannelStateOpen {
					t.Errorf("stream %d of %d, state %d", stream, index, it.State())
				}
			}
		}
		ofA, _ := p.opened(ChannelOptions{})
		if ofA.Options().Priority != 256 || p.a.channels.StreamsInUse() != 5 {
			t.Error("another priority, or streams")
		}
	})
}

func TestTextAndBytesComeBack(t *testing.T) {
	each(t, func(t *testing.T, p *parties) {
		ofA, ofB := p.opened(ChannelOptions{Label: "chat"})
		texts := []string{"hello", "grüße ∞", "", "a\x00b", strings.Repeat("x", 70000)}
		for _, text := range texts {
			expect(t, "text", ofA.SendText(text), nil)
			expect(t, "bytes", ofA.Send([]byte(text)), nil)
			p.settle()
			p.b.reported(ChannelMessage{ofB, true, []byte(text)}, ChannelMessage{ofB, false, []byte(text)})
		}
		expect(t, "nothing", ofB.Send(nil), nil)
		p.settle()
		p.a.reported(ChannelMessage{ofA, false, []byte{}})
		size := uint64(2 * len(strings.Join(texts, "")))
		if *ofA.Metrics() != (ChannelMetrics{10, size, 1, 0}) || *ofB.Metrics() != (ChannelMetrics{1, 0, 10, size}) {
			t.Errorf("%+v, %+v", ofA.Metrics(), ofB.Metrics())
		}
	})
}

func TestEitherEndClosesAndTheStreamIsUsedAgain(t *testing.T) {
	each(t, func(t *testing.T, p *parties) {
		numbers := map[uint64]bool{}
		for who := 1; who < 4; who++ {
			ofA, ofB := p.opened(ChannelOptions{Label: "chat"})
			if stream, ok := ofA.Stream(); !ok || stream != 0 {
				t.Errorf("stream %d", stream)
			}
			if who&1 != 0 {
				expect(t, "close", ofA.Close(), nil)
			}
			if who&2 != 0 {
				expect(t, "close", ofB.Close(), nil)
			}
			p.settle()
			p.a.reported(ChannelClosed{ofA, ChannelClosedByResets})
			p.b.reported(ChannelClosed{ofB, ChannelClosedByResets})
			for _, it := range []*Channel{ofA, ofB} {
				expect(t, "late", it.SendText("late"), ErrNoChannel)
				expect(t, "again", it.Close(), nil)
				expect(t, "threshold", it.SetBufferedAmountLowThreshold(1), ErrNoChannel)
				if _, ok := it.Stream(); ok || it.State() != ChannelStateClosed || it.Metrics() != nil {
					t.Error("it isn't closed")
				}
			}
			numbers[ofA.Number()] = true
		}
		if len(numbers) != 3 || len(p.a.channels.known)+len(p.b.channels.known) != 0 {
			t.Error("a number was given twice, or is still known")
		}
		if p.a.channels.StreamsInUse()+p.b.channels.StreamsInUse() != 0 {
			t.Error("a stream is in use")
		}
	})
}

func TestNegotiatedChannelNeedsNoOpen(t *testing.T) {
	each(t, func(t *testing.T, p *parties) {
		agreed := ChannelOptions{Label: "agreed", Negotiated: Limit(uint16(1000))}
		packets := p.a.channels.Counts().TxPacketsCount
		ofA, err := p.a.channels.Open(agreed)
		expect(t, "A", err, nil)
		ofB, err := p.b.channels.Open(agreed)
		expect(t, "B", err, nil)
		p.settle()
		p.a.reported(ChannelOpened{ofA})
		p.b.reported(ChannelOpened{ofB})
		if p.a.channels.Counts().TxPacketsCount != packets {
			t.Error("a packet was sent")
		}
		_, err = p.a.channels.Open(agreed)
		expect(t, "again", err, ErrStreamInUse)
		expect(t, "send", ofB.SendText("hello"), nil)
		p.settle()
		p.a.reported(ChannelMessage{ofA, true, []byte("hello")})
	})
}

func TestChannelWaitsForTheAssociationAndTheRole(t *testing.T) {
	for _, followRFC := range []bool{true, false} {
		p := newParties(t, followRFC, ChannelLimits{})
		early, err := p.a.channels.Open(ChannelOptions{Label: "early"})
		expect(t, "open", err, nil)
		expect(t, "send", early.SendText("early"), ErrNoChannel)
		expect(t, "connect", p.a.channels.Connect(), nil)
		p.settle()
		p.a.reported(Connected{})
		if _, ok := early.Stream(); ok || early.State() != ChannelStateConnecting || early.BufferedAmount() != 0 {
			t.Error("it doesn't wait")
		}
		expect(t, "role", p.a.channels.SetRole(true), nil)
		if early.State() != ChannelStateOpen {
			t.Error("it still waits")
		}
		p.settle()
		p.a.reported(ChannelOpened{early})
	}
}

func TestRefusedCallsChangeNothing(t *testing.T) {
	options := DefaultOptions()
	options.ChecksumOffload = true
	if _, err := NewChannels(options, ChannelLimits{}, nil, 0); err != ErrInvalidOptions {
		t.Errorf("%v, not %v", err, ErrInvalidOptions)
	}
	each(t, func(t *testing.T, p *parties) {
		ofA, _ := p.opened(ChannelOptions{})
		expect(t, "size", p.a.channels.SetMaxMessageSize(4), nil)
		expect(t, "long", ofA.SendText("hello"), ErrMessageTooLarge)
		expect(t, "size", p.a.channels.SetMaxMessageSize(262144), nil)
		for _, row := range []struct {
			options ChannelOptions
			err     error
		}{
			{ChannelOptions{MaxRetransmits: Limit(uint32(1)), MaxLifetime: Limit(time.Second)}, ErrInvalidOptions},
			{ChannelOptions{Label: strings.Repeat("x", 65536)}, ErrMessageTooLarge},
			{ChannelOptions{Protocol: strings.Repeat("x", 65536)}, ErrMessageTooLarge},
		} {
			channel, err := p.a.channels.Open(row.options)
			expect(t, "open", err, row.err)
			if channel != nil {
				t.Error("a channel")
			}
		}
		p.settle()
		p.a.reported()
		p.b.reported()
		low := p.a.low
		expect(t, "threshold", ofA.SetBufferedAmountLowThreshold(8000), nil)
		err := error(nil)
		for count := 0; err == nil && count < 1000; count++ {
			err = ofA.Send(bytes.Repeat([]byte("x"), 40000))
		}
		expect(t, "full", err, ErrResourceExhaustion)
		if ofA.BufferedAmount() <= 8000 {
			t.Error("nothing is queued")
		}
		p.settle()
		if p.a.low != low+1 || ofA.BufferedAmount() != 0 {
			t.Errorf("%d events", p.a.low-low)
		}
	})
}

func TestPeerIsLimited(t *testing.T) {
	for _, followRFC := range []bool{true, false} {
		p := connectedParties(t, followRFC, ChannelLimits{MaxMessageSize: 4, MaxText: 4, MaxChannels: 1})
		for _, row := range []struct {
			label  string
			reason ChannelEnd
		}{{"chatter", ChannelRefused}, {"chat", 0}, {"", ChannelRefused}} {
			channel, err := p.b.channels.Open(ChannelOptions{Label: row.label})
			expect(t, "open", err, nil)
			p.settle()
			if row.reason == 0 {
				p.b.reported(ChannelOpened{channel})
				expect(t, "send", channel.SendText("long"), nil)
			} else {
				p.b.reported(ChannelClosed{channel, row.reason})
			}
		}
		if len(p.a.events) != 2 {
			t.Fatalf("%+v", p.a.events)
		}
	}
}

func TestEndOfTheAssociationEndsEachChannelOnce(t *testing.T) {
	for _, end := range []func(*Channels) error{func(it *Channels) error { return it.Close() },
		func(it *Channels) error { return it.Shutdown() }} {
		each(t, func(t *testing.T, p *parties) {
			ofA, ofB := p.opened(ChannelOptions{})
			expect(t, "end", end(p.a.channels), nil)
			p.settle()
			p.a.reported(ChannelClosed{ofA, ChannelLost}, ChannelsEnded{})
			p.b.reported(ChannelClosed{ofB, ChannelLost}, ChannelsEnded{})
			_, err := p.a.channels.Open(ChannelOptions{})
			expect(t, "open", err, ErrEnded)
		})
	}
}

func TestChannelsGoOnAfterAHandover(t *testing.T) {
	each(t, func(t *testing.T, p *parties) {
		ofA, ofB := p.opened(ChannelOptions{Label: "chat"})
		expect(t, "send", ofA.SendText("before"), nil)
		p.settle()
		p.b.reported(ChannelMessage{ofB, true, []byte("before")})
		if reasons := p.a.channels.HandoverReadiness(); reasons != 0 {
			t.Fatalf("not ready: %d", reasons)
		}
		snapshot, err := p.a.channels.GetHandoverStateAndClose()
		expect(t, "handover", err, nil)
		p.a.carry(&p.b)
		p.a.reported(ChannelsEnded{})
		if reasons := p.a.channels.HandoverReadiness(); reasons != HandoverWrongConnectionState {
			t.Fatalf("ready: %d", reasons)
		}
		options := p.a.channels.Options()
		p.a.channels.Destroy()
		again, err := NewChannels(options, ChannelLimits{}, nil, p.now)
		expect(t, "again", err, nil)
		t.Cleanup(again.Destroy)
		p.a.channels = again
		expect(t, "restore", again.RestoreFromState(snapshot), nil)
		channel := again.Channel(ofA.Number())
		if channel.State() != ChannelStateOpen || channel.Metrics().MessagesSent != 1 {
			t.Fatal("it isn't open")
		}
		expect(t, "send", ofB.SendText("back"), nil)
		p.settle()
		p.a.reported(Connected{}, ChannelMessage{channel, true, []byte("back")})
		if later, _ := p.opened(ChannelOptions{}); later.Number() <= ofA.Number() {
			t.Error("a number is given twice")
		}
		expect(t, "again", again.RestoreFromState(snapshot), ErrNotClosed)
	})
}

func TestChannelsWithoutSocketReturnAnError(t *testing.T) {
	p := connectedParties(t, true, ChannelLimits{})
	ofA, _ := p.opened(ChannelOptions{})
	p.a.channels.Destroy()
	for _, channels := range []*Channels{p.a.channels, new(Channels)} {
		channel := ofA
		if channels.association == nil {
			channel = new(Channel)
		}
		_, open := channels.Open(ChannelOptions{})
		event, poll := channels.PollEvent()
		for name, err := range map[string]error{
			"SetRole":                       channels.SetRole(true),
			"Open":                          open,
			"PollEvent":                     poll,
			"Connect":                       channels.Connect(),
			"HandleInput":                   channels.HandleInput(nil),
			"AdvanceTime":                   channels.AdvanceTime(5),
			"Send":                          channel.Send(nil),
			"SendText":                      channel.SendText(""),
			"Close":                         channel.Close(),
			"SetBufferedAmountLowThreshold": channel.SetBufferedAmountLowThreshold(1),
		} {
			expect(t, name, err, ErrNoSocket)
		}
		if event != nil || channels.StreamsInUse() != 0 || channels.State() != NoSocket || channels.Metrics() != nil {
			t.Error("a query answers")
		}
		if channel.State() != ChannelStateClosed || channel.BufferedAmount() != 0 || channel.Metrics() != nil {
			t.Error("a query of a channel answers")
		}
		channels.Destroy()
	}
}

func TestForgottenChannelsAreFreed(t *testing.T) {
	for range make([]struct{}, 300) {
		channels, err := NewChannels(DefaultOptions(), ChannelLimits{}, nil, 0)
		expect(t, "create", err, nil)
		_, err = channels.Open(ChannelOptions{Label: "chat"})
		expect(t, "open", err, nil)
	}
	runtime.GC()
}
