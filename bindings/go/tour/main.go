// What a socket can do, as small programs of two sockets, A and B, in one process: go run ./tour. They print what
// bindings/expected.txt says, as those of the other languages do.
package main

import (
	"errors"
	"fmt"
	"os"
	"strings"
	"time"

	"dcsctp"
)

const text, binary = 51, 53

// The time at which each program begins. RestoreFromState needs a clock past 60 s.
const begin = time.Hour

type pair struct {
	a, b *dcsctp.Socket
	now  time.Duration
}

// must ends the program at an error. No call of these programs fails, unless they say so.
func must(err error) {
	if err != nil {
		fmt.Fprintln(os.Stderr, err)
		os.Exit(1)
	}
}

func create(options dcsctp.Options, now time.Duration) *dcsctp.Socket {
	socket, err := dcsctp.New(options, nil, now)
	must(err)
	return socket
}

func numbers(streams []uint16) (said string) {
	for _, stream := range streams {
		said += fmt.Sprint(" ", stream)
	}
	return said
}

// details returns what follows the name of an event.
func details(event dcsctp.Event) string {
	switch it := event.(type) {
	case dcsctp.StreamsResetPerformed:
		return numbers(it.Streams)
	case dcsctp.StreamsResetFailed:
		return numbers(it.Streams)
	case dcsctp.IncomingStreamReset:
		return numbers(it.Streams)
	case dcsctp.BufferedAmountLow:
		return fmt.Sprint(" ", it.StreamID)
	case dcsctp.LifecycleFullySent:
		return fmt.Sprint(" ", it.LifecycleID)
	case dcsctp.LifecycleDelivered:
		return fmt.Sprint(" ", it.LifecycleID)
	case dcsctp.LifecycleEnd:
		return fmt.Sprint(" ", it.LifecycleID)
	case dcsctp.Aborted:
		return fmt.Sprint(" ", it.Kind)
	case dcsctp.ErrorEvent:
		return fmt.Sprint(" ", it.Kind)
	default:
		return ""
	}
}

// carry takes all events and messages of a socket. Its packets go to the other one. It returns how many there were.
func carry(name string, from, to *dcsctp.Socket) (packets int) {
	for event := from.PollEvent(); event != nil; event = from.PollEvent() {
		if it, ok := event.(dcsctp.SendPacket); ok {
			must(to.HandleInput(it.Packet))
			packets++
		} else {
			fmt.Printf("%s: %s%s\n", name, event.Name(), details(event))
		}
	}
	for it := from.GetNextMessage(); it != nil; it = from.GetNextMessage() {
		fmt.Printf("%s has a message on stream %d under %d: %s\n", name, it.StreamID, it.PPID, it.Payload)
	}
	return packets
}

func sayState(name string, socket *dcsctp.Socket) {
	names := []string{"closed", "connecting", "connected", "shutting down"}
	fmt.Printf("%s is %s\n", name, names[socket.State()])
}

// said returns what an error says.
func said(err error) string {
	if err == nil {
		return "no error"
	}
	return err.Error()
}

func newPair(options dcsctp.Options) *pair {
	return &pair{create(options, begin), create(options, begin), begin}
}

func connected() *pair {
	p := newPair(dcsctp.DefaultOptions())
	must(p.a.Connect())
	p.settle()
	return p
}

func (p *pair) destroy() {
	p.a.Destroy()
	p.b.Destroy()
}

// settle carries packets both ways until none is left.
func (p *pair) settle() {
	for carry("A", p.a, p.b)+carry("B", p.b, p.a) > 0 {
	}
}

// pass lets the time pass until the next deadline of either socket.
func (p *pair) pass() {
	next := dcsctp.Never
	for _, socket := range []*dcsctp.Socket{p.a, p.b} {
		if deadline, ok := socket.PollTimeout(); ok && deadline < next {
			next = deadline
		}
	}
	if next != dcsctp.Never {
		p.now = next
	}
	must(p.a.AdvanceTime(p.now))
	must(p.b.AdvanceTime(p.now))
	p.settle()
}

// untilAcknowledged waits until all that A has sent is acknowledged.
func (p *pair) untilAcknowledged() {
	p.settle()
	for metrics := p.a.Metrics(); metrics != nil && metrics.UnackDataCount > 0; metrics = p.a.Metrics() {
		p.pass()
	}
}

func (p *pair) send(it string) error {
	return p.a.Send(1, text, []byte(it), dcsctp.SendOptions{})
}

// ---- The programs

func connect() {
	p := newPair(dcsctp.DefaultOptions())
	defer p.destroy()
	sayState("A", p.a)
	must(p.a.Connect())
	sayState("A", p.a)
	p.settle()
	sayState("A", p.a)
	sayState("B", p.b)
}

func send() {
	p := connected()
	defer p.destroy()
	must(p.a.Send(1, text, []byte("hello"), dcsctp.SendOptions{LifecycleID: 7}))
	how := dcsctp.SendOptions{
		Unordered:          true,
		Lifetime:           dcsctp.Limit(time.Second),
		MaxRetransmissions: dcsctp.Limit(uint16(0)),
	}
	three := []dcsctp.Message{
		{StreamID: 2, PPID: binary, Payload: []byte("one")},
		{StreamID: 2, PPID: binary},
		{StreamID: 3, PPID: binary, Payload: []byte("two")},
	}
	results, err := p.a.SendMany(three, how)
	must(err)
	each := make([]string, len(results))
	for index, result := range results {
		each[index] = said(result)
	}
	fmt.Println("the three:", strings.Join(each, "; "))
	p.untilAcknowledged()
	must(p.b.Send(1, text, []byte("hello to you"), dcsctp.SendOptions{}))
	p.settle()
	metrics := p.a.Metrics()
	fmt.Printf("A has sent %d messages, and received %d\n", metrics.TxMessagesCount, metrics.RxMessagesCount)
}

// closeAChannel: a data channel is two streams of one number. Each end resets its own; then the number can be used
// again.
func closeAChannel() {
	p := connected()
	defer p.destroy()
	must(p.send("before"))
	p.untilAcknowledged()
	must(p.a.ResetStreams(1))
	p.settle()
	must(p.b.ResetStreams(1))
	p.settle()
	must(p.send("once more"))
	p.settle()
}

// handOver: another socket continues in A's place. It may be in another process, since the snapshot is bytes.
func handOver() {
	p := connected()
	defer p.destroy()
	must(p.send("before"))
	reasons := p.a.HandoverReadiness()
	_, err := p.a.GetHandoverStateAndClose()
	fmt.Printf("reasons: %d; %s\n", reasons, said(err))
	p.untilAcknowledged()
	fmt.Printf("reasons: %d\n", p.a.HandoverReadiness())
	snapshot, err := p.a.GetHandoverStateAndClose()
	must(err)
	p.settle()
	p.a.Destroy()
	p.a = create(dcsctp.DefaultOptions(), p.now)
	must(p.a.RestoreFromState(snapshot))
	p.settle()
	fmt.Println("again:", said(p.a.RestoreFromState(snapshot)))
	must(p.send("after"))
	p.settle()
	other := create(dcsctp.DefaultOptions(), p.now)
	defer other.Destroy()
	fmt.Println("other bytes:", said(other.RestoreFromState([]byte("no snapshot"))))
}

func shutDown() {
	p := connected()
	defer p.destroy()
	must(p.send("last"))
	must(p.a.Shutdown())
	sayState("A", p.a)
	fmt.Println("a message:", said(p.send("too late")))
	p.settle()
	p.pass()
	sayState("A", p.a)
	sayState("B", p.b)
}

// channelPair is two ends with data channels. A is the DTLS client.
type channelPair struct {
	a, b *dcsctp.Channels
	now  time.Duration
}

func newChannelPair() *channelPair {
	var ends [2]*dcsctp.Channels
	for index := range ends {
		channels, err := dcsctp.NewChannels(dcsctp.DefaultOptions(), dcsctp.ChannelLimits{}, nil, begin)
		must(err)
		must(channels.SetRole(index == 0))
		ends[index] = channels
	}
	return &channelPair{ends[0], ends[1], begin}
}

// carryChannels takes all events of an end. Its packets go to the other one. It returns how many there were.
func carryChannels(name string, from, to *dcsctp.Channels) (packets int) {
	from.Events()(func(event dcsctp.Event) bool {
		switch it := event.(type) {
		case dcsctp.SendPacket:
			must(to.HandleInput(it.Packet))
			packets++
		case dcsctp.ChannelMessage:
			if it.IsText {
				fmt.Printf("%s has a text on %q: %s.\n", name, it.Channel.Label(), it.Data)
			} else {
				fmt.Printf("%s has %d bytes on %q\n", name, len(it.Data), it.Channel.Label())
			}
		case dcsctp.ChannelOpened:
			fmt.Printf("%s: %s %q\n", name, it.Name(), it.Channel.Label())
		case dcsctp.ChannelIncoming:
			fmt.Printf("%s: %s %q\n", name, it.Name(), it.Channel.Label())
		case dcsctp.ChannelBufferedAmountLow:
			fmt.Printf("%s: %s %q\n", name, it.Name(), it.Channel.Label())
		case dcsctp.ChannelClosed:
			fmt.Printf("%s: %s %q, %d\n", name, it.Name(), it.Channel.Label(), it.Reason)
		default:
			fmt.Printf("%s: %s\n", name, event.Name())
		}
		return true
	})
	return packets
}

// settle carries packets both ways until none is left.
func (p *channelPair) settle() {
	for carryChannels("A", p.a, p.b)+carryChannels("B", p.b, p.a) > 0 {
	}
}

// wait lets a second pass: then all is acknowledged.
func (p *channelPair) wait() {
	p.settle()
	p.now += time.Second
	must(p.a.AdvanceTime(p.now))
	must(p.b.AdvanceTime(p.now))
	p.settle()
}

// open returns a channel.
func open(end *dcsctp.Channels, options dcsctp.ChannelOptions) *dcsctp.Channel {
	channel, err := end.Open(options)
	must(err)
	return channel
}

func sayStream(name string, channel *dcsctp.Channel) {
	stream, _ := channel.Stream()
	fmt.Printf("%s's has stream %d\n", name, stream)
}

func dataChannels() {
	p := newChannelPair()
	defer p.a.Destroy()
	defer p.b.Destroy()
	chat := open(p.a, dcsctp.ChannelOptions{Label: "chat"})
	fmt.Println("too early:", said(chat.SendText("hello")))
	must(p.a.Connect())
	p.settle()
	sayStream("A", chat)
	must(chat.SendText("hello"))
	must(chat.SendText(""))
	must(chat.Send([]byte{1, 2, 3}))
	must(chat.Close())
	fmt.Println("too late:", said(chat.SendText("hello")))
	p.wait()
	fast := open(p.b, dcsctp.ChannelOptions{
		Label: "fast", Unordered: true, MaxRetransmits: dcsctp.Limit(uint32(0)), Protocol: "of ours",
	})
	p.settle()
	sayStream("B", fast)
	agreed := dcsctp.ChannelOptions{Label: "agreed", Negotiated: dcsctp.Limit(uint16(8))}
	open(p.a, agreed)
	open(p.b, agreed)
	_, err := p.a.Open(agreed)
	fmt.Println("once more:", said(err))
	must(p.a.Shutdown())
	p.wait()
	_, err = p.a.Open(dcsctp.ChannelOptions{})
	fmt.Println("another:", said(err))
}

// mistakes: a call that can't be made is an error, and changes nothing.
func mistakes() {
	narrow, limits := dcsctp.DefaultOptions(), dcsctp.DefaultOptions()
	narrow.MTU = 31
	_, err := dcsctp.New(narrow, nil, begin)
	if !errors.Is(err, dcsctp.ErrInvalidOptions) {
		must(err)
	}
	fmt.Println("an mtu of 31:", said(err))
	limits.MaxMessageSize, limits.MaxSendBufferSize = 10, 10
	p := newPair(limits)
	defer p.destroy()
	fmt.Println("a reset:", said(p.a.ResetStreams(1)))
	_, err = p.a.HandoverBytes()
	fmt.Println("a snapshot:", said(err))
	fmt.Println("no bytes:", said(p.send("")))
	p.settle()
	fmt.Println("11 bytes:", said(p.send("hello there")))
	p.settle()
	fmt.Println("10 bytes:", said(p.send("hello here")))
	fmt.Println("10 more:", said(p.send("hello here")))
	p.settle()
	fmt.Println("a packet without bytes:", said(p.a.HandleInput(nil)))
	p.settle()
	fmt.Println("a close:", said(p.a.Close()))
	p.settle()
	for number := -1; number >= -24; number-- {
		fmt.Printf("%d: %s\n", number, dcsctp.Error(number))
	}
}

func main() {
	programs := []struct {
		name string
		run  func()
	}{
		{"connect", connect}, {"send", send}, {"close a channel", closeAChannel},
		{"hand over", handOver}, {"shut down", shutDown}, {"data channels", dataChannels}, {"mistakes", mistakes},
	}
	for index, program := range programs {
		if index > 0 {
			fmt.Println()
		}
		fmt.Println(program.name)
		program.run()
	}
}
