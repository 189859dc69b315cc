// Data channels to pion, in one process, with the habits of a browser; scripts/check-peers.sh runs it.
//
//	with_pion [LOSS]        so many packets of a hundred are lost
package main

import (
	"bytes"
	"fmt"
	"math/rand"
	"net"
	"os"
	"reflect"
	"strconv"
	"strings"
	"sync"
	"time"

	"dcsctp"
	"github.com/pion/datachannel"
	"github.com/pion/logging"
	"github.com/pion/sctp"
)

const patience = time.Minute

var (
	begin  = time.Now()
	loss   int
	chance = rand.New(rand.NewSource(1))
	lock   sync.Mutex // of chance
	quiet  = logging.NewDefaultLoggerFactory()
)

// must ends the program at an error.
func must(name string, err error) {
	if err != nil {
		fmt.Printf("%s: %v\n", name, err)
		os.Exit(1)
	}
}

func isLost() bool {
	lock.Lock()
	defer lock.Unlock()
	return chance.Intn(100) < loss
}

// wire is what pion uses of a connection by DTLS. Packets stay in order.
type wire struct {
	net.Conn // nothing else is called
	in, out  chan []byte
	closed   chan struct{}
}

func (w *wire) Read(packet []byte) (int, error) {
	select {
	case it := <-w.in:
		return copy(packet, it), nil
	case <-w.closed:
		return 0, net.ErrClosed
	}
}

func (w *wire) Write(packet []byte) (int, error) {
	if !isLost() {
		w.out <- append([]byte(nil), packet...)
	}
	return len(packet), nil
}

func (w *wire) Close() error {
	close(w.closed)
	return nil
}

// said is a message.
type said struct {
	isText bool
	data   string
}

// ours is our end, which one goroutine runs.
type ours struct {
	channels    *dcsctp.Channels
	in, out     chan []byte
	calls       chan func()
	isConnected bool
	known       map[string]*dcsctp.Channel
	isOpened    map[string]bool
	got         map[string][]said
	reasons     map[string]dcsctp.ChannelEnd
}

func (o *ours) run() {
	for {
		o.drain()
		wait := time.Hour
		if deadline, ok := o.channels.PollTimeout(); ok {
			wait = deadline - time.Since(begin)
		}
		select {
		case packet := <-o.in:
			must("time", o.channels.AdvanceTime(time.Since(begin)))
			must("packet", o.channels.HandleInput(packet))
		case call := <-o.calls:
			call()
		case <-time.After(wait):
			must("time", o.channels.AdvanceTime(time.Since(begin)))
		}
	}
}

func (o *ours) drain() {
	for {
		event, err := o.channels.PollEvent()
		must("poll", err)
		switch it := event.(type) {
		case nil:
			return
		case dcsctp.SendPacket:
			if !isLost() {
				o.out <- it.Packet
			}
		case dcsctp.Connected:
			o.isConnected = true
		case dcsctp.ChannelIncoming:
			o.known[it.Channel.Label()] = it.Channel
		case dcsctp.ChannelOpened:
			o.isOpened[it.Channel.Label()] = true
		case dcsctp.ChannelMessage:
			label := it.Channel.Label()
			o.got[label] = append(o.got[label], said{it.IsText, string(it.Data)})
		case dcsctp.ChannelClosed:
			o.reasons[it.Channel.Label()] = it.Reason
		case dcsctp.ChannelsEnded:
			must("our end", dcsctp.ErrEnded)
		}
	}
}

// do runs a call where the loop runs.
func (o *ours) do(call func()) {
	done := make(chan struct{})
	o.calls <- func() { call(); close(done) }
	<-done
}

// until waits for a fact, which is seen where the loop runs.
func (o *ours) until(name string, holds func() bool) {
	for end := time.Now().Add(patience); time.Now().Before(end); time.Sleep(5 * time.Millisecond) {
		is := false
		o.do(func() { is = holds() })
		if is {
			return
		}
	}
	must(name, fmt.Errorf("it doesn't happen"))
}

func (o *ours) open(options dcsctp.ChannelOptions) *dcsctp.Channel {
	var channel *dcsctp.Channel
	o.do(func() {
		var err error
		channel, err = o.channels.Open(options)
		must("open", err)
		o.known[options.Label] = channel
	})
	return channel
}

func (o *ours) send(label string, message said) {
	o.do(func() {
		channel := o.known[label]
		if message.isText {
			must("text", channel.SendText(message.data))
		} else {
			must("bytes", channel.Send([]byte(message.data)))
		}
	})
}

// isClosed: both ends have reset the stream.
func (o *ours) isClosed(label string) func() bool {
	return func() bool {
		reason, ok := o.reasons[label]
		return ok && reason == dcsctp.ChannelClosedByResets
	}
}

// theirs is pion's end. It sends back what comes on channels whose label begins with echo.
type theirs struct {
	association *sctp.Association
	mutex       sync.Mutex
	known       map[string]*datachannel.DataChannel
	got         map[string][]said
}

func (t *theirs) accept() {
	for {
		channel, err := datachannel.Accept(t.association, &datachannel.Config{LoggerFactory: quiet})
		if err != nil {
			return
		}
		t.serve(channel)
	}
}

func (t *theirs) serve(channel *datachannel.DataChannel) {
	label := channel.Config.Label
	t.mutex.Lock()
	t.known[label] = channel
	t.mutex.Unlock()
	go func() {
		buffer := make([]byte, 300000)
		for {
			n, isText, err := channel.ReadDataChannel(buffer)
			if err != nil {
				return
			}
			t.mutex.Lock()
			t.got[label] = append(t.got[label], said{isText, string(buffer[:n])})
			t.mutex.Unlock()
			if strings.HasPrefix(label, "echo") {
				_, err = channel.WriteDataChannel(buffer[:n], isText)
				must("echo", err)
			}
		}
	}()
}

func (t *theirs) open(id uint16, config datachannel.Config) *datachannel.DataChannel {
	config.LoggerFactory = quiet
	channel, err := datachannel.Dial(t.association, id, &config)
	must("pion opens", err)
	t.serve(channel)
	return channel
}

func (t *theirs) channel(label string) *datachannel.DataChannel {
	t.mutex.Lock()
	defer t.mutex.Unlock()
	return t.known[label]
}

func (t *theirs) all(label string) []said {
	t.mutex.Lock()
	defer t.mutex.Unlock()
	return append([]said(nil), t.got[label]...)
}

func connect() (*ours, *theirs) {
	channels, err := dcsctp.NewChannels(dcsctp.DefaultOptions(), dcsctp.ChannelLimits{}, nil, time.Since(begin))
	must("create", err)
	must("role", channels.SetRole(true))
	w := &wire{in: make(chan []byte, 100000), out: make(chan []byte, 100000), closed: make(chan struct{})}
	o := &ours{
		channels: channels, in: w.out, out: w.in, calls: make(chan func()), known: map[string]*dcsctp.Channel{},
		isOpened: map[string]bool{}, got: map[string][]said{}, reasons: map[string]dcsctp.ChannelEnd{},
	}
	must("connect", channels.Connect())
	go o.run()
	association, err := sctp.Client(sctp.Config{NetConn: w, LoggerFactory: quiet})
	must("pion", err)
	t := &theirs{association: association, known: map[string]*datachannel.DataChannel{}, got: map[string][]said{}}
	go t.accept()
	o.until("connected", func() bool { return o.isConnected })
	return o, t
}

// closes closes a channel at our end or at pion's. pion sends several requests to reset streams, and forgets each
// whatever it is answered: if one is lost, the next has a wrong number, and neither is ever done. So where packets are
// lost there is one at a time.
func closes(o *ours, t *theirs, label string, byUs bool) {
	if byUs {
		o.do(func() { must("close", o.known[label].Close()) })
	} else {
		must("pion closes", t.channel(label).Close())
	}
	if loss > 0 {
		o.until("closed", o.isClosed(label))
	}
}

var messages = []said{{true, "hello"}, {true, "grüße ∞"}, {true, ""}, {false, ""}, {false, "\x00\xff"},
	{false, strings.Repeat("x", 30000)}}

func opensFromEitherEnd(o *ours, t *theirs) {
	o.open(dcsctp.ChannelOptions{Label: "echo ours", Protocol: "p", MaxLifetime: dcsctp.Limit(5 * time.Second)})
	t.open(1, datachannel.Config{
		Label: "echo theirs", ChannelType: datachannel.ChannelTypePartialReliableRexmit, ReliabilityParameter: 70000,
		Priority: 512,
	})
	o.until("opened", func() bool { return o.isOpened["echo ours"] && o.known["echo theirs"] != nil })
	there := t.channel("echo ours").Config
	if there.Protocol != "p" || there.ChannelType != datachannel.ChannelTypePartialReliableTimed ||
		there.ReliabilityParameter != 5000 {
		must("at pion's end", fmt.Errorf("%+v", there))
	}
	here := o.known["echo theirs"].Options()
	if here.MaxRetransmits == nil || *here.MaxRetransmits != 70000 || here.Priority != 512 || here.Unordered {
		must("at our end", fmt.Errorf("%+v", here))
	}
	for _, label := range []string{"echo ours", "echo theirs"} {
		for _, message := range messages {
			o.send(label, message)
		}
		o.until("echoed", func() bool { return reflect.DeepEqual(o.got[label], messages) })
	}
	closes(o, t, "echo ours", true)
	closes(o, t, "echo theirs", false)
	o.until("closed", o.isClosed("echo ours"))
	o.until("closed", o.isClosed("echo theirs"))
}

func opensAgainAndAgain(o *ours, t *theirs) {
	for count := 0; count < 20; count++ {
		label := fmt.Sprint("echo ", count)
		channel := o.open(dcsctp.ChannelOptions{Label: label})
		if stream, ok := channel.Stream(); !ok || stream != 0 {
			must("again", fmt.Errorf("stream %d", stream))
		}
		o.send(label, said{true, "again"})
		o.until("echoed", func() bool { return len(o.got[label]) == 1 })
		closes(o, t, label, count%2 == 0)
		o.until("closed", o.isClosed(label))
	}
}

func opensFiftyAtOnce(o *ours, t *theirs) {
	var labels []string
	count := 25
	if loss > 0 {
		count = 5
	}
	for count--; count >= 0; count-- {
		label, other := fmt.Sprint("echo a ", count), fmt.Sprint("echo b ", count)
		o.open(dcsctp.ChannelOptions{Label: label})
		t.open(uint16(2*count+1), datachannel.Config{Label: other})
		labels = append(labels, label, other)
	}
	for _, label := range labels {
		o.until("opened", func() bool { return o.known[label] != nil && t.channel(label) != nil })
		o.send(label, said{true, label})
		o.until("echoed", func() bool { return reflect.DeepEqual(o.got[label], []said{{true, label}}) })
	}
	for at, label := range labels {
		closes(o, t, label, at%4 < 2)
	}
	for _, label := range labels {
		o.until("closed", o.isClosed(label))
	}
	o.do(func() {
		if count := o.channels.StreamsInUse(); count != 0 {
			must("all closed", fmt.Errorf("%d streams are in use", count))
		}
	})
}

// sends sends so many parts, no more than the buffer takes, and waits until all of them came back, or are at the other
// end.
func sends(o *ours, t *theirs, label string, count, size int) {
	var sum, back []byte
	channel := o.open(dcsctp.ChannelOptions{Label: label})
	for at := 0; at < count; at++ {
		part := make([]byte, size)
		lock.Lock()
		chance.Read(part)
		lock.Unlock()
		sum = append(sum, part...)
		o.until("room", func() bool { return channel.BufferedAmount() < 1000000 })
		o.send(label, said{false, string(part)})
	}
	took := func() []said {
		if strings.HasPrefix(label, "echo") {
			return o.got[label]
		}
		return t.all(label)
	}
	o.until("all", func() bool { return len(took()) == count })
	o.do(func() {
		for _, it := range took() {
			back = append(back, it.data...)
		}
	})
	if !bytes.Equal(sum, back) {
		must("all", fmt.Errorf("other bytes"))
	}
	o.do(func() { must("close", channel.Close()) })
	o.until("closed", o.isClosed(label))
}

func sendsAMebibyte(o *ours, t *theirs) { sends(o, t, "echo long", 64, 16384) }

func sendsSixteen(o *ours, t *theirs) {
	if loss == 0 { // (else it takes a minute)
		sends(o, t, "burst", 256, 65536)
	}
}

func abandonsWhatIsLost(o *ours, t *theirs) {
	o.open(dcsctp.ChannelOptions{Label: "fast", Unordered: true, MaxRetransmits: dcsctp.Limit(uint32(0))})
	t.open(1, datachannel.Config{
		Label: "their fast", ChannelType: datachannel.ChannelTypePartialReliableRexmitUnordered,
	})
	o.until("opened", func() bool { return o.isOpened["fast"] && o.known["their fast"] != nil })
	for count := 0; count < 200; count++ {
		o.send("fast", said{true, fmt.Sprint(count)})
		_, err := t.channel("their fast").WriteDataChannel([]byte(fmt.Sprint(count)), true)
		must("send", err)
		time.Sleep(5 * time.Millisecond)
	}
	closes(o, t, "fast", true)
	closes(o, t, "their fast", true)
	o.until("closed", o.isClosed("fast"))
	o.until("closed", o.isClosed("their fast"))
	o.do(func() {
		for _, got := range [][]said{t.all("fast"), o.got["their fast"]} {
			seen := map[string]bool{}
			for _, it := range got {
				seen[it.data] = true
			}
			if len(seen) != len(got) || len(got) > 200 || len(got) < 100 || (loss == 0 && len(got) < 200) {
				must("lost", fmt.Errorf("%d messages, %d of them different", len(got), len(seen)))
			}
		}
	})
}

func agreesOnAStream(o *ours, t *theirs) {
	o.open(dcsctp.ChannelOptions{Label: "echo agreed", Negotiated: dcsctp.Limit(uint16(1000))})
	t.open(1000, datachannel.Config{Label: "echo agreed", Negotiated: true})
	o.send("echo agreed", said{true, "hello"})
	o.until("echoed", func() bool { return len(o.got["echo agreed"]) == 1 })
	closes(o, t, "echo agreed", false)
	o.until("closed", o.isClosed("echo agreed"))
}

func main() {
	if len(os.Args) > 1 {
		loss, _ = strconv.Atoi(os.Args[1])
	}
	o, t := connect()
	for _, step := range []struct {
		name string
		run  func(*ours, *theirs)
	}{
		{"opens from either end", opensFromEitherEnd},
		{"opens again and again", opensAgainAndAgain},
		{"opens fifty at once", opensFiftyAtOnce},
		{"sends a MiB in parts", sendsAMebibyte},
		{"sends 16 MiB at once", sendsSixteen},
		{"abandons what is lost", abandonsWhatIsLost},
		{"agrees on a stream", agreesOnAStream},
	} {
		begun := time.Now()
		step.run(o, t)
		fmt.Printf("%s: %.1f s\n", step.name, time.Since(begun).Seconds())
	}
}
