package dcsctp_test

import (
	"fmt"
	"log"

	"dcsctp"
)

// drain takes all events and messages of a socket. Its packets go to the other one; in a program, to the peer.
func drain(from, to *dcsctp.Socket) (packets int) {
	for event := from.PollEvent(); event != nil; event = from.PollEvent() {
		if it, ok := event.(dcsctp.SendPacket); ok {
			if err := to.HandleInput(it.Packet); err != nil {
				log.Fatal(err)
			}
			packets++
		}
	}
	for it := from.GetNextMessage(); it != nil; it = from.GetNextMessage() {
		fmt.Printf("stream %d: %s\n", it.StreamID, it.Payload)
	}
	return packets
}

// Two sockets in one process connect, and one sends a message to the other.
func Example() {
	a, err := dcsctp.New(dcsctp.DefaultOptions(), nil, 0)
	if err != nil {
		log.Fatal(err)
	}
	defer a.Destroy()
	b, err := dcsctp.New(dcsctp.DefaultOptions(), nil, 0)
	if err != nil {
		log.Fatal(err)
	}
	defer b.Destroy()
	if err := a.Connect(); err != nil {
		log.Fatal(err)
	}
	if err := a.Send(1, 51, []byte("hello"), dcsctp.SendOptions{}); err != nil {
		log.Fatal(err)
	}
	for drain(a, b)+drain(b, a) > 0 {
	}
	// Output: stream 1: hello
}
