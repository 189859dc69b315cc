// Two sockets in one process, and a message.
package main

import (
	"dcsctp"
	"fmt"
	"log"
)

func carry(from, to *dcsctp.Socket) {
	for event := from.PollEvent(); event != nil; event = from.PollEvent() {
		if it, ok := event.(dcsctp.SendPacket); ok && to.HandleInput(it.Packet) != nil {
			log.Fatal("out of memory")
		}
	}
	for it := from.GetNextMessage(); it != nil; it = from.GetNextMessage() {
		fmt.Println(string(it.Payload))
	}
}

func main() {
	a, errA := dcsctp.New(dcsctp.DefaultOptions(), nil, 0)
	b, errB := dcsctp.New(dcsctp.DefaultOptions(), nil, 0)
	if errA != nil || errB != nil || a.Connect() != nil || a.Send(1, 51, []byte("hello"), dcsctp.SendOptions{}) != nil {
		log.Fatal("no sockets")
	}
	for round := 0; round < 8; round, a, b = round+1, b, a {
		carry(a, b)
	}
}
