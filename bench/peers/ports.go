// Four senders and three movers on one named port with a bounded queue, as a plain Go program.
//
//	go run ports.go [SENDS]
//
// A port is a channel of 64; its name is looked up for each send. A send to a full port is refused. The right to receive is
// handed from mover to mover, each of which takes at most one message and hands the port on.
package main

import (
	"fmt"
	"os"
	"strconv"
	"sync"
	"sync/atomic"
	"time"
)

const (
	senders  = 4
	movers   = 3
	capacity = 64
)

func main() {
	sends := 100_000
	if len(os.Args) > 1 {
		sends, _ = strconv.Atoi(os.Args[1])
	}
	var names sync.Map
	names.Store("1.p.1", make(chan []byte, capacity))
	var accepted, refused, taken, moves, done atomic.Int64
	var inboxes [movers]chan chan []byte
	for k := range inboxes {
		inboxes[k] = make(chan chan []byte, 1)
	}
	began := time.Now()
	var all sync.WaitGroup
	for k := 0; k < senders; k++ {
		all.Add(1)
		go func() {
			defer all.Done()
			defer done.Add(1)
			for n := 0; n < sends; n++ {
				port, _ := names.Load("1.p.1")
				select {
				case port.(chan []byte) <- []byte("x"):
					accepted.Add(1)
				default:
					refused.Add(1)
				}
			}
		}()
	}
	for k := 0; k < movers; k++ {
		all.Add(1)
		go func(mine, next chan chan []byte) {
			defer all.Done()
			for port := range mine {
				ended := done.Load() == senders
				select {
				case <-port:
					taken.Add(1)
				default:
					if ended {
						// nothing waits, and nobody sends: the next mover ends too
						select {
						case next <- port:
						default:
						}
						return
					}
				}
				moves.Add(1)
				next <- port
			}
		}(inboxes[k], inboxes[(k+1)%movers])
	}
	port, _ := names.Load("1.p.1")
	inboxes[0] <- port.(chan []byte)
	all.Wait()
	seconds := time.Since(began).Seconds()
	fmt.Printf("go: %d sent, %d accepted, %d refused, %d taken, %d moves, %.3f s, %.0f sends/s, %.0f taken/s\n", senders*sends, accepted.Load(),
		refused.Load(), taken.Load(), moves.Load(), seconds, float64(senders*sends)/seconds, float64(taken.Load())/seconds)
}
