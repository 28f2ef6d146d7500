// A bounded buffer in Go: buffer PREFIX RUNS STYLE. Its logs are PREFIX.0, PREFIX.1, ..
//
//	good       two conditions, each signalled
//	all        one condition, and broadcasts
//	late       signals after the unlock
//	if         a fault: a goroutine that waited doesn't test again
//	forgotten  a fault: a taker signals nobody
//
// Putters wait on condition 0 (predicate 0 of a buffer), takers on condition 1 (predicate 1). The recorder is in the
// folder monklog of the module demo.
package main

import (
	"fmt"
	"math/rand"
	"os"
	"strconv"
	"sync"
	"time"

	"demo/monklog"
)

const (
	putters = 3
	takers  = 3
	size    = 2
	items   = 180 // (more than in the other languages, because goroutines overtake each other less)
	put     = 0
	take    = 1
	pause   = 20 * time.Microsecond
	long    = 20 * time.Second
	// for runs that may hang
	longIfHanging = 400 * time.Millisecond
)

type buffer struct {
	monitor           monklog.Monitor
	notFull, notEmpty *monklog.Cond
	items             []uint64
	style             string
}

func newBuffer(style string) *buffer {
	b := &buffer{style: style}
	b.notFull = b.monitor.Cond()
	b.notEmpty = b.notFull
	if style != "all" {
		b.notEmpty = b.monitor.Cond()
	}
	return b
}

func (b *buffer) waitWhile(holds func() bool, cond *monklog.Cond, seat uint64) {
	for holds() {
		cond.Wait(seat)
		if b.style == "if" {
			return
		}
	}
}

func (b *buffer) tellAndLeave(cond *monklog.Cond, seat uint64) {
	if b.style == "late" {
		b.monitor.Unlock(seat)
		cond.Signal(seat)
		return
	}
	if b.style == "all" {
		cond.Broadcast(seat)
	} else if cond != nil {
		cond.Signal(seat)
	}
	b.monitor.Unlock(seat)
}

func (b *buffer) put(seat, item uint64) {
	b.monitor.Lock(seat)
	b.waitWhile(func() bool { return len(b.items) >= size }, b.notFull, seat)
	b.items = append(b.items, item)
	b.monitor.Act(seat, put, item, 1)
	b.tellAndLeave(b.notEmpty, seat)
}

func (b *buffer) take(seat uint64) {
	b.monitor.Lock(seat)
	b.waitWhile(func() bool { return len(b.items) == 0 }, b.notEmpty, seat)
	item := uint64(0)
	if len(b.items) > 0 {
		item, b.items = b.items[0], b.items[1:]
	}
	b.monitor.Act(seat, take, 0, item+1)
	if b.style == "forgotten" {
		b.tellAndLeave(nil, seat)
	} else {
		b.tellAndLeave(b.notFull, seat)
	}
}

func (b *buffer) work(seat uint64) {
	for item := uint64(1); item <= items; item++ {
		time.Sleep(time.Duration(rand.Int63n(int64(pause))))
		if seat < putters {
			b.put(seat, item)
		} else {
			b.take(seat)
		}
	}
}

// run writes the log of one run, even if goroutines hang.
func run(style, path string) error {
	b := newBuffer(style)
	var all sync.WaitGroup
	for seat := uint64(0); seat < putters+takers; seat++ {
		all.Add(1)
		go func(seat uint64) {
			defer all.Done()
			b.work(seat)
		}(seat)
	}
	done := make(chan struct{})
	go func() {
		all.Wait()
		close(done)
	}()
	limit := long
	if style == "if" || style == "forgotten" {
		limit = longIfHanging
	}
	select {
	case <-done:
	case <-time.After(limit):
	}
	return b.monitor.Write(path, putters+takers, fmt.Sprintf("buffer %d", size))
}

func main() {
	rand.Seed(time.Now().UnixNano())
	runs, err := strconv.Atoi(os.Args[2])
	for number := 0; err == nil && number < runs; number++ {
		err = run(os.Args[3], fmt.Sprintf("%s.%d", os.Args[1], number))
	}
	if err != nil {
		fmt.Fprintln(os.Stderr, err)
		os.Exit(1)
	}
}
