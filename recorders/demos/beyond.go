package main

import (
	"demo/monklog"
	"os"
	"time"
)

// Forty seats, or the last of ten conditions, and a signal without the mutex; then one of them waits for ever: beyond
// FILE [conditions].
func main() {
	var monitor monklog.Monitor
	var conds [10]*monklog.Cond
	for i := range conds {
		conds[i] = monitor.Cond()
	}
	conds[0].Signal(0)
	monitor.EndAfter(300*time.Millisecond, os.Args[1], 40, "buffer 1")
	if len(os.Args) > 2 {
		monitor.Lock(0)
		conds[len(conds)-1].Wait(0)
	}
	for seat := uint64(0); seat < 40; seat++ {
		monitor.Lock(seat)
		monitor.Unlock(seat)
	}
	for {
		time.Sleep(time.Second)
	}
}
