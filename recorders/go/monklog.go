// Package monklog records one monitor of a sync.Mutex and its sync.Conds. The goroutine that holds the mutex writes
// each line, except signals by seats that are outside: they are noted with their place. A goroutine has no name, so
// each call says the goroutine's seat, from 0. Write writes the log, and beside it the places in the source from which
// its lines come.
//
// recorders/README.md says what a recorder can't see.
package monklog

import (
	"fmt"
	"os"
	"path/filepath"
	"runtime"
	"strconv"
	"strings"
	"sync"
	"sync/atomic"
	"time"
)

// The limits of a log; and the status of a program that is ended.
const (
	seats      = 32
	conditions = 8
	statusLate = 124
	// in place of a count
	ended = -1
	// of runtime.Callers, up to the caller of the function that asks
	skipped = 3
)

func min(one, other int) int {
	if one < other {
		return one
	}
	return other
}

// Monitor takes the place of a sync.Mutex.
type Monitor struct {
	mutex   sync.Mutex
	lines   []line
	conds   int
	stopped string
	active  atomic.Uint64 // the seat that has the mutex, from 1
	count   atomic.Int64  // of the lines, or ended
	order   sync.Mutex    // held for each line of a wait, and for a signal from outside together with its call
	outside []signal
	leftOut int
}

// site is the place in the program from which a function of the recorder was called.
type site uintptr

// line is a line of the log, and the place from which it comes.
type line struct {
	text string
	from site
}

// signal is a signal by a seat that didn't have the mutex, and how many lines there are before it.
type signal struct {
	place int64
	line  line
}

// Cond takes the place of a sync.Cond.
type Cond struct {
	monitor *Monitor
	raw     *sync.Cond
	number  int
}

// caller is the site from which the function that asks was called. Each frame takes a tenth of a microsecond, so a
// function that the program calls asks itself.
func caller() site {
	var at [1]uintptr
	runtime.Callers(skipped, at[:])
	return site(at[0])
}

// place is FILE:LINE.
func (s site) place() string {
	frame, _ := runtime.CallersFrames([]uintptr{uintptr(s)}).Next()
	return fmt.Sprintf("%s:%d", filepath.Base(frame.File), frame.Line)
}

// newLine makes a line of a verb, the seat, and what else belongs to it.
func newLine(from site, verb string, numbers ...uint64) line {
	text := []byte(verb)
	for _, number := range numbers {
		text = strconv.AppendUint(append(text, ' '), number, 10)
	}
	return line{string(text), from}
}

// put writes a line. The lines before one that isn't written are a log too.
func (m *Monitor) put(from site, verb string, numbers ...uint64) {
	if m.stopped == "" && numbers[0] >= seats {
		m.stopped = fmt.Sprintf("there are more than %d threads, and a log has no more seats", seats)
	}
	if m.stopped != "" {
		m.count.Store(ended)
		return
	}
	m.lines = append(m.lines, newLine(from, verb, numbers...))
	m.count.Store(int64(len(m.lines)))
}

// gate is the monitor's mutex as a sync.Cond uses it: Wait lets it go once its caller is among those that wait.
type gate struct{ m *Monitor }

func (g gate) Lock() { g.m.mutex.Lock() }

func (g gate) Unlock() {
	g.m.order.Unlock()
	g.m.active.Store(0)
	g.m.mutex.Unlock()
}

// Cond makes a condition of the monitor, before any goroutine uses it.
func (m *Monitor) Cond() *Cond {
	m.conds++
	return &Cond{m, sync.NewCond(gate{m}), m.conds - 1}
}

func (m *Monitor) Lock(seat uint64) {
	from := caller() // before others have to wait
	m.mutex.Lock()
	m.active.Store(seat + 1)
	m.put(from, "enter", seat)
}

func (m *Monitor) Unlock(seat uint64) {
	m.put(caller(), "leave", seat)
	m.active.Store(0)
	m.mutex.Unlock()
}

// Act reports an operation on what the mutex guards: its code, its argument and its reply (docs/MONITORS.md).
func (m *Monitor) Act(seat, code, arg, reply uint64) {
	m.put(caller(), "act", seat, code, arg, reply)
}

// on writes a line of the condition.
func (c *Cond) on(from site, verb string, seat uint64) {
	if c.number >= conditions && c.monitor.stopped == "" {
		c.monitor.stopped = fmt.Sprintf("there are more than %d conditions, and a log has no more", conditions)
	}
	c.monitor.put(from, verb, seat, uint64(c.number))
}

// tell writes a signal down and makes it. One from outside is noted: the served seat can't write yet that it goes on.
func (c *Cond) tell(from site, verb string, seat uint64, call func()) {
	m := c.monitor
	if m.active.Load() == seat+1 {
		c.on(from, verb, seat)
		call()
		return
	}
	m.order.Lock()
	defer m.order.Unlock()
	place := m.count.Load()
	if seat >= seats || c.number >= conditions || place == ended {
		m.leftOut++
	} else {
		m.outside = append(m.outside, signal{place, newLine(from, verb, seat, uint64(c.number))})
	}
	call()
}

// Wait holds the order until its caller is among those that wait (gate), so a signal from outside finds those whom the
// lines show.
func (c *Cond) Wait(seat uint64) {
	m, from := c.monitor, caller()
	m.order.Lock()
	c.on(from, "wait", seat)
	c.raw.Wait()
	m.active.Store(seat + 1)
	m.order.Lock()
	defer m.order.Unlock()
	m.put(from, "resume", seat)
}

func (c *Cond) Signal(seat uint64) {
	c.tell(caller(), "signal", seat, c.raw.Signal)
}

func (c *Cond) Broadcast(seat uint64) {
	c.tell(caller(), "broadcast", seat, c.raw.Broadcast)
}

// Summary is what was seen, in words.
func (m *Monitor) Summary() string {
	m.mutex.Lock()
	defer m.mutex.Unlock()
	m.order.Lock()
	defer m.order.Unlock()
	noted := len(m.outside)
	said := fmt.Sprintf("%d lines, %d conditions", len(m.lines)+noted, m.conds)
	if m.stopped != "" {
		said += "; it ends early, since " + m.stopped
	}
	if noted+m.leftOut > 0 {
		said += fmt.Sprintf("; signals without the mutex: %d", noted+m.leftOut)
	}
	if m.leftOut > 0 {
		said += fmt.Sprintf(", left out: %d", m.leftOut)
	}
	return said
}

// comesFree reports whether the mutex becomes free in a moment.
func (m *Monitor) comesFree() bool {
	for tries := 0; tries < 100; tries++ {
		if m.mutex.TryLock() {
			m.mutex.Unlock()
			return true
		}
		time.Sleep(time.Millisecond)
	}
	return false
}

// EndAfter is for a program that hangs: after that time it writes the log into a new file, and ends with status 124.
func (m *Monitor) EndAfter(long time.Duration, path string, seats int, object string) {
	time.AfterFunc(long, func() {
		if !m.comesFree() {
			fmt.Fprintf(os.Stderr, "monk: %s: no log, since a thread keeps the mutex\n", path)
			os.Exit(statusLate)
		}
		if err := m.write(path, seats, object, "ended after MONK_SECONDS\n"); err == nil {
			fmt.Fprintf(os.Stderr, "monk: %s: %s\n", path, m.Summary())
		} else {
			fmt.Fprintf(os.Stderr, "monk: %s: no log, since %v\n", path, err)
		}
		os.Exit(statusLate)
	})
}

// merged is the lines with the signals from outside at their places.
func (m *Monitor) merged() []line {
	m.mutex.Lock()
	defer m.mutex.Unlock()
	m.order.Lock()
	defer m.order.Unlock()
	var all []line
	written := int64(0)
	for _, it := range m.outside {
		all = append(all, m.lines[written:it.place]...)
		all = append(all, it.line)
		written = it.place
	}
	return append(all, m.lines[written:]...)
}

func (m *Monitor) text(lines []line, count int, object string) string {
	var text strings.Builder
	fmt.Fprintf(&text, "log 1 %d %d %s\n", min(count, seats), min(m.conds, conditions), object)
	for _, it := range lines {
		text.WriteString(it.text + "\n")
	}
	return text.String()
}

// Text is the log so far, with count seats; object is the object and its size, as "buffer 4".
func (m *Monitor) Text(count int, object string) string {
	return m.text(m.merged(), count, object)
}

// names is what is written beside the log: the places from which its lines come.
func names(lines []line) string {
	var sites, numbers strings.Builder
	places, of := map[site]string{}, map[string]int{}
	for _, it := range lines {
		place, isKnown := places[it.from]
		if !isKnown {
			place = it.from.place()
			places[it.from] = place
		}
		if of[place] == 0 {
			of[place] = len(of) + 1
			fmt.Fprintf(&sites, "site %d %s\n", of[place], place)
		}
		fmt.Fprintf(&numbers, " %d", of[place])
	}
	return sites.String() + "lines" + numbers.String() + "\n"
}

func writeNew(path, text string) error {
	file, err := os.OpenFile(path, os.O_WRONLY|os.O_CREATE|os.O_EXCL, 0o666)
	if err != nil {
		return err
	}
	defer file.Close()
	_, err = file.WriteString(text)
	return err
}

func (m *Monitor) write(path string, count int, object, end string) error {
	lines := m.merged()
	if err := writeNew(path, m.text(lines, count, object)); err != nil {
		return err
	}
	return writeNew(path+".names", end+names(lines))
}

// Write writes the log so far into a new file, and beside it path.names.
func (m *Monitor) Write(path string, count int, object string) error {
	return m.write(path, count, object, "")
}
