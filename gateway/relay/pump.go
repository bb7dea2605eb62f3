// Package relay passes lines from one end to the other: whole lines of a read go on in one write, who reads slowly at
// one end slows the other end down, and what waits here is bounded.
package relay

import (
	"bytes"
	"errors"
	"io"
	"sync"
	"sync/atomic"
	"time"

	"rudderraisin/gateway/dialect"
)

const (
	// LineLimit is the most bytes of a line of either side before its LF.
	LineLimit = 20480
	// A buffer begins small, grows where reads fill it, and becomes small again where they no longer do.
	smallest, largest = 4096, 16384
	patientReads      = 32
)

// Errors that say why a pump ended. Others are those of the connections.
var (
	ErrLong   = errors.New("line too long")
	ErrFlood  = errors.New("too much")
	ErrSilent = errors.New("the server does not answer")
	ErrDone   = errors.New("ended")
)

// WriteError is one of the end that is written to.
type WriteError struct{ error }

// Unwrap gives the connection's own error.
func (e WriteError) Unwrap() error { return e.error }

// Counts are what went through, in all.
type Counts struct{ Lines, Bytes atomic.Uint64 }

// Pump is one direction of a connection.
type Pump struct {
	From   io.Reader
	Turn   func(line []byte, out *dialect.Out) dialect.Verdict
	Onward io.Writer
	Back   io.Writer
	Wake   <-chan struct{} // tells that a held line may be given again
	Done   <-chan struct{} // closed where the connection is to end
	Rate   Rate
	Hold   time.Duration // how long the server may take to answer
	OnLine func()        // called after each read that had a whole line; may be nil
	Counts *Counts

	budget *budget
}

// Run passes lines on until the reader's end, which is no error. A last line without LF is passed as it is.
func (p *Pump) Run() error {
	if p.Rate.Bytes > 0 || p.Rate.Lines > 0 {
		p.budget = newBudget(p.Rate, time.Now())
	}
	buffer, filled, small := make([]byte, smallest), 0, 0
	for {
		count, err := p.From.Read(buffer[filled:])
		filled += count
		if end := bytes.LastIndexByte(buffer[filled-count:filled], '\n'); end >= 0 {
			whole := buffer[:filled-count+end+1]
			if err := p.pass(whole); err != nil {
				return err
			}
			if p.OnLine != nil {
				p.OnLine()
			}
			filled = copy(buffer, buffer[len(whole):filled])
		}
		if filled > LineLimit {
			return ErrLong
		}
		if err != nil {
			return p.last(buffer[:filled], err)
		}
		if count < len(buffer)/8 {
			small++
		} else {
			small = 0
		}
		if size := p.size(len(buffer), filled, count, small); size != len(buffer) {
			buffer, small = append(make([]byte, 0, size), buffer[:filled]...)[:size], 0
		}
	}
}

// size says how large a buffer of this size is to be, after a read of `count` bytes left so many in it.
func (p *Pump) size(size, filled, count, small int) int {
	switch {
	case filled == size: // a line that is longer than the buffer
		return size * 2
	case count > size/2 && size < largest:
		return size * 2
	case small > patientReads && size > smallest && filled < smallest/2:
		return smallest
	}
	return size
}

func (p *Pump) last(rest []byte, err error) error {
	if len(rest) > 0 {
		if _, failed := p.Onward.Write(rest); failed != nil {
			return WriteError{failed}
		}
	}
	if errors.Is(err, io.EOF) {
		return nil
	}
	return err
}

// pass puts whole lines through, as many at once as the budget allows.
func (p *Pump) pass(whole []byte) error {
	for len(whole) > 0 {
		part, lines := whole, bytes.Count(whole, []byte("\n"))
		if p.budget != nil {
			var err error
			if part, lines, err = p.allowed(whole, lines); err != nil {
				return err
			}
		}
		if err := p.turn(part); err != nil {
			return err
		}
		p.Counts.Lines.Add(uint64(lines))
		p.Counts.Bytes.Add(uint64(len(part)))
		whole = whole[len(part):]
	}
	return nil
}

// allowed gives the first of these lines that may go on now, and waits until one may.
func (p *Pump) allowed(whole []byte, lines int) ([]byte, int, error) {
	for {
		now := time.Now()
		p.budget.refill(now)
		if p.budget.allows(len(whole), lines) {
			p.budget.take(len(whole), lines)
			return whole, lines, nil
		}
		end, count := 0, 0
		next := bytes.IndexByte(whole, '\n') + 1
		for p.budget.allows(end+next, count+1) {
			end, count = end+next, count+1
			next = bytes.IndexByte(whole[end:], '\n') + 1
		}
		wait, over := p.budget.wait(now, next)
		if over {
			return nil, 0, ErrFlood
		}
		if count > 0 {
			p.budget.take(end, count)
			return whole[:end], count, nil
		}
		if !p.sleep(wait, nil) {
			return nil, 0, ErrDone
		}
	}
}

// sleep waits so long or until it is woken, and says whether the connection goes on.
func (p *Pump) sleep(wait time.Duration, wake <-chan struct{}) bool {
	timer := time.NewTimer(wait)
	defer timer.Stop()
	select {
	case <-timer.C:
	case <-wake:
	case <-p.Done:
		return false
	}
	return true
}

// work is what one piece comes to. It is used again, by whichever pump has a line that is changed.
type work struct {
	out   dialect.Out
	lines []byte
}

var works = sync.Pool{New: func() any { return new(work) }}

// turn puts whole lines through the dialect. A piece in which none is changed is written as it came.
func (p *Pump) turn(part []byte) error {
	w := works.Get().(*work)
	defer works.Put(w)
	kept := 0 // what stands from here on is passed as it is
	for at := 0; at < len(part); {
		end := at + bytes.IndexByte(part[at:], '\n')
		verdict := dialect.Hold
		if end-at <= LineLimit {
			verdict = p.Turn(part[at:end], &w.out)
		}
		switch verdict {
		case dialect.Changed:
			w.lines = append(append(w.lines, part[kept:at]...), w.out.There...)
			w.out.There, kept = w.out.There[:0], end+1
		case dialect.Hold:
			if err := p.flush(w, part[kept:at]); err != nil {
				return err
			}
			kept = at
			if end-at > LineLimit {
				return ErrLong
			}
			if err := p.hold(); err != nil {
				return err
			}
			continue
		}
		at = end + 1
	}
	return p.flush(w, part[kept:])
}

// flush writes what was worked out, and behind it what is passed as it is. What goes back goes first, since an EXIT
// may be among what goes on.
func (p *Pump) flush(w *work, kept []byte) (err error) {
	if len(w.lines) > 0 && len(kept) > 0 {
		w.lines, kept = append(w.lines, kept...), nil
	}
	if len(w.out.Here) > 0 {
		_, err = p.Back.Write(w.out.Here)
	}
	for _, whole := range [2][]byte{w.lines, kept} {
		if len(whole) > 0 && err == nil {
			_, err = p.Onward.Write(whole)
		}
	}
	w.lines, w.out.Here = w.lines[:0], w.out.Here[:0]
	if err != nil {
		return WriteError{err}
	}
	return nil
}

// hold waits for the server's answer to the lines before.
func (p *Pump) hold() error {
	until := time.Now().Add(p.Hold)
	select {
	case <-p.Wake:
		return nil
	default:
	}
	if !p.sleep(time.Until(until), p.Wake) {
		return ErrDone
	}
	if !time.Now().Before(until) {
		return ErrSilent
	}
	return nil
}
