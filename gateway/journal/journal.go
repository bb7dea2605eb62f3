// Package journal writes one line a happening: a word, and key=value each. Nobody waits for who reads it.
package journal

import (
	"fmt"
	"io"
	"strings"
	"sync"
	"time"
)

const (
	waiting  = 1024 // lines that may wait to be written
	nameSize = 64   // bytes of a value that are kept
)

// Journal is a log. Of each kind of happening it writes so many lines a minute, and counts the others.
type Journal struct {
	most  int
	lines chan string
	done  chan struct{}

	mutex  sync.Mutex
	kinds  map[string]*tally
	lost   int
	closed bool
}

type tally struct {
	begun         time.Time
	told, omitted int
}

// New makes a journal that writes to `to`, at most so many lines of each kind a minute. 0 is no bound.
func New(to io.Writer, most int) *Journal {
	j := &Journal{most: most, lines: make(chan string, waiting), done: make(chan struct{}), kinds: map[string]*tally{}}
	go func() {
		defer close(j.done)
		for line := range j.lines {
			io.WriteString(to, line)
		}
	}()
	return j
}

// Tell writes a line of this kind with these pairs of key and value. The key "why" is a text, and comes last.
func (j *Journal) Tell(kind string, pairs ...any) {
	j.mutex.Lock()
	defer j.mutex.Unlock()
	now := time.Now()
	t := j.kinds[kind]
	if t == nil {
		t = &tally{begun: now}
		j.kinds[kind] = t
	}
	if now.Sub(t.begun) >= time.Minute {
		j.close(kind, t)
		*t = tally{begun: now}
	}
	if j.most > 0 && t.told >= j.most {
		t.omitted++
		return
	}
	t.told++
	var line strings.Builder
	line.WriteString(kind)
	for i := 0; i+1 < len(pairs); i += 2 {
		fmt.Fprintf(&line, " %s=%s", pairs[i], value(pairs[i], fmt.Sprint(pairs[i+1])))
	}
	j.write(line.String())
}

// close says how many happenings of a kind were left out in the minute that has passed.
func (j *Journal) close(kind string, t *tally) {
	if t.omitted > 0 {
		j.write(fmt.Sprintf("omitted kind=%s count=%d", kind, t.omitted))
	}
}

func (j *Journal) write(line string) {
	if j.closed {
		return
	}
	if j.lost > 0 {
		select {
		case j.lines <- fmt.Sprintf("log lost=%d\n", j.lost):
			j.lost = 0
		default:
		}
	}
	select {
	case j.lines <- line + "\n":
	default:
		j.lost++
	}
}

// Tick says what was left out of kinds that nothing happens of any more. It is called now and then.
func (j *Journal) Tick() {
	j.mutex.Lock()
	defer j.mutex.Unlock()
	for kind, t := range j.kinds {
		if time.Since(t.begun) >= time.Minute {
			j.close(kind, t)
			delete(j.kinds, kind)
		}
	}
}

// Close writes what waits, for at most this time.
func (j *Journal) Close(patience time.Duration) {
	j.mutex.Lock()
	for kind, t := range j.kinds {
		j.close(kind, t)
	}
	if !j.closed {
		j.closed = true
		close(j.lines)
	}
	j.mutex.Unlock()
	select {
	case <-j.done:
	case <-time.After(patience):
	}
}

// value keeps letters, digits and a few marks of a value, and writes other bytes as %XX. A text ends the line, and
// keeps all that is printed.
func value(key any, text string) string {
	isText := key == "why" || key == "text"
	size := nameSize
	if isText {
		size *= 4
	}
	if len(text) > size {
		text = text[:size]
	}
	var safe strings.Builder
	for _, letter := range []byte(text) {
		if (letter >= 'a' && letter <= 'z') || (letter >= 'A' && letter <= 'Z') || (letter >= '0' && letter <= '9') ||
			strings.IndexByte("-.:[]_/", letter) >= 0 || (isText && letter >= ' ' && letter <= '~') {
			safe.WriteByte(letter)
		} else {
			fmt.Fprintf(&safe, "%%%02X", letter)
		}
	}
	return safe.String()
}
