package relay

import (
	"bytes"
	"errors"
	"io"
	"math/rand"
	"net"
	"os"
	"strings"
	"testing"
	"time"

	"rudderraisin/gateway/dialect"
)

// pieces is a reader that gives at most so many bytes at once: each of these in turn.
type pieces struct {
	text  []byte
	sizes []byte
	turn  int
}

func (p *pieces) Read(to []byte) (int, error) {
	if len(p.text) == 0 {
		return 0, io.EOF
	}
	size := len(to)
	if len(p.sizes) > 0 {
		if cut := 1 + 64*int(p.sizes[p.turn%len(p.sizes)])/8; cut < size {
			size = cut
		}
		p.turn++
	}
	count := copy(to[:size], p.text)
	p.text = p.text[count:]
	return count, nil
}

func same([]byte, *dialect.Out) dialect.Verdict { return dialect.Same }

// louder has lines that begin with `a` go on as `AA`, drops those with `b`, and answers those with `c`.
func louder(line []byte, out *dialect.Out) dialect.Verdict {
	if len(line) == 0 {
		return dialect.Same
	}
	switch line[0] {
	case 'a':
		out.There = append(append(append(out.There, "AA"...), line...), '\n')
	case 'b':
	case 'c':
		out.Here = append(append(append(out.Here, "CC"...), line...), '\n')
	default:
		return dialect.Same
	}
	return dialect.Changed
}

// run passes a text on, and gives what came out at both ends.
func run(text, sizes string, turn func([]byte, *dialect.Out) dialect.Verdict) (there, here string, lines uint64, err error) {
	var onward, back bytes.Buffer
	var counts Counts
	p := Pump{From: &pieces{text: []byte(text), sizes: []byte(sizes)}, Turn: turn, Onward: &onward, Back: &back, Counts: &counts}
	err = p.Run()
	return onward.String(), back.String(), counts.Lines.Load(), err
}

// wanted is what is to come out, line by line.
func wanted(text string) (there, here string) {
	lines := strings.SplitAfter(text, "\n")
	for _, line := range lines[:len(lines)-1] {
		var out dialect.Out
		if louder([]byte(line[:len(line)-1]), &out) == dialect.Same {
			there += line
		}
		there, here = there+string(out.There), here+string(out.Here)
	}
	return there + lines[len(lines)-1], here
}

func FuzzPump(f *testing.F) {
	f.Add("a\nb\nc\nd\n\ncc\ra", "\x00\x01")
	f.Add(strings.Repeat("some line\n", 5000)+"a last one", "\xff")
	f.Add(strings.Repeat("a\nbb\nccc\nd\n", 700), "\x05\x00\x30")
	f.Add(strings.Repeat("x", LineLimit)+"\n"+strings.Repeat("c", LineLimit)+"\n", "")
	f.Fuzz(func(t *testing.T, text, sizes string) {
		for _, line := range strings.Split(text, "\n") {
			if len(line) > LineLimit {
				return
			}
		}
		there, here, _, err := run(text, sizes, louder)
		wantThere, wantHere := wanted(text)
		if err != nil || there != wantThere || here != wantHere {
			t.Errorf("%.100q in pieces %q: %v, %.100q, %.100q", text, sizes, err, there, here)
		}
	})
}

func TestAllBytes(t *testing.T) {
	dice := rand.New(rand.NewSource(7))
	var text []byte
	for i := 0; i < 3000; i++ {
		line := make([]byte, dice.Intn(300))
		dice.Read(line)
		text = append(append(text, bytes.ReplaceAll(line, []byte("\n"), nil)...), '\n')
	}
	text = append(text, strings.Repeat("x", LineLimit)+"\n\n\r\nno LF"...)
	for _, sizes := range []string{"", "\x00", "\x01\x00\xff\x20"} {
		there, here, lines, err := run(string(text), sizes, same)
		if err != nil || there != string(text) || here != "" || lines != 3003 {
			t.Errorf("in pieces %q: %v, %d bytes, %d lines", sizes, err, len(there), lines)
		}
	}
}

func TestLineTooLong(t *testing.T) {
	for _, end := range []string{"", "\n", "\nmore\n"} {
		for _, sizes := range []string{"", "\x00", "\xff"} {
			there, _, _, err := run("PING\nan\n"+strings.Repeat("y", LineLimit+1)+end, sizes, louder)
			if err != ErrLong || there != "PING\nAAan\n" {
				t.Errorf("%q: %v, %q", end, err, there)
			}
		}
	}
}

func TestErrorsOfTheEnds(t *testing.T) {
	var counts Counts
	p := Pump{From: io.MultiReader(strings.NewReader("hi\nrest"), failing{}), Turn: same, Onward: io.Discard, Counts: &counts}
	if err := p.Run(); !errors.Is(err, os.ErrPermission) || errors.As(err, new(WriteError)) {
		t.Error("the error of the reader is", err)
	}
	p = Pump{From: strings.NewReader("hi\n"), Turn: same, Onward: failing{}, Counts: &counts}
	if err := p.Run(); !errors.Is(err, os.ErrPermission) || !errors.As(err, new(WriteError)) {
		t.Error("the error of the writer is", err)
	}
}

type failing struct{}

func (failing) Read([]byte) (int, error)  { return 0, os.ErrPermission }
func (failing) Write([]byte) (int, error) { return 0, os.ErrPermission }

func TestHeldLine(t *testing.T) {
	wake, done := make(chan struct{}, 1), make(chan struct{})
	asked := 0
	var onward bytes.Buffer
	var counts Counts
	p := Pump{From: strings.NewReader("one\nheld\ntwo\n"), Onward: &onward, Counts: &counts, Wake: wake, Done: done, Hold: time.Minute}
	p.Turn = func(line []byte, out *dialect.Out) dialect.Verdict {
		if string(line) != "held" {
			return dialect.Same
		}
		if asked++; asked < 3 {
			if asked == 2 && onward.String() != "one\n" {
				t.Errorf("what stands before was not sent: %q", onward.String())
			}
			wake <- struct{}{}
			return dialect.Hold
		}
		return dialect.Same
	}
	if err := p.Run(); err != nil || onward.String() != "one\nheld\ntwo\n" || asked != 3 {
		t.Errorf("%v, %q, asked %d times", err, onward.String(), asked)
	}
	p.From, p.Hold = strings.NewReader("held\n"), time.Millisecond
	p.Turn = func([]byte, *dialect.Out) dialect.Verdict { return dialect.Hold }
	if err := p.Run(); err != ErrSilent {
		t.Error("a server that does not answer:", err)
	}
	p.From, p.Hold = strings.NewReader("held\n"), time.Minute
	close(done)
	if err := p.Run(); err != ErrDone {
		t.Error("a connection that is to end:", err)
	}
}

func TestBudget(t *testing.T) {
	at := time.Unix(1000, 0)
	b := newBudget(Rate{Bytes: 100, Lines: 10, Burst: 10 * time.Second, Most: time.Minute}, at)
	if !b.allows(1000, 100) || b.allows(1001, 1) || b.allows(1, 101) {
		t.Error("a burst is other than ten seconds of the rate")
	}
	b.take(1000, 1)
	if b.allows(1, 1) {
		t.Error("bytes are not counted")
	}
	for second := 0; second < 60; second++ { // who always has more waiting is over all the time
		if _, end := b.wait(at, 50); end {
			t.Fatalf("ended after %d seconds", second)
		}
		at = at.Add(time.Second)
		b.refill(at)
		if !b.allows(100, 10) || b.allows(101, 1) {
			t.Fatalf("after a second %v bytes may go on", b.bytes)
		}
		b.take(100, 10)
	}
	if _, end := b.wait(at, 50); !end {
		t.Error("not ended after a minute")
	}
	// It stops, and is over no more.
	if _, end := b.wait(at.Add(6*time.Second), 50); end {
		t.Error("ended though nothing had to wait for six seconds")
	}
	if b.refill(at.Add(6 * time.Second)); !b.over.IsZero() {
		t.Error("over though there is room for half of a burst")
	}
	b = newBudget(Rate{Bytes: 1, Burst: 10 * time.Second, Most: time.Minute}, at)
	if _, end := b.wait(at, 11); !end {
		t.Error("a line that would wait for ever is no end")
	}
	if !newBudget(Rate{Lines: 5, Burst: time.Second}, at).allows(1<<30, 5) {
		t.Error("no bound of bytes is one")
	}
}

// What is over the rate goes on later, and all of it does.
func TestExcessWaits(t *testing.T) {
	text := strings.Repeat("PING\n", 150)
	var onward bytes.Buffer
	var counts Counts
	p := Pump{From: strings.NewReader(text), Turn: same, Onward: &onward, Counts: &counts,
		Rate: Rate{Lines: 100, Burst: time.Second, Most: time.Minute}}
	begun := time.Now()
	if err := p.Run(); err != nil || onward.String() != text {
		t.Errorf("%v, %d of %d bytes", err, onward.Len(), len(text))
	}
	if took := time.Since(begun); took < 400*time.Millisecond {
		t.Errorf("50 lines over a burst of 100 took %v", took)
	}
}

func TestFloodEnds(t *testing.T) {
	var counts Counts
	p := Pump{From: strings.NewReader(strings.Repeat("\n", 100_000)), Turn: same, Onward: io.Discard, Counts: &counts,
		Rate: Rate{Lines: 100, Burst: time.Second, Most: 300 * time.Millisecond}}
	if err := p.Run(); err != ErrFlood {
		t.Error("a flood ends with", err)
	}
	if passed := counts.Lines.Load(); passed < 100 || passed > 10_000 {
		t.Errorf("%d lines of it were passed on", passed)
	}
}

func TestBuffers(t *testing.T) {
	p := Pump{}
	for _, c := range []struct{ size, filled, count, small, wanted int }{
		{4096, 0, 100, 0, 4096},             // a short read
		{4096, 0, 3000, 0, 8192},            // one that nearly fills it
		{16384, 0, 16384, 0, 16384},         // as large as it becomes by that
		{16384, 16384, 16384, 0, 32768},     // a line that is longer
		{16384, 0, 10, patientReads, 16384}, // not yet
		{16384, 0, 10, patientReads + 1, 4096},
		{16384, 3000, 10, patientReads + 1, 16384}, // a part of a line stands in it
		{4096, 0, 10, patientReads + 1, 4096},
	} {
		if size := p.size(c.size, c.filled, c.count, c.small); size != c.wanted {
			t.Errorf("%+v: %d", c, size)
		}
	}
}

func TestSinkThatNobodyReads(t *testing.T) {
	here, there := net.Pipe()
	defer there.Close()
	s := NewSink(here, 50*time.Millisecond)
	if _, err := s.Write([]byte("hello\n")); !errors.Is(err, os.ErrDeadlineExceeded) {
		t.Error("a write that nobody reads ends with", err)
	}
}

// BenchmarkPump is what a line costs here, when none of it is changed.
func BenchmarkPump(b *testing.B) {
	text := []byte(strings.Repeat("SAID main Anna hello, is anybody there\n", 400))
	d := dialect.New(false, dialect.Hooks{})
	var counts Counts
	for i := 0; i < b.N; i += 400 {
		p := Pump{From: bytes.NewReader(text), Turn: d.FromServer, Onward: io.Discard, Counts: &counts}
		p.Run()
	}
}
