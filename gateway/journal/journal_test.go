package journal

import (
	"bytes"
	"fmt"
	"strings"
	"testing"
	"time"
)

func TestLines(t *testing.T) {
	var text bytes.Buffer
	j := New(&text, 0)
	j.Tell("in", "name", "Anna_[x]", "client", "192.0.2.7:51000")
	j.Tell("out", "name", "a b\n\xff=", "why", "it broke: a=b\r\n\x00")
	j.Tell("in", "name", strings.Repeat("x", 65))
	j.Close(time.Minute)
	wanted := "in name=Anna_[x] client=192.0.2.7:51000\nout name=a%20b%0A%FF%3D why=it broke: a=b%0D%0A%00\nin name=" +
		strings.Repeat("x", 64) + "\n"
	if text.String() != wanted {
		t.Errorf("%q, wanted %q", text.String(), wanted)
	}
	j.Tell("late") // does no harm
}

func TestSoManyAMinute(t *testing.T) {
	var text bytes.Buffer
	j := New(&text, 2)
	for i := 0; i < 5; i++ {
		j.Tell("in", "name", fmt.Sprint(i))
	}
	j.Tell("out")
	j.kinds["in"].begun = time.Now().Add(-time.Minute)
	j.Tell("in", "name", "5")
	j.Tell("in", "name", "6")
	j.Tell("in", "name", "7")
	j.kinds["in"].begun = time.Now().Add(-time.Minute)
	j.Tick()
	j.Tick()
	j.Close(time.Minute)
	wanted := "in name=0\nin name=1\nout\nomitted kind=in count=3\nin name=5\nin name=6\nomitted kind=in count=1\n"
	if text.String() != wanted {
		t.Errorf("%q, wanted %q", text.String(), wanted)
	}
}

// stuck takes nothing until it is let go.
type stuck struct {
	free chan struct{}
	text bytes.Buffer
}

func (s *stuck) Write(text []byte) (int, error) {
	<-s.free
	return s.text.Write(text)
}

// Who tells does not wait for who reads. What finds no place is counted.
func TestNobodyReads(t *testing.T) {
	to := &stuck{free: make(chan struct{})}
	j := New(to, 0)
	for i := 0; i < waiting+50; i++ {
		j.Tell("in")
	}
	j.Close(10 * time.Millisecond) // gives up
	close(to.free)
	<-j.done
	to = &stuck{free: make(chan struct{})}
	j = New(to, 0)
	for i := 0; i < waiting+50; i++ {
		j.Tell("in")
	}
	close(to.free)
	for len(j.lines) > 0 {
		time.Sleep(time.Millisecond)
	}
	j.Tell("out")
	j.Close(time.Minute)
	lines := strings.Split(to.text.String(), "\n")
	told := strings.Count(to.text.String(), "in\n")
	if lost := fmt.Sprintf("log lost=%d", waiting+50-told); lines[len(lines)-3] != lost || lines[len(lines)-2] != "out" {
		t.Errorf("%q at the end, wanted %s", lines[len(lines)-3:], lost)
	}
}
