package door

import (
	"errors"
	"io"
	"net"
	"net/netip"
	"os"
	"sync"
	"sync/atomic"
	"syscall"
	"time"

	"rudderraisin/gateway/dialect"
	"rudderraisin/gateway/relay"
)

const (
	closing   = 5 * time.Second // for the end of TLS, to which SpringLobby gives no answer
	lastBytes = 1 << 20         // of a client that are read behind its end
	mostSaid  = 8               // messages of the operator that may wait for a client that does not read
)

// session is one client that has come through the handshake, and its connection to the server.
type session struct {
	house   *House
	kind    Kind
	raw     *net.TCPConn
	client  closeWriter // raw, or the TLS over it
	server  *net.TCPConn
	peer    netip.AddrPort
	since   time.Time
	first   []byte // what the client said before there was a server
	out     *relay.Sink
	dialect *dialect.Dialect
	name    atomic.Pointer[string] // nil until it is logged in
	late    *time.Timer
	said    atomic.Int32 // messages of the operator that wait to be written

	done  chan struct{} // closed when it ends
	stop  sync.Once
	upped chan struct{} // closed when nothing more is passed on from the client
	mutex sync.Mutex
	cause string
	last  string // told to the client at the end
}

type closeWriter interface {
	net.Conn
	CloseWrite() error
}

// end gives the session up for this cause, and tells the client so, if it reads. The first cause is the one that
// counts, and end says whether it was this one.
func (s *session) end(cause, text string) bool {
	if !s.because(cause, text) {
		return false
	}
	s.stop.Do(func() { close(s.done) })
	s.server.Close()
	s.raw.SetReadDeadline(time.Unix(1, 0))
	s.raw.SetWriteDeadline(time.Now().Add(closing))
	return true
}

// because notes why the session ends, if nothing else was before.
func (s *session) because(cause, text string) bool {
	s.mutex.Lock()
	defer s.mutex.Unlock()
	if s.cause != "" {
		return false
	}
	s.cause, s.last = cause, text
	return true
}

func (s *session) why() (cause, last string) {
	s.mutex.Lock()
	defer s.mutex.Unlock()
	return s.cause, s.last
}

// start passes lines both ways from here on. Two goroutines of their own do, whose stacks are small: that of a
// handshake is not.
func (s *session) start(greeting []byte) {
	go s.up()
	go s.down(greeting)
}

func (s *session) up() {
	defer close(s.upped)
	settings := s.house.settings
	to := relay.NewSink(s.server, settings.Patience)
	pump := relay.Pump{From: s.client, Turn: s.dialect.FromClient, Onward: to, Back: s.out, Wake: s.dialect.Wake,
		Done: s.done, Hold: settings.Patience, Counts: &s.house.metrics.Up,
		Rate: relay.Rate{Bytes: settings.Bytes, Lines: settings.Lines, Burst: settings.Burst, Most: settings.Over}}
	if settings.Idle > 0 {
		pump.OnLine = s.stayed()
		pump.OnLine()
	}
	if len(s.first) > 0 {
		pump.From = &primed{s.first, s.client}
		s.first = nil
	}
	s.upEnded(pump.Run())
}

// primed gives what was read before, and then what comes.
type primed struct {
	rest []byte
	next io.Reader
}

func (p *primed) Read(to []byte) (int, error) {
	if len(p.rest) == 0 {
		return p.next.Read(to)
	}
	count := copy(to, p.rest)
	if p.rest = p.rest[count:]; len(p.rest) == 0 {
		p.rest = nil
	}
	return count, nil
}

// stayed moves the time at which a client that sends no line is ended, once a second at most.
func (s *session) stayed() func() {
	var moved time.Time
	return func() {
		if now := time.Now(); now.Sub(moved) > time.Second || s.house.settings.Idle < 2*time.Second {
			moved = now
			s.raw.SetReadDeadline(now.Add(s.house.settings.Idle))
		}
	}
}

// upEnded says what comes of it that nothing more is passed on from the client. Where the client has ended, or is to
// be heard no more, the server still answers what was said.
func (s *session) upEnded(err error) {
	var write relay.WriteError
	switch {
	case err == nil:
		s.because("closed", "")
	case errors.Is(err, relay.ErrLong):
		s.because("line_too_long", "")
	case errors.Is(err, relay.ErrFlood):
		s.end("flood", "SERVERMSG You send too much")
		return
	case errors.Is(err, relay.ErrSilent):
		s.end("server", "SERVERMSG The lobby server does not answer")
		return
	case errors.Is(err, relay.ErrDone), errors.As(err, &write):
		return // who ended it has said why, or the other direction will
	case errors.Is(err, os.ErrDeadlineExceeded):
		s.end("idle", "SERVERMSG You have said nothing for too long")
		return
	case errors.Is(err, syscall.ETIMEDOUT):
		s.end("dead", "")
		return
	default:
		s.end("fault", "")
		return
	}
	s.server.CloseWrite()
	s.server.SetReadDeadline(time.Now().Add(s.house.settings.Patience))
}

func (s *session) down(greeting []byte) {
	pump := relay.Pump{From: &primed{greeting, s.server}, Turn: s.dialect.FromServer, Onward: s.out, Done: s.done,
		OnLine: s.dialect.Told, Counts: &s.house.metrics.Down}
	err := pump.Run()
	var write relay.WriteError
	switch {
	case errors.As(err, &write) && errors.Is(err, os.ErrDeadlineExceeded):
		s.because("slow", "")
	case errors.As(err, &write) && errors.Is(err, syscall.ETIMEDOUT):
		s.because("dead", "")
	case errors.As(err, &write):
		s.because("fault", "")
	case errors.Is(err, relay.ErrLong):
		s.because("server_line_too_long", "")
	case s.dialect.HasLeft():
		s.because("exit", "")
	default:
		s.because("server", "")
	}
	s.finish(!errors.As(err, &write))
}

// finish ends the connection to the client. What waits for it was written before; it is read on for a while, since
// bytes that nobody reads would have the system take back what the client has not read yet.
func (s *session) finish(isWhole bool) {
	s.late.Stop()
	s.stop.Do(func() { close(s.done) })
	s.server.Close()
	_, last := s.why()
	s.house.left(s)
	limit := time.Now().Add(closing)
	if isWhole {
		s.raw.SetWriteDeadline(limit)
		if last != "" {
			io.WriteString(s.client, last+"\n")
		}
		s.client.CloseWrite()
		s.raw.CloseWrite()
		s.raw.SetReadDeadline(limit)
	} else {
		s.raw.Close()
	}
	<-s.upped
	if isWhole {
		s.raw.SetReadDeadline(limit)
		io.CopyN(io.Discard, s.raw, lastBytes)
		s.raw.Close()
	}
	s.house.leave(s.peer)
}

// user is the name that it is logged in with, or empty.
func (s *session) user() string {
	if name := s.name.Load(); name != nil {
		return *name
	}
	return ""
}
