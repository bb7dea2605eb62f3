package door

import (
	"bytes"
	"context"
	"crypto/tls"
	"errors"
	"net"
	"os"
	"regexp"
	"syscall"
	"time"

	"rudderraisin/gateway/dialect"
	"rudderraisin/gateway/relay"
)

// Kind is how clients come in at a listener.
type Kind int

const (
	STLS  Kind = iota // SpringLobby: in the clear up to STLS, then TLS, and in its dialect
	TLS               // TLS from the first byte, and the server's protocol
	Plain             // the server's protocol
)

// String is the flag of a listener of this kind.
func (k Kind) String() string { return [...]string{"listen", "tls", "plain"}[k] }

// stls is the one line that SpringLobby may say before TLS.
var stls = regexp.MustCompile(`^(#[0-9]{1,10} )?STLS *\r?\n$`)

const stlsSize = 64

var errSTLS = errors.New("no STLS")

// Listen begins to listen. Options of the listener are those of all connections that come by it.
func (h *House) Listen(address string) (*net.TCPListener, error) {
	config := net.ListenConfig{KeepAlive: -1, Control: prepare(h.settings.Dead)}
	listener, err := config.Listen(context.Background(), "tcp4", address)
	if err != nil {
		return nil, err
	}
	widen(listener.(*net.TCPListener))
	return listener.(*net.TCPListener), nil
}

// Serve takes clients in until the listener is closed.
func (h *House) Serve(listener *net.TCPListener, kind Kind) {
	<-h.server.known
	for {
		conn, err := listener.AcceptTCP()
		if errors.Is(err, net.ErrClosed) {
			return
		}
		if err != nil { // as too many open files, or a client that is gone again
			h.journal.Tell("files_short", "why", err)
			h.metrics.Refused("files")
			time.Sleep(100 * time.Millisecond)
			continue
		}
		h.take(conn, kind)
	}
}

// take counts a client that has connected, and lets it in or turns it away.
func (h *House) take(conn *net.TCPConn, kind Kind) {
	peer := addrPort(conn.RemoteAddr())
	h.metrics.Accepted.Add(1)
	cause, text := "", ""
	if ban, found := h.bans.Address(peer.Addr()); found {
		cause, text = "banned", h.banText(ban)
	} else if cause = h.limits.enter(peer.Addr()); cause == "connections" {
		text = h.texts.Load().FullText
	} else if cause != "" {
		text = h.texts.Load().LimitText
	}
	if cause != "" {
		h.refused(peer, cause)
		turnAway(conn, kind, text)
		return
	}
	h.metrics.Connections.Add(1)
	h.waits.Add(1)
	go func() {
		s := &session{house: h, kind: kind, raw: conn, client: conn, peer: peer, since: time.Now(),
			done: make(chan struct{}), upped: make(chan struct{})}
		if !h.admit(s) {
			conn.Close()
			h.leave(peer)
		}
	}()
}

// turnAway tells a client why it may not come in, where it can be told before TLS. A new connection has room for a
// line.
func turnAway(conn *net.TCPConn, kind Kind, text string) {
	if kind != TLS {
		conn.SetWriteDeadline(time.Now().Add(time.Second))
		conn.Write([]byte("DENIED " + text + "\n"))
	}
	conn.Close()
}

// admit brings a client through the handshake and connects it to the server. It says whether the session has begun.
func (h *House) admit(s *session) bool {
	greeting := h.server.greeting.Load()
	if s.kind != TLS && (greeting == nil || !h.metrics.ServerThere.Load()) {
		h.refused(s.peer, "server_gone")
		turnAway(s.raw, s.kind, h.texts.Load().GoneText)
		return false
	}
	s.raw.SetDeadline(s.since.Add(h.settings.Handshake))
	if err := h.shake(s, greeting); err != nil {
		cause := "handshake"
		if errors.Is(err, os.ErrDeadlineExceeded) {
			cause = "handshake_late"
		} else if errors.Is(err, errSTLS) {
			cause = "no_stls"
		}
		h.refused(s.peer, cause, "why", err)
		return false
	}
	s.raw.SetDeadline(time.Time{})
	if s.kind != Plain {
		h.metrics.Shook(time.Since(s.since))
	}
	return h.join(s)
}

// shake does what stands before the protocol, for each kind.
func (h *House) shake(s *session, greeting *[]byte) (err error) {
	switch s.kind {
	case Plain:
		if _, err = s.raw.Write(*greeting); err != nil {
			return err
		}
		// Who says nothing has no place in the lobby.
		s.raw.SetReadDeadline(s.since.Add(h.settings.Login))
		first := make([]byte, 1024)
		count, err := s.raw.Read(first)
		s.first = first[:count]
		return err
	case STLS:
		if _, err = s.raw.Write(*greeting); err != nil {
			return err
		}
		if err = startTLS(s.raw); err != nil {
			return err
		}
	}
	over := tls.Server(s.raw, h.tls)
	s.client = over
	return over.Handshake()
}

// startTLS reads the line STLS and no byte behind it, and answers OK. Any other line is an error.
func startTLS(conn net.Conn) error {
	line := make([]byte, 0, stlsSize)
	for bytes.IndexByte(line, '\n') < 0 && len(line) < stlsSize {
		count, err := conn.Read(line[len(line):stlsSize])
		if line = line[:len(line)+count]; err != nil {
			return err
		}
	}
	match := stls.FindSubmatch(line)
	if match == nil {
		return errSTLS
	}
	_, err := conn.Write(append(match[1], "OK\n"...))
	return err
}

// join connects a client to the server, and begins its session.
func (h *House) join(s *session) bool {
	server, greeting, err := h.server.connect(h.context, s.peer, addrPort(s.raw.LocalAddr()))
	if err != nil {
		cause, text := "server_gone", h.texts.Load().GoneText
		if errors.Is(err, errFull) {
			cause, text = "full", h.texts.Load().FullText
		} else if errors.Is(err, syscall.EMFILE) || errors.Is(err, syscall.ENFILE) {
			cause, text = "files", h.texts.Load().FullText
		}
		h.refused(s.peer, cause, "why", err)
		s.raw.SetDeadline(time.Now().Add(closing))
		s.client.Write([]byte("DENIED " + text + "\n"))
		s.client.CloseWrite()
		return false
	}
	if s.kind == Plain { // it was greeted before
		greeting = greeting[bytes.IndexByte(greeting, '\n')+1:]
	}
	s.server = server
	s.out = relay.NewSink(s.client, h.settings.Patience)
	s.dialect = dialect.New(s.kind != STLS, h.hooks(s))
	s.late = time.AfterFunc(time.Until(s.since.Add(h.settings.Login)), func() {
		if s.user() == "" {
			s.end("login_late", "DENIED Log in within "+h.settings.Login.String())
		}
	})
	h.mutex.Lock()
	h.sessions[s] = struct{}{}
	h.mutex.Unlock()
	s.start(greeting)
	if h.context.Err() != nil {
		s.end("stop", "SERVERMSG The gateway is stopped")
	}
	return true
}
