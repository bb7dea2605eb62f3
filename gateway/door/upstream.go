package door

import (
	"bytes"
	"context"
	"errors"
	"fmt"
	"io"
	"net"
	"net/netip"
	"sync/atomic"
	"time"

	"rudderraisin/gateway/journal"
	"rudderraisin/gateway/metrics"
)

const (
	dialing   = 10 * time.Second // for the server to take a connection and greet it
	greetings = 1024             // bytes of a greeting at most
	pause     = time.Second      // between two tries to reach a server that is gone
	tries     = 5                // where the server closes a connection without a byte
)

var errFull = errors.New("the server takes no more")

// upstream is the lobby server. One connection that says nothing tells whether it is there.
type upstream struct {
	address  string
	proxy    bool
	journal  *journal.Journal
	metrics  *metrics.Metrics
	greeting atomic.Pointer[[]byte]
	known    chan struct{} // closed once it is known whether the server is there
	isKnown  bool
}

// watch keeps that connection until the context ends.
func (u *upstream) watch(ctx context.Context) {
	for ctx.Err() == nil {
		err := u.attend(ctx)
		if ctx.Err() != nil {
			return
		}
		wasThere := u.metrics.ServerThere.Load()
		if !errors.Is(err, errFull) && (wasThere || !u.isKnown) {
			u.metrics.ServerThere.Store(false)
			u.journal.Tell("server_gone", "address", u.address, "why", err)
		}
		u.know()
		select {
		case <-ctx.Done():
		case <-time.After(pause):
		}
	}
}

func (u *upstream) know() {
	if !u.isKnown {
		u.isKnown = true
		close(u.known)
	}
}

// attend takes the greeting, and stays until the server ends the connection.
func (u *upstream) attend(ctx context.Context) error {
	conn, err := u.dial(ctx)
	if err != nil {
		return err
	}
	defer conn.Close()
	greeting, err := u.begin(conn, "PROXY UNKNOWN\r\n")
	if err != nil {
		return err
	}
	u.greeting.Store(&greeting)
	if !u.metrics.ServerThere.Swap(true) && u.isKnown {
		u.journal.Tell("server_back", "address", u.address)
	}
	u.know()
	stop := make(chan struct{})
	defer close(stop)
	go func() {
		select {
		case <-ctx.Done():
			conn.Close()
		case <-stop:
		}
	}()
	if _, err = io.Copy(io.Discard, conn); err == nil {
		err = io.EOF
	}
	return err
}

func (u *upstream) dial(ctx context.Context) (*net.TCPConn, error) {
	dialer := net.Dialer{Timeout: dialing, KeepAlive: -1}
	conn, err := dialer.DialContext(ctx, "tcp4", u.address)
	if err != nil {
		return nil, err
	}
	return conn.(*net.TCPConn), nil
}

// begin says the first line, and takes the server's greeting.
func (u *upstream) begin(conn *net.TCPConn, line string) (greeting []byte, err error) {
	conn.SetDeadline(time.Now().Add(dialing))
	defer conn.SetDeadline(time.Time{})
	if u.proxy {
		if _, err := io.WriteString(conn, line); err != nil {
			return nil, err
		}
	}
	greeting = make([]byte, 0, 64)
	for bytes.IndexByte(greeting, '\n') < 0 {
		if len(greeting) == greetings {
			return nil, errors.New("the server does not greet")
		}
		if len(greeting) == cap(greeting) {
			greeting = append(make([]byte, 0, greetings), greeting...)
		}
		count, err := conn.Read(greeting[len(greeting):cap(greeting)])
		greeting = greeting[:len(greeting)+count]
		if err != nil && len(greeting) == 0 {
			return nil, errFull
		}
		if err != nil {
			return nil, err
		}
	}
	return greeting, nil
}

// connect makes a client's connection, and gives what the server said first. A server that has many to take closes one
// without a byte, and is tried again.
func (u *upstream) connect(ctx context.Context, from, to netip.AddrPort) (*net.TCPConn, []byte, error) {
	line := fmt.Sprintf("PROXY TCP4 %s %s %d %d\r\n", from.Addr(), to.Addr(), from.Port(), to.Port())
	for try := 1; ; try++ {
		conn, err := u.dial(ctx)
		if err != nil {
			return nil, nil, err
		}
		greeting, err := u.begin(conn, line)
		if err == nil {
			return conn, greeting, nil
		}
		conn.Close()
		if !errors.Is(err, errFull) || try == tries {
			return nil, nil, err
		}
		time.Sleep(time.Duration(try) * 100 * time.Millisecond)
	}
}
