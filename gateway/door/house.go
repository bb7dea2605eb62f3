// Package door takes clients in: it listens, counts who comes, ends TLS, connects each client to the server, and
// knows who is there.
package door

import (
	"context"
	"crypto/tls"
	"fmt"
	"net"
	"net/netip"
	"sync"
	"sync/atomic"
	"time"

	"rudderraisin/gateway/bans"
	"rudderraisin/gateway/dialect"
	"rudderraisin/gateway/journal"
	"rudderraisin/gateway/metrics"
	"rudderraisin/gateway/settings"
)

// House is a gateway that runs.
type House struct {
	settings *settings.Settings
	texts    atomic.Pointer[settings.Settings] // of which the texts alone are looked at; may be renewed
	journal  *journal.Journal
	metrics  *metrics.Metrics
	bans     *bans.List
	server   *upstream
	limits   *limits
	tls      *tls.Config
	pair     atomic.Pointer[tls.Certificate]
	context  context.Context
	cancel   context.CancelFunc

	mutex    sync.Mutex
	sessions map[*session]struct{}
	waits    sync.WaitGroup // for each connection
}

// New makes a gateway, and begins to look for the server.
func New(s *settings.Settings, j *journal.Journal, m *metrics.Metrics, b *bans.List) (*House, error) {
	h := &House{settings: s, journal: j, metrics: m, bans: b, limits: newLimits(s), sessions: map[*session]struct{}{}}
	h.texts.Store(s)
	if s.Cert != "" {
		if err := h.loadPair(s); err != nil {
			return nil, err
		}
	}
	// Records of full size cost a bulk of lines least. Tickets are of little use to clients that stay for hours.
	h.tls = &tls.Config{MinVersion: tls.VersionTLS12, DynamicRecordSizingDisabled: true, SessionTicketsDisabled: true,
		GetCertificate: func(*tls.ClientHelloInfo) (*tls.Certificate, error) { return h.pair.Load(), nil }}
	h.context, h.cancel = context.WithCancel(context.Background())
	h.server = &upstream{address: s.Server, proxy: s.ProxyProtocol, journal: j, metrics: m, known: make(chan struct{})}
	go h.server.watch(h.context)
	return h, nil
}

func (h *House) loadPair(s *settings.Settings) error {
	pair, err := readPair(s)
	if err == nil {
		h.pair.Store(pair)
	}
	return err
}

func readPair(s *settings.Settings) (*tls.Certificate, error) {
	pair, err := tls.LoadX509KeyPair(s.Cert, s.Key)
	if err != nil {
		return nil, fmt.Errorf("cannot use the certificate and its key: %w", err)
	}
	return &pair, nil
}

// Check says what a start would not like.
func Check(s *settings.Settings) error {
	if s.Cert == "" {
		return nil
	}
	_, err := readPair(s)
	return err
}

// Reload takes a new certificate, texts and bans, each for itself: what cannot be used stays as it was.
func (h *House) Reload(s *settings.Settings) {
	h.texts.Store(s)
	var faults []error
	if s.Cert != "" {
		faults = append(faults, h.loadPair(s))
	}
	faults = append(faults, h.bans.Reload())
	for _, err := range faults {
		if err != nil {
			h.journal.Tell("reload_refused", "why", err)
		}
	}
	h.journal.Tell("reloaded")
	for _, s := range h.all() {
		if text, isBanned := h.banned(s); isBanned {
			s.end("banned", "SERVERMSG "+text)
		}
	}
}

// Close ends all sessions, and waits for them for at most this time.
func (h *House) Close(patience time.Duration) {
	h.cancel()
	for _, s := range h.all() {
		s.end("stop", "SERVERMSG The gateway is stopped")
	}
	ended := make(chan struct{})
	go func() {
		h.waits.Wait()
		close(ended)
	}()
	select {
	case <-ended:
	case <-time.After(patience):
	}
}

func (h *House) all() []*session {
	h.mutex.Lock()
	defer h.mutex.Unlock()
	all := make([]*session, 0, len(h.sessions))
	for s := range h.sessions {
		all = append(all, s)
	}
	return all
}

// banned says whether a session's name or address is banned, and by which text.
func (h *House) banned(s *session) (string, bool) {
	if ban, found := h.bans.Address(s.peer.Addr()); found {
		return h.banText(ban), true
	}
	if ban, found := h.bans.Name(s.user()); found {
		return h.banText(ban), true
	}
	return "", false
}

func (h *House) banText(ban bans.Ban) string {
	text := h.texts.Load().BanText
	if !ban.Until.IsZero() {
		text += " until " + ban.Until.UTC().Format("2006-01-02 15:04 UTC")
	}
	if ban.Text != "" {
		text += ": " + ban.Text
	}
	return text
}

// hooks tell the dialect of a session who may log in, and hear who has.
func (h *House) hooks(s *session) dialect.Hooks {
	return dialect.Hooks{
		Refuse: func(name string) (string, bool) {
			ban, found := h.bans.Name(name)
			if !found {
				return "", false
			}
			h.refused(s.peer, "banned", "name", name)
			return h.banText(ban), true
		},
		In: func(name string) {
			s.late.Stop()
			s.name.Store(&name)
			h.metrics.Logins.Add(1)
			h.metrics.Users.Add(1)
			h.journal.Tell("in", "name", name, "client", s.peer, "door", s.kind)
			if ban, found := h.bans.Name(name); found { // since it said LOGIN
				s.end("banned", "SERVERMSG "+h.banText(ban))
			}
		},
		Texts: func() dialect.Texts { return dialect.Texts{Accounts: h.texts.Load().AccountsText} },
	}
}

// refused tells and counts one who may not come in.
func (h *House) refused(peer netip.AddrPort, cause string, more ...any) {
	h.metrics.Refused(cause)
	h.journal.Tell("refused", append([]any{"cause", cause, "client", peer}, more...)...)
}

// left tells who has gone. Its place is given back later, when the connection is closed.
func (h *House) left(s *session) {
	cause, _ := s.why()
	h.mutex.Lock()
	delete(h.sessions, s)
	h.mutex.Unlock()
	switch cause {
	case "exit", "closed", "fault", "server", "stop":
	default:
		h.metrics.Refused(cause)
	}
	if name := s.user(); name != "" {
		h.metrics.Users.Add(-1)
		stayed := int(time.Since(s.since).Seconds())
		h.journal.Tell("out", "name", name, "client", s.peer, "cause", cause, "seconds", stayed)
	} else {
		h.journal.Tell("away", "client", s.peer, "cause", cause)
	}
}

// leave gives the place of a connection back.
func (h *House) leave(peer netip.AddrPort) {
	h.limits.leave(peer.Addr())
	h.metrics.Connections.Add(-1)
	h.waits.Done()
}

func addrPort(address net.Addr) netip.AddrPort {
	of := address.(*net.TCPAddr).AddrPort()
	return netip.AddrPortFrom(of.Addr().Unmap(), of.Port())
}
