// Package settings reads what an operator sets: flags, and a file that has a line for each.
package settings

import (
	"bufio"
	"bytes"
	"errors"
	"flag"
	"fmt"
	"io"
	"net/netip"
	"os"
	"strings"
	"time"
)

// ControlPath is where the control socket is by default.
const ControlPath = "/run/rudderraisin-gateway/control"

// Settings are all that can be set.
type Settings struct {
	Listen, Plain, TLS, Server, Metrics string
	Cert, Key, Bans, Control, Profile   string
	ProxyProtocol, Check                bool

	Handshake, Login, Idle, Patience, Dead time.Duration
	Connections                            int
	AddressConnections, AddressRate        int
	Exempt                                 []netip.Prefix
	Bytes, Lines                           int
	Burst, Over                            time.Duration

	AccountsText, GoneText, FullText, LimitText, BanText string
	LogRate                                              int
}

// Flags makes a set of flags that fill these settings. Each has its default.
func (s *Settings) Flags(name string) *flag.FlagSet {
	set := flag.NewFlagSet(name, flag.ContinueOnError)
	s.places(set)
	s.times(set)
	s.limits(set)
	s.texts(set)
	return set
}

func (s *Settings) places(set *flag.FlagSet) {
	set.Var(&place{&s.Listen}, "listen", "`HOST:PORT` where SpringLobby connects, and begins TLS by STLS")
	set.Var(&place{&s.TLS}, "tls", "`HOST:PORT` where clients of the protocol connect by TLS from the first byte")
	set.Var(&place{&s.Plain}, "plain", "`HOST:PORT` where clients of the protocol connect without TLS")
	set.Var(&place{&s.Server}, "server", "`HOST:PORT` of the lobby server")
	set.BoolVar(&s.ProxyProtocol, "proxy-protocol", false,
		"tell the server each client's address by a line of PROXY protocol version 1;\n"+
			"its setting proxies has to name the gateway")
	set.StringVar(&s.Cert, "cert", "", "`FILE` of the certificate chain, PEM")
	set.StringVar(&s.Key, "key", "", "`FILE` of its private key, PEM")
	set.StringVar(&s.Bans, "bans", "", "`FILE` of bans; without one they last as long as the gateway")
	set.StringVar(&s.Control, "control", "", "`PATH` of the control socket; none if empty")
	set.Var(&place{&s.Metrics}, "metrics", "`HOST:PORT` where Prometheus asks for numbers; none if empty")
	set.BoolVar(&s.Check, "check", false, "look at the settings, the certificate and the bans, and start nothing")
	set.StringVar(&s.Profile, "cpuprofile", "", "`FILE` for a profile of the processor time, written at the end")
}

func (s *Settings) times(set *flag.FlagSet) {
	day := 24 * time.Hour
	span := func(to *time.Duration, value time.Duration, least, most time.Duration, name, help string) {
		*to = value
		set.Var(&duration{to, least, most}, name, help)
	}
	span(&s.Handshake, 15*time.Second, time.Millisecond, time.Hour, "handshake",
		"`TIME` for all up to the end of the TLS handshake")
	span(&s.Login, time.Minute, time.Millisecond, day, "login", "`TIME` from the connection to the login")
	span(&s.Idle, 0, 0, day, "idle", "`TIME` that a client may send no line; 0 is any")
	span(&s.Patience, time.Minute, time.Millisecond, time.Hour, "patience",
		"`TIME` that a side may make no room for what waits")
	span(&s.Dead, 90*time.Second, time.Second, time.Hour, "dead",
		"`TIME` after which a machine that answers nothing is given up")
	span(&s.Burst, 10*time.Second, time.Second, time.Hour, "burst",
		"`TIME` whose bytes and lines a client may send at once")
	span(&s.Over, time.Minute, 0, time.Hour, "over", "`TIME` that a client may stay over its bytes or lines a second")
}

func (s *Settings) limits(set *flag.FlagSet) {
	count := func(to *int, value, most int, name, help string) {
		*to = value
		set.Var(&number{to, most}, name, help)
	}
	count(&s.Connections, 10000, 1<<20, "connections", "`NUMBER` of connections in all; 0 is any")
	count(&s.AddressConnections, 20, 1<<20, "address-connections", "`NUMBER` of connections of an address; 0 is any")
	count(&s.AddressRate, 60, 1<<20, "address-rate", "`NUMBER` of new connections a minute of an address; 0 is any")
	s.Exempt = []netip.Prefix{netip.MustParsePrefix("127.0.0.0/8")}
	set.Var(&networks{&s.Exempt}, "exempt", "`ADDRESSES`[/BITS], with commas, that have no limit for an address")
	count(&s.Bytes, 20480, 1<<30, "bytes", "`NUMBER` of bytes a second of a client; 0 is any")
	count(&s.Lines, 100, 1<<30, "lines", "`NUMBER` of lines a second of a client; 0 is any")
	count(&s.LogRate, 600, 1<<30, "log-rate", "`NUMBER` of lines a minute of the log of each kind; 0 is any")
}

func (s *Settings) texts(set *flag.FlagSet) {
	text := func(to *string, value, name, help string) {
		*to = value
		set.Var(&words{to}, name, help)
	}
	text(&s.AccountsText, "Accounts are made by the operator of this lobby", "accounts-text",
		"`TEXT` for one who would register")
	text(&s.GoneText, "The lobby server is not there at the moment. Try again later", "gone-text",
		"`TEXT` while the server is not there")
	text(&s.FullText, "The lobby is full. Try again later", "full-text",
		"`TEXT` where the server or the gateway takes no more")
	text(&s.LimitText, "Too many connections from your address. Try again later", "limit-text",
		"`TEXT` for an address over its limits")
	text(&s.BanText, "You are banned", "ban-text", "`TEXT` for one who is banned, before the ban's own")
}

// Load reads flags, and the file that they name, if they name one. A flag comes before a line of the file.
func Load(name string, arguments []string, usage io.Writer) (*Settings, error) {
	s := new(Settings)
	set := s.Flags(name)
	set.SetOutput(usage)
	set.Usage = func() {
		fmt.Fprintf(usage, "usage: %s [FLAG]... [FILE]\n\n", name)
		fmt.Fprintln(usage, "FILE has lines `key = value`, whose keys are these flags:")
		set.PrintDefaults()
	}
	if err := set.Parse(arguments); err != nil {
		return nil, err
	}
	if file := set.Arg(0); file != "" {
		if err := set.Parse(set.Args()[1:]); err != nil { // flags may stand behind the file, too
			return nil, err
		}
		if set.NArg() > 0 {
			return nil, fmt.Errorf("%q is one argument too many", set.Arg(0))
		}
		if err := readFile(set, file); err != nil {
			return nil, err
		}
	}
	return s, s.check()
}

func readFile(set *flag.FlagSet, path string) error {
	text, err := os.ReadFile(path)
	if err != nil {
		return err
	}
	given := map[string]bool{}
	set.Visit(func(f *flag.Flag) { given[f.Name] = true })
	lines := bufio.NewScanner(bytes.NewReader(text))
	seen, spare := map[string]int{}, new(Settings).Flags("")
	for number := 1; lines.Scan(); number++ {
		line := strings.TrimSpace(lines.Text())
		if line == "" || line[0] == '#' {
			continue
		}
		key, value, good := strings.Cut(line, "=")
		key, value = strings.TrimSpace(key), strings.TrimSpace(value)
		switch {
		case !good:
			return fmt.Errorf("%s:%d: %q is no line `key = value`", path, number, line)
		case set.Lookup(key) == nil:
			return fmt.Errorf("%s:%d: unknown key %q", path, number, key)
		case seen[key] > 0:
			return fmt.Errorf("%s:%d: %q was set in line %d", path, number, key, seen[key])
		}
		seen[key] = number
		target := set
		if given[key] { // it is looked at all the same
			target = spare
		}
		if err := target.Set(key, value); err != nil {
			return fmt.Errorf("%s:%d: bad value %q of %q: %w", path, number, value, key, err)
		}
	}
	return lines.Err()
}

// check looks at what no flag knows by itself.
func (s *Settings) check() error {
	switch {
	case s.Listen == "" && s.TLS == "" && s.Plain == "":
		return errors.New("nothing to listen at: give -listen, -tls or -plain")
	case s.Server == "":
		return errors.New("give -server, where the lobby server is")
	case s.Plain == "" && s.Cert == "", s.Listen+s.TLS != "" && (s.Cert == "" || s.Key == ""):
		return errors.New("give -cert and -key, for TLS")
	}
	return nil
}
