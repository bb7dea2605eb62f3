package settings

import (
	"io"
	"os"
	"path/filepath"
	"strings"
	"testing"
	"time"
)

func load(t *testing.T, text string, flags ...string) (*Settings, string, error) {
	t.Helper()
	path := filepath.Join(t.TempDir(), "gateway.conf")
	if err := os.WriteFile(path, []byte(text), 0o600); err != nil {
		t.Fatal(err)
	}
	for i, flag := range flags {
		flags[i] = strings.ReplaceAll(flag, "FILE", path)
	}
	s, err := Load("gateway", flags, io.Discard)
	return s, path, err
}

func TestOldFlags(t *testing.T) {
	s, _, err := load(t, "", "--listen", "0.0.0.0:8200", "--server", "lobby:8201", "--cert", "c", "--key", "k", "--proxy-protocol")
	if err != nil || s.Listen != "0.0.0.0:8200" || s.Server != "lobby:8201" || s.Cert != "c" || s.Key != "k" || !s.ProxyProtocol {
		t.Errorf("%+v, %v", s, err)
	}
	if s.Handshake != 15*time.Second || s.Login != time.Minute || s.Idle != 0 || s.Dead >= 2*time.Minute {
		t.Errorf("the times are %+v", s)
	}
}

func TestFile(t *testing.T) {
	text := "# what players reach\n\nplain=127.0.0.1:8202\r\n  server = 127.0.0.1:8201  \nproxy-protocol = true\nidle = 10m\nlines = 7\n" +
		"ban-text = Go away = now # really\nexempt = 10.0.0.0/8,192.0.2.7\ncert =\n"
	s, _, err := load(t, text, "-lines", "8", "FILE", "-log-rate=9")
	if err != nil {
		t.Fatal(err)
	}
	if s.Plain != "127.0.0.1:8202" || s.Server != "127.0.0.1:8201" || !s.ProxyProtocol || s.Idle != 10*time.Minute || s.Lines != 8 ||
		s.BanText != "Go away = now # really" || len(s.Exempt) != 2 || s.Exempt[1].String() != "192.0.2.7/32" || s.LogRate != 9 {
		t.Errorf("%+v", s)
	}
}

func TestRefused(t *testing.T) {
	const good = "plain = 127.0.0.1:1\nserver = 127.0.0.1:2\n"
	for text, wanted := range map[string]string{
		good + "plian = x":              `PATH:3: unknown key "plian"`,
		good + "lines 7":                `PATH:3: "lines 7" is no line ` + "`key = value`",
		good + "lines = 1\nlines = 2":   `PATH:4: "lines" was set in line 3`,
		good + "lines = -1":             `PATH:3: bad value "-1" of "lines": expected a whole number from 0 to 1073741824`,
		good + "login = 5":              `PATH:3: bad value "5" of "login": expected a time from 1ms to 24h0m0s, as 15s or 2m`,
		good + "idle = -1s":             `PATH:3: bad value "-1s" of "idle": expected a time from 0s to 24h0m0s, as 15s or 2m`,
		good + "tls = 8200":             `PATH:3: bad value "8200" of "tls": expected HOST:PORT`,
		good + "tls = :8200":            `PATH:3: bad value ":8200" of "tls": expected HOST:PORT`,
		good + "tls = a:65536":          `PATH:3: bad value "a:65536" of "tls": expected HOST:PORT, and a port from 0 to 65535`,
		good + "exempt = ::1":           `PATH:3: bad value "::1" of "exempt": "::1" is no IPv4 address[/bits]`,
		good + "proxy-protocol = maybe": `PATH:3: bad value "maybe" of "proxy-protocol": parse error`,
		good + "full-text = a\rb":       `PATH:3: bad value "a\rb" of "full-text": expected at most 1000 bytes without CR and LF`,
		good + "tls = a:1":              "give -cert and -key, for TLS",
		"server = a:1":                  "nothing to listen at: give -listen, -tls or -plain",
		"plain = a:1":                   "give -server, where the lobby server is",
	} {
		_, path, err := load(t, text, "FILE")
		if err == nil || err.Error() != strings.ReplaceAll(wanted, "PATH", path) {
			t.Errorf("%q: %v, wanted %s", text, err, wanted)
		}
	}
	if _, _, err := load(t, good+"lines = x", "-lines", "1", "FILE"); err == nil {
		t.Error("a bad value passes, since a flag comes before it")
	}
	for _, flags := range [][]string{{"-dance"}, {"-lines", "x"}, {"FILE", "more"}, {"none/at/all"}, {}} {
		if _, _, err := load(t, good, flags...); err == nil {
			t.Errorf("%q pass", flags)
		}
	}
}
