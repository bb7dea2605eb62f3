package door

import (
	"bufio"
	"bytes"
	"crypto/tls"
	"net"
	"net/netip"
	"os"
	"path/filepath"
	"regexp"
	"strings"
	"testing"
	"time"

	"rudderraisin/gateway/bans"
	"rudderraisin/gateway/control"
)

const goneText = "DENIED The lobby server is not there at the moment. Try again later\n"

func TestServerKilledAndBack(t *testing.T) {
	t.Parallel()
	g := open(t, lobby)
	c := g.login(STLS, "Anna")
	c.says("PING\n")
	c.reads("PONG\n")
	g.server.kill()
	c.ends("")
	g.logs("out name=Anna client=" + c.LocalAddr().String() + " cause=server")
	g.logs("server_gone address=" + g.server.Addr().String())
	g.knock(STLS).ends(goneText)
	g.knock(Plain).ends(goneText)
	late := g.knock(TLS)
	late.startTLS()
	late.ends(goneText)
	g.logs("refused cause=server_gone")

	back := startFake(t, g.server.Addr().String(), lobby)
	const other = "TASSERVER 0.39 105 8201 0\n"
	back.greets.Store(other)
	g.logs("server_back address=" + g.server.Addr().String())
	c = g.knock(STLS)
	c.reads(other) // the greeting is the new server's
	c.says("STLS\n")
	c.reads("OK\n")
	c.startTLS()
	c.reads(other)
	if count := strings.Count(g.log.String(), "server_gone address"); count != 1 {
		t.Errorf("it was told %d times that the server is gone", count)
	}
}

func TestNoServerAtTheStart(t *testing.T) {
	t.Parallel()
	listener, err := net.Listen("tcp4", "127.0.0.1:0")
	if err != nil {
		t.Fatal(err)
	}
	address := listener.Addr().String()
	listener.Close()
	g := open(t, lobby, "-server", address)
	g.knock(STLS).ends(goneText)
	g.logs("server_gone address=" + address)
	startFake(t, address, lobby)
	g.logs("server_back")
	g.login(STLS, "Anna")
}

// A server that closes a connection without a byte takes no more; it is asked a few times.
func TestServerThatIsFull(t *testing.T) {
	t.Parallel()
	g := open(t, lobby)
	listener, err := net.Listen("tcp4", "127.0.0.1:0")
	if err != nil {
		t.Fatal(err)
	}
	defer listener.Close()
	asked := make(chan int, 1)
	go func() {
		count := 0
		for ; ; count++ {
			conn, err := listener.Accept()
			if err != nil {
				break
			}
			bufio.NewReader(conn).ReadString('\n')
			conn.Close()
		}
		asked <- count
	}()
	g.House.server.address = listener.Addr().String()
	c := g.knock(TLS)
	c.startTLS()
	c.ends("DENIED The lobby is full. Try again later\n")
	g.logs("refused cause=full")
	listener.Close()
	if count := <-asked; count != tries {
		t.Errorf("it was asked %d times", count)
	}
}

const limitText = "DENIED Too many connections from your address. Try again later\n"

func TestLimits(t *testing.T) {
	g := open(t, lobby, "-exempt", "", "-address-connections", "2", "-address-rate", "0")
	g.login(STLS, "Anna")
	second := g.login(Plain, "Bert")
	g.knock(STLS).ends(limitText)
	g.knock(Plain).ends(limitText)
	g.knock(TLS).ends("")
	g.logs("refused cause=address_connections client=127.0.0.1:")
	second.says("EXIT\n")
	second.ends("")
	second.Close()
	g.until("there is room again", func() bool { return g.numbers.Connections.Load() == 1 })
	g.login(Plain, "Bert")

	g = open(t, lobby, "-exempt", "", "-address-connections", "0", "-address-rate", "3")
	for i := 0; i < 3; i++ {
		g.knock(Plain).reads(greeting)
	}
	g.knock(Plain).ends(limitText)
	g.logs("refused cause=address_rate")

	g = open(t, lobby, "-connections", "2")
	g.login(Plain, "Anna")
	g.login(Plain, "Bert")
	g.knock(Plain).ends("DENIED The lobby is full. Try again later\n")
	g.logs("refused cause=connections")

	g = open(t, lobby, "-exempt", "10.0.0.0/8, 127.0.0.1", "-address-connections", "1", "-address-rate", "1")
	g.login(Plain, "Anna")
	g.login(Plain, "Bert")
}

func TestRateOfAnAddress(t *testing.T) {
	g := &gate{T: t, server: startFake(t, "127.0.0.1:0", lobby), folder: t.TempDir()}
	l := newLimits(g.load("-address-rate", "6"))
	one, other := netip.MustParseAddr("192.0.2.1"), netip.MustParseAddr("192.0.2.2")
	at := time.Now()
	for i := 0; i < 6; i++ {
		if cause := l.visit(one, at); cause != "" {
			t.Fatal(i, cause)
		}
	}
	for _, c := range []struct {
		after time.Duration
		cause string
	}{
		{0, "address_rate"}, {9 * time.Second, "address_rate"}, {11 * time.Second, ""}, {12 * time.Second, "address_rate"},
	} {
		if cause := l.visit(one, at.Add(c.after)); cause != c.cause {
			t.Errorf("after %v: %q, wanted %q", c.after, cause, c.cause)
		}
	}
	if cause := l.visit(other, at); cause != "" {
		t.Error("another address has", cause)
	}
	l.all = 8
	for i := 0; i < 7; i++ {
		l.leave(one)
	}
	l.sweep(at.Add(time.Hour))
	if len(l.places) != 1 || l.all != 1 {
		t.Errorf("%d addresses and %d connections are known", len(l.places), l.all)
	}
}

func TestBans(t *testing.T) {
	g := open(t, lobby)
	anna, bert := g.login(STLS, "Anna"), g.login(Plain, "Bert")
	g.until("both are in", func() bool { return len(g.Who("")) == 2 })
	if kicked, err := g.Ban(bans.Ban{Target: "Anna", Text: "for shouting"}); kicked != 1 || err != nil {
		t.Error(kicked, err)
	}
	anna.ends("SERVERMSG You are banned: for shouting\n")
	g.logs("out name=Anna client=" + anna.LocalAddr().String() + " cause=banned")
	again := g.shake(STLS)
	again.says("#3 LOGIN Anna w 0 * x\n")
	again.reads("#3 DENIED You are banned: for shouting\n")
	again.says("#4 PING\n")
	again.reads("#4 PONG\n")
	g.logs("refused cause=banned client=" + again.LocalAddr().String() + " name=Anna")
	text, err := os.ReadFile(g.folder + "/bans")
	if err != nil || !strings.HasSuffix(string(text), "\nAnna - for shouting\n") {
		t.Errorf("the file is %q, %v", text, err)
	}
	if found, err := g.Unban("Anna"); !found || err != nil {
		t.Error(found, err)
	}
	again.says("LOGIN Anna w 0 * x\n")
	again.reads("ACCEPTED Anna\n")

	until := time.Now().Add(time.Hour).UTC().Truncate(time.Second)
	if kicked, err := g.Ban(bans.Ban{Target: "127.0.0.0/8", Until: until}); kicked != 2 || err != nil {
		t.Error(kicked, err)
	}
	told := "You are banned until " + until.Format("2006-01-02 15:04 UTC") + "\n"
	again.ends("SERVERMSG " + told)
	bert.ends("SERVERMSG " + told)
	g.knock(STLS).ends("DENIED " + told)
	g.knock(TLS).ends("")
	places := g.server.clients.Load()
	g.knock(Plain).ends("DENIED " + told)
	if g.server.clients.Load() != places {
		t.Error("the server was asked")
	}
}

func TestKickAndSay(t *testing.T) {
	g := open(t, lobby)
	anna, bert, guest := g.login(STLS, "Anna"), g.login(TLS, "Bert"), g.shake(Plain)
	g.until("both are in", func() bool { return g.numbers.Users.Load() == 2 })
	if told := g.Say("We stop at ten"); told != 2 {
		t.Error("told", told)
	}
	anna.reads("SERVERMSG We stop at ten\n")
	bert.reads("SERVERMSG We stop at ten\n")
	if g.Kick("Anna", "Come back later") != 1 || g.Kick("Anna", "") != 0 || g.Kick("", "") != 0 {
		t.Error("other than Anna is kicked")
	}
	anna.ends("SERVERMSG Come back later\n")
	bert.says("PING\n")
	bert.reads("PONG\n")
	guest.says("PING\n")
	guest.reads("PONG\n")
}

// Nobody waits for a client that does not read, not even who kicks it.
func TestOrdersAndOneWhoDoesNotRead(t *testing.T) {
	t.Parallel()
	put := make(chan int, 1)
	g := open(t, gush(put))
	slow := g.shake(STLS)
	slow.says("LOGIN Slow w 0 * x\n")
	g.until("it is in", func() bool { return g.numbers.Users.Load() == 1 })
	time.Sleep(200 * time.Millisecond)
	for i := 0; i < 3*mostSaid; i++ {
		g.Say("hello")
	}
	begun := time.Now()
	if g.Kick("Slow", "") != 1 {
		t.Error("it is not kicked")
	}
	<-put // the server sees at once that it is gone
	if took := time.Since(begun); took > closing {
		t.Error("the server noticed after", took)
	}
	g.until("it is gone", func() bool { return g.numbers.Connections.Load() == 0 })
}

func TestControl(t *testing.T) {
	g := open(t, lobby)
	path := filepath.Join(g.folder, "control")
	listener, err := control.Listen(path)
	if err != nil {
		t.Fatal(err)
	}
	defer listener.Close()
	go control.Serve(listener, g)
	if mode, err := os.Stat(path); err != nil || mode.Mode().Perm()&0o077 != 0 {
		t.Error("others may give orders", mode, err)
	}
	if _, err := control.Listen(path); err == nil {
		t.Error("two gateways have one socket")
	}
	anna := g.login(STLS, "Anna")
	g.until("she is in", func() bool { return g.numbers.Users.Load() == 1 })
	ip := `127\.0\.0\.1:[0-9]+`
	for _, c := range []struct{ order, answer string }{
		{"who", "Anna " + ip + " listen [0-9]+s"},
		{"who Anna", "Anna " + ip + " listen [0-9]+s"},
		{"who Bert", "! Bert is not connected"},
		{"say hello  there", "told 1"},
		{"ban Eve 7d for good  reasons", `banned Eve 20..-..-..T..:..:..Z for good  reasons\nkicked 0`},
		{"ban 192.0.2.77/24", `banned 192.0.2.0/24 -\nkicked 0`},
		{"ban 192.0.2.7 7d", `banned 192.0.2.7/32 20.*Z\nkicked 0`},
		{"ban Bob for 7 days", `banned Bob - for 7 days\nkicked 0`},
		{"ban Bob 7days", `! "7days" is no duration as 90m, 12h, 7d or 2w`},
		{"ban Bob 0d", `! "0d" is no duration as .*`},
		{"list", `192.0.2.0/24 -\n192.0.2.7/32 20.*Z\nBob - for 7 days\nEve 20.*Z for good  reasons`},
		{"unban 192.0.2.7", "unbanned 192.0.2.7/32"},
		{"unban 192.0.2.7", "! 192.0.2.7/32 is not banned"},
		{"unban a-b", `! "a-b" is neither a name nor an IPv4 address\[/bits\]`},
		{"ban ::1", `! "::1" is neither a name nor an IPv4 address\[/bits\]`},
		{"ban 1.2.3.4/33", `! "1.2.3.4/33" is neither .*`},
		{"kick Bert", "! Bert is not connected"},
		{"kick Anna bye", "kicked Anna"},
		{"dance", "! unknown order"},
		{"say", "! expected say TEXT"},
		{"kick", `! expected kick NAME \[TEXT\]`},
		{"say a\nb", "! a text has no line end"},
		{"list all", "! expected list"},
	} {
		lines, good, err := control.Call(path, strings.Split(c.order, " "))
		answer := strings.Join(lines, "\n")
		if !good {
			answer = "! " + answer
		}
		if err != nil || !regexp.MustCompile(`\A(?s:`+c.answer+`)\z`).MatchString(answer) {
			t.Errorf("%s: %q, %v, wanted %q", c.order, answer, err, c.answer)
		}
	}
	anna.ends("SERVERMSG hello  there\nSERVERMSG bye\n")
	listener.Close()
	if _, _, err := control.Call(path, []string{"list"}); err == nil {
		t.Error("who is not there answers")
	}
}

// A gateway that was killed leaves its socket behind.
func TestSocketLeftBehind(t *testing.T) {
	path := filepath.Join(t.TempDir(), "control")
	first, err := net.Listen("unix", path)
	if err != nil {
		t.Fatal(err)
	}
	first.(*net.UnixListener).SetUnlinkOnClose(false)
	first.Close()
	listener, err := control.Listen(path)
	if err != nil {
		t.Fatal(err)
	}
	listener.Close()
}

func TestReload(t *testing.T) {
	g := open(t, lobby)
	stays := g.login(STLS, "Anna")
	g.until("she is in", func() bool { return g.numbers.Users.Load() == 1 })
	eve := g.login(Plain, "Eve")
	g.until("Eve is in", func() bool { return g.numbers.Users.Load() == 2 })
	shown := func() []byte {
		c := g.shake(TLS)
		return c.Conn.(*tls.Conn).ConnectionState().PeerCertificates[0].Raw
	}
	before := shown()
	after := writePair(t, g.folder)
	if !bytes.Equal(before, shown()) {
		t.Error("a certificate is taken without being asked to")
	}
	os.WriteFile(g.folder+"/bans", []byte("# bad ones\n\nEve - spying\n"), 0o600)
	g.Reload(g.load("-accounts-text", "Ask Anna"))
	if !bytes.Equal(after, shown()) {
		t.Error("the new certificate is not taken")
	}
	eve.ends("SERVERMSG You are banned: spying\n")
	stays.says("#1 REGISTER a b\nPING\n")
	stays.reads("#1 REGISTRATIONDENIED Ask Anna\n")
	stays.reads("PONG\n")

	os.WriteFile(g.folder+"/cert.pem", []byte("none"), 0o600)
	os.WriteFile(g.folder+"/bans", []byte("Anna - \nBob tomorrow\n"), 0o600)
	g.Reload(g.load())
	g.logs("reload_refused why=cannot use the certificate and its key")
	g.logs(`bans:2: "tomorrow" is no time`)
	if !bytes.Equal(after, shown()) || len(g.Bans()) != 1 {
		t.Error("what cannot be used takes the place of what was")
	}
	stays.says("PING\n")
	stays.reads("PONG\n")
}

func TestMetrics(t *testing.T) {
	g := open(t, lobby, "-handshake", "1500ms")
	c := g.login(STLS, "Anna")
	c.says("PING\nPING\n")
	c.reads("PONG\nPONG\n")
	g.knock(STLS).ends(greeting)
	g.logs("cause=handshake_late")
	g.until("one connection is left", func() bool { return g.numbers.Connections.Load() == 1 })
	var page strings.Builder
	g.numbers.Write(&page)
	text := page.String()
	for _, line := range []string{"connections 1", "users 1", "server_up 1", "connections_total 2", "logins_total 1",
		`lines_total{from="clients"} 3`, `lines_total{from="server"} 4`, `bytes_total{from="clients"} 35`,
		`refusals_total{cause="handshake_late"} 1`, `handshake_seconds_bucket{le="+Inf"} 1`, "handshake_seconds_count 1"} {
		if !strings.Contains(text, "\nrudderraisin_gateway_"+line+"\n") {
			t.Errorf("there is no %s in\n%s", line, text)
		}
	}
	for _, line := range strings.Split(strings.TrimSpace(text), "\n") {
		if !regexp.MustCompile(`^(# (HELP|TYPE) |[a-z_]+(\{[a-z]+="[^"]+"\})? [0-9.e+-]+$)`).MatchString(line) {
			t.Errorf("%q is no line of the format", line)
		}
	}
	g.server.kill()
	g.until("the server is gone", func() bool { return !g.numbers.ServerThere.Load() })
}

// In order: each client is told, and its end is written before the gateway ends.
func TestClose(t *testing.T) {
	g := open(t, lobby)
	anna, bert := g.login(STLS, "Anna"), g.login(Plain, "Bert")
	g.until("both are in", func() bool { return g.numbers.Users.Load() == 2 })
	done := make(chan bool)
	go func() {
		g.Close(patience)
		close(done)
	}()
	anna.ends("SERVERMSG The gateway is stopped\n")
	bert.ends("SERVERMSG The gateway is stopped\n")
	anna.Close()
	bert.Close()
	<-done
	g.until("both are told of", func() bool { return strings.Count(g.log.String(), "cause=stop") == 2 })
}
