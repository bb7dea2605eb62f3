package door

import (
	"bufio"
	"io"
	"net"
	"strings"
	"testing"
	"time"
)

func TestEachDoor(t *testing.T) {
	g := open(t, lobby)
	for _, kind := range []Kind{STLS, TLS, Plain} {
		c := g.login(kind, "Anna")
		c.says("#7 PING\n#8 SAYBATTLE hi\r\n")
		c.reads("#7 PONG\n#8 SAYBATTLE hi\r\n")
		g.until("it is known", func() bool { return len(g.Who("Anna")) == 1 })
		c.says("EXIT\n")
		c.ends("")
		g.logs("out name=Anna client=" + c.LocalAddr().String() + " cause=exit")
		c.Close()
		g.until("it is gone", func() bool { return len(g.Who("Anna")) == 0 && g.numbers.Connections.Load() == 0 })
	}
}

func TestDialectOnTheWire(t *testing.T) {
	heard := make(chan string, 9)
	g := open(t, func(conn net.Conn, lines *bufio.Reader) {
		for i := 0; i < 3; i++ {
			line, _ := lines.ReadString('\n')
			heard <- line
		}
		io.WriteString(conn, "#2147483647 PONG\n#2 JOINBATTLE 4 0\n#2147483647 PONG\nSAIDBATTLE Anna hi\n")
	})
	c := g.shake(STLS)
	c.says("#3 CHANNELTOPIC Hi\n")
	c.reads("#3 SERVERMSG Channels have no topic here\n")
	c.says("#2 JOINBATTLE 4  pw\n")
	for _, line := range []string{"#2147483647 PING\n", "#2 JOINBATTLE 4 * pw\n", "#2147483647 PING\n"} {
		if got := <-heard; got != line {
			t.Errorf("%q, wanted %q", got, line)
		}
	}
	c.reads("#2 JOINBATTLE 4 0\nSAID battle:4 Anna hi\n")
	for _, kind := range []Kind{TLS, Plain} { // these speak the protocol itself
		c := g.shake(kind)
		c.says("JOINBATTLE 4  pw\nSAYPRIVATEEX a b\nCHANNELTOPIC Hi\n")
		for _, line := range []string{"JOINBATTLE 4  pw\n", "SAYPRIVATEEX a b\n", "CHANNELTOPIC Hi\n"} {
			if got := <-heard; got != line {
				t.Errorf("%q, wanted %q", got, line)
			}
		}
		c.ends("#2147483647 PONG\n#2 JOINBATTLE 4 0\n#2147483647 PONG\nSAIDBATTLE Anna hi\n")
	}
}

func TestHeldJoinOnTheWire(t *testing.T) {
	g := open(t, func(conn net.Conn, lines *bufio.Reader) {
		for {
			line, err := lines.ReadString('\n')
			if err != nil {
				return
			}
			switch line { // a host that is asked, and does not answer
			case "JOINBATTLE 1\n", "JOINBATTLE 2\n":
			case "#2147483647 PING\n":
				io.WriteString(conn, "#2147483647 PONG\n")
			default:
				io.WriteString(conn, line)
			}
		}
	})
	const waiting = "SERVERMSG Waiting for the host to let you in. Say !cancel in any channel to ask no more\n"
	c := g.shake(STLS)
	c.says("JOINBATTLE 1\nJOINBATTLE 2\nSAY main !cancel\n")
	// The server repeats the LEAVEBATTLE that the gateway put in: the answer to it loses the gateway's id.
	c.reads(waiting + "LEAVEBATTLE\n" + waiting)
	// One is the server's, the other the gateway's.
	answers := []string{"LEAVEBATTLE\n", "SERVERMSG You ask no more to join\n"}
	if first, _ := c.lines.Peek(1); string(first) == "S" {
		answers[0], answers[1] = answers[1], answers[0]
	}
	c.reads(answers[0] + answers[1])
}

func TestNothingButSTLS(t *testing.T) {
	g := open(t, lobby)
	for _, said := range []string{"LOGIN a b 0 * c\n", "PING\n#1 STLS\n", "STLS" + strings.Repeat(" ", 99) + "\n",
		"stls\n", "\n", "STLS\nSAY main slipped in\n", "#1 STLS\nSTLS\n", "STLS\n\x16\x03\x01", "\x16\x03\x01\x02\x00\n"} {
		c := g.knock(STLS)
		c.reads(greeting)
		c.says(said)
		c.ends("")
	}
	if count := g.server.clients.Load(); count != 0 {
		t.Errorf("%d of them came to the server", count)
	}
	g.until("all are told of", func() bool {
		return strings.Count(g.log.String(), "refused cause=no_stls client=127.0.0.1:") == 9
	})
}

// What is said in the clear behind STLS is never taken for what was said inside TLS.
func TestInjectionBehindSTLS(t *testing.T) {
	g := open(t, lobby)
	c := g.knock(STLS)
	c.reads(greeting)
	c.says("STLS\n")
	c.reads("OK\n")
	c.says("LOGIN Anna word 0 * x\nSAY main slipped in\n")
	g.logs("refused cause=handshake")
	if count := g.server.clients.Load(); count != 0 {
		t.Errorf("%d came to the server", count)
	}
}

// Six forms of a client that takes its time. The first four never have a place at the server.
func TestLoris(t *testing.T) {
	t.Parallel()
	g := open(t, lobby, "-handshake", "1500ms", "-login", "3s", "-idle", "4s")
	drip := func(c *client, text string) {
		for i := range text {
			time.Sleep(30 * time.Millisecond)
			if _, err := c.Conn.Write([]byte(text[i : i+1])); err != nil {
				return
			}
		}
	}
	forms := map[string]func(c *client){
		"handshake_late 1": func(c *client) { c.ends("") },
		"handshake_late 2": func(c *client) { go drip(c, "#1 STL"+strings.Repeat("S", 99)); c.ends("") },
		"handshake_late 3": func(c *client) { c.says("STLS\n"); c.ends("OK\n") },
		"handshake_late 4": func(c *client) {
			c.says("STLS\n")
			c.reads("OK\n")
			go drip(c, "\x16\x03\x01\x02\x00\x01\x00\x01\xfc\x03\x03"+strings.Repeat("r", 99))
			c.ends("")
		},
		"login_late 5": func(c *client) {
			c.says("STLS\n")
			c.reads("OK\n")
			c.startTLS()
			go drip(c, strings.Repeat("PING\n", 40))
			c.reads(greeting)
			rest, _ := io.ReadAll(c.lines)
			if !strings.HasSuffix(string(rest), "DENIED Log in within 3s\n") {
				c.Errorf("it is told %q", rest)
			}
		},
		"idle 6": func(c *client) {
			c.says("STLS\n")
			c.reads("OK\n")
			c.startTLS()
			c.reads(greeting)
			c.says("LOGIN Anna w 0 * x\n")
			c.reads("ACCEPTED Anna\n")
			go drip(c, strings.Repeat("x", 200))
			c.ends("SERVERMSG You have said nothing for too long\n")
		},
	}
	for name, act := range forms {
		cause := strings.Fields(name)[0]
		before, places := strings.Count(g.log.String(), "cause="+cause), g.server.clients.Load()
		c := g.knock(STLS)
		c.reads(greeting)
		act(c)
		g.until(name, func() bool { return strings.Count(g.log.String(), "cause="+cause) == before+1 })
		if taken := g.server.clients.Load() - places; cause == "handshake_late" && taken != 0 {
			t.Errorf("%s: it has a place at the server", name)
		}
	}
	silent := g.knock(Plain) // who comes plainly has none either before it says something
	silent.reads(greeting)
	places := g.server.clients.Load()
	silent.ends("")
	if g.server.clients.Load() != places {
		t.Error("a plain client that says nothing has a place at the server")
	}
}

// gush writes lines until nobody takes them, and tells how many bytes that were.
func gush(put chan<- int) func(net.Conn, *bufio.Reader) {
	return func(conn net.Conn, lines *bufio.Reader) {
		line, _ := lines.ReadString('\n')
		if !strings.Contains(line, "Slow") {
			io.WriteString(conn, "ACCEPTED Bert\n")
			lobby(conn, lines)
			return
		}
		io.WriteString(conn, "ACCEPTED Slow\n")
		text := []byte("SAID main Anna " + strings.Repeat("z", 8000) + "\n")
		for count := 0; ; count += len(text) {
			if _, err := conn.Write(text); err != nil || count > 1<<26 {
				put <- count
				return
			}
		}
	}
}

func TestClientThatTakesNothing(t *testing.T) {
	t.Parallel()
	put := make(chan int, 1)
	g := open(t, gush(put), "-patience", "1500ms")
	slow := g.shake(STLS)
	slow.raw.SetReadBuffer(65536)
	slow.says("LOGIN Slow w 0 * x\n")
	other := g.shake(STLS)
	other.says("LOGIN Bert w 0 * x\n")
	other.reads("ACCEPTED Bert\n")
	for waits := true; waits; {
		select {
		case count := <-put:
			if waits = false; count > 1<<25 {
				t.Errorf("%d bytes waited", count)
			}
		default: // it hinders nobody else
			other.says("PING\n")
			other.reads("PONG\n")
			time.Sleep(10 * time.Millisecond)
		}
	}
	g.logs("out name=Slow client=" + slow.LocalAddr().String() + " cause=slow")
}

func TestServerThatTakesNothing(t *testing.T) {
	t.Parallel()
	g := open(t, func(conn net.Conn, _ *bufio.Reader) { time.Sleep(3 * time.Second) },
		"-patience", "300ms", "-lines", "0", "-bytes", "0")
	c := g.shake(Plain)
	text := []byte(strings.Repeat("PING\n", 20_000))
	c.SetDeadline(time.Now().Add(patience))
	for count := 0; ; count += len(text) {
		if _, err := c.Conn.Write(text); err != nil {
			break
		} else if count > 1<<26 {
			t.Fatal("all was taken")
		}
	}
}

// What the server said last arrives, though the client answers no end of TLS, or reads late.
func TestLastBytes(t *testing.T) {
	t.Parallel()
	last := strings.Repeat(strings.Repeat("z", 9_999)+"\n", 40) + "half a line"
	g := open(t, func(conn net.Conn, lines *bufio.Reader) {
		lines.ReadString('\n')
		io.WriteString(conn, last)
	})
	for _, kind := range []Kind{STLS, TLS, Plain} {
		c := g.knock(kind)
		c.raw.SetReadBuffer(65_536)
		if kind == STLS {
			c.reads(greeting)
			c.says("STLS\n")
			c.reads("OK\n")
		}
		if kind != Plain {
			c.startTLS()
		}
		c.says("PING\n")
		time.Sleep(300 * time.Millisecond)
		c.ends(greeting + last)
	}
}

// A client that says no more is still answered.
func TestHalfClosed(t *testing.T) {
	g := open(t, func(conn net.Conn, lines *bufio.Reader) {
		text, _ := io.ReadAll(lines)
		time.Sleep(50 * time.Millisecond)
		io.WriteString(conn, "heard "+string(text))
	})
	c := g.shake(Plain)
	c.says("PING\nno LF")
	c.raw.CloseWrite()
	c.ends("heard PING\nno LF")
	g.logs("away client=" + c.LocalAddr().String() + " cause=closed")
}

func TestLinesTooLong(t *testing.T) {
	g := open(t, func(conn net.Conn, lines *bufio.Reader) {
		text, _ := io.ReadAll(lines)
		io.WriteString(conn, "heard "+string(text))
	}, "-bytes", "0")
	c := g.shake(STLS)
	c.says("PING\n" + strings.Repeat("y", 20_481))
	c.ends("heard PING\n")
	g.logs("cause=line_too_long")

	g = open(t, func(conn net.Conn, _ *bufio.Reader) {
		io.WriteString(conn, "PONG\n"+strings.Repeat("y", 20_481)+"\nPONG\n")
		time.Sleep(time.Second)
	})
	g.shake(STLS).ends("PONG\n")
	g.logs("cause=server_line_too_long")
}

func TestFlood(t *testing.T) {
	t.Parallel()
	g := open(t, lobby, "-lines", "50", "-burst", "1s", "-over", "500ms")
	flood, other := g.login(STLS, "Flood"), g.login(STLS, "Bert")
	go io.Copy(io.Discard, flood.lines)
	begun := time.Now()
	for err := error(nil); err == nil; _, err = flood.Write([]byte(strings.Repeat("\n", 9_000))) {
		other.says("PING\n")
		other.reads("PONG\n")
		if time.Since(begun) > patience {
			t.Fatal("it is not ended")
		}
		time.Sleep(30 * time.Millisecond)
	}
	g.logs("out name=Flood client=" + flood.LocalAddr().String() + " cause=flood")
	if passed := g.numbers.Up.Lines.Load(); passed > 2_000 {
		t.Errorf("%d lines went to the server", passed)
	}
}

func TestProxyLine(t *testing.T) {
	first := make(chan string, 9)
	g := open(t, lobby)
	g.server.serve = func(net.Conn, *bufio.Reader) {}
	listener, err := net.Listen("tcp4", "127.0.0.1:0")
	if err != nil {
		t.Fatal(err)
	}
	defer listener.Close()
	go func() {
		for {
			conn, err := listener.Accept()
			if err != nil {
				return
			}
			line, _ := bufio.NewReader(conn).ReadString('\n')
			first <- line
			conn.Close()
		}
	}()
	g.House.server.address = listener.Addr().String()
	c := g.knock(TLS)
	c.startTLS()
	from, to := c.LocalAddr().(*net.TCPAddr), c.RemoteAddr().(*net.TCPAddr)
	wanted := "PROXY TCP4 127.0.0.1 127.0.0.1 " + port(from) + " " + port(to) + "\r\n"
	if got := <-first; got != wanted {
		t.Errorf("%q, wanted %q", got, wanted)
	}
}

func port(address *net.TCPAddr) string {
	_, port, _ := net.SplitHostPort(address.String())
	return port
}
