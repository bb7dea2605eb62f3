package door

import (
	"bufio"
	"bytes"
	"crypto/ecdsa"
	"crypto/elliptic"
	"crypto/rand"
	"crypto/tls"
	"crypto/x509"
	"crypto/x509/pkix"
	"encoding/pem"
	"io"
	"math/big"
	"net"
	"os"
	"path/filepath"
	"strings"
	"sync"
	"sync/atomic"
	"testing"
	"time"

	"rudderraisin/gateway/bans"
	"rudderraisin/gateway/journal"
	"rudderraisin/gateway/metrics"
	"rudderraisin/gateway/settings"
)

const (
	greeting = "TASSERVER 0.38 * 8201 0\n"
	patience = 30 * time.Second // nothing that is waited for takes this long
)

// fake is a server whose clients each are served by one function. The gateway's own connection, which says nothing,
// is not counted.
type fake struct {
	*testing.T
	net.Listener
	serve   func(conn net.Conn, lines *bufio.Reader)
	greets  atomic.Value
	mutex   sync.Mutex
	conns   map[net.Conn]bool
	clients atomic.Int32 // that were there in all
}

func startFake(t *testing.T, address string, serve func(net.Conn, *bufio.Reader)) *fake {
	listener, err := net.Listen("tcp4", address)
	for i := 0; err != nil && i < 100; i++ { // its port may be in use for a moment
		time.Sleep(50 * time.Millisecond)
		listener, err = net.Listen("tcp4", address)
	}
	if err != nil {
		t.Fatal(err)
	}
	f := &fake{T: t, Listener: listener, serve: serve, conns: map[net.Conn]bool{}}
	f.greets.Store(greeting)
	go f.run()
	t.Cleanup(f.kill)
	return f
}

func (f *fake) run() {
	for {
		conn, err := f.Accept()
		if err != nil {
			return
		}
		f.mutex.Lock()
		f.conns[conn] = true
		f.mutex.Unlock()
		go func() {
			defer conn.Close()
			lines := bufio.NewReader(conn)
			first, err := lines.ReadString('\n')
			if err != nil {
				return
			}
			if strings.HasPrefix(first, "PROXY TCP4 ") {
				f.clients.Add(1)
			}
			if _, err := io.WriteString(conn, f.greets.Load().(string)); err != nil {
				return
			}
			if first == "PROXY UNKNOWN\r\n" {
				io.Copy(io.Discard, conn)
				return
			}
			f.serve(conn, lines)
		}()
	}
}

// kill ends the server as a crash does.
func (f *fake) kill() {
	f.Close()
	f.mutex.Lock()
	defer f.mutex.Unlock()
	for conn := range f.conns {
		conn.Close()
	}
}

// lobby answers LOGIN and PING as a server does, and repeats what else is said.
func lobby(conn net.Conn, lines *bufio.Reader) {
	for {
		line, err := lines.ReadString('\n')
		if err != nil {
			return
		}
		tag, rest := "", line
		if strings.HasPrefix(line, "#") {
			at := strings.IndexByte(line, ' ') + 1
			tag, rest = line[:at], line[at:]
		}
		words := strings.Fields(rest)
		answer := line
		switch {
		case len(words) > 1 && words[0] == "LOGIN":
			answer = tag + "ACCEPTED " + words[1] + "\n"
		case len(words) > 0 && words[0] == "PING":
			answer = tag + "PONG\n"
		case len(words) > 0 && words[0] == "EXIT":
			return
		}
		if _, err := io.WriteString(conn, answer); err != nil {
			return
		}
	}
}

// noted is what a journal wrote.
type noted struct {
	mutex sync.Mutex
	text  bytes.Buffer
}

func (n *noted) Write(text []byte) (int, error) {
	n.mutex.Lock()
	defer n.mutex.Unlock()
	return n.text.Write(text)
}

func (n *noted) String() string {
	n.mutex.Lock()
	defer n.mutex.Unlock()
	return n.text.String()
}

// gate is a gateway that runs in this process, before a fake server.
type gate struct {
	*testing.T
	*House
	server  *fake
	log     *noted
	numbers *metrics.Metrics
	address map[Kind]string
	folder  string
}

// writePair makes a certificate and its key in a folder, and gives the certificate's bytes.
func writePair(t *testing.T, folder string) []byte {
	t.Helper()
	key, err := ecdsa.GenerateKey(elliptic.P256(), rand.Reader)
	if err != nil {
		t.Fatal(err)
	}
	template := x509.Certificate{SerialNumber: big.NewInt(time.Now().UnixNano()),
		Subject: pkix.Name{CommonName: "lobby"}, NotAfter: time.Now().Add(time.Hour)}
	cert, err := x509.CreateCertificate(rand.Reader, &template, &template, &key.PublicKey, key)
	if err != nil {
		t.Fatal(err)
	}
	secret, err := x509.MarshalECPrivateKey(key)
	if err != nil {
		t.Fatal(err)
	}
	for name, block := range map[string]*pem.Block{"cert.pem": {Type: "CERTIFICATE", Bytes: cert},
		"key.pem": {Type: "EC PRIVATE KEY", Bytes: secret}} {
		if err := os.WriteFile(filepath.Join(folder, name), pem.EncodeToMemory(block), 0o600); err != nil {
			t.Fatal(err)
		}
	}
	return cert
}

// open starts a gateway with these flags besides.
func open(t *testing.T, serve func(net.Conn, *bufio.Reader), flags ...string) *gate {
	t.Helper()
	g := &gate{T: t, server: startFake(t, "127.0.0.1:0", serve), log: new(noted), numbers: new(metrics.Metrics),
		address: map[Kind]string{}, folder: t.TempDir()}
	writePair(t, g.folder)
	s := g.load(flags...)
	list, err := bans.Load(s.Bans)
	if err != nil {
		t.Fatal(err)
	}
	log := journal.New(g.log, s.LogRate)
	if g.House, err = New(s, log, g.numbers, list); err != nil {
		t.Fatal(err)
	}
	for _, kind := range []Kind{STLS, TLS, Plain} {
		listener, err := g.Listen("127.0.0.1:0")
		if err != nil {
			t.Fatal(err)
		}
		g.address[kind] = listener.Addr().String()
		go g.Serve(listener, kind)
		t.Cleanup(func() { listener.Close() })
	}
	t.Cleanup(func() {
		g.Close(patience)
		log.Close(time.Second)
	})
	<-g.House.server.known
	return g
}

func (g *gate) load(flags ...string) *settings.Settings {
	g.Helper()
	flags = append([]string{"-listen", "127.0.0.1:0", "-server", g.server.Addr().String(), "-proxy-protocol",
		"-cert", g.folder + "/cert.pem", "-key", g.folder + "/key.pem", "-bans", g.folder + "/bans"}, flags...)
	s, err := settings.Load("gateway", flags, io.Discard)
	if err != nil {
		g.Fatal(err)
	}
	return s
}

// client is one end of a connection, whose lines are read one by one.
type client struct {
	*testing.T
	net.Conn
	raw   *net.TCPConn
	lines *bufio.Reader
}

// knock connects, and reads nothing.
func (g *gate) knock(kind Kind) *client {
	g.Helper()
	conn, err := net.Dial("tcp4", g.address[kind])
	if err != nil {
		g.Fatal(err)
	}
	conn.SetDeadline(time.Now().Add(patience))
	g.Cleanup(func() { conn.Close() })
	return &client{g.T, conn, conn.(*net.TCPConn), bufio.NewReader(conn)}
}

// shake goes through the handshake, and is greeted.
func (g *gate) shake(kind Kind) *client {
	g.Helper()
	c := g.knock(kind)
	if kind == STLS {
		c.reads(greeting)
		c.says("#1 STLS\n")
		c.reads("#1 OK\n")
	}
	if kind != Plain {
		c.startTLS()
	}
	c.reads(greeting)
	return c
}

func (c *client) startTLS() {
	c.Helper()
	over := tls.Client(c.raw, &tls.Config{InsecureSkipVerify: true})
	if err := over.Handshake(); err != nil {
		c.Fatal(err)
	}
	c.Conn, c.lines = over, bufio.NewReader(over)
}

// login is a client that is logged in.
func (g *gate) login(kind Kind, name string) *client {
	g.Helper()
	c := g.shake(kind)
	c.says("LOGIN " + name + " word 0 * test\n")
	c.reads("ACCEPTED " + name + "\n")
	return c
}

func (c *client) says(text string) {
	c.Helper()
	if _, err := io.WriteString(c, text); err != nil {
		c.Error(err)
	}
}

// reads takes as many bytes as these, and compares.
func (c *client) reads(wanted string) {
	c.Helper()
	got := make([]byte, len(wanted))
	if count, err := io.ReadFull(c.lines, got); err != nil || string(got) != wanted {
		c.Errorf("%q (%v), wanted %q", got[:count], err, wanted)
	}
}

// ends takes what is left, which is to be this, and the end of the connection.
func (c *client) ends(wanted string) {
	c.Helper()
	got, err := io.ReadAll(c.lines)
	if string(got) != wanted || os.IsTimeout(err) {
		c.Errorf("at the end %.200q (%d bytes, %v), wanted %.200q", got, len(got), err, wanted)
	}
}

// until waits for something to be so.
func (g *gate) until(what string, isSo func() bool) {
	g.Helper()
	for limit := time.Now().Add(patience); !isSo(); time.Sleep(5 * time.Millisecond) {
		if time.Now().After(limit) {
			g.Fatalf("%s: it is not so\n%s", what, g.log)
		}
	}
}

// logs waits for a line of the log that has this in it.
func (g *gate) logs(part string) {
	g.Helper()
	g.until("the log has "+part, func() bool { return strings.Contains(g.log.String(), part) })
}
