// gateway_load MODE DOOR ADDRESS MIDDLE SERVER [COUNT [SECONDS]]: clients that come to a lobby by a door, and one
// line of figures.
//
// DOOR is plain, tls or stls. MIDDLE is the process between the clients and the server, whose processor time is told,
// or 0; SERVER is the server's. Clients log in as u0001, u0002 and so on. Modes, with COUNT clients:
//
//	bulk     the first speaks in a channel of all, with 512 lines unanswered, for SECONDS
//	talk     ten lines a second are said in turn in a channel of all, for SECONDS
//	storm    all log in at once, and read all that they are told
//	memory   all log in, a few at once, and are in a channel
//	lf       one sends 300,000 LF, and a PING, which is answered
//	beside   one sends these, and for a second another sends PING each 5 milliseconds
//	silent   so many connections say nothing; then a client logs in
package main

import (
	"bufio"
	"bytes"
	"crypto/tls"
	"fmt"
	"io"
	"net"
	"os"
	"path/filepath"
	"strconv"
	"strings"
	"sync"
	"sync/atomic"
	"time"
)

const (
	password = "X03MO1qnZdYdgyfeuILPmQ=="
	window   = 512
	patience = 2 * time.Minute
)

var (
	door, address  string
	middle, server int
	delivered      atomic.Int64 // lines of talk that clients were told
	last           atomic.Int64 // of these, to the first client
	lines          atomic.Int64 // all lines that clients were told
)

// client is one connection, whose lines are counted as they come.
type client struct {
	net.Conn
	in, joined, ponged chan struct{}
	isFirst            bool
}

func fail(err error) {
	if err != nil {
		fmt.Fprintln(os.Stderr, err)
		os.Exit(1)
	}
}

func connect() net.Conn {
	conn, err := net.DialTimeout("tcp4", address, patience)
	fail(err)
	fail(conn.SetDeadline(time.Now().Add(patience)))
	if door == "stls" {
		one := bufio.NewReaderSize(conn, 64)
		for _, said := range []string{"", "STLS\n"} {
			io.WriteString(conn, said)
			_, err := one.ReadString('\n')
			fail(err)
		}
	}
	if door != "plain" {
		over := tls.Client(conn, &tls.Config{InsecureSkipVerify: true})
		fail(over.Handshake())
		conn = over
	}
	return conn
}

func login(number int) *client {
	c := &client{connect(), make(chan struct{}), make(chan struct{}), make(chan struct{}, 1), number == 1}
	go c.read()
	fmt.Fprintf(c, "LOGIN u%04d %s 0 * load\n", number, password)
	return c
}

// read counts what comes, and tells of a few lines.
func (c *client) read() {
	buffer, rest := make([]byte, 65536), 0
	for {
		count, err := c.Read(buffer[rest:])
		if err != nil {
			return
		}
		whole := buffer[:rest+count]
		end := bytes.LastIndexByte(whole, '\n') + 1
		said := bytes.Count(whole[:end], []byte("SAID load"))
		lines.Add(int64(bytes.Count(whole[:end], []byte("\n"))))
		delivered.Add(int64(said))
		if c.isFirst {
			last.Add(int64(said))
		}
		c.note(whole[:end])
		rest = copy(buffer, whole[end:])
	}
}

func (c *client) note(whole []byte) {
	for _, it := range []struct {
		line string
		told chan struct{}
	}{{"LOGININFOEND\n", c.in}, {"CLIENTS load", c.joined}} {
		if bytes.Contains(whole, []byte(it.line)) {
			select {
			case <-it.told:
			default:
				close(it.told)
			}
		}
	}
	if bytes.Contains(whole, []byte("PONG\n")) {
		select {
		case c.ponged <- struct{}{}:
		default:
		}
	}
}

// seconds is the processor time of a process, of all threads that it has.
func seconds(pid int) (sum float64) {
	tasks, _ := filepath.Glob(fmt.Sprintf("/proc/%d/task/*/schedstat", pid))
	for _, task := range tasks {
		text, _ := os.ReadFile(task)
		words := strings.Fields(string(text))
		if len(words) > 0 {
			spent, _ := strconv.ParseFloat(words[0], 64)
			sum += spent / 1e9
		}
	}
	return sum
}

// kilobytes is the memory that a process has.
func kilobytes(pid int) (size float64) {
	text, _ := os.ReadFile(fmt.Sprintf("/proc/%d/status", pid))
	for _, line := range strings.Split(string(text), "\n") {
		if strings.HasPrefix(line, "VmRSS:") {
			size, _ = strconv.ParseFloat(strings.Fields(line)[1], 64)
		}
	}
	return size
}

// all has so many clients logged in and in a channel, a few at once.
func all(count int) []*client {
	clients := make([]*client, count)
	var waits sync.WaitGroup
	few := make(chan bool, 20)
	for i := range clients {
		waits.Add(1)
		few <- true
		go func(i int) {
			defer waits.Done()
			clients[i] = login(i + 1)
			<-clients[i].in
			io.WriteString(clients[i], "JOIN load\n")
			<-clients[i].joined
			<-few
		}(i)
	}
	waits.Wait()
	settle()
	return clients
}

// settle waits until no line has come for a while.
func settle() {
	for before := int64(-1); before != lines.Load(); time.Sleep(500 * time.Millisecond) {
		before = lines.Load()
	}
}

// spent runs something, and says what processor time it took of both processes.
func spent(act func()) (middleTook, serverTook float64) {
	a, b := seconds(middle), seconds(server)
	act()
	return seconds(middle) - a, seconds(server) - b
}

func talk(clients []*client, isBulk bool, span time.Duration) {
	said, until := int64(0), time.Now().Add(span)
	before := delivered.Load()
	m, s := spent(func() {
		for time.Now().Before(until) {
			if isBulk {
				for said-last.Load() >= window {
					time.Sleep(50 * time.Microsecond)
				}
				text := strings.Repeat("SAY load 0123456789012345678901234567890123456789\n", window/2)
				io.WriteString(clients[0], text)
				said += window / 2
				continue
			}
			fmt.Fprintf(clients[said%int64(len(clients))], "SAY load %040d\n", said)
			said++
			time.Sleep(100 * time.Millisecond)
		}
		for delivered.Load()-before < said*int64(len(clients)) {
			time.Sleep(time.Millisecond)
		}
	})
	told := float64(delivered.Load() - before)
	fmt.Printf("lines %.0f middle_us %.3f server_us %.3f lines_a_second %.0f\n", told, m/told*1e6, s/told*1e6, told/span.Seconds())
}

func storm(count int) {
	clients := make([]*client, count)
	begun := time.Now()
	var in time.Duration
	m, s := spent(func() {
		var waits sync.WaitGroup
		for i := range clients {
			waits.Add(1)
			go func(i int) {
				defer waits.Done()
				clients[i] = login(i + 1)
				<-clients[i].in
			}(i)
		}
		waits.Wait()
		in = time.Since(begun)
		settle()
	})
	fmt.Printf("lines %d middle_s %.2f server_s %.2f all_in_s %.2f\n", lines.Load(), m, s, in.Seconds())
}

func memory(count int) {
	first := login(count + 1)
	<-first.in
	m, s := kilobytes(middle), kilobytes(server)
	clients := all(count)
	time.Sleep(2 * time.Second)
	each := float64(len(clients))
	fmt.Printf("middle_kB %.1f server_kB %.1f\n", (kilobytes(middle)-m)/each, (kilobytes(server)-s)/each)
}

// lf floods. Where another is beside, that one measures how long its PING waits.
func lf(isBeside bool) {
	flood, other := login(1), login(2)
	<-flood.in
	<-other.in
	settle()
	var worst time.Duration
	m, s := spent(func() {
		sent := make(chan struct{})
		go func() {
			flood.Write(bytes.Repeat([]byte("\n"), 300_000))
			io.WriteString(flood, "PING\n")
			close(sent)
		}()
		if !isBeside {
			<-sent
			<-flood.ponged
			return
		}
		for i := 0; i < 200; i++ {
			begun := time.Now()
			io.WriteString(other, "PING\n")
			<-other.ponged
			if took := time.Since(begun); took > worst {
				worst = took
			}
			time.Sleep(5 * time.Millisecond)
		}
	})
	fmt.Printf("middle_s %.4f server_s %.3f worst_ms %.1f\n", m, s, float64(worst.Microseconds())/1000)
}

func silent(count int) {
	before := len(sockets())
	conns := make([]net.Conn, count)
	for i := range conns {
		conn, err := net.DialTimeout("tcp4", address, patience)
		fail(err)
		conns[i] = conn
	}
	time.Sleep(time.Second)
	taken := len(sockets()) - before
	begun := time.Now()
	c := login(1)
	<-c.in
	fmt.Printf("silent %d taken_at_server %d login_ms %.1f middle_kB %.1f\n", len(conns), taken,
		float64(time.Since(begun).Microseconds())/1000, kilobytes(middle))
}

// sockets are those of the server.
func sockets() (found []string) {
	files, _ := filepath.Glob(fmt.Sprintf("/proc/%d/fd/*", server))
	for _, file := range files {
		if to, err := os.Readlink(file); err == nil && strings.HasPrefix(to, "socket:") {
			found = append(found, to)
		}
	}
	return found
}

func number(at, otherwise int) int {
	if len(os.Args) <= at {
		return otherwise
	}
	value, err := strconv.Atoi(os.Args[at])
	fail(err)
	return value
}

func main() {
	if len(os.Args) < 6 {
		fmt.Fprintln(os.Stderr, "usage: gateway_load MODE DOOR ADDRESS MIDDLE SERVER [COUNT [SECONDS]]")
		os.Exit(2)
	}
	door, address, middle, server = os.Args[2], os.Args[3], number(4, 0), number(5, 0)
	count, span := number(6, 100), time.Duration(number(7, 5))*time.Second
	switch os.Args[1] {
	case "bulk", "talk":
		talk(all(count), os.Args[1] == "bulk", span)
	case "storm":
		storm(count)
	case "memory":
		memory(count)
	case "lf", "beside":
		lf(os.Args[1] == "beside")
	case "silent":
		silent(count)
	}
}
