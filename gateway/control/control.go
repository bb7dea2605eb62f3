// Package control lets an operator speak to a running gateway, by a socket of the file system.
package control

import (
	"bufio"
	"encoding/json"
	"errors"
	"fmt"
	"io"
	"net"
	"os"
	"strings"
	"syscall"
	"time"

	"rudderraisin/gateway/bans"
)

// House is what orders are given to.
type House interface {
	Say(text string) (told int)
	Kick(name, text string) (kicked int)
	Ban(ban bans.Ban) (kicked int, err error)
	Unban(target string) (found bool, err error)
	Bans() []bans.Ban
	Who(name string) []string
}

const (
	patience = 5 * time.Second
	most     = 65536 // bytes of an order
)

type answer struct {
	Good  bool
	Lines []string
}

// Listen makes the socket, for its owner alone. One that a gateway left behind is taken away first.
func Listen(path string) (net.Listener, error) {
	if conn, err := net.DialTimeout("unix", path, patience); err == nil {
		conn.Close()
		return nil, fmt.Errorf("%s: another gateway listens there", path)
	} else if errors.Is(err, syscall.ECONNREFUSED) {
		os.Remove(path)
	}
	before := syscall.Umask(0o077)
	defer syscall.Umask(before)
	return net.Listen("unix", path)
}

// Serve does what it is told until the listener is closed.
func Serve(listener net.Listener, house House) {
	for {
		conn, err := listener.Accept()
		if errors.Is(err, net.ErrClosed) {
			return
		}
		if err != nil {
			time.Sleep(100 * time.Millisecond)
			continue
		}
		go serve(conn, house)
	}
}

func serve(conn net.Conn, house House) {
	defer conn.Close()
	conn.SetDeadline(time.Now().Add(patience))
	var order []string
	if err := json.NewDecoder(io.LimitReader(conn, most)).Decode(&order); err != nil {
		return
	}
	lines, err := obey(house, order)
	if err != nil {
		lines = append(lines, err.Error())
	}
	json.NewEncoder(conn).Encode(answer{err == nil, lines})
}

// Usage says what may be ordered.
const Usage = `say TEXT                                       tells all users
kick NAME [TEXT]                               ends the connection of a user
ban NAME|ADDRESS[/BITS] [DURATION] [TEXT]      keeps a name or addresses out; DURATION as 90m, 12h, 7d or 2w
unban NAME|ADDRESS[/BITS]                      lets them come again
list                                           shows the bans
who [NAME]                                     shows who is connected`

// ErrOrder is one of an order that is none.
var ErrOrder = errors.New("unknown order")

func obey(house House, order []string) ([]string, error) {
	if len(order) == 0 {
		return nil, ErrOrder
	}
	rest := order[1:]
	for _, word := range rest {
		if strings.ContainsAny(word, "\r\n") {
			return nil, errors.New("a text has no line end")
		}
	}
	switch {
	case order[0] == "say" && len(rest) > 0:
		return []string{fmt.Sprintf("told %d", house.Say(strings.Join(rest, " ")))}, nil
	case order[0] == "kick" && len(rest) > 0:
		if house.Kick(rest[0], strings.Join(rest[1:], " ")) == 0 {
			return nil, fmt.Errorf("%s is not connected", rest[0])
		}
		return []string{"kicked " + rest[0]}, nil
	case order[0] == "ban" && len(rest) > 0:
		return ban(house, rest)
	case order[0] == "unban" && len(rest) == 1:
		return unban(house, rest[0])
	case order[0] == "list" && len(rest) == 0:
		return list(house), nil
	case order[0] == "who" && len(rest) == 0:
		return house.Who(""), nil
	case order[0] == "who" && len(rest) == 1:
		lines := house.Who(rest[0])
		if len(lines) == 0 {
			return nil, fmt.Errorf("%s is not connected", rest[0])
		}
		return lines, nil
	}
	return nil, unknown(order[0])
}

// unknown says how an order is given, if it is known by its first word.
func unknown(word string) error {
	for _, line := range strings.Split(Usage, "\n") {
		if strings.HasPrefix(line, word+" ") {
			return fmt.Errorf("expected %s", strings.TrimSpace(strings.SplitN(line, "   ", 2)[0]))
		}
	}
	return ErrOrder
}

func ban(house House, words []string) ([]string, error) {
	target, err := bans.Target(words[0])
	if err != nil {
		return nil, err
	}
	b := bans.Ban{Target: target}
	words = words[1:]
	if len(words) > 0 {
		if span, good := bans.Duration(words[0]); good {
			b.Until = time.Now().Add(span).Truncate(time.Second)
			words = words[1:]
		} else if words[0] != "" && words[0][0] >= '0' && words[0][0] <= '9' { // rather than a ban for ever by mistake
			return nil, fmt.Errorf("%q is no duration as 90m, 12h, 7d or 2w", words[0])
		}
	}
	b.Text = strings.Join(words, " ")
	kicked, err := house.Ban(b)
	lines := []string{"banned " + b.String(), fmt.Sprintf("kicked %d", kicked)}
	if err != nil {
		err = fmt.Errorf("the ban holds, but its file cannot be written: %w", err)
	}
	return lines, err
}

func unban(house House, word string) ([]string, error) {
	target, err := bans.Target(word)
	if err != nil {
		return nil, err
	}
	found, err := house.Unban(target)
	if err != nil {
		return nil, fmt.Errorf("the ban is gone, but its file cannot be written: %w", err)
	}
	if !found {
		return nil, fmt.Errorf("%s is not banned", target)
	}
	return []string{"unbanned " + target}, nil
}

func list(house House) []string {
	var lines []string
	for _, b := range house.Bans() {
		lines = append(lines, b.String())
	}
	return lines
}

// Call gives an order to the gateway at this socket, and its answer.
func Call(path string, order []string) (lines []string, good bool, err error) {
	conn, err := net.DialTimeout("unix", path, patience)
	if err != nil {
		return nil, false, err
	}
	defer conn.Close()
	conn.SetDeadline(time.Now().Add(2 * patience))
	if err := json.NewEncoder(conn).Encode(order); err != nil {
		return nil, false, err
	}
	var a answer
	if err := json.NewDecoder(bufio.NewReader(conn)).Decode(&a); err != nil {
		return nil, false, err
	}
	return a.Lines, a.Good, nil
}
