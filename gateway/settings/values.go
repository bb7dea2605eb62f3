package settings

import (
	"errors"
	"fmt"
	"net"
	"net/netip"
	"strconv"
	"strings"
	"time"
)

// place is HOST:PORT.
type place struct{ to *string }

func (p *place) String() string {
	if p.to == nil {
		return ""
	}
	return *p.to
}

func (p *place) Set(text string) error {
	if text == "" {
		*p.to = ""
		return nil
	}
	host, port, err := net.SplitHostPort(text)
	if err != nil || host == "" {
		return errors.New("expected HOST:PORT")
	}
	if number, err := strconv.ParseUint(port, 10, 16); err != nil || strconv.FormatUint(number, 10) != port {
		return errors.New("expected HOST:PORT, and a port from 0 to 65535")
	}
	*p.to = text
	return nil
}

// duration is a time with its bounds.
type duration struct {
	to          *time.Duration
	least, most time.Duration
}

func (d *duration) String() string {
	if d.to == nil {
		return ""
	}
	return d.to.String()
}

func (d *duration) Set(text string) error {
	value, err := time.ParseDuration(text)
	if err != nil || value < d.least || value > d.most {
		return fmt.Errorf("expected a time from %v to %v, as 15s or 2m", d.least, d.most)
	}
	*d.to = value
	return nil
}

// number is a whole number from 0 on.
type number struct {
	to   *int
	most int
}

func (n *number) String() string {
	if n.to == nil {
		return ""
	}
	return strconv.Itoa(*n.to)
}

func (n *number) Set(text string) error {
	value, err := strconv.Atoi(text)
	if err != nil || value < 0 || value > n.most {
		return fmt.Errorf("expected a whole number from 0 to %d", n.most)
	}
	*n.to = value
	return nil
}

// words are a text that stands in a line of the protocol.
type words struct{ to *string }

func (w *words) String() string {
	if w.to == nil {
		return ""
	}
	return *w.to
}

func (w *words) Set(text string) error {
	if len(text) > 1000 || strings.ContainsAny(text, "\r\n") {
		return errors.New("expected at most 1000 bytes without CR and LF")
	}
	*w.to = text
	return nil
}

// networks are IPv4 addresses with or without bits, parted by commas.
type networks struct{ to *[]netip.Prefix }

func (n *networks) String() string {
	if n.to == nil {
		return ""
	}
	all := make([]string, len(*n.to))
	for i, prefix := range *n.to {
		all[i] = prefix.String()
	}
	return strings.Join(all, ",")
}

func (n *networks) Set(text string) error {
	var all []netip.Prefix
	for _, word := range strings.FieldsFunc(text, func(r rune) bool { return r == ',' || r == ' ' }) {
		network := word
		if !strings.Contains(word, "/") {
			network += "/32"
		}
		prefix, err := netip.ParsePrefix(network)
		if err != nil || !prefix.Addr().Is4() {
			return fmt.Errorf("%q is no IPv4 address[/bits]", word)
		}
		all = append(all, prefix.Masked())
	}
	*n.to = all
	return nil
}
