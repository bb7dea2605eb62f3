// Package metrics counts what the gateway does, and tells it in the text format of Prometheus.
package metrics

import (
	"fmt"
	"io"
	"sort"
	"sync"
	"sync/atomic"
	"time"

	"rudderraisin/gateway/relay"
)

const prefix = "rudderraisin_gateway_"

// The upper ends of the buckets of handshakes, in seconds.
var bounds = [...]float64{0.001, 0.002, 0.005, 0.01, 0.02, 0.05, 0.1, 0.2, 0.5, 1, 2, 5, 10}

// Metrics are all numbers of one gateway. Its zero value is ready.
type Metrics struct {
	Connections atomic.Int64 // that are there now
	Users       atomic.Int64 // of them logged in
	Accepted    atomic.Uint64
	Logins      atomic.Uint64
	Up, Down    relay.Counts // from clients, and to them
	ServerThere atomic.Bool

	mutex    sync.Mutex
	refusals map[string]uint64
	buckets  [len(bounds) + 1]uint64
	seconds  float64
}

// Refused counts a refusal by its cause.
func (m *Metrics) Refused(cause string) {
	m.mutex.Lock()
	defer m.mutex.Unlock()
	if m.refusals == nil {
		m.refusals = map[string]uint64{}
	}
	m.refusals[cause]++
}

// Shook counts a handshake that took so long.
func (m *Metrics) Shook(took time.Duration) {
	m.mutex.Lock()
	defer m.mutex.Unlock()
	m.seconds += took.Seconds()
	m.buckets[sort.SearchFloat64s(bounds[:], took.Seconds())]++
}

// Write tells all numbers.
func (m *Metrics) Write(to io.Writer) {
	there := 0
	if m.ServerThere.Load() {
		there = 1
	}
	one := func(name, kind, help string, value any) {
		head(to, name, kind, help)
		fmt.Fprintf(to, "%s%s %v\n", prefix, name, value)
	}
	one("connections", "gauge", "Connections that are there now.", m.Connections.Load())
	one("users", "gauge", "Users that are logged in through the gateway now.", m.Users.Load())
	one("server_up", "gauge", "Whether the lobby server is there.", there)
	one("connections_total", "counter", "Connections that were taken.", m.Accepted.Load())
	one("logins_total", "counter", "Logins that the server accepted.", m.Logins.Load())
	two := func(name, help string, up, down uint64) {
		head(to, name, "counter", help)
		fmt.Fprintf(to, "%s%s{from=\"clients\"} %d\n%s%s{from=\"server\"} %d\n", prefix, name, up, prefix, name, down)
	}
	two("lines_total", "Lines that were passed on.", m.Up.Lines.Load(), m.Down.Lines.Load())
	two("bytes_total", "Bytes of these lines, as they came.", m.Up.Bytes.Load(), m.Down.Bytes.Load())
	m.mutex.Lock()
	defer m.mutex.Unlock()
	m.writeRefusals(to)
	m.writeHandshakes(to)
}

func head(to io.Writer, name, kind, help string) {
	fmt.Fprintf(to, "# HELP %s%s %s\n# TYPE %s%s %s\n", prefix, name, help, prefix, name, kind)
}

func (m *Metrics) writeRefusals(to io.Writer) {
	head(to, "refusals_total", "counter", "Clients that were refused or ended by the gateway, by cause.")
	causes := make([]string, 0, len(m.refusals))
	for cause := range m.refusals {
		causes = append(causes, cause)
	}
	sort.Strings(causes)
	for _, cause := range causes {
		fmt.Fprintf(to, "%srefusals_total{cause=%q} %d\n", prefix, cause, m.refusals[cause])
	}
}

func (m *Metrics) writeHandshakes(to io.Writer) {
	head(to, "handshake_seconds", "histogram", "From the connection to the end of its TLS handshake.")
	sum := uint64(0)
	for i, count := range m.buckets {
		sum += count
		bound := "+Inf"
		if i < len(bounds) {
			bound = fmt.Sprint(bounds[i])
		}
		fmt.Fprintf(to, "%shandshake_seconds_bucket{le=%q} %d\n", prefix, bound, sum)
	}
	fmt.Fprintf(to, "%shandshake_seconds_sum %v\n%shandshake_seconds_count %d\n", prefix, m.seconds, prefix, sum)
}
