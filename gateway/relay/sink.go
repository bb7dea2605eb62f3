package relay

import (
	"net"
	"sync"
	"time"
)

// Sink writes whole lines to one end. It may be written to from several sides; a write is never parted by another.
type Sink struct {
	conn     net.Conn
	patience time.Duration
	mutex    sync.Mutex
	deadline time.Time
}

// NewSink makes the sink of a connection. Who makes no room for one write in `patience` is given up.
func NewSink(conn net.Conn, patience time.Duration) *Sink {
	return &Sink{conn: conn, patience: patience}
}

// Write puts these bytes whole, or ends with an error that is final.
func (s *Sink) Write(bytes []byte) (int, error) {
	s.mutex.Lock()
	defer s.mutex.Unlock()
	// A deadline is moved once in a tenth of its time, since each move costs as much as a line.
	if now := time.Now(); s.deadline.Sub(now) < s.patience-s.patience/10 {
		s.deadline = now.Add(s.patience)
		if err := s.conn.SetWriteDeadline(s.deadline); err != nil {
			return 0, err
		}
	}
	return s.conn.Write(bytes)
}
