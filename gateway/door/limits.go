package door

import (
	"net/netip"
	"sync"
	"time"

	"rudderraisin/gateway/settings"
)

// limits say who may come: how many in all, how many of an address, and how many new ones of it a minute.
type limits struct {
	settings *settings.Settings
	mutex    sync.Mutex
	all      int
	places   map[netip.Addr]*visits
	swept    time.Time
}

type visits struct {
	now  int       // connections that are there
	left float64   // new ones that may come at once
	last time.Time // when that was reckoned
}

func newLimits(s *settings.Settings) *limits {
	return &limits{settings: s, places: map[netip.Addr]*visits{}, swept: time.Now()}
}

// enter counts a connection, or gives the cause why there is no place for it.
func (l *limits) enter(address netip.Addr) (cause string) {
	l.mutex.Lock()
	defer l.mutex.Unlock()
	if l.settings.Connections > 0 && l.all >= l.settings.Connections {
		return "connections"
	}
	if !l.exempt(address) {
		if cause := l.visit(address, time.Now()); cause != "" {
			return cause
		}
	}
	l.all++
	return ""
}

func (l *limits) visit(address netip.Addr, now time.Time) (cause string) {
	if now.Sub(l.swept) > time.Minute {
		l.sweep(now)
	}
	most := float64(l.settings.AddressRate)
	v := l.places[address]
	if v == nil {
		v = &visits{left: most, last: now}
		l.places[address] = v
	}
	if v.left += now.Sub(v.last).Minutes() * most; v.left > most {
		v.left = most
	}
	v.last = now
	switch {
	case l.settings.AddressConnections > 0 && v.now >= l.settings.AddressConnections:
		return "address_connections"
	case l.settings.AddressRate > 0 && v.left < 1:
		return "address_rate"
	}
	v.now++
	v.left--
	return ""
}

// sweep forgets addresses that have nobody here and may come as often as any.
func (l *limits) sweep(now time.Time) {
	for address, v := range l.places {
		if v.now == 0 && now.Sub(v.last) > time.Minute {
			delete(l.places, address)
		}
	}
	l.swept = now
}

// leave gives a place back.
func (l *limits) leave(address netip.Addr) {
	l.mutex.Lock()
	defer l.mutex.Unlock()
	l.all--
	if v := l.places[address]; v != nil && !l.exempt(address) {
		v.now--
	}
}

func (l *limits) exempt(address netip.Addr) bool {
	for _, prefix := range l.settings.Exempt {
		if prefix.Contains(address) {
			return true
		}
	}
	return false
}
