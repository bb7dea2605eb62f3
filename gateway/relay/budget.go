package relay

import "time"

// Rate is how much a client may send: so much a second, and Burst seconds of it at once. 0 is no limit.
type Rate struct {
	Bytes, Lines int
	Burst        time.Duration
	Most         time.Duration // how long a client may stay over it
}

// budget is what a client may send now. What is over waits, and is read later.
type budget struct {
	rate         Rate
	bytes, lines float64
	last         time.Time
	over, short  time.Time // since when lines had to wait, and when they last had to
}

func newBudget(rate Rate, now time.Time) *budget {
	b := &budget{rate: rate, last: now}
	b.bytes, b.lines = b.full(rate.Bytes), b.full(rate.Lines)
	return b
}

func (b *budget) full(rate int) float64 { return float64(rate) * b.rate.Burst.Seconds() }

// refill gives what the time since the last call allows. A client that has come to half of its burst again is over no
// more.
func (b *budget) refill(now time.Time) {
	passed := now.Sub(b.last).Seconds()
	b.last = now
	add := func(have *float64, rate int) bool {
		*have += passed * float64(rate)
		if most := b.full(rate); *have > most {
			*have = most
		}
		return rate == 0 || *have >= b.full(rate)/2
	}
	bytes, lines := add(&b.bytes, b.rate.Bytes), add(&b.lines, b.rate.Lines)
	if bytes && lines {
		b.over = time.Time{}
	}
}

// allows says whether so much may go on now.
func (b *budget) allows(bytes, lines int) bool {
	return (b.rate.Bytes == 0 || float64(bytes) <= b.bytes) && (b.rate.Lines == 0 || float64(lines) <= b.lines)
}

func (b *budget) take(bytes, lines int) {
	b.bytes -= float64(bytes)
	b.lines -= float64(lines)
}

// calm is how long no line may have had to wait before a client is no more over its rate.
const calm = 5 * time.Second

// wait is called where lines have to wait: it says how long, and whether the client has been over for too long. Its
// next line has so many bytes.
func (b *budget) wait(now time.Time, next int) (wait time.Duration, end bool) {
	if b.over.IsZero() || now.Sub(b.short) > calm {
		b.over = now
	}
	b.short = now
	if b.rate.Bytes > 0 && float64(next) > b.full(b.rate.Bytes) {
		return 0, true // it would wait for ever
	}
	return 100 * time.Millisecond, now.Sub(b.over) >= b.rate.Most // so that lines go on in tens, and not one by one
}
