// Package dialect puts the lines of one client from SpringLobby's way of speaking into the server's, and back. It is
// pure: a line in, lines out. What it does not name is passed as it is.
package dialect

import (
	"bytes"
	"strconv"
	"sync"
)

// Verdict says what becomes of a line.
type Verdict int

const (
	Same    Verdict = iota // it is passed as it is
	Changed                // what was appended to Out stands for it
	Hold                   // nothing was done: give it again once Wake tells that the server has answered
)

// Out takes whole lines with their LF: There goes the way that the line went, Here goes back.
type Out struct{ There, Here []byte }

// Texts are what an operator may word.
type Texts struct{ Accounts string }

// Hooks are asked and told about logins. Each may be nil.
type Hooks struct {
	Refuse func(name string) (text string, refused bool) // before a LOGIN goes to the server
	In     func(name string)                             // when the server has accepted one
	Texts  func() Texts
}

const (
	probe      = "#2147483647 " // the gateway's own message id, the last there is
	action     = "/me "         // stands before a private text in the third person
	inAlready  = "Already in the channel"
	noTopics   = "SERVERMSG Channels have no topic here"
	cancel     = "!cancel" // said in a channel by one who waits: SpringLobby has no button for it
	waitingFor = "SERVERMSG Waiting for the host to let you in. Say !cancel in any channel to ask no more"
	cancelled  = "SERVERMSG You ask no more to join"
	tooLong    = "SERVERMSG The line is too long"
)

// window is what the server answers between two PONGs of the gateway's own.
type window int

const (
	shut    window = iota // nothing that the gateway looks at
	leaving               // the LEAVEBATTLE that the gateway put in
	joining               // the client's JOINBATTLE
)

// Dialect is the state of one client. Its two directions may be used at the same time.
type Dialect struct {
	hooks Hooks
	plain bool          // the client speaks the server's protocol: only logins are looked at
	Wake  chan struct{} // has room for one, and is filled when a held line may be given again
	ended bool          // the server looks at no more lines of the client

	mutex   sync.Mutex
	battle  []byte   // the number of the battle that the client is in, or was last in
	waiting bool     // the server keeps it waiting for a host
	tag     []byte   // the message id of the JOINBATTLE under way
	settled bool     // that JOINBATTLE is answered
	now     window   // which answers come at present
	next    []window // what begins with each PONG of the gateway's own that is still to come
	before  int      // PONGs of the client's own with the gateway's id that come before those
	behind  int      // and behind them
	untold  bool     // the last answer to those is known, and not yet sent
	isIn    bool
	hasLeft bool // the client has said EXIT
}

// New makes the state of a client that has just come. A plain one speaks the server's protocol itself.
func New(plain bool, hooks Hooks) *Dialect {
	return &Dialect{hooks: hooks, plain: plain, Wake: make(chan struct{}, 1), battle: []byte("0")}
}

// HasLeft says whether the client has said EXIT.
func (d *Dialect) HasLeft() bool {
	d.mutex.Lock()
	defer d.mutex.Unlock()
	return d.hasLeft
}

// FromClient says what becomes of a line of the client, which has no LF.
func (d *Dialect) FromClient(line []byte, out *Out) Verdict {
	if d.ended = d.ended || len(line) > LineLimit; d.ended {
		return Same
	}
	r := readRequest(line)
	switch string(r.word) {
	case "LOGIN":
		return d.login(&r, out)
	case "EXIT":
		return d.exit(&r)
	}
	if d.plain {
		return Same
	}
	switch string(r.word) {
	case "PING":
		return d.ping(&r)
	case "JOINBATTLE":
		return d.join(line, &r, out)
	case "OPENBATTLE":
		return d.open(line, &r, out)
	case "LEAVEBATTLE":
		return d.leave(&r)
	case "SAY":
		return d.say(&r, out)
	case "SAYPRIVATEEX":
		return d.act(&r, out)
	case "GETCHANNELMESSAGES", "CHANNELTOPIC", "REGISTER", "CHANGEPASSWORD", "CONFIRMAGREEMENT", "RENAMEACCOUNT":
		return d.unknown(&r, out)
	}
	return Same
}

// put appends a line of these parts.
func put(to *[]byte, parts ...string) Verdict {
	for _, part := range parts {
		*to = append(*to, part...)
	}
	*to = append(*to, '\n')
	return Changed
}

func (d *Dialect) login(r *request, out *Out) Verdict {
	if d.hooks.Refuse == nil || !r.check() {
		return Same
	}
	name, _, good := nextWord(r.rest)
	if !good {
		return Same
	}
	if text, refused := d.hooks.Refuse(string(name)); refused {
		return put(&out.Here, string(r.tag), "DENIED ", text)
	}
	return Same
}

func (d *Dialect) exit(r *request) Verdict {
	if r.check() {
		d.ended = true
		d.mutex.Lock()
		d.hasLeft = true
		d.mutex.Unlock()
	}
	return Same
}

// unknown answers what SpringLobby says though the server does not know it.
func (d *Dialect) unknown(r *request, out *Out) Verdict {
	if !r.check() {
		return Same
	}
	switch string(r.word) {
	case "GETCHANNELMESSAGES": // asked at each JOIN; there is no history, and no answer is waited for
		return Changed
	case "CHANNELTOPIC":
		return put(&out.Here, string(r.tag), noTopics)
	case "REGISTER":
		return put(&out.Here, string(r.tag), "REGISTRATIONDENIED ", d.texts().Accounts)
	}
	return put(&out.Here, string(r.tag), "SERVERMSG ", d.texts().Accounts)
}

func (d *Dialect) texts() Texts {
	if d.hooks.Texts == nil {
		return Texts{}
	}
	return d.hooks.Texts()
}

// act turns a private text in the third person into one that the server passes on.
func (d *Dialect) act(r *request, out *Out) Verdict {
	name, text, good := spoken(r.rest)
	if !good || !r.check() {
		return Same
	}
	return d.replace(r, out, string(r.tag), "SAYPRIVATE ", string(name), " ", action, string(text))
}

// replace puts a line in the place of a client's, or answers where that is too long for the server.
func (d *Dialect) replace(r *request, out *Out, parts ...string) Verdict {
	if grown(parts) {
		return put(&out.Here, string(r.tag), tooLong)
	}
	return put(&out.There, parts...)
}

// grown says whether what stands for a line is longer than the server takes: it would end the connection.
func grown(parts []string) bool {
	length := 0
	for _, part := range parts {
		length += len(part)
	}
	return length > LineLimit
}

// ping counts the client's own PINGs under the gateway's id, so that their PONGs are passed on.
func (d *Dialect) ping(r *request) Verdict {
	if string(r.tag) != probe || !r.check() {
		return Same
	}
	d.mutex.Lock()
	defer d.mutex.Unlock()
	if len(d.next) > 0 {
		d.behind++
	} else {
		d.before++
	}
	return Same
}

// join puts a PING of the gateway's before and behind a JOINBATTLE: what comes between the two PONGs answers it, and
// where nothing comes the client waits. One that waits already asks no more before.
func (d *Dialect) join(line []byte, r *request, out *Out) Verdict {
	battle, behind, good := joinQuestion(r.rest)
	if !good || !r.check() {
		return Same
	}
	d.mutex.Lock()
	defer d.mutex.Unlock()
	if d.unsettled() {
		return Hold
	}
	asked := []string{string(line)}
	if word := emptyPassword(behind); word != nil {
		asked = []string{string(r.tag), "JOINBATTLE ", strconv.FormatInt(battle, 10), " * ", string(word)}
		if grown(asked) {
			return put(&out.Here, string(r.tag), tooLong)
		}
	}
	d.askNoMore(out)
	d.probe(out, joining)
	put(&out.There, asked...)
	d.probe(out, shut)
	d.tag, d.settled = append([]byte{}, r.tag...), false
	return Changed
}

// emptyPassword gives the script password that stands behind a password without a byte, as SpringLobby sends it.
func emptyPassword(behind []byte) []byte {
	word := bytes.TrimPrefix(behind, []byte("  "))
	if len(word) == 0 || len(word) != len(behind)-2 || bytes.IndexByte(word, ' ') >= 0 {
		return nil
	}
	return word
}

func (d *Dialect) open(line []byte, r *request, out *Out) Verdict {
	if !r.check() || !openQuestion(r.rest) {
		return Same
	}
	return d.withdraw(out, &out.There, string(line))
}

func (d *Dialect) leave(r *request) Verdict {
	if !r.check() {
		return Same
	}
	d.mutex.Lock()
	defer d.mutex.Unlock()
	if d.unsettled() {
		return Hold
	}
	d.waiting = false
	return Same
}

// unsettled says that the server has still to answer what the gateway put in.
func (d *Dialect) unsettled() bool { return len(d.next) > 0 || d.untold }

// say looks for one who waits and asks no more. SpringLobby says nothing in the room of a battle that it is not in.
func (d *Dialect) say(r *request, out *Out) Verdict {
	if !bytes.HasSuffix(r.rest, []byte(" "+cancel)) || !r.check() {
		return Same
	}
	if _, text, good := spoken(r.rest); !good || string(text) != cancel {
		return Same
	}
	return d.withdraw(out, &out.Here, string(r.tag), cancelled)
}

// withdraw takes one who waits out, and then puts a line. Where nobody waits, the line that asks for it goes on.
func (d *Dialect) withdraw(out *Out, to *[]byte, line ...string) Verdict {
	d.mutex.Lock()
	defer d.mutex.Unlock()
	if d.unsettled() {
		return Hold
	}
	if !d.waiting {
		return Same
	}
	d.askNoMore(out)
	d.probe(out, shut)
	return put(to, line...)
}

// askNoMore takes one who waits out. What the server says to that is known by the PONG before it and the one behind.
func (d *Dialect) askNoMore(out *Out) {
	if d.waiting {
		d.waiting = false
		d.probe(out, leaving)
		put(&out.There, probe, "LEAVEBATTLE")
	}
}

// probe puts in a PING, with whose PONG this window begins.
func (d *Dialect) probe(out *Out, begins window) {
	put(&out.There, probe, "PING")
	d.next = append(d.next, begins)
}
