package dialect

import "bytes"

// FromServer says what becomes of a line of the server, which has no LF.
func (d *Dialect) FromServer(line []byte, out *Out) Verdict {
	tag, word, rest := readReply(line)
	if string(word) == "ACCEPTED" {
		return d.accepted(rest)
	}
	if d.plain {
		return Same
	}
	if string(tag) == probe {
		return d.own(line, word, rest, out)
	}
	return d.translate(line, tag, word, rest, out)
}

// translate knows the few replies that SpringLobby expects otherwise.
func (d *Dialect) translate(line, tag, word, rest []byte, out *Out) Verdict {
	switch string(word) {
	case "SAIDBATTLE":
		return put(&out.There, string(tag), "SAID ", d.room(), " ", string(rest))
	case "SAIDBATTLEEX":
		return put(&out.There, string(tag), "SAIDEX ", d.room(), " ", string(rest))
	case "BATTLEOPENED":
		battle, _, _ := bytes.Cut(rest, []byte(" "))
		return put(&out.There, string(line), "\t", chatOf(battle))
	case "SAYPRIVATE", "SAIDPRIVATE":
		name, text, _ := bytes.Cut(rest, []byte(" "))
		if bytes.HasPrefix(text, []byte(action)) {
			return put(&out.There, string(tag), string(word), "EX ", string(name), " ", string(text[len(action):]))
		}
	case "JOINFAILED":
		// Coming back, SpringLobby joins its open channels, and then those that it joins by itself.
		if _, text, _ := bytes.Cut(rest, []byte(" ")); string(text) == inAlready {
			return Changed
		}
	case "OPENBATTLE", "JOINBATTLE", "JOINBATTLEFAILED", "SERVERMSG":
		d.answer(tag, word, rest)
	}
	return Same
}

// chatOf is the name of a battle's chat as SpringLobby is told it. No channel has it: `:` is in no channel's name.
func chatOf(battle []byte) string { return "battle:" + string(battle) }

func (d *Dialect) room() string {
	d.mutex.Lock()
	defer d.mutex.Unlock()
	return chatOf(d.battle)
}

func (d *Dialect) accepted(rest []byte) Verdict {
	d.mutex.Lock()
	first := !d.isIn
	d.isIn = true
	d.mutex.Unlock()
	if first && d.hooks.In != nil {
		d.hooks.In(string(rest))
	}
	return Same
}

// answer notes what became of a question to join. Between the PONGs around it each line with its id answers it; so
// does, where it had none, a refusal without an id. Without an id too the server says what a host decided.
func (d *Dialect) answer(tag, word, rest []byte) {
	d.mutex.Lock()
	defer d.mutex.Unlock()
	untagged := len(tag) == 0
	switch string(word) {
	case "OPENBATTLE", "JOINBATTLE":
		battle, _, _ := bytes.Cut(rest, []byte(" "))
		d.battle = append(d.battle[:0], battle...)
		d.waiting, d.settled = false, true
	case "JOINBATTLEFAILED":
		if untagged {
			d.waiting = false
		}
		d.settled = d.settled || untagged || d.answers(tag)
	case "SERVERMSG":
		d.settled = d.settled || d.answers(tag)
	}
}

// answers says whether a line has the id of the JOINBATTLE under way. What came before its window is forgotten there.
func (d *Dialect) answers(tag []byte) bool { return bytes.Equal(tag, d.tag) }

// own looks at the lines that carry the gateway's own id: its PONGs, what became of its LEAVEBATTLE, and lines that
// answer a client that uses the same id.
func (d *Dialect) own(line, word, rest []byte, out *Out) Verdict {
	d.mutex.Lock()
	isPong := string(word) == "PONG"
	switch {
	case isPong && d.before > 0:
		d.before--
	case isPong && len(d.next) > 0:
		told := d.step()
		d.mutex.Unlock()
		if told {
			put(&out.There, waitingFor)
		}
		return Changed
	case d.now == leaving:
		d.mutex.Unlock()
		if string(word) != "SERVERMSG" { // the host let it in meanwhile, so it leaves the battle
			put(&out.There, string(line[len(probe):]))
		}
		return Changed
	}
	d.mutex.Unlock()
	return d.translate(line, []byte(probe), word, rest, out)
}

// step goes on to the window that begins with a PONG, and says whether the client is to be told that it waits.
func (d *Dialect) step() (told bool) {
	if d.now == joining && !d.settled {
		d.waiting, told = true, true
	}
	d.now, d.next = d.next[0], d.next[1:]
	if d.now == joining {
		d.settled = false
	}
	if len(d.next) == 0 {
		d.next, d.before, d.behind = nil, d.behind, 0
		d.untold = true
	}
	return told
}

// Told says that the client was sent what FromServer gave. Lines that were held for an answer go on behind it.
func (d *Dialect) Told() {
	d.mutex.Lock()
	defer d.mutex.Unlock()
	if d.untold {
		d.untold = false
		select {
		case d.Wake <- struct{}{}:
		default:
		}
	}
}
