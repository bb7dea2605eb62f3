package dialect

import (
	"strings"
	"testing"
)

const (
	ping   = probe + "PING"
	pong   = probe + "PONG"
	opened = "BATTLEOPENED 4 0 0 Anna 10.0.0.1 8452 8 0 0 -5 Spring\t105\tMap\tTitle\tGame"
)

// talk is a client whose lines are looked at one by one.
type talk struct {
	*testing.T
	*Dialect
}

func begin(t *testing.T) talk {
	return talk{t, New(false, Hooks{Texts: func() Texts { return Texts{Accounts: "Ask Anna"} }})}
}

func lines(text []byte) []string {
	if len(text) == 0 {
		return nil
	}
	return strings.Split(strings.TrimSuffix(string(text), "\n"), "\n")
}

// client gives a line of the client. What stands for it is `there` for the server, and behind "<" for the client
// itself.
func (t talk) client(line string, wanted ...string) {
	t.Helper()
	var out Out
	verdict := t.FromClient([]byte(line), &out)
	got := lines(out.There)
	switch verdict {
	case Same:
		got = []string{line}
	case Hold:
		got = []string{"hold"}
	}
	for _, here := range lines(out.Here) {
		got = append(got, "< "+here)
	}
	t.compare(line, got, wanted)
}

// server gives a line of the server, and what the client gets for it.
func (t talk) server(line string, wanted ...string) {
	t.Helper()
	var out Out
	got := []string{line}
	if t.FromServer([]byte(line), &out) != Same {
		got = lines(out.There)
	}
	t.compare(line, got, wanted)
	t.Told()
}

func (t talk) compare(line string, got, wanted []string) {
	t.Helper()
	if strings.Join(got, "\n") != strings.Join(wanted, "\n") || len(got) != len(wanted) {
		t.Errorf("%.200q comes to %.400q, wanted %.400q", line, got, wanted)
	}
}

func (t talk) same(line string) {
	t.Helper()
	t.client(line, line)
	t.server(line, line)
}

func TestBattleChat(t *testing.T) {
	d := begin(t)
	d.server("#5 "+opened, "#5 "+opened+"\tbattle:4")
	d.server("#6 JOINBATTLE 4 -1", "#6 JOINBATTLE 4 -1")
	d.client("#7 SAYBATTLE hi  all", "#7 SAYBATTLE hi  all")
	d.server("#7 SAIDBATTLE Bert hi  all", "#7 SAID battle:4 Bert hi  all")
	d.server("SAIDBATTLEEX Anna bows", "SAIDEX battle:4 Anna bows")
	d.server("SAIDBATTLE Anna ", "SAID battle:4 Anna ")
	d.server("#9 OPENBATTLE 12", "#9 OPENBATTLE 12")
	d.server("SAIDBATTLE Bert \xff\x00\t\xc3\xa4", "SAID battle:12 Bert \xff\x00\t\xc3\xa4")
}

func TestPrivateActions(t *testing.T) {
	d := begin(t)
	d.client("#3 SAYPRIVATEEX Bert  nods", "#3 SAYPRIVATE Bert /me  nods")
	d.client("  #003  SAYPRIVATEEX  Bert nods\r", "#3 SAYPRIVATE Bert /me nods")
	d.client("SAYPRIVATEEX Bert ", "SAYPRIVATE Bert /me ")
	d.client("SAYPRIVATEEX Bert", "SAYPRIVATEEX Bert")
	d.client("SAYPRIVATEEX", "SAYPRIVATEEX")
	d.client("SAYPRIVATEEX Bert a\rb", "SAYPRIVATEEX Bert a\rb")
	d.server("#3 SAYPRIVATE Bert /me  nods", "#3 SAYPRIVATEEX Bert  nods")
	d.server("SAIDPRIVATE Anna /me ", "SAIDPRIVATEEX Anna ")
	d.server("SAIDPRIVATE Anna /men", "SAIDPRIVATE Anna /men")
	d.server("SAIDPRIVATE Anna", "SAIDPRIVATE Anna")
}

// A line that the server takes may not grow past what it takes: it would end the connection.
func TestLinesThatWouldGrow(t *testing.T) {
	d := begin(t)
	text := strings.Repeat("x", LineLimit-len("#3 SAYPRIVATEEX Bert "))
	d.client("#3 SAYPRIVATEEX Bert "+text, "< #3 SERVERMSG The line is too long")
	d.client("#3 SAYPRIVATEEX Bert "+text[2:], "#3 SAYPRIVATE Bert /me "+text[2:])
	word := strings.Repeat("w", LineLimit-len("JOINBATTLE 4  "))
	d.client("JOINBATTLE 4  "+word, "< SERVERMSG The line is too long")
	d.client("JOINBATTLE 4  "+word[1:], ping, "JOINBATTLE 4 * "+word[1:], ping)
	// The server looks at no line from one on that is too long by itself, and so nothing is answered.
	for _, line := range []string{"#3 SAYPRIVATEEX Bert " + text + "x", "CHANNELTOPIC main", "SAYPRIVATEEX Bert x"} {
		d.client(line, line)
	}
}

func TestWhatIsNotThere(t *testing.T) {
	d := begin(t)
	d.client("#4 GETCHANNELMESSAGES main 0")
	d.client("  GETCHANNELMESSAGES\r")
	d.client("#005 CHANNELTOPIC main Hi", "< #5 SERVERMSG Channels have no topic here")
	d.client(" CHANNELTOPIC\r", "< SERVERMSG Channels have no topic here")
	d.client("CHANNELTOPIC a\rb", "CHANNELTOPIC a\rb")
	d.client("#6 REGISTER Eve secret a@b.c", "< #6 REGISTRATIONDENIED Ask Anna")
	d.client("CHANGEPASSWORD a b\r", "< SERVERMSG Ask Anna")
	d.client("#7 CONFIRMAGREEMENT 1234", "< #7 SERVERMSG Ask Anna")
	d.client(" #8 RENAMEACCOUNT Ada", "< #8 SERVERMSG Ask Anna")
	d.client("REGISTERED", "REGISTERED")
}

func TestChannelJoinedTwice(t *testing.T) {
	d := begin(t)
	d.client("#3 JOIN main ", "#3 JOIN main ")
	d.server("#3 JOINFAILED main Already in the channel")
	d.server("JOINFAILED main Already in the channel")
	for _, line := range []string{"JOINFAILED main Already in the channel ", "JOINFAILED main No", "JOINFAILED",
		"SAID main Bert Already in the channel", "JOINFAILED Already in the channel", "#4 JOINFAILED main "} {
		d.server(line, line)
	}
}

func TestEmptyPassword(t *testing.T) {
	for line, passed := range map[string]string{
		"#6 JOINBATTLE 4  1d65":    "#6 JOINBATTLE 4 * 1d65",
		"JOINBATTLE 4  x\r":        "JOINBATTLE 4 * x",
		" #06  JOINBATTLE  04  x":  "#6 JOINBATTLE 4 * x",
		"#6 JOINBATTLE 4 pw 1d65":  "#6 JOINBATTLE 4 pw 1d65",
		"JOINBATTLE 4":             "JOINBATTLE 4",
		"JOINBATTLE 4  ":           "JOINBATTLE 4  ",
		"JOINBATTLE 4   x":         "JOINBATTLE 4   x",
		"JOINBATTLE 4  x y":        "JOINBATTLE 4  x y",
		"JOINBATTLE 0000000004\r":  "JOINBATTLE 0000000004\r",
		"JOINBATTLE -0":            "JOINBATTLE -0",
		"JOINBATTLE 2147483647 pw": "JOINBATTLE 2147483647 pw",
	} {
		begin(t).client(line, ping, passed, ping)
	}
}

// What the server refuses at reading asks nothing, so nothing stands before or behind it.
func TestJoinsThatAreNone(t *testing.T) {
	for _, line := range []string{"JOINBATTLE", "JOINBATTLE ", "JOINBATTLE x", "JOINBATTLE 4x", "JOINBATTLE -1", "JOINBATTLE +4",
		"JOINBATTLE 2147483648", "JOINBATTLE 00000000004", "JOINBATTLE 4\t", "JOINBATTLE 4 p\tw", "JOINBATTLE 4 pw\ts",
		"JOINBATTLE 4 pw s\tt", "JOINBATTLE 4\r\r", "#x JOINBATTLE 4", "#2147483648 JOINBATTLE 4", "joinbattle 4"} {
		d := begin(t)
		d.client(line, line)
		d.client("JOINBATTLE 5", ping, "JOINBATTLE 5", ping)
	}
}

// joins has a client ask, and the server leave it without an answer.
func (t talk) joins(line string) {
	t.Helper()
	t.client(line, ping, line, ping)
	t.server(pong)
	t.server(pong, waitingFor)
}

func TestWaitingAndCancel(t *testing.T) {
	for _, said := range []string{"#5 SAY main !cancel", "  #005   SAY  main !cancel\r"} {
		d := begin(t)
		d.joins("#3 JOINBATTLE 01\r")
		for _, other := range []string{"SAY main !cancel it", "SAY main  !cancel", "SAY !cancel", "SAYEX main !cancel",
			"SAY main x !cancel", "SAY main !cancel\r\r"} {
			d.client(other, other)
		}
		d.client(said, ping, probe+"LEAVEBATTLE", ping, "< #5 "+cancelled)
		d.server(pong)
		d.server(pong)
		d.client(said, said)
	}
}

// A host's refusal has no id; one with an id answers another question.
func TestHostSaysNo(t *testing.T) {
	d := begin(t)
	d.joins("#3 JOINBATTLE 1")
	d.server("#9 JOINBATTLEFAILED No such battle", "#9 JOINBATTLEFAILED No such battle")
	d.client("#5 SAY main !cancel", ping, probe+"LEAVEBATTLE", ping, "< #5 "+cancelled)
	d.server(pong)
	d.server(pong)
	d.joins("#4 JOINBATTLE 1")
	d.server("JOINBATTLEFAILED Denied by the founder", "JOINBATTLEFAILED Denied by the founder")
	d.client("#5 SAY main !cancel", "#5 SAY main !cancel")
}

// Each of these says what became of the question, so that the player does not wait.
func TestAnswersToAJoin(t *testing.T) {
	for _, c := range []struct{ line, answer string }{
		{"#1 JOINBATTLE 4 *", "#1 JOINBATTLE 4 0"},
		{"JOINBATTLE 04\r", "JOINBATTLE 4 0"},
		{"#1 JOINBATTLE 4 *", "JOINBATTLE 4 0"}, // a host that lets it in at once
		{"#001 JOINBATTLE 6 *", "#1 JOINBATTLEFAILED No such battle"},
		{"JOINBATTLE 6 *", "JOINBATTLEFAILED Wrong password"},
		{"#1 JOINBATTLE 4", "JOINBATTLEFAILED Denied by the founder"},
		{"#1 JOINBATTLE 4", "#1 SERVERMSG Log in first"},
		{"JOINBATTLE 4", "SERVERMSG Log in first"},
		{"#1 JOINBATTLE 4", "#1 JOINBATTLEFAILED Already in a battle"},
		{"#2147483647 JOINBATTLE 4", "#2147483647 JOINBATTLEFAILED Already in a battle"},
	} {
		d := begin(t)
		d.client(c.line, ping, c.line, ping)
		d.server(pong)
		d.server(c.answer, c.answer)
		d.server(pong)
		d.client("SAY main !cancel", "SAY main !cancel")
	}
}

// These are answers to something else.
func TestOthersWhileAJoinIsAnswered(t *testing.T) {
	d := begin(t)
	d.client("#7 JOINBATTLE 4", ping, "#7 JOINBATTLE 4", ping)
	for _, line := range []string{"#7 SERVERMSG No such user", "#7 JOINBATTLEFAILED No such battle", "SERVERMSG Unknown command"} {
		d.server(line, line) // of lines before
	}
	d.server(pong)
	for _, line := range []string{"#6 SERVERMSG Bad name", "SAID main Bert #7 JOINBATTLEFAILED x", "#77 PONG", "JOINED main Bert",
		"JOINEDBATTLE 4 Bert", "#70 JOINBATTLEFAILED No such battle"} {
		d.server(line, line)
	}
	d.server(pong, waitingFor)
	d.server("JOINBATTLE 4 0", "JOINBATTLE 4 0")
	d.server("SAIDBATTLE Bert hi", "SAID battle:4 Bert hi")
	d.client("SAY main !cancel", "SAY main !cancel")
}

func TestOneWhoWaitsGoesElsewhere(t *testing.T) {
	const open = " #4 OPENBATTLE 0 0 * 8452 8 -1 0 123 Spring\t104.0\tMap\tTitle\tGame"
	d := begin(t)
	d.client(open, open)
	d.joins("JOINBATTLE 1")
	d.client("JOINBATTLE x", "JOINBATTLE x")     // refused, so it still waits
	d.client("OPENBATTLE 0 0", "OPENBATTLE 0 0") // this too
	d.client(open, ping, probe+"LEAVEBATTLE", ping, open)
	d.server(pong)
	d.server(pong)
	d.joins("#4 JOINBATTLE 2")
	d.client("JOINBATTLE 3", ping, probe+"LEAVEBATTLE", ping, "JOINBATTLE 3", ping)
	d.server(pong)
	d.server(pong)
	d.server(pong, waitingFor)
	d.client("#9  LEAVEBATTLE x\r", "#9  LEAVEBATTLE x\r")
	d.client("JOINBATTLE 4", ping, "JOINBATTLE 4", ping)
}

// A battle of one's own is not closed by a question that was refused before it was opened.
func TestOwnBattleStays(t *testing.T) {
	d := begin(t)
	const open = " OPENBATTLE 0 0 * 8452 8 -1 0 123 Spring\t104.0\tMap\tTitle\tGame"
	d.client("JOINBATTLE x", "JOINBATTLE x")
	d.server("SERVERMSG Bad number", "SERVERMSG Bad number")
	d.client(open, open)
	d.server("OPENBATTLE 1", "OPENBATTLE 1")
	d.client("JOINBATTLE 1", ping, "JOINBATTLE 1", ping)
	d.server(pong)
	d.server("JOINBATTLEFAILED Already in a battle", "JOINBATTLEFAILED Already in a battle")
	d.server(pong)
	d.server("SAIDBATTLE Anna hi", "SAID battle:1 Anna hi")
}

// The host may decide while the gateway takes the player out: what the server says to that has no place at the client.
func TestTakenOutTooLate(t *testing.T) {
	d := begin(t)
	d.joins("JOINBATTLE 1")
	d.client("SAY main !cancel", ping, probe+"LEAVEBATTLE", ping, "< "+cancelled)
	d.server("JOINBATTLEFAILED Denied by the founder", "JOINBATTLEFAILED Denied by the founder")
	d.server(pong)
	d.server(probe + "SERVERMSG You are not in a battle")
	d.server(pong)
	d.joins("JOINBATTLE 1")
	d.client("SAY main !cancel", ping, probe+"LEAVEBATTLE", ping, "< "+cancelled)
	d.server("JOINBATTLE 1 0", "JOINBATTLE 1 0")
	d.server(pong)
	d.server(probe+"LEFTBATTLE 1 Anna", "LEFTBATTLE 1 Anna")
	d.server(pong)
	d.server(probe+"LEFTBATTLE 1 Anna", probe+"LEFTBATTLE 1 Anna")
}

// Lines whose meaning hangs on the answer are held until it is there, and it is told when.
func TestHeldLines(t *testing.T) {
	const open = "OPENBATTLE 0 0 * 8452 8 -1 0 123 Spring\t104.0\tMap\tTitle\tGame"
	d := begin(t)
	d.client("JOINBATTLE 1", ping, "JOINBATTLE 1", ping)
	for _, line := range []string{"JOINBATTLE 2", open, "LEAVEBATTLE", "SAY main !cancel"} {
		d.client(line, "hold")
	}
	for _, line := range []string{"JOINBATTLE x", "OPENBATTLE 0", "SAY main hi", "PING"} {
		d.client(line, line)
	}
	d.server(pong)
	d.client(open, "hold")
	var out Out
	if d.FromServer([]byte(pong), &out); string(out.There) != waitingFor+"\n" {
		t.Errorf("it is told %q", out.There)
	}
	d.client("LEAVEBATTLE", "hold") // until that is sent
	d.Told()
	select {
	case <-d.Wake:
	default:
		t.Error("nobody is told that the line may be given again")
	}
	d.client("LEAVEBATTLE", "LEAVEBATTLE")
	d.client("JOINBATTLE 2", ping, "JOINBATTLE 2", ping)
	d.client("EXIT", "EXIT") // from here on the server answers nothing
	for _, line := range []string{open, "CHANNELTOPIC main", "JOINBATTLE 2"} {
		d.client(line, line)
	}
}

func TestPingsOfTheClientsOwn(t *testing.T) {
	d := begin(t)
	d.same(ping)
	d.client(ping+" \t", ping+" \t")
	d.server(pong, pong)
	d.client("#6 JOINBATTLE 1", ping, "#6 JOINBATTLE 1", ping)
	d.client("  "+ping+"\r", "  "+ping+"\r")
	d.client(ping+"\r\r", ping+"\r\r") // answered "Bad byte"
	d.server(pong, pong)
	d.server(pong)
	d.server(pong, waitingFor)
	d.server(pong, pong)
	d.server(pong, pong) // which nobody asked for
}

func TestAllElseIsKept(t *testing.T) {
	d := begin(t)
	for _, line := range []string{"", " ", "#9", "#9 ", "PING", "#1 PONG", "SAY main SAIDBATTLE x", "lower case", "\xff\x00\r",
		"SAID main Bert JOINBATTLE 4  x", "LEAVEBATTLE", "SAYBATTLEX", "SAY main !cancel", "#1 #2 SAYPRIVATEEX Bert x",
		"\tSAYPRIVATEEX Bert x", "#-1 CHANNELTOPIC", "#99999999999 CHANNELTOPIC"} {
		d.same(line)
	}
}

func TestPlainClients(t *testing.T) {
	d := talk{t, New(true, Hooks{})}
	for _, line := range []string{"SAYPRIVATEEX Bert x", "JOINBATTLE 4  x", "REGISTER a b", "CHANNELTOPIC", "#1 GETCHANNELMESSAGES", ping,
		opened, "SAIDBATTLE Anna x", "SAIDPRIVATE Anna /me x", "JOINFAILED main Already in the channel", pong} {
		d.same(line)
	}
}

func TestLogins(t *testing.T) {
	for _, plain := range []bool{true, false} {
		var asked, in []string
		d := talk{t, New(plain, Hooks{
			Refuse: func(name string) (string, bool) { asked = append(asked, name); return "Go away", name == "Eve" },
			In:     func(name string) { in = append(in, name) },
		})}
		d.client(" #04  LOGIN  Eve word 0 * x\r", "< #4 DENIED Go away")
		d.client("LOGIN Anna word 0 * x", "LOGIN Anna word 0 * x")
		d.client("LOGIN Eve\r\r", "LOGIN Eve\r\r")
		d.client("LOGIN", "LOGIN")
		d.server("#4 ACCEPTED Anna", "#4 ACCEPTED Anna")
		d.server("ACCEPTED Bert", "ACCEPTED Bert")
		d.compare("the names that were asked for", asked, []string{"Eve", "Anna"})
		d.compare("the names that are in", in, []string{"Anna"})
		if d.HasLeft() {
			t.Error("it has left without EXIT")
		}
		if d.client(" #1 EXIT bye\r", " #1 EXIT bye\r"); !d.HasLeft() {
			t.Error("EXIT is not noticed")
		}
	}
}

func TestNames(t *testing.T) {
	for name, good := range map[string]bool{"Anna": true, "[x]_9": true, strings.Repeat("a", 20): true, "": false,
		strings.Repeat("a", 21): false, "a-b": false, "a b": false, "\xe4": false, "1.2.3.4": false} {
		if Name(name) != good {
			t.Errorf("%q: %v", name, !good)
		}
	}
}

// FuzzDialect: no line does harm, whole lines come out, none grows past what the server takes, and what has no word
// of the table passes as it is.
func FuzzDialect(f *testing.F) {
	for _, seed := range []string{"", "#1 JOINBATTLE 4  x\nSAY main !cancel\r\n#2147483647 PING", "SAYPRIVATEEX Bert \x00\n LOGIN Eve x",
		"OPENBATTLE 0 0 * 1 1 1 1 1 a\tb\tc\td\te\nEXIT", "PONG\n#2147483647 PONG\n#2147483647 PONG\nJOINBATTLE 1 2\nSAIDBATTLE a b",
		"#2147483647 SERVERMSG x\nSAIDPRIVATE a /me \nBATTLEOPENED\nJOINFAILED x Already in the channel\nACCEPTED", "# #\n#\n #0 "} {
		f.Add(seed, uint64(0x5a))
	}
	f.Fuzz(func(t *testing.T, text string, sides uint64) {
		d := New(false, Hooks{Refuse: func(name string) (string, bool) { return "no", name == "Eve" }})
		for i, line := range strings.Split(text, "\n") {
			var out Out
			turn, isClient := d.FromServer, sides>>(i%64)&1 == 0
			if isClient {
				turn = d.FromClient
			}
			verdict := turn([]byte(line), &out)
			if verdict != Changed && len(out.There)+len(out.Here) > 0 {
				t.Errorf("%q is %v, and yet %q came out", line, verdict, out)
			}
			for _, side := range [][]byte{out.There, out.Here} {
				if len(side) > 0 && side[len(side)-1] != '\n' {
					t.Errorf("%q came to %q", line, side)
				}
			}
			for _, there := range lines(out.There) {
				if isClient && len(there) > LineLimit && len(line) <= LineLimit {
					t.Errorf("%q grew to %d bytes", line, len(there))
				}
			}
			if verdict != Same && !strings.ContainsAny(line, "ABCDEFGHIJKLMNOPQRSTUVWXYZ") {
				t.Errorf("%q has no word, and is changed", line)
			}
		}
	})
}
