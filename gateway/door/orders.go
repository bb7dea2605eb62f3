package door

import (
	"fmt"
	"sort"
	"time"

	"rudderraisin/gateway/bans"
)

// Say tells all users a message of the server, and says how many it went to. Nobody waits for one who does not read.
func (h *House) Say(text string) (told int) {
	h.journal.Tell("order", "say", "", "text", text)
	line := []byte("SERVERMSG " + text + "\n")
	for _, s := range h.all() {
		if s.user() != "" && s.said.Add(1) <= mostSaid {
			told++
			go func(s *session) {
				defer s.said.Add(-1)
				s.out.Write(line)
			}(s)
		}
	}
	return told
}

// Kick ends the connections of a user.
func (h *House) Kick(name, text string) (kicked int) {
	if text == "" {
		text = "You were put out by the operator"
	}
	for _, s := range h.all() {
		if s.user() == name && name != "" && s.end("kicked", "SERVERMSG "+text) {
			kicked++
		}
	}
	h.journal.Tell("order", "kick", name, "kicked", kicked, "text", text)
	return kicked
}

// Ban keeps a name or addresses out, and ends the connections that it is about.
func (h *House) Ban(ban bans.Ban) (kicked int, err error) {
	err = h.bans.Add(ban)
	for _, s := range h.all() {
		if text, isBanned := h.banned(s); isBanned && s.end("banned", "SERVERMSG "+text) {
			kicked++
		}
	}
	h.journal.Tell("order", "ban", ban.Target, "kicked", kicked, "text", ban.Text)
	return kicked, err
}

// Unban lets a name or addresses come again.
func (h *House) Unban(target string) (found bool, err error) {
	h.journal.Tell("order", "unban", target)
	return h.bans.Remove(target)
}

// Bans gives all bans that hold.
func (h *House) Bans() []bans.Ban { return h.bans.All() }

// Who tells of the connections of a name, or of all.
func (h *House) Who(name string) (lines []string) {
	for _, s := range h.all() {
		user := s.user()
		if name != "" && user != name {
			continue
		}
		if user == "" {
			user = "-"
		}
		lines = append(lines, fmt.Sprintf("%s %s %s %s", user, s.peer, s.kind, time.Since(s.since).Round(time.Second)))
	}
	sort.Strings(lines)
	return lines
}
