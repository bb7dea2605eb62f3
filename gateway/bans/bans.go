// Package bans keeps who may not come: names and addresses, each for a time or for ever, in a file that survives a
// start.
package bans

import (
	"bufio"
	"bytes"
	"errors"
	"fmt"
	"net/netip"
	"os"
	"path/filepath"
	"sort"
	"strconv"
	"strings"
	"sync"
	"time"

	"rudderraisin/gateway/dialect"
)

const head = "# Who may not come: a name or an address[/bits], until when (- for ever), and a text that is told.\n"

// Ban is one entry. Until is zero where it is for ever.
type Ban struct {
	Target string // a name, or an address with its bits
	Until  time.Time
	Text   string
}

// List is all bans. It may be used from several sides.
type List struct {
	path     string // empty: they live as long as the list
	mutex    sync.RWMutex
	names    map[string]Ban
	networks map[netip.Prefix]Ban
}

// Load reads a file of bans; one that is not there has none.
func Load(path string) (*List, error) {
	l := &List{path: path}
	return l, l.Reload()
}

// Reload reads the file anew. Where it cannot be used, the list stays as it is.
func (l *List) Reload() error {
	names, networks := map[string]Ban{}, map[netip.Prefix]Ban{}
	l.mutex.Lock()
	defer l.mutex.Unlock()
	if l.path == "" {
		if l.names == nil {
			l.names, l.networks = names, networks
		}
		return nil
	}
	text, err := os.ReadFile(l.path)
	if err != nil && !errors.Is(err, os.ErrNotExist) {
		return err
	}
	lines := bufio.NewScanner(bytes.NewReader(text))
	for number := 1; lines.Scan(); number++ {
		line := strings.TrimSpace(lines.Text())
		if line == "" || line[0] == '#' {
			continue
		}
		ban, err := readLine(line)
		if err != nil {
			return fmt.Errorf("%s:%d: %w", l.path, number, err)
		}
		add(names, networks, ban)
	}
	if err := lines.Err(); err != nil {
		return fmt.Errorf("%s: %w", l.path, err)
	}
	l.names, l.networks = names, networks
	return nil
}

func readLine(line string) (Ban, error) {
	words := strings.SplitN(line, " ", 3)
	if len(words) < 2 {
		return Ban{}, errors.New("expected a name or an address, and until when or `-`")
	}
	target, err := Target(words[0])
	if err != nil {
		return Ban{}, err
	}
	ban := Ban{Target: target}
	if words[1] != "-" {
		if ban.Until, err = time.Parse(time.RFC3339, words[1]); err != nil {
			return Ban{}, fmt.Errorf("%q is no time as 2026-12-31T23:59:59Z, nor `-`", words[1])
		}
	}
	if len(words) > 2 {
		ban.Text = words[2]
	}
	return ban, nil
}

// Target reads a name, or an IPv4 address with or without bits, and gives it as it stands in the file.
func Target(word string) (string, error) {
	if prefix, good := network(word); good {
		return prefix.String(), nil
	}
	if dialect.Name(word) {
		return word, nil
	}
	return "", fmt.Errorf("%q is neither a name nor an IPv4 address[/bits]", word)
}

func network(word string) (netip.Prefix, bool) {
	if address, err := netip.ParseAddr(word); err == nil && address.Is4() {
		return netip.PrefixFrom(address, 32), true
	}
	prefix, err := netip.ParsePrefix(word)
	return prefix.Masked(), err == nil && prefix.Addr().Is4()
}

func add(names map[string]Ban, networks map[netip.Prefix]Ban, ban Ban) {
	if prefix, good := network(ban.Target); good {
		networks[prefix] = ban
	} else {
		names[ban.Target] = ban
	}
}

func (b Ban) holds(now time.Time) bool { return b.Until.IsZero() || now.Before(b.Until) }

// Name says whether a name may not come.
func (l *List) Name(name string) (Ban, bool) {
	l.mutex.RLock()
	defer l.mutex.RUnlock()
	ban, found := l.names[name]
	return ban, found && ban.holds(time.Now())
}

// Address says whether an address may not come.
func (l *List) Address(address netip.Addr) (Ban, bool) {
	l.mutex.RLock()
	defer l.mutex.RUnlock()
	if len(l.networks) == 0 {
		return Ban{}, false
	}
	now := time.Now()
	for bits := 32; bits >= 0; bits-- {
		prefix, err := address.Prefix(bits)
		if err != nil {
			return Ban{}, false
		}
		if ban, found := l.networks[prefix]; found && ban.holds(now) {
			return ban, true
		}
	}
	return Ban{}, false
}

// Add puts in a ban, in the place of an earlier one of that target, and writes the file.
func (l *List) Add(ban Ban) error {
	l.mutex.Lock()
	defer l.mutex.Unlock()
	add(l.names, l.networks, ban)
	return l.save()
}

// Remove takes out a ban, and says whether it was there.
func (l *List) Remove(target string) (found bool, err error) {
	l.mutex.Lock()
	defer l.mutex.Unlock()
	if prefix, good := network(target); good {
		_, found = l.networks[prefix]
		delete(l.networks, prefix)
	} else {
		_, found = l.names[target]
		delete(l.names, target)
	}
	if !found {
		return false, nil
	}
	return true, l.save()
}

// All gives the bans that hold, by target.
func (l *List) All() []Ban {
	l.mutex.RLock()
	defer l.mutex.RUnlock()
	return l.all()
}

func (l *List) all() []Ban {
	now := time.Now()
	var all []Ban
	for _, ban := range l.names {
		if ban.holds(now) {
			all = append(all, ban)
		}
	}
	for _, ban := range l.networks {
		if ban.holds(now) {
			all = append(all, ban)
		}
	}
	sort.Slice(all, func(a, b int) bool { return all[a].Target < all[b].Target })
	return all
}

// String is the ban's line in the file.
func (b Ban) String() string {
	until := "-"
	if !b.Until.IsZero() {
		until = b.Until.UTC().Format(time.RFC3339)
	}
	return strings.TrimRight(b.Target+" "+until+" "+b.Text, " ")
}

// save writes a file beside, and puts it in the place of the old one, so that a crash leaves one of the two.
func (l *List) save() error {
	if l.path == "" {
		return nil
	}
	var text strings.Builder
	text.WriteString(head)
	for _, ban := range l.all() {
		text.WriteString(ban.String() + "\n")
	}
	file, err := os.CreateTemp(filepath.Dir(l.path), ".bans-")
	if err != nil {
		return err
	}
	defer os.Remove(file.Name())
	_, err = file.WriteString(text.String())
	if err == nil {
		err = file.Sync()
	}
	if failed := file.Close(); err == nil {
		err = failed
	}
	if err == nil {
		err = os.Rename(file.Name(), l.path)
	}
	return err
}

// Duration reads a time as 90m, 12h, 7d or 2w.
func Duration(word string) (time.Duration, bool) {
	const day = 24 * time.Hour
	units := map[byte]time.Duration{'s': time.Second, 'm': time.Minute, 'h': time.Hour, 'd': day, 'w': 7 * day}
	if len(word) < 2 || len(word) > 6 {
		return 0, false
	}
	unit, good := units[word[len(word)-1]]
	count, err := strconv.ParseUint(word[:len(word)-1], 10, 32)
	return time.Duration(count) * unit, good && err == nil && count > 0
}
