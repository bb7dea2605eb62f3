package bans

import (
	"net/netip"
	"os"
	"path/filepath"
	"strings"
	"testing"
	"time"
)

func file(t *testing.T, text string) string {
	t.Helper()
	path := filepath.Join(t.TempDir(), "bans")
	if err := os.WriteFile(path, []byte(text), 0o600); err != nil {
		t.Fatal(err)
	}
	return path
}

func TestFile(t *testing.T) {
	past := time.Now().Add(-time.Hour).UTC().Format(time.RFC3339)
	future := time.Now().Add(time.Hour).UTC().Format(time.RFC3339)
	l, err := Load(file(t, "# a comment\n\n Anna -\r\nBert "+future+" some  text\nOld "+past+" gone\n"+
		"192.0.2.7 -\n198.51.100.9/24 - net\n"))
	if err != nil {
		t.Fatal(err)
	}
	for name, text := range map[string]string{"Anna": "", "Bert": "some  text"} {
		if ban, found := l.Name(name); !found || ban.Text != text {
			t.Error(name, ban, found)
		}
	}
	for _, name := range []string{"Old", "anna", "", "192.0.2.7"} {
		if ban, found := l.Name(name); found {
			t.Error(name, ban)
		}
	}
	for address, wanted := range map[string]bool{"192.0.2.7": true, "192.0.2.8": false, "198.51.100.0": true,
		"198.51.100.255": true, "198.51.101.0": false} {
		if _, found := l.Address(netip.MustParseAddr(address)); found != wanted {
			t.Error(address, found)
		}
	}
}

func TestSurvivesAStart(t *testing.T) {
	path := file(t, "")
	l, _ := Load(path)
	until := time.Now().Add(time.Hour).UTC().Truncate(time.Second)
	for _, ban := range []Ban{{Target: "Anna", Until: until, Text: "a b"}, {Target: "10.0.0.0/8"},
		{Target: "Old", Until: until.Add(-2 * time.Hour)}} {
		if err := l.Add(ban); err != nil {
			t.Fatal(err)
		}
	}
	again, err := Load(path)
	if err != nil {
		t.Fatal(err)
	}
	if ban, found := again.Name("Anna"); !found || !ban.Until.Equal(until) || ban.Text != "a b" {
		t.Error(ban, found)
	}
	if all := again.All(); len(all) != 2 || all[0].String() != "10.0.0.0/8 -" {
		t.Error(all)
	}
	if found, err := again.Remove("10.0.0.0/8"); !found || err != nil {
		t.Error(found, err)
	}
	if found, _ := again.Remove("Bert"); found {
		t.Error("one is gone that was not there")
	}
	third, _ := Load(path)
	if all := third.All(); len(all) != 1 || all[0].Target != "Anna" {
		t.Error(all)
	}
	if files, _ := filepath.Glob(filepath.Dir(path) + "/.bans-*"); len(files) > 0 {
		t.Error("left behind:", files)
	}
}

func TestNoFile(t *testing.T) {
	l, err := Load("")
	if err != nil || l.Add(Ban{Target: "Anna"}) != nil {
		t.Error(err)
	}
	if _, found := l.Name("Anna"); !found || l.Reload() != nil || len(l.All()) != 1 {
		t.Error("a ban without a file does not hold")
	}
	if l, err = Load(filepath.Join(t.TempDir(), "none")); err != nil || len(l.All()) != 0 {
		t.Error(err)
	}
	l, _ = Load(filepath.Join(t.TempDir(), "no", "folder"))
	if err := l.Add(Ban{Target: "Anna"}); err == nil {
		t.Error("nobody is told that the file is not written")
	}
	if _, found := l.Name("Anna"); !found {
		t.Error("a ban whose file is not written does not hold")
	}
}

func TestFilesRefused(t *testing.T) {
	for text, wanted := range map[string]string{
		"Anna -\nBert":              ":2: expected a name or an address, and until when or `-`",
		"a-b -":                     `:1: "a-b" is neither a name nor an IPv4 address[/bits]`,
		"::1 -":                     `:1: "::1" is neither a name nor an IPv4 address[/bits]`,
		"\n\nAnna 2026-13-01":       `:3: "2026-13-01" is no time as 2026-12-31T23:59:59Z, nor ` + "`-`",
		"10.0.0.0/33 -":             `:1: "10.0.0.0/33" is neither a name nor an IPv4 address[/bits]`,
		strings.Repeat("x", 70_000): "token too long",
	} {
		if _, err := Load(file(t, text)); err == nil || !strings.HasSuffix(err.Error(), wanted) {
			t.Errorf("%.40q: %v, wanted %s", text, err, wanted)
		}
	}
}

func TestDurations(t *testing.T) {
	for word, wanted := range map[string]time.Duration{"30s": 30 * time.Second, "90m": 90 * time.Minute,
		"12h": 12 * time.Hour, "7d": 168 * time.Hour, "2w": 336 * time.Hour, "": 0, "7": 0, "d": 0, "-1d": 0, "0d": 0,
		"7days": 0, "1.5h": 0, "7y": 0, "9999999w": 0} {
		if got, good := Duration(word); good != (wanted > 0) || good && got != wanted {
			t.Errorf("%q: %v, %v", word, got, good)
		}
	}
}
