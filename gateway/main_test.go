package main

import (
	"bufio"
	"bytes"
	"io"
	"net"
	"net/http"
	"os"
	"os/exec"
	"path/filepath"
	"strings"
	"syscall"
	"testing"
	"time"
)

// build makes the program once, under both of its names.
func build(t *testing.T) (folder string) {
	t.Helper()
	folder = t.TempDir()
	made := exec.Command("go", "build", "-o", filepath.Join(folder, name), ".")
	if said, err := made.CombinedOutput(); err != nil {
		t.Fatalf("%v: %s", err, said)
	}
	if err := os.Link(filepath.Join(folder, name), filepath.Join(folder, ctlName)); err != nil {
		t.Fatal(err)
	}
	return folder
}

// ends runs a program, and gives its status and what it said.
func ends(t *testing.T, path string, arguments ...string) (status int, said, complaint string) {
	t.Helper()
	command := exec.Command(path, arguments...)
	var out, errors bytes.Buffer
	command.Stdout, command.Stderr = &out, &errors
	if err := command.Start(); err != nil {
		t.Fatal(err)
	}
	timer := time.AfterFunc(30*time.Second, func() { command.Process.Kill() })
	defer timer.Stop()
	command.Wait()
	return command.ProcessState.ExitCode(), out.String(), errors.String()
}

func TestProgram(t *testing.T) {
	folder := build(t)
	gateway, ctl := filepath.Join(folder, name), filepath.Join(folder, ctlName)
	busy, err := net.Listen("tcp4", "127.0.0.1:0")
	if err != nil {
		t.Fatal(err)
	}
	defer busy.Close()
	taken := busy.Addr().String()
	config := filepath.Join(folder, "gateway.conf")
	os.WriteFile(config, []byte("plain = 127.0.0.1:0\nserver = "+taken+"\nlinse = 5\n"), 0o600)
	badBans := filepath.Join(folder, "bad")
	os.WriteFile(badBans, []byte("Anna\n"), 0o600)
	good := []string{"-plain", "127.0.0.1:0", "-server", taken}
	for _, c := range []struct {
		arguments []string
		status    int
		out, err  string // how they begin
	}{
		{[]string{"--help"}, 0, "usage: " + name, ""},
		{[]string{"-version"}, 0, name + " unknown\n", ""},
		{[]string{}, 2, "", "nothing to listen at"},
		{[]string{"-dance"}, 2, "", "flag provided but not defined: -dance"},
		{[]string{config}, 2, "", config + `:3: unknown key "linse"`},
		{append(good, "-lines", "x"), 2, "", `invalid value "x" for flag -lines: expected a whole number`},
		{append(good, "-bans", badBans), 2, "", badBans + ":1: expected"},
		{append(good, "-tls", "127.0.0.1:0", "-cert", "/dev/null", "-key", "/dev/null"), 2, "",
			"cannot use the certificate and its key: "},
		{append(good, "-check"), 0, "", ""},
		{append(good, "-check", "-cert", "/dev/null"), 2, "", "cannot use the certificate and its key: "},
		{append(good, "-check", "-bans", badBans), 2, "", badBans + ":1: expected"},
		{[]string{"-plain", taken, "-server", taken}, 3, "", "cannot listen: "},
		{append(good, "-metrics", taken), 3, "listening at 127.0.0.1:", "cannot listen: "},
		{append(good, "-control", folder+"/no/folder"), 3, "listening at 127.0.0.1:", "cannot listen: "},
		{[]string{"ctl", "-control", folder + "/none", "list"}, 3, "", "cannot speak to the gateway: "},
		{[]string{"ctl"}, 2, "", "usage: " + ctlName},
	} {
		status, out, complaint := ends(t, gateway, c.arguments...)
		isSaid := strings.HasPrefix(out, c.out) && (c.out != "" || out == "") && strings.Contains(complaint, c.err)
		if status != c.status || !isSaid {
			t.Errorf("%q: %d, %q, %q", c.arguments, status, out, complaint)
		}
	}
	for _, c := range []struct {
		arguments []string
		status    int
		out       string
	}{
		{[]string{"--help"}, 0, "usage: " + ctlName},
		{[]string{"--version"}, 0, ctlName + " unknown\n"},
		{[]string{"-dance"}, 2, ""},
	} {
		if status, out, _ := ends(t, ctl, c.arguments...); status != c.status || !strings.HasPrefix(out, c.out) {
			t.Errorf("%q: %d, %q", c.arguments, status, out)
		}
	}
}

// serve greets whoever comes, and answers nothing.
func serve(t *testing.T) string {
	t.Helper()
	listener, err := net.Listen("tcp4", "127.0.0.1:0")
	if err != nil {
		t.Fatal(err)
	}
	t.Cleanup(func() { listener.Close() })
	go func() {
		for {
			conn, err := listener.Accept()
			if err != nil {
				return
			}
			io.WriteString(conn, "TASSERVER 0.38 * 8201 0\n")
			go io.Copy(conn, conn)
		}
	}()
	return listener.Addr().String()
}

// SIGHUP takes a new text without ending anybody, a bad file leaves all as it was, and SIGTERM ends in order.
func TestSignals(t *testing.T) {
	folder := build(t)
	config, control := filepath.Join(folder, "gateway.conf"), filepath.Join(folder, "control")
	write := func(more string) {
		text := "plain = 127.0.0.1:0\nmetrics = 127.0.0.1:0\nserver = " + serve(t) +
			"\ncontrol = " + control + "\n" + more
		if err := os.WriteFile(config, []byte(text), 0o600); err != nil {
			t.Fatal(err)
		}
	}
	write("")
	command := exec.Command(filepath.Join(folder, name), config)
	out, err := command.StdoutPipe()
	if err != nil {
		t.Fatal(err)
	}
	errors, err := command.StderrPipe()
	if err != nil {
		t.Fatal(err)
	}
	ready, err := net.ListenUnixgram("unixgram", &net.UnixAddr{Name: folder + "/notify", Net: "unixgram"})
	if err != nil {
		t.Fatal(err)
	}
	defer ready.Close()
	command.Env = append(os.Environ(), "NOTIFY_SOCKET="+folder+"/notify")
	if err := command.Start(); err != nil {
		t.Fatal(err)
	}
	defer command.Process.Kill()
	timer := time.AfterFunc(60*time.Second, func() { command.Process.Kill() })
	defer timer.Stop()
	told := bufio.NewReader(out)
	place := func(prefix string) string {
		line, _ := told.ReadString('\n')
		return strings.TrimPrefix(strings.TrimSpace(line), prefix)
	}
	address, page := place("listening at "), place("metrics at ")
	word := make([]byte, 99)
	if count, err := ready.Read(word); err != nil || string(word[:count]) != "READY=1" {
		t.Errorf("the service manager is told %q, %v", word[:count], err)
	}
	conn, err := net.Dial("tcp4", address)
	if err != nil {
		t.Fatal(err)
	}
	conn.SetDeadline(time.Now().Add(30 * time.Second))
	lines, log := bufio.NewReader(conn), bufio.NewReader(errors)
	reads := func(from *bufio.Reader, wanted string) {
		t.Helper()
		if line, err := from.ReadString('\n'); !strings.HasPrefix(line, wanted) {
			t.Errorf("%q, %v, wanted %q", line, err, wanted)
		}
	}
	reads(lines, "TASSERVER")
	io.WriteString(conn, "hello\n")
	reads(lines, "hello\n")
	command.Process.Signal(syscall.SIGHUP)
	reads(log, "reloaded\n")
	write("lines = many\n")
	command.Process.Signal(syscall.SIGHUP)
	reads(log, "reload_refused why="+config+`:5: bad value "many" of "lines"`)
	io.WriteString(conn, "still here\n")
	reads(lines, "still here\n")
	status, said, _ := ends(t, filepath.Join(folder, ctlName), "-control", control, "who")
	if status != 0 || !strings.HasPrefix(said, "- 127.0.0.1:") {
		t.Errorf("who: %d, %q", status, said)
	}
	if answer, err := http.Get("http://" + page + "/metrics"); err != nil {
		t.Error(err)
	} else {
		text, _ := io.ReadAll(answer.Body)
		answer.Body.Close()
		if !strings.Contains(string(text), "\nrudderraisin_gateway_connections 1\n") ||
			!strings.HasPrefix(answer.Header.Get("Content-Type"), "text/plain; version=0.0.4") {
			t.Errorf("the numbers are %v %s", answer.Header, text)
		}
	}
	command.Process.Signal(syscall.SIGTERM)
	reads(log, "stop signal=terminated\n")
	reads(lines, "SERVERMSG The gateway is stopped\n")
	conn.Close()
	if err := command.Wait(); err != nil {
		t.Error("it ends with", err)
	}
	if _, err := os.Stat(control); err == nil {
		t.Error("the socket is left behind")
	}
}
