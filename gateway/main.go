// The gateway: the door that players come through to a lobby server. Called as rudderraisin_gatewayctl it gives
// orders to one that runs.
package main

import (
	"errors"
	"flag"
	"fmt"
	"net"
	"os"
	"os/signal"
	"path/filepath"
	"runtime/pprof"
	"syscall"
	"time"

	"rudderraisin/gateway/bans"
	"rudderraisin/gateway/control"
	"rudderraisin/gateway/door"
	"rudderraisin/gateway/journal"
	"rudderraisin/gateway/metrics"
	"rudderraisin/gateway/settings"
)

const (
	name    = "rudderraisin_gateway"
	ctlName = "rudderraisin_gatewayctl"
	stops   = 8 * time.Second // for clients to take what they are told last

	badSettings  = 2
	cannotListen = 3
)

var version = "unknown"

func main() {
	if filepath.Base(os.Args[0]) == ctlName {
		os.Exit(order(os.Args[1:]))
	}
	if len(os.Args) > 1 && os.Args[1] == "ctl" {
		os.Exit(order(os.Args[2:]))
	}
	os.Exit(run(os.Args[1:]))
}

// wants says whether the arguments ask for nothing but this.
func wants(arguments []string, word string) bool {
	return len(arguments) == 1 && (arguments[0] == "-"+word || arguments[0] == "--"+word)
}

func run(arguments []string) int {
	if wants(arguments, "version") {
		fmt.Println(name, version)
		return 0
	}
	usage := os.Stderr
	if wants(arguments, "help") || wants(arguments, "h") {
		usage = os.Stdout
	}
	s, err := settings.Load(name, arguments, usage)
	if errors.Is(err, flag.ErrHelp) {
		return 0
	}
	if err != nil {
		return fail(badSettings, err)
	}
	list, err := bans.Load(s.Bans)
	if err != nil {
		return fail(badSettings, err)
	}
	if s.Check {
		if err := door.Check(s); err != nil {
			return fail(badSettings, err)
		}
		return 0
	}
	log := journal.New(os.Stderr, s.LogRate)
	defer log.Close(time.Second)
	numbers := new(metrics.Metrics)
	house, err := door.New(s, log, numbers, list)
	if err != nil {
		return fail(badSettings, err)
	}
	if s.Profile != "" {
		defer profile(s.Profile)()
	}
	closeAll, err := listen(s, house, numbers)
	defer closeAll()
	if err != nil {
		return fail(cannotListen, fmt.Errorf("cannot listen: %w", err))
	}
	tellReady()
	attend(arguments, house, log)
	closeAll()
	house.Close(stops)
	return 0
}

func fail(status int, err error) int {
	fmt.Fprintln(os.Stderr, err)
	return status
}

// listen begins to take clients, orders and questions for numbers. What it gives ends that, also where it failed half
// way.
func listen(s *settings.Settings, house *door.House, numbers *metrics.Metrics) (closeAll func(), err error) {
	var listeners []net.Listener
	closeAll = func() {
		for _, listener := range listeners {
			listener.Close()
		}
	}
	doors := []struct {
		address string
		kind    door.Kind
	}{{s.Listen, door.STLS}, {s.TLS, door.TLS}, {s.Plain, door.Plain}}
	for _, d := range doors {
		if d.address == "" {
			continue
		}
		listener, err := house.Listen(d.address)
		if err != nil {
			return closeAll, err
		}
		listeners = append(listeners, listener)
		fmt.Println("listening at", listener.Addr())
		go house.Serve(listener, d.kind)
	}
	if s.Metrics != "" {
		listener, err := net.Listen("tcp4", s.Metrics)
		if err != nil {
			return closeAll, err
		}
		listeners = append(listeners, listener)
		fmt.Println("metrics at", listener.Addr())
		go servePage(listener, numbers)
	}
	if s.Control != "" {
		listener, err := control.Listen(s.Control)
		if err != nil {
			return closeAll, err
		}
		listeners = append(listeners, listener)
		go control.Serve(listener, house)
	}
	return closeAll, nil
}

// attend reloads at each SIGHUP, until a signal ends the gateway.
func attend(arguments []string, house *door.House, log *journal.Journal) {
	signals := make(chan os.Signal, 4)
	signal.Notify(signals, syscall.SIGHUP, syscall.SIGTERM, syscall.SIGINT)
	minute := time.NewTicker(time.Minute)
	defer minute.Stop()
	for {
		select {
		case <-minute.C:
			log.Tick()
		case got := <-signals:
			if got != syscall.SIGHUP {
				log.Tell("stop", "signal", got)
				return
			}
			s, err := settings.Load(name, arguments, os.Stderr)
			if err != nil {
				log.Tell("reload_refused", "why", err)
				continue
			}
			house.Reload(s)
		}
	}
}

// tellReady tells a service manager that waits for it that clients may come.
func tellReady() {
	path := os.Getenv("NOTIFY_SOCKET")
	if path == "" {
		return
	}
	if path[0] == '@' {
		path = "\x00" + path[1:]
	}
	if conn, err := net.Dial("unixgram", path); err == nil {
		conn.Write([]byte("READY=1"))
		conn.Close()
	}
}

// profile begins a profile of the processor time, and gives what ends it.
func profile(path string) func() {
	file, err := os.Create(path)
	if err == nil {
		err = pprof.StartCPUProfile(file)
	}
	if err != nil {
		fmt.Fprintln(os.Stderr, err)
		return func() {}
	}
	return func() {
		pprof.StopCPUProfile()
		file.Close()
	}
}

// order is rudderraisin_gatewayctl.
func order(arguments []string) int {
	if wants(arguments, "version") {
		fmt.Println(ctlName, version)
		return 0
	}
	set := flag.NewFlagSet(ctlName, flag.ContinueOnError)
	if wants(arguments, "help") || wants(arguments, "h") {
		set.SetOutput(os.Stdout)
	}
	path := set.String("control", settings.ControlPath, "`PATH` of the gateway's control socket")
	set.Usage = func() {
		fmt.Fprintf(set.Output(), "usage: %s [-control PATH] ORDER\n\n%s\n\n", ctlName, control.Usage)
		set.PrintDefaults()
	}
	if err := set.Parse(arguments); errors.Is(err, flag.ErrHelp) {
		return 0
	} else if err != nil {
		return badSettings
	}
	if set.NArg() == 0 {
		set.Usage()
		return badSettings
	}
	lines, good, err := control.Call(*path, set.Args())
	if err != nil {
		return fail(cannotListen, fmt.Errorf("cannot speak to the gateway: %w", err))
	}
	if good {
		for _, line := range lines {
			fmt.Println(line)
		}
		return 0
	}
	for _, line := range lines {
		fmt.Fprintln(os.Stderr, line)
	}
	return 1
}
