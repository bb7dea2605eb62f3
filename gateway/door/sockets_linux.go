package door

import (
	"net"
	"syscall"
	"time"
)

const (
	tcpUserTimeout = 18 // TCP_USER_TIMEOUT, which the package syscall does not name
	backlog        = 4096
)

// prepare has the system give up a machine that answers nothing for this time, whether anything is said to it or not.
func prepare(dead time.Duration) func(network, address string, raw syscall.RawConn) error {
	seconds := int(dead / time.Second)
	between := seconds/9 + 1
	options := [][3]int{
		{syscall.SOL_SOCKET, syscall.SO_KEEPALIVE, 1},
		{syscall.IPPROTO_TCP, syscall.TCP_KEEPIDLE, seconds/3 + 1},
		{syscall.IPPROTO_TCP, syscall.TCP_KEEPINTVL, between},
		{syscall.IPPROTO_TCP, syscall.TCP_KEEPCNT, 9},
		{syscall.IPPROTO_TCP, tcpUserTimeout, int(dead / time.Millisecond)},
	}
	return func(_, _ string, raw syscall.RawConn) (failed error) {
		err := raw.Control(func(file uintptr) {
			for _, option := range options {
				err := syscall.SetsockoptInt(int(file), option[0], option[1], option[2])
				if err != nil && failed == nil {
					failed = err
				}
			}
		})
		if failed == nil {
			failed = err
		}
		return failed
	}
}

// widen lets more clients wait to be taken than Go asks for where it cannot read how many the system allows.
func widen(listener *net.TCPListener) {
	if raw, err := listener.SyscallConn(); err == nil {
		raw.Control(func(file uintptr) { syscall.Listen(int(file), backlog) })
	}
}
