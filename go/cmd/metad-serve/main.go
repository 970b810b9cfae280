// Command metad-serve takes many clients on a Unix socket, in front of one metad serve:
// metad-serve --help, docs/SERVICE.md.
package main

import (
	"os"
	"runtime"
	"syscall"

	"metad/internal/serve"
)

// The main thread starts the service, which the system kills once that thread is gone.
func init() { runtime.LockOSThread() }

func main() {
	for descriptor := 0; descriptor < 3; descriptor++ { // none of these becomes a socket
		_, _, fault := syscall.Syscall(syscall.SYS_FCNTL, uintptr(descriptor), syscall.F_GETFD, 0)
		if fault == syscall.EBADF {
			_, _ = syscall.Open(os.DevNull, syscall.O_RDWR, 0)
		}
	}
	os.Exit(serve.Main(os.Args[1:]))
}
