package serve

import (
	"errors"
	"io"
	"os"
	"os/exec"
	"strings"
	"sync"
	"syscall"
	"time"
)

// patience is how long a service that was told to end by a signal may take.
const patience = 5 * time.Second

// A service is a run of the program that answers lines.
type service struct {
	process *exec.Cmd
	lines   io.WriteCloser
	replies io.ReadCloser
	ends    sync.Once
}

// startService starts the program in a session of its own, so that a terminal's signals reach the
// front alone. If the front is killed the system kills the service: so a line that takes long keeps
// no folder from the next front. That holds as long as the calling thread lives.
func startService(command []string) (*service, error) {
	process := exec.Command(command[0], command[1:]...)
	process.Stderr = os.Stderr
	process.Env = environment()
	process.SysProcAttr = &syscall.SysProcAttr{Setsid: true, Pdeathsig: syscall.SIGKILL}
	lines, err := process.StdinPipe()
	if err != nil {
		return nil, err
	}
	replies, err := process.StdoutPipe()
	if err != nil {
		return nil, err
	}
	if err := process.Start(); err != nil {
		return nil, reasonOf(err)
	}
	return &service{process: process, lines: lines, replies: replies}, nil
}

// reasonOf is the system's own word for a fault, where there is one.
func reasonOf(err error) error {
	var number syscall.Errno
	if errors.As(err, &number) {
		return number
	}
	return err
}

// environment is the front's, but for what systemd says to the front alone.
func environment() []string {
	var kept []string
	for _, entry := range os.Environ() {
		if !strings.HasPrefix(entry, "LISTEN_") && !strings.HasPrefix(entry, "NOTIFY_SOCKET=") {
			kept = append(kept, entry)
		}
	}
	return kept
}

// end ends its input: it ends once that is answered.
func (s *service) end() {
	s.ends.Do(func() { _ = s.lines.Close() })
}

// terminate ends it at once, as by a crash.
func (s *service) terminate() {
	_ = s.process.Process.Signal(syscall.SIGTERM)
	time.AfterFunc(patience, func() { _ = s.process.Process.Kill() })
}

// wait returns how it ended; its output must have been read to the end.
func (s *service) wait() int {
	_ = s.process.Wait()
	status, isUnix := s.process.ProcessState.Sys().(syscall.WaitStatus)
	if isUnix && status.Signaled() {
		return signalled + int(status.Signal())
	}
	return s.process.ProcessState.ExitCode()
}
