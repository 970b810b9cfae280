package serve

import (
	"fmt"
	"os"
	"os/user"
	"path/filepath"
	"strconv"
	"sync/atomic"
	"syscall"
)

const (
	firstHanded = 3    // the first descriptor that systemd hands on
	waitingMost = 1024 // connections that the system keeps until they are taken
	ownersOnly  = 0o177
	groupMode   = 0o660
	soProtocol  = 38 // SO_PROTOCOL and SO_DOMAIN, which the package syscall doesn't name
	soDomain    = 39
)

// A Refusal is why the front doesn't begin, and its status then.
type Refusal struct {
	Status int
	Reason string
}

func (r Refusal) Error() string { return r.Reason }

func refused(format string, more ...any) error {
	return Refusal{Words, fmt.Sprintf(format, more...)}
}

// A listener is a socket that clients connect to.
type listener struct {
	name   string
	path   string // its file; none of one that systemd hands on
	place  place  // which file that was
	file   *os.File
	raw    syscall.RawConn
	closed atomic.Bool
}

// place tells which file stands at a path.
type place struct{ device, inode uint64 }

func placeOf(path string) (place, bool) {
	var found syscall.Stat_t
	if syscall.Lstat(path, &found) != nil {
		return place{}, false
	}
	return place{uint64(found.Dev), found.Ino}, true
}

func newListener(descriptor int, name string) (*listener, error) {
	if err := syscall.SetNonblock(descriptor, true); err != nil {
		return nil, err
	}
	l := &listener{name: name, file: os.NewFile(uintptr(descriptor), name)}
	var err error
	l.raw, err = l.file.SyscallConn()
	return l, err
}

// accept waits for connections, and hands on those that there are.
func (l *listener) accept(comes func(int)) error {
	var fault error
	err := l.raw.Read(func(descriptor uintptr) bool {
		fault = acceptAll(int(descriptor), comes)
		return fault != syscall.EAGAIN
	})
	if err != nil {
		return err
	}
	return fault
}

// acceptWaiting hands on the connections that wait now.
func (l *listener) acceptWaiting(comes func(int)) {
	_ = l.raw.Control(func(descriptor uintptr) { _ = acceptAll(int(descriptor), comes) })
}

// acceptAll hands on connections until there are none, or the system refuses one.
func acceptAll(descriptor int, comes func(int)) error {
	for {
		connection, _, err := syscall.Accept4(descriptor, syscall.SOCK_NONBLOCK|syscall.SOCK_CLOEXEC)
		switch err {
		case nil:
			comes(connection)
		case syscall.EINTR, syscall.ECONNABORTED:
		default:
			return err
		}
	}
}

func (l *listener) isClosed() bool { return l.closed.Load() }

// close takes no more connections. The path goes, unless it is another's by now.
func (l *listener) close() {
	if l.closed.Swap(true) {
		return
	}
	if l.path != "" {
		release := hold(filepath.Dir(l.path))
		if found, there := placeOf(l.path); there && found == l.place {
			_ = os.Remove(l.path)
		}
		release()
	}
	_ = l.file.Close()
}

// hold keeps two fronts from looking at and changing a path of this folder at the same time. A
// folder that can't be read, or a file system without such locks, holds nothing.
func hold(folder string) (release func()) {
	lock, err := syscall.Open(folder, syscall.O_RDONLY|syscall.O_DIRECTORY|syscall.O_CLOEXEC, 0)
	if err != nil {
		return func() {}
	}
	_ = syscall.Flock(lock, syscall.LOCK_EX)
	return func() { _ = syscall.Close(lock) }
}

// addressOf is a path as an address. A leading @ would mean a name without a file.
func addressOf(path string) *syscall.SockaddrUnix {
	if path != "" && path[0] == '@' {
		path = "./" + path
	}
	return &syscall.SockaddrUnix{Name: path}
}

// isServed tells whether some process takes connections at a path.
func isServed(path string) (bool, error) {
	kind := syscall.SOCK_STREAM | syscall.SOCK_NONBLOCK | syscall.SOCK_CLOEXEC
	descriptor, err := syscall.Socket(syscall.AF_UNIX, kind, 0)
	if err != nil {
		return false, err
	}
	defer func() { _ = syscall.Close(descriptor) }()
	switch err := syscall.Connect(descriptor, addressOf(path)); err {
	case nil, syscall.EAGAIN, syscall.EPROTOTYPE: // full, or of another kind: served
		return true, nil
	case syscall.ECONNREFUSED, syscall.ENOENT:
		return false, nil
	default:
		return false, err
	}
}

// listen makes a socket at a path, for its owner alone or for a group too. One that a crash left
// there goes.
func listen(path, group string) (*listener, error) {
	number := -1
	if group != "" {
		var err error
		if number, err = groupNumber(group); err != nil {
			return nil, err
		}
	}
	defer hold(filepath.Dir(path))()
	if info, err := os.Lstat(path); err == nil {
		if info.Mode()&os.ModeSocket == 0 {
			return nil, refused("%s is there, and is no socket", path)
		}
		served, err := isServed(path)
		if err != nil {
			return nil, cannotMake(path, err)
		}
		if served {
			return nil, Refusal{Served, path + " is served by another process"}
		}
		if err := os.Remove(path); err != nil {
			return nil, cannotMake(path, err)
		}
	}
	l, err := bind(path, number)
	if err != nil {
		return nil, cannotMake(path, err)
	}
	return l, nil
}

func cannotMake(path string, err error) error {
	return refused("%s can't be made: %v", path, reasonOf(err))
}

// bind makes a new socket. Until its group is set nobody but the owner may connect.
func bind(path string, group int) (*listener, error) {
	descriptor, err := syscall.Socket(syscall.AF_UNIX, syscall.SOCK_STREAM|syscall.SOCK_CLOEXEC, 0)
	if err != nil {
		return nil, err
	}
	mask := syscall.Umask(ownersOnly)
	err = syscall.Bind(descriptor, addressOf(path))
	syscall.Umask(mask)
	if err == nil {
		err = syscall.Listen(descriptor, waitingMost)
	}
	if err == nil && group >= 0 {
		if err = os.Chown(path, -1, group); err == nil {
			err = os.Chmod(path, groupMode)
		}
	}
	var l *listener
	if err == nil {
		l, err = newListener(descriptor, path)
	}
	if err != nil {
		_ = syscall.Close(descriptor)
		return nil, err
	}
	l.path = path
	l.place, _ = placeOf(path)
	return l, nil
}

// groupNumber is the number of a group that is named, or given by its number.
func groupNumber(group string) (int, error) {
	if number, err := strconv.Atoi(group); err == nil && number >= 0 {
		return number, nil
	}
	found, err := user.LookupGroup(group)
	if err != nil {
		return 0, refused("there is no group %s", group)
	}
	return strconv.Atoi(found.Gid)
}

// handed are the sockets that systemd hands on to this process; none where it doesn't.
func handed() ([]*listener, error) {
	count, err := strconv.Atoi(os.Getenv("LISTEN_FDS"))
	if err != nil || os.Getenv("LISTEN_PID") != strconv.Itoa(os.Getpid()) {
		return nil, nil
	}
	var all []*listener
	for number := firstHanded; number < firstHanded+count; number++ {
		syscall.CloseOnExec(number)
		family, err := syscall.GetsockoptInt(number, syscall.SOL_SOCKET, soDomain)
		if err != nil {
			return nil, refused("descriptor %d, which systemd hands on, is no socket", number)
		}
		kind, _ := syscall.GetsockoptInt(number, syscall.SOL_SOCKET, syscall.SO_TYPE)
		listens, _ := syscall.GetsockoptInt(number, syscall.SOL_SOCKET, syscall.SO_ACCEPTCONN)
		if family != syscall.AF_UNIX || kind != syscall.SOCK_STREAM || listens != 1 {
			return nil, refused("descriptor %d is no Unix stream socket that listens", number)
		}
		name := "descriptor " + strconv.Itoa(number)
		if address, err := syscall.Getsockname(number); err == nil {
			if unix, ok := address.(*syscall.SockaddrUnix); ok && unix.Name != "" {
				name = unix.Name
			}
		}
		l, err := newListener(number, name)
		if err != nil {
			return nil, refused("descriptor %d: %v", number, reasonOf(err))
		}
		all = append(all, l)
	}
	return all, nil
}
