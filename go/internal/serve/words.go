package serve

import (
	"context"
	"errors"
	"flag"
	"fmt"
	"io"
	"math"
	"os"
	"os/signal"
	"runtime"
	"strconv"
	"syscall"
	"time"

	"metad/internal/knows"
)

// spare is how many files are open beside the clients': pipes, listeners, the poller.
const spare = 32

const usage = "usage: metad-serve [--socket PATH [--group GROUP]] [--idle SECONDS] " +
	"[--metrics ADDRESS]\n" +
	"                   [--moment] (--dir DIR [--workers N] [--checkpoint] [--new] " +
	"[--accept-loss]\n" +
	"                    [--clock SECONDS] [--program FILE] | [--numbered] -- COMMAND ..)\n"

const help = `
Each connection sends lines and gets a reply to each, in its order. Without --socket systemd hands
the socket on (LISTEN_FDS). With a COMMAND that program answers, in place of metad serve --dir DIR.
SIGTERM, SIGINT and SIGHUP end the front once all that was sent is answered. Status 0: it was asked
to end; 2: other words, or a socket that can't be made; 4: the socket or the folder is served
already; else that of the service, 128 and its number where a signal ended that. docs/SERVICE.md
has more.

  --socket PATH      the Unix socket on which clients come
  --group GROUP      its members may connect too; without it the owner alone
  --idle SECONDS     a client that sends and takes nothing for so long is cut off
  --metrics ADDRESS  counts in Prometheus' text, at http://ADDRESS/metrics, on loopback alone
  --moment           a line that wants a member "at" and has none gets the front's moment
  --dir DIR          the folder of the store
  --workers N        so many threads mark and sweep; 1 without
  --checkpoint       the service writes one first
  --new              the service makes a new store
  --accept-loss      the service serves the lines that are left if a disk lost some
  --clock SECONDS    as --moment, and the service refuses moments farther from its clock than that
  --program FILE     the metad that answers; without it the one on the path
  --numbered         COMMAND begins each reply with its line's number and a space
`

// Options say what a front serves, and how.
type Options struct {
	Command  []string // the program that answers, and its words
	Numbered bool     // each of its replies begins with its line's number and a space
	Folder   string   // the store's folder, where it is known
	Clients  int      // how many are served at once
	Idle     time.Duration
	Clock    func() time.Time // tells the moment of lines that want one and have none; or nil
}

// asked is what the words of the command line say.
type asked struct {
	socket, group, metrics string
	dir, workers, program  string
	clock                  string
	idle                   float64
	checkpoint, isNew      bool
	acceptsLoss            bool
	numbered, moment       bool
	command                []string
	hasCommand             bool
}

// Main serves as these words say, and returns the status of the process. It wants to be called on
// the main thread, locked to it.
func Main(words []string) int {
	status, err := serveBy(words)
	var refusal Refusal
	switch {
	case err == nil:
		return status
	case errors.As(err, &refusal):
		tell("%s", refusal.Reason)
		return refusal.Status
	default:
		tell("%v", err)
		return Failed
	}
}

func serveBy(words []string) (int, error) {
	runtime.GOMAXPROCS(1) // it moves bytes: threads beside each other only wait for each other
	it, err := read(words)
	if errors.Is(err, flag.ErrHelp) {
		fmt.Print(usage + help)
		return Done, nil
	}
	if err != nil {
		return Words, err
	}
	options, err := it.options()
	if err != nil {
		return Words, err
	}
	signals := make(chan os.Signal, 8)
	signal.Notify(signals, syscall.SIGTERM, syscall.SIGINT)
	if !signal.Ignored(syscall.SIGHUP) {
		signal.Notify(signals, syscall.SIGHUP)
	}
	// a write to who has left fails, and nothing more
	signal.Notify(make(chan os.Signal, 1), syscall.SIGPIPE)
	listeners, err := it.listeners()
	if err != nil {
		return Words, err
	}
	front := newFront(options, listeners)
	if it.metrics != "" {
		l, err := listenForMetrics(it.metrics)
		if err != nil {
			front.closeListeners()
			return Words, err
		}
		go front.serveMetrics(l)
	}
	return front.serve(signals), nil
}

// read reads the words.
func read(words []string) (asked, error) {
	var it asked
	for at, word := range words {
		if word == "--" {
			it.command, it.hasCommand = words[at+1:], true
			words = words[:at]
			break
		}
	}
	flags := flag.NewFlagSet("metad-serve", flag.ContinueOnError)
	flags.SetOutput(io.Discard)
	flags.StringVar(&it.socket, "socket", "", "")
	flags.StringVar(&it.group, "group", "", "")
	flags.StringVar(&it.metrics, "metrics", "", "")
	flags.StringVar(&it.dir, "dir", "", "")
	flags.StringVar(&it.workers, "workers", "", "")
	flags.StringVar(&it.program, "program", "", "")
	flags.StringVar(&it.clock, "clock", "", "")
	flags.Float64Var(&it.idle, "idle", math.Inf(1), "")
	flags.BoolVar(&it.checkpoint, "checkpoint", false, "")
	flags.BoolVar(&it.isNew, "new", false, "")
	flags.BoolVar(&it.acceptsLoss, "accept-loss", false, "")
	flags.BoolVar(&it.numbered, "numbered", false, "")
	flags.BoolVar(&it.moment, "moment", false, "")
	if err := flags.Parse(words); err != nil {
		if errors.Is(err, flag.ErrHelp) {
			return it, err
		}
		return it, refused("%v (metad-serve --help)", err)
	}
	if flags.NArg() > 0 {
		return it, refused("%s: no such word (metad-serve --help)", flags.Arg(0))
	}
	return it, nil
}

// options are what the front does, and the program that answers: the COMMAND, or metad.
func (it asked) options() (Options, error) {
	options := Options{Folder: it.dir, Clients: clientsMost()}
	if it.idle <= 0 || it.idle > 1e9 && !math.IsInf(it.idle, 1) || math.IsNaN(it.idle) {
		return options, refused("--idle wants a number of seconds")
	}
	if !math.IsInf(it.idle, 1) {
		options.Idle = time.Duration(it.idle * float64(time.Second))
	}
	if it.moment || it.clock != "" {
		options.Clock = time.Now
	}
	if it.hasCommand {
		ofStore := it.dir+it.workers+it.program+it.clock != "" || it.checkpoint || it.isNew ||
			it.acceptsLoss
		if ofStore || len(it.command) == 0 {
			return options, refused("a COMMAND stands behind --, and then no word of the store")
		}
		options.Command, options.Numbered = it.command, it.numbered
		return options, nil
	}
	if it.dir == "" {
		return options, refused("--dir DIR or a COMMAND is wanted (metad-serve --help)")
	}
	if it.numbered {
		return options, refused("--numbered is of a COMMAND: metad is asked whether it numbers")
	}
	program := it.program
	if program == "" {
		program = "metad"
	}
	options.Command = []string{program, "serve", "--dir", it.dir}
	if it.workers != "" {
		options.Command = append(options.Command, "--workers", it.workers)
	}
	if it.checkpoint {
		options.Command = append(options.Command, "--checkpoint")
	}
	if it.isNew {
		options.Command = append(options.Command, "--new")
	}
	if it.acceptsLoss {
		options.Command = append(options.Command, "--accept-loss")
	}
	known := knows.Words(context.Background(), options.Command[:2])
	if it.clock != "" {
		if !known["--clock"] {
			return options, refused("--clock: %s serve doesn't know this word", program)
		}
		options.Command = append(options.Command, "--clock", it.clock)
	}
	if options.Numbered = known["--numbered"]; options.Numbered {
		options.Command = append(options.Command, "--numbered")
	}
	return options, nil
}

// listeners are the sockets of the words, or systemd's.
func (it asked) listeners() ([]*listener, error) {
	all, err := handed()
	if err != nil {
		return nil, err
	}
	if len(all) > 0 {
		if it.socket != "" || it.group != "" {
			return nil, refused("systemd hands a socket on, so --socket and --group aren't wanted")
		}
		return all, nil
	}
	if it.socket == "" {
		return nil, refused("--socket PATH is wanted, or a socket of systemd")
	}
	one, err := listen(it.socket, it.group)
	return []*listener{one}, err
}

// clientsMost is how many clients this process has descriptors for, at most ClientsMost.
func clientsMost() int {
	var limit syscall.Rlimit
	if syscall.Getrlimit(syscall.RLIMIT_NOFILE, &limit) != nil {
		return ClientsMost
	}
	if wanted := uint64(ClientsMost + spare); limit.Cur < wanted {
		limit.Cur = limit.Max
		if limit.Cur > wanted {
			limit.Cur = wanted
		}
		_ = syscall.Setrlimit(syscall.RLIMIT_NOFILE, &limit)
		if limit.Cur < wanted {
			most := 1
			if limit.Cur > spare {
				most = int(limit.Cur - spare)
			}
			tell("at most %d clients: %s files may be open", most,
				strconv.FormatUint(limit.Cur, 10))
			return most
		}
	}
	return ClientsMost
}
