package metadata

import (
	"context"
	"errors"
	"fmt"
	"os"
	"os/exec"
	"path/filepath"
	"strconv"
	"strings"

	"github.com/containerd/containerd/log"
	"github.com/containerd/containerd/plugin"

	"metad/metad"
)

// PluginType and PluginID name the settings in containerd's config.toml:
// [plugins."io.metad.v1.store"].
const (
	PluginType plugin.Type = "io.metad.v1"
	PluginID               = "store"
)

// Config is how metad is started, and where its store is.
type Config struct {
	// Command is the program that keeps the store, with its first words.
	Command []string `toml:"command"`
	// Folder is that of the store, else "metad" in containerd's root.
	Folder string `toml:"folder"`
	// Workers is how many threads mark and sweep, 1 to 16.
	Workers int `toml:"workers"`
	// Clock is how many seconds the moment of a line may be from the clock of the program, where that
	// has the word --clock. 0 allows each moment.
	Clock int `toml:"clock"`
	// Questions is the socket on which metad-why asks, else "metad.sock" in containerd's root.
	Questions string `toml:"questions"`
	// Forget removes at this start what is in lost/.
	Forget bool `toml:"-"`
}

// day is the seconds for which the store keeps an ingest that no lease holds, and containerd's client
// the lease of a pull. A wrong moment that is nearer ends only what had less than a day left. Each
// line of the daemon has its own clock's moment, which is that of the program's machine: so its
// lines are refused only where the clock is moved by a day, or the machine sleeps for a day, while
// they wait for their replies.
const day = 24 * 60 * 60

// Settings are those of this process. They are read before containerd opens its store.
var Settings = Config{Command: []string{"metad", "serve"}, Workers: 1, Clock: day}

// Containerd prints these settings with those of its plugins. The plugin itself does nothing.
func init() {
	plugin.Register(&plugin.Registration{
		Type:   PluginType,
		ID:     PluginID,
		Config: &Settings,
		InitFn: func(ic *plugin.InitContext) (any, error) {
			ic.Meta.Exports = map[string]string{"command": fmt.Sprint(Settings.Command)}
			return &Settings, nil
		},
	})
}

func (c Config) folder(root string) string {
	if c.Folder != "" {
		return c.Folder
	}
	return filepath.Join(root, "metad")
}

func (c Config) socket(root string) string {
	if c.Questions != "" {
		return c.Questions
	}
	return filepath.Join(root, "metad.sock")
}

// start starts the program over its folder. It makes a store first if there is none, but not beside
// what another store has left: traces names something of that, if there is any. A first start that
// was cut may have made a part of a store.
func (c Config) start(ctx context.Context, root string,
	traces func() (string, error)) (*metad.Client, error) {
	if len(c.Command) == 0 {
		return nil, errors.New(`command of [plugins."io.metad.v1.store"] names no program`)
	}
	folder := c.folder(root)
	stored, err := hasStore(folder)
	if err != nil {
		return nil, err
	}
	trace, err := traces()
	if err != nil {
		return nil, err
	}
	if trace != "" && !stored {
		return nil, fmt.Errorf("%s has no store, and a store has left %s: put it back, or begin in a new root",
			folder, trace)
	}
	if trace == "" {
		if err := os.MkdirAll(folder, 0700); err != nil {
			return nil, err
		}
		if err := c.makeStore(ctx, folder); err != nil {
			return nil, err
		}
	}
	return metad.StartService(ctx, c.Command, c.Clock,
		"--dir", folder, "--workers", strconv.Itoa(c.Workers))
}

// hasStore says whether a folder has a file of a store.
func hasStore(folder string) (bool, error) {
	files, err := os.ReadDir(folder)
	if err != nil && !errors.Is(err, os.ErrNotExist) {
		return false, err
	}
	for _, file := range files {
		if strings.HasPrefix(file.Name(), "metad.journal") {
			return true, nil
		}
	}
	return false, nil
}

// These are how a metad program ends to words that it doesn't know, and if it can't make a store
// where one is already: what is wrong with that one it tells when it serves it.
const (
	usage   = 2
	isThere = 3
)

// makeStore has the program make a store by its word for that. A program that has none makes it
// when it serves a folder without a store.
func (c Config) makeStore(ctx context.Context, folder string) error {
	for _, words := range [][]string{
		append(append([]string{}, c.Command[1:]...), "--new", "--dir", folder),
		{"new", "--dir", folder},
	} {
		output, err := exec.CommandContext(ctx, c.Command[0], words...).CombinedOutput()
		var exit *exec.ExitError
		if errors.As(err, &exit) && exit.ExitCode() == usage {
			continue
		}
		if errors.As(err, &exit) && exit.ExitCode() == isThere {
			return nil
		}
		if err != nil {
			return fmt.Errorf("no store is made in %s: %w: %s", folder, err, output)
		}
		log.G(ctx).Infof("a store is made in %s", folder)
		return nil
	}
	return nil
}
