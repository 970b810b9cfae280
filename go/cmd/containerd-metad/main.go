// Containerd-metad is containerd, built from its own packages, but with its metadata in metad. It
// has containerd's words, and --forget: remove at this start what is in lost/.
package main

import (
	"fmt"
	"os"

	"github.com/containerd/containerd/cmd/containerd/command"
	_ "github.com/containerd/containerd/diff/walking/plugin"
	_ "github.com/containerd/containerd/events/plugin"
	_ "github.com/containerd/containerd/gc/scheduler"
	"github.com/containerd/containerd/metadata"
	_ "github.com/containerd/containerd/metrics/cgroups"
	"github.com/containerd/containerd/plugin"
	_ "github.com/containerd/containerd/runtime/restart/monitor"
	_ "github.com/containerd/containerd/runtime/v2"
	_ "github.com/containerd/containerd/runtime/v2/runc/options"
	_ "github.com/containerd/containerd/services/containers"
	_ "github.com/containerd/containerd/services/content"
	_ "github.com/containerd/containerd/services/diff"
	_ "github.com/containerd/containerd/services/events"
	_ "github.com/containerd/containerd/services/healthcheck"
	_ "github.com/containerd/containerd/services/images"
	_ "github.com/containerd/containerd/services/introspection"
	_ "github.com/containerd/containerd/services/leases"
	_ "github.com/containerd/containerd/services/namespaces"
	_ "github.com/containerd/containerd/services/opt"
	"github.com/containerd/containerd/services/server/config"
	_ "github.com/containerd/containerd/services/snapshots"
	_ "github.com/containerd/containerd/services/tasks"
	_ "github.com/containerd/containerd/services/version"
	_ "github.com/containerd/containerd/snapshots/native/plugin"
	_ "github.com/containerd/containerd/snapshots/overlay/plugin"
	"github.com/urfave/cli"
)

func main() {
	app := command.App()
	app.Name = "containerd-metad"
	app.Flags = append(app.Flags, cli.BoolFlag{
		Name:  "forget",
		Usage: "remove the files of lost/ at this start",
	})
	serve := app.Action
	app.Action = func(c *cli.Context) error {
		if err := readSettings(c.GlobalString("config")); err != nil {
			return err
		}
		metadata.Settings.Forget = c.GlobalBool("forget")
		return cli.HandleAction(serve, c)
	}
	if err := app.Run(os.Args); err != nil {
		fmt.Fprintln(os.Stderr, "containerd-metad:", err)
		os.Exit(1)
	}
}

// readSettings reads how metad is started from containerd's config.toml, before containerd opens
// its store. What is wrong with the rest of the file containerd tells.
func readSettings(path string) error {
	var c config.Config
	if err := config.LoadConfig(path, &c); err != nil {
		if os.IsNotExist(err) {
			return nil
		}
		return err
	}
	_, err := c.Decode(&plugin.Registration{
		Type:   metadata.PluginType,
		ID:     metadata.PluginID,
		Config: &metadata.Settings,
	})
	return err
}
