// app is what the containers of the node run: with sleep it sleeps, else it says that it is alive.
package main

import (
	"fmt"
	"os"
	"time"
)

func main() {
	if len(os.Args) > 1 && os.Args[1] == "sleep" {
		time.Sleep(time.Hour)
	}
	fmt.Println("alive", os.Args[1:])
}
