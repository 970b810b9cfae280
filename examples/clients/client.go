// Talks with metad line by line: a request, its reply, the next request. go run client.go ./metad
package main

import (
	"bufio"
	"encoding/json"
	"fmt"
	"os"
	"os/exec"
	"strings"
)

type object = map[string]any

func must[T any](value T, err error) T {
	if err != nil {
		panic(err)
	}
	return value
}

func main() {
	metad := exec.Command(os.Args[1], "run")
	in, out := must(metad.StdinPipe()), must(metad.StdoutPipe())
	replies := bufio.NewReader(out) // no Scanner: a reply may be longer than its lines
	must(0, metad.Start())
	ask := func(request object) (reply object) {
		must(0, json.NewEncoder(in).Encode(request))
		must(0, json.Unmarshal(must(replies.ReadBytes('\n')), &reply))
		return reply
	}
	layer, stray := "sha256:"+strings.Repeat("1", 64), "sha256:"+strings.Repeat("2", 64)
	ask(object{"op": "ns.add", "ns": "default"})
	for _, digest := range []string{layer, stray} {
		ask(object{"op": "content.add", "ns": "default", "digest": digest})
	}
	ask(object{"op": "image.add", "ns": "default", "name": "app", "target": layer})
	fmt.Println("image tool:", ask(object{"op": "image.get", "ns": "default", "name": "tool"})["name"])
	for _, op := range []string{"gc.plan", "gc.run"} {
		report := ask(object{"op": op, "at": "2024-03-01T00:00:00Z"})["report"].(object)
		fmt.Printf("%s %q\n", op, report["backend"].(object)["blobs"])
	}
	fmt.Printf("content left: %q\n", ask(object{"op": "content.list", "ns": "default"})["names"])
	must(0, in.Close())
	must(0, metad.Wait())
}
