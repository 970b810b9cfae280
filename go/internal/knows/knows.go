// Package knows asks a metad program which words its serve has. It is asked, not tried: a word that
// it lacks would end it, and one that it has would start it.
package knows

import (
	"context"
	"os/exec"
	"strings"
	"time"
)

// askMost is how long the program may take to tell its words.
const askMost = 10 * time.Second

// Words returns the words that a command has, which is a program and its word serve. Given no other
// words it prints its usage. A program that can't be asked has none.
func Words(ctx context.Context, command []string) map[string]bool {
	ctx, stop := context.WithTimeout(ctx, askMost)
	defer stop()
	usage, _ := exec.CommandContext(ctx, command[0], command[1:]...).CombinedOutput()
	return wordsIn(string(usage))
}

// wordsIn returns the words of serve in a usage. The words of other commands stand behind a bar.
func wordsIn(usage string) map[string]bool {
	words := map[string]bool{}
	for _, line := range strings.Split(usage, "\n") {
		at := strings.Index(line, "serve ")
		if at < 0 {
			continue
		}
		ofServe, _, _ := strings.Cut(line[at:], " | ")
		for _, found := range strings.Fields(ofServe) {
			if word := strings.Trim(found, "[]"); strings.HasPrefix(word, "--") {
				words[word] = true
			}
		}
	}
	return words
}
