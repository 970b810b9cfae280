package knows

import (
	"context"
	"os"
	"path/filepath"
	"testing"
)

func TestWhichWordsAUsageHas(t *testing.T) {
	const today = "usage: metad serve --dir DIR [--new] [--workers 1..16] [--checkpoint] | " +
		"new --dir DIR | check --dir DIR --numbered\n"
	const later = "usage: metad serve --dir DIR [--new] [--clock SECONDS] [--numbered] | new --dir DIR\n"
	for _, it := range []struct {
		usage, word string
		want        bool
	}{
		{today, "--new", true}, {today, "--dir", true}, {today, "--numbered", false},
		{today, "--clock", false}, {today, "--ne", false}, {today, "new", false},
		{later, "--numbered", true}, {later, "--clock", true}, {"", "--numbered", false},
		{"a line\n" + later, "--clock", true}, {later, "SECONDS", false}, {"serve", "serve", false},
		{"numbered: --numbered\n", "--numbered", false},
	} {
		if got := wordsIn(it.usage)[it.word]; got != it.want {
			t.Errorf("%q has %s: %v", it.usage, it.word, got)
		}
	}
}

func TestAProgramIsAsked(t *testing.T) {
	program := filepath.Join(t.TempDir(), "program")
	text := "#!/bin/sh\n[ \"$*\" = serve ] || exit 3\necho 'usage: x serve [--numbered]' >&2\nexit 2\n"
	if err := os.WriteFile(program, []byte(text), 0o700); err != nil {
		t.Fatal(err)
	}
	ctx := context.Background()
	if words := Words(ctx, []string{program, "serve"}); !words["--numbered"] || len(words) != 1 {
		t.Errorf("%v, want --numbered", words)
	}
	for _, command := range [][]string{{program, "other"}, {program + ".gone", "serve"}} {
		if words := Words(ctx, command); len(words) != 0 {
			t.Errorf("%v has %v", command, words)
		}
	}
	ended, end := context.WithCancel(ctx)
	end()
	if words := Words(ended, []string{program, "serve"}); len(words) != 0 {
		t.Errorf("a program is asked though the context has ended: %v", words)
	}
}
