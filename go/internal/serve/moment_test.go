package serve

import (
	"strings"
	"testing"
	"time"
)

func TestWhichLinesGetAMoment(t *testing.T) {
	now := time.Date(2024, 3, 1, 13, 0, 0, 5, time.FixedZone("", 3600))
	at := `,"at":"2024-03-01T12:00:00.000000005Z"`
	longest := `{"op":"gc.run","x":"` + strings.Repeat("y", lineMost-60) + `"`
	long := `{"op":"gc.run","x":"` + strings.Repeat("y", lineMost-59) + `"}`
	for line, wanted := range map[string]string{
		`{"op":"gc.run"}`:                    `{"op":"gc.run"` + at + `}`,
		"\t{ \"op\" : \"gc.plan\" } \r":      "\t{ \"op\" : \"gc.plan\" " + at + "} \r",
		`{"ns":"x","op":"ingest.begin"}`:     `{"ns":"x","op":"ingest.begin"` + at + `}`,
		`{"ns":"x","op":"ingest.open"}`:      `{"ns":"x","op":"ingest.open"` + at + `}`,
		`{"op":"gc.explain","ns":{"at":1}}`:  `{"op":"gc.explain","ns":{"at":1}` + at + `}`,
		`{"op":"gc.run","x":"}"}`:            `{"op":"gc.run","x":"}"` + at + `}`,
		`{"op":"gc.run","at":""}`:            "",
		`{"at":null,"op":"gc.run"}`:          "",
		`{"op":"gc.run","\u0061t":"2024"}`:   "",
		`{"op":"image.remove","name":"x"}`:   "",
		`{"op":"image.remove","sync":""}`:    "",
		`{"op":"gc.run","op":"image.list"}`:  "",
		`{"op":"gc.run"`:                     "",
		`{"op":"gc.run"} x`:                  "",
		`["gc.run"]`:                         "",
		`{}`:                                 "",
		`x`:                                  "",
		longest + "}":                        longest + at + "}",
		long:                                 "",
		`{"op":"gc.run","x":"` + `y` + `"}`:  `{"op":"gc.run","x":"y"` + at + `}`,
		long + strings.Repeat(" ", lineMost): "",
	} {
		if wanted == "" {
			wanted = line
		}
		got, room := withRoom([]byte("before"), []byte(line), requestOf([]byte(line)))
		if room >= 0 {
			putMoment(got[room:], now)
		}
		if string(got) != "before"+wanted || (room >= 0) != (wanted != line) {
			t.Errorf("%.80q becomes %.120q", line, got)
		}
	}
}

func TestRunsHaveTheSizesOfLinesWithAMoment(t *testing.T) {
	var all cutLines
	c := cutter{moments: true}
	c.cut([]byte("\n{\"op\":\"gc.run\"}\nx\n"), &all)
	wanted := `{"op":"gc.run","at":"` + noMoment + `"}` + "\n"
	if string(all.text) != wanted+"x\n" || len(all.runs) != 2 || all.runs[0].size != len(wanted) ||
		len(all.moments) != 1 || all.text[all.moments[0]-1] != '"' {
		t.Errorf("%q, %+v, %v", all.text, all.runs, all.moments)
	}
}

// Lines come on one day, and are handed on later: each gets the moment of its turn.
func TestALineGetsTheMomentAtWhichItIsHandedOn(t *testing.T) {
	day := 1
	today := func() time.Time { return time.Date(2024, 3, day, 0, 0, 0, 0, time.UTC) }
	front := newFront(Options{Clock: today}, nil)
	c := newClient(front, nil, nil)
	const begin, run = `{"op":"ingest.begin","ref":"a"`, `{"op":"gc.run"`
	for _, text := range []string{begin + "}\n" + run + "}\n" + begin + "}\nx\n" + begin,
		`,"at":"its"}` + "\n\n" + begin + "}\n"} {
		var lines cutLines
		c.cutter.cut([]byte(text), &lines)
		c.takes(lines)
	}
	for _, lines := range [][]string{
		{begin + `,"at":"NOW"}`},
		{run + `,"at":"NOW"}`}, // its reply may be long, so it goes alone
		{begin + `,"at":"NOW"}`, "x", begin + `,"at":"its"}`, begin + `,"at":"NOW"}`},
		nil,
	} {
		day++
		want := ""
		for _, line := range lines {
			want += strings.ReplaceAll(line, "NOW", today().Format(momentForm)) + "\n"
		}
		if got := string(front.takeTurns(nil)); got != want {
			t.Errorf("handed on %q, want %q", got, want)
		}
		c.answered(c.owed, c.weight)
		front.wantsTurn(c)
	}
}
