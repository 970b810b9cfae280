package serve

import (
	"bytes"
	"math/rand"
	"testing"
)

// the lengths at which lines are cut otherwise, in bytes
var lengths = []int{0, 1, 5, 8190, 8191, 8192, 8193, 65535, 65536, 65537, 65538, 74536}

const report = `{"op":"gc.run"}`

// someLines are lines of all lengths, some of which ask for a report.
func someLines(chance *rand.Rand) [][]byte {
	lines := make([][]byte, 1+chance.Intn(30))
	for at := range lines {
		length := chance.Intn(200)
		if chance.Intn(10) < 3 {
			length = lengths[chance.Intn(len(lengths))]
		}
		lines[at] = bytes.Repeat([]byte("x"), length)
		if chance.Intn(10) == 0 {
			lines[at] = append([]byte(report), bytes.Repeat([]byte(" "), length)...)
		}
	}
	return lines
}

// cutAnywhere cuts a text in blocks of random lengths, and joins what a cutter makes of them.
func cutAnywhere(chance *rand.Rand, c *cutter, text []byte) (all cutLines) {
	for len(text) > 0 {
		count := 1 + chance.Intn(1<<uint(chance.Intn(17)))
		if count > len(text) {
			count = len(text)
		}
		c.cut(text[:count], &all)
		text = text[count:]
	}
	return all
}

func TestLinesAreCutAndEmptyOnesPassedOver(t *testing.T) {
	for seed := int64(0); seed < 400; seed++ {
		chance := rand.New(rand.NewSource(seed))
		var sent, wanted []byte
		for _, line := range someLines(chance) {
			sent = append(append(sent, line...), '\n')
			if len(line) > 65537 {
				line = line[:65537]
			}
			if len(line) > 0 {
				wanted = append(append(wanted, line...), '\n')
			}
		}
		var c cutter
		all := cutAnywhere(chance, &c, sent)
		text, runs := all.text, all.runs
		if !bytes.Equal(text, wanted) {
			t.Fatalf("seed %d: %d bytes of %d", seed, len(text), len(wanted))
		}
		for _, one := range runs {
			part := text[:one.size]
			text = text[one.size:]
			if bytes.Count(part, []byte("\n")) != one.lines || part[len(part)-1] != '\n' {
				t.Fatalf("seed %d: a run of %d lines has %q", seed, one.lines, part)
			}
			if one.lines > 1 && (one.size > 8192 || one.lines > 256 || one.alone()) {
				t.Fatalf("seed %d: a run is too long: %+v", seed, one)
			}
			isReport := bytes.HasPrefix(part, []byte(report)) && len(part) <= 65537
			if one.collects != isReport || one.alone() != isReport {
				t.Fatalf("seed %d: %+v of %q", seed, one, part[:20])
			}
		}
		if len(text) != 0 {
			t.Fatalf("seed %d: %d bytes are in no run", seed, len(text))
		}
	}
}

func TestARunHasAsManyBytesAsATurn(t *testing.T) {
	line := append(bytes.Repeat([]byte("x"), 1023), '\n')
	for _, more := range []int{0, 1} {
		text := bytes.Repeat(line, 7)
		text = append(append(text, bytes.Repeat([]byte("y"), 1023+more)...), '\n')
		var all cutLines
		new(cutter).cut(text, &all)
		if len(all.runs) != 1+more {
			t.Errorf("%d bytes are %d runs", len(text), len(all.runs))
		}
	}
}

func TestAClientIsOwedNoMoreThanItsBounds(t *testing.T) {
	lines := []string{`{"op":"ingest.get","ns":"a","ref":"b"}`, `{"op":"ns.add","ns":"a"}`, `x`}
	for seed := int64(0); seed < 20; seed++ {
		chance := rand.New(rand.NewSource(seed))
		c := client{}
		var handed, sent int
		for handed == 0 || c.runs.len() > 0 {
			var block []byte
			for count := chance.Intn(400); count > 0; count-- {
				block = append(append(block, lines[chance.Intn(len(lines))]...), '\n')
				sent++
			}
			all := cutLines{text: c.text}
			c.cutter.cut(block, &all)
			c.text = all.text
			c.runs.push(all.runs...)
			c.unread.size = int64(chance.Intn(2)) * chance.Int63n(unreadMost)
			var turns []run
			for c.mayHandOn() {
				_, turn := c.handOn(nil)
				turns = append(turns, turn)
				if c.owed > owedMost || c.weight+c.unread.size > unreadMost {
					t.Fatalf("seed %d: it is owed %d lines, %d bytes beside %d", seed, c.owed, c.weight,
						c.unread.size)
				}
			}
			if len(turns) == 0 && c.unread.size == 0 && c.runs.len() > 0 {
				t.Fatalf("seed %d: nothing is handed on for a client that is owed nothing", seed)
			}
			for _, turn := range turns {
				handed += turn.lines
				c.answered(turn.lines, turn.weight)
			}
			if sent > 3000 {
				break
			}
		}
		if handed == 0 {
			t.Fatalf("seed %d: nothing is handed on", seed)
		}
	}
}

func TestAnEndlessLineTakesLittleRoom(t *testing.T) {
	var c cutter
	var all cutLines
	block := bytes.Repeat([]byte("x"), 50000)
	for turn := 0; turn < 100; turn++ {
		if c.cut(block, &all); len(all.text)+len(all.runs) > 0 {
			t.Fatal("a line without its end was handed on")
		}
	}
	if cap(c.part) > 1<<18 {
		t.Errorf("%d bytes are kept of it", cap(c.part))
	}
	if c.cut([]byte("\n"), &all); len(all.text) != 65538 {
		t.Errorf("%d bytes are handed on of it", len(all.text))
	}
}
