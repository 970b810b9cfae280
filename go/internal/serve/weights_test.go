package serve

import (
	"os"
	"regexp"
	"strings"
	"testing"
)

func TestWhichLinesMayHaveALongReply(t *testing.T) {
	for line, isLong := range map[string]bool{
		``:                                  false,
		`x`:                                 false,
		"\r":                                false,
		`["op","gc.run"]`:                   false,
		`{`:                                 true,
		`{}`:                                true,
		`{"op":"image.list","ns":"x"}`:      true,
		`{"op" : "gc.plan","at":"2024"}`:    true,
		`{"op":"image.get","ns":"x"}`:       true,
		`{"op":"ingest.get","ns":"x"}`:      false,
		`{"op":"lease.resources","ns":"x"}`: true,
		`{"op":"image.remove","ns":"x","name":"a","sync":"2024-03-01T00:00:00Z"}`: true,
		`{"op":"image.remove","ns":"x","name":"a","s\u0079nc":""}`:                true,
		`{"op":"image.remove","ns":"x","name":"a"}`:                               false,
		`{"op":"image.l\u0069st","ns":"x"}`:                                       true,
		`{"op":"image.add","\u006fp":"image.list"}`:                               true,
		`{"op":"image.add","op":"image.list"}`:                                    true,
		`{"op":"image.list","op":"image.add"}`:                                    false,
		`{"op":"image.add","op":7}`:                                               false,
		`{"op":["image.add"]}`:                                                    true,
		`{"op":"image.add","ns":"x","name":"\"","target":"sha256:00"}`:            false,
		`{"op":"image.add","ns":"\",\"op\":\"gc.run"}`:                            false,
		`{"op":"image.add","labels":{"op":"gc.run","sync":"x"}}`:                  false,
		`{"op":"image.add","labels":{"}":"{","a":[{"\\":"]"}]},"sync":""}`:        true,
		`{"labels":{"\\":"\\\""},"op":"image.list"}`:                              true,
		`{"op":"image.add","answer":"row"}`:                                       true,
		`{"op":"image.set","put":{"answer":"row"},"data":"\"answer\":\"row\""}`:   false,
		`{"op":"ingest.open","ref":"r","there":"hold"}`:                           false,
		`{"op":"back.list"}`:                                                      true,
		`{"op":"snap.snapshotters","ns":"x"}`:                                     true,
		"\t {\"op\"\r:\t\"image.add\" , \"v\" : 1 } \r":                           false,
		`{"op":"image.add"} x`:                                                    true,
		`{"op":"image.add"`:                                                       true,
		`{"op":"image.add",`:                                                      true,
		`{"op":"image.add","x`:                                                    true,
		`{"op":"one.of.tomorrow"}`:                                                true,
		`{"op":"image.list"` + strings.Repeat(" ", lineMost) + `}`:                false,
	} {
		if got := requestOf([]byte(line)); (got.weight >= unbounded) != isLong {
			t.Errorf("%.80s: %+v", line, got)
		}
	}
}

func TestWhichLinesCollect(t *testing.T) {
	for line, collects := range map[string]bool{
		`{"op":"gc.run","at":"2024"}`:             true,
		`{"op":"gc.plan","at":"2024"}`:            false,
		`{"op":"lease.remove","sync":"2024"}`:     true,
		`{"op":"lease.remove"}`:                   false,
		`{"op":"image.add","labels":{"sync":""}}`: false,
	} {
		if got := requestOf([]byte(line)); got.collects != collects {
			t.Errorf("%s: %+v", line, got)
		}
	}
}

// Of the page of formats each op whose reply is done, and no other but that of ingests' rows, is
// one with a short reply.
func TestOpsOfThePageHaveTheirWeights(t *testing.T) {
	page, err := os.ReadFile("../../../docs/FORMATS.md")
	if err != nil {
		t.Fatal(err)
	}
	long := regexp.MustCompile(`^(row|names|resources|collects|dry run|shows|lists)`)
	rows := regexp.MustCompile("(?m)^\\| `([a-z]+\\.?[a-z]*)` \\|.*\\| ([^|]*) \\|$")
	count := 0
	for _, row := range rows.FindAllStringSubmatch(string(page), -1) {
		op, effect := row[1], row[2]
		if !strings.Contains(op, ".") && op != "profile" {
			continue
		}
		count++
		_, bounded := longest[op]
		if op == "ingest.get" {
			effect = "bounded"
		}
		if bounded == long.MatchString(effect) {
			t.Errorf("%s: %s", op, effect)
		}
	}
	if count < 52 {
		t.Errorf("%d ops were found", count)
	}
}

func BenchmarkRequestOf(b *testing.B) {
	line := []byte(`{"op":"content.add","ns":"load","digest":"sha256:` +
		strings.Repeat("0123456789abcdef", 4) + `","labels":{"a":"b"}}`)
	for at := 0; at < b.N; at++ {
		requestOf(line)
	}
}
