package metad

import (
	"encoding/json"
	"fmt"
	"reflect"
	"strings"
	"testing"
)

// Each line is read as encoding/json reads it, by whichever of the two.
func TestRepliesAreReadAsJSON(t *testing.T) {
	row := `{"data":"{\"a\":\"\\\\\"}","labels":{"a":"1","\n":"é"},"name":"app","target":"sha256:0"}`
	for _, line := range []string{
		`{"ok":true}`, `{"ok":true,"there":true}`, `{"names":[],"ok":true}`,
		`{"names":["a","b\"\\\/"],"ok":true}`, `{"ok":true,"row":` + row + `}`,
		`{"ok":true,"rows":[]}`, `{"ok":true,"rows":[` + row + `,` + row + `]}`,
		`{"ok":true,"row":{"expected":null,"number":4000000000,"own":false,"ref":"r"}}`,
		`{"ok":true,"row":{"expected":"sha256:0","number":1,"own":true,"ref":""}}`,
		`{"ok":true,"row":{"labels":{},"name":"web","snapshot":["overlayfs","t"]},"there":true}`,
		`{"ok":true,"row":{"labels":{},"name":"db","snapshot":null}}`,
		`{"ok":true,"row":{"key":"k","kind":"view","number":3,"parent":"p","parent_number":2}}`,
		`{"ok":true,"row":{"key":"k","kind":"active","labels":{},"number":3,"parent":null}}`,
		`{"ok":true,"row":{"name":"\u0001\u00e9"}}`, `{"ok":true,"row":{"new":[{"of":1}],"name":"a"}}`,
		`{"fault":2,"name":"NotFound"}`, ` { "ok" : true } `, `{"ok":false}`,
		`{"ok":true,"resources":[["content","sha256:0"]]}`,
		`{"backend":{"blobs":["b"],"ingests":[1],"snapshots":[["native",2]]},"ok":true}`,
	} {
		var got, want Reply
		err := readReply(line+"\n", &got)
		if wantErr := json.Unmarshal([]byte(line), &want); err != nil || wantErr != nil {
			t.Errorf("%s: %v, %v", line, err, wantErr)
		}
		if len(got.Rows)+len(got.Names) == 0 && len(want.Rows)+len(want.Names) == 0 {
			got.Rows, got.Names, want.Rows, want.Names = nil, nil, nil, nil // empty or nil
		}
		if !reflect.DeepEqual(got, want) {
			t.Errorf("%s: %+v, want %+v", line, got, want)
		}
	}
}

// A line that was cut anywhere, or that has another byte somewhere, is no reply or another one.
func TestBrokenRepliesAreRefused(t *testing.T) {
	line := `{"ok":true,"rows":[{"data":"x","labels":{"a":"1"},"name":"ap\\p","number":1,` +
		`"snapshot":["o","t"]}],"there":true}`
	for at := 0; at < len(line); at++ {
		if readReply(line[:at], new(Reply)) == nil {
			t.Errorf("%s is read", line[:at])
		}
		for _, b := range []string{`"`, `\`, "\n", "{", "}", ",", "0"} {
			broken := line[:at] + b + line[at+1:]
			var got, want Reply
			err := readReply(broken, &got)
			wantErr := json.Unmarshal([]byte(broken), &want)
			if (err == nil) != (wantErr == nil) || !reflect.DeepEqual(got, want) && err == nil {
				t.Errorf("%s: %v, %+v, want %v, %+v", broken, err, got, wantErr, want)
			}
		}
	}
}

func BenchmarkRows(b *testing.B) {
	var rows []string
	for i := 0; i < 2000; i++ {
		rows = append(rows, fmt.Sprintf(`{"data":"{\"created\":\"2026-11-29T01:00:00.123456789Z\",`+
			`\"mediaType\":\"application/vnd.docker.distribution.manifest.v2+json\",\"size\":1}",`+
			`"labels":{"n":"%d"},"name":"image-%06d","target":"sha256:%064d"}`, i, i, i))
	}
	line := `{"ok":true,"rows":[` + strings.Join(rows, ",") + "]}\n"
	for i := 0; i < b.N; i++ {
		var r Reply
		if err := readReply(line, &r); err != nil || len(r.Rows) != 2000 {
			b.Fatal(err)
		}
	}
}
