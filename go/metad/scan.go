package metad

import (
	"encoding/json"
	"strings"

	"metad/internal/scan"
)

// scanRow reads a row.
func scanRow(s *scan.Scanner) (r Row) {
	s.Object(func(name string) {
		switch name {
		case "data":
			r.Data = s.String()
		case "digest":
			r.Digest = s.String()
		case "expected":
			s.Nullable()
		case "id":
			r.ID = s.String()
		case "key":
			r.Key = s.String()
		case "kind":
			r.Kind = s.String()
		case "labels":
			r.Labels = s.Texts()
		case "name":
			r.Name = s.String()
		case "number":
			r.Number = uint32(s.Number())
		case "own":
			if !s.Word("true") && !s.Word("false") {
				s.Fail()
			}
		case "parent":
			r.Parent = s.Nullable()
		case "parent_number":
			r.ParentNumber = uint32(s.Number())
		case "ref":
			r.Ref = s.String()
		case "snapshot":
			if !s.Word("null") {
				r.Snapshot = new([2]string)
				s.Wants('[')
				r.Snapshot[0] = s.String()
				s.Wants(',')
				r.Snapshot[1] = s.String()
				s.Wants(']')
			}
		case "target":
			r.Target = s.String()
		default:
			s.Fail()
		}
	})
	return r
}

// rowsOf returns about how many rows a listing has. The shortest row has some 50 bytes.
func rowsOf(line string) int {
	rows, most := strings.Count(line, "},{")+1, len(line)/50+1
	if rows > most {
		return most
	}
	return rows
}

// readReply reads a reply line. Rows and names, of which there may be many, are read here.
func readReply(line string, r *Reply) error {
	s := scan.Of(strings.TrimSuffix(line, "\n"))
	var found Reply
	s.Object(func(name string) {
		switch name {
		case "names":
			s.Array(func() { found.Names = append(found.Names, s.String()) })
		case "ok":
			if found.OK = s.Word("true"); !found.OK {
				s.Fail()
			}
		case "row":
			found.Row = scanRow(s)
		case "rows":
			found.Rows = make([]Row, 0, rowsOf(line))
			s.Array(func() { found.Rows = append(found.Rows, scanRow(s)) })
		case "there":
			if found.There = s.Word("true"); !found.There {
				s.Fail()
			}
		default:
			s.Fail()
		}
	})
	if !s.Done() {
		return json.Unmarshal([]byte(line), r)
	}
	*r = found
	return nil
}
