package serve

import (
	"bytes"
	"fmt"
	"math/rand"
	"strings"
	"testing"
)

// cutReplies reads an output in blocks of random lengths, and joins what each line is answered.
func cutReplies(chance *rand.Rand, r *replyCutter, output []byte) (all []string, faults []int, err error) {
	var reply []byte
	for len(output) > 0 {
		count := 1 + chance.Intn(1<<uint(chance.Intn(8)))
		if count > len(output) {
			count = len(output)
		}
		for at := 0; at < count; {
			it, err := r.cut(output[:count], at)
			if err != nil {
				return all, faults, err
			}
			reply = append(reply, output[it.from:it.to]...)
			if it.ends {
				all, faults, reply = append(all, string(reply)), append(faults, it.fault), nil
			}
			at = it.next
		}
		output = output[count:]
	}
	return all, faults, nil
}

func TestRepliesAreCutAndCounted(t *testing.T) {
	replies := []string{"\n", "1\n", "{\"ok\":true}\n", "{\"fault\":7,\"name\":\"OutOfMemory\"}\n",
		"{\"fault\":12}\n", "{\"fault\":x}\n", "{\"fault\":", "12 13\n", strings.Repeat("y", 300) + "\n"}
	replies[6] = "{\"fault\"\n"
	wanted := map[string]int{replies[3]: 7, replies[4]: 12}
	for seed := int64(0); seed < 300; seed++ {
		chance := rand.New(rand.NewSource(seed))
		numbered := seed%2 == 1
		var output bytes.Buffer
		var sent []string
		for number := 1; number <= 50; number++ {
			reply := replies[chance.Intn(len(replies))]
			sent = append(sent, reply)
			if numbered {
				fmt.Fprintf(&output, "%d ", number)
			}
			output.WriteString(reply)
		}
		got, faults, err := cutReplies(chance, &replyCutter{numbered: numbered, next: 1}, output.Bytes())
		if err != nil || fmt.Sprint(got) != fmt.Sprint(sent) {
			t.Fatalf("seed %d: %v %q, sent %q", seed, err, got, sent)
		}
		for at, fault := range faults {
			if fault != wanted[sent[at]] {
				t.Fatalf("seed %d: %q has fault %d", seed, sent[at], fault)
			}
		}
	}
}

func TestANumberThatIsNotTheLinesIsRefused(t *testing.T) {
	for _, output := range []string{"2 x\n", "0 x\n", "1 x\n1 y\n", "1 x\n3 y\n", "x\n", " x\n", "1x\n",
		"\n", "-1 x\n", "1 x\n\n", "99999999999999999999999 x\n", "18446744073709551617 x\n",
		"1 x\ny\n"} {
		chance := rand.New(rand.NewSource(1))
		all, _, err := cutReplies(chance, &replyCutter{numbered: true, next: 1}, []byte(output))
		if err == nil {
			t.Errorf("%q is taken as %q", output, all)
		}
	}
}
