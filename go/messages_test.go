package octseq

import (
	"encoding/binary"
	"fmt"
	"os"
	"strings"
	"testing"
)

// withEach calls with each of 620 messages, of which 483 are of real traffic, and with the lines that the readers of
// dnspython make of it. In stdin a message is after its length in two octets; in stdout an empty line is after its
// lines.
func withEach(t *testing.T, call func(octets []byte, lines string)) {
	t.Helper()
	stream, err := os.ReadFile("../crates/octseq_dns_messages/stdin")
	if err != nil {
		t.Fatal(err)
	}
	text, err := os.ReadFile("../crates/octseq_dns_messages/stdout")
	if err != nil {
		t.Fatal(err)
	}
	shown := strings.SplitAfter(string(text), "\n\n")
	count := 0
	for ; len(stream) > 0; count++ {
		end := 2 + int(binary.BigEndian.Uint16(stream))
		call(stream[2:end], strings.TrimSuffix(shown[count], "\n"))
		stream = stream[end:]
	}
	if count != 620 || !strings.HasPrefix(shown[count], "cuts ") {
		t.Errorf("%d messages", count)
	}
}

// line is the line of an entry, made of what it answers.
func line(entry Entry) string {
	if entry.Section() == SectionQuestion {
		return fmt.Sprintf("question %v %v %v\n", entry.Name(), entry.Class(), entry.Type())
	}
	return fmt.Sprintf("%v %v %d %v %v %v\n", entry.Section(), entry.Name(), entry.TTL(), entry.Class(), entry.Type(),
		entry.Data())
}

func TestMessagesAndEntriesHaveTheirLines(t *testing.T) {
	withEach(t, func(octets []byte, lines string) {
		message, err := ParseMessage(octets)
		if err != nil {
			if err != ErrMalformed || lines != "malformed\n" {
				t.Errorf("%v, not %s", err, lines)
			}
			return
		}
		if text, err := message.Text(); text != lines || message.String() != lines || err != nil {
			t.Errorf("%s%v, not %s", text, err, lines)
		}
		entries, err := message.Entries()
		shown := strings.SplitAfter(lines, "\n")[0]
		for _, entry := range entries {
			shown += line(entry)
		}
		if shown != lines || err != nil {
			t.Errorf("%s%v, not %s", shown, err, lines)
		}
	})
}

func TestMessagesThatAreRewrittenHaveTheSameLines(t *testing.T) {
	rewritten := 0
	withEach(t, func(octets []byte, lines string) {
		message, err := ParseMessage(octets)
		if err != nil {
			return
		}
		octets, err = message.Rewrite()
		if err == ErrImmovable {
			return
		}
		if text := parsed(t, string(octets)).String(); text != lines || err != nil {
			t.Errorf("%s%v, not %s", text, err, lines)
		}
		rewritten++
	})
	if rewritten <= 483 {
		t.Errorf("%d messages were rewritten", rewritten)
	}
}

// A message that is cut within an entry stops where that begins, and one with an octet more where it ends.
func TestMessagesThatAreCutStopWhereTheyAreCut(t *testing.T) {
	stops := func(octets []byte, wanted int) {
		t.Helper()
		if offset, found := MessageFault(octets); offset != wanted || !found {
			t.Errorf("%d octets: %d, %v, not %d", len(octets), offset, found, wanted)
		}
	}
	withEach(t, func(octets []byte, lines string) {
		offset, found := MessageFault(octets)
		if found != (lines == "malformed\n") || offset > len(octets) || !found && offset != len(octets) {
			t.Errorf("%d, %v, not %s", offset, found, lines)
		}
		message, err := ParseMessage(octets)
		if err != nil {
			return
		}
		entries, err := message.Entries()
		if err != nil {
			t.Fatal(err)
		}
		for at, entry := range entries {
			begin, end := entry.Row().NameAt, len(octets)
			if at+1 < len(entries) {
				end = entries[at+1].Row().NameAt
			}
			stops(octets[:begin], begin)
			stops(octets[:end-1], begin)
		}
		stops(append(message.Octets(), 0), len(octets))
	})
}
