package octseq

import (
	"bytes"
	"testing"
)

// A query for the addresses of example.com, with the flag DO, a payload of 1,400 octets, a client cookie (RFC 7873, 4)
// and an empty NSID (RFC 5001, 2.1), as dnspython 2.3 makes it.
const (
	ednsOptions = "\x00\x0A\x00\x08\x01\x02\x03\x04\x05\x06\x07\x08\x00\x03\x00\x00"
	ednsOctets  = "\x12\x34\x01\x00\x00\x01\x00\x00\x00\x00\x00\x01\x07example\x03com\x00\x00\x1C\x00\x01" +
		"\x00\x00\x29\x05\x78\x00\x00\x80\x00\x00\x10" + ednsOptions
)

// askEDNS is the query with some options.
func askEDNS(name, options string) ([]byte, error) {
	return QueryEDNS(0x1234, FlagRD, name, TypeAAAA, ClassIN, EDNS{1400, EDNSFlagDO, []byte(options)})
}

func TestAQueryHasAnOPTRecord(t *testing.T) {
	if query, err := askEDNS("example.com.", ednsOptions); string(query) != ednsOctets || err != nil {
		t.Errorf("%q, %v", query, err)
	}
	query, err := QueryEDNS(0x1234, FlagRD, "example.com.", TypeAAAA, ClassIN, EDNS{Payload: 1232})
	if string(query) != ednsOctets[:29]+"\x00\x00\x29\x04\xD0\x00\x00\x00\x00\x00\x00" || err != nil {
		t.Errorf("%q, %v", query, err)
	}
}

func TestWhatIsNoNameOrNoOptionsIsRefused(t *testing.T) {
	if query, err := askEDNS("example.com", ednsOptions); query != nil || err != ErrMalformed {
		t.Errorf("%q, %v", query, err)
	}
	for length := 0; length <= len(ednsOptions); length++ {
		_, err := askEDNS("example.com.", ednsOptions[:length])
		if length == 0 || length == 12 || length == 16 {
			if err != nil {
				t.Errorf("%d: %v", length, err)
			}
		} else if err != ErrMalformed {
			t.Errorf("%d: %v", length, err)
		}
	}
}

// A query for the root has 28 octets besides its options.
func TestAQueryHasAtMost65535Octets(t *testing.T) {
	for length := 65507; length <= 65508; length++ {
		options := make([]byte, length)
		options[2], options[3] = byte((length-4)>>8), byte(length-4)
		query, err := askEDNS(".", string(options))
		if length == 65507 && (len(query) != 65535 || err != nil) || length == 65508 && err != ErrTooLong {
			t.Errorf("%d: %d, %v", length, len(query), err)
		}
	}
}

// Three addresses of a name: 12 octets of header, 17 of the first record, 16 of each other.
func TestAnAnswerIsCutAtALimit(t *testing.T) {
	query := parsed(t, "\x00\x07\x01\x00\x00\x00\x00\x00\x00\x00\x00\x00")
	octets := []byte("\x01a\x00\x01\x02\x03\x04")
	row := Row{NameAt: 0, DataAt: 3, DataLen: 4, TTL: 9, Type: TypeA, Class: ClassIN, Section: SectionAnswer}
	rows := []Row{row, row, row}
	lengths := []int{12, 29, 45, 61}
	for limit := 0; limit < 70; limit++ {
		answer, err := query.AnswerWithin(FlagAA, octets, rows, uint16(limit))
		if limit < lengths[0] {
			if err != ErrTooLong {
				t.Errorf("%d: %v", limit, err)
			}
			continue
		}
		count, flags := 3, FlagAA
		for limit < lengths[count] {
			count, flags = count-1, FlagAA|FlagTC
		}
		wanted, wantedErr := query.Answer(flags, octets, rows[:count])
		if !bytes.Equal(answer, wanted) || len(answer) != lengths[count] || err != nil || wantedErr != nil {
			t.Errorf("%d: %q, %v, not %q, %v", limit, answer, err, wanted, wantedErr)
		}
	}
	row.Section = SectionQuestion
	if _, err := query.AnswerWithin(0, octets, []Row{row}, 512); err != ErrBadRow {
		t.Error(err)
	}
}

// The questions have 29 octets, the first row 11 and each other 261.
func TestAnAnswerKeepsTheFirstRows(t *testing.T) {
	query := parsed(t, ednsOctets)
	opt := Row{Type: TypeOPT, Class: 1232, Section: SectionAdditional}
	row := Row{DataAt: 1, DataLen: 250, Type: 65280, Class: ClassIN, Section: SectionAnswer}
	octets, err := query.AnswerWithin(0, make([]byte, 251), []Row{opt, row, row, row, row, row}, 1232)
	if len(octets) != 40+4*261 || err != nil {
		t.Fatal(len(octets), err)
	}
	header := parsed(t, string(octets)).Header()
	if header.Flags != 0x8300 || header.ANCount != 4 || header.ARCount != 1 {
		t.Errorf("%+v", header)
	}
}
