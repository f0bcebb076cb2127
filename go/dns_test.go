package octseq

import (
	"bytes"
	"errors"
	"math"
	"strings"
	"testing"
)

// The query for the address of example.com, written down by RFC 1035, 4.1; its answer, 192.0.2.1, whose name is a
// pointer to offset 12; and a name and an address, with the row of the record that they make.
const (
	queryOctets  = "\x12\x34\x01\x00\x00\x01\x00\x00\x00\x00\x00\x00\aexample\x03com\x00\x00\x01\x00\x01"
	answerOctets = "\x12\x34\x81\x80\x00\x01\x00\x01\x00\x00\x00\x00\aexample\x03com\x00\x00\x01\x00\x01" +
		"\xC0\x0C\x00\x01\x00\x01\x00\x00\x01\x2C\x00\x04\xC0\x00\x02\x01"
	source = "\aexample\x03com\x00\xC0\x00\x02\x01"
)

var address = Row{NameAt: 0, DataAt: 13, DataLen: 4, TTL: 300, Type: TypeA, Class: ClassIN, Section: SectionAnswer}

func parsed(t *testing.T, octets string) Message {
	t.Helper()
	message, err := ParseMessage([]byte(octets))
	if err != nil {
		t.Fatal(err)
	}
	return message
}

func TestAQueryIsWritten(t *testing.T) {
	query, err := Query(0x1234, FlagRD, "example.com.", TypeA, ClassIN)
	if string(query) != queryOctets || err != nil {
		t.Errorf("%q, %v", query, err)
	}
	for _, name := range []string{"", "example.com", "a..b."} {
		if query, err := Query(1, 0, name, TypeA, ClassIN); query != nil || err != ErrMalformed {
			t.Errorf("%q: %q, %v", name, query, err)
		}
	}
}

func TestAnAnswerIsWritten(t *testing.T) {
	answer, err := parsed(t, queryOctets).Answer(FlagRA, []byte(source), []Row{address})
	if string(answer) != answerOctets || err != nil {
		t.Errorf("%q, %v", answer, err)
	}
	answer, err = parsed(t, queryOctets).Answer(FlagRA, nil, nil)
	if string(answer) != "\x12\x34\x81\x80"+queryOctets[4:] || err != nil {
		t.Errorf("%q, %v", answer, err)
	}
}

func TestRowsThatAreNoneMakeNoAnswer(t *testing.T) {
	wrong := map[string]func(*Row){
		"name at the end":   func(row *Row) { row.NameAt = len(source) },
		"name below 0":      func(row *Row) { row.NameAt = -1 },
		"data too far":      func(row *Row) { row.DataAt = 14 },
		"length below 0":    func(row *Row) { row.DataLen = -1 },
		"longest":           func(row *Row) { row.DataLen = math.MaxInt },
		"a question":        func(row *Row) { row.Section = SectionQuestion },
		"none of a section": func(row *Row) { row.Section = 4 },
	}
	for name, change := range wrong {
		row := address
		change(&row)
		_, err := parsed(t, queryOctets).Answer(0, []byte(source), []Row{address, row})
		if err != ErrBadRow {
			t.Errorf("%s: %v", name, err)
		}
	}
}

func TestAnswersAreLimited(t *testing.T) {
	row := Row{DataAt: 1, DataLen: 250, Type: 65280, Class: ClassIN, Section: SectionAdditional}
	rows := make([]Row, 300)
	for at := range rows {
		rows[at] = row
	}
	message := parsed(t, queryOctets)
	answer, err := message.Answer(FlagAA|5, make([]byte, 251), rows[:200])
	if len(answer) != 29+200*(11+250) || err != nil {
		t.Fatal(len(answer), err)
	}
	if header := parsed(t, string(answer)).Header(); header.Flags != 0x8505 || header.ARCount != 200 {
		t.Errorf("%+v", header)
	}
	if _, err := message.Answer(0, make([]byte, 251), rows); err != ErrTooLong {
		t.Error(err)
	}
	broken := Row{DataAt: 1, DataLen: 1, Type: TypeNS, Class: ClassIN, Section: SectionAnswer}
	if _, err := message.Answer(0, []byte("\x00\x07"), []Row{broken}); err != ErrImmovable {
		t.Error(err)
	}
}

func TestAnAnswerIsRead(t *testing.T) {
	octets := []byte(answerOctets)
	message, err := ParseMessage(octets)
	if err != nil {
		t.Fatal(err)
	}
	copy(octets, bytes.Repeat([]byte{0xFF}, len(octets)))
	header := Header{ID: 0x1234, Flags: 0x8180, QDCount: 1, ANCount: 1}
	if message.Header() != header || header.Opcode() != 0 || header.RCode() != 0 || header.EntryCount() != 2 {
		t.Errorf("%+v", message.Header())
	}
	entries, err := message.Entries()
	if len(entries) != 2 || err != nil {
		t.Fatal(entries, err)
	}
	question, record := entries[0], entries[1]
	if question.Row() != (Row{NameAt: 12, Type: TypeA, Class: ClassIN}) || len(question.Data().Octets()) != 0 {
		t.Errorf("%+v", question.Row())
	}
	row := address
	row.NameAt, row.DataAt = 29, 41
	if record.Row() != row || !record.Name().Equal(question.Name()) {
		t.Errorf("%+v, %v", record.Row(), record.Name())
	}
	data := record.Data()
	if string(data.Octets()) != "\xC0\x00\x02\x01" || !data.IsTyped() || data.String() != "192.0.2.1" {
		t.Errorf("%v", data)
	}
	if string(message.Octets()) != answerOctets {
		t.Errorf("%q", message.Octets())
	}
	if octets, err := message.Rewrite(); string(octets) != answerOctets || err != nil {
		t.Errorf("%q, %v", octets, err)
	}
}

func TestFrontsOfAMessageAreNone(t *testing.T) {
	for length := range answerOctets {
		if _, err := ParseMessage([]byte(answerOctets[:length])); err != ErrMalformed {
			t.Errorf("%d: %v", length, err)
		}
	}
	if _, err := (Message{}).Entries(); err != ErrMalformed {
		t.Error(err)
	}
	if text := (Message{}).String(); text != "octseq: malformed" {
		t.Error(text)
	}
}

// The header, the question and the record are at the offsets 0, 12 and 29.
func TestMessagesStopAtTheFirstPartThatIsNotThere(t *testing.T) {
	stops := func(octets string, wanted int) {
		t.Helper()
		if offset, found := MessageFault([]byte(octets)); offset != wanted || !found {
			t.Errorf("%d octets: %d, %v, not %d", len(octets), offset, found, wanted)
		}
	}
	for length := range answerOctets {
		switch {
		case length < 12:
			stops(answerOctets[:length], 0)
		case length < 29:
			stops(answerOctets[:length], 12)
		default:
			stops(answerOctets[:length], 29)
		}
	}
	stops(answerOctets+"\x00", 45)
	stops(answerOctets+strings.Repeat("\x00", 65535-45), 45)
	stops(answerOctets+strings.Repeat("\x00", 65536-45), 65535)
	if offset, found := MessageFault([]byte(answerOctets)); offset != 45 || found {
		t.Error(offset, found)
	}
}

// ordered are the names of RFC 4034, 6.1, in the order that it gives.
var ordered = []string{
	"example.", "a.example.", "yljkjljk.a.example.", "Z.a.example.", "zABC.a.EXAMPLE.", "z.example.",
	`\001.z.example.`, "*.z.example.", `\200.z.example.`,
}

func named(t *testing.T, text string) Name {
	t.Helper()
	name, err := ParseName(text)
	if err != nil {
		t.Fatal(text, err)
	}
	return name
}

func TestNamesHaveTheCanonicalOrder(t *testing.T) {
	for at, one := range ordered {
		for otherAt, other := range ordered {
			order := 0
			if at < otherAt {
				order = -1
			} else if at > otherAt {
				order = 1
			}
			name, otherName := named(t, one), named(t, other)
			if name.Compare(otherName) != order || name.Equal(otherName) != (order == 0) {
				t.Errorf("%s and %s: %d", one, other, name.Compare(otherName))
			}
			if (name.Key() == otherName.Key()) != (order == 0) {
				t.Errorf("%s and %s: keys", one, other)
			}
		}
	}
}

func TestLettersOfEitherCaseAreOne(t *testing.T) {
	one, other := named(t, "eXample.COM."), named(t, "Example.com.")
	if !one.Equal(other) || one.Key() != other.Key() || one.Key() != "\aexample\x03com\x00" {
		t.Errorf("%v, %v", one, other)
	}
	if string(one.Wire()) != "\aeXample\x03COM\x00" || one.String() != "eXample.COM." {
		t.Errorf("%q, %v", one.Wire(), one)
	}
}

func TestNamesAreReadAtTheirOffset(t *testing.T) {
	name, err := NewName([]byte(answerOctets), 29)
	if string(name.Wire()) != "\aexample\x03com\x00" || err != nil {
		t.Errorf("%q, %v", name.Wire(), err)
	}
	for _, offset := range []int{-1, 28, len(answerOctets)} {
		if _, err := NewName([]byte(answerOctets), offset); err != ErrMalformed {
			t.Errorf("%d: %v", offset, err)
		}
	}
	if (Name{}).String() != "." || !(Name{}).Equal(named(t, ".")) {
		t.Error(Name{})
	}
	long := "\x3F" + strings.Repeat("\x00", 63)
	name, err = NewName([]byte(strings.Repeat(long, 3)+"\x3D"+strings.Repeat("\x00", 62)), 0)
	if text, textErr := name.Text(); len(text) != 1004 || err != nil || textErr != nil {
		t.Error(len(text), err, textErr)
	}
}

func TestDataIsWithinItsMessage(t *testing.T) {
	for _, wrong := range [][2]int{{13, 5}, {-1, 1}, {0, -1}, {18, 0}, {1, math.MaxInt}} {
		if _, err := NewData([]byte(source), wrong[0], wrong[1], TypeA, ClassIN); err != ErrMalformed {
			t.Errorf("%v: %v", wrong, err)
		}
	}
	data, err := NewData([]byte(source), 14, 3, TypeA, ClassIN)
	if err != nil || data.IsTyped() || data.String() != `\# 3 000201` {
		t.Errorf("%v, %v", data, err)
	}
}

func TestTypesAndClassesHaveTexts(t *testing.T) {
	for rtype, text := range map[Type]string{
		TypeA: "A", TypeNS: "NS", TypeCNAME: "CNAME", TypeSOA: "SOA", TypePTR: "PTR", TypeMX: "MX", TypeTXT: "TXT",
		TypeAAAA: "AAAA", TypeSRV: "SRV", TypeOPT: "OPT", TypeANY: "ANY", 65535: "TYPE65535",
	} {
		parsed, err := ParseType(strings.ToLower(text))
		if rtype.String() != text || parsed != rtype || err != nil {
			t.Errorf("%v, %v, %v", rtype, parsed, err)
		}
	}
	for class, text := range map[Class]string{
		ClassIN: "IN", ClassCH: "CH", ClassNONE: "NONE", ClassANY: "ANY", 5: "CLASS5",
	} {
		parsed, err := ParseClass(strings.ToLower(text))
		if class.String() != text || parsed != class || err != nil {
			t.Errorf("%v, %v, %v", class, parsed, err)
		}
	}
	for _, text := range []string{"", "AAAAA", "TYPE65536", "CLASS"} {
		_, err := ParseType(text)
		_, classErr := ParseClass(text)
		if !errors.Is(err, ErrMalformed) || !errors.Is(classErr, ErrMalformed) {
			t.Errorf("%s: %v, %v", text, err, classErr)
		}
	}
}
