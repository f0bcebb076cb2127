package octseq

import (
	"encoding/hex"
	"errors"
	"fmt"
	"os"
	"strings"
	"testing"
)

// records are lines for example.com, and the data of their records in hexadecimal, as dnspython 2.3 makes it.
var records = map[string]string{
	"300 IN MX 10 mail.example.com.":   "000a046d61696c076578616d706c6503636f6d00",
	"IN 300 A 192.0.2.1":               "c0000201",
	"1 IN AAAA 2001:db8::1":            "20010db8000000000000000000000001",
	`1 IN TXT "a b" c "\"\200"`:        "03612062016302" + "22c8",
	"1 IN SOA a. b. 1 2 3 4 5":         "016100" + "016200" + "0000000100000002000000030000000400000005",
	"1 IN SRV 1 2 3 a.":                "000100020003" + "016100",
	`1 IN CAA 0 issue "ca.example"`:    "00056973737565" + "63612e6578616d706c65",
	`1 CH TYPE65280 \# 3 01 02ff`:      "0102ff",
	"1 IN NSEC a. A MX RRSIG TYPE1234": "016100" + "0006400100000002" + "041b" + strings.Repeat("00", 26) + "20",
}

func TestRecordsHaveTheirData(t *testing.T) {
	for text, data := range records {
		record, err := ParseRecordText("example.com. "+text, SectionAnswer)
		if err != nil {
			t.Errorf("%s: %v", text, err)
			continue
		}
		if made := hex.EncodeToString(record.Data().Octets()); made != data || record.Name().String() != "example.com." {
			t.Errorf("%s: %s of %v, not %s", text, made, record.Name(), data)
		}
	}
}

// The name of the record, which is that of the question, becomes a pointer.
func TestARecordOfTextIsInAnAnswer(t *testing.T) {
	record, err := ParseRecordText("example.com. 300 IN MX 10 mail.example.com.", SectionAuthority)
	if err != nil {
		t.Fatal(err)
	}
	row := Row{DataAt: 23, DataLen: 20, TTL: 300, Type: TypeMX, Class: ClassIN, Section: SectionAuthority}
	wire := "\aexample\x03com\x00\x00\x0F\x00\x01\x00\x00\x01\x2C\x00\x14\x00\x0A\x04mail\aexample\x03com\x00"
	if record.Row() != row || string(record.Source()) != wire {
		t.Errorf("%+v, %q", record.Row(), record.Source())
	}
	if record.Section() != SectionAuthority || record.Data().String() != "10 mail.example.com." {
		t.Errorf("%v, %v", record.Section(), record.Data())
	}
	query := parsed(t, "\x00\x07\x00\x00\x00\x01\x00\x00\x00\x00\x00\x00\aexample\x03com\x00\x00\x0F\x00\x01")
	answer, err := query.Answer(0, record.Source(), []Row{record.Row()})
	if err != nil || string(answer[29:]) != "\xC0\x0C\x00\x0F\x00\x01\x00\x00\x01\x2C\x00\x09\x00\x0A\x04mail\xC0\x0C" {
		t.Errorf("%q, %v", answer, err)
	}
}

func TestNumbersOfARecord(t *testing.T) {
	record, err := ParseRecordText(`. 4275878552 CLASS258 TYPE65280 \# 0`, SectionAnswer)
	row := Row{DataAt: 11, TTL: 0xFEDCBA98, Type: 0xFF00, Class: 0x0102, Section: SectionAnswer}
	if record.Row() != row || err != nil {
		t.Errorf("%+v, %v", record.Row(), err)
	}
}

func TestRecordsAreRefusedAtAWord(t *testing.T) {
	for text, offset := range map[string]int{
		"":                           0,
		" a. 1 IN A 1.2.3.4":         0,
		"a 1 IN A 1.2.3.4":           0,
		"\u00E9. 1 IN A 1.2.3.4":     0,
		"\xFF. 1 IN A 1.2.3.4":       0,
		"a. x IN A 1.2.3.4":          3,
		"a. IN IN A 1.2.3.4":         6,
		"a. 4294967296 IN A 1.2.3.4": 3,
		"a. 1 IN NOTYPE 1.2.3.4":     8,
		"a. 1 IN A 1.2.3":            10,
		"a. 1 IN A":                  9,
		"a. 1 IN A 1.2.3.4 x":        18,
		"a. 1 IN MX 10 b. c.":        17,
		"a. 1 IN A 1.2.3.4\n":        10,
	} {
		record, err := ParseRecordText(text, SectionAnswer)
		if fault := (TextFault{1, offset}); err != fault || record.Source() != nil {
			t.Errorf("%q: %v, not %v", text, err, fault)
		}
	}
	for _, section := range []Section{SectionQuestion, 4} {
		if _, err := ParseRecordText("a. 1 IN A 1.2.3.4", section); err != ErrBadRow {
			t.Errorf("%v: %v", section, err)
		}
	}
}

// A pointer leads to an offset of the record: at 0 is its name, at 2 the end of that, at 13 the pointer itself.
func TestDataThatIsGivenAsOctetsMayHavePointers(t *testing.T) {
	for offset, text := range map[int]string{0: "a.", 2: ".", 13: "", 15: ""} {
		record, err := ParseRecordText(fmt.Sprintf(`a. 1 IN NS \# 2 c0%02x`, offset), SectionAnswer)
		if err != nil {
			t.Fatal(err)
		}
		answer, err := parsed(t, queryOctets).Answer(0, record.Source(), []Row{record.Row()})
		if text == "" {
			if err != ErrImmovable {
				t.Errorf("%d: %v", offset, err)
			}
			continue
		}
		if shown := parsed(t, string(answer)).String(); !strings.HasSuffix(shown, "a. 1 IN NS "+text+"\n") || err != nil {
			t.Errorf("%d: %s%v", offset, shown, err)
		}
	}
}

// Data of 65,535 octets is the longest, and so is a message of that many: 23 octets come before its data.
func TestLongTextsAreRefused(t *testing.T) {
	for _, length := range []int{65512, 65513, 65535} {
		text := fmt.Sprintf(`. 0 IN TYPE65280 \# %d %s`, length, strings.Repeat("aa", length))
		record, err := ParseRecordText(text, SectionAnswer)
		if len(record.Source()) != 11+length || len(record.Data().Octets()) != length || err != nil {
			t.Errorf("%d: %d, %v", length, len(record.Source()), err)
		}
		message, err := ParseMessageText("id 7 opcode 0 rcode 0 flags\nanswer " + text + "\n")
		if length == 65512 && (len(message.Octets()) != 65535 || err != nil) || length > 65512 && err != ErrTooLong {
			t.Errorf("%d: %d, %v", length, len(message.Octets()), err)
		}
	}
	text := ". 0 IN TXT" + strings.Repeat(` ""`, 65536)
	if _, err := ParseRecordText(text, SectionAnswer); err != ErrTooLong {
		t.Error(err)
	}
}

// Twelve addresses have 192 octets, and 36 in the text.
func TestARecordMayHaveMoreOctetsThanItsText(t *testing.T) {
	text := "a. 1 IN SVCB 1 . ipv6hint=::" + strings.Repeat(",::", 11)
	record, err := ParseRecordText(text, SectionAnswer)
	if source := record.Source(); len(source) != 3+10+3+4+192 || len(source) <= len(text)+100 || err != nil {
		t.Errorf("%d, %v", len(source), err)
	}
}

func TestAMessageIsMadeOfItsText(t *testing.T) {
	text := "id 7 opcode 0 rcode 0 flags QR AA\nquestion example.com. IN A\nanswer example.com. 300 IN A 1.2.3.4\n"
	octets := "\x00\x07\x84\x00\x00\x01\x00\x01\x00\x00\x00\x00\aexample\x03com\x00\x00\x01\x00\x01" +
		"\xC0\x0C\x00\x01\x00\x01\x00\x00\x01\x2C\x00\x04\x01\x02\x03\x04"
	message, err := ParseMessageText(text)
	if string(message.Octets()) != octets || message.String() != text || err != nil {
		t.Errorf("%q, %v", message.Octets(), err)
	}
	if header := (Header{ID: 7, Flags: 0x8400, QDCount: 1, ANCount: 1}); message.Header() != header {
		t.Errorf("%+v", message.Header())
	}
}

func TestMessagesAreRefusedAtAWordOfALine(t *testing.T) {
	head := "id 7 opcode 0 rcode 0 flags\n"
	for text, fault := range map[string]TextFault{
		"":                                    {1, 0},
		head[:27]:                             {1, 27},
		"id 65536 opcode 0 rcode 0 flags\n":   {1, 3},
		"id 7 opcode 16 rcode 0 flags\n":      {1, 12},
		"id 7 opcode 0 rcode 0 flags RD QR\n": {1, 31},
		head + "\n":                           {2, 0},
		head + "question a. IN\n":             {2, 14},
		head + "question a. IN A\nanswer a. 1 IN A 1.2.3\n":               {3, 17},
		head + "additional a. 1 IN A 1.2.3.4\nanswer a. 1 IN A 1.2.3.4\n": {3, 0},
	} {
		message, err := ParseMessageText(text)
		if err != fault || message.Octets() != nil {
			t.Errorf("%q: %v, not %v", text, err, fault)
		}
	}
}

func TestFaultsOfTextsAreErrors(t *testing.T) {
	_, err := ParseMessageText("id 7 opcode 0 rcode 0 flags RD\nquestion a. IM A\n")
	var fault TextFault
	if !errors.As(err, &fault) || fault != (TextFault{2, 12}) || !errors.Is(err, ErrMalformed) {
		t.Error(err)
	}
	if err.Error() != "octseq: line 2, offset 12: something else has to come here" {
		t.Error(err)
	}
}

// The status of octseq.h is 9.
func TestARefusedRequestForMemoryIsAnError(t *testing.T) {
	if err := errorOf(9); err != ErrMemory || refusedAt(err, 0, 0) != ErrMemory || errors.Is(err, ErrMalformed) {
		t.Error(err)
	}
}

// The lines of messages of real traffic are those that the readers of dnspython make of them.
func TestTheLinesOfMessagesAreReadBack(t *testing.T) {
	text, err := os.ReadFile("../crates/octseq_dns_messages/stdout")
	if err != nil {
		t.Fatal(err)
	}
	count := 0
	shown := strings.Split(string(text), "\n\n")
	for _, lines := range shown[:len(shown)-1] {
		if lines == "malformed" {
			continue
		}
		message, err := ParseMessageText(lines + "\n")
		if message.String() != lines+"\n" || err != nil {
			t.Errorf("%v%v, not %s", message, err, lines)
		}
		count++
	}
	if count <= 400 {
		t.Errorf("%d messages", count)
	}
}
