package octseq

import (
	"encoding/base32"
	"encoding/base64"
	"encoding/hex"
	"fmt"
	"net/netip"
	"strings"
	"testing"
)

// fieldsOf are the fields of data in class IN, each as its text.
func fieldsOf(t *testing.T, octets string, rtype Type) []string {
	t.Helper()
	data, err := NewData([]byte(octets), 0, len(octets), rtype, ClassIN)
	if err != nil {
		t.Fatal(err)
	}
	fields, err := data.Fields()
	if err != nil {
		t.Fatal(err)
	}
	texts := make([]string, len(fields))
	for at, field := range fields {
		texts[at] = field.String()
	}
	return texts
}

// The data of RFC 1035, 5.3 and 3.3.14, RFC 4034, 4.3 and 5.4, RFC 5155, A, RFC 8659, 4.2, and RFC 9460, D.2; a client
// cookie (RFC 7873, 4) and padding (RFC 7830, 3); and data without the form of a type.
var dataOfRFCs = []struct {
	rtype  Type
	octets string
	fields string
}{
	{1, "\xC0\x00\x02\x01", "address 192.0.2.1"},
	{28, "\x20\x01\x0D\xB8\x00\x00\x00\x00\x00\x00\x00\x00\x00\x00\x00\x01", "address 2001:db8::1"},
	{6, "\x06VENERA\x03ISI\x03EDU\x00\x0EAction.domains\x03ISI\x03EDU\x00" +
		"\x00\x00\x00\x14\x00\x00\x1C\x20\x00\x00\x02\x58\x00\x36\xEE\x80\x00\x00\x00\x3C",
		`name VENERA.ISI.EDU.|name Action\.domains.ISI.EDU.|number 20|number 7200|number 600|number 3600000|number 60`},
	{15, "\x00\x0A\x06VENERA\x03ISI\x03EDU\x00", "number 10|name VENERA.ISI.EDU."},
	{16, "\x0Cprinter=lpr5\x00\x01\xFF", `string "printer=lpr5"|string ""|string "\xff"`},
	{257, "\x00\x05issueca1.example.net", `number 0|string "issue"|octets 6361312e6578616d706c652e6e6574`},
	{43, "\xEC\x45\x05\x01\x2B\xB1\x83\xAF\x5F\x22\x58\x81\x79\xA5\x3B\x0A\x98\x63\x1F\xAD\x1A\x29\x21\x18",
		"number 60485|number 5|number 1|octets 2bb183af5f22588179a53b0a98631fad1a292118"},
	{47, "\x04host\x07example\x03com\x00\x00\x06\x40\x01\x00\x00\x00\x03\x04\x1B" + strings.Repeat("\x00", 26) + "\x20",
		"name host.example.com.|types A MX RRSIG NSEC TYPE1234"},
	{50, "\x01\x01\x00\x0C\x04\xAA\xBB\xCC\xDD\x14\x17\x4E\xB2\x40\x9F\xE2\x8B\xCB\x48\x87\xA1\x83\x6F\x95\x7F\x0A" +
		"\x84\x25\xE2\x7B\x00\x07\x22\x01\x00\x00\x00\x02\x90",
		`number 1|number 1|number 12|string "\xaa\xbb\xcc\xdd"|` +
			`string "\x17N\xb2@\x9f\xe2\x8b\xcbH\x87\xa1\x83o\x95\x7f\n\x84%\xe2{"|` +
			"types NS SOA MX RRSIG DNSKEY NSEC3PARAM"},
	{64, "\x00\x01\x03foo\x07example\x03com\x00\x02\x9B\x00\x05hello",
		"number 1|name foo.example.com.|parameter 667 68656c6c6f"},
	{65, "\x00\x10\x03foo\x07example\x03org\x00\x00\x00\x00\x04\x00\x01\x00\x04\x00\x01\x00\x09\x02h2\x05h3-19" +
		"\x00\x04\x00\x04\xC0\x00\x02\x01",
		"number 16|name foo.example.org.|parameter 0 00010004|parameter 1 0268320568332d3139|parameter 4 c0000201"},
	{41, "\x00\x0A\x00\x08\x01\x02\x03\x04\x05\x06\x07\x08\x00\x0C\x00\x00",
		"parameter 10 0102030405060708|parameter 12 "},
	{41, "", ""},
	{41, "\x00\x0C\x00", "octets 000c00"},
	{1, "\xC0\x00\x02", "octets c00002"},
	{65280, "\x00\xFF", "octets 00ff"},
	{65280, "", "octets "},
	{16, strings.Repeat("\x02no", 40), strings.Repeat(`|string "no"`, 40)[1:]},
}

func TestDataHasTheFieldsOfItsType(t *testing.T) {
	for _, row := range dataOfRFCs {
		if fields := strings.Join(fieldsOf(t, row.octets, row.rtype), "|"); fields != row.fields {
			t.Errorf("%v: %s, not %s", row.rtype, fields, row.fields)
		}
	}
}

func TestAWindowOfAllTypes(t *testing.T) {
	csync := strings.Repeat("\xFF", 7) + "\x20" + strings.Repeat("\xFF", 32)
	data, err := NewData([]byte(csync), 0, len(csync), 62, ClassIN)
	if err != nil {
		t.Fatal(err)
	}
	fields, err := data.Fields()
	if len(fields) != 3 || err != nil {
		t.Fatal(fields, err)
	}
	types := fields[2].Types()
	if len(types) != 256 || types[0] != 65280 || types[255] != 65535 {
		t.Error(types)
	}
}

// The target of the MX is `mail` and a pointer to offset 12.
func TestFieldsHaveOffsetsInTheMessage(t *testing.T) {
	octets := "\x00\x07\x84\x00\x00\x01\x00\x01\x00\x00\x00\x00\x07example\x03com\x00\x00\x0F\x00\x01" +
		"\xC0\x0C\x00\x0F\x00\x01\x00\x00\x01\x2C\x00\x09\x00\x0A\x04mail\xC0\x0C"
	entries, err := parsed(t, octets).Entries()
	if len(entries) != 2 || err != nil {
		t.Fatal(entries, err)
	}
	fields, err := entries[1].Data().Fields()
	if len(fields) != 2 || err != nil {
		t.Fatal(fields, err)
	}
	number, name := fields[0], fields[1]
	if number.Row() != (FieldRow{Number: 10}) || number.Number() != 10 || len(number.Octets()) != 0 {
		t.Errorf("%+v", number.Row())
	}
	if name.Row() != (FieldRow{At: 43, Len: 7, Kind: FieldName}) || name.Name().String() != "mail.example.com." {
		t.Errorf("%+v, %v", name.Row(), name)
	}
	if number.Name().String() != "." || name.Address().IsValid() || number.Types() != nil || name.Number() != 0 {
		t.Error("a field is of two kinds")
	}
	if text := (Field{}).String(); text != "number 0" {
		t.Error(text)
	}
}

// forms are the types whose text has a word for each of their fields, with a letter for how a field is shown: `.` as it
// is, `r` as a type, `q` quoted, `g` as text, `x` in hexadecimal, `-` in hexadecimal or as a dash, `b` in base64, `h`
// in base32hex. The last letter is that of all fields that follow, too.
var forms = map[string]string{
	"A": ".", "NS": ".", "CNAME": ".", "SOA": ".", "PTR": ".", "HINFO": "q", "MX": ".", "TXT": "q", "AAAA": ".",
	"SRV": ".", "NAPTR": "..qqq.", "DNAME": ".", "DS": "...x", "SSHFP": "..x", "RRSIG": "r.......b", "NSEC": ".",
	"DNSKEY": "...b", "DHCID": "b", "NSEC3": "...-h.", "NSEC3PARAM": "...-", "TLSA": "...x", "SMIMEA": "...x",
	"CDS": "...x", "CDNSKEY": "...b", "CSYNC": ".", "URI": "..q", "CAA": ".gq",
}

// quoted is a character string as the lines have it (RFC 1035, 5.1).
func quoted(octets []byte) string {
	var builder strings.Builder
	for _, octet := range octets {
		switch {
		case octet == '"' || octet == '\\':
			builder.WriteString("\\" + string(rune(octet)))
		case octet >= 0x20 && octet < 0x7F:
			builder.WriteByte(octet)
		default:
			fmt.Fprintf(&builder, "\\%03d", octet)
		}
	}
	return `"` + builder.String() + `"`
}

// word is the word of a field as a letter says, or words.
func word(field Field, letter byte) string {
	octets := field.Octets()
	switch letter {
	case 'r':
		return Type(field.Number()).String()
	case 'q':
		return quoted(octets)
	case 'g':
		return string(octets)
	case '-':
		if len(octets) == 0 {
			return "-"
		}
		return hex.EncodeToString(octets)
	case 'x':
		return hex.EncodeToString(octets)
	case 'b':
		return base64.StdEncoding.EncodeToString(octets)
	case 'h':
		return strings.ToLower(base32.HexEncoding.WithPadding(base32.NoPadding).EncodeToString(octets))
	default:
		_, text, _ := strings.Cut(field.String(), " ")
		return text
	}
}

// textOfFields is the text of data whose fields are shown as letters say.
func textOfFields(fields []Field, letters string) string {
	words := make([]string, len(fields))
	for at, field := range fields {
		last := len(letters) - 1
		if at < last {
			last = at
		}
		words[at] = word(field, letters[last])
	}
	return strings.TrimRight(strings.Join(words, " "), " ")
}

// withEachRecord calls with the fields of each record, the mnemonic of its type, and the text of its data.
func withEachRecord(t *testing.T, call func(fields []Field, rtype, text string)) {
	t.Helper()
	withEach(t, func(octets []byte, lines string) {
		message, err := ParseMessage(octets)
		if err != nil {
			return
		}
		entries, err := message.Entries()
		if err != nil {
			t.Fatal(err)
		}
		shown := strings.Split(lines, "\n")[1:]
		for at, entry := range entries {
			words := strings.SplitN(shown[at], " ", 6)
			fields, err := entry.Data().Fields()
			if err != nil {
				t.Fatal(err)
			}
			if entry.Section() != SectionQuestion {
				call(fields, words[4], words[5])
			}
		}
	})
}

func TestFieldsAreTheWordsOfTheirLines(t *testing.T) {
	counts, sum := map[string]int{}, 0
	withEachRecord(t, func(fields []Field, rtype, text string) {
		letters, known := forms[rtype]
		if !known || strings.HasPrefix(text, `\#`) {
			return
		}
		if len(fields) == 1 && fields[0].Kind() == FieldAddress {
			if fields[0].Address() != netip.MustParseAddr(text) {
				t.Errorf("%v, not %s", fields[0], text)
			}
		} else if made := textOfFields(fields, letters); made != text {
			t.Errorf("%s: %s, not %s", rtype, made, text)
		}
		counts[rtype]++
		sum++
	})
	if len(counts) != len(forms) || sum <= 1300 {
		t.Errorf("%v", counts)
	}
}

// keys are the keys of parameters (RFC 9460, 14.3.2; RFC 9461, 5; RFC 9540, 4).
var keys = map[string]string{
	"mandatory": "0", "alpn": "1", "no-default-alpn": "2", "port": "3", "ipv4hint": "4", "ech": "5", "ipv6hint": "6",
	"dohpath": "7", "ohttp": "8",
}

// keyOf is the key of a parameter's word, in digits.
func keyOf(word string) string {
	name, _, _ := strings.Cut(word, "=")
	if key, known := keys[name]; known {
		return key
	}
	return strings.TrimPrefix(name, "key")
}

func TestParametersHaveTheKeysOfTheirLines(t *testing.T) {
	count := 0
	withEachRecord(t, func(fields []Field, rtype, text string) {
		if rtype != "SVCB" && rtype != "HTTPS" || strings.HasPrefix(text, `\#`) {
			return
		}
		words := strings.Split(text, " ")
		for at := 2; at < len(words); at++ {
			words[at] = keyOf(words[at])
		}
		made := make([]string, len(fields))
		for at, field := range fields {
			made[at] = word(field, '.')
			if field.Kind() == FieldParameter {
				made[at] = fmt.Sprint(field.Number())
			}
		}
		if strings.Join(made, " ") != strings.Join(words, " ") {
			t.Errorf("%v, not %s", made, text)
		}
		count++
	})
	if count != 35 {
		t.Errorf("%d records", count)
	}
}

func TestOptionsAndUnknownDataAreInTheirLines(t *testing.T) {
	ofOPT, others := 0, 0
	withEachRecord(t, func(fields []Field, rtype, text string) {
		if !strings.HasPrefix(text, `\#`) {
			return
		}
		made := ""
		for _, field := range fields {
			if rtype == "OPT" {
				made += fmt.Sprintf("%04x%04x", field.Number(), field.Row().Len)
			}
			made += hex.EncodeToString(field.Octets())
		}
		if digits := strings.Join(strings.Split(text, " ")[2:], ""); made != digits {
			t.Errorf("%s, not %s", made, digits)
		}
		if rtype == "OPT" {
			ofOPT++
		} else if others++; len(fields) != 1 || fields[0].Kind() != FieldOctets {
			t.Errorf("%v", fields)
		}
	})
	if ofOPT != 213 || others <= 10 {
		t.Errorf("%d, %d records", ofOPT, others)
	}
}
