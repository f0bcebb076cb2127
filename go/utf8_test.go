package octseq

import (
	"errors"
	"io"
	"math/rand"
	"strings"
	"testing"
	"testing/iotest"
	"unicode/utf8"
)

// The tables 3-8 to 3-11 of the Unicode Standard, 15.0, and the example of its section 5.22: octets, and their text
// after each maximal subpart became one U+FFFD.
var tables = []struct{ octets, text string }{
	{"\xC0\xAF\xE0\x80\xBF\xF0\x81\x82\x41", strings.Repeat("\uFFFD", 8) + "A"},
	{"\xED\xA0\x80\xED\xBF\xBF\xED\xAF\x41", strings.Repeat("\uFFFD", 8) + "A"},
	{"\xF4\x91\x92\x93\xFF\x41\x80\xBF\x42", "\uFFFD\uFFFD\uFFFD\uFFFD\uFFFDA\uFFFD\uFFFDB"},
	{"\xE1\x80\xE2\xF0\x91\x92\xF1\xBF\x41", "\uFFFD\uFFFD\uFFFD\uFFFDA"},
	{"\x61\xF1\x80\x80\xE1\x80\xC2\x62\x80\x63\x80\xBF\x64", "a\uFFFD\uFFFD\uFFFDb\uFFFDc\uFFFD\uFFFDd"},
	{"h\u00E9\u20AC\U0001F600", "h\u00E9\u20AC\U0001F600"},
	{"", ""},
}

func TestLossyHasTheTextsOfTheTables(t *testing.T) {
	for _, row := range tables {
		if text := Lossy([]byte(row.octets)); text != row.text {
			t.Errorf("% X: %+q, not %+q", row.octets, text, row.text)
		}
	}
}

// subpart is how many octets the maximal subpart has that ill-formed octets begin with, and whether more octets could
// make it a character: the longest front that isn't a full character for the standard library, or else one octet.
func subpart(octets []byte) (length int, ended bool) {
	length = 1
	for length < len(octets) && !utf8.FullRune(octets[:length+1]) {
		length++
	}
	return length, length == len(octets) && !utf8.FullRune(octets)
}

// judged is the text of octets by the standard library's characters, and the first fault.
func judged(octets []byte) (text string, fault Fault, found bool) {
	var builder strings.Builder
	for at := 0; at < len(octets); {
		character, length := utf8.DecodeRune(octets[at:])
		if character == utf8.RuneError && length == 1 {
			var ended bool
			length, ended = subpart(octets[at:])
			if !found && ended {
				fault, found = Fault{at, 0}, true
			}
			if !found {
				fault, found = Fault{at, length}, true
			}
		}
		builder.WriteRune(character)
		at += length
	}
	return builder.String(), fault, found
}

// judge fails where the package and the standard library don't answer alike.
func judge(t *testing.T, octets ...byte) {
	t.Helper()
	text, fault, found := judged(octets)
	if got := Lossy(octets); got != text {
		t.Errorf("% X: %+q, not %+q", octets, got, text)
	}
	if gotFault, gotFound := FirstFault(octets); gotFault != fault || gotFound != found {
		t.Errorf("% X: %v %v, not %v %v", octets, gotFault, gotFound, fault, found)
	}
	if IsUTF8(octets) != utf8.Valid(octets) {
		t.Errorf("% X: is UTF-8: %v", octets, IsUTF8(octets))
	}
}

// ends are octets at the ends of the ranges that a character's octets are in.
var ends = []byte{
	0x00, 0x41, 0x7F, 0x80, 0x8F, 0x90, 0x9F, 0xA0, 0xBF, 0xC0, 0xC1, 0xC2, 0xDF, 0xE0, 0xE1, 0xEC, 0xED, 0xEE, 0xEF,
	0xF0, 0xF1, 0xF3, 0xF4, 0xF5, 0xFF,
}

func TestAllStringsOfTwoOctets(t *testing.T) {
	judge(t)
	for one := 0; one < 256; one++ {
		judge(t, byte(one))
		for other := 0; other < 256; other++ {
			judge(t, byte(one), byte(other))
		}
	}
}

func TestThreeAndFourOctetsAtTheEndsOfTheirRanges(t *testing.T) {
	for _, one := range ends {
		for _, other := range ends {
			for _, third := range ends {
				judge(t, one, other, third)
				for _, fourth := range []byte{0x41, 0x80, 0xBF, 0xC2, 0xF0} {
					judge(t, one, other, third, fourth)
				}
			}
		}
	}
}

func TestPiecesAreTogetherTheTextOfTheWhole(t *testing.T) {
	numbers := rand.New(rand.NewSource(1))
	for count := 0; count < 20000; count++ {
		octets := make([]byte, numbers.Intn(24))
		for at := range octets {
			octets[at] = ends[numbers.Intn(len(ends))]
		}
		text, _, _ := judged(octets)
		var decoder LossyDecoder
		var builder strings.Builder
		for rest := octets; len(rest) > 0; {
			length := 1 + numbers.Intn(len(rest))
			builder.WriteString(decoder.Feed(rest[:length]))
			rest = rest[length:]
		}
		builder.WriteString(decoder.End())
		if builder.String() != text {
			t.Errorf("% X: %+q, not %+q", octets, builder.String(), text)
		}
	}
}

func TestTheReaderHasTheTextOfItsSource(t *testing.T) {
	for _, row := range tables {
		reader := NewLossyReader(iotest.OneByteReader(strings.NewReader(row.octets)))
		if text, err := io.ReadAll(reader); string(text) != row.text || err != nil {
			t.Errorf("% X: %+q, %v", row.octets, text, err)
		}
	}
	long := strings.Repeat("\u20AC\xE2\x82", 5000)
	reader := NewLossyReader(strings.NewReader(long))
	text, err := io.ReadAll(iotest.OneByteReader(reader))
	if string(text) != strings.Repeat("\u20AC\uFFFD", 5000) || err != nil {
		t.Errorf("%d octets, %v", len(text), err)
	}
}

func TestTheReaderPassesErrorsOn(t *testing.T) {
	wrong := errors.New("wrong")
	reader := NewLossyReader(io.MultiReader(strings.NewReader("a\xFF"), iotest.ErrReader(wrong)))
	if text, err := io.ReadAll(reader); string(text) != "a\uFFFD" || err != wrong {
		t.Errorf("%q, %v", text, err)
	}
	if count, err := reader.Read(nil); count != 0 || err != wrong {
		t.Errorf("%d, %v", count, err)
	}
}

func TestFaultsAreErrors(t *testing.T) {
	for fault, text := range map[Fault]string{
		{2, 1}: "octseq: ill-formed UTF-8 at offset 2, 1 octets",
		{2, 0}: "octseq: the octets end within a character that begins at offset 2",
	} {
		if fault.Error() != text {
			t.Errorf("%q", fault.Error())
		}
	}
}
