package octseq

import (
	"encoding/binary"
	"os"
	"strings"
	"testing"
)

// 10.1.0.0/16 is withdrawn, 10.0.0.0/8 is announced, and 2001::/16 isn't reached; and 10.0.0.0/8 is announced, with the
// path id 7.
const (
	marker       = "\xFF\xFF\xFF\xFF\xFF\xFF\xFF\xFF\xFF\xFF\xFF\xFF\xFF\xFF\xFF\xFF"
	updateOctets = marker + "\x00\x29\x02\x00\x03\x10\x0A\x01\x00\x0D\x40\x01\x01\x00" +
		"\x80\x0F\x06\x00\x02\x01\x10\x20\x01\x08\x0A"
	pathOctets = marker + "\x00\x1D\x02\x00\x00\x00\x00\x00\x00\x00\x07\x08\x0A"
)

func TestPartsOfABGPMessage(t *testing.T) {
	message, err := ParseBGPMessage([]byte(updateOctets), BGPSession{})
	if err != nil {
		t.Fatal(err)
	}
	parts, err := message.Parts()
	wanted := []string{"withdrawn 10.1.0.0/16", "attribute 1", "attribute 15", "unreached 2001::/16",
		"announced 10.0.0.0/8"}
	if len(parts) != len(wanted) || err != nil {
		t.Fatalf("%v, %v", parts, err)
	}
	for at, part := range parts {
		if part.String() != wanted[at] {
			t.Errorf("%v, not %s", part, wanted[at])
		}
	}
	row := BGPRow{At: 37, Len: 2, Kind: BGPUnreached, AFI: 2, SAFI: 1, Bits: 16}
	if parts[3].Row() != row || string(parts[3].Octets()) != "\x20\x01" {
		t.Errorf("%v, not %v", parts[3].Row(), row)
	}
}

func TestSessionsOfBGPMessages(t *testing.T) {
	for families := uint32(0); families <= BGPAllFamilies; families += BGPIPv4Unicast {
		message, err := ParseBGPMessage([]byte(pathOctets), BGPSession{AddPath: families})
		if families&BGPIPv4Unicast == 0 {
			if err != ErrMalformed {
				t.Errorf("%d: %v", families, err)
			}
		} else if text := message.String(); text != "update\nannounced 10.0.0.0/8 path 7\n" || err != nil {
			t.Errorf("%d: %s%v", families, text, err)
		}
	}
	long := marker + "\x10\x01\x03\x06\x02" + strings.Repeat("\x00", 4097-21)
	if _, err := ParseBGPMessage([]byte(long), BGPSession{}); err != ErrMalformed {
		t.Error(err)
	}
	if _, err := ParseBGPMessage([]byte(long), BGPSession{ExtendedMessage: true}); err != nil {
		t.Error(err)
	}
}

// Its parts are at the offsets 19, 21, 24, 26, 30 and 39: the length of the withdrawn prefixes and one of them, that of
// the attributes and two of them, and a prefix.
func TestUpdatesStopAtTheFirstPartThatIsNotThere(t *testing.T) {
	for length := range updateOctets {
		if offset, found := BGPMessageFault([]byte(updateOctets[:length]), BGPSession{}); offset != 0 || !found {
			t.Errorf("%d octets: %d, %v", length, offset, found)
		}
	}
	for _, row := range []struct {
		at    int
		octet byte
		offset int
	}{
		{0, 0, 0}, {16, 1, 0}, {18, 6, 0}, {19, 1, 19}, {21, 33, 21}, {25, 255, 24}, {28, 255, 26}, {32, 255, 30},
		{39, 16, 39}, {39, 33, 39},
	} {
		octets := []byte(updateOctets)
		octets[row.at] = row.octet
		if offset, found := BGPMessageFault(octets, BGPSession{}); offset != row.offset || !found {
			t.Errorf("%v: %d, %v", row, offset, found)
		}
	}
	if offset, found := BGPMessageFault([]byte(updateOctets), BGPSession{}); offset != len(updateOctets) || found {
		t.Error(offset, found)
	}
	if offset, found := BGPMessageFault([]byte(pathOctets), BGPSession{}); offset != 28 || !found {
		t.Error(offset, found)
	}
}

// An OPEN of one parameter, which is at offset 29, a KEEPALIVE, a NOTIFICATION and a ROUTE-REFRESH: what follows the
// length, and the offset of the fault, or 0 where it is a message.
func TestOtherMessagesStopAfterTheirHeaderOrAtAParameter(t *testing.T) {
	for _, row := range []struct {
		after string
		offset int
	}{
		{"\x01\x04\xFC\x00\x00\xB4\x0A\x00\x00\x01\x04\x02\x02\x06\x00", 0},
		{"\x01\x04\xFC\x00\x00\xB4\x0A\x00\x00\x01\x04\x02\x03\x06\x00", 29},
		{"\x01\x04\xFC\x00\x00\xB4\x0A\x00\x00\x01\x05\x02\x02\x06\x00", 28},
		{"\x04", 0},
		{"\x04\x00", 19},
		{"\x03\x06\x02", 0},
		{"\x03\x06", 19},
		{"\x05\x00\x01\x00\x01", 0},
		{"\x05\x00\x01\x00", 19},
	} {
		octets := []byte(marker + "\x00" + string(rune(18+len(row.after))) + row.after)
		offset, found := BGPMessageFault(octets, BGPSession{})
		if found != (row.offset > 0) || found && offset != row.offset {
			t.Errorf("% X: %d, %v", row.after, offset, found)
		}
	}
}

func TestBGPMessagesAndPartsHaveTheirLines(t *testing.T) {
	withEachBGPMessage(t, func(octets []byte, session BGPSession, lines string) {
		compareBGPMessage(t, octets, session, lines)
	})
}

// withEachBGPMessage calls with each of 318 messages, its session and its lines. In stdin a message is after a number
// that says its session, and its length in two octets; in stdout an empty line is after its lines.
func withEachBGPMessage(t *testing.T, call func(octets []byte, session BGPSession, lines string)) {
	t.Helper()
	stream, err := os.ReadFile("../crates/octseq_bgp_messages/stdin")
	if err != nil {
		t.Fatal(err)
	}
	text, err := os.ReadFile("../crates/octseq_bgp_messages/stdout")
	if err != nil {
		t.Fatal(err)
	}
	shown := strings.SplitAfter(string(text), "\n\n")
	count := 0
	for ; len(stream) > 0; count++ {
		end := 3 + int(binary.BigEndian.Uint16(stream[1:]))
		session := BGPSession{TwoOctetASN: stream[0]&1 != 0, ExtendedMessage: stream[0]&4 != 0}
		if stream[0]&2 != 0 {
			session.AddPath = BGPAllFamilies
		}
		call(stream[3:end], session, strings.TrimSuffix(shown[count], "\n"))
		stream = stream[end:]
	}
	if count != 318 || !strings.HasPrefix(shown[count], "cuts ") {
		t.Errorf("%d messages", count)
	}
}

// compareBGPMessage compares a message, its text and its parts with its lines.
func compareBGPMessage(t *testing.T, octets []byte, session BGPSession, lines string) {
	t.Helper()
	message, err := ParseBGPMessage(octets, session)
	if offset, found := BGPMessageFault(octets, session); found != (err != nil) || offset > len(octets) {
		t.Errorf("%d, %v, not %s", offset, found, lines)
	}
	if err != nil {
		if err != ErrMalformed || lines != "malformed\n" {
			t.Errorf("%v, not %s", err, lines)
		}
		return
	}
	if text, err := message.Text(); text != lines || err != nil {
		t.Errorf("%s%v, not %s", text, err, lines)
	}
	parts, err := message.Parts()
	shown := strings.Split(lines, "\n")[1:]
	if !strings.HasPrefix(lines, "update\n") {
		shown = nil
	} else {
		shown = shown[:len(shown)-1]
	}
	if len(parts) != len(shown) || err != nil {
		t.Errorf("%d parts, %v, not %s", len(parts), err, lines)
		return
	}
	for at, part := range parts {
		if part.Kind() != BGPAttribute && part.String() != shown[at] {
			t.Errorf("%v, not %s", part, shown[at])
		}
	}
}
