package octseq

import (
	"fmt"
	"reflect"
	"strings"
	"testing"
)

// segmentOctets are a segment of each type: 65001 and 65002, 7, 1 and 2, 3 and 4.
const segmentOctets = "\x02\x02\x00\x00\xFD\xE9\x00\x00\xFD\xEA\x01\x01\x00\x00\x00\x07" +
	"\x03\x02\x00\x00\x00\x01\x00\x00\x00\x02\x04\x02\x00\x00\x00\x03\x00\x00\x00\x04"

func TestSegmentsOfAPath(t *testing.T) {
	path, err := ParseBGPASPath([]byte(segmentOctets), BGPSession{})
	wanted := BGPASPath{
		{BGPSequence, []uint32{65001, 65002}}, {BGPSet, []uint32{7}}, {BGPConfedSequence, []uint32{1, 2}},
		{BGPConfedSet, []uint32{3, 4}},
	}
	if !reflect.DeepEqual(path, wanted) || err != nil {
		t.Errorf("%v, %v", path, err)
	}
	if !reflect.DeepEqual(path.ASNs(), []uint32{65001, 65002, 7, 1, 2, 3, 4}) {
		t.Error(path.ASNs())
	}
	if path.String() != "65001 65002 {7} (1 2) [3,4]" {
		t.Error(path)
	}
	names := ""
	for kind := BGPSegmentKind(0); kind < 6; kind++ {
		names += kind.String() + " "
	}
	if names != "none set sequence confed-sequence confed-set none " {
		t.Error(names)
	}
}

func TestOriginsOfPaths(t *testing.T) {
	for _, row := range []struct {
		octets  string
		session BGPSession
		origin  uint32
	}{
		{segmentOctets, BGPSession{}, 0},
		{segmentOctets[:10], BGPSession{}, 65002},
		{segmentOctets[:16], BGPSession{}, 0},
		{"\x02\x01\xFD\xE9", BGPSession{TwoOctetASN: true}, 65001},
		{"", BGPSession{}, 0},
	} {
		path, err := ParseBGPASPath([]byte(row.octets), row.session)
		if err != nil {
			t.Error(err)
		}
		if origin, found := path.Origin(); origin != row.origin || found != (row.origin > 0) {
			t.Errorf("%v: %d, %v", path, origin, found)
		}
	}
}

// Two sequences in a row are two segments, of which one may have 255 AS numbers.
func TestSegmentsOfOneTypeAreApart(t *testing.T) {
	octets := "\x02\xFF" + strings.Repeat("\x00\x01", 255) + "\x02\x01\x00\x02"
	path, err := ParseBGPASPath([]byte(octets), BGPSession{TwoOctetASN: true})
	if len(path) != 2 || len(path[0].ASNs) != 255 || len(path[1].ASNs) != 1 || err != nil {
		t.Errorf("%v, %v", path, err)
	}
}

func TestOctetsThatAreNoPathAreRefused(t *testing.T) {
	for _, octets := range []string{
		"\x02", "\x02\x00", "\x05\x01\x00\x00\x00\x01", "\x02\x01\x00\x00\x00", "\x02\x01\x00\x00\x00\x01\x00",
	} {
		if path, err := ParseBGPASPath([]byte(octets), BGPSession{}); path != nil || err != ErrMalformed {
			t.Errorf("%q: %v, %v", octets, path, err)
		}
	}
	if _, err := ParseBGPASPath([]byte(segmentOctets), BGPSession{TwoOctetASN: true}); err != ErrMalformed {
		t.Error(err)
	}
}

// pathWords are the words of a path in lines: each segment's type, and its AS numbers.
func pathWords(path BGPASPath) string {
	words := ""
	for _, segment := range path {
		words += " " + segment.Kind.String()
		for _, asn := range segment.ASNs {
			words += fmt.Sprintf(" %d", asn)
		}
	}
	return words
}

// comparePath compares a path with the first line of its attribute. A value that hasn't the form of its type is shown
// in hexadecimal. It answers whether there is a path.
func comparePath(t *testing.T, lines []string, path BGPASPath, found bool, err error) bool {
	t.Helper()
	for _, line := range lines {
		words := strings.SplitN(line, " ", 3)
		if words[0] != "attribute" || !strings.HasPrefix(words[2]+" ", "AS_PATH ") {
			continue
		}
		shown := strings.TrimPrefix(words[2], "AS_PATH")
		if strings.HasPrefix(shown, ` \#`) {
			if !found || path != nil || err != ErrMalformed {
				t.Errorf("%v, %v, %v, not %s", path, found, err, line)
			}
			return false
		}
		if made := pathWords(path); made != shown || !found || err != nil {
			t.Errorf("%s, %v, %v, not %s", made, found, err, line)
		}
		return true
	}
	if path != nil || found || err != nil {
		t.Errorf("%v, %v, %v, and no line", path, found, err)
	}
	return false
}

func TestPathsOfMessagesHaveTheirLines(t *testing.T) {
	count := 0
	withEachBGPMessage(t, func(octets []byte, session BGPSession, lines string) {
		message, err := ParseBGPMessage(octets, session)
		if err != nil {
			return
		}
		path, found, err := message.ASPath()
		if comparePath(t, strings.Split(lines, "\n"), path, found, err) {
			count++
		}
	})
	if count != 152 {
		t.Errorf("%d paths", count)
	}
	if _, _, err := (BGPMessage{}).ASPath(); err != ErrMalformed {
		t.Error(err)
	}
}
