package octseq

import (
	"fmt"
	"strings"
)

// bgpTypeASPath is the type of the attribute AS_PATH (RFC 4271, 5.1.2).
const bgpTypeASPath = 2

// BGPSegmentKind is the type of a segment of an AS path (RFC 4271, 4.3; RFC 5065, 3).
type BGPSegmentKind uint16

// The types of segments.
const (
	BGPSet            BGPSegmentKind = 1 // AS_SET: the route went through these, in no known order
	BGPSequence       BGPSegmentKind = 2 // AS_SEQUENCE: it went through these, the last one first
	BGPConfedSequence BGPSegmentKind = 3 // AS_CONFED_SEQUENCE: a sequence of members of the local confederation
	BGPConfedSet      BGPSegmentKind = 4 // AS_CONFED_SET: a set of members of the local confederation
)

// String is the type's name, in small letters.
func (kind BGPSegmentKind) String() string {
	names := [...]string{"none", "set", "sequence", "confed-sequence", "confed-set"}
	if int(kind) < len(names) {
		return names[kind]
	}
	return names[0]
}

// BGPSegment is a segment of an AS path.
type BGPSegment struct {
	Kind BGPSegmentKind // its type
	ASNs []uint32       // its AS numbers, at least one, in the order of the octets
}

// String is the segment's AS numbers: `1 2` of a sequence, `{1,2}` of a set, `(1 2)` and `[1,2]` of those of a
// confederation.
func (segment BGPSegment) String() string {
	words := make([]string, len(segment.ASNs))
	for at, asn := range segment.ASNs {
		words[at] = fmt.Sprint(asn)
	}
	switch segment.Kind {
	case BGPSet:
		return "{" + strings.Join(words, ",") + "}"
	case BGPConfedSequence:
		return "(" + strings.Join(words, " ") + ")"
	case BGPConfedSet:
		return "[" + strings.Join(words, ",") + "]"
	default:
		return strings.Join(words, " ")
	}
}

// BGPASPath is an AS path: its segments. A path within one's own AS has none.
type BGPASPath []BGPSegment

// ParseBGPASPath is the AS path that octets are: those of the value of an AS_PATH of a session. Those of an AS4_PATH
// (RFC 6793, 3) and of an AS_PATH of a RIB are read in the session that is zero. ErrMalformed: they are none.
func ParseBGPASPath(octets []byte, session BGPSession) (BGPASPath, error) {
	return bgpSegments(octets, session.flags())
}

// asPathOf is the AS path of the first AS_PATH among parts of a session, and whether there is one.
func asPathOf(parts []BGPPart, session BGPSession) (path BGPASPath, found bool, err error) {
	for _, part := range parts {
		if part.row.Kind == BGPAttribute && part.row.TypeCode == bgpTypeASPath {
			path, err := ParseBGPASPath(part.Octets(), session)
			return path, true, err
		}
	}
	return nil, false, nil
}

// ASNs are all AS numbers of the path, whatever segments they are in.
func (path BGPASPath) ASNs() []uint32 {
	var asns []uint32
	for _, segment := range path {
		asns = append(asns, segment.ASNs...)
	}
	return asns
}

// Origin is the AS number that the route began with, and whether it is known: the last one, if it is in a sequence.
func (path BGPASPath) Origin() (asn uint32, found bool) {
	if len(path) == 0 {
		return 0, false
	}
	last := path[len(path)-1]
	if last.Kind != BGPSequence || len(last.ASNs) == 0 {
		return 0, false
	}
	return last.ASNs[len(last.ASNs)-1], true
}

// String is the path's segments.
func (path BGPASPath) String() string {
	words := make([]string, len(path))
	for at, segment := range path {
		words[at] = segment.String()
	}
	return strings.Join(words, " ")
}
