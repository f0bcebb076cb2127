package octseq

import (
	"fmt"
	"net/netip"
)

// The address families whose prefixes are read (RFC 4760, 5 and 6), to be added up.
const (
	BGPIPv4Unicast   uint32 = 4
	BGPIPv4Multicast uint32 = 8
	BGPIPv6Unicast   uint32 = 16
	BGPIPv6Multicast uint32 = 32
	BGPAllFamilies   uint32 = 60
)

// BGPSession is how the messages of a session are read. The zero value has AS numbers of four octets, no path ids, and
// messages of at most 4,096 octets.
type BGPSession struct {
	TwoOctetASN     bool   // AS numbers have two octets: RFC 4271, not RFC 6793
	AddPath         uint32 // the families whose prefixes have path ids (RFC 7911)
	ExtendedMessage bool   // messages may have 65,535 octets (RFC 8654)
}

// bgpSessionOf is the session that octseq.h has as flags.
func bgpSessionOf(flags uint32) BGPSession {
	return BGPSession{TwoOctetASN: flags&1 != 0, AddPath: flags & BGPAllFamilies, ExtendedMessage: flags&2 != 0}
}

// flags are the session as octseq.h has it.
func (session BGPSession) flags() uint32 {
	flags := session.AddPath & BGPAllFamilies
	if session.TwoOctetASN {
		flags |= 1
	}
	if session.ExtendedMessage {
		flags |= 2
	}
	return flags
}

// BGPKind is what a row is of.
type BGPKind uint32

// The kinds of rows.
const (
	BGPWithdrawn BGPKind = 0 // a prefix of the withdrawn routes
	BGPAttribute BGPKind = 1 // a path attribute
	BGPAnnounced BGPKind = 2 // a prefix after the attributes
	BGPReached   BGPKind = 3 // a prefix of an MP_REACH_NLRI (RFC 4760, 3)
	BGPUnreached BGPKind = 4 // a prefix of an MP_UNREACH_NLRI (RFC 4760, 4)
)

// String is the kind's name, in small letters.
func (kind BGPKind) String() string {
	names := [...]string{"withdrawn", "attribute", "announced", "reached", "unreached"}
	if int64(kind) < int64(len(names)) {
		return names[kind]
	}
	return "none"
}

// BGPRow is a prefix or a path attribute of an UPDATE as numbers. Offsets are counted from the first octet of the
// message.
type BGPRow struct {
	At        int     // where the value of the attribute begins, or the octets of the prefix, after its length
	Len       int     // how many octets there are
	Kind      BGPKind // what it is
	PathID    uint32  // the path id, or 0
	HasPathID bool    // whether a prefix has a path id
	AFI       uint16  // 1 of an IPv4 prefix, 2 of an IPv6 one; 0 of an attribute
	SAFI      uint8   // 1 of a unicast prefix, 2 of a multicast one; 0 of an attribute
	Bits      uint8   // the length of the prefix in bits; 0 of an attribute
	Flags     uint8   // the flags of the attribute; 0 of a prefix
	TypeCode  uint8   // the type of the attribute; 0 of a prefix
}

// BGPMessage is a message of BGP (RFC 4271), which was checked once.
type BGPMessage struct {
	octets  []byte
	session BGPSession
	count   int
}

// ParseBGPMessage is the message of a session that octets are. It copies them. ErrMalformed: they are none;
// BGPMessageFault tells where they stop being one.
func ParseBGPMessage(octets []byte, session BGPSession) (BGPMessage, error) {
	own := append([]byte(nil), octets...)
	count, err := bgpRowCount(own, session.flags())
	if err != nil {
		return BGPMessage{}, err
	}
	return BGPMessage{own, session, count}, nil
}

// BGPMessageFault tells where octets stop being a message of a session, and whether they do. The offset is 0 where they
// don't begin with the header of a message of this length; else where the first part is that isn't there: 19 for what
// each message of its type begins with (and for what follows the header of a KEEPALIVE), or the offset of a parameter
// of an OPEN, a length, a prefix or an attribute of an UPDATE. Of a message it is the end.
func BGPMessageFault(octets []byte, session BGPSession) (offset int, found bool) {
	return bgpMessageFault(octets, session.flags())
}

// Octets is a copy of the message's octets.
func (message BGPMessage) Octets() []byte {
	return append([]byte(nil), message.octets...)
}

// Session is the session that the message was read in.
func (message BGPMessage) Session() BGPSession {
	return message.session
}

// Parts are the prefixes and attributes of an UPDATE, in their order. The prefixes of an MP_REACH_NLRI or an
// MP_UNREACH_NLRI follow it, if its value has the form of its type. Other messages have none. No error is known but of
// a BGPMessage that is zero.
func (message BGPMessage) Parts() ([]BGPPart, error) {
	rows, err := bgpRows(message.octets, message.session.flags(), message.count)
	parts := make([]BGPPart, len(rows))
	for at, row := range rows {
		parts[at] = BGPPart{row, message.octets}
	}
	return parts, err
}

// ASPath is the AS path of the message, that of its first AS_PATH (RFC 4271, 5.1.2), and whether it has such an
// attribute. ErrMalformed: that hasn't the form of its type.
func (message BGPMessage) ASPath() (path BGPASPath, found bool, err error) {
	parts, err := message.Parts()
	if err != nil {
		return nil, false, err
	}
	return asPathOf(parts, message.session)
}

// Text is a line for each part of the message. ErrUnshown.
func (message BGPMessage) Text() (string, error) {
	return bgpMessageText(message.octets, message.session.flags())
}

// String is the text, or that of the error.
func (message BGPMessage) String() string {
	return shown(message.Text())
}

// BGPPart is a prefix or a path attribute of an UPDATE.
type BGPPart struct {
	row    BGPRow
	octets []byte
}

// Row is the part as numbers.
func (part BGPPart) Row() BGPRow {
	return part.row
}

// Kind is what the part is.
func (part BGPPart) Kind() BGPKind {
	return part.row.Kind
}

// Octets is a copy of the octets of the attribute's value, or of the prefix.
func (part BGPPart) Octets() []byte {
	row := part.row
	return append([]byte(nil), part.octets[row.At:row.At+row.Len]...)
}

// Prefix is the prefix, whose bits after its length are 0. That of an attribute isn't valid.
func (part BGPPart) Prefix() netip.Prefix {
	return prefixOf(part.Octets(), part.row.AFI, part.row.Bits)
}

// prefixOf is the prefix of an AFI whose octets these are.
func prefixOf(prefix []byte, afi uint16, bits uint8) netip.Prefix {
	var address netip.Addr
	switch afi {
	case 1:
		var octets [4]byte
		copy(octets[:], prefix)
		address = netip.AddrFrom4(octets)
	case 2:
		var octets [16]byte
		copy(octets[:], prefix)
		address = netip.AddrFrom16(octets)
	}
	return netip.PrefixFrom(address, int(bits)).Masked()
}

// String is the kind of the part, and the prefix with its path id.
func (part BGPPart) String() string {
	row := part.row
	switch {
	case row.Kind == BGPAttribute:
		return fmt.Sprintf("attribute %d", row.TypeCode)
	case row.HasPathID:
		return fmt.Sprintf("%v %v path %d", row.Kind, part.Prefix(), row.PathID)
	default:
		return fmt.Sprintf("%v %v", row.Kind, part.Prefix())
	}
}
