package octseq

import (
	"encoding/binary"
	"net/netip"
	"strconv"
)

// MRTHeader is the header of a record of an MRT file (RFC 6396, 2).
type MRTHeader struct {
	Len       int    // how many octets the record has, with its header, which has 12
	Timestamp uint32 // its time, in seconds since 1970
	TypeCode  uint16 // its type: 13 TABLE_DUMP_V2, 16 BGP4MP, 17 BGP4MP_ET, or another
	Subtype   uint16 // its subtype
}

// ParseMRTHeader is the header at the front of octets. A whole record is there exactly if its length is at most theirs.
// So who reads a file takes 12 octets, then as many more as the header says. A length may be up to 4,294,967,307.
// ErrMalformed: there are fewer than 12 octets.
func ParseMRTHeader(octets []byte) (MRTHeader, error) {
	return mrtHeader(octets)
}

// MRTRecord is a record of an MRT file (RFC 6396, RFC 8050): an *MRTPeerIndexTable, an *MRTRIB, an *MRTMessage, an
// *MRTStateChange or an *MRTOpaqueRecord.
type MRTRecord interface {
	// Header is the record's header, with its time, its type and its subtype.
	Header() MRTHeader
	// Octets is a copy of the record's octets, with its header.
	Octets() []byte
	isMRTRecord()
}

// mrtRecord is what all records have.
type mrtRecord struct {
	octets []byte
	header MRTHeader
	row    mrtRow
}

// Header is the record's header, with its time, its type and its subtype.
func (record mrtRecord) Header() MRTHeader {
	return record.header
}

// Octets is a copy of the record's octets, with its header.
func (record mrtRecord) Octets() []byte {
	return append([]byte(nil), record.octets...)
}

func (record mrtRecord) isMRTRecord() {}

// part is a copy of the octets of the first row.
func (record mrtRecord) part() []byte {
	row := record.row
	return append([]byte(nil), record.octets[row.at:row.at+row.length]...)
}

// mrtKind is what a row is of.
type mrtKind uint32

// The kinds of rows of a record that come first.
const (
	mrtTable       mrtKind = 1
	mrtRIB         mrtKind = 3
	mrtMessage     mrtKind = 5
	mrtStateChange mrtKind = 6
)

// mrtRow is a part of a record, as octseq_mrt_row has it. What a kind doesn't have is 0.
type mrtRow struct {
	at, length, count     int
	kind                  mrtKind
	id, time              uint32
	asn, localASN         uint32
	session               uint32
	oldState, newState    MRTState
	index, afi            uint16
	safi, bits            uint8
	hasNumber             bool
	address, localAddress netip.Addr
}

// ParseMRTRecord is the record that octets are, all of them, with its header. It copies them. ErrMalformed: they aren't
// one.
func ParseMRTRecord(octets []byte) (MRTRecord, error) {
	return mrtRecordOf(append([]byte(nil), octets...), nil)
}

// mrtRecordOf is the record that octets are, after a table. It keeps them.
func mrtRecordOf(octets []byte, table *MRTPeerIndexTable) (MRTRecord, error) {
	header, err := mrtHeader(octets)
	if err != nil {
		return nil, err
	}
	// Most entries have more octets than 32. No record of another type has more than one part.
	first := 1
	if header.TypeCode == 13 {
		first += len(octets) / 32
	}
	rows, err := mrtRows(octets, first)
	if err != nil {
		return nil, err
	}
	record := mrtRecord{octets, header, rows[0]}
	switch rows[0].kind {
	case mrtTable:
		return &MRTPeerIndexTable{record, rows[1:]}, nil
	case mrtRIB:
		return &MRTRIB{record, rows[1:], table}, nil
	case mrtMessage:
		return &MRTMessage{record}, nil
	case mrtStateChange:
		return &MRTStateChange{record}, nil
	default:
		return &MRTOpaqueRecord{record}, nil
	}
}

// MRTOpaqueRecord is a record of another type or subtype, or without the form of its own.
type MRTOpaqueRecord struct {
	mrtRecord
}

// Body is a copy of the octets after the record's header.
func (record *MRTOpaqueRecord) Body() []byte {
	return record.part()
}

// MRTPeerIndexTable is the peers that the entries of the RIBs after it came from (RFC 6396, 4.3.1).
type MRTPeerIndexTable struct {
	mrtRecord
	peers []mrtRow
}

// CollectorBGPID is the BGP identifier of the collector.
func (table *MRTPeerIndexTable) CollectorBGPID() netip.Addr {
	return bgpIDOf(table.row.id)
}

// ViewName is the name of the view, often none.
func (table *MRTPeerIndexTable) ViewName() []byte {
	return table.part()
}

// Peers are the peers. An entry tells its peer by its index here.
func (table *MRTPeerIndexTable) Peers() []MRTPeer {
	peers := make([]MRTPeer, len(table.peers))
	for at, row := range table.peers {
		peers[at] = peerOf(row)
	}
	return peers
}

// MRTPeer is a peer of a collector.
type MRTPeer struct {
	BGPID   netip.Addr // its BGP identifier
	Address netip.Addr // its address
	ASN     uint32     // its AS number
}

func peerOf(row mrtRow) MRTPeer {
	return MRTPeer{bgpIDOf(row.id), row.address, row.asn}
}

// bgpIDOf is a BGP identifier (RFC 4271, 4.2) in the form of an address.
func bgpIDOf(number uint32) netip.Addr {
	var octets [4]byte
	binary.BigEndian.PutUint32(octets[:], number)
	return netip.AddrFrom4(octets)
}

// MRTRIB is the routes to a prefix (RFC 6396, 4.3.2; RFC 8050, 4).
type MRTRIB struct {
	mrtRecord
	entries []mrtRow
	table   *MRTPeerIndexTable
}

// SequenceNumber is the RIB's sequence number.
func (rib *MRTRIB) SequenceNumber() uint32 {
	return rib.row.id
}

// Prefix is the RIB's prefix, whose bits after its length are 0.
func (rib *MRTRIB) Prefix() netip.Prefix {
	return prefixOf(rib.part(), rib.row.afi, rib.row.bits)
}

// IsMulticast tells whether the RIB is of a multicast family.
func (rib *MRTRIB) IsMulticast() bool {
	return rib.row.safi == 2
}

// Table is the table of peers that came before the RIB in its file. It is nil where there was none.
func (rib *MRTRIB) Table() *MRTPeerIndexTable {
	return rib.table
}

// EntryCount is how many entries there are.
func (rib *MRTRIB) EntryCount() int {
	return len(rib.entries)
}

// Entries are the RIB's entries, with their attributes. No error is known but of an MRTRIB that is zero.
func (rib *MRTRIB) Entries() ([]MRTRIBEntry, error) {
	rows, err := mrtAttributes(rib.octets)
	if err != nil {
		return nil, err
	}
	attributes := make([]BGPPart, len(rows))
	for at, row := range rows {
		attributes[at] = BGPPart{row, rib.octets}
	}
	entries := make([]MRTRIBEntry, len(rib.entries))
	for at, row := range rib.entries {
		entries[at] = MRTRIBEntry{row, rib.table, attributes[:row.count:row.count]}
		attributes = attributes[row.count:]
	}
	return entries, nil
}

// MRTRIBEntry is a route to the prefix of a RIB (RFC 6396, 4.3.4).
type MRTRIBEntry struct {
	row        mrtRow
	table      *MRTPeerIndexTable
	attributes []BGPPart
}

// OriginatedTime is when the route came, in seconds since 1970.
func (entry MRTRIBEntry) OriginatedTime() uint32 {
	return entry.row.time
}

// PathID is the route's path id, and whether its RIB has them (RFC 8050, 4).
func (entry MRTRIBEntry) PathID() (id uint32, found bool) {
	return entry.row.id, entry.row.hasNumber
}

// PeerIndex is the number of the route's peer in the table, from 0 on.
func (entry MRTRIBEntry) PeerIndex() int {
	return int(entry.row.index)
}

// Peer is the peer that the route came from, and whether it is known: no table may have come before the RIB, and a
// table may not have the peer's number.
func (entry MRTRIBEntry) Peer() (peer MRTPeer, found bool) {
	if entry.table == nil || entry.PeerIndex() >= len(entry.table.peers) {
		return MRTPeer{}, false
	}
	return peerOf(entry.table.peers[entry.PeerIndex()]), true
}

// Attributes are the route's path attributes. Their AS numbers have four octets. An MP_REACH_NLRI has next hops alone,
// after their length, as a rule (RFC 6396, 4.3.4).
func (entry MRTRIBEntry) Attributes() []BGPPart {
	return append([]BGPPart(nil), entry.attributes...)
}

// ValueOf is a copy of the octets of the route's first attribute of a type, and whether it has one.
func (entry MRTRIBEntry) ValueOf(typeCode uint8) (octets []byte, found bool) {
	for _, part := range entry.attributes {
		if part.row.TypeCode == typeCode {
			return part.Octets(), true
		}
	}
	return nil, false
}

// ASPath is the route's AS path, that of its first AS_PATH (RFC 4271, 5.1.2), and whether it has such an attribute.
// ErrMalformed: that hasn't the form of its type.
func (entry MRTRIBEntry) ASPath() (path BGPASPath, found bool, err error) {
	return asPathOf(entry.attributes, BGPSession{})
}

// MRTEvent is what a message and a state change say of their session (RFC 6396, 4.4 and 4.5).
type MRTEvent struct {
	Microseconds    uint32     // the microseconds of its time, or 0
	HasMicroseconds bool       // whether its type has them: BGP4MP_ET (RFC 6396, 3)
	PeerASN         uint32     // the AS number of the peer
	LocalASN        uint32     // the AS number of the collector
	InterfaceIndex  uint16     // the number of the interface, or 0
	PeerAddress     netip.Addr // the address of the peer
	LocalAddress    netip.Addr // the address of the collector
}

func eventOf(row mrtRow) MRTEvent {
	return MRTEvent{row.time, row.hasNumber, row.asn, row.localASN, row.index, row.address, row.localAddress}
}

// MRTMessage is a BGP message that the collector received, or sent (RFC 6396, 4.4 and 4.5; RFC 8050, 3).
type MRTMessage struct {
	mrtRecord
}

// Event is what the message says of its session.
func (message *MRTMessage) Event() MRTEvent {
	return eventOf(message.row)
}

// Session is the session that the message is read in, as the subtype of its record says it.
func (message *MRTMessage) Session() BGPSession {
	return bgpSessionOf(message.row.session)
}

// MessageOctets is a copy of the octets of the message, whether they are one or not.
func (message *MRTMessage) MessageOctets() []byte {
	return message.part()
}

// Message is the message. ErrMalformed: the octets are none.
func (message *MRTMessage) Message() (BGPMessage, error) {
	return ParseBGPMessage(message.part(), message.Session())
}

// MRTState is the state of a session (RFC 4271, 8.2.2; RFC 6396, 4.4.1), which may be none of those that have names.
type MRTState uint16

// The states that have names.
const (
	MRTIdle        MRTState = 1
	MRTConnect     MRTState = 2
	MRTActive      MRTState = 3
	MRTOpenSent    MRTState = 4
	MRTOpenConfirm MRTState = 5
	MRTEstablished MRTState = 6
)

// String is the state's name, or else its number.
func (state MRTState) String() string {
	names := [...]string{"Idle", "Connect", "Active", "OpenSent", "OpenConfirm", "Established"}
	if state < MRTIdle || state > MRTEstablished {
		return strconv.Itoa(int(state))
	}
	return names[state-MRTIdle]
}

// MRTStateChange is a change of a session's state (RFC 6396, 4.4 and 4.5).
type MRTStateChange struct {
	mrtRecord
}

// Event is what the state change says of its session.
func (change *MRTStateChange) Event() MRTEvent {
	return eventOf(change.row)
}

// OldState is the state before the change.
func (change *MRTStateChange) OldState() MRTState {
	return change.row.oldState
}

// NewState is the state after it.
func (change *MRTStateChange) NewState() MRTState {
	return change.row.newState
}
