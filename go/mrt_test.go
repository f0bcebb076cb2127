package octseq

import (
	"io"
	"net/netip"
	"reflect"
	"strings"
	"testing"
)

// A state change: 10.0.0.1 of AS 65001, at 10.0.0.2 of AS 65002, from 3 to 4. The table of the collector 10.0.0.9,
// whose view is `v`: 10.0.0.1 of AS 65001, and 2001:db8::1 of AS 65536. The RIB of 10.240.0.0/12, whose octets have
// bits after that: its entries are of the peer 1, with an ORIGIN and the AS path 65001, and of the peer 7, with an
// AS_PATH that is none. A KEEPALIVE, in a record of type BGP4MP_ET with AS numbers of two octets, whose time has 9
// microseconds.
const (
	mrtTime      = "\x65\x53\xF1\x00"
	changeOctets = mrtTime + "\x00\x10\x00\x05\x00\x00\x00\x18\x00\x00\xFD\xE9\x00\x00\xFD\xEA\x00\x07\x00\x01" +
		"\x0A\x00\x00\x01\x0A\x00\x00\x02\x00\x03\x00\x04"
	tableOctets = mrtTime + "\x00\x0D\x00\x01\x00\x00\x00\x2D\x0A\x00\x00\x09\x00\x01v\x00\x02" +
		"\x00\x0A\x00\x00\x01\x0A\x00\x00\x01\xFD\xE9" +
		"\x03\x0A\x00\x00\x02\x20\x01\x0D\xB8\x00\x00\x00\x00\x00\x00\x00\x00\x00\x00\x00\x01\x00\x01\x00\x00"
	ribOctets = mrtTime + "\x00\x0D\x00\x02\x00\x00\x00\x2D\x00\x00\x00\x05\x0C\x0A\xFF\x00\x02" +
		"\x00\x01\x65\x53\xF0\xFF\x00\x0D\x40\x01\x01\x00\x40\x02\x06\x02\x01\x00\x00\xFD\xE9" +
		"\x00\x07\x65\x53\xF0\xFE\x00\x07\x40\x02\x04\x02\x01\x00\x01"
	keepaliveOctets = mrtTime + "\x00\x11\x00\x01\x00\x00\x00\x27\x00\x00\x00\x09\xFD\xE9\xFD\xEA\x00\x07\x00\x01" +
		"\x0A\x00\x00\x01\x0A\x00\x00\x02" + marker + "\x00\x13\x04"
)

func recordOf(t *testing.T, octets string) MRTRecord {
	t.Helper()
	record, err := ParseMRTRecord([]byte(octets))
	if err != nil {
		t.Fatal(err)
	}
	if string(record.Octets()) != octets || record.Header().Len != len(octets) {
		t.Errorf("%q, %+v", record.Octets(), record.Header())
	}
	return record
}

func TestMRTHeadersAreReadAtTheFront(t *testing.T) {
	for length := range changeOctets {
		header, err := ParseMRTHeader([]byte(changeOctets[:length]))
		if length < 12 {
			if header != (MRTHeader{}) || err != ErrMalformed {
				t.Errorf("%d: %+v, %v", length, header, err)
			}
		} else if header != (MRTHeader{36, 1700000000, 16, 5}) || err != nil {
			t.Errorf("%d: %+v, %v", length, header, err)
		}
	}
	header, err := ParseMRTHeader([]byte("\x00\x00\x00\x00\x00\x00\x00\x00\xFF\xFF\xFF\xFF"))
	if header != (MRTHeader{Len: 4294967307}) || err != nil {
		t.Errorf("%+v, %v", header, err)
	}
}

// changeEvent is what the state change says of its session.
var changeEvent = MRTEvent{
	PeerASN: 65001, LocalASN: 65002, InterfaceIndex: 7,
	PeerAddress: netip.MustParseAddr("10.0.0.1"), LocalAddress: netip.MustParseAddr("10.0.0.2"),
}

func TestAStateChangeHasItsValues(t *testing.T) {
	change, isChange := recordOf(t, changeOctets).(*MRTStateChange)
	if !isChange || change.Event() != changeEvent {
		t.Fatalf("%+v", change)
	}
	if change.OldState() != MRTActive || change.NewState() != MRTOpenSent || change.Header().Timestamp != 1700000000 {
		t.Errorf("%v, %v, %+v", change.OldState(), change.NewState(), change.Header())
	}
	names := ""
	for state := MRTState(0); state < 8; state++ {
		names += state.String() + " "
	}
	if names != "0 Idle Connect Active OpenSent OpenConfirm Established 7 " {
		t.Error(names)
	}
}

func TestATableHasItsPeers(t *testing.T) {
	table, isTable := recordOf(t, tableOctets).(*MRTPeerIndexTable)
	if !isTable || table.CollectorBGPID() != netip.MustParseAddr("10.0.0.9") || string(table.ViewName()) != "v" {
		t.Fatalf("%+v", table)
	}
	one, other := netip.MustParseAddr("10.0.0.1"), netip.MustParseAddr("10.0.0.2")
	peers := []MRTPeer{{one, one, 65001}, {other, netip.MustParseAddr("2001:db8::1"), 65536}}
	if !reflect.DeepEqual(table.Peers(), peers) {
		t.Errorf("%v, not %v", table.Peers(), peers)
	}
}

func TestARIBHasItsEntries(t *testing.T) {
	rib, isRIB := recordOf(t, ribOctets).(*MRTRIB)
	if !isRIB || rib.SequenceNumber() != 5 || rib.Prefix() != netip.MustParsePrefix("10.240.0.0/12") {
		t.Fatalf("%+v", rib)
	}
	entries, err := rib.Entries()
	if len(entries) != 2 || rib.EntryCount() != 2 || rib.IsMulticast() || rib.Table() != nil || err != nil {
		t.Fatalf("%+v, %v", entries, err)
	}
	entry, other := entries[0], entries[1]
	if _, hasPathID := entry.PathID(); hasPathID || entry.PeerIndex() != 1 || entry.OriginatedTime() != 0x6553F0FF {
		t.Errorf("%+v", entry)
	}
	attributes := entry.Attributes()
	rows := []BGPRow{
		{At: 32, Len: 1, Kind: BGPAttribute, Flags: 0x40, TypeCode: 1},
		{At: 36, Len: 6, Kind: BGPAttribute, Flags: 0x40, TypeCode: 2},
	}
	if len(attributes) != 2 || attributes[0].Row() != rows[0] || attributes[1].Row() != rows[1] {
		t.Errorf("%v", attributes)
	}
	if value, found := entry.ValueOf(1); string(value) != "\x00" || !found {
		t.Errorf("%q, %v", value, found)
	}
	if value, found := entry.ValueOf(3); value != nil || found {
		t.Errorf("%q, %v", value, found)
	}
	if path, found, err := entry.ASPath(); path.String() != "65001" || !found || err != nil {
		t.Errorf("%v, %v, %v", path, found, err)
	}
	if path, found, err := other.ASPath(); path != nil || !found || err != ErrMalformed {
		t.Errorf("%v, %v, %v", path, found, err)
	}
	for _, entry := range entries {
		if peer, found := entry.Peer(); peer != (MRTPeer{}) || found {
			t.Errorf("%v", peer)
		}
	}
}

func TestAMessageHasItsSession(t *testing.T) {
	record, isMessage := recordOf(t, keepaliveOctets).(*MRTMessage)
	event := changeEvent
	event.Microseconds, event.HasMicroseconds = 9, true
	if !isMessage || record.Event() != event {
		t.Fatalf("%+v", record)
	}
	if session := (BGPSession{TwoOctetASN: true, ExtendedMessage: true}); record.Session() != session {
		t.Errorf("%+v", record.Session())
	}
	message, err := record.Message()
	if message.String() != "keepalive\n" || string(record.MessageOctets()) != keepaliveOctets[32:] || err != nil {
		t.Errorf("%v, %v", message, err)
	}
	if path, found, err := message.ASPath(); path != nil || found || err != nil {
		t.Errorf("%v, %v, %v", path, found, err)
	}
	broken := keepaliveOctets[:50] + "\x02"
	if _, err := recordOf(t, broken).(*MRTMessage).Message(); err != ErrMalformed {
		t.Error(err)
	}
}

func TestOtherRecordsAreOpaque(t *testing.T) {
	octets := mrtTime + "\x00\x0C\x00\x01\x00\x00\x00\x02\x0A\xFF"
	record, isOpaque := recordOf(t, octets).(*MRTOpaqueRecord)
	if !isOpaque || string(record.Body()) != "\x0A\xFF" || record.Header().TypeCode != 12 {
		t.Errorf("%+v", record)
	}
}

func TestWhatIsNotOneRecordIsRefused(t *testing.T) {
	for _, octets := range []string{changeOctets, tableOctets, ribOctets, keepaliveOctets} {
		for length := range octets {
			if record, err := ParseMRTRecord([]byte(octets[:length])); record != nil || err != ErrMalformed {
				t.Errorf("%d: %v, %v", length, record, err)
			}
		}
		if record, err := ParseMRTRecord([]byte(octets + "\x00")); record != nil || err != ErrMalformed {
			t.Errorf("%v, %v", record, err)
		}
	}
	if entries, err := (&MRTRIB{}).Entries(); entries != nil || err != ErrMalformed {
		t.Errorf("%v, %v", entries, err)
	}
}

func TestARecordHasOctetsOfItsOwn(t *testing.T) {
	octets := []byte(changeOctets)
	record, err := ParseMRTRecord(octets)
	if err != nil {
		t.Fatal(err)
	}
	octets[12], record.Octets()[12] = 0xFF, 0xFF
	if string(record.Octets()) != changeOctets {
		t.Errorf("%q", record.Octets())
	}
}

// readAll are the records of a file, and the error after them.
func readAll(file io.Reader) ([]MRTRecord, error) {
	var records []MRTRecord
	reader := NewMRTReader(file)
	for {
		record, err := reader.Next()
		if err != nil {
			if _, again := reader.Next(); again != err {
				return nil, again
			}
			return records, err
		}
		records = append(records, record)
	}
}

func TestATableIsOfTheRIBsAfterIt(t *testing.T) {
	records, err := readAll(strings.NewReader(ribOctets + tableOctets + ribOctets + changeOctets + ribOctets))
	if len(records) != 5 || err != io.EOF {
		t.Fatal(records, err)
	}
	for at, asn := range map[int]uint32{0: 0, 2: 65536, 4: 65536} {
		rib := records[at].(*MRTRIB)
		entries, err := rib.Entries()
		if err != nil || (rib.Table() == nil) != (asn == 0) {
			t.Fatal(rib.Table(), err)
		}
		if peer, found := entries[0].Peer(); peer.ASN != asn || found != (asn > 0) {
			t.Errorf("%d: %+v", at, peer)
		}
		if peer, found := entries[1].Peer(); found {
			t.Errorf("%d: %+v", at, peer)
		}
	}
}
