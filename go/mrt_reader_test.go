package octseq

import (
	"encoding/binary"
	"encoding/hex"
	"errors"
	"fmt"
	"io"
	"net/netip"
	"os"
	"runtime"
	"strings"
	"testing"
	"testing/iotest"
)

func mrtFile(t *testing.T, name string) string {
	t.Helper()
	octets, err := os.ReadFile("../crates/octseq_mrt_tests/" + name)
	if err != nil {
		t.Fatal(err)
	}
	return string(octets)
}

// withEachRecordOfMRT calls with each record of four daemons and others, and with the lines that the readers of
// mrtparse make of it.
func withEachRecordOfMRT(t *testing.T, call func(record MRTRecord, lines []string)) {
	t.Helper()
	records, err := readAll(strings.NewReader(mrtFile(t, "stdin")))
	shown := strings.Split(mrtFile(t, "stdout"), "\n\n")
	if len(records) != 1271 || len(shown) != 1272 || err != io.EOF {
		t.Fatalf("%d records, %v", len(records), err)
	}
	for at, record := range records {
		call(record, strings.Split(shown[at], "\n"))
	}
}

// after is the word of a line that follows another.
func after(line, word string) string {
	_, rest, _ := strings.Cut(line, word+" ")
	next, _, _ := strings.Cut(rest, " ")
	return next
}

func TestRecordsOfDaemonsHaveTheirClasses(t *testing.T) {
	octets := ""
	withEachRecordOfMRT(t, func(record MRTRecord, lines []string) {
		wanted := strings.SplitN(lines[0], " ", 2)[0]
		if strings.Contains(lines[0], " state ") {
			wanted = "state"
		}
		made := ""
		switch record.(type) {
		case *MRTPeerIndexTable:
			made = "peers"
		case *MRTRIB:
			made = "rib"
		case *MRTMessage:
			made = "bgp4mp"
		case *MRTStateChange:
			made = "state"
		case *MRTOpaqueRecord:
			made = "record"
		}
		if made != wanted {
			t.Errorf("%s, not %s", made, lines[0])
		}
		octets += string(record.Octets())
	})
	if octets != mrtFile(t, "stdin") {
		t.Errorf("%d octets", len(octets))
	}
}

func TestOpaqueRecordsHaveTheirLines(t *testing.T) {
	count := 0
	withEachRecordOfMRT(t, func(record MRTRecord, lines []string) {
		opaque, isOpaque := record.(*MRTOpaqueRecord)
		if !isOpaque {
			return
		}
		header, body := opaque.Header(), opaque.Body()
		made := fmt.Sprintf(`record %d %d %d \# %d`, header.Timestamp, header.TypeCode, header.Subtype, len(body))
		if len(body) > 0 {
			made += " " + hex.EncodeToString(body)
		}
		if made != lines[0] || len(lines) != 1 {
			t.Errorf("%s, not %s", made, lines)
		}
		count++
	})
	if count != 307 {
		t.Errorf("%d records", count)
	}
}

func TestTablesHaveTheirLines(t *testing.T) {
	count := 0
	withEachRecordOfMRT(t, func(record MRTRecord, lines []string) {
		table, isTable := record.(*MRTPeerIndexTable)
		if !isTable {
			return
		}
		collector, view := table.CollectorBGPID(), table.ViewName()
		made := fmt.Sprintf("peers %d collector %v view \"%s\"", table.Header().Timestamp, collector, view)
		if made != lines[0] || len(table.Peers()) != len(lines)-1 {
			t.Errorf("%s, not %s", made, lines[0])
		}
		for at, peer := range table.Peers() {
			made := fmt.Sprintf("peer %d id %v address %v as %d", at, peer.BGPID, peer.Address, peer.ASN)
			if made != lines[1+at] {
				t.Errorf("%s, not %s", made, lines[1+at])
			}
			count++
		}
	})
	if count != 33 {
		t.Errorf("%d peers", count)
	}
}

// compareEntry compares an entry with its lines.
func compareEntry(t *testing.T, entry MRTRIBEntry, lines []string) {
	t.Helper()
	made := fmt.Sprintf("entry %d time %d", entry.PeerIndex(), entry.OriginatedTime())
	if id, found := entry.PathID(); found {
		made += fmt.Sprintf(" path %d", id)
	}
	if made != lines[0] {
		t.Errorf("%s, not %s", made, lines[0])
	}
	attributes := entry.Attributes()
	for _, line := range lines[1:] {
		if !strings.HasPrefix(line, "attribute ") {
			continue
		}
		if len(attributes) == 0 {
			t.Fatalf("no attribute, and %s", line)
		}
		compareAttribute(t, attributes[0], strings.Split(line, " "))
		attributes = attributes[1:]
	}
	if len(attributes) > 0 {
		t.Errorf("%v, and no line", attributes)
	}
	path, found, err := entry.ASPath()
	comparePath(t, lines, path, found, err)
}

// compareAttribute compares an attribute with the words of its line: its flags, and the number of a MULTI_EXIT_DISC.
func compareAttribute(t *testing.T, attribute BGPPart, words []string) {
	t.Helper()
	row, letters := attribute.Row(), ""
	for at, letter := range "OTP" {
		if row.Flags&(0x80>>at) != 0 {
			letters += string(letter)
		}
	}
	if letters != strings.Trim(words[1], "-") {
		t.Errorf("%s, not %s", letters, words)
	}
	if words[2] == "MULTI_EXIT_DISC" && words[3] != `\#` {
		if number := binary.BigEndian.Uint32(attribute.Octets()); fmt.Sprint(number) != words[3] || row.TypeCode != 4 {
			t.Errorf("%d, not %s", number, words)
		}
	}
}

func TestRIBsHaveTheirLines(t *testing.T) {
	ribs, count := 0, 0
	withEachRecordOfMRT(t, func(record MRTRecord, lines []string) {
		rib, isRIB := record.(*MRTRIB)
		if !isRIB {
			return
		}
		header := rib.Header()
		words := strings.Split(lines[0], " ")
		made := fmt.Sprintf("rib %d %d sequence %d ", header.Timestamp, header.Subtype, rib.SequenceNumber())
		if made != strings.Join(words[:5], " ")+" " || rib.Prefix() != netip.MustParsePrefix(words[5]) {
			t.Errorf("%s%v, not %s", made, rib.Prefix(), lines[0])
		}
		if rib.IsMulticast() != (header.Subtype%2 == 1) {
			t.Errorf("%v, %s", rib.IsMulticast(), lines[0])
		}
		entries, err := rib.Entries()
		shown := strings.Split(strings.Join(lines, "\n"), "\nentry ")[1:]
		if len(entries) != len(shown) || rib.EntryCount() != len(shown) || err != nil {
			t.Fatalf("%d entries, %v, not %d", len(entries), err, len(shown))
		}
		for at, entry := range entries {
			compareEntry(t, entry, strings.Split("entry "+shown[at], "\n"))
			count++
		}
		ribs++
	})
	if ribs != 438 || count != 437 {
		t.Errorf("%d RIBs, %d entries", ribs, count)
	}
}

func TestEntriesKnowTheirPeers(t *testing.T) {
	var peers []string
	known, unknown := 0, 0
	withEachRecordOfMRT(t, func(record MRTRecord, lines []string) {
		switch record := record.(type) {
		case *MRTPeerIndexTable:
			peers = lines[1:]
		case *MRTRIB:
			entries, err := record.Entries()
			if err != nil {
				t.Fatal(err)
			}
			for _, entry := range entries {
				peer, found := entry.Peer()
				if found != (entry.PeerIndex() < len(peers)) {
					t.Errorf("%v, %v", peer, found)
				}
				if !found {
					unknown++
				} else if known++; peer.Address.String() != after(peers[entry.PeerIndex()], "address") {
					t.Errorf("%v, not %s", peer, peers[entry.PeerIndex()])
				}
			}
		}
	})
	if known <= 300 || known+unknown != 437 {
		t.Errorf("%d, %d entries", known, unknown)
	}
}

// eventLine is the line of what a record says of its session.
func eventLine(header MRTHeader, event MRTEvent) string {
	time := fmt.Sprint(header.Timestamp)
	if event.HasMicroseconds {
		time += fmt.Sprintf(".%06d", event.Microseconds)
	}
	return fmt.Sprintf("bgp4mp %s %d peer %v as %d local %v as %d interface %d", time, header.Subtype,
		event.PeerAddress, event.PeerASN, event.LocalAddress, event.LocalASN, event.InterfaceIndex)
}

func TestStateChangesHaveTheirLines(t *testing.T) {
	count := 0
	withEachRecordOfMRT(t, func(record MRTRecord, lines []string) {
		if change, isChange := record.(*MRTStateChange); isChange {
			made := eventLine(change.Header(), change.Event())
			made += fmt.Sprintf(" state %d %d", uint16(change.OldState()), uint16(change.NewState()))
			if made != lines[0] || len(lines) != 1 {
				t.Errorf("%s, not %s", made, lines)
			}
			count++
		}
	})
	if count <= 80 {
		t.Errorf("%d state changes", count)
	}
}

func TestMessagesOfDaemonsHaveTheirLines(t *testing.T) {
	count, malformed, paths := 0, 0, 0
	withEachRecordOfMRT(t, func(record MRTRecord, lines []string) {
		of, isMessage := record.(*MRTMessage)
		if !isMessage {
			return
		}
		if made := eventLine(of.Header(), of.Event()); made != lines[0] {
			t.Errorf("%s, not %s", made, lines[0])
		}
		message, err := of.Message()
		if lines[1] == "malformed" {
			malformed++
			if err != ErrMalformed {
				t.Errorf("%v, %v", message, err)
			}
			return
		}
		count++
		if text := message.String(); text != strings.Join(lines[1:], "\n")+"\n" || err != nil {
			t.Errorf("%s%v, not %s", text, err, lines[1:])
		}
		path, found, err := message.ASPath()
		if comparePath(t, lines, path, found, err) {
			paths++
		}
	})
	if count <= 300 || malformed != 40 || paths <= 150 {
		t.Errorf("%d, %d messages, %d paths", count, malformed, paths)
	}
}

func TestAFileThatEndsInsideARecordIsCutOff(t *testing.T) {
	if records, err := readAll(strings.NewReader("")); records != nil || err != io.EOF {
		t.Errorf("%v, %v", records, err)
	}
	for length := 1; length < len(changeOctets); length++ {
		records, err := readAll(strings.NewReader(changeOctets + changeOctets[:length]))
		if len(records) != 1 || string(records[0].Octets()) != changeOctets || err != ErrCutOff {
			t.Errorf("%d: %v, %v", length, records, err)
		}
	}
	if text := ErrCutOff.Error(); text != "octseq: the file ends inside a record" {
		t.Error(text)
	}
}

func TestAFileMayGiveLittleAtATime(t *testing.T) {
	file := mrtFile(t, "stdin")
	for _, source := range []io.Reader{
		iotest.OneByteReader(strings.NewReader(file)), iotest.DataErrReader(strings.NewReader(file)),
	} {
		octets := ""
		records, err := readAll(source)
		for _, record := range records {
			octets += string(record.Octets())
		}
		if octets != file || err != io.EOF {
			t.Errorf("%d octets, %v", len(octets), err)
		}
	}
}

func TestErrorsOfAFileArePassedOn(t *testing.T) {
	wrong := errors.New("wrong")
	for _, length := range []int{0, 5, 20} {
		front := strings.NewReader(changeOctets + changeOctets[:length])
		records, err := readAll(io.MultiReader(front, iotest.ErrReader(wrong)))
		if len(records) != 1 || err != wrong {
			t.Errorf("%d: %v, %v", length, records, err)
		}
	}
}

// requested is how many octets of memory a call requests in all.
func requested(call func()) uint64 {
	var before, then runtime.MemStats
	runtime.ReadMemStats(&before)
	call()
	runtime.ReadMemStats(&then)
	return then.TotalAlloc - before.TotalAlloc
}

func TestALengthThatNoFileHasTakesNoMemory(t *testing.T) {
	octets := changeOctets[:8] + "\xFF\xFF\xFF\xFF" + strings.Repeat("\x00", 100)
	taken := requested(func() {
		if records, err := readAll(strings.NewReader(octets)); records != nil || err != ErrCutOff {
			t.Errorf("%v, %v", records, err)
		}
	})
	if taken > 1<<19 {
		t.Errorf("%d octets", taken)
	}
}

// endless is a file of as many state changes as it says.
type endless int

func (left *endless) Read(to []byte) (int, error) {
	count := len(to) / len(changeOctets)
	if count > int(*left) {
		count = int(*left)
	}
	*left -= endless(count)
	if count == 0 {
		return 0, io.EOF
	}
	return copy(to, strings.Repeat(changeOctets, count)), nil
}

// Of a file of 14 million octets it holds a block at a time.
func TestMemoryStaysAsItIs(t *testing.T) {
	file := endless(400000)
	reader := NewMRTReader(&file)
	var begin, now runtime.MemStats
	for count := 0; ; count++ {
		_, err := reader.Next()
		if err == io.EOF && count == 400000 {
			break
		}
		if err != nil {
			t.Fatal(count, err)
		}
		if count%100000 == 100 {
			runtime.GC()
			runtime.ReadMemStats(&now)
			if count == 100 {
				begin = now
			}
			if int64(now.HeapAlloc)-int64(begin.HeapAlloc) > 1<<19 {
				t.Errorf("%d octets after %d records", now.HeapAlloc-begin.HeapAlloc, count)
			}
		}
	}
}
