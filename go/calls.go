package octseq

// #cgo pkg-config: octseq
// #cgo LDFLAGS: -Wl,--as-needed -l:liboctseq.a
// #include <octseq.h>
import "C"

import (
	"errors"
	"net/netip"
	"unsafe"
)

// Why a call refused.
var (
	// ErrMalformed says that the octets, or the text, aren't what they were read as.
	ErrMalformed = errors.New("octseq: malformed")
	// ErrImmovable says that data isn't of its type's form. It may have pointers, so it can't be moved.
	ErrImmovable = errors.New("octseq: data of an unknown form can't be moved")
	// ErrTooLong says that a message, or the data of a record, would have more than 65,535 octets, or an answer more
	// than its limit.
	ErrTooLong = errors.New("octseq: a message of too many octets")
	// ErrBadRow says that a row's name isn't at its offset, its data isn't in the octets, or its section has no records.
	ErrBadRow = errors.New("octseq: a row that is none of a record")
	// ErrMemory says that a request for memory was refused, of a call that reads text.
	ErrMemory = errors.New("octseq: a request for memory was refused")
	// ErrUnshown says that no text could be made. No octets lead here, but no proof rules it out.
	ErrUnshown = errors.New("octseq: no text could be made")
)

// errorOf is the error that a status other than OK and NO_ROOM says.
func errorOf(status C.uint32_t) error {
	switch status {
	case C.OCTSEQ_IMMOVABLE:
		return ErrImmovable
	case C.OCTSEQ_TOO_LONG:
		return ErrTooLong
	case C.OCTSEQ_BAD_ROW:
		return ErrBadRow
	case C.OCTSEQ_MEMORY:
		return ErrMemory
	case C.OCTSEQ_UNSHOWN:
		return ErrUnshown
	default:
		return ErrMalformed
	}
}

// start is the pointer to the first of some octets. It is nil where there are none.
func start(octets []byte) *C.uint8_t {
	if len(octets) == 0 {
		return nil
	}
	return (*C.uint8_t)(unsafe.Pointer(&octets[0]))
}

func size(octets []byte) C.size_t {
	return C.size_t(len(octets))
}

// room is where a call writes to. Nothing else is there, so that what is written overlaps no other argument.
type room struct {
	out     *C.uint8_t
	len     C.size_t
	written C.size_t
}

// filled is what a call writes into a room of as many octets as first says, or of as many as it takes.
func filled(first int, call func(*room) C.uint32_t) ([]byte, error) {
	octets := make([]byte, first)
	to := &room{out: start(octets), len: size(octets)}
	status := call(to)
	if status == C.OCTSEQ_NO_ROOM {
		octets = make([]byte, to.written)
		to = &room{out: start(octets), len: size(octets)}
		status = call(to)
	}
	if status != C.OCTSEQ_OK {
		return nil, errorOf(status)
	}
	return octets[:to.written], nil
}

// filledRows are the rows that a call writes into a room of as many as first says, or of as many as it takes.
func filledRows[Row any](first int, call func(out *Row, room C.size_t, count *C.size_t) C.uint32_t) ([]Row, error) {
	rows := make([]Row, first)
	var count C.size_t
	status := call(firstOf(rows), C.size_t(len(rows)), &count)
	if status == C.OCTSEQ_NO_ROOM {
		rows = make([]Row, count)
		status = call(firstOf(rows), C.size_t(len(rows)), &count)
	}
	if status != C.OCTSEQ_OK {
		return nil, errorOf(status)
	}
	return rows[:count], nil
}

// firstOf is the pointer to the first of some rows. It is nil where there are none.
func firstOf[Row any](rows []Row) *Row {
	if len(rows) == 0 {
		return nil
	}
	return &rows[0]
}

// textOf is what was filled, as a text.
func textOf(octets []byte, err error) (string, error) {
	return string(octets), err
}

func isUTF8(octets []byte) bool {
	return C.octseq_is_utf8(start(octets), size(octets)) != 0
}

func firstFault(octets []byte) (validUpTo, errorLen int, found bool) {
	var upTo, length C.size_t
	status := C.octseq_utf8_fault(start(octets), size(octets), &upTo, &length)
	return int(upTo), int(length), status != C.OCTSEQ_OK
}

func lossy(octets []byte) ([]byte, error) {
	return filled(len(octets), func(to *room) C.uint32_t {
		return C.octseq_lossy(start(octets), size(octets), to.out, to.len, &to.written)
	})
}

type lossyState = C.octseq_lossy_state

func lossyPiece(state *lossyState, piece []byte) ([]byte, error) {
	return filled(len(piece)+3, func(to *room) C.uint32_t {
		return C.octseq_lossy_piece(state, start(piece), size(piece), to.out, to.len, &to.written)
	})
}

func lossyEnd(state *lossyState) ([]byte, error) {
	return filled(3, func(to *room) C.uint32_t {
		return C.octseq_lossy_end(state, to.out, to.len, &to.written)
	})
}

func messageHeader(octets []byte) (Header, error) {
	var header C.octseq_dns_header
	status := C.octseq_dns_message_header(start(octets), size(octets), &header)
	if status != C.OCTSEQ_OK {
		return Header{}, errorOf(status)
	}
	return Header{
		ID:      uint16(header.id),
		Flags:   uint16(header.flags),
		QDCount: uint16(header.qdcount),
		ANCount: uint16(header.ancount),
		NSCount: uint16(header.nscount),
		ARCount: uint16(header.arcount),
	}, nil
}

// messageFault is where reading octets as a message stops, and whether they are none.
func messageFault(octets []byte) (offset int, found bool) {
	var at C.size_t
	status := C.octseq_dns_message_fault(start(octets), size(octets), &at)
	return int(at), status != C.OCTSEQ_OK
}

// messageRows are the rows of a message that has as many entries as count says.
func messageRows(octets []byte, count int) ([]Row, error) {
	out := make([]C.octseq_dns_row, count)
	var written C.size_t
	status := C.octseq_dns_rows(start(octets), size(octets), firstOf(out), C.size_t(count), &written)
	if status != C.OCTSEQ_OK {
		return nil, errorOf(status)
	}
	rows := make([]Row, written)
	for at := range rows {
		row := &out[at]
		rows[at] = Row{
			NameAt:  int(row.name_at),
			DataAt:  int(row.data_at),
			DataLen: int(row.data_len),
			TTL:     uint32(row.ttl),
			Type:    Type(row.rtype),
			Class:   Class(row.rclass),
			Section: Section(row.section),
		}
	}
	return rows, nil
}

// rowsOf are rows as C has them. An offset or a length below 0 is then above that of all octets.
func rowsOf(rows []Row) []C.octseq_dns_row {
	out := make([]C.octseq_dns_row, len(rows))
	for at, row := range rows {
		out[at] = C.octseq_dns_row{
			name_at:  C.size_t(row.NameAt),
			data_at:  C.size_t(row.DataAt),
			data_len: C.size_t(row.DataLen),
			ttl:      C.uint32_t(row.TTL),
			rtype:    C.uint16_t(row.Type),
			rclass:   C.uint16_t(row.Class),
			section:  C.uint32_t(row.Section),
		}
	}
	return out
}

func messageText(octets []byte) (string, error) {
	return textOf(filled(4*len(octets), func(to *room) C.uint32_t {
		return C.octseq_dns_message_text(start(octets), size(octets), to.out, to.len, &to.written)
	}))
}

func rewrite(octets []byte) ([]byte, error) {
	return filled(len(octets), func(to *room) C.uint32_t {
		return C.octseq_dns_rewrite(start(octets), size(octets), to.out, to.len, &to.written)
	})
}

func query(id, flags uint16, name []byte, qtype Type, class Class) ([]byte, error) {
	return filled(271, func(to *room) C.uint32_t {
		return C.octseq_dns_query(C.uint16_t(id), C.uint16_t(flags), start(name), size(name), C.uint16_t(qtype),
			C.uint16_t(class), to.out, to.len, &to.written)
	})
}

func queryEDNS(id, flags uint16, name []byte, qtype Type, class Class, edns EDNS) ([]byte, error) {
	return filled(282+len(edns.Options), func(to *room) C.uint32_t {
		return C.octseq_dns_query_edns(C.uint16_t(id), C.uint16_t(flags), start(name), size(name), C.uint16_t(qtype),
			C.uint16_t(class), C.uint16_t(edns.Payload), C.uint16_t(edns.Flags), start(edns.Options), size(edns.Options),
			to.out, to.len, &to.written)
	})
}

func answer(query []byte, flags uint16, source []byte, rows []Row) ([]byte, error) {
	records := rowsOf(rows)
	return filled(512, func(to *room) C.uint32_t {
		return C.octseq_dns_answer(start(query), size(query), C.uint16_t(flags), start(source), size(source),
			firstOf(records), C.size_t(len(records)), to.out, to.len, &to.written)
	})
}

func answerWithin(query []byte, flags uint16, source []byte, rows []Row, limit uint16) ([]byte, error) {
	records := rowsOf(rows)
	return filled(int(limit), func(to *room) C.uint32_t {
		return C.octseq_dns_answer_within(start(query), size(query), C.uint16_t(flags), start(source), size(source),
			firstOf(records), C.size_t(len(records)), C.uint16_t(limit), to.out, to.len, &to.written)
	})
}

// refusedAt is the error about a text, of which a word at an offset may be refused.
func refusedAt(err error, line, offset C.size_t) error {
	if err == ErrMalformed {
		return TextFault{int(line), int(offset)}
	}
	return err
}

// roomOfText is a guess of how many octets a record or a message has that a text is: it has at most 65,800, and mostly
// fewer than its text.
func roomOfText(text []byte) int {
	if len(text) > 65535 {
		return 65800
	}
	return len(text) + 32
}

func recordFromText(text []byte) ([]byte, error) {
	var offset C.size_t
	octets, err := filled(roomOfText(text), func(to *room) C.uint32_t {
		return C.octseq_dns_record_from_text(start(text), size(text), to.out, to.len, &to.written, &offset)
	})
	return octets, refusedAt(err, 1, offset)
}

func messageFromText(text []byte) ([]byte, error) {
	var line, offset C.size_t
	octets, err := filled(roomOfText(text), func(to *room) C.uint32_t {
		return C.octseq_dns_message_from_text(start(text), size(text), to.out, to.len, &to.written, &line, &offset)
	})
	return octets, refusedAt(err, line, offset)
}

func nameText(octets []byte, offset int) (string, error) {
	return textOf(filled(64, func(to *room) C.uint32_t {
		return C.octseq_dns_name_text(start(octets), size(octets), C.size_t(offset), to.out, to.len, &to.written)
	}))
}

func nameWire(octets []byte, offset int) ([]byte, error) {
	return filled(255, func(to *room) C.uint32_t {
		return C.octseq_dns_name_wire(start(octets), size(octets), C.size_t(offset), to.out, to.len, &to.written)
	})
}

func nameFromText(text []byte) ([]byte, error) {
	return filled(255, func(to *room) C.uint32_t {
		return C.octseq_dns_name_from_text(start(text), size(text), to.out, to.len, &to.written)
	})
}

func nameCompare(one []byte, oneOffset int, other []byte, otherOffset int) int {
	var order C.int32_t
	C.octseq_dns_name_compare(start(one), size(one), C.size_t(oneOffset), start(other), size(other),
		C.size_t(otherOffset), &order)
	return int(order)
}

func dataIsTyped(octets []byte, at, length int, rtype Type, class Class) bool {
	return C.octseq_dns_data_is_typed(start(octets), size(octets), C.size_t(at), C.size_t(length), C.uint16_t(rtype),
		C.uint16_t(class)) != 0
}

func dataText(octets []byte, at, length int, rtype Type, class Class) (string, error) {
	return textOf(filled(128, func(to *room) C.uint32_t {
		return C.octseq_dns_data_text(start(octets), size(octets), C.size_t(at), C.size_t(length), C.uint16_t(rtype),
			C.uint16_t(class), to.out, to.len, &to.written)
	}))
}

// putFields writes the fields of data to some rows, and answers how many there are.
func putFields(octets []byte, at, length int, rtype Type, class Class, out []C.octseq_dns_field) (int, C.uint32_t) {
	var count C.size_t
	status := C.octseq_dns_data_fields(start(octets), size(octets), C.size_t(at), C.size_t(length), C.uint16_t(rtype),
		C.uint16_t(class), &out[0], C.size_t(len(out)), &count)
	return int(count), status
}

// dataFields are the fields of data. Most data has fewer than 16.
func dataFields(octets []byte, at, length int, rtype Type, class Class) ([]FieldRow, error) {
	out := make([]C.octseq_dns_field, 16)
	count, status := putFields(octets, at, length, rtype, class, out)
	if status == C.OCTSEQ_NO_ROOM {
		out = make([]C.octseq_dns_field, count)
		count, status = putFields(octets, at, length, rtype, class, out)
	}
	if status != C.OCTSEQ_OK {
		return nil, errorOf(status)
	}
	rows := make([]FieldRow, count)
	for index := range rows {
		row := &out[index]
		rows[index] = FieldRow{
			At:     int(row.at),
			Len:    int(row.len),
			Number: uint32(row.number),
			Kind:   FieldKind(row.kind),
		}
	}
	return rows, nil
}

func typeText(rtype Type) (string, error) {
	return textOf(filled(16, func(to *room) C.uint32_t {
		return C.octseq_dns_rtype_text(C.uint16_t(rtype), to.out, to.len, &to.written)
	}))
}

func classText(class Class) (string, error) {
	return textOf(filled(16, func(to *room) C.uint32_t {
		return C.octseq_dns_class_text(C.uint16_t(class), to.out, to.len, &to.written)
	}))
}

func typeFromText(text []byte) (Type, error) {
	var number C.uint16_t
	if status := C.octseq_dns_rtype_from_text(start(text), size(text), &number); status != C.OCTSEQ_OK {
		return 0, errorOf(status)
	}
	return Type(number), nil
}

func classFromText(text []byte) (Class, error) {
	var number C.uint16_t
	if status := C.octseq_dns_class_from_text(start(text), size(text), &number); status != C.OCTSEQ_OK {
		return 0, errorOf(status)
	}
	return Class(number), nil
}

// bgpMessageFault is where reading octets as a message of a session stops, and whether they are none.
func bgpMessageFault(octets []byte, session uint32) (offset int, found bool) {
	var at C.size_t
	status := C.octseq_bgp_message_fault(start(octets), size(octets), C.uint32_t(session), &at)
	return int(at), status != C.OCTSEQ_OK
}

// bgpRowCount is how many rows a message of a session has.
func bgpRowCount(octets []byte, session uint32) (int, error) {
	var count C.size_t
	status := C.octseq_bgp_rows(start(octets), size(octets), C.uint32_t(session), nil, 0, &count)
	if status != C.OCTSEQ_OK && status != C.OCTSEQ_NO_ROOM {
		return 0, errorOf(status)
	}
	return int(count), nil
}

// bgpRows are the rows of a message of a session that has as many as count says.
func bgpRows(octets []byte, session uint32, count int) ([]BGPRow, error) {
	out, err := filledRows(count, func(out *C.octseq_bgp_row, room C.size_t, count *C.size_t) C.uint32_t {
		return C.octseq_bgp_rows(start(octets), size(octets), C.uint32_t(session), out, room, count)
	})
	return bgpRowsOf(out), err
}

// bgpRowsOf are rows that C wrote.
func bgpRowsOf(out []C.octseq_bgp_row) []BGPRow {
	rows := make([]BGPRow, len(out))
	for at := range rows {
		row := &out[at]
		rows[at] = BGPRow{
			At:        int(row.at),
			Len:       int(row.len),
			Kind:      BGPKind(row.kind),
			PathID:    uint32(row.path_id),
			HasPathID: row.has_path_id != 0,
			AFI:       uint16(row.afi),
			SAFI:      uint8(row.safi),
			Bits:      uint8(row.bits),
			Flags:     uint8(row.flags),
			TypeCode:  uint8(row.type_code),
		}
	}
	return rows
}

func bgpMessageText(octets []byte, session uint32) (string, error) {
	return textOf(filled(8*len(octets), func(to *room) C.uint32_t {
		return C.octseq_bgp_message_text(start(octets), size(octets), C.uint32_t(session), to.out, to.len, &to.written)
	}))
}

// bgpSegments are the segments of an AS path of a session.
func bgpSegments(octets []byte, session uint32) ([]BGPSegment, error) {
	hops, err := filledRows(len(octets)/2, func(out *C.octseq_bgp_hop, room C.size_t, count *C.size_t) C.uint32_t {
		return C.octseq_bgp_as_path(start(octets), size(octets), C.uint32_t(session), out, room, count)
	})
	var segments []BGPSegment
	for len(hops) > 0 {
		count := int(hops[0].count)
		asns := make([]uint32, count)
		for at := range asns {
			asns[at] = uint32(hops[at].asn)
		}
		segments = append(segments, BGPSegment{BGPSegmentKind(hops[0].kind), asns})
		hops = hops[count:]
	}
	return segments, err
}

func mrtHeader(octets []byte) (MRTHeader, error) {
	var header C.octseq_mrt_header
	status := C.octseq_mrt_record_header(start(octets), size(octets), &header)
	if status != C.OCTSEQ_OK {
		return MRTHeader{}, errorOf(status)
	}
	return MRTHeader{
		Len:       int(header.len),
		Timestamp: uint32(header.timestamp),
		TypeCode:  uint16(header.type_code),
		Subtype:   uint16(header.subtype),
	}, nil
}

// mrtRows are the parts of a record. There is room for as many as first says at once.
func mrtRows(octets []byte, first int) ([]mrtRow, error) {
	out, err := filledRows(first, func(out *C.octseq_mrt_row, room C.size_t, count *C.size_t) C.uint32_t {
		return C.octseq_mrt_rows(start(octets), size(octets), out, room, count)
	})
	rows := make([]mrtRow, len(out))
	for at := range rows {
		row := &out[at]
		rows[at] = mrtRow{
			at:           int(row.at),
			length:       int(row.len),
			count:        int(row.count),
			kind:         mrtKind(row.kind),
			id:           uint32(row.id),
			time:         uint32(row.time),
			asn:          uint32(row.asn),
			localASN:     uint32(row.local_asn),
			session:      uint32(row.session),
			oldState:     MRTState(row.old_state),
			newState:     MRTState(row.new_state),
			index:        uint16(row.index),
			afi:          uint16(row.afi),
			safi:         uint8(row.safi),
			bits:         uint8(row.bits),
			hasNumber:    row.has_number != 0,
			address:      addressOf(row.addr, row.addr_len),
			localAddress: addressOf(row.local_addr, row.addr_len),
		}
	}
	return rows, err
}

// addressOf is the address that the first octets are, 4 or all 16. It isn't valid where there are none.
func addressOf(octets [16]C.uint8_t, length C.uint8_t) netip.Addr {
	var own [16]byte
	for at, octet := range octets {
		own[at] = byte(octet)
	}
	address, _ := netip.AddrFromSlice(own[:length])
	return address
}

// mrtAttributes are the path attributes of all entries of a RIB.
func mrtAttributes(octets []byte) ([]BGPRow, error) {
	// Most attributes, with the front of their entry, have more octets than 8.
	out, err := filledRows(len(octets)/8, func(out *C.octseq_bgp_row, room C.size_t, count *C.size_t) C.uint32_t {
		return C.octseq_mrt_attributes(start(octets), size(octets), out, room, count)
	})
	return bgpRowsOf(out), err
}
