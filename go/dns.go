package octseq

// The bits of a header's flags. The opcode and the response code are between them.
const (
	FlagQR uint16 = 0x8000 // it is a response
	FlagAA uint16 = 0x0400 // it is an authoritative answer
	FlagTC uint16 = 0x0200 // it was truncated
	FlagRD uint16 = 0x0100 // recursion is desired
	FlagRA uint16 = 0x0080 // recursion is available
	FlagAD uint16 = 0x0020 // the data is authentic (RFC 4035, 3.1.6)
	FlagCD uint16 = 0x0010 // checking is disabled (RFC 4035, 3.1.6)
)

// Header is the header of a message (RFC 1035, 4.1.1).
type Header struct {
	ID      uint16 // the number by which an answer is known
	Flags   uint16 // the bits above, the opcode and the response code
	QDCount uint16 // how many questions there are
	ANCount uint16 // how many answers
	NSCount uint16 // how many records of authorities
	ARCount uint16 // how many additional records
}

// Opcode is the kind of query, 0 to 15.
func (header Header) Opcode() int {
	return int(header.Flags >> 11 & 15)
}

// RCode is the response code, 0 to 15.
func (header Header) RCode() int {
	return int(header.Flags & 15)
}

// EntryCount is how many entries there are of all sections.
func (header Header) EntryCount() int {
	return int(header.QDCount) + int(header.ANCount) + int(header.NSCount) + int(header.ARCount)
}

// Section is a section of a message.
type Section uint32

// The sections.
const (
	SectionQuestion   Section = 0
	SectionAnswer     Section = 1
	SectionAuthority  Section = 2
	SectionAdditional Section = 3
)

// String is the section's name, in small letters.
func (section Section) String() string {
	names := [...]string{"question", "answer", "authority", "additional"}
	if int64(section) < int64(len(names)) {
		return names[section]
	}
	return "none"
}

// Row is a question or a record as numbers. Offsets are counted from the first octet of what it was read from.
type Row struct {
	NameAt  int     // where the name begins
	DataAt  int     // where the data begins; 0 of a question
	DataLen int     // how many octets of data there are; 0 of a question
	TTL     uint32  // for how many seconds it may be kept; 0 of a question
	Type    Type    // its type
	Class   Class   // its class
	Section Section // its section
}

// Message is a message of DNS (RFC 1035), which was checked once.
type Message struct {
	octets []byte
	header Header
}

// ParseMessage is the message that octets are. It copies them. ErrMalformed: they are none; MessageFault tells where
// they stop being one.
func ParseMessage(octets []byte) (Message, error) {
	own := append([]byte(nil), octets...)
	header, err := messageHeader(own)
	if err != nil {
		return Message{}, err
	}
	return Message{own, header}, nil
}

// MessageFault tells where octets stop being a message, and whether they do: where the first part is that isn't there,
// which is 0 for the header, or a question or a record that it counts; or, if all of these are there, the offset after
// the last; or 65,535 if there are more octets. Of a message it is the end.
func MessageFault(octets []byte) (offset int, found bool) {
	return messageFault(octets)
}

// Octets is a copy of the message's octets.
func (message Message) Octets() []byte {
	return append([]byte(nil), message.octets...)
}

// Header is the message's header.
func (message Message) Header() Header {
	return message.header
}

// Entries are the message's questions and records, in their order. No error is known but of a Message that is zero.
func (message Message) Entries() ([]Entry, error) {
	rows, err := messageRows(message.octets, message.header.EntryCount())
	entries := make([]Entry, len(rows))
	for at, row := range rows {
		entries[at] = Entry{row, message.octets}
	}
	return entries, err
}

// Text is a line for the message's header, and one for each of its entries. ErrUnshown.
func (message Message) Text() (string, error) {
	return messageText(message.octets)
}

// String is the text, or that of the error.
func (message Message) String() string {
	return shown(message.Text())
}

// Rewrite is the message written anew, with its names compressed (RFC 1035, 4.1.4; RFC 3597, 4). ErrImmovable,
// ErrTooLong.
func (message Message) Rewrite() ([]byte, error) {
	return rewrite(message.octets)
}

// Answer is the answer to the message. It has its number, opcode, flag RD and questions, the flag QR, and of flags the
// response code and all other flags. Its records are the rows, each in its section, in the order that they have here.
// Their names and data are at their offsets in source, names in data too; all are compressed. ErrBadRow, ErrImmovable,
// ErrTooLong.
func (message Message) Answer(flags uint16, source []byte, rows []Row) ([]byte, error) {
	return answer(message.octets, flags, source, rows)
}

// AnswerWithin is the same answer within a limit of octets (RFC 2181, 9). If the records of all rows exceed it, it has
// those of the rows that come before the first with which it would. The flag TC is set exactly if it lacks one; that of
// flags is ignored. The rows are taken in the order that they have here, whatever their sections: so one that has to
// stay, as an OPT record (RFC 6891, 7), comes first. The answer is composed once for each row that is taken, so it
// takes long if there are thousands. ErrTooLong: its questions alone exceed the limit, or there are more than 65,535
// rows. ErrBadRow, ErrImmovable.
func (message Message) AnswerWithin(flags uint16, source []byte, rows []Row, limit uint16) ([]byte, error) {
	return answerWithin(message.octets, flags, source, rows, limit)
}

// Query is a message of one question. The name is text that ends with a full stop: `example.com.` (RFC 1035, 5.1).
// ErrMalformed: it is no name.
func Query(id, flags uint16, name string, qtype Type, class Class) ([]byte, error) {
	return query(id, flags, []byte(name), qtype, class)
}

// EDNS is what an OPT record of EDNS version 0 says (RFC 6891, 6.1).
type EDNS struct {
	Payload uint16 // how many octets the largest UDP payload has that the sender accepts
	Flags   uint16 // the 16 flags of the record
	Options []byte // its options as they are in the record, each with its code and its length in two octets
}

// EDNSFlagDO is the one flag of an OPT record that has a meaning: records of DNSSEC are accepted (RFC 3225, 3).
const EDNSFlagDO uint16 = 0x8000

// QueryEDNS is the same query with an OPT record after the question. ErrMalformed: the name is none, or the options
// aren't whole. ErrTooLong.
func QueryEDNS(id, flags uint16, name string, qtype Type, class Class, edns EDNS) ([]byte, error) {
	return queryEDNS(id, flags, []byte(name), qtype, class, edns)
}

// Entry is a question or a record of a message, or a record alone.
type Entry struct {
	row    Row
	octets []byte
}

// Source is a copy of the octets that the offsets of the entry's row are in: those of its message, or of a record
// alone.
func (entry Entry) Source() []byte {
	return append([]byte(nil), entry.octets...)
}

// Row is the entry as numbers.
func (entry Entry) Row() Row {
	return entry.row
}

// Section is the section that the entry is in.
func (entry Entry) Section() Section {
	return entry.row.Section
}

// Name is the name that the entry is about.
func (entry Entry) Name() Name {
	return Name{entry.octets, entry.row.NameAt}
}

// Type is the entry's type.
func (entry Entry) Type() Type {
	return entry.row.Type
}

// Class is the entry's class.
func (entry Entry) Class() Class {
	return entry.row.Class
}

// TTL is for how many seconds the entry may be kept; 0 of a question.
func (entry Entry) TTL() uint32 {
	return entry.row.TTL
}

// Data is the entry's data, which has no octets where it is a question.
func (entry Entry) Data() Data {
	row := entry.row
	return Data{entry.octets, row.DataAt, row.DataLen, row.Type, row.Class}
}

// shown is a text, or that of the error.
func shown(text string, err error) string {
	if err != nil {
		return err.Error()
	}
	return text
}
