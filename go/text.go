package octseq

import (
	"encoding/binary"
	"fmt"
)

// TextFault is where the text of a record or a message is refused: the offset of its first word that isn't what has to
// come there. The end of a line counts as a word. It is an ErrMalformed.
type TextFault struct {
	Line   int // the number of the line, from 1 on
	Offset int // how many octets of the line come before the word
}

// Error tells the offset of the fault.
func (fault TextFault) Error() string {
	return fmt.Sprintf("octseq: line %d, offset %d: something else has to come here", fault.Line, fault.Offset)
}

// Unwrap is ErrMalformed.
func (fault TextFault) Unwrap() error {
	return ErrMalformed
}

// ParseRecordText is the record that a text is, one line without its end, as RFC 1035, 5.1 has it: `example.com. 300 IN
// MX 10 mail.example.com.`. The TTL and the class come in either order, and each name ends with a full stop. With its
// source, its row goes into an answer, in this section. No name has a pointer, but data in the form `\# n` (RFC 3597,
// 5) is what is given there: pointers in it lead to offsets of the source. TextFault, whose line is 1. ErrTooLong: the
// data has more than 65,535 octets. ErrBadRow: the section has no records. ErrMemory.
func ParseRecordText(text string, section Section) (Entry, error) {
	if section < SectionAnswer || section > SectionAdditional {
		return Entry{}, ErrBadRow
	}
	octets, err := recordFromText([]byte(text))
	if err != nil {
		return Entry{}, err
	}
	name, err := nameWire(octets, 0)
	if err != nil {
		return Entry{}, err
	}
	numbers := octets[len(name):]
	return Entry{Row{
		DataAt:  len(name) + 10,
		DataLen: int(binary.BigEndian.Uint16(numbers[8:])),
		TTL:     binary.BigEndian.Uint32(numbers[4:]),
		Type:    Type(binary.BigEndian.Uint16(numbers)),
		Class:   Class(binary.BigEndian.Uint16(numbers[2:])),
		Section: section,
	}, octets}, nil
}

// ParseMessageText is the message that a text is, in the form that Message.Text has, with its names compressed.
// TextFault. ErrTooLong: it has more than 65,535 octets. ErrMemory.
func ParseMessageText(text string) (Message, error) {
	octets, err := messageFromText([]byte(text))
	if err != nil {
		return Message{}, err
	}
	header, err := messageHeader(octets)
	return Message{octets, header}, err
}
