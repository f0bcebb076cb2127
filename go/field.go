package octseq

import (
	"fmt"
	"net/netip"
	"strings"
)

// FieldKind is what a field of data is.
type FieldKind uint32

// The kinds of fields.
const (
	FieldNumber    FieldKind = 0 // a number of one, two or four octets: a preference, a time, a record type
	FieldName      FieldKind = 1 // a domain name
	FieldAddress   FieldKind = 2 // an address
	FieldString    FieldKind = 3 // a character string, without the octet of its length (RFC 1035, 3.3)
	FieldOctets    FieldKind = 4 // octets that are no other field: a key, a digest, a signature, unknown data
	FieldTypes     FieldKind = 5 // a set of record types (RFC 4034, 4.1.2)
	FieldParameter FieldKind = 6 // a parameter of SVCB (RFC 9460, 2.2), or an option of OPT (RFC 6891, 6.1.2)
)

// String is the kind's name, in small letters.
func (kind FieldKind) String() string {
	names := [...]string{"number", "name", "address", "string", "octets", "types", "parameter"}
	if int64(kind) < int64(len(names)) {
		return names[kind]
	}
	return "none"
}

// FieldRow is a field of data as numbers. Offsets are counted from the first octet of what the data was read from.
type FieldRow struct {
	At     int       // where its octets begin, after a length that it has before them; 0 of a number
	Len    int       // how many octets there are; of a name those at its offset, of a number 0
	Number uint32    // the number, or the key of a parameter or the code of an option; else 0
	Kind   FieldKind // what it is
}

// Field is a field of the data of a record.
type Field struct {
	row    FieldRow
	octets []byte
}

// Row is the field as numbers.
func (field Field) Row() FieldRow {
	return field.row
}

// Kind is what the field is.
func (field Field) Kind() FieldKind {
	return field.row.Kind
}

// Number is the number, or the key of a parameter or the code of an option. That of another field is 0.
func (field Field) Number() uint32 {
	return field.row.Number
}

// Name is the name. That of another field is the root.
func (field Field) Name() Name {
	if field.row.Kind != FieldName {
		return Name{}
	}
	return Name{field.octets, field.row.At}
}

// Address is the address. That of another field isn't valid.
func (field Field) Address() netip.Addr {
	if field.row.Kind != FieldAddress {
		return netip.Addr{}
	}
	address, _ := netip.AddrFromSlice(field.Octets())
	return address
}

// Octets is a copy of the field's octets: those of a parameter or an option follow its length, and a number has none.
func (field Field) Octets() []byte {
	row := field.row
	return append([]byte(nil), field.octets[row.At:row.At+row.Len]...)
}

// Types are the types of a set, in ascending order. Another field has none.
func (field Field) Types() []Type {
	if field.row.Kind != FieldTypes {
		return nil
	}
	var types []Type
	for rest := field.Octets(); len(rest) >= 2; {
		end := 2 + int(rest[1])
		types = append(types, windowTypes(int(rest[0]), rest[2:end])...)
		rest = rest[end:]
	}
	return types
}

// windowTypes are the types of a window, one for each bit that is set.
func windowTypes(window int, bits []byte) []Type {
	var types []Type
	for at := 0; at < 8*len(bits); at++ {
		if bits[at/8]&(0x80>>(at%8)) != 0 {
			types = append(types, Type(256*window+at))
		}
	}
	return types
}

// String is the kind of the field, and what it is.
func (field Field) String() string {
	kind := field.row.Kind
	switch kind {
	case FieldNumber:
		return fmt.Sprintf("%v %d", kind, field.row.Number)
	case FieldName:
		return fmt.Sprintf("%v %v", kind, field.Name())
	case FieldAddress:
		return fmt.Sprintf("%v %v", kind, field.Address())
	case FieldString:
		return fmt.Sprintf("%v %q", kind, field.Octets())
	case FieldTypes:
		return fmt.Sprintf("%v %s", kind, typesText(field.Types()))
	case FieldParameter:
		return fmt.Sprintf("%v %d %x", kind, field.row.Number, field.Octets())
	default:
		return fmt.Sprintf("%v %x", kind, field.Octets())
	}
}

// typesText are the mnemonics of types.
func typesText(types []Type) string {
	words := make([]string, len(types))
	for at, rtype := range types {
		words[at] = rtype.String()
	}
	return strings.Join(words, " ")
}
