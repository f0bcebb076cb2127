package octseq

// Type is the type of a record.
type Type uint16

// Some types.
const (
	TypeA     Type = 1
	TypeNS    Type = 2
	TypeCNAME Type = 5
	TypeSOA   Type = 6
	TypePTR   Type = 12
	TypeMX    Type = 15
	TypeTXT   Type = 16
	TypeAAAA  Type = 28
	TypeSRV   Type = 33
	TypeOPT   Type = 41
	TypeANY   Type = 255
)

// String is the type's mnemonic: `AAAA`, `TYPE1234` (RFC 3597, 5).
func (rtype Type) String() string {
	return shown(typeText(rtype))
}

// ParseType is the type that a mnemonic names, in letters of either case. ErrMalformed: it names none.
func ParseType(text string) (Type, error) {
	return typeFromText([]byte(text))
}

// Class is the class of a record.
type Class uint16

// Some classes.
const (
	ClassIN   Class = 1
	ClassCH   Class = 3
	ClassNONE Class = 254
	ClassANY  Class = 255
)

// String is the class's mnemonic: `IN`, `CLASS5` (RFC 3597, 5).
func (class Class) String() string {
	return shown(classText(class))
}

// ParseClass is the class that a mnemonic names, in letters of either case. ErrMalformed: it names none.
func ParseClass(text string) (Class, error) {
	return classFromText([]byte(text))
}
