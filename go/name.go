package octseq

// Name is a name of DNS (RFC 1035, 3.1). The zero value is the root.
type Name struct {
	octets []byte
	offset  int
}

// NewName is the name that begins at an offset of octets. Where it ends with a pointer, what it points to is in the
// same octets. It is copied. ErrMalformed: no name is there.
func NewName(octets []byte, offset int) (Name, error) {
	wire, err := nameWire(octets, offset)
	return Name{wire, 0}, err
}

// ParseName is the name that a text spells. The text ends with a full stop: `example.com.` (RFC 1035, 5.1).
// ErrMalformed: it spells none.
func ParseName(text string) (Name, error) {
	wire, err := nameFromText([]byte(text))
	return Name{wire, 0}, err
}

// at is where the name is.
func (name Name) at() ([]byte, int) {
	if name.octets == nil {
		return []byte{0}, 0
	}
	return name.octets, name.offset
}

// Text is the name's text, with the escapes of RFC 1035, 5.1. ErrUnshown.
func (name Name) Text() (string, error) {
	octets, offset := name.at()
	return nameText(octets, offset)
}

// String is the text, or that of the error.
func (name Name) String() string {
	return shown(name.Text())
}

// Wire is the name's wire form, without pointers. It has at most 255 octets.
func (name Name) Wire() []byte {
	octets, offset := name.at()
	wire, err := nameWire(octets, offset)
	if err != nil {
		panic(err)
	}
	return wire
}

// Compare is how the name compares with another in the canonical order (RFC 4034, 6.1): -1, 0 or 1. Letters of either
// case are one.
func (name Name) Compare(other Name) int {
	octets, offset := name.at()
	otherOctets, otherOffset := other.at()
	return nameCompare(octets, offset, otherOctets, otherOffset)
}

// Equal tells whether two names are equal. Letters of either case are one.
func (name Name) Equal(other Name) bool {
	return name.Compare(other) == 0
}

// Key is a key for maps: names have one key where they are equal. It is the wire form in small letters. The lengths of
// labels are at most 63, and so are no letters.
func (name Name) Key() string {
	wire := name.Wire()
	for at, octet := range wire {
		if 'A' <= octet && octet <= 'Z' {
			wire[at] = octet + ('a' - 'A')
		}
	}
	return string(wire)
}
