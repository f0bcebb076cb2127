package octseq

// Data is the data of a record, within the octets of its message. Names in it may have pointers into them.
type Data struct {
	message []byte
	at      int
	length  int
	rtype   Type
	class   Class
}

// NewData is the data at an offset of a message's octets, which it copies. ErrMalformed: it isn't within them.
func NewData(message []byte, at, length int, rtype Type, class Class) (Data, error) {
	if at < 0 || length < 0 || at > len(message) || length > len(message)-at {
		return Data{}, ErrMalformed
	}
	return Data{append([]byte(nil), message...), at, length, rtype, class}, nil
}

// Octets is a copy of the data's octets.
func (data Data) Octets() []byte {
	return append([]byte(nil), data.message[data.at:data.at+data.length]...)
}

// IsTyped tells whether the data has the form of its type and class; 30 types are known. Data of other types has none.
func (data Data) IsTyped() bool {
	return dataIsTyped(data.message, data.at, data.length, data.rtype, data.class)
}

// Fields are the fields of the data, in the order that its type has them: of an MX a number and a name. All character
// strings of a TXT, all parameters and all options are fields of their own. Data that has not the form of a type that
// is known is one field of octets. No error is known.
func (data Data) Fields() ([]Field, error) {
	rows, err := dataFields(data.message, data.at, data.length, data.rtype, data.class)
	fields := make([]Field, len(rows))
	for at, row := range rows {
		fields[at] = Field{row, data.message}
	}
	return fields, err
}

// Text is the data's text: that of its type, or `\# n` and the octets in hexadecimal (RFC 3597, 5) where it isn't
// typed. ErrUnshown.
func (data Data) Text() (string, error) {
	return dataText(data.message, data.at, data.length, data.rtype, data.class)
}

// String is the text, or that of the error.
func (data Data) String() string {
	return shown(data.Text())
}
