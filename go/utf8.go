package octseq

import (
	"fmt"
	"io"
)

// Fault is where octets stop being well-formed UTF-8.
type Fault struct {
	// ValidUpTo is the offset of the first ill-formed part. All octets before it are well-formed.
	ValidUpTo int
	// ErrorLen is how many octets that part has, 1 to 3, or 0 where the octets end within a character.
	ErrorLen int
}

// Error tells the offset of the fault.
func (fault Fault) Error() string {
	if fault.ErrorLen == 0 {
		return fmt.Sprintf("octseq: the octets end within a character that begins at offset %d", fault.ValidUpTo)
	}
	return fmt.Sprintf("octseq: ill-formed UTF-8 at offset %d, %d octets", fault.ValidUpTo, fault.ErrorLen)
}

// IsUTF8 tells whether octets are well-formed UTF-8 (the Unicode Standard, 3.9).
func IsUTF8(octets []byte) bool {
	return isUTF8(octets)
}

// FirstFault tells where octets stop being well-formed UTF-8, and whether they do.
func FirstFault(octets []byte) (Fault, bool) {
	validUpTo, errorLen, found := firstFault(octets)
	if !found {
		return Fault{}, false
	}
	return Fault{validUpTo, errorLen}, true
}

// Lossy makes a text of octets in which each maximal ill-formed part is one U+FFFD. It differs from
// strings.ToValidUTF8, which makes one of a run of such parts, and from a conversion to []rune, which makes one of each
// ill-formed octet.
func Lossy(octets []byte) string {
	return must(lossy(octets))
}

// must is the text of a call that has no room to run out of, and no other error.
func must(text []byte, err error) string {
	if err != nil {
		panic(err)
	}
	return string(text)
}

// LossyDecoder makes a lossy text of octets that come in pieces. However they are cut, the texts of all pieces and the
// last one of End are together the text that Lossy makes of all octets. It keeps at most three octets, those of a
// character that isn't whole yet. The zero value is ready for the first piece.
type LossyDecoder struct {
	state lossyState
}

// Feed is the text of the next piece.
func (decoder *LossyDecoder) Feed(piece []byte) string {
	return must(lossyPiece(&decoder.state, piece))
}

// End is what is left once no piece follows: U+FFFD where a character isn't whole, else nothing. After it, another text
// may begin.
func (decoder *LossyDecoder) End() string {
	return must(lossyEnd(&decoder.state))
}

// LossyReader reads the lossy text of what another reader has.
type LossyReader struct {
	source  io.Reader
	decoder LossyDecoder
	piece   [4096]byte
	text    string
	err     error
}

// NewLossyReader is a reader of the lossy text of what source has.
func NewLossyReader(source io.Reader) *LossyReader {
	return &LossyReader{source: source}
}

// Read reads octets of the text, and then has the error of the source, which is io.EOF at its end.
func (reader *LossyReader) Read(to []byte) (int, error) {
	for reader.text == "" && reader.err == nil && len(to) > 0 {
		count, err := reader.source.Read(reader.piece[:])
		reader.text = reader.decoder.Feed(reader.piece[:count])
		if err == io.EOF {
			reader.text += reader.decoder.End()
		}
		reader.err = err
	}
	if reader.text == "" {
		return 0, reader.err
	}
	count := copy(to, reader.text)
	reader.text = reader.text[count:]
	return count, nil
}
