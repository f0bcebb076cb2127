package octseq

import (
	"bufio"
	"errors"
	"io"
)

// ErrCutOff says that an MRT file ends inside a record.
var ErrCutOff = errors.New("octseq: the file ends inside a record")

// The octets that a reader takes at a time, and those of a header.
const (
	mrtBlock     = 1 << 16
	mrtHeaderLen = 12
)

// MRTReader reads the records of an MRT file that isn't compressed. It holds a block of the file, the last table of
// peers, and no other record. It may read a block more than the record that it gives.
type MRTReader struct {
	source *bufio.Reader
	table  *MRTPeerIndexTable
	err    error
}

// NewMRTReader is a reader of the records of a file, from where it is.
func NewMRTReader(source io.Reader) *MRTReader {
	return &MRTReader{source: bufio.NewReaderSize(source, mrtBlock)}
}

// Next is the next record. io.EOF: the file has ended. ErrCutOff: it ends inside a record. Another error is that of the
// source. After an error there are no more records, and it stays.
func (reader *MRTReader) Next() (MRTRecord, error) {
	if reader.err != nil {
		return nil, reader.err
	}
	record, err := reader.next()
	if err != nil {
		reader.err = err
		return nil, err
	}
	if table, isTable := record.(*MRTPeerIndexTable); isTable {
		reader.table = table
	}
	return record, nil
}

func (reader *MRTReader) next() (MRTRecord, error) {
	var front [mrtHeaderLen]byte
	count, err := io.ReadFull(reader.source, front[:])
	if err != nil {
		return nil, cutOff(err, count)
	}
	header, err := mrtHeader(front[:])
	if err != nil {
		return nil, err
	}
	octets := append(make([]byte, 0, atMostBlock(header.Len)), front[:]...)
	for len(octets) < header.Len {
		// A length that no file has takes no memory: a block is there before the next one is asked for.
		from := len(octets)
		octets = append(octets, make([]byte, atMostBlock(header.Len-from))...)
		count, err := io.ReadFull(reader.source, octets[from:])
		if err != nil {
			return nil, cutOff(err, from+count)
		}
	}
	return mrtRecordOf(octets, reader.table)
}

func atMostBlock(length int) int {
	if length > mrtBlock {
		return mrtBlock
	}
	return length
}

// cutOff is the error of a source that has given some octets of a record.
func cutOff(err error, count int) error {
	if count > 0 && (err == io.EOF || err == io.ErrUnexpectedEOF) {
		return ErrCutOff
	}
	return err
}
