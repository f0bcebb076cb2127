package octseq_test

import (
	"fmt"
	"io"
	"os"
	"strings"

	octseq "github.com/octseq/octseq/go"
)

func ExampleLossy() {
	fmt.Printf("%+q\n", octseq.Lossy([]byte("a\xE2\x82b\xFF\xFF")))
	// Output: "a\ufffdb\ufffd\ufffd"
}

func ExampleFirstFault() {
	fault, found := octseq.FirstFault([]byte("caf\xC3"))
	fmt.Println(found, fault)
	// Output: true octseq: the octets end within a character that begins at offset 3
}

func ExampleLossyDecoder() {
	var decoder octseq.LossyDecoder
	fmt.Printf("%q %q %q\n", decoder.Feed([]byte("caf\xC3")), decoder.Feed([]byte("\xA9\xC3")), decoder.End())
	// Output: "caf" "é" "�"
}

func ExampleNewLossyReader() {
	reader := octseq.NewLossyReader(strings.NewReader("a\xFFb\n"))
	io.Copy(os.Stdout, reader)
	// Output: a�b
}

func ExampleMessage_Answer() {
	query, err := octseq.Query(7, octseq.FlagRD, "example.com.", octseq.TypeA, octseq.ClassIN)
	if err != nil {
		panic(err)
	}
	message, err := octseq.ParseMessage(query)
	if err != nil {
		panic(err)
	}
	address := octseq.Row{
		NameAt: 0, DataAt: 13, DataLen: 4, TTL: 300,
		Type: octseq.TypeA, Class: octseq.ClassIN, Section: octseq.SectionAnswer,
	}
	source := []byte("\aexample\x03com\x00\xC0\x00\x02\x01")
	octets, err := message.Answer(octseq.FlagRA, source, []octseq.Row{address})
	if err != nil {
		panic(err)
	}
	answer, err := octseq.ParseMessage(octets)
	if err != nil {
		panic(err)
	}
	fmt.Print(answer)
	// Output:
	// id 7 opcode 0 rcode 0 flags QR RD RA
	// question example.com. IN A
	// answer example.com. 300 IN A 192.0.2.1
}

func ExampleParseRecordText() {
	record, err := octseq.ParseRecordText("example.com. 300 IN A 192.0.2.1", octseq.SectionAnswer)
	if err != nil {
		panic(err)
	}
	fmt.Println(record.Name(), record.TTL(), record.Class(), record.Type(), record.Data())
	_, err = octseq.ParseRecordText("example.com. 300 IN A 192.0.2", octseq.SectionAnswer)
	fmt.Println(err)
	// Output:
	// example.com. 300 IN A 192.0.2.1
	// octseq: line 1, offset 22: something else has to come here
}

func ExampleMRTReader() {
	file := strings.NewReader("\x65\x53\xF1\x00\x00\x10\x00\x05\x00\x00\x00\x18\x00\x00\xFD\xE9\x00\x00\xFD\xEA" +
		"\x00\x00\x00\x01\x0A\x00\x00\x01\x0A\x00\x00\x02\x00\x05\x00\x06")
	reader := octseq.NewMRTReader(file)
	for {
		record, err := reader.Next()
		if err == io.EOF {
			break
		}
		if err != nil {
			panic(err)
		}
		switch record := record.(type) {
		case *octseq.MRTRIB:
			fmt.Println(record.Prefix(), record.EntryCount(), "routes")
		case *octseq.MRTStateChange:
			fmt.Println(record.Event().PeerAddress, record.OldState(), record.NewState())
		}
	}
	// Output: 10.0.0.1 OpenConfirm Established
}

func ExampleData_Fields() {
	octets := []byte("\x00\x0A\x04mail\aexample\x03com\x00")
	data, err := octseq.NewData(octets, 0, len(octets), octseq.TypeMX, octseq.ClassIN)
	if err != nil {
		panic(err)
	}
	fields, err := data.Fields()
	if err != nil {
		panic(err)
	}
	for _, field := range fields {
		fmt.Println(field)
	}
	// Output:
	// number 10
	// name mail.example.com.
}

func ExampleEntry_Data() {
	record, err := octseq.ParseRecordText("example.com. 300 IN MX 10 mail.example.com.", octseq.SectionAnswer)
	if err != nil {
		panic(err)
	}
	fields, err := record.Data().Fields()
	if err != nil {
		panic(err)
	}
	for _, field := range fields {
		fmt.Println(field)
	}
	// Output:
	// number 10
	// name mail.example.com.
}
