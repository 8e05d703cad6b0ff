// Records reads a configuration and inputs from standard input, each as its length in four bytes, least significant first, and then its
// bytes. It writes for each input a status and the module, or the reason in words, in the same form. An argument is the file of a shape for
// exports.
package main

import (
	"bufio"
	"encoding/binary"
	"errors"
	"io"
	"log"
	"os"

	"smith"
)

// record returns the next record, or an error at the end.
func record(from io.Reader) ([]byte, error) {
	var length uint32
	if err := binary.Read(from, binary.LittleEndian, &length); err != nil {
		return nil, err
	}
	bytes := make([]byte, length)
	_, err := io.ReadFull(from, bytes)
	return bytes, err
}

func answer(text string, exports, input []byte) (uint32, []byte) {
	config, err := smith.NewConfig(text)
	var module []byte
	if err == nil {
		config.Shapes.Exports = exports
		module, err = config.Module(input)
	}
	var refused *smith.Refused
	if errors.As(err, &refused) {
		return refused.Status, []byte(refused.Words)
	}
	return 0, module
}

func main() {
	from, to := bufio.NewReader(os.Stdin), bufio.NewWriter(os.Stdout)
	var exports []byte
	if len(os.Args) > 1 {
		var err error
		if exports, err = os.ReadFile(os.Args[1]); err != nil {
			log.Fatal(err)
		}
	}
	config, err := record(from)
	for err == nil {
		var input []byte
		if input, err = record(from); err == nil {
			status, bytes := answer(string(config), exports, input)
			binary.Write(to, binary.LittleEndian, [2]uint32{status, uint32(len(bytes))})
			to.Write(bytes)
		}
	}
	if err != io.EOF {
		log.Fatal(err)
	}
	if err := to.Flush(); err != nil {
		log.Fatal(err)
	}
}
