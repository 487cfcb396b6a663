// golang.org/x/net/dns/dnsmessage. It exports no reading at an offset, so its own inner calls are linked here by name.
// Its texts have no escapes: what stands between two dots is taken for a label.

package main

import (
	"strings"
	_ "unsafe"

	"golang.org/x/net/dns/dnsmessage"
)

//go:linkname unpack golang.org/x/net/dns/dnsmessage.(*Name).unpack
func unpack(name *dnsmessage.Name, message []byte, offset int) (int, error)

//go:linkname pack golang.org/x/net/dns/dnsmessage.(*Name).pack
func pack(name *dnsmessage.Name, message []byte, table map[string]int, before int) ([]byte, error)

func read(message []byte, offset int) (string, int, error) {
	var name dnsmessage.Name
	end, err := unpack(&name, message, offset)
	return name.String(), end, err
}

func labels(text string) (res []string) {
	for _, label := range strings.Split(strings.TrimSuffix(text, "."), ".") {
		if text != "." {
			res = append(res, label)
		}
	}
	return res
}

func fromText(text string) ([]byte, error) {
	name, err := dnsmessage.NewName(text)
	if err != nil {
		return nil, err
	}
	return pack(&name, nil, nil, 0)
}

func compose(texts []string) int {
	message, table := make([]byte, 12, 65535), map[string]int{}
	for _, text := range texts {
		name := dnsmessage.MustNewName(text)
		next, err := pack(&name, message, table, 0)
		if err != nil || len(next) > 65535 {
			break
		}
		message = next
	}
	return len(message)
}

func main() {
	run(library{read, labels, fromText, compose})
}
