// miekg/dns

package main

import (
	"strings"

	"github.com/miekg/dns"
)

func fromText(text string) ([]byte, error) {
	wire := make([]byte, 4096)
	end, err := dns.PackDomainName(text, wire, 0, nil, false)
	if err != nil {
		return nil, err
	}
	return wire[:end], nil
}

// labels takes back the escapes of a text.
func labels(text string) (res []string) {
	var label []byte
	for at := 0; at < len(text); at++ {
		switch {
		case text[at] == '.':
			if len(label) > 0 {
				res = append(res, string(label))
			}
			label = nil
		case text[at] == '\\' && text[at+1] >= '0' && text[at+1] <= '9':
			label = append(label, (text[at+1]-'0')*100+(text[at+2]-'0')*10+text[at+3]-'0')
			at += 3
		case text[at] == '\\':
			at++
			label = append(label, text[at])
		default:
			label = append(label, text[at])
		}
	}
	return res
}

func compose(texts []string) int {
	message, table, end := make([]byte, 65535), map[string]int{}, 12
	for _, text := range texts {
		next, err := dns.PackDomainName(text, message, end, table, true)
		if err != nil {
			break
		}
		end = next
	}
	return end
}

func main() {
	version = strings.TrimSpace(dns.Version.String())
	run(library{dns.UnpackDomainName, labels, fromText, compose})
}
