// The line protocol of the drivers (../line.h tells it), for those in Go.

package main

import (
	"bufio"
	"encoding/hex"
	"fmt"
	"os"
	"strconv"
	"strings"
	"syscall"
	"unsafe"
)

// version is set by the script that builds.
var version = "unknown"

// A library that has names as text alone. Both of them lack a canonical order.
type library struct {
	read     func(message []byte, offset int) (text string, end int, err error)
	labels   func(text string) []string
	fromText func(text string) (wire []byte, err error)
	// compose writes names one after another behind a header of 12 octets, and tells the octets written.
	compose func(texts []string) int
}

func octets(word string) []byte {
	if word == "-" {
		return []byte{}
	}
	res, err := hex.DecodeString(word)
	if err != nil {
		panic(err)
	}
	return res
}

func join(labels []string) string {
	if len(labels) == 0 {
		return "."
	}
	words := make([]string, len(labels))
	for i, label := range labels {
		words[i] = hex.EncodeToString([]byte(label))
	}
	return strings.Join(words, ".")
}

// wireLabels has the labels of an uncompressed wire format.
func wireLabels(wire []byte) (labels []string) {
	for at := 0; at < len(wire) && wire[at] != 0; at += int(wire[at]) + 1 {
		labels = append(labels, string(wire[at+1:at+1+int(wire[at])]))
	}
	return labels
}

// now is the time of the processor that the process took so far, in nanoseconds.
func now() int64 {
	var time [2]int64
	const clockProcessCputimeID = 2
	syscall.RawSyscall(syscall.SYS_CLOCK_GETTIME, clockProcessCputimeID, uintptr(unsafe.Pointer(&time)), 0)
	return time[0]*1e9 + time[1]
}

// measure makes rounds for two tenths of a second, at least one and at most 200; the best counts.
func measure(round func() int) string {
	best, count, begun := int64(0), 0, now()
	for i := 0; i == 0 || (i < 200 && now()-begun < 2e8); i++ {
		start := now()
		count = round()
		if took := now() - start; i == 0 || took < best {
			best = took
		}
	}
	return fmt.Sprintf("ok %d %d", best, count)
}

func timeFile(lib library, what, path string) string {
	data, err := os.ReadFile(path)
	if err != nil {
		panic(err)
	}
	lines := strings.Split(strings.TrimSpace(string(data)), "\n")
	switch what {
	case "read":
		message := octets(lines[0])
		var offsets []int
		for _, word := range strings.Fields(lines[1]) {
			offset, _ := strconv.Atoi(word)
			offsets = append(offsets, offset)
		}
		return measure(func() (accepted int) {
			for _, offset := range offsets {
				if _, _, err := lib.read(message, offset); err == nil {
					accepted++
				}
			}
			return accepted
		})
	case "compose":
		var texts []string
		for _, line := range lines {
			text, _, err := lib.read(octets(line), 0)
			if err != nil {
				return "no"
			}
			texts = append(texts, text)
		}
		return measure(func() int { return lib.compose(texts) })
	}
	return "none"
}

func answer(lib library, words []string) string {
	switch {
	case words[0] == "version":
		return "ok " + version
	case words[0] == "read" && len(words) == 3:
		offset, _ := strconv.Atoi(words[2])
		text, end, err := lib.read(octets(words[1]), offset)
		if err != nil {
			return "no"
		}
		return fmt.Sprintf("ok %s %d", join(lib.labels(text)), end)
	case words[0] == "text" && len(words) == 2:
		wire, err := lib.fromText(string(octets(words[1])))
		if err != nil {
			return "no"
		}
		return "ok " + join(wireLabels(wire))
	case words[0] == "show" && len(words) == 2:
		text, _, err := lib.read(octets(words[1]), 0)
		if err != nil {
			return "no"
		}
		return "ok " + hex.EncodeToString([]byte(text))
	case words[0] == "time" && len(words) == 3:
		return timeFile(lib, words[1], words[2])
	}
	return "none"
}

func run(lib library) {
	input := bufio.NewScanner(os.Stdin)
	input.Buffer(nil, 1<<24)
	for input.Scan() {
		fmt.Println(answer(lib, strings.Fields(input.Text())))
	}
}
