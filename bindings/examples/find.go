// Prints all matches of some words in standard input: find WORD... < TEXT
package main

// #cgo pkg-config: literal_search
// #include <literal_search.h>
import "C"

import (
	"fmt"
	"io"
	"os"
	"unsafe"
)

func main() {
	words := make([]*C.char, len(os.Args)) // one more than there are words, so that words[0] exists
	for i, word := range os.Args[1:] {
		words[i] = C.CString(word)
		defer C.free(unsafe.Pointer(words[i]))
	}
	var status C.int32_t
	search := C.literal_new_of_words(C.LITERAL_LEFTMOST_FIRST, 0, &words[0], C.size_t(len(words)-1), &status)
	if search == nil {
		fmt.Fprintln(os.Stderr, "find:", C.GoString(C.literal_status_text(status)))
		os.Exit(2)
	}
	defer C.literal_free(search)
	text, err := io.ReadAll(os.Stdin)
	if err != nil || len(text) == 0 {
		return
	}
	var found C.literal_match
	for C.literal_next(search, unsafe.Pointer(&text[0]), C.size_t(len(text)), found.end, &found) != 0 {
		fmt.Println(found.pattern, found.start, found.end)
	}
}
