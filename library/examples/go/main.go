// The same question from Go:
// CGO_CFLAGS=$(pkg-config --cflags memcgrun) CGO_LDFLAGS=$(pkg-config --libs memcgrun) go build
package main

/*
#include <memcgrun.h>
*/
import "C"

import (
	"fmt"
	"os"
	"unsafe"
)

const script = `group /job
set /job memory.max 8192
task 1 /job
task 2 /job
1 write 0 0 1
1 write 1 0 1
2 write 0 0 1
`

// schedule gives the answers of a script with their labels, or why there are none.
func schedule(script []byte) (string, error) {
	var out, err C.struct_memcgrun_text
	defer C.memcgrun_text_free(&out)
	defer C.memcgrun_text_free(&err)
	var first *C.uint8_t
	if len(script) > 0 {
		first = (*C.uint8_t)(unsafe.Pointer(&script[0]))
	}
	// Every default is 0.
	options := C.struct_memcgrun_options{size: C.sizeof_struct_memcgrun_options, labels: true}
	switch C.memcgrun_schedule(first, C.size_t(len(script)), &options, &out, &err) {
	case C.MEMCGRUN_OK:
		return text(out), nil
	case C.MEMCGRUN_NO_MEMORY:
		return "", fmt.Errorf("not enough memory\n")
	default:
		return "", fmt.Errorf("%s", text(err))
	}
}

func text(text C.struct_memcgrun_text) string {
	return string(unsafe.Slice((*byte)(text.bytes), int(text.len)))
}

func main() {
	answers, fault := schedule([]byte(script))
	fmt.Print(answers)
	if fault != nil {
		fmt.Fprint(os.Stderr, fault)
		os.Exit(1)
	}
}
