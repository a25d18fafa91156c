// Asks one scenario several times: how much memory does a job need so that it is not killed?
// CGO_CFLAGS=$(pkg-config --cflags memcgrun) CGO_LDFLAGS=$(pkg-config --libs memcgrun) go build ./scenario
package main

/*
#include <memcgrun.h>
#include <stdlib.h>
*/
import "C"

import (
	"fmt"
	"os"
	"unsafe"
)

const scenario = `page 64K
let max 16M
group /job max {max}
task app in /job
app write 50M
expect nobody killed
`

// simulate says whether all was as expected, or why the scenario was not run.
func simulate(scenario []byte, settings string) (bool, error) {
	var out, err C.struct_memcgrun_text
	defer C.memcgrun_text_free(&out)
	defer C.memcgrun_text_free(&err)
	given := C.CString(settings)
	defer C.free(unsafe.Pointer(given))
	var first *C.uint8_t
	if len(scenario) > 0 {
		first = (*C.uint8_t)(unsafe.Pointer(&scenario[0]))
	}
	// Every default is 0. The options are in C's memory, since they point to the settings.
	options := (*C.struct_memcgrun_scenario_options)(C.calloc(1, C.sizeof_struct_memcgrun_scenario_options))
	defer C.free(unsafe.Pointer(options))
	options.size = C.sizeof_struct_memcgrun_scenario_options
	options.settings = given
	switch C.memcgrun_simulate(first, C.size_t(len(scenario)), options, &out, &err) {
	case C.MEMCGRUN_OK:
		return true, nil
	case C.MEMCGRUN_DIFFERS:
		return false, nil
	case C.MEMCGRUN_NO_MEMORY:
		return false, fmt.Errorf("not enough memory\n")
	default:
		return false, fmt.Errorf("%s", unsafe.Slice((*byte)(err.bytes), int(err.len)))
	}
}

func main() {
	for _, max := range []string{"32M", "48M", "64M"} {
		isEnough, fault := simulate([]byte(scenario), "max="+max)
		if fault != nil {
			fmt.Fprint(os.Stderr, fault)
			os.Exit(1)
		}
		if isEnough {
			fmt.Printf("%s: enough\n", max)
		} else {
			fmt.Printf("%s: not enough\n", max)
		}
	}
}
