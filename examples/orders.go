// One failpoint in a Go program, through cgo: FAILPOINTS='save=2*return->off' loses two orders.
// With a package, docs/how-to/migrate.md has the paths. In the repository:
//
//	export CGO_CFLAGS="-I$PWD/embedding" CGO_LDFLAGS="$PWD/embedding/lib/libfailreg.a"
//	go run examples/orders.go
package main

// #include <failreg.h>
// #include <stdlib.h>
import "C"

import (
	"fmt"
	"os"
	"sync"
	"unsafe"
)

// A node that goroutines share.
type registry struct {
	mutex sync.Mutex
	node  C.failreg
}

// Opens a node that is alone in its cluster, and sets the points of FAILPOINTS.
func (r *registry) open() error {
	var seed [32]C.uint8_t
	if status := C.failreg_open(&r.node, 0, 1, C.FAILREG_NO_CAP, &seed[0]); status != C.FAILREG_OK {
		return fmt.Errorf("failreg: %s", C.GoString(C.failreg_strerror(status)))
	}
	points := os.Getenv("FAILPOINTS")
	text := C.CString(points)
	defer C.free(unsafe.Pointer(text))
	var entries C.uint16_t
	if status := C.failreg_load(&r.node, text, C.size_t(len(points)), &entries); status != C.FAILREG_OK {
		return fmt.Errorf("FAILPOINTS: %s", C.GoString(C.failreg_strerror(status)))
	}
	return nil
}

// Evaluates a failpoint, and returns whether it fires with `return`.
func (r *registry) isFailing(name string) bool {
	text, length := C.CString(name), C.size_t(len(name))
	defer C.free(unsafe.Pointer(text))
	r.mutex.Lock()
	defer r.mutex.Unlock()
	var isSet C.bool
	if C.failreg_is_set(&r.node, text, length, &isSet) != C.FAILREG_OK || !bool(isSet) {
		return false
	}
	var act C.failreg_act
	return C.failreg_pass(&r.node, text, length, &act) == C.FAILREG_OK &&
		act.outcome == C.FAILREG_OUTCOME_ACT && act.task == C.FAILREG_TASK_RETURN
}

func main() {
	var failpoints registry
	if err := failpoints.open(); err != nil {
		fmt.Fprintln(os.Stderr, err)
		os.Exit(1)
	}
	for order := 0; order < 4; order++ {
		state := "saved"
		if failpoints.isFailing("save") {
			state = "lost"
		}
		fmt.Printf("order %d is %s\n", order, state)
	}
	C.failreg_close(&failpoints.node)
}
