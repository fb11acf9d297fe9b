package main

// #cgo pkg-config: pwcheck
// #include <pwcheck.h>
import "C"

import (
	"fmt"
	"os"
	"unsafe"
)

// pointer is where bytes begin, of which there is at least one.
func pointer(bytes []byte) *C.uint8_t { return (*C.uint8_t)(unsafe.Pointer(&bytes[0])) }

func main() {
	password, text, n := []byte("correct horse"), make([]byte, C.PWCHECK_TEXT_MAX), C.size_t(0)
	length := C.size_t(len(password))
	if C.pwcheck_make(pointer(password), length, pointer(text), C.size_t(len(text)), &n) != C.PWCHECK_DONE {
		os.Exit(1)
	}
	if C.pwcheck_check_login(pointer(password), length, pointer(text), n) == C.PWCHECK_MATCH {
		fmt.Println("match")
	} else {
		fmt.Println("no match")
	}
}
