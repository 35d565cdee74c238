package rtnlc

/*
#cgo !rtnlc_beside pkg-config: rtnlc
#cgo rtnlc_beside CFLAGS: -I${SRCDIR}/lib
#cgo rtnlc_beside LDFLAGS: ${SRCDIR}/lib/librtnlc.a
#include <rtnlc.h>
#if RTNLC_ABI != 3
#error "the package rtnlc needs librtnlc 0.3: ./install --library PREFIX of rtnl 0.3.0 puts it"
#endif
*/
import "C"

// With the build tag rtnlc_beside the library is the one in lib/, which the clone of rtnl around
// this folder makes, by go generate.
//
//go:generate sh -c "../../c/build.sh lib && cp ../../include/rtnlc.h lib"

import (
	"strings"
	"unsafe"
)

// Version is the version of this package, and of the library that it is written for.
const Version = "0.3.0"

func init() {
	if found := LibraryVersion(); release(found) != release(Version) {
		panic("rtnlc: librtnlc " + found + " is here, and this package needs " +
			release(Version) + ": install that by `./install --library PREFIX` of rtnl " +
			Version + ", and build again with PREFIX/lib/pkgconfig in PKG_CONFIG_PATH")
	}
}

// LibraryVersion is the version of the library that is linked. The package doesn't run with
// another one than Version, but for the last of the three numbers: it panics when it is loaded.
// Behind these stands +unproved where LibraryProved is false.
func LibraryVersion() string { return C.GoString(C.rtnlc_version()) }

// LibraryProved says whether the library that is linked was made of what was proved.
func LibraryProved() bool { return bool(C.rtnlc_proved()) }

// release is a version up to its second point: what programs can rely on while it begins with 0.
func release(version string) string {
	if last := strings.LastIndexByte(version, '.'); last >= 0 {
		return version[:last]
	}
	return version
}

// bytesAt is where bytes begin, or null where there are none.
func bytesAt(bytes []byte) *C.uint8_t {
	if len(bytes) == 0 {
		return nil
	}
	return (*C.uint8_t)(unsafe.Pointer(&bytes[0]))
}
