package rtnlc

// #include <rtnlc.h>
import "C"

import "unsafe"

// Options are the limits of a reading. Where a pointer to them is nil, those of StandardOptions
// hold. Others begin with these, since a limit that is left out is 0. One that is out of its range
// is ErrBadLimit.
type Options struct {
	Total     uint64   // bytes of all datagrams of a session or a stream at most: 0 to 2^40
	Datagram  uint32   // bytes of a datagram at most: a multiple of 4 from 16 to 1,048,576
	Entries   uint32   // entries of each table of a session at most: 0 to 65,536
	Depth     uint8    // levels that attributes which hold others may open at most: 0 to 32
	BigEndian bool     // numbers have their highest byte first, as on s390x
	seed      [16]byte // of the hash of a session's tables; zero, so the kernel gives one
	_         [6]byte
}

// The library reads options as they lie: the compiler compares the size of the struct and the
// offset of each field.
var (
	limits C.struct_rtnlc_options

	_ [unsafe.Sizeof(limits)]byte            = [unsafe.Sizeof(Options{})]byte{}
	_ [unsafe.Offsetof(limits.total)]byte    = [unsafe.Offsetof(Options{}.Total)]byte{}
	_ [unsafe.Offsetof(limits.datagram)]byte = [unsafe.Offsetof(Options{}.Datagram)]byte{}
	_ [unsafe.Offsetof(limits.entries)]byte  = [unsafe.Offsetof(Options{}.Entries)]byte{}
	_ [unsafe.Offsetof(limits.depth)]byte    = [unsafe.Offsetof(Options{}.Depth)]byte{}
	_ [unsafe.Offsetof(limits.big)]byte      = [unsafe.Offsetof(Options{}.BigEndian)]byte{}
	_ [unsafe.Offsetof(limits.seed)]byte     = [unsafe.Offsetof(Options{}.seed)]byte{}
)

// StandardOptions are 2^30 bytes, 65,536 a datagram, 4,096 entries, 8 levels and the lowest byte
// first.
func StandardOptions() Options {
	return Options{
		Total:    C.RTNLC_STANDARD_TOTAL,
		Datagram: C.RTNLC_STANDARD_DATAGRAM,
		Entries:  C.RTNLC_STANDARD_ENTRIES,
		Depth:    C.RTNLC_STANDARD_DEPTH,
	}
}

// c is what the library takes.
func (o *Options) c() *C.struct_rtnlc_options {
	return (*C.struct_rtnlc_options)(unsafe.Pointer(o))
}

func (o *Options) isBigEndian() bool { return o != nil && o.BigEndian }

// Scan checks every head of a datagram and keeps nothing. It answers how many bytes of attributes
// it visited: at most the depth limit plus one times the bytes. The error is an *Error.
func Scan(datagram []byte, options *Options) (visits uint64, err error) {
	scanned := C.rtnlc_scan(bytesAt(datagram), C.size_t(len(datagram)), options.c())
	return uint64(scanned.visits), refusal(scanned.code, scanned.place)
}

// Check says whether a datagram is canonical: written as its messages are, every padding whole and
// of zeros, and every byte of a head that is not kept zero. The error is an *Error.
func Check(datagram []byte, options *Options) (canonical bool, err error) {
	checked := C.rtnlc_check(bytesAt(datagram), C.size_t(len(datagram)), options.c())
	return bool(checked.canonical), refusal(checked.code, checked.place)
}

// Show is the text that `rtnl show` prints of a datagram of this number. A refused one has a text
// too, which says why. The error is ErrBadLimit or ErrNoMemory, as an *Error.
func Show(number uint, datagram []byte, options *Options) (string, error) {
	text := make([]byte, 256+8*len(datagram))
	for {
		shown := C.rtnlc_show(C.size_t(number), bytesAt(datagram), C.size_t(len(datagram)),
			options.c(), (*C.char)(unsafe.Pointer(&text[0])), C.size_t(len(text)))
		if int(shown.len) <= len(text) {
			return string(text[:shown.len]), refusal(shown.code, 0)
		}
		text = make([]byte, shown.len)
	}
}

// Request is the request of a dump: a message with the flags NLM_F_REQUEST and NLM_F_DUMP. The
// message type is any of the family, as RTM_GETLINK or RTM_NEWLINK, and the address family 0 for
// all. Of the options BigEndian alone counts. The error is ErrNoKind, as an *Error.
func Request(messageType uint16, family uint8, seq uint32, options *Options) ([]byte, error) {
	request := make([]byte, C.RTNLC_REQUEST)
	put := C.rtnlc_request(C.uint16_t(messageType), C.uint8_t(family), C.uint32_t(seq),
		C.bool(options.isBigEndian()), bytesAt(request), C.size_t(len(request)))
	return request[:put.len], refusal(put.code, 0)
}
