package rtnlc

// #include <rtnlc.h>
import "C"

// TypeName is the name of a message type in the kernel's headers, as "RTM_NEWLINK": of links,
// addresses, routes, neighbours and rules, and of netlink itself.
func TypeName(messageType uint16) (string, bool) {
	var text [C.RTNLC_NAME]C.char
	put := C.rtnlc_type_name(C.uint16_t(messageType), &text[0], C.RTNLC_NAME)
	return C.GoStringN(&text[0], C.int(put.len)), put.code == ok
}

// Name is the name of the attribute in the kernel's headers, as "IFLA_IFNAME", where its number
// has a meaning: it has none in most lists.
func (a Attr) Name() (string, bool) {
	if a.tape == nil {
		return "", false
	}
	var text [C.RTNLC_NAME]C.char
	context, number := a.tape.context(a.at), C.uint16_t(a.Number())
	put := C.rtnlc_attr_name(context, number, &text[0], C.RTNLC_NAME)
	return C.GoStringN(&text[0], C.int(put.len)), put.code == ok
}

// context is where the head at an index stands, which says what its number means: in a message of
// a type, or in the last head before it of a lower level.
func (t *Tape) context(at uint32) C.uint8_t {
	level := t.events[at].Level
	for at--; t.events[at].Sort != SortMessage && t.events[at].Level >= level; at-- {
	}
	head := &t.events[at]
	number := C.uint16_t(head.Number)
	switch head.Sort {
	case SortMessage:
		return C.rtnlc_family_of(number).context
	case SortNextHop:
		return t.context(at)
	}
	return C.rtnlc_holds(t.context(at), number, C.bool(head.Nested)).context
}
