package rtnlc

/*
#include <rtnlc.h>

// What is built lies in memory of Go, and may hold no pointer to the buffer: each call joins both
// while it lasts.
#define BUILDING(name, call, ...) \
	static uint8_t built_##name(struct rtnlc_built *built, uint8_t *out, size_t room, __VA_ARGS__) \
	{ \
		struct rtnlc_builder b = { out, room, *built }; \
		uint8_t code = rtnlc_builder_##call; \
		*built = b.built; \
		return code; \
	}

BUILDING(begin, begin(&b, kind, flags, seq, port, head, len), uint16_t kind, uint16_t flags,
         uint32_t seq, uint32_t port, const uint8_t *head, size_t len)
BUILDING(message, message(&b, kind, flags, seq, port, body, len), uint16_t kind, uint16_t flags,
         uint32_t seq, uint32_t port, const uint8_t *body, size_t len)
BUILDING(put, put(&b, type, bytes, len), uint16_t type, const uint8_t *bytes, size_t len)
BUILDING(text, put_text(&b, type, (const char *)bytes, len), uint16_t type, const uint8_t *bytes,
         size_t len)
BUILDING(u8, put_u8(&b, type, value), uint16_t type, uint8_t value)
BUILDING(u16, put_u16(&b, type, value), uint16_t type, uint16_t value)
BUILDING(u32, put_u32(&b, type, value), uint16_t type, uint32_t value)
BUILDING(u64, put_u64(&b, type, value), uint16_t type, uint64_t value)
BUILDING(be16, put_be16(&b, type, value), uint16_t type, uint16_t value)
BUILDING(be32, put_be32(&b, type, value), uint16_t type, uint32_t value)
BUILDING(be64, put_be64(&b, type, value), uint16_t type, uint64_t value)
BUILDING(open, open(&b, type), uint16_t type)
BUILDING(open_hop, open_hop(&b, flags, hops, ifindex), uint8_t flags, uint8_t hops,
         int32_t ifindex)

static uint8_t built_close(struct rtnlc_built *built, uint8_t *out, size_t room, bool message)
{
	struct rtnlc_builder b = { out, room, *built };
	uint8_t code = message ? rtnlc_builder_end(&b) : rtnlc_builder_close(&b);
	*built = b.built;
	return code;
}

static struct rtnlc_put built_finish(const struct rtnlc_built *built, uint8_t *out, size_t room)
{
	const struct rtnlc_builder b = { out, room, *built };
	return rtnlc_builder_finish(&b);
}

static uint8_t built_new(struct rtnlc_built *built, const struct rtnlc_options *options)
{
	struct rtnlc_builder b;
	uint8_t code = rtnlc_builder_new(&b, options, NULL, 0);
	if (code == RTNLC_OK)
		*built = b.built;
	return code;
}
*/
import "C"

import "net/netip"

// A Builder puts messages one after another into a buffer. What Finish hands out is never
// malformed: it is within the limits, and is read again as exactly what was put.
//
//	b := rtnlc.NewBuilder(make([]byte, 256), nil)
//	head := rtnlc.RouteTo(dst) // a netip.Prefix
//	head.Table, head.Type = rtnlc.RT_TABLE_MAIN, rtnlc.RTN_UNICAST
//	b.Begin(rtnlc.Header{Type: rtnlc.RTM_NEWROUTE, Flags: flags, Seq: 1}, head)
//	b.PutAddr(rtnlc.RTA_DST, dst.Addr())
//	b.Open(rtnlc.RTA_METRICS)
//	b.PutUint32(rtnlc.RTAX_MTU, 1400)
//	b.Close()
//	b.End()
//	datagram, err := b.Finish()
//
// The first refusal sticks, as an error does in a bufio.Writer: all calls behind it do nothing,
// and Err and Finish answer it. No call that is refused changes a byte of the buffer. Attributes
// are put by their number, with NLA_F_NESTED and NLA_F_NET_BYTEORDER where they are meant; neither
// changes the bytes. A Builder is not to be copied: a copy panics where it is used.
type Builder struct {
	own     guard
	made    C.struct_rtnlc_built
	buffer  []byte
	options *Options
	code    C.uint8_t
	head    [16]byte
}

// NewBuilder makes a builder over a buffer, whose length is its room. Of the options Datagram,
// Depth and BigEndian count; where one is out of its range, ErrBadLimit is refused from the start.
func NewBuilder(buffer []byte, options *Options) *Builder {
	b := &Builder{buffer: buffer, options: options}
	b.Reset()
	return b
}

// Reset begins again, in the same buffer and without a refusal: what was built is gone.
func (b *Builder) Reset() {
	b.own.stay("Builder")
	b.code = C.built_new(&b.made, b.options.c())
}

// ready says whether nothing was refused.
func (b *Builder) ready() bool {
	b.own.stay("Builder")
	return b.code == ok
}

func (b *Builder) out() *C.uint8_t { return bytesAt(b.buffer) }

func (b *Builder) room() C.size_t { return C.size_t(len(b.buffer)) }

// Begin begins a message of a type NEW, DEL or SET, with its family's head; Len of the header is
// not looked at. What is refused is ErrMismatch where the kernel's field can't hold the index of
// the head, or the head is not that of the type; ErrStillOpen where a message is open; ErrNoRoom;
// ErrTooLarge.
func (b *Builder) Begin(header Header, head Head) {
	if b.ready() {
		bytes, fits := head.appendTo(b.head[:0], order(b.options.isBigEndian()))
		if !fits {
			b.code = C.RTNLC_MISMATCH
			return
		}
		b.code = C.built_begin(&b.made, b.out(), b.room(), C.uint16_t(header.Type),
			C.uint16_t(header.Flags), C.uint32_t(header.Seq), C.uint32_t(header.Port),
			bytesAt(bytes), C.size_t(len(bytes)))
	}
}

// Put puts an attribute that holds these bytes. What is refused, here and by all that put, is
// ErrNothingOpen where no message is open; ErrMismatch where next hops stand, and for an attribute
// that holds others; ErrTooLong for more than 65,531 bytes; ErrNoRoom; ErrTooLarge.
func (b *Builder) Put(number uint16, bytes []byte) {
	if b.ready() {
		b.code = C.built_put(&b.made, b.out(), b.room(), C.uint16_t(number), bytesAt(bytes),
			C.size_t(len(bytes)))
	}
}

// PutText puts an attribute that holds a text, and behind it a zero byte.
func (b *Builder) PutText(number uint16, text string) {
	if b.ready() {
		bytes := []byte(text)
		b.code = C.built_text(&b.made, b.out(), b.room(), C.uint16_t(number), bytesAt(bytes),
			C.size_t(len(bytes)))
	}
}

// PutAddr puts an attribute that holds an address, of four bytes or sixteen, without its zone. The
// zero Addr is refused as ErrMismatch.
func (b *Builder) PutAddr(number uint16, addr netip.Addr) {
	b.Put(number, b.bytesOf(addr))
}

// PutVia puts an attribute that holds an address behind its address family, as RTA_VIA.
func (b *Builder) PutVia(number uint16, addr netip.Addr) {
	if bytes := b.bytesOf(addr); b.ready() {
		family := order(b.options.isBigEndian()).append16(nil, uint16(FamilyOf(addr)))
		b.Put(number, append(family, bytes...))
	}
}

// bytesOf are those of an address; where it is none, that is refused.
func (b *Builder) bytesOf(addr netip.Addr) []byte {
	if b.ready() && !addr.IsValid() {
		b.code = C.RTNLC_MISMATCH
	}
	return addr.AsSlice()
}

// PutUint8 puts an attribute that holds a number of one byte.
func (b *Builder) PutUint8(number uint16, value uint8) {
	if b.ready() {
		b.code = C.built_u8(&b.made, b.out(), b.room(), C.uint16_t(number), C.uint8_t(value))
	}
}

// PutUint16 puts an attribute that holds a number of two bytes, in the order of the options.
func (b *Builder) PutUint16(number uint16, value uint16) {
	if b.ready() {
		b.code = C.built_u16(&b.made, b.out(), b.room(), C.uint16_t(number), C.uint16_t(value))
	}
}

// PutUint32 puts an attribute that holds a number of four bytes, in the order of the options.
func (b *Builder) PutUint32(number uint16, value uint32) {
	if b.ready() {
		b.code = C.built_u32(&b.made, b.out(), b.room(), C.uint16_t(number), C.uint32_t(value))
	}
}

// PutUint64 puts an attribute that holds a number of eight bytes, in the order of the options.
func (b *Builder) PutUint64(number uint16, value uint64) {
	if b.ready() {
		b.code = C.built_u64(&b.made, b.out(), b.room(), C.uint16_t(number), C.uint64_t(value))
	}
}

// PutBE16 puts an attribute that holds a number of two bytes, the highest first.
func (b *Builder) PutBE16(number uint16, value uint16) {
	if b.ready() {
		b.code = C.built_be16(&b.made, b.out(), b.room(), C.uint16_t(number), C.uint16_t(value))
	}
}

// PutBE32 puts an attribute that holds a number of four bytes, the highest first.
func (b *Builder) PutBE32(number uint16, value uint32) {
	if b.ready() {
		b.code = C.built_be32(&b.made, b.out(), b.room(), C.uint16_t(number), C.uint32_t(value))
	}
}

// PutBE64 puts an attribute that holds a number of eight bytes, the highest first.
func (b *Builder) PutBE64(number uint16, value uint64) {
	if b.ready() {
		b.code = C.built_be64(&b.made, b.out(), b.room(), C.uint16_t(number), C.uint64_t(value))
	}
}

// Open opens an attribute that holds attributes, or next hops: what is put next stands in it,
// until Close. What is refused is ErrNothingOpen; ErrMismatch where next hops stand, and for an
// attribute that holds bytes; ErrTooDeep; ErrNoRoom; ErrTooLarge.
func (b *Builder) Open(number uint16) {
	if b.ready() {
		b.code = C.built_open(&b.made, b.out(), b.room(), C.uint16_t(number))
	}
}

// OpenNextHop opens a next hop in RTA_MULTIPATH, until Close; attributes of routes stand in it.
// What is refused is ErrMismatch where the weight is above 256 or below 0, the kernel's field
// can't hold the index, or no next hops stand; ErrNothingOpen; ErrNoRoom; ErrTooLarge.
func (b *Builder) OpenNextHop(head NextHopHead) {
	hops, fits := hopsOf(head.Weight)
	if b.ready() && !(fits && isSigned(head.Index)) {
		b.code = C.RTNLC_MISMATCH
	}
	if b.ready() {
		b.code = C.built_open_hop(&b.made, b.out(), b.room(), C.uint8_t(head.Flags),
			C.uint8_t(hops), C.int32_t(head.Index))
	}
}

// Close closes the attribute or the next hop that was opened last. It needs no room. What is
// refused is ErrNothingOpen; ErrTooLong for more than 65,532 bytes.
func (b *Builder) Close() {
	if b.ready() {
		b.code = C.built_close(&b.made, b.out(), b.room(), false)
	}
}

// End ends the message. It needs no room. What is refused is ErrNothingOpen; ErrStillOpen where an
// attribute or a next hop is.
func (b *Builder) End() {
	if b.ready() {
		b.code = C.built_close(&b.made, b.out(), b.room(), true)
	}
}

// PutMessage puts a whole message of no family, whose body is these bytes: one of netlink itself,
// as NLMSG_DONE, of a type that isn't known here, or a GET; Len of the header is not looked at.
// What is refused is ErrStillOpen where a message is open; ErrMismatch for NEW, DEL and SET of a
// family, and for a body that is shorter than its type says, 20 bytes of NLMSG_ERROR and one of a
// GET; ErrTooLong for a message of more than 1,048,576 bytes; ErrNoRoom; ErrTooLarge.
func (b *Builder) PutMessage(header Header, body []byte) {
	if b.ready() {
		b.code = C.built_message(&b.made, b.out(), b.room(), C.uint16_t(header.Type),
			C.uint16_t(header.Flags), C.uint32_t(header.Seq), C.uint32_t(header.Port),
			bytesAt(body), C.size_t(len(body)))
	}
}

// Err is the first refusal, which is a Code, or nil.
func (b *Builder) Err() error {
	if b.ready() {
		return nil
	}
	return Code(b.code)
}

// Finish is the datagram: all messages, at the front of the buffer. It changes nothing, and more
// messages may come behind. The error is a Code: the first refusal; ErrStillOpen where a message
// is open; ErrNoBuilder of a Builder that NewBuilder did not make.
func (b *Builder) Finish() ([]byte, error) {
	if !b.ready() {
		return nil, b.Err()
	}
	put := C.built_finish(&b.made, b.out(), b.room())
	if put.code != ok {
		return nil, Code(put.code)
	}
	return b.buffer[:put.len:put.len], nil
}
