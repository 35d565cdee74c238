/*
 * What the programs over mirrors share: datagrams as hexadecimal with what they mean, most of them
 * with the names of tests/data/rows/mirrors.rows, and room that ends at a page that can't be
 * touched. Dumps are asked for under the port id 12345.
 */
#ifndef MIRRORED_H
#define MIRRORED_H

#include "expect.h"
#include "guarded.h"

#define PORT 12345
#define MANY 65536

/* Two links as items of dump 1: index 1, family 0, up; index 2, up. */
#define FIRST "20000000 1000 0200 01000000 39300000 00000403 01000000 49000100 00000000"
#define SECOND "20000000 1000 0200 01000000 39300000 00000100 02000000 43100100 00000000"
/* The same as notifications, a third one, and the first one gone. */
#define FIRST_TOLD "20000000 1000 0000 00000000 00000000 00000403 01000000 49000100 00000000"
#define SECOND_TOLD "20000000 1000 0000 00000000 00000000 00000100 02000000 43100100 00000000"
#define THIRD_TOLD "20000000 1000 0000 00000000 00000000 00000100 03000000 43100100 00000000"
#define FIRST_GONE "20000000 1100 0000 00000000 00000000 00000403 01000000 08000000 00000000"
/* The second one with other flags, the lowest of which says that it is up. */
#define SECOND_AGAIN "20000000 1000 0000 00000000 00000000 00000100 02000000 03100100 00000000"
#define SECOND_DOWN "20000000 1000 0000 00000000 00000000 00000100 02000000 02100000 00000000"
/* What a bridge tells of its port, family AF_BRIDGE. */
#define PORT_TOLD "20000000 1000 0000 00000000 00000000 07000100 02000000 43100100 00000000"
/* Routes of IPv4: told with the flag CREATE, and with CREATE and REPLACE. */
#define ROUTE_TOLD "1c000000 1800 0004 00000000 00000000 02180000 fe030001 00000000"
#define REPLACED "1c000000 1800 0005 00000000 00000000 02180000 fe030001 00000000"
/* A forwarding entry of bridge 2, behind port 3, as an item of dump 1; then behind port 4; gone. */
#define STATION                                                                                    \
	"30000000 1c00 0200 01000000 39300000 07000000 03000000 02000000 0a000200 02000000 00010000 "  \
	"08000900 02000000"
#define STATION_MOVED                                                                              \
	"30000000 1c00 0000 00000000 00000000 07000000 04000000 02000000 0a000200 02000000 00010000 "  \
	"08000900 02000000"
#define STATION_GONE                                                                               \
	"30000000 1d00 0000 00000000 00000000 07000000 02000000 02000000 0a000200 02000000 00010000 "  \
	"08000900 02000000"
#define STATION_KEY "07 02000000 0000 01 06000000 00000000 020000000001 000000000000"
/* The same with the highest byte of a number first. */
#define STATION_BIG                                                                                \
	"00000030 001c 0002 00000001 00003039 07000000 00000003 00020000 000a0002 02000000 00010000 "  \
	"00080009 00000002"
#define STATION_MOVED_BIG                                                                          \
	"00000030 001c 0000 00000000 00000000 07000000 00000004 00020000 000a0002 02000000 00010000 "  \
	"00080009 00000002"
#define DONE_BIG "00000014 0003 0002 00000001 00003039 00000000"
/* The end of the dump whose number is this digit, those of dumps 1 and 2, and ends that say that
 * dump 2 was interrupted, or has failed. */
#define DONE_OF(digit) "14000000 0300 0200 0" #digit "000000 39300000 00000000"
#define DONE DONE_OF(1)
#define DONE_2 DONE_OF(2)
#define INTERRUPTED_2 "14000000 0300 1200 02000000 39300000 00000000"
#define FAILED_2 "14000000 0300 0200 02000000 39300000 a1ffffff"
#define OVERRUN_TOLD "10000000 0400 0000 00000000 00000000"
/* A notification of a length above that of the datagram. */
#define CUT "20000000 1000 0000 00000000 00000000 00000100"

static const uint16_t kinds[] = { 16, 20, 24, 28, 32 };

/* What a datagram was answered, and the arrays behind that. */
static struct rtnlc_heard heard;
static struct rtnlc_change changes[64];
static uint8_t before[MANY], out[MANY];

/* Puts what these digits say, and answers how many bytes that is. */
static inline size_t put_hex(const char *text, uint8_t *to)
{
	size_t digits = 0;
	for (; *text; text++) {
		const char *digit = (const char *)memchr(hex_digits, *text, 16);
		if (!digit)
			continue;
		to[digits / 2] = (uint8_t)((digits % 2 ? to[digits / 2] << 4 : 0) | (digit - hex_digits));
		digits++;
	}
	return digits / 2;
}

/* Whether bytes are those of these digits. */
static inline bool is_hex(const uint8_t *bytes, size_t len, const char *text)
{
	uint8_t wanted[256];
	return put_hex(text, wanted) == len && memcmp(bytes, wanted, len) == 0;
}

/* Feeds these digits, as bytes behind which a page can't be touched. */
static inline void feed_with(struct rtnlc_mirror *m, const char *text, size_t room,
                             size_t before_room)
{
	static uint8_t *end;
	uint8_t bytes[1024];
	const size_t len = put_hex(text, bytes);
	end = end ? end : guarded_end(sizeof bytes);
	memcpy(end - len, bytes, len);
	memset(changes, PAINT, sizeof changes);
	memset(before, PAINT, sizeof before);
	heard = rtnlc_mirror_feed(m, end - len, len, room ? changes : NULL, room,
	                          before_room ? before : NULL, before_room);
}

static inline void feed(struct rtnlc_mirror *m, const char *text)
{
	feed_with(m, text, sizeof changes / sizeof *changes, sizeof before);
}

/* Begins a dump, which must do. */
static inline void begin(struct rtnlc_mirror *m, uint16_t kind, uint8_t family, uint32_t seq)
{
	uint8_t request[RTNLC_REQUEST];
	expect("a dump begins",
	       rtnlc_mirror_begin(m, kind, family, seq, PORT, request, sizeof request).code, RTNLC_OK);
}

static inline uint8_t stale(struct rtnlc_mirror *m, uint16_t kind)
{
	return rtnlc_mirror_table(m, kind).stale;
}

static inline uint32_t count_of(struct rtnlc_mirror *m, uint16_t kind)
{
	return rtnlc_mirror_table(m, kind).count;
}

/* What became of the message of this number: the effect, the kind, the index, and the place and the
 * length of the entry before it, whose place says nothing where it has no bytes. */
static inline void expect_change(const char *what, size_t at, uint8_t effect, uint16_t kind,
                                 uint32_t index, uint32_t place, uint32_t len)
{
	const struct rtnlc_change *it = &changes[at];
	expect(what, it->effect, effect);
	expect("  its kind", it->kind, kind);
	expect("  its index", it->index, index);
	expect("  the length before", it->before_len, len);
	expect("  the place before", len ? it->before : 0, place);
	expect("  its code", it->code, RTNLC_OK);
}

/* A datagram was taken: so many messages, and so many bytes before them. */
static inline void expect_heard(const char *what, size_t messages, size_t bytes, uint64_t visits)
{
	expect(what, heard.code, RTNLC_OK);
	expect("  its changes", heard.changes, messages);
	expect("  the bytes before", heard.before, bytes);
	expect("  its visits", (unsigned long)heard.visits, (unsigned long)visits);
	expect("  its place", heard.place, 0);
}

#endif
