/*
 * The builder: datagrams worked by hand, in each room up to the whole and in both orders; each
 * refusal by its name, which sticks; and what is no builder, of which nothing is written. Every
 * buffer ends at a page that can't be touched.
 */
#include "expect.h"
#include "guarded.h"

/* A link with index 7 is renamed, and has the kind dummy. */
static const uint8_t a_link[] = {
	68, 0, 0, 0, 16, 0, 5, 0, 9, 0, 0, 0, 0, 0, 0, 0, /* nlmsghdr */
	0, 0, 0, 0, 7, 0, 0, 0, 1, 0, 0, 0, 1, 0, 0, 0,   /* ifinfomsg */
	8, 0, 4, 0, 0xdc, 5, 0, 0,                        /* IFLA_MTU 1500 */
	9, 0, 3, 0, 'e', 't', 'h', '0', 0, 0, 0, 0,       /* IFLA_IFNAME, padded */
	16, 0, 18, 0x80,                                  /* IFLA_LINKINFO, NLA_F_NESTED */
	10, 0, 1, 0, 'd', 'u', 'm', 'm', 'y', 0, 0, 0     /* IFLA_INFO_KIND */
};

/* The same in the other order. */
static const uint8_t a_big_link[] = {
	0, 0, 0, 68, 0, 16, 0, 5, 0, 0, 0, 9, 0, 0, 0, 0, 0, 0, 0, 0, 0, 0, 0, 7,
	0, 0, 0, 1, 0, 0, 0, 1, 0, 8, 0, 4, 0, 0, 5, 0xdc, 0, 9, 0, 3, 'e', 't', 'h', '0',
	0, 0, 0, 0, 0, 16, 0x80, 18, 0, 10, 0, 1, 'd', 'u', 'm', 'm', 'y', 0, 0, 0
};

/* A route with two next hops, and a metric. */
static const uint8_t a_route[] = {
	88, 0, 0, 0, 24, 0, 5, 6, 10, 0, 0, 0, 3, 0, 0, 0, /* nlmsghdr */
	2, 24, 0, 0, 254, 3, 0, 1, 0, 0, 0, 0,             /* rtmsg */
	36, 0, 9, 0,                                       /* RTA_MULTIPATH */
	16, 0, 1, 2, 3, 0, 0, 0, 8, 0, 5, 0, 10, 0, 0, 1,  /* rtnexthop, RTA_GATEWAY */
	16, 0, 0, 0, 4, 0, 0, 0, 8, 0, 5, 0, 10, 0, 0, 2,
	12, 0, 8, 0x80, 8, 0, 2, 0, 0xb0, 4, 0, 0,         /* RTA_METRICS, RTAX_MTU 1200 */
	12, 0, 30, 0, 1, 2, 3, 4, 5, 6, 7, 8               /* bytes of eight */
};
static const uint8_t link_head[2][16] = { { 0, 0, 0, 0, 7, 0, 0, 0, 1, 0, 0, 0, 1, 0, 0, 0 },
	                                      { 0, 0, 0, 0, 0, 0, 0, 7, 0, 0, 0, 1, 0, 0, 0, 1 } };
static const uint8_t route_head[12] = { 2, 24, 0, 0, 254, 3, 0, 1, 0, 0, 0, 0 };

/* The calls of a link, until one is refused; the code of that one. */
static uint8_t build_link(struct rtnlc_builder *b)
{
	uint8_t code = rtnlc_builder_begin(b, 16, 5, 9, 0, link_head[b->built.big], 16);
	code = code ? code : rtnlc_builder_put_u32(b, 4, 1500);
	code = code ? code : rtnlc_builder_put_text(b, 3, "eth0", 4);
	code = code ? code : rtnlc_builder_open(b, 0x8000 | 18);
	code = code ? code : rtnlc_builder_put(b, 1, "dummy", 6);
	code = code ? code : rtnlc_builder_close(b);
	return code ? code : rtnlc_builder_end(b);
}

static uint8_t build_hop(struct rtnlc_builder *b, uint8_t flags, uint8_t hops, int32_t index)
{
	uint8_t code = rtnlc_builder_open_hop(b, flags, hops, index);
	code = code ? code : rtnlc_builder_put_be32(b, 5, 0x0a000000 + (uint32_t)index - 2);
	return code ? code : rtnlc_builder_close(b);
}

static uint8_t build_route(struct rtnlc_builder *b)
{
	uint8_t code = rtnlc_builder_begin(b, 24, 0x605, 10, 3, route_head, 12);
	code = code ? code : rtnlc_builder_open(b, 9);
	code = code ? code : build_hop(b, 1, 2, 3);
	code = code ? code : build_hop(b, 0, 0, 4);
	code = code ? code : rtnlc_builder_close(b);
	code = code ? code : rtnlc_builder_open(b, 0x8000 | 8);
	code = code ? code : rtnlc_builder_put_u32(b, 2, 1200);
	code = code ? code : rtnlc_builder_close(b);
	code = code ? code : rtnlc_builder_put_be64(b, 30, 0x0102030405060708);
	return code ? code : rtnlc_builder_end(b);
}

/* In this room, just these bytes are built; with less, no room, and nothing changes behind it. */
static void pass_room(uint8_t (*build)(struct rtnlc_builder *), const uint8_t *wanted, size_t whole,
                      size_t room, const struct rtnlc_options *options)
{
	uint8_t *out = guarded_end(room) - room;
	struct rtnlc_builder b, before;
	struct rtnlc_put put;
	size_t len;
	memset(out, PAINT, room);
	expect("a builder", rtnlc_builder_new(&b, options, out, room), RTNLC_OK);
	expect("what was built", build(&b), room < whole ? RTNLC_NO_ROOM : RTNLC_OK);
	put = rtnlc_builder_finish(&b);
	len = b.built.len;
	expect("the end", put.code, room < whole ? RTNLC_NO_ROOM : RTNLC_OK);
	expect("its length", put.len, room < whole ? 0 : whole);
	expect("within the room", len <= room, true);
	expect("what is behind it", is_painted(out + len, room - len), true);
	if (room == whole)
		expect("its bytes", memcmp(out, wanted, whole) == 0, true);
	if (room == whole)
		expect("canonical", rtnlc_check(out, put.len, options).canonical, true);
	before = b;
	if (!put.code)
		put.code = RTNLC_NOTHING_OPEN;
	expect("it sticks", rtnlc_builder_put_u8(&b, 1, 1), put.code);
	before.built.refusal = b.built.refusal;
	expect("and changes nothing", memcmp(&b, &before, sizeof b) == 0, true);
	expect("nor a byte", is_painted(out + len, room - len), true);
	munmap(out + room - (room + PAGE - 1) / PAGE * PAGE, (room + PAGE - 1) / PAGE * PAGE + PAGE);
}

static void pass_rooms(void)
{
	struct rtnlc_options big = { 0, 1024, 0, 8, true, { 0 } };
	size_t room;
	for (room = 0; room <= sizeof a_link; room++) {
		pass_room(build_link, a_link, sizeof a_link, room, NULL);
		pass_room(build_link, a_big_link, sizeof a_big_link, room, &big);
	}
	for (room = 0; room <= sizeof a_route; room++)
		pass_room(build_route, a_route, sizeof a_route, room, NULL);
}

/* A builder with this message open, in the memory of the caller. */
static struct rtnlc_builder begun(uint8_t *out, size_t room, const struct rtnlc_options *options)
{
	struct rtnlc_builder b;
	expect("new", rtnlc_builder_new(&b, options, out, room), RTNLC_OK);
	expect("begun", rtnlc_builder_begin(&b, 24, 1, 1, 0, route_head, 12), RTNLC_OK);
	return b;
}

/* One call on a builder with an open message is refused so, and so are all behind it. */
#define REFUSES(wanted, options, call)                                    \
	do {                                                                  \
		struct rtnlc_builder b = begun(out, sizeof out, options);         \
		expect(#call, call, wanted);                                      \
		expect("sticks: " #call, rtnlc_builder_end(&b), wanted);          \
		expect("ends so: " #call, rtnlc_builder_finish(&b).code, wanted); \
	} while (0)

static void pass_refusals(void)
{
	static uint8_t out[1 << 18], many[65536];
	struct rtnlc_options flat = { 0, 65536, 0, 0, false, { 0 } },
	                     small = { 0, 32, 0, 8, false, { 0 } };
	struct rtnlc_builder b;
	REFUSES(RTNLC_STILL_OPEN, NULL, rtnlc_builder_begin(&b, 24, 0, 0, 0, route_head, 12));
	REFUSES(RTNLC_STILL_OPEN, NULL, rtnlc_builder_message(&b, 3, 0, 0, 0, "abcd", 4));
	REFUSES(RTNLC_MISMATCH, NULL, rtnlc_builder_put_u16(&b, 9, 1));
	REFUSES(RTNLC_MISMATCH, NULL, rtnlc_builder_open(&b, 1));
	REFUSES(RTNLC_MISMATCH, NULL, rtnlc_builder_open_hop(&b, 0, 0, 1));
	REFUSES(RTNLC_TOO_LONG, NULL, rtnlc_builder_put(&b, 1, many, 65532));
	REFUSES(RTNLC_TOO_DEEP, &flat, rtnlc_builder_open(&b, 8));
	REFUSES(RTNLC_TOO_LARGE, &small, rtnlc_builder_put_u64(&b, 1, 1));
	REFUSES(RTNLC_NOTHING_OPEN, NULL, rtnlc_builder_close(&b));
	expect("new", rtnlc_builder_new(&b, NULL, out, sizeof out), RTNLC_OK);
	expect("a type of no family", rtnlc_builder_begin(&b, 3, 0, 0, 0, many, 4), RTNLC_MISMATCH);
	expect("new", rtnlc_builder_new(&b, NULL, out, sizeof out), RTNLC_OK);
	expect("a short head", rtnlc_builder_begin(&b, 16, 0, 0, 0, many, 12), RTNLC_MISMATCH);
	expect("new", rtnlc_builder_new(&b, NULL, out, sizeof out), RTNLC_OK);
	expect("done", rtnlc_builder_message(&b, 3, 2, 1, 1, "\1\2\3\4\5", 5), RTNLC_OK);
	expect("its length", rtnlc_builder_finish(&b).len, 24);
	expect("its bytes",
	       memcmp(out, "\25\0\0\0\3\0\2\0\1\0\0\0\1\0\0\0\1\2\3\4\5\0\0\0", 24) == 0, true);
	expect("a family's", rtnlc_builder_message(&b, 16, 0, 0, 0, many, 16), RTNLC_MISMATCH);
	b = begun(out, sizeof out, NULL);
	expect("still open", rtnlc_builder_finish(&b).code, RTNLC_STILL_OPEN);
	expect("but not refused", rtnlc_builder_put_be16(&b, 1, 1), RTNLC_OK);
}

/* What no call leaves is no builder, and neither it nor the buffer is written. */
static void pass_no_builder(struct rtnlc_builder *b, uint8_t *out, size_t room)
{
	struct rtnlc_builder before = *b;
	uint8_t code = RTNLC_NO_BUILDER;
	expect("begin", rtnlc_builder_begin(b, 24, 0, 0, 0, route_head, 12), code);
	expect("put", rtnlc_builder_put_u32(b, 4, 1), code);
	expect("text", rtnlc_builder_put_text(b, 4, "", 0), code);
	expect("open", rtnlc_builder_open(b, 8), code);
	expect("hop", rtnlc_builder_open_hop(b, 0, 0, 0), code);
	expect("close", rtnlc_builder_close(b), code);
	expect("end", rtnlc_builder_end(b), code);
	expect("message", rtnlc_builder_message(b, 3, 0, 0, 0, "", 0), code);
	expect("finish", rtnlc_builder_finish(b).code, code);
	expect("it is as before", memcmp(b, &before, sizeof before) == 0, true);
	expect("the buffer is too", is_painted(out, room), true);
}

/* All bytes of a builder are random; misuse.c breaks one field after another. */
static void pass_random(void)
{
	uint8_t out[64];
	struct rtnlc_builder b = begun(out, sizeof out, NULL);
	unsigned seed = 1, turn;
	size_t at;
	memset(out, PAINT, sizeof out);
	for (turn = 0; turn < 100000; turn++) {
		for (at = 0; at < sizeof b.built; at++)
			((uint8_t *)&b.built)[at] = (uint8_t)((seed = seed * 1103515245 + 12345) >> 16);
		pass_no_builder(&b, out, sizeof out);
	}
}

int main(void)
{
	static const struct rtnlc_options none = { 0, 0, 0, 0, false, { 0 } };
	struct rtnlc_builder b, before;
	memset(&b, PAINT, sizeof b);
	before = b;
	expect("no limits", rtnlc_builder_new(&b, &none, NULL, 0), RTNLC_BAD_LIMIT);
	expect("it isn't written", memcmp(&b, &before, sizeof b) == 0, true);
	expect("null", rtnlc_builder_new(NULL, NULL, NULL, 0), RTNLC_NO_BUILDER);
	expect("null", rtnlc_builder_end(NULL), RTNLC_NO_BUILDER);
	expect("no buffer", rtnlc_builder_new(&b, NULL, NULL, 64), RTNLC_OK);
	expect("no room", rtnlc_builder_begin(&b, 24, 0, 0, 0, route_head, 12), RTNLC_NO_ROOM);
	pass_rooms();
	pass_refusals();
	pass_random();
	return failures > 0;
}
