/*
 * What a wrong use gets, row by row as docs/C.md has it, but for what is undefined there.
 */
#include "expect.h"
#include <rtnlc.h>
#include <stdio.h>
#include <string.h>

#define LARGEST 1048576

/* Request 1 of port 1 is answered by a link with index 7 and two names, of which the first counts,
 * and by the end of the dump. */
static const uint8_t a_link[] = { 48, 0, 0, 0, 16, 0, 2, 0, 1, 0, 0, 0, 1,   0,   0, 0,
	                              0,  0, 1, 0, 7,  0, 0, 0, 0, 0, 0, 0, 0,   0,   0, 0,
	                              7,  0, 3, 0, 'l', 'o', 0, 0, 7, 0, 3, 0, 'e', 'h', 0, 0 };
static const uint8_t an_end[] = { 20, 0, 0, 0, 3, 0, 2, 0, 1, 0, 0, 0, 1, 0, 0, 0, 0, 0, 0, 0 };
static uint8_t zeros[LARGEST + 1];
static const struct rtnlc_options none = { 0, 0, 0, 0, false, { 0 } };
static uint8_t out[64];
static struct rtnlc_event events[4];

/* A code, and the bytes or the room that it tells of. */
static void expect_put(const char *what, struct rtnlc_put put, uint8_t code, size_t len)
{
	expect(what, put.code, code);
	expect(what, put.len, len);
}

static void pass_nothing(void)
{
	struct rtnlc_builder b;
	expect("a scan of nothing", rtnlc_scan(NULL, 0, NULL).code, RTNLC_OK);
	expect("a tape of nothing", rtnlc_tape(NULL, 0, NULL, NULL, 0).code, RTNLC_OK);
	expect("a check of nothing", rtnlc_check(NULL, 0, NULL).code, RTNLC_OK);
	expect("no room for text", rtnlc_show(1, NULL, 0, NULL, NULL, 0).code, RTNLC_OK);
	expect("no room for JSON", rtnlc_show_json(1, NULL, 0, NULL, NULL, 0).code, RTNLC_OK);
	expect("nothing is broken", rtnlc_broken(NULL, 0, NULL).code, RTNLC_OK);
	expect("a message of nothing", rtnlc_message_at(NULL, 0, 0, false).code, RTNLC_END);
	expect("a find in nothing", rtnlc_find(NULL, 0, 0, 3, false).code, RTNLC_END);
	expect_put("no room", rtnlc_request(16, 0, 1, false, NULL, 0), RTNLC_NO_ROOM, 32);
	expect_put("no room for a name", rtnlc_type_name(16, NULL, 0), RTNLC_NO_ROOM, 11);
	expect_put("no name of a type", rtnlc_type_name(23, NULL, 0), RTNLC_END, 0);
	expect_put("no name of an attribute", rtnlc_attr_name(RTNLC_PLAIN, 1, NULL, 0), RTNLC_END, 0);
	expect_put("no context", rtnlc_attr_name(9, 1, NULL, 0), RTNLC_END, 0);
	expect("a builder over nothing", rtnlc_builder_new(&b, NULL, NULL, 0), RTNLC_OK);
	expect_put("nothing is built", rtnlc_builder_finish(&b), RTNLC_OK, 0);
	expect("no room for a message", rtnlc_builder_message(&b, 1, 0, 1, 0, NULL, 0), RTNLC_NO_ROOM);
	expect("no buffer, whatever its room", rtnlc_builder_new(&b, NULL, NULL, 64), RTNLC_OK);
	expect("nor then", rtnlc_builder_message(&b, 1, 0, 1, 0, NULL, 0), RTNLC_NO_ROOM);
	expect("a builder", rtnlc_builder_new(&b, NULL, out, sizeof out), RTNLC_OK);
	expect("a message without a body", rtnlc_builder_message(&b, 1, 0, 1, 0, NULL, 0), RTNLC_OK);
	expect("a head of nothing", rtnlc_builder_begin(&b, 24, 0, 1, 0, NULL, 0), RTNLC_MISMATCH);
}

/* All requests that change something, of no field; or null pointers for them, if `is_none`. */
static void pass_requests(bool is_none, uint8_t operation, size_t room, uint8_t code)
{
	static struct rtnlc_link_request link;
	static struct rtnlc_addr_request addr;
	static struct rtnlc_route_request route;
	static struct rtnlc_neigh_request neigh;
	static struct rtnlc_rule_request rule;
	const size_t len = code ? 0 : 28, longest = code ? 0 : 32;
	uint8_t *to = room ? out : NULL;
	expect_put("a link", rtnlc_request_link(is_none ? NULL : &link, operation, 1, false, to, room),
	           code, longest);
	expect_put("an address",
	           rtnlc_request_addr(is_none ? NULL : &addr, operation, 1, false, to, room), code,
	           longest);
	expect_put("a route",
	           rtnlc_request_route(is_none ? NULL : &route, operation, 1, false, to, room), code,
	           len);
	expect_put("a neighbour",
	           rtnlc_request_neigh(is_none ? NULL : &neigh, operation, 1, false, to, room), code,
	           len);
	expect_put("a rule", rtnlc_request_rule(is_none ? NULL : &rule, operation, 1, false, to, room),
	           code, len);
}

/* What is no request, or one that can't be put. */
static void pass_wrong_requests(void)
{
	struct rtnlc_route_request route;
	struct rtnlc_metric metric = { 16384, 1 };
	memset(out, 0xaa, sizeof out);
	pass_requests(true, RTNLC_ADD, sizeof out, RTNLC_MISMATCH);
	pass_requests(false, RTNLC_DELETE + 1, sizeof out, RTNLC_MISMATCH);
	expect("they aren't written", out[0], 0xaa);
	pass_requests(false, RTNLC_ADD, 0, RTNLC_NO_ROOM);
	pass_requests(false, RTNLC_ADD, 27, RTNLC_NO_ROOM);
	pass_requests(false, RTNLC_ADD, sizeof out, RTNLC_OK);
	memset(&route, 0, sizeof route);
	route.gateway.len = 9;
	route.metric_count = 9;
	route.hop_count = 9;
	expect_put("null pointers in a request",
	           rtnlc_request_route(&route, RTNLC_ADD, 1, false, out, sizeof out), RTNLC_OK, 28);
	route.metrics = &metric;
	route.metric_count = 1;
	expect_put("no metric", rtnlc_request_route(&route, RTNLC_ADD, 1, false, out, sizeof out),
	           RTNLC_MISMATCH, 0);
	metric.number = 16383;
	route.gateway.at = zeros;
	route.gateway.len = 65532;
	expect_put("a long address", rtnlc_request_route(&route, RTNLC_ADD, 1, false, out, sizeof out),
	           RTNLC_TOO_LONG, 0);
	route.gateway.len = 60000;
	expect_put("no room for one", rtnlc_request_route(&route, RTNLC_ADD, 1, false, out, 28),
	           RTNLC_NO_ROOM, 0);
	route.source = route.gateway;
	expect_put("a long message", rtnlc_request_route(&route, RTNLC_ADD, 1, false, zeros, LARGEST),
	           RTNLC_TOO_LARGE, 0);
	memset(zeros, 0, sizeof zeros);
}

static void pass_limits(void)
{
	struct rtnlc_session s = { NULL };
	struct rtnlc_stream stream, before;
	struct rtnlc_builder builder, painted;
	expect("limits of a scan", rtnlc_scan(NULL, 0, &none).code, RTNLC_BAD_LIMIT);
	expect("limits of a tape", rtnlc_tape(NULL, 0, &none, NULL, 0).code, RTNLC_BAD_LIMIT);
	expect("limits of a check", rtnlc_check(NULL, 0, &none).code, RTNLC_BAD_LIMIT);
	expect("limits of a text", rtnlc_show(1, NULL, 0, &none, NULL, 0).code, RTNLC_BAD_LIMIT);
	expect("limits of JSON", rtnlc_show_json(1, NULL, 0, &none, NULL, 0).code, RTNLC_BAD_LIMIT);
	expect("limits of a head", rtnlc_broken(NULL, 0, &none).code, RTNLC_BAD_LIMIT);
	expect("limits of a session", rtnlc_session_new(&s, &none), RTNLC_BAD_LIMIT);
	expect("no session", rtnlc_session_status(&s).code, RTNLC_NO_SESSION);
	memset(&stream, 0xaa, sizeof stream);
	before = stream;
	expect("limits of a stream", rtnlc_stream_new(&stream, &none), RTNLC_BAD_LIMIT);
	expect("it isn't written", memcmp(&stream, &before, sizeof stream) == 0, true);
	memset(&builder, 0xaa, sizeof builder);
	painted = builder;
	expect("limits of a builder", rtnlc_builder_new(&builder, &none, out, 64), RTNLC_BAD_LIMIT);
	expect("nor is it", memcmp(&builder, &painted, sizeof builder) == 0, true);
	expect("a large datagram", rtnlc_scan(zeros, RTNLC_STANDARD_DATAGRAM + 1, NULL).code,
	       RTNLC_TOO_LARGE);
	expect("many bytes", rtnlc_attr_at(zeros, LARGEST + 1, 0, false).code, RTNLC_TOO_LARGE);
	expect("many bytes", rtnlc_find(zeros, LARGEST + 1, 0, 3, false).code, RTNLC_TOO_LARGE);
}

static void pass_places(void)
{
	struct rtnlc_attr name = rtnlc_find(a_link + 32, 16, 0, 3, false);
	struct rtnlc_shown shown = rtnlc_show(1, a_link, sizeof a_link, NULL, (char *)out, 9);
	expect("the first of two", name.code == RTNLC_OK && name.place == 0 && name.len == 3, true);
	expect("behind the end", rtnlc_attr_at(a_link + 32, 16, 17, false).code, RTNLC_END);
	expect("far behind it", rtnlc_message_at(a_link, 48, UINT32_MAX, false).code, RTNLC_END);
	expect("in a head", rtnlc_attr_at(a_link + 32, 16, 2, false).code, RTNLC_BAD_LENGTH);
	expect("the other order", rtnlc_message_at(a_link, 48, 0, true).code, RTNLC_BAD_LENGTH);
	expect("three heads for two", rtnlc_tape(a_link, 48, NULL, events, 2).count, 3);
	expect("a text for 9 bytes", shown.code == RTNLC_OK && shown.len > 9 && out[9] == 0, true);
	memset(out, 0xaa, sizeof out);
	expect_put("a byte too few", rtnlc_request(16, 0, 1, false, out, 31), RTNLC_NO_ROOM, 32);
	expect("they aren't written", out[0], 0xaa);
	expect_put("no family", rtnlc_request(100, 0, 1, false, out, 32), RTNLC_NO_KIND, 0);
	expect("a name of no code", rtnlc_code_name(200) != NULL, true);
}

/* All calls of a session that isn't there. */
static void pass_no_session(struct rtnlc_session *s)
{
	const uint8_t code = RTNLC_NO_SESSION;
	expect_put("begin", rtnlc_session_begin(s, 16, 0, 1, 1, out, 32), code, 0);
	expect("feed", rtnlc_session_feed(s, a_link, sizeof a_link).code, code);
	expect("abandon", rtnlc_session_abandon(s), code);
	expect("status", rtnlc_session_status(s).code, code);
	expect("table", rtnlc_session_table(s, 16).code, code);
	expect_put("entry", rtnlc_session_entry(s, 16, 0, out, sizeof out), code, 0);
	expect_put("key", rtnlc_session_key(s, 16, 0, out, sizeof out), code, 0);
	expect("find", rtnlc_session_find(s, 16, NULL, 0).code, code);
	rtnlc_session_free(s);
}

/* All orders of calls that are wrong, of a session that is there. */
static void pass_session(struct rtnlc_session *s)
{
	const uint8_t seven[] = { 7, 0, 0, 0 };
	struct rtnlc_fed fed;
	void *at = s->at;
	expect("made already", rtnlc_session_new(s, NULL), RTNLC_BUSY);
	expect("it stays", s->at == at, true);
	expect("fed too early", rtnlc_session_feed(s, a_link, 48).code, RTNLC_NOT_WAITING);
	expect("abandoned too early", rtnlc_session_abandon(s), RTNLC_NOT_WAITING);
	expect_put("no family", rtnlc_session_begin(s, 99, 0, 1, 1, out, 32), RTNLC_NO_KIND, 0);
	expect_put("no room", rtnlc_session_begin(s, 16, 0, 1, 1, out, 31), RTNLC_NO_ROOM, 32);
	expect("nothing is begun", rtnlc_session_status(s).state, RTNLC_IDLE);
	expect_put("begun", rtnlc_session_begin(s, 16, 0, 1, 1, out, 32), RTNLC_OK, 32);
	expect_put("begun twice", rtnlc_session_begin(s, 16, 0, 2, 1, out, 32), RTNLC_BUSY, 0);
	fed = rtnlc_session_feed(s, a_link, sizeof a_link);
	expect("an entry", fed.code == RTNLC_OK && fed.items == 1 && fed.ignored == 0, true);
	expect("the end", rtnlc_session_feed(s, an_end, sizeof an_end).ended, true);
	expect("complete", rtnlc_session_status(s).complete, true);
	expect_put("no index", rtnlc_session_entry(s, 16, 1, out, sizeof out), RTNLC_END, 0);
	expect_put("an entry's room", rtnlc_session_entry(s, 16, 0, out, 47), RTNLC_NO_ROOM, 48);
	expect_put("a key's room", rtnlc_session_key(s, 16, 0, out, 3), RTNLC_NO_ROOM, 4);
	expect_put("an entry", rtnlc_session_entry(s, 16, 0, out, 48), RTNLC_OK, 48);
	expect("no family", rtnlc_session_table(s, 99).code, RTNLC_NO_KIND);
	expect("its index", rtnlc_session_find(s, 16, seven, 4).code, RTNLC_OK);
	expect("no such key", rtnlc_session_find(s, 16, seven, 3).code, RTNLC_END);
	expect_put("the same", rtnlc_session_begin(s, 16, 0, 1, 1, out, 32), RTNLC_SAME_SEQ, 0);
	expect_put("another port", rtnlc_session_begin(s, 16, 0, 2, 9, out, 32), RTNLC_OK, 32);
	fed = rtnlc_session_feed(s, an_end, sizeof an_end);
	expect("ignored", fed.code == RTNLC_OK && fed.ignored == 1 && !fed.ended, true);
	expect("cut", rtnlc_session_feed(s, a_link, 47).code, RTNLC_BAD_LENGTH);
	expect("it waits, damaged", rtnlc_session_status(s).state == RTNLC_WAITING &&
	       rtnlc_session_status(s).damaged, true);
	expect("abandoned", rtnlc_session_abandon(s), RTNLC_OK);
}

static void pass_no_stream(struct rtnlc_stream *stream)
{
	const uint8_t code = RTNLC_NO_STREAM;
	expect_put("begin", rtnlc_stream_begin(stream, 16, 0, 1, 1, out, 32), code, 0);
	expect("feed", rtnlc_stream_feed(stream, a_link, sizeof a_link, events, 4).code, code);
	expect("abandon", rtnlc_stream_abandon(stream), code);
	expect("status", rtnlc_stream_status(stream).code, code);
}

/* All orders of calls that are wrong, of a stream. */
static void pass_stream(struct rtnlc_stream *stream)
{
	struct rtnlc_stream before;
	struct rtnlc_fed fed;
	expect("a stream", rtnlc_stream_new(stream, NULL), RTNLC_OK);
	expect("its limit", stream->datagram, RTNLC_STANDARD_DATAGRAM);
	expect("fed too early", rtnlc_stream_feed(stream, NULL, 0, NULL, 0).code, RTNLC_NOT_WAITING);
	expect_put("no family", rtnlc_stream_begin(stream, 99, 0, 1, 1, out, 32), RTNLC_NO_KIND, 0);
	expect_put("no room", rtnlc_stream_begin(stream, 16, 0, 1, 1, out, 3), RTNLC_NO_ROOM, 32);
	expect_put("begun", rtnlc_stream_begin(stream, 16, 0, 1, 2, out, 32), RTNLC_OK, 32);
	expect("its numbers", stream->seq == 1 && stream->port == 2 && stream->kind == 16, true);
	expect("its state", stream->state, RTNLC_WAITING);
	stream->port = 1; /* the caller's, within its range */
	expect_put("begun twice", rtnlc_stream_begin(stream, 16, 0, 2, 1, out, 32), RTNLC_BUSY, 0);
	before = *stream;
	fed = rtnlc_stream_feed(stream, a_link, sizeof a_link, events, 2);
	expect("too few events", fed.code == RTNLC_NO_ROOM && fed.events == 3, true);
	expect("it is as before", memcmp(stream, &before, sizeof before) == 0, true);
	fed = rtnlc_stream_feed(stream, a_link, sizeof a_link, events, 3);
	expect("fed again", fed.code == RTNLC_OK && fed.events == 3 && fed.items == 1, true);
	expect("the end", rtnlc_stream_feed(stream, an_end, sizeof an_end, events, 1).ended, true);
	expect("complete", rtnlc_stream_status(stream).complete, true);
	expect_put("the same", rtnlc_stream_begin(stream, 16, 0, 1, 1, out, 32), RTNLC_SAME_SEQ, 0);
}

/* Streams in front of bytes that no call may touch. */
static void pass_streams(void)
{
	struct {
		struct rtnlc_stream stream;
		uint8_t behind[64];
	} kept, before;
	memset(&kept, 0xff, sizeof kept);
	before = kept;
	pass_no_stream(&kept.stream);
	expect("it isn't written", memcmp(&kept, &before, sizeof kept) == 0, true);
	pass_stream(&kept.stream);
	expect("what is behind it", memcmp(kept.behind, before.behind, sizeof kept.behind) == 0, true);
}

/* All calls of a builder that isn't there. */
static void pass_no_builder(struct rtnlc_builder *b)
{
	const uint8_t code = RTNLC_NO_BUILDER;
	expect("begin", rtnlc_builder_begin(b, 24, 0, 1, 0, zeros, 12), code);
	expect("put", rtnlc_builder_put(b, 1, NULL, 0), code);
	expect("put_text", rtnlc_builder_put_text(b, 3, "lo", 2), code);
	expect("put_u8", rtnlc_builder_put_u8(b, 1, 1), code);
	expect("put_u16", rtnlc_builder_put_u16(b, 1, 1), code);
	expect("put_u32", rtnlc_builder_put_u32(b, 1, 1), code);
	expect("put_u64", rtnlc_builder_put_u64(b, 1, 1), code);
	expect("put_be16", rtnlc_builder_put_be16(b, 1, 1), code);
	expect("put_be32", rtnlc_builder_put_be32(b, 1, 1), code);
	expect("put_be64", rtnlc_builder_put_be64(b, 1, 1), code);
	expect("open", rtnlc_builder_open(b, 9), code);
	expect("open_hop", rtnlc_builder_open_hop(b, 0, 0, 1), code);
	expect("close", rtnlc_builder_close(b), code);
	expect("end", rtnlc_builder_end(b), code);
	expect("message", rtnlc_builder_message(b, 3, 0, 1, 0, NULL, 0), code);
	expect_put("finish", rtnlc_builder_finish(b), code, 0);
}

/* A builder in which the message of a route is begun. */
static void begin_route(struct rtnlc_builder *b)
{
	expect("a builder", rtnlc_builder_new(b, NULL, out, sizeof out), RTNLC_OK);
	expect("begun", rtnlc_builder_begin(b, 24, 5, 1, 0, zeros, 12), RTNLC_OK);
}

/* A call gets this code where no message is begun, or in one; and what comes behind gets it too. */
#define GETS(code, call)                                                                \
	(expect(#call, call, code), expect("it sticks", rtnlc_builder_put_u8(b, 1, 1), code), \
	 expect_put("in the end", rtnlc_builder_finish(b), code, 0))
#define GETS_FIRST(code, call) (rtnlc_builder_new(b, NULL, out, sizeof out), GETS(code, call))
#define GETS_WITHIN(code, call) (begin_route(b), GETS(code, call))

/* All orders of calls that are wrong, of a builder. */
static void pass_orders(struct rtnlc_builder *b)
{
	GETS_FIRST(RTNLC_NOTHING_OPEN, rtnlc_builder_put(b, 1, zeros, 4));
	GETS_FIRST(RTNLC_NOTHING_OPEN, rtnlc_builder_open(b, 9));
	GETS_FIRST(RTNLC_NOTHING_OPEN, rtnlc_builder_open_hop(b, 0, 0, 1));
	GETS_FIRST(RTNLC_NOTHING_OPEN, rtnlc_builder_close(b));
	GETS_FIRST(RTNLC_NOTHING_OPEN, rtnlc_builder_end(b));
	GETS_WITHIN(RTNLC_NOTHING_OPEN, rtnlc_builder_close(b));
	GETS_WITHIN(RTNLC_STILL_OPEN, rtnlc_builder_begin(b, 24, 0, 2, 0, zeros, 12));
	GETS_WITHIN(RTNLC_STILL_OPEN, rtnlc_builder_message(b, 3, 0, 2, 0, zeros, 4));
	begin_route(b);
	expect("next hops", rtnlc_builder_open(b, 9), RTNLC_OK);
	GETS(RTNLC_STILL_OPEN, rtnlc_builder_end(b));
	begin_route(b);
	expect_put("asked in a message", rtnlc_builder_finish(b), RTNLC_STILL_OPEN, 0);
	expect("it goes on", rtnlc_builder_end(b), RTNLC_OK);
	expect_put("asked behind it", rtnlc_builder_finish(b), RTNLC_OK, 28);
}

/* What doesn't belong where it is put, or has no room there. */
static void pass_kinds(struct rtnlc_builder *b)
{
	static uint8_t before[sizeof out];
	GETS_FIRST(RTNLC_MISMATCH, rtnlc_builder_begin(b, 16, 0, 1, 0, zeros, 12));
	GETS_FIRST(RTNLC_MISMATCH, rtnlc_builder_begin(b, 3, 0, 1, 0, zeros, 4));
	GETS_FIRST(RTNLC_MISMATCH, rtnlc_builder_begin(b, 26, 0, 1, 0, zeros, 12));
	GETS_FIRST(RTNLC_MISMATCH, rtnlc_builder_message(b, 24, 0, 1, 0, zeros, 12));
	GETS_FIRST(RTNLC_MISMATCH, rtnlc_builder_message(b, 2, 0, 1, 0, zeros, 19));
	GETS_FIRST(RTNLC_MISMATCH, rtnlc_builder_message(b, 26, 0, 1, 0, NULL, 0));
	GETS_WITHIN(RTNLC_MISMATCH, rtnlc_builder_put_u32(b, 9, 1));
	GETS_WITHIN(RTNLC_MISMATCH, rtnlc_builder_put_u32(b, 0x8000 | 1, 1));
	GETS_WITHIN(RTNLC_MISMATCH, rtnlc_builder_open(b, 1));
	GETS_WITHIN(RTNLC_MISMATCH, rtnlc_builder_open_hop(b, 0, 0, 1));
	GETS_WITHIN(RTNLC_TOO_LONG, rtnlc_builder_put(b, 1, zeros, 65532));
	begin_route(b);
	memcpy(before, out, sizeof out);
	GETS(RTNLC_NO_ROOM, rtnlc_builder_put(b, 1, a_link, 33));
	expect("no byte changes", memcmp(before, out, sizeof out) == 0, true);
	begin_route(b);
	b->built.big = 1; /* the caller's, within its range */
	expect("in another order", rtnlc_builder_put_u16(b, 1, 0x102), RTNLC_OK);
	expect("its bytes", out[32] == 1 && out[33] == 2, true);
}

/* Builders in front of bytes that no call may touch. */
static void pass_builders(void)
{
	struct {
		struct rtnlc_builder builder;
		uint8_t behind[64];
	} kept, before;
	memset(&kept, 0xff, sizeof kept);
	kept.builder.out = out;
	kept.builder.room = sizeof out;
	before = kept;
	pass_no_builder(&kept.builder);
	expect("it isn't written", memcmp(&kept, &before, sizeof kept) == 0, true);
	pass_orders(&kept.builder);
	pass_kinds(&kept.builder);
	expect("what is behind it", memcmp(kept.behind, before.behind, sizeof kept.behind) == 0, true);
}

int main(void)
{
	struct rtnlc_session s = { NULL };
	pass_nothing();
	pass_limits();
	pass_places();
	pass_wrong_requests();
	expect("a null session", rtnlc_session_new(NULL, NULL), RTNLC_NO_SESSION);
	pass_no_session(NULL);
	pass_no_session(&s);
	expect("a session", rtnlc_session_new(&s, NULL), RTNLC_OK);
	pass_session(&s);
	rtnlc_session_free(&s);
	pass_no_session(&s);
	expect("a null stream", rtnlc_stream_new(NULL, NULL), RTNLC_NO_STREAM);
	pass_no_stream(NULL);
	pass_streams();
	expect("a null builder", rtnlc_builder_new(NULL, NULL, out, 64), RTNLC_NO_BUILDER);
	pass_no_builder(NULL);
	pass_builders();
	return failures > 0;
}
