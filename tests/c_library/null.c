/*
 * Null pointers beside sizes above 0: no bytes and no room, whatever the size says. Each call that
 * takes bytes or a buffer is handed them, and answers what it answers for a size of 0.
 */
#include "expect.h"
#include <rtnlc.h>
#include <stdio.h>
#include <string.h>

#define ENTRY 48

/* Request 1 of port 1 is answered by a link with index 7 and two names, and by the end of the
 * dump. */
static const uint8_t a_link[] = { 48, 0, 0, 0, 16, 0, 2, 0, 1, 0, 0, 0, 1,   0,   0, 0,
	                              0,  0, 1, 0, 7,  0, 0, 0, 0, 0, 0, 0, 0,   0,   0, 0,
	                              7,  0, 3, 0, 'l', 'o', 0, 0, 7, 0, 3, 0, 'e', 'h', 0, 0 };
static const uint8_t an_end[] = { 20, 0, 0, 0, 3, 0, 2, 0, 1, 0, 0, 0, 1, 0, 0, 0, 0, 0, 0, 0 };
static uint8_t out[64];
static struct rtnlc_event events[4];

/* Null pointers, and the greatest size, that no compiler sees. */
static uint8_t *volatile nowhere;
static char *volatile no_text;
static struct rtnlc_event *volatile no_events;
static volatile size_t greatest = SIZE_MAX;

/* A code, and the bytes or the room that it tells of. */
static void expect_put(const char *what, struct rtnlc_put put, uint8_t code, size_t len)
{
	expect(what, put.code, code);
	expect(what, put.len, len);
}

/* Whether a text is that of no bytes. */
static void expect_text(const char *what, struct rtnlc_shown shown, const char *wanted)
{
	expect(what, shown.code, RTNLC_OK);
	expect(what, shown.len, strlen(wanted));
	expect(what, memcmp(out, wanted, strlen(wanted)) == 0, true);
}

static void read_nothing(void)
{
	static const char text[] = "datagram 1 bytes 0\n";
	static const char json[] = "{\"datagram\":1,\"bytes\":0,\"messages\":[]}\n";
	struct rtnlc_taped taped = rtnlc_tape(nowhere, ENTRY, NULL, events, 4);
	struct rtnlc_checked checked = rtnlc_check(nowhere, ENTRY, NULL);
	char *to = (char *)out;
	expect("a scan", rtnlc_scan(nowhere, ENTRY, NULL).code, RTNLC_OK);
	expect("of the greatest size", rtnlc_scan(nowhere, greatest, NULL).code, RTNLC_OK);
	expect("a broken head", rtnlc_broken(nowhere, ENTRY, NULL).code, RTNLC_OK);
	expect("a tape", taped.code == RTNLC_OK && taped.count == 0 && taped.visits == 0, true);
	expect("a check", checked.code == RTNLC_OK && checked.canonical, true);
	expect("a message", rtnlc_message_at(nowhere, ENTRY, 0, false).code, RTNLC_END);
	expect("an attribute", rtnlc_attr_at(nowhere, ENTRY, 0, false).code, RTNLC_END);
	expect("a next hop", rtnlc_hop_at(nowhere, ENTRY, 0, false).code, RTNLC_END);
	expect("a find", rtnlc_find(nowhere, ENTRY, 0, 3, false).code, RTNLC_END);
	expect_text("a text", rtnlc_show(1, nowhere, ENTRY, NULL, to, sizeof out), text);
	expect_text("JSON", rtnlc_show_json(1, nowhere, ENTRY, NULL, to, sizeof out), json);
}

static void write_nowhere(void)
{
	size_t text = rtnlc_show(1, a_link, sizeof a_link, NULL, NULL, 0).len;
	size_t json = rtnlc_show_json(1, a_link, sizeof a_link, NULL, NULL, 0).len;
	struct rtnlc_shown shown = rtnlc_show(1, a_link, sizeof a_link, NULL, no_text, 4096);
	struct rtnlc_shown line = rtnlc_show_json(1, a_link, sizeof a_link, NULL, no_text, 4096);
	struct rtnlc_taped taped = rtnlc_tape(a_link, sizeof a_link, NULL, no_events, 4096);
	expect("events", taped.code == RTNLC_OK && taped.count == 3, true);
	expect("a text", text > 64 && shown.code == RTNLC_OK && shown.len == text, true);
	expect("JSON", json > 64 && line.code == RTNLC_OK && line.len == json, true);
	expect_put("a request", rtnlc_request(16, 0, 1, false, nowhere, 32), RTNLC_NO_ROOM, 32);
	expect_put("the name of a type", rtnlc_type_name(16, no_text, 32), RTNLC_NO_ROOM, 11);
	expect_put("that of an attribute", rtnlc_attr_name(RTNLC_LINK, 3, no_text, 32), RTNLC_NO_ROOM,
	           11);
}

/* All requests that change something, of no field. */
static void request_nowhere(void)
{
	static struct rtnlc_link_request link;
	static struct rtnlc_addr_request addr;
	static struct rtnlc_route_request route;
	static struct rtnlc_neigh_request neigh;
	static struct rtnlc_rule_request rule;
	const uint8_t code = RTNLC_NO_ROOM;
	expect_put("a link", rtnlc_request_link(&link, 0, 1, false, nowhere, 64), code, 0);
	expect_put("an address", rtnlc_request_addr(&addr, 0, 1, false, nowhere, 64), code, 0);
	expect_put("a route", rtnlc_request_route(&route, 0, 1, false, nowhere, 64), code, 0);
	expect_put("a neighbour", rtnlc_request_neigh(&neigh, 0, 1, false, nowhere, 64), code, 0);
	expect_put("a rule", rtnlc_request_rule(&rule, 0, 1, false, nowhere, 64), code, 0);
}

static void pass_session(void)
{
	struct rtnlc_session s = { NULL };
	struct rtnlc_fed fed;
	expect("a session", rtnlc_session_new(&s, NULL), RTNLC_OK);
	expect_put("begun nowhere", rtnlc_session_begin(&s, 16, 0, 1, 1, nowhere, 32), RTNLC_NO_ROOM,
	           32);
	expect("nothing is begun", rtnlc_session_status(&s).state, RTNLC_IDLE);
	expect_put("begun", rtnlc_session_begin(&s, 16, 0, 1, 1, out, 32), RTNLC_OK, 32);
	fed = rtnlc_session_feed(&s, nowhere, ENTRY);
	expect("fed nothing", fed.code == RTNLC_OK && !fed.items && !fed.ignored && !fed.ended, true);
	expect("which counts so", rtnlc_session_status(&s).received, 0);
	expect("an entry", rtnlc_session_feed(&s, a_link, sizeof a_link).items, 1);
	expect("the end", rtnlc_session_feed(&s, an_end, sizeof an_end).ended, true);
	expect_put("an entry", rtnlc_session_entry(&s, 16, 0, nowhere, 64), RTNLC_NO_ROOM, ENTRY);
	expect_put("its key", rtnlc_session_key(&s, 16, 0, nowhere, 64), RTNLC_NO_ROOM, 4);
	expect("no key", rtnlc_session_find(&s, 16, nowhere, 4).code, RTNLC_END);
	rtnlc_session_free(&s);
}

static void pass_stream(void)
{
	struct rtnlc_stream stream;
	struct rtnlc_fed fed;
	expect("a stream", rtnlc_stream_new(&stream, NULL), RTNLC_OK);
	expect_put("begun nowhere", rtnlc_stream_begin(&stream, 16, 0, 1, 1, nowhere, 32),
	           RTNLC_NO_ROOM, 32);
	expect("nothing is begun", stream.state, RTNLC_IDLE);
	expect_put("begun", rtnlc_stream_begin(&stream, 16, 0, 1, 1, out, 32), RTNLC_OK, 32);
	fed = rtnlc_stream_feed(&stream, nowhere, ENTRY, events, 4);
	expect("fed nothing", fed.code == RTNLC_OK && !fed.events && !fed.items, true);
	expect("which counts so", stream.received, 0);
	fed = rtnlc_stream_feed(&stream, a_link, sizeof a_link, no_events, 4096);
	expect("events", fed.code == RTNLC_NO_ROOM && fed.events == 3, true);
	expect("they count for nothing", stream.received, 0);
}

/* Attributes, a text and a message of no bytes; no head. */
static void build_of_nothing(void)
{
	static uint8_t head[12];
	struct rtnlc_builder b;
	expect("a builder", rtnlc_builder_new(&b, NULL, out, sizeof out), RTNLC_OK);
	expect("a message", rtnlc_builder_message(&b, 3, 0, 1, 0, nowhere, 20), RTNLC_OK);
	expect_put("it is a header", rtnlc_builder_finish(&b), RTNLC_OK, 16);
	expect("begun", rtnlc_builder_begin(&b, 24, 0, 1, 0, head, sizeof head), RTNLC_OK);
	expect("an attribute", rtnlc_builder_put(&b, 1, nowhere, 4), RTNLC_OK);
	expect("a text", rtnlc_builder_put_text(&b, 3, no_text, 9), RTNLC_OK);
	expect("ended", rtnlc_builder_end(&b), RTNLC_OK);
	expect_put("4 bytes, and 5 with their padding", rtnlc_builder_finish(&b), RTNLC_OK, 56);
	expect("the attribute", out[44] == 4 && out[46] == 1, true);
	expect("the text", out[48] == 5 && out[50] == 3 && out[52] == 0, true);
	expect("no head", rtnlc_builder_begin(&b, 24, 0, 1, 0, nowhere, 12), RTNLC_MISMATCH);
}

static void build_nowhere(void)
{
	static uint8_t head[12];
	struct rtnlc_builder b;
	expect("a builder", rtnlc_builder_new(&b, NULL, nowhere, 4096), RTNLC_OK);
	expect_put("of nothing", rtnlc_builder_finish(&b), RTNLC_OK, 0);
	expect("no message", rtnlc_builder_begin(&b, 24, 0, 1, 0, head, sizeof head), RTNLC_NO_ROOM);
	expect("a builder", rtnlc_builder_new(&b, NULL, nowhere, 4096), RTNLC_OK);
	expect("no whole one", rtnlc_builder_message(&b, 3, 0, 1, 0, head, 4), RTNLC_NO_ROOM);
	expect("a builder", rtnlc_builder_new(&b, NULL, out, sizeof out), RTNLC_OK);
	expect("begun", rtnlc_builder_begin(&b, 24, 0, 1, 0, head, sizeof head), RTNLC_OK);
	b.out = nowhere; /* the caller's, which has lost what is accepted */
	expect("its buffer is lost", rtnlc_builder_put_u32(&b, 1, 1), RTNLC_NO_BUILDER);
}

int main(void)
{
	read_nothing();
	write_nowhere();
	request_nowhere();
	pass_session();
	pass_stream();
	build_of_nothing();
	build_nowhere();
	return failures > 0;
}
