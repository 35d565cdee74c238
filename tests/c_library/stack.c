/*
 * Measures the stack of each call on containers and on next hops that are 32 levels deep, and on
 * each datagram of a recording. The calls run on a stack of their own, which is painted before.
 * It prints the bytes of each, and its status is 1 where one has more than RTNLC_STACK.
 */
#include "made.h"
#include <ucontext.h>

#define SIZE  ((size_t)1 << 17)
#define PAINT 0xa5
#define ROOM  ((size_t)1 << 17)

/* What is called, and its name. */
struct measured {
	const char *name;
	void (*call)(void);
	size_t most;
};

static uint8_t *stack;
static ucontext_t outside, inside;
static const uint8_t *bytes;
static size_t len;
static const struct rtnlc_options widest = { 1 << 30, 1 << 20, 64, 32, false, { 0 } };
static struct rtnlc_event events[1 << 15];
static struct rtnlc_session session;
static struct rtnlc_mirror mirror;
static struct rtnlc_change changes[1 << 13];
static struct rtnlc_stream stream;
static struct rtnlc_message first;
static uint8_t out[ROOM], key[ROOM], before[ROOM];
static size_t key_len;
static unsigned long code;

static void call_nothing(void) {}
static void call_scan(void) { code = rtnlc_scan(bytes, len, &widest).code; }
static void call_broken(void) { code = rtnlc_broken(bytes, len, &widest).code; }
static void call_tape(void) { code = rtnlc_tape(bytes, len, &widest, events, 64).code; }
static void call_message_at(void) { code = rtnlc_message_at(bytes, len, 0, false).code; }
static void call_attr_at(void) { code = rtnlc_attr_at(bytes, len, 0, false).code; }
static void call_hop_at(void) { code = rtnlc_hop_at(bytes, len, 0, false).code; }
static void call_find(void) { code = rtnlc_find(bytes, len, 0, 9999, false).code; }
static void call_family_of(void) { code = rtnlc_family_of(16).context; }
static void call_holds(void) { code = rtnlc_holds(RTNLC_LINK, 18, false).sort; }
static void call_type_name(void) { code = rtnlc_type_name(16, (char *)out, ROOM).code; }

static void call_attr_name(void)
{
	code = rtnlc_attr_name(RTNLC_LINK, 66, (char *)out, ROOM).code;
}

static void call_check(void) { code = rtnlc_check(bytes, len, &widest).code; }

static void call_show(void)
{
	code = rtnlc_show(1, bytes, len, &widest, (char *)out, sizeof out).code;
}

static void call_show_json(void)
{
	code = rtnlc_show_json(1, bytes, len, &widest, (char *)out, sizeof out).code;
}

static void call_request(void) { code = rtnlc_request(16, 0, 1, false, out, sizeof out).code; }

static struct rtnlc_bytes text_of(const char *text)
{
	struct rtnlc_bytes it;
	it.at = text;
	it.len = strlen(text);
	return it;
}

static void call_request_link(void)
{
	static struct rtnlc_link_request link;
	link.name = text_of("one.5");
	link.kind = text_of("vlan");
	link.data = text_of("attributes");
	code = rtnlc_request_link(&link, RTNLC_ADD, 1, false, out, ROOM).code;
}

static void call_request_addr(void)
{
	static struct rtnlc_addr_request addr;
	addr.local = text_of("four");
	addr.label = text_of("one");
	addr.has_lifetimes = true;
	code = rtnlc_request_addr(&addr, RTNLC_ADD, 1, false, out, ROOM).code;
}

static void call_request_route(void)
{
	static struct rtnlc_metric metric;
	static struct rtnlc_next_hop hops[2];
	static struct rtnlc_route_request route;
	hops[1].gateway_len = 4;
	route.metrics = &metric;
	route.metric_count = 1;
	route.hops = hops;
	route.hop_count = 2;
	route.table = 1000;
	code = rtnlc_request_route(&route, RTNLC_ADD, 1, false, out, ROOM).code;
}

static void call_request_neigh(void)
{
	static struct rtnlc_neigh_request neigh;
	neigh.destination = text_of("four");
	neigh.has_vlan = true;
	code = rtnlc_request_neigh(&neigh, RTNLC_ADD, 1, false, out, ROOM).code;
}

static void call_request_rule(void)
{
	static struct rtnlc_rule_request rule;
	rule.source = text_of("four");
	rule.iif = text_of("one");
	rule.table = 1000;
	code = rtnlc_request_rule(&rule, RTNLC_ADD, 1, false, out, ROOM).code;
}

static void call_session_new(void)
{
	rtnlc_session_free(&session);
	code = rtnlc_session_new(&session, &widest);
}

static void call_session_begin(void)
{
	rtnlc_session_abandon(&session);
	code = rtnlc_session_begin(&session, first.kind, 0, first.seq, first.port, out, ROOM).code;
}

static void call_session_feed(void) { code = rtnlc_session_feed(&session, bytes, len).code; }
static void call_session_status(void) { code = rtnlc_session_status(&session).code; }
static void call_session_abandon(void) { code = rtnlc_session_abandon(&session); }

static void call_mirror_new(void)
{
	rtnlc_mirror_free(&mirror);
	code = rtnlc_mirror_new(&mirror, &widest, 64);
}

/* Twice: what is new, and then what was before. */
static void call_mirror_feed(void)
{
	const size_t room = sizeof changes / sizeof *changes;
	rtnlc_mirror_feed(&mirror, bytes, len, changes, room, before, ROOM);
	code = rtnlc_mirror_feed(&mirror, bytes, len, changes, room, before, ROOM).code;
}

/* Twice: what waits for the end of the first is told when that is given up. */
static void call_mirror_begin(void)
{
	static uint32_t seq;
	rtnlc_mirror_begin(&mirror, first.kind, 0, ++seq, first.port, out, ROOM);
	rtnlc_mirror_feed(&mirror, bytes, len, NULL, 0, NULL, 0);
	code = rtnlc_mirror_begin(&mirror, first.kind, 0, ++seq, first.port, out, ROOM).code;
}

static void call_mirror_lost(void) { code = rtnlc_mirror_lost(&mirror); }

/* The calls that a session and a mirror have alike. */
#define READS_AND_FREES(it)                                                                    \
	static void call_##it##_table(void) { code = rtnlc_##it##_table(&it, first.kind).code; }   \
	static void call_##it##_entry(void)                                                        \
	{                                                                                          \
		code = rtnlc_##it##_entry(&it, first.kind, 0, out, ROOM).code;                         \
	}                                                                                          \
	static void call_##it##_key(void)                                                          \
	{                                                                                          \
		key_len = rtnlc_##it##_key(&it, first.kind, 0, key, ROOM).len;                         \
	}                                                                                          \
	static void call_##it##_find(void)                                                         \
	{                                                                                          \
		code = rtnlc_##it##_find(&it, first.kind, key, key_len).code;                          \
	}                                                                                          \
	static void call_##it##_free(void) { rtnlc_##it##_free(&it); }

READS_AND_FREES(session)
READS_AND_FREES(mirror)

static void call_stream_new(void) { code = rtnlc_stream_new(&stream, &widest); }

static void call_stream_begin(void)
{
	code = rtnlc_stream_begin(&stream, first.kind, 0, first.seq, first.port, out, ROOM).code;
}

static void call_stream_feed(void)
{
	code = rtnlc_stream_feed(&stream, bytes, len, events, sizeof events / sizeof *events).code;
}

static void call_stream_status(void) { code = rtnlc_stream_status(&stream).code; }
static void call_stream_abandon(void) { code = rtnlc_stream_abandon(&stream); }
static void call_code_name(void) { code = rtnlc_code_name(RTNLC_CUT) == NULL; }
static void call_version(void) { code = rtnlc_version() == NULL; }
static void call_proved(void) { code = rtnlc_proved(); }

/* In an order in which a dump is begun, fed and read. */
static struct measured all[] = {
	{ "nothing", call_nothing, 0 },
	{ "scan", call_scan, 0 },
	{ "broken", call_broken, 0 },
	{ "tape", call_tape, 0 },
	{ "message_at", call_message_at, 0 },
	{ "attr_at", call_attr_at, 0 },
	{ "hop_at", call_hop_at, 0 },
	{ "find", call_find, 0 },
	{ "family_of", call_family_of, 0 },
	{ "holds", call_holds, 0 },
	{ "type_name", call_type_name, 0 },
	{ "attr_name", call_attr_name, 0 },
	{ "check", call_check, 0 },
	{ "show", call_show, 0 },
	{ "show_json", call_show_json, 0 },
	{ "request", call_request, 0 },
	{ "request_link", call_request_link, 0 },
	{ "request_addr", call_request_addr, 0 },
	{ "request_route", call_request_route, 0 },
	{ "request_neigh", call_request_neigh, 0 },
	{ "request_rule", call_request_rule, 0 },
	{ "session_new", call_session_new, 0 },
	{ "session_begin", call_session_begin, 0 },
	{ "session_feed", call_session_feed, 0 },
	{ "session_status", call_session_status, 0 },
	{ "session_table", call_session_table, 0 },
	{ "session_entry", call_session_entry, 0 },
	{ "session_key", call_session_key, 0 },
	{ "session_find", call_session_find, 0 },
	{ "session_abandon", call_session_abandon, 0 },
	{ "session_free", call_session_free, 0 },
	{ "mirror_new", call_mirror_new, 0 },
	{ "mirror_feed", call_mirror_feed, 0 },
	{ "mirror_table", call_mirror_table, 0 },
	{ "mirror_entry", call_mirror_entry, 0 },
	{ "mirror_key", call_mirror_key, 0 },
	{ "mirror_find", call_mirror_find, 0 },
	{ "mirror_begin", call_mirror_begin, 0 },
	{ "mirror_lost", call_mirror_lost, 0 },
	{ "mirror_free", call_mirror_free, 0 },
	{ "stream_new", call_stream_new, 0 },
	{ "stream_begin", call_stream_begin, 0 },
	{ "stream_feed", call_stream_feed, 0 },
	{ "stream_status", call_stream_status, 0 },
	{ "stream_abandon", call_stream_abandon, 0 },
	{ "code_name", call_code_name, 0 },
	{ "version", call_version, 0 },
	{ "proved", call_proved, 0 },
};

#define CALLS (sizeof all / sizeof *all)

/* How many bytes of the painted stack a call touches. */
static size_t touched(void (*call)(void))
{
	size_t at = 0;
	memset(stack, PAINT, SIZE);
	getcontext(&inside);
	inside.uc_stack.ss_sp = stack;
	inside.uc_stack.ss_size = SIZE;
	inside.uc_link = &outside;
	makecontext(&inside, call, 0);
	swapcontext(&outside, &inside);
	while (at < SIZE && stack[at] == PAINT)
		at++;
	return SIZE - at;
}

/* All calls twice, since the first of a program may be longer by what the loader does. */
static void measure(uint8_t *block)
{
	size_t at, times;
	bytes = block;
	first = rtnlc_message_at(bytes, len, 0, false);
	for (times = 0; times < 2; times++)
		for (at = 0; at < CALLS; at++) {
			size_t found = touched(all[at].call);
			if (times && found > all[at].most)
				all[at].most = found;
		}
	free(block);
}

/* Whether the deep datagram came into the table and out of it: the calls did their work. */
static void hold_deep(size_t levels)
{
	bytes = chain_of(levels, &len);
	first = rtnlc_message_at(bytes, len, 0, false);
	call_session_new();
	call_session_begin();
	call_session_feed();
	call_session_entry();
	if (code || rtnlc_session_entry(&session, 16, 0, out, ROOM).len != len)
		fail("the entry of a deep message", levels);
	rtnlc_session_free(&session);
	call_mirror_new();
	call_mirror_feed();
	if (code || changes[0].effect != RTNLC_CHANGED || changes[0].before_len != len)
		fail("what a deep message was before", levels);
	rtnlc_mirror_free(&mirror);
	free((void *)(uintptr_t)bytes);
}

int main(void)
{
	struct datagram one = { NULL, 0, 0 };
	size_t at;
	bool is_above = false;
	stack = (uint8_t *)taken(SIZE);
	hold_deep(32);
	measure(chain_of(32, &len));
	measure(chain_of(33, &len));
	measure(hops_of(16, &len));
	measure(hops_of(17, &len));
	while (next_datagram(stdin, &one)) {
		len = one.len;
		measure(one.bytes);
	}
	for (at = 1; at < CALLS; at++) {
		printf("%s %lu\n", all[at].name, (unsigned long)(all[at].most - all[0].most));
		is_above |= all[at].most - all[0].most > RTNLC_STACK;
	}
	free(stack);
	return is_above ? 1 : 0;
}
