/*
 * What wrong uses of sessions, streams and builders get: what is no session, no stream and no
 * builder, each field of a stream or of a builder broken in turn, limits out of their ranges, and
 * calls in a wrong order.
 */
#include "answers.h"

#define LARGEST (1 << 20)

/* ---- What is no session ---- */

/* Each call but rtnlc_session_new answers so, also where more is wrong, and writes nothing. */
static void is_no_session(struct rtnlc_session *s, const char *what)
{
	uint8_t *out = out_end - RTNLC_REQUEST;
	struct rtnlc_table table = rtnlc_session_table(s, 16);
	struct rtnlc_found found = rtnlc_session_find(s, 16, done, sizeof done);
	memset(out, PAINT, RTNLC_REQUEST);
	must(is_put(rtnlc_session_begin(s, 16, 0, 1, 2, out, 32), 0, RTNLC_NO_SESSION), what);
	must(is_put(rtnlc_session_begin(s, 99, 0, 1, 2, NULL, 0), 0, RTNLC_NO_SESSION), what);
	must(is_untaken(rtnlc_session_feed(s, done, sizeof done), RTNLC_NO_SESSION), what);
	must(is_untaken(rtnlc_session_feed(s, NULL, 0), RTNLC_NO_SESSION), what);
	must(rtnlc_session_abandon(s) == RTNLC_NO_SESSION, what);
	must(is_nothing(rtnlc_session_status(s), RTNLC_NO_SESSION), what);
	must(table.code == RTNLC_NO_SESSION && !table.count && !table.missed && !table.limit, what);
	must(rtnlc_session_table(s, 99).code == RTNLC_NO_SESSION, what);
	must(is_put(rtnlc_session_entry(s, 16, 0, out, RTNLC_REQUEST), 0, RTNLC_NO_SESSION), what);
	must(is_put(rtnlc_session_entry(s, 99, 9, NULL, 0), 0, RTNLC_NO_SESSION), what);
	must(is_put(rtnlc_session_key(s, 16, 0, out, RTNLC_REQUEST), 0, RTNLC_NO_SESSION), what);
	must(is_put(rtnlc_session_key(s, 99, 9, NULL, 0), 0, RTNLC_NO_SESSION), what);
	must(found.code == RTNLC_NO_SESSION && !found.index, what);
	must(rtnlc_session_find(s, 99, NULL, 0).code == RTNLC_NO_SESSION, what);
	must(is_painted(out, RTNLC_REQUEST), what);
	rtnlc_session_free(s);
	rtnlc_session_free(s);
	must(!s || !s->at, what);
}

static void no_sessions(void)
{
	struct rtnlc_session s = { 0 };
	is_no_session(NULL, "a null session");
	must(rtnlc_session_new(NULL, NULL) == RTNLC_NO_SESSION, "nowhere to make one");
	is_no_session(&s, "a session that was never made");
	must(rtnlc_session_new(&s, NULL) == RTNLC_OK && s.at, "a session");
	rtnlc_session_free(&s);
	is_no_session(&s, "a session that is freed");
	must(rtnlc_session_new(&s, NULL) == RTNLC_OK && s.at, "a session made again");
	must(rtnlc_session_status(&s).state == RTNLC_IDLE, "its state");
	rtnlc_session_free(&s);
	is_no_session(&s, "a session that is freed again");
}

/* ---- Limits ---- */

/* Where one of the limits is out of its range, nothing is made and nothing is written. */
static void is_bad(struct rtnlc_options options, const char *what)
{
	struct rtnlc_session s = { 0 };
	struct rtnlc_stream stream, painted;
	struct rtnlc_builder builder, unmade;
	struct rtnlc_event *out = (struct rtnlc_event *)(void *)(out_end - sizeof *out);
	char *text = (char *)out_end - 1;
	memset(&stream, PAINT, sizeof stream);
	memset(&painted, PAINT, sizeof painted);
	memset(&builder, PAINT, sizeof builder);
	memset(&unmade, PAINT, sizeof unmade);
	memset(out, PAINT, sizeof *out);
	must(rtnlc_session_new(&s, &options) == RTNLC_BAD_LIMIT && !s.at, what);
	must(rtnlc_stream_new(&stream, &options) == RTNLC_BAD_LIMIT, what);
	must(is_same(&stream, &painted, sizeof stream), what);
	must(rtnlc_builder_new(&builder, &options, out_end - 1, 1) == RTNLC_BAD_LIMIT, what);
	must(is_same(&builder, &unmade, sizeof builder), what);
	must(rtnlc_scan(done, sizeof done, &options).code == RTNLC_BAD_LIMIT, what);
	must(rtnlc_tape(done, sizeof done, &options, out, 1).code == RTNLC_BAD_LIMIT, what);
	must(rtnlc_check(done, sizeof done, &options).code == RTNLC_BAD_LIMIT, what);
	must(rtnlc_show(1, done, sizeof done, &options, text, 1).code == RTNLC_BAD_LIMIT, what);
	must(rtnlc_show_json(1, done, sizeof done, &options, text, 1).code == RTNLC_BAD_LIMIT, what);
	must(rtnlc_broken(done, sizeof done, &options).code == RTNLC_BAD_LIMIT, what);
	must(is_painted(out, sizeof *out), what);
}

static void bad_limits(void)
{
	static const struct rtnlc_options good = { RTNLC_STANDARD_TOTAL, 4096, 16, 8, false, { 0 } };
	static const uint64_t totals[] = { ((uint64_t)1 << 40) + 1, UINT64_MAX };
	static const uint32_t datagrams[] = { 0,  4,  12,          15,          17,
		                                  18, 19, LARGEST + 1, LARGEST + 4, 1u << 31 };
	static const uint32_t entries[] = { 65537, UINT32_MAX };
	static const uint8_t depths[] = { 33, 64, 255 };
	struct rtnlc_options options;
	size_t at;
#define ARE_BAD(field, values)                                                                     \
	for (at = 0; at < sizeof values / sizeof *values; at++) {                                      \
		options = good;                                                                            \
		options.field = values[at];                                                                \
		is_bad(options, "a limit of " #field);                                                     \
	}
	ARE_BAD(total, totals)
	ARE_BAD(datagram, datagrams)
	ARE_BAD(entries, entries)
	ARE_BAD(depth, depths)
	memset(&options, 0, sizeof options);
	is_bad(options, "limits of zero");
}

/* Whether it is a new builder of these limits, over this buffer. */
static bool is_new(const struct rtnlc_builder *b, const struct rtnlc_options *options,
                   const uint8_t *out, size_t room)
{
	const struct rtnlc_built *it = &b->built;
	return b->out == out && b->room == room && it->total == options->total &&
	       it->entries == options->entries && it->datagram == options->datagram &&
	       it->depth == options->depth && it->big == options->big && !it->len && !it->count &&
	       !it->refusal;
}

/* The greatest and the least of each limit are within its range. */
static void good_limits(void)
{
	static const struct rtnlc_options all[] = {
		{ (uint64_t)1 << 40, LARGEST, 65536, 32, true, { 0 } }, { 0, 16, 0, 0, false, { 0 } }
	};
	size_t at;
	for (at = 0; at < 2; at++) {
		struct rtnlc_session s = { 0 };
		struct rtnlc_stream stream;
		struct rtnlc_builder builder;
		must(rtnlc_builder_new(&builder, &all[at], out_end - 1, 1) == RTNLC_OK, "of a builder");
		must(is_new(&builder, &all[at], out_end - 1, 1), "a new builder");
		must(rtnlc_session_new(&s, &all[at]) == RTNLC_OK && s.at, "limits of a session");
		must(rtnlc_session_table(&s, 16).limit == all[at].entries, "its entries");
		must(rtnlc_stream_new(&stream, &all[at]) == RTNLC_OK, "limits of a stream");
		must(stream.total == all[at].total && stream.datagram == all[at].datagram, "its bytes");
		must(stream.entries == all[at].entries && stream.depth == all[at].depth, "its depth");
		must(stream.big == all[at].big && stream.state == RTNLC_IDLE, "its order");
		must(!stream.received && !stream.visits && !stream.ignored && !stream.seq && !stream.port &&
		         !stream.status && !stream.kind && !stream.family && !stream.damaged &&
		         !stream.interrupted,
		     "what is 0 in a new one");
		rtnlc_session_free(&s);
	}
}

/* ---- The calls in a wrong order ---- */

/* Whether two statuses are the same. */
static bool is_like(struct rtnlc_status one, struct rtnlc_status other)
{
	return one.received == other.received && one.visits == other.visits &&
	       one.ignored == other.ignored && one.seq == other.seq && one.port == other.port &&
	       one.status == other.status && one.kind == other.kind && one.family == other.family &&
	       one.state == other.state && one.damaged == other.damaged &&
	       one.interrupted == other.interrupted && one.complete == other.complete &&
	       one.code == other.code;
}

static void order_of_session(void)
{
	struct rtnlc_session s = { 0 };
	struct rtnlc_status before;
	must(rtnlc_session_new(&s, NULL) == RTNLC_OK, "a session");
	must(is_untaken(rtnlc_session_feed(&s, done, sizeof done), RTNLC_NOT_WAITING), "fed too early");
	must(rtnlc_session_abandon(&s) == RTNLC_NOT_WAITING, "abandoned too early");
	must(is_nothing(rtnlc_session_status(&s), RTNLC_OK), "no dump");
	must(is_put(rtnlc_session_begin(&s, 16, 3, 1, 2, request, 32), 32, RTNLC_OK), "a dump");
	before = rtnlc_session_status(&s);
	must(before.state == RTNLC_WAITING && before.kind == 16 && before.family == 3, "its status");
	must(before.seq == 1 && before.port == 2, "its numbers");
	must(rtnlc_session_new(&s, NULL) == RTNLC_BUSY && s.at, "made already");
	must(is_put(rtnlc_session_begin(&s, 16, 0, 5, 2, request, 32), 0, RTNLC_BUSY), "busy");
	must(is_put(rtnlc_session_begin(&s, 24, 0, 1, 2, request, 32), 0, RTNLC_BUSY), "busy first");
	must(is_put(rtnlc_session_begin(&s, 24, 0, 5, 2, request, 27), 28, RTNLC_NO_ROOM), "no room");
	must(is_put(rtnlc_session_begin(&s, 99, 0, 5, 2, NULL, 0), 0, RTNLC_NO_KIND), "no kind first");
	must(is_like(rtnlc_session_status(&s), before), "what is busy");
	must(rtnlc_session_feed(&s, done, sizeof done).ended, "its end");
	before = rtnlc_session_status(&s);
	must(before.complete && before.state == RTNLC_DONE, "complete");
	must(is_untaken(rtnlc_session_feed(&s, done, sizeof done), RTNLC_NOT_WAITING), "fed behind it");
	must(is_untaken(rtnlc_session_feed(&s, NULL, 0), RTNLC_NOT_WAITING), "nothing fed behind it");
	must(rtnlc_session_abandon(&s) == RTNLC_NOT_WAITING, "abandoned behind it");
	must(is_put(rtnlc_session_begin(&s, 24, 0, 1, 9, request, 32), 0, RTNLC_SAME_SEQ), "the same");
	must(is_put(rtnlc_session_begin(&s, 24, 0, 1, 9, NULL, 0), 28, RTNLC_NO_ROOM), "no room first");
	must(is_like(rtnlc_session_status(&s), before), "what comes too late");
	must(is_put(rtnlc_session_begin(&s, 24, 0, 2, 9, request, 32), 28, RTNLC_OK), "another");
	must(rtnlc_session_abandon(&s) == RTNLC_OK, "abandoned");
	must(rtnlc_session_status(&s).state == RTNLC_ABANDONED, "its state");
	must(!rtnlc_session_status(&s).complete, "abandoned, and not complete");
	rtnlc_session_free(&s);
}

/* What a stream refuses for what came before leaves every byte of it. */
static void order_of_stream(void)
{
	struct rtnlc_stream it, before;
	must(rtnlc_stream_new(&it, NULL) == RTNLC_OK, "a stream");
	before = it;
	must(is_untaken(rtnlc_stream_feed(&it, done, 20, events, 64), RTNLC_NOT_WAITING), "too early");
	must(rtnlc_stream_abandon(&it) == RTNLC_NOT_WAITING, "abandoned too early");
	must(is_nothing(rtnlc_stream_status(&it), RTNLC_OK), "no dump");
	must(is_same(&it, &before, sizeof it), "what comes too early");
	must(is_put(rtnlc_stream_begin(&it, 16, 3, 1, 2, request, 32), 32, RTNLC_OK), "a dump");
	must(it.state == RTNLC_WAITING && it.kind == 16 && it.family == 3, "its fields");
	must(it.seq == 1 && it.port == 2, "its numbers");
	before = it;
	must(is_put(rtnlc_stream_begin(&it, 24, 0, 1, 2, request, 32), 0, RTNLC_BUSY), "busy");
	must(is_put(rtnlc_stream_begin(&it, 24, 0, 5, 2, request, 27), 28, RTNLC_NO_ROOM), "no room");
	must(is_put(rtnlc_stream_begin(&it, 99, 0, 5, 2, NULL, 0), 0, RTNLC_NO_KIND), "no kind first");
	must(is_same(&it, &before, sizeof it), "what is busy");
	must(rtnlc_stream_feed(&it, done, 20, events, 64).ended && it.state == RTNLC_DONE, "its end");
	before = it;
	must(is_untaken(rtnlc_stream_feed(&it, done, 20, events, 64), RTNLC_NOT_WAITING), "behind it");
	must(rtnlc_stream_abandon(&it) == RTNLC_NOT_WAITING, "abandoned behind it");
	must(is_put(rtnlc_stream_begin(&it, 24, 0, 1, 9, request, 32), 0, RTNLC_SAME_SEQ), "the same");
	must(is_put(rtnlc_stream_begin(&it, 24, 0, 1, 9, NULL, 0), 28, RTNLC_NO_ROOM), "no room first");
	must(is_same(&it, &before, sizeof it), "what comes too late");
	must(is_put(rtnlc_stream_begin(&it, 24, 0, 2, 9, request, 32), 28, RTNLC_OK), "another");
	must(rtnlc_stream_abandon(&it) == RTNLC_OK && it.state == RTNLC_ABANDONED, "abandoned");
}

/* ---- What is no stream ---- */

static void is_no_stream(struct rtnlc_stream it, const char *what)
{
	struct rtnlc_stream before = it;
	uint8_t *out = out_end - RTNLC_REQUEST;
	memset(out, PAINT, RTNLC_REQUEST);
	must(is_untaken(rtnlc_stream_feed(&it, done, 20, events, 64), RTNLC_NO_STREAM), what);
	must(is_untaken(rtnlc_stream_feed(&it, NULL, 0, NULL, 0), RTNLC_NO_STREAM), what);
	must(is_put(rtnlc_stream_begin(&it, 16, 0, 9, 9, out, 32), 0, RTNLC_NO_STREAM), what);
	must(is_put(rtnlc_stream_begin(&it, 99, 0, 9, 9, NULL, 0), 0, RTNLC_NO_STREAM), what);
	must(rtnlc_stream_abandon(&it) == RTNLC_NO_STREAM, what);
	must(is_nothing(rtnlc_stream_status(&it), RTNLC_NO_STREAM), what);
	must(is_painted(out, RTNLC_REQUEST) && is_same(&it, &before, sizeof it), what);
}

/* Each field of a stream that waits, broken in turn. */
static void broken_fields(struct rtnlc_stream good)
{
	struct rtnlc_stream bad;
#define BROKEN(field, value)                                                                       \
	(bad = good, bad.field = (value), is_no_stream(bad, "a stream broken in " #field))
	BROKEN(total, good.received - 1);
	BROKEN(total, ((uint64_t)1 << 40) + 1);
	BROKEN(received, good.total + 1);
	BROKEN(received, good.visits / (good.depth + 1u) - 1);
	BROKEN(visits, (good.depth + 1u) * good.received + 1);
	BROKEN(visits, UINT64_MAX);
	BROKEN(ignored, good.received + 1);
	BROKEN(datagram, 0);
	BROKEN(datagram, 18);
	BROKEN(datagram, LARGEST + 4);
	BROKEN(entries, 65537);
	BROKEN(kind, 0);
	BROKEN(kind, 15);
	BROKEN(kind, 23);
	BROKEN(kind, 65535);
	BROKEN(state, 6);
	BROKEN(state, 255);
	BROKEN(depth, 33);
	BROKEN(big, 2);
	BROKEN(damaged, 2);
	BROKEN(interrupted, 255);
	/* Before the first dump nothing was counted; an error's code is not 0. */
	BROKEN(state, RTNLC_IDLE);
	BROKEN(state, RTNLC_FAILED);
}

/* What the caller may change: before the first dump the fields of the last one say nothing, and a
 * copy is a stream of its own. */
static void changed_fields(void)
{
	struct rtnlc_stream it, copy = waiting();
	must(rtnlc_stream_new(&it, NULL) == RTNLC_OK, "a stream");
	it.seq = it.port = UINT32_MAX;
	it.kind = 99;
	it.status = -5;
	it.family = 200;
	must(is_nothing(rtnlc_stream_status(&it), RTNLC_OK), "no dump");
	must(is_put(rtnlc_stream_begin(&it, 32, 0, UINT32_MAX, 2, request, 28), 28, RTNLC_OK),
	     "a dump under the number that said nothing");
	must(it.kind == 32 && it.status == 0 && it.family == 0 && it.port == 2, "its fields");
	it = copy;
	must(rtnlc_stream_abandon(&it) == RTNLC_OK && it.state == RTNLC_ABANDONED, "abandoned");
	must(copy.state == RTNLC_WAITING && rtnlc_stream_status(&copy).visits == 20, "the other one");
	copy.total = copy.received;
	must(is_untaken(rtnlc_stream_feed(&copy, done, 20, events, 64), RTNLC_TOTAL), "a lower total");
	must(copy.damaged && copy.received == 40 && copy.visits == 20, "what is above it");
}

/* Of a new stream, each count by itself. */
static void broken_new(void)
{
	struct rtnlc_stream good, bad;
	must(rtnlc_stream_new(&good, NULL) == RTNLC_OK, "a stream");
	BROKEN(received, 1);
	BROKEN(damaged, 1);
	BROKEN(interrupted, 1);
	bad = good;
	bad.received = bad.ignored = 1;
	is_no_stream(bad, "ignored before the first dump");
	bad = good;
	bad.received = bad.visits = 1;
	is_no_stream(bad, "visits before the first dump");
}

static void no_streams(void)
{
	struct rtnlc_stream bad;
	must(rtnlc_stream_new(NULL, NULL) == RTNLC_NO_STREAM, "nowhere to make one");
	must(is_untaken(rtnlc_stream_feed(NULL, done, 20, events, 64), RTNLC_NO_STREAM), "null");
	must(is_put(rtnlc_stream_begin(NULL, 16, 0, 9, 9, request, 32), 0, RTNLC_NO_STREAM), "null");
	must(rtnlc_stream_abandon(NULL) == RTNLC_NO_STREAM, "null");
	must(is_nothing(rtnlc_stream_status(NULL), RTNLC_NO_STREAM), "null");
	memset(&bad, 0, sizeof bad);
	is_no_stream(bad, "a stream of zeros");
	memset(&bad, 255, sizeof bad);
	is_no_stream(bad, "a stream of ones");
	broken_fields(waiting());
	broken_new();
	changed_fields();
}

/* ---- The calls of a builder in a wrong order ---- */

#define BUILT 64

static const uint8_t route_head[12] = { 2 };

/* A builder whose buffer ends at a page that can't be touched, with a route's message open. */
static struct rtnlc_builder begun(void)
{
	struct rtnlc_builder it;
	/* What is behind its open heads says nothing, but whole builders are compared here. */
	memset(&it, 0, sizeof it);
	uint8_t *out = out_end - BUILT;
	memset(out, PAINT, BUILT);
	must(rtnlc_builder_new(&it, NULL, out, BUILT) == RTNLC_OK, "a builder");
	must(rtnlc_builder_begin(&it, 24, 5, 1, 0, route_head, 12) == RTNLC_OK, "a message");
	return it;
}

/* A refusal is all that has changed, in the buffer nothing; and so it stays. */
static void is_refused(struct rtnlc_builder *it, struct rtnlc_builder before, const uint8_t *bytes,
                       uint8_t code)
{
	before.built.refusal = code;
	must(is_same(it, &before, sizeof before), "what is refused");
	must(rtnlc_builder_begin(it, 24, 5, 1, 0, route_head, 12) == code, "begin behind it");
	must(rtnlc_builder_put(it, 1, route_head, 4) == code, "put behind it");
	must(rtnlc_builder_put_text(it, 1, "lo", 2) == code, "put_text behind it");
	must(rtnlc_builder_put_u8(it, 1, 1) == code, "put_u8 behind it");
	must(rtnlc_builder_open(it, 9) == code, "open behind it");
	must(rtnlc_builder_open_hop(it, 0, 0, 1) == code, "open_hop behind it");
	must(rtnlc_builder_close(it) == code, "close behind it");
	must(rtnlc_builder_end(it) == code, "end behind it");
	must(rtnlc_builder_message(it, 3, 0, 1, 0, NULL, 0) == code, "message behind it");
	must(is_put(rtnlc_builder_finish(it), 0, code), "finish behind it");
	must(is_same(it, &before, sizeof before), "what is refused again");
	must(is_same(it->out, bytes, BUILT), "the bytes of what is refused");
}

static void order_of_builder(void)
{
	struct rtnlc_builder good = begun(), it;
	uint8_t bytes[BUILT];
#define REFUSED(code, call)                                                                        \
	(it = good, memcpy(bytes, it.out, BUILT), must((call) == (code), #call),                       \
	 is_refused(&it, good, bytes, code))
	REFUSED(RTNLC_STILL_OPEN, rtnlc_builder_begin(&it, 24, 5, 2, 0, route_head, 12));
	REFUSED(RTNLC_STILL_OPEN, rtnlc_builder_message(&it, 3, 2, 2, 0, route_head, 4));
	REFUSED(RTNLC_NOTHING_OPEN, rtnlc_builder_close(&it));
	must(rtnlc_builder_open(&good, 9) == RTNLC_OK && good.built.len == 32, "next hops");
	REFUSED(RTNLC_STILL_OPEN, rtnlc_builder_end(&it));
	REFUSED(RTNLC_MISMATCH, rtnlc_builder_put_u32(&it, 4, 1));
	REFUSED(RTNLC_MISMATCH, rtnlc_builder_open(&it, 8));
	must(rtnlc_builder_open_hop(&good, 0, 0, 7) == RTNLC_OK && good.built.count == 3, "a hop");
	REFUSED(RTNLC_STILL_OPEN, rtnlc_builder_end(&it));
	REFUSED(RTNLC_MISMATCH, rtnlc_builder_open_hop(&it, 0, 0, 7));
	must(rtnlc_builder_close(&good) == RTNLC_OK, "a hop is closed");
	must(rtnlc_builder_close(&good) == RTNLC_OK, "next hops are closed");
	REFUSED(RTNLC_NOTHING_OPEN, rtnlc_builder_close(&it));
	it = good;
	must(is_put(rtnlc_builder_finish(&it), 0, RTNLC_STILL_OPEN), "a message is open");
	must(is_same(&it, &good, sizeof it), "what is only asked");
	must(rtnlc_builder_end(&good) == RTNLC_OK && good.built.count == 0, "the message is ended");
	REFUSED(RTNLC_NOTHING_OPEN, rtnlc_builder_end(&it));
	REFUSED(RTNLC_NOTHING_OPEN, rtnlc_builder_put_u32(&it, 4, 1));
	REFUSED(RTNLC_NOTHING_OPEN, rtnlc_builder_open(&it, 9));
	REFUSED(RTNLC_NOTHING_OPEN, rtnlc_builder_open_hop(&it, 0, 0, 7));
	REFUSED(RTNLC_NO_ROOM, rtnlc_builder_begin(&it, 24, 5, 1, 0, route_head, 12));
	must(is_put(rtnlc_builder_finish(&good), 40, RTNLC_OK), "its bytes");
	must(rtnlc_check(good.out, 40, NULL).canonical, "they are canonical");
	must(is_painted(good.out + 40, BUILT - 40), "what is behind them");
}

/* ---- What is no builder ---- */

static void is_no_builder(struct rtnlc_builder *it, const char *what)
{
	struct rtnlc_builder before = *it;
	memset(out_end - BUILT, PAINT, BUILT);
	must(rtnlc_builder_begin(it, 24, 5, 1, 0, route_head, 12) == RTNLC_NO_BUILDER, what);
	must(rtnlc_builder_put(it, 1, route_head, 4) == RTNLC_NO_BUILDER, what);
	must(rtnlc_builder_put_text(it, 1, "lo", 2) == RTNLC_NO_BUILDER, what);
	must(rtnlc_builder_put_u16(it, 1, 1) == RTNLC_NO_BUILDER, what);
	must(rtnlc_builder_put_be64(it, 1, 1) == RTNLC_NO_BUILDER, what);
	must(rtnlc_builder_open(it, 9) == RTNLC_NO_BUILDER, what);
	must(rtnlc_builder_open_hop(it, 0, 0, 1) == RTNLC_NO_BUILDER, what);
	must(rtnlc_builder_close(it) == RTNLC_NO_BUILDER, what);
	must(rtnlc_builder_end(it) == RTNLC_NO_BUILDER, what);
	must(rtnlc_builder_message(it, 3, 0, 1, 0, NULL, 0) == RTNLC_NO_BUILDER, what);
	must(is_put(rtnlc_builder_finish(it), 0, RTNLC_NO_BUILDER), what);
	must(is_same(it, &before, sizeof before), what);
	must(is_painted(out_end - BUILT, BUILT), what);
}

/* Each field of a builder in which a next hop is open, broken in turn. */
static void broken_builders(void)
{
	struct rtnlc_builder good = begun(), bad;
	must(rtnlc_builder_open(&good, 9) == RTNLC_OK, "next hops");
	must(rtnlc_builder_open_hop(&good, 0, 0, 7) == RTNLC_OK && good.built.len == 40, "a hop");
#define NO_BUILDER(field, value)                                                                   \
	(bad = good, bad.field = (value), is_no_builder(&bad, "a builder broken in " #field))
	NO_BUILDER(out, NULL);
	NO_BUILDER(room, 39);
	NO_BUILDER(built.total, ((uint64_t)1 << 40) + 1);
	NO_BUILDER(built.entries, 65537);
	NO_BUILDER(built.datagram, 0);
	NO_BUILDER(built.datagram, 18);
	NO_BUILDER(built.datagram, 36);
	NO_BUILDER(built.datagram, LARGEST + 4);
	NO_BUILDER(built.len, BUILT + 1);
	NO_BUILDER(built.len, UINT32_MAX);
	NO_BUILDER(built.starts[2], 41);
	NO_BUILDER(built.starts[0], UINT32_MAX);
	NO_BUILDER(built.contents[0], 10);
	NO_BUILDER(built.contents[2], 255);
	NO_BUILDER(built.count, 34);
	NO_BUILDER(built.count, 255);
	NO_BUILDER(built.depth, 1);
	NO_BUILDER(built.depth, 33);
	NO_BUILDER(built.big, 2);
	NO_BUILDER(built.refusal, RTNLC_CUT);
	NO_BUILDER(built.refusal, RTNLC_NO_BUILDER);
	memset(&bad.built, 0, sizeof bad.built);
	is_no_builder(&bad, "a builder of zeros");
	memset(&bad.built, 255, sizeof bad.built);
	is_no_builder(&bad, "a builder of ones");
}

/* What the caller may change: a copy is a builder of its own, which goes on where it was over the
 * same bytes; the buffer may move; limits are what the fields say. */
static void changed_builders(void)
{
	struct rtnlc_builder it = begun(), copy;
	uint8_t wanted[36], moved[BUILT];
	must(rtnlc_builder_put_u32(&it, 4, 7) == RTNLC_OK, "an attribute");
	copy = it;
	must(rtnlc_builder_end(&copy) == RTNLC_OK, "a message");
	memcpy(wanted, copy.out, sizeof wanted);
	copy = it;
	must(rtnlc_builder_open(&copy, 9) == RTNLC_OK, "next hops, which are dropped");
	must(rtnlc_builder_open_hop(&copy, 1, 2, 3) == RTNLC_OK, "a hop, which is dropped");
	must(rtnlc_builder_end(&copy) == RTNLC_STILL_OPEN, "a refusal, which is dropped");
	must(rtnlc_builder_end(&it) == RTNLC_OK, "the one from before goes on");
	must(is_put(rtnlc_builder_finish(&it), 36, RTNLC_OK), "its length");
	must(is_same(it.out, wanted, 36), "its bytes");
	copy = it;
	must(rtnlc_builder_begin(&copy, 24, 5, 2, 0, route_head, 12) == RTNLC_OK, "one more");
	must(rtnlc_builder_put_u32(&copy, 4, 7) == RTNLC_NO_ROOM, "which has no room");
	must(is_put(rtnlc_builder_finish(&it), 36, RTNLC_OK), "those that had room");
	must(is_same(it.out, wanted, 36), "their bytes");
	memcpy(moved, it.out, 36);
	it.out = moved;
	it.built.big = 1;
	must(rtnlc_builder_message(&it, 1, 2, 3, 0, NULL, 0) == RTNLC_OK, "in a moved buffer");
	must(moved[36] == 0 && moved[39] == 16 && moved[51] == 0, "in the other order");
	it = begun();
	it.built.depth = 0;
	must(rtnlc_builder_open(&it, 9) == RTNLC_TOO_DEEP, "a lower depth");
	it = begun();
	it.room = it.built.len;
	must(rtnlc_builder_put(&it, 1, NULL, 0) == RTNLC_NO_ROOM, "a smaller room");
	it = begun();
	it.built.refusal = RTNLC_TOO_LONG;
	must(is_put(rtnlc_builder_finish(&it), 0, RTNLC_TOO_LONG), "a refusal of the caller's");
}

static void no_builders(void)
{
	must(rtnlc_builder_new(NULL, NULL, request, 32) == RTNLC_NO_BUILDER, "nowhere to make one");
	must(rtnlc_builder_begin(NULL, 24, 0, 0, 0, route_head, 12) == RTNLC_NO_BUILDER, "null");
	must(rtnlc_builder_put(NULL, 1, NULL, 0) == RTNLC_NO_BUILDER, "null");
	must(rtnlc_builder_end(NULL) == RTNLC_NO_BUILDER, "null");
	must(is_put(rtnlc_builder_finish(NULL), 0, RTNLC_NO_BUILDER), "null");
	broken_builders();
	changed_builders();
}

int main(void)
{
	out_end = guarded_end(PAGE);
	no_sessions();
	bad_limits();
	good_limits();
	order_of_session();
	order_of_stream();
	no_streams();
	order_of_builder();
	no_builders();
	return 0;
}
