/*
 * What each call of a mirror answers, for each code: of a mirror that was never made, from a dump's
 * beginning to its end, of each effect of a message, and why a table is stale. What is expected
 * follows from the words of the header and of crates/nl_mirror/CALLING.md.
 */
#include "mirrored.h"

static struct rtnlc_options limits = { RTNLC_STANDARD_TOTAL, RTNLC_STANDARD_DATAGRAM,
	                                   RTNLC_STANDARD_ENTRIES, RTNLC_STANDARD_DEPTH, false,
	                                   { 0 } };

/* Null, which the compiler doesn't see. */
static const uint8_t *volatile nowhere;

static void expect_put(const char *what, struct rtnlc_put put, uint8_t code, size_t len)
{
	expect(what, put.code, code);
	expect("  its length", put.len, len);
}

/* A new mirror of these limits. */
static struct rtnlc_mirror made(uint32_t waiting)
{
	struct rtnlc_mirror m = { 0 };
	expect("a mirror", rtnlc_mirror_new(&m, &limits, waiting), RTNLC_OK);
	expect("which is there", m.at != NULL, true);
	return m;
}

/* A table of links with the first two, current behind dump 1. */
static struct rtnlc_mirror of_links(uint32_t waiting)
{
	struct rtnlc_mirror m = made(waiting);
	begin(&m, 16, 0, 1);
	feed(&m, FIRST);
	feed(&m, SECOND DONE);
	expect("links are current", stale(&m, 16), RTNLC_CURRENT);
	return m;
}

/* The entry of an index, behind its header of no flags and no numbers. */
static void expect_entry(const char *what, struct rtnlc_mirror *m, uint16_t kind, uint32_t index,
                         const char *text)
{
	const struct rtnlc_put put = rtnlc_mirror_entry(m, kind, index, out, sizeof out);
	expect(what, put.code, RTNLC_OK);
	expect("  its bytes", is_hex(out, put.len, text), true);
}

/* ---- What is no mirror ---- */

static void is_no_mirror(struct rtnlc_mirror *m, const char *what)
{
	uint8_t *room = guarded_end(64) - 32, bytes[20];
	const size_t len = put_hex(DONE, bytes);
	const struct rtnlc_mirrored it = rtnlc_mirror_table(m, 16);
	const struct rtnlc_found found = rtnlc_mirror_find(m, 16, bytes, 4);
	memset(room, PAINT, 32);
	memset(changes, PAINT, sizeof changes);
	expect_put(what, rtnlc_mirror_begin(m, 16, 0, 1, 2, room, 32), RTNLC_NO_MIRROR, 0);
	expect_put(what, rtnlc_mirror_begin(m, 99, 0, 1, 2, NULL, 0), RTNLC_NO_MIRROR, 0);
	heard = rtnlc_mirror_feed(m, bytes, len, changes, 4, room, 32);
	expect(what, heard.code, RTNLC_NO_MIRROR);
	expect(what, heard.changes || heard.before || heard.place || heard.visits, false);
	expect(what, rtnlc_mirror_feed(m, NULL, 0, NULL, 0, NULL, 0).code, RTNLC_NO_MIRROR);
	expect(what, rtnlc_mirror_lost(m), RTNLC_NO_MIRROR);
	expect(what, it.code, RTNLC_NO_MIRROR);
	expect(what, it.missed || it.count || it.limit || it.seq || it.stale || it.dumps, false);
	expect(what, rtnlc_mirror_table(m, 99).code, RTNLC_NO_MIRROR);
	expect_put(what, rtnlc_mirror_entry(m, 16, 0, room, 32), RTNLC_NO_MIRROR, 0);
	expect_put(what, rtnlc_mirror_entry(m, 99, 9, NULL, 0), RTNLC_NO_MIRROR, 0);
	expect_put(what, rtnlc_mirror_key(m, 16, 0, room, 32), RTNLC_NO_MIRROR, 0);
	expect_put(what, rtnlc_mirror_key(m, 99, 9, NULL, 0), RTNLC_NO_MIRROR, 0);
	expect(what, found.code, RTNLC_NO_MIRROR);
	expect(what, found.index, 0);
	expect(what, rtnlc_mirror_find(m, 99, NULL, 0).code, RTNLC_NO_MIRROR);
	expect(what, is_painted(room, 32) && is_painted(changes, sizeof changes), true);
	rtnlc_mirror_free(m);
	rtnlc_mirror_free(m);
	expect(what, !m || !m->at, true);
}

static void no_mirrors(void)
{
	struct rtnlc_mirror m = { 0 };
	void *at;
	is_no_mirror(NULL, "a null mirror");
	expect("nowhere to make one", rtnlc_mirror_new(NULL, NULL, 1), RTNLC_NO_MIRROR);
	is_no_mirror(&m, "a mirror that was never made");
	expect("a mirror", rtnlc_mirror_new(&m, NULL, 1), RTNLC_OK);
	at = m.at;
	expect("made twice", rtnlc_mirror_new(&m, NULL, 1), RTNLC_BUSY);
	expect("it stays", at != NULL && m.at == at, true);
	begin(&m, 16, 0, 1);
	expect("made twice in a dump", rtnlc_mirror_new(&m, NULL, 1), RTNLC_BUSY);
	expect("it still dumps", rtnlc_mirror_table(&m, 16).dumps, true);
	rtnlc_mirror_free(&m);
	is_no_mirror(&m, "a mirror that is freed");
	expect("a mirror made again", rtnlc_mirror_new(&m, NULL, 1), RTNLC_OK);
	rtnlc_mirror_free(&m);
	is_no_mirror(&m, "a mirror that is freed again");
}

static void is_bad(struct rtnlc_options options, const char *what)
{
	struct rtnlc_mirror m = { 0 };
	expect(what, rtnlc_mirror_new(&m, &options, 1), RTNLC_BAD_LIMIT);
	expect("  none is made", m.at == NULL, true);
}

static void bad_limits(void)
{
	struct rtnlc_options bad = limits;
	struct rtnlc_mirror m;
	bad.datagram = 18;
	is_bad(bad, "no multiple of 4");
	bad.datagram = 12;
	is_bad(bad, "less than a header");
	bad = limits;
	bad.entries = 65537;
	is_bad(bad, "too many entries");
	bad = limits;
	bad.depth = 33;
	is_bad(bad, "too deep");
	bad = limits;
	bad.total = ((uint64_t)1 << 40) + 1;
	is_bad(bad, "too much in all");
	limits.total = 0;
	m = of_links(1);
	feed(&m, THIRD_TOLD);
	expect("the total limit says nothing", heard.code, RTNLC_OK);
	limits.total = RTNLC_STANDARD_TOTAL;
	rtnlc_mirror_free(&m);
}

/* ---- Beginning ---- */

/* The request of each kind, by its bytes: REQUEST, and DUMP (0x300). It may be asked for by each of
 * its types. */
static void requests(void)
{
	static const char *const wanted[] = {
		"20000000 1200 0103 05000000 00000000 02000000 00000000 00000000 00000000",
		"18000000 1600 0103 06000000 00000000 02000000 00000000",
		"1c000000 1a00 0103 07000000 00000000 02000000 00000000 00000000",
		"1c000000 1e00 0103 08000000 00000000 02000000 00000000 00000000",
		"1c000000 2200 0103 09000000 00000000 02000000 00000000 00000000",
	};
	struct rtnlc_mirror m = made(0);
	uint8_t bytes[RTNLC_REQUEST];
	size_t at;
	for (at = 0; at < 5; at++) {
		const size_t len = put_hex(wanted[at], bytes);
		uint8_t *room = guarded_end(len) - len;
		const uint16_t kind = (uint16_t)(kinds[at] + at % 3);
		const uint32_t seq = (uint32_t)(5 + at);
		memset(room, PAINT, len);
		expect_put("no room", rtnlc_mirror_begin(&m, kind, 2, seq, PORT, room + 1, len - 1),
		           RTNLC_NO_ROOM, len);
		expect_put("null", rtnlc_mirror_begin(&m, kind, 2, seq, PORT, NULL, len), RTNLC_NO_ROOM,
		           len);
		expect("nothing is put", is_painted(room, len), true);
		expect("nothing has begun", rtnlc_mirror_table(&m, kind).dumps, false);
		expect_put("just the room", rtnlc_mirror_begin(&m, kind, 2, seq, PORT, room, len), RTNLC_OK,
		           len);
		expect("its bytes", is_hex(room, len, wanted[at]), true);
		expect("it has begun", rtnlc_mirror_table(&m, kind).dumps, true);
		expect("under its number", rtnlc_mirror_table(&m, kind).seq, seq);
	}
	rtnlc_mirror_free(&m);
}

/* The number must be above that of each dump before, of any table; what comes first is answered. */
static void numbers(void)
{
	struct rtnlc_mirror m = made(1);
	uint8_t *room = guarded_end(32) - 32;
	begin(&m, 16, 0, 5);
	memset(room, PAINT, 32);
	expect_put("an equal number", rtnlc_mirror_begin(&m, 24, 0, 5, 1, room, 32), RTNLC_SAME_SEQ, 0);
	expect_put("a lower number", rtnlc_mirror_begin(&m, 24, 0, 4, 1, room, 32), RTNLC_SAME_SEQ, 0);
	expect_put("of the same table", rtnlc_mirror_begin(&m, 16, 0, 5, 1, room, 32), RTNLC_SAME_SEQ,
	           0);
	expect_put("no room first", rtnlc_mirror_begin(&m, 24, 0, 5, 1, room, 27), RTNLC_NO_ROOM, 28);
	expect_put("no kind first", rtnlc_mirror_begin(&m, 99, 0, 5, 1, NULL, 0), RTNLC_NO_KIND, 0);
	expect("nothing is put", is_painted(room, 32), true);
	expect("no dump of routes", rtnlc_mirror_table(&m, 24).dumps, false);
	expect("that of links", rtnlc_mirror_table(&m, 16).seq, 5);
	begin(&m, 24, 0, 6);
	expect("both run", rtnlc_mirror_table(&m, 16).dumps && rtnlc_mirror_table(&m, 24).dumps, true);
	begin(&m, 24, 0, UINT32_MAX);
	expect("the last number", rtnlc_mirror_table(&m, 24).seq, UINT32_MAX);
	expect_put("none is above", rtnlc_mirror_begin(&m, 16, 0, 1, 1, room, 32), RTNLC_SAME_SEQ, 0);
	rtnlc_mirror_free(&m);
}

/* ---- From a dump's beginning to its end ---- */

static void whole_dump(void)
{
	struct rtnlc_mirror m = made(8);
	struct rtnlc_mirrored it = rtnlc_mirror_table(&m, 16);
	size_t at;
	for (at = 0; at < 5; at++)
		expect("never dumped", stale(&m, kinds[at]), RTNLC_NEVER_DUMPED);
	expect("a new table", it.code || it.count || it.missed || it.seq || it.dumps, false);
	expect("its limit", it.limit, RTNLC_STANDARD_ENTRIES);
	begin(&m, 18, 0, 1);
	feed(&m, FIRST SECOND);
	expect_heard("two items", 2, 0, 0);
	expect_change("an item", 0, RTNLC_NOTHING, 16, 0, 0, 0);
	expect_change("another item", 1, RTNLC_NOTHING, 16, 0, 0, 0);
	it = rtnlc_mirror_table(&m, 17);
	expect("it dumps", it.dumps && it.seq == 1 && it.stale == RTNLC_NEVER_DUMPED, true);
	expect("the table is as it was", it.count, 0);
	feed(&m, THIRD_TOLD);
	expect_heard("a change meanwhile", 1, 0, 0);
	expect_change("it waits", 0, RTNLC_WAITS, 16, 0, 0, 0);
	expect("the table is as it was", count_of(&m, 16), 0);
	feed(&m, DONE);
	expect_heard("the end", 1, 0, 0);
	expect_change("the end", 0, RTNLC_NOTHING, 0, 0, 0, 0);
	it = rtnlc_mirror_table(&m, 16);
	expect("current", it.stale, RTNLC_CURRENT);
	expect("no dump", it.dumps || it.seq, false);
	expect("its entries", it.count, 3);
	expect_entry("the first", &m, 16, 0,
	             "20000000 1000 0000 00000000 00000000 00000403 01000000 49000100 00000000");
	expect_entry("the second", &m, 16, 1, SECOND_TOLD);
	expect_entry("what waited", &m, 16, 2, THIRD_TOLD);
	expect("no dump of routes", stale(&m, 24), RTNLC_NEVER_DUMPED);
	rtnlc_mirror_free(&m);
}

/* Dump 2, of this table, ends so: why it is stale then, and with how many entries. */
static void spoiled_dump(const char *what, uint16_t kind, const char *end, uint8_t why,
                         uint32_t count)
{
	struct rtnlc_mirror m = of_links(8);
	begin(&m, kind, 0, 2);
	feed(&m, end);
	expect(what, stale(&m, kind), why);
	expect("it has ended", rtnlc_mirror_table(&m, kind).dumps, false);
	expect("with its entries", count_of(&m, kind), count);
	rtnlc_mirror_free(&m);
}

/* A dump that was interrupted or has failed is none, and a table that was current stays so. */
static void spoiled_dumps(void)
{
	spoiled_dump("interrupted", 24, INTERRUPTED_2, RTNLC_NEVER_DUMPED, 0);
	spoiled_dump("failed", 24, FAILED_2, RTNLC_NEVER_DUMPED, 0);
	spoiled_dump("the dump before stays", 16, INTERRUPTED_2, RTNLC_CURRENT, 2);
	spoiled_dump("and behind one that failed", 16, FAILED_2, RTNLC_CURRENT, 2);
}

/* A dump that is given up: what waited is told, and its late answers are none of the next. */
static void given_up(void)
{
	struct rtnlc_mirror m = made(8);
	begin(&m, 16, 0, 1);
	feed(&m, FIRST THIRD_TOLD);
	expect_change("it waits", 1, RTNLC_WAITS, 16, 0, 0, 0);
	begin(&m, 16, 0, 2);
	expect("the other's number", rtnlc_mirror_table(&m, 16).seq, 2);
	expect("what waited is told", count_of(&m, 16), 1);
	feed(&m, SECOND DONE);
	expect("the late rest", rtnlc_mirror_table(&m, 16).dumps, true);
	feed(&m, DONE_2);
	expect("its own end", stale(&m, 16), RTNLC_CURRENT);
	expect("of no entry", count_of(&m, 16), 0);
	rtnlc_mirror_free(&m);
}

/* Another address family is another table, until its dump has ended. */
static void families(void)
{
	struct rtnlc_mirror m = made(8);
	begin(&m, 28, 0, 1);
	feed(&m, DONE);
	expect("all but forwarding entries", stale(&m, 28), RTNLC_CURRENT);
	feed(&m, STATION_MOVED);
	expect_change("one of these", 0, RTNLC_NOTHING, 28, 0, 0, 0);
	begin(&m, 28, 0, 2);
	expect("the same family", stale(&m, 28), RTNLC_CURRENT);
	feed(&m, DONE_2);
	begin(&m, 28, 7, 3);
	expect("another", stale(&m, 28), RTNLC_NEVER_DUMPED);
	feed(&m, DONE_OF(3));
	expect("until its end", stale(&m, 28), RTNLC_CURRENT);
	feed(&m, STATION_MOVED);
	expect_change("one of these", 0, RTNLC_ADDED, 28, 0, 0, 0);
	rtnlc_mirror_free(&m);
}

/* ---- What messages do ---- */

static void effects(void)
{
	struct rtnlc_mirror m = of_links(8);
	feed(&m, THIRD_TOLD);
	expect_heard("a third link", 1, 0, 0);
	expect_change("it is added", 0, RTNLC_ADDED, 16, 2, 0, 0);
	feed(&m, SECOND_AGAIN);
	expect_heard("the second link", 1, 32, 0);
	expect_change("it is changed", 0, RTNLC_CHANGED, 16, 1, 0, 32);
	expect("what it was", is_hex(before, 32, SECOND_TOLD), true);
	expect_entry("what it is", &m, 16, 1, SECOND_AGAIN);
	feed(&m, FIRST_GONE);
	expect_heard("the first link", 1, 32, 0);
	expect_change("it is removed", 0, RTNLC_REMOVED, 16, 0, 0, 32);
	expect("what it was", is_hex(before, 32, FIRST_TOLD), true);
	expect("no more of it", is_painted(before + 32, 64), true);
	expect_entry("the last one is in its place", &m, 16, 0, THIRD_TOLD);
	expect("two are left", count_of(&m, 16), 2);
	feed(&m, FIRST_GONE);
	expect_heard("the first link again", 1, 0, 0);
	expect_change("it isn't there", 0, RTNLC_NOTHING, 16, 0, 0, 0);
	feed(&m, PORT_TOLD);
	expect_change("a bridge's word of a port", 0, RTNLC_NOTHING, 16, 0, 0, 0);
	feed(&m, DONE);
	expect_change("the end of no dump", 0, RTNLC_NOTHING, 0, 0, 0, 0);
	expect("all is current", stale(&m, 16), RTNLC_CURRENT);
	rtnlc_mirror_free(&m);
}

/* Several messages in a datagram: each is answered, in order, and entries before them follow one
 * another. A table that was never dumped is told too. */
static void several(void)
{
	struct rtnlc_mirror m = of_links(8);
	feed(&m, SECOND_AGAIN ROUTE_TOLD FIRST_GONE OVERRUN_TOLD);
	expect_heard("four messages", 4, 64, 0);
	expect_change("changed", 0, RTNLC_CHANGED, 16, 1, 0, 32);
	expect_change("added", 1, RTNLC_ADDED, 24, 0, 0, 0);
	expect_change("removed", 2, RTNLC_REMOVED, 16, 0, 32, 32);
	expect_change("of no table", 3, RTNLC_NOTHING, 0, 0, 0, 0);
	expect("before", is_hex(before, 64, SECOND_TOLD FIRST_TOLD), true);
	expect("an overrun is a loss", stale(&m, 16), RTNLC_LOST);
	expect("the first reason stays", stale(&m, 24), RTNLC_NEVER_DUMPED);
	rtnlc_mirror_free(&m);
}

/* Without room for what was before, all else is the same. */
static void no_room_before(void)
{
	struct rtnlc_mirror m = of_links(8);
	feed_with(&m, SECOND_AGAIN, 2, 31);
	expect_heard("a byte too few", 1, 0, 0);
	expect_change("changed", 0, RTNLC_CHANGED, 16, 1, 0, 0);
	expect("nothing is put", is_painted(before, 64), true);
	feed_with(&m, SECOND_TOLD FIRST_GONE, 4, 32);
	expect_heard("room for one", 2, 32, 0);
	expect_change("changed", 0, RTNLC_CHANGED, 16, 1, 0, 32);
	expect("what it was", is_hex(before, 32, SECOND_AGAIN), true);
	expect("removed", changes[1].effect, RTNLC_REMOVED);
	expect("which is not put", changes[1].before_len, 0);
	feed_with(&m, FIRST_TOLD FIRST_GONE, 4, 0);
	expect_heard("no room at all", 2, 0, 0);
	expect_change("added", 0, RTNLC_ADDED, 16, 1, 0, 0);
	expect("removed", changes[1].effect, RTNLC_REMOVED);
	expect_entry("the table is the same", &m, 16, 0, SECOND_TOLD);
	expect("current", stale(&m, 16), RTNLC_CURRENT);
	rtnlc_mirror_free(&m);
}

/* Too little room for changes: nothing is looked at. No room at all is none asked for. */
static void no_room(void)
{
	struct rtnlc_mirror m = of_links(8);
	feed_with(&m, THIRD_TOLD, 1, MANY);
	expect("a sixteenth of 32 is 2", heard.code, RTNLC_NO_ROOM);
	expect("nothing is answered", heard.changes || heard.before || heard.place || heard.visits,
	       false);
	expect("nothing is put", is_painted(changes, sizeof changes), true);
	expect("nothing has changed", count_of(&m, 16) == 2 && !stale(&m, 16), true);
	feed_with(&m, CUT CUT, 1, MANY);
	expect("no room first", heard.code, RTNLC_NO_ROOM);
	expect("nothing was refused", stale(&m, 16), RTNLC_CURRENT);
	feed_with(&m, THIRD_TOLD, 2, MANY);
	expect_heard("just the room", 1, 0, 0);
	expect("no more is put", is_painted(changes + 1, sizeof changes - sizeof *changes), true);
	feed_with(&m, FIRST_GONE, 0, 0);
	expect_heard("no room asked for", 0, 0, 0);
	expect("it was heard", count_of(&m, 16), 2);
	heard = rtnlc_mirror_feed(&m, nowhere, 40, changes, 0, before, MANY);
	expect_heard("no bytes", 0, 0, 0);
	rtnlc_mirror_free(&m);
}

/* ---- Why a table is stale ---- */

/* All five tables current, the links of `of_links`. */
static struct rtnlc_mirror all_current(void)
{
	struct rtnlc_mirror m = of_links(8);
	char done[] = DONE;
	size_t at;
	for (at = 1; at < 5; at++) {
		begin(&m, kinds[at], 0, (uint32_t)(1 + at));
		done[20] = (char)('1' + at);
		feed(&m, done);
		expect("a table is current", stale(&m, kinds[at]), RTNLC_CURRENT);
	}
	return m;
}

static void expect_all(const char *what, struct rtnlc_mirror *m, uint8_t why)
{
	size_t at;
	for (at = 0; at < 5; at++)
		expect(what, stale(m, kinds[at]), why);
}

static void expect_refused(const char *what, struct rtnlc_mirror *m, uint8_t code, uint32_t place)
{
	expect(what, heard.code, code);
	expect("  at its place", heard.place, place);
	expect("  no change", heard.changes || heard.before, false);
	expect_all("  refused", m, RTNLC_REFUSED);
	expect("  its contents stay", count_of(m, 16), 2);
	expect_entry("  the first too", m, 16, 0, FIRST_TOLD);
	expect_entry("  and the second", m, 16, 1, SECOND_TOLD);
}

/* A datagram is refused at its first fault, and no message of it is heard. */
static void refused(void)
{
	struct rtnlc_mirror m = all_current();
	feed(&m, FIRST_GONE CUT);
	expect_refused("a length above what is left", &m, RTNLC_BAD_LENGTH, 32);
	expect("the first reason stays", rtnlc_mirror_lost(&m), RTNLC_OK);
	expect_all("  refused", &m, RTNLC_REFUSED);
	begin(&m, 16, 0, 9);
	feed(&m, DONE_OF(9));
	expect("a whole dump mends it", stale(&m, 16), RTNLC_CURRENT);
	expect("and no other", stale(&m, 24), RTNLC_REFUSED);
	rtnlc_mirror_free(&m);
	m = all_current();
	feed(&m, THIRD_TOLD "10000000");
	expect_refused("less than a header", &m, RTNLC_CUT, 32);
	rtnlc_mirror_free(&m);
	m = all_current();
	feed(&m, "14000000 1000 0000 00000000 00000000 00000000");
	expect_refused("less than the head of a link", &m, RTNLC_SHORT_BODY, 0);
	rtnlc_mirror_free(&m);
	limits.datagram = 52;
	m = all_current();
	feed(&m, THIRD_TOLD FIRST_GONE);
	expect_refused("above the limit", &m, RTNLC_TOO_LARGE, 0);
	expect("no visits", (unsigned long)heard.visits, 0);
	limits.datagram = RTNLC_STANDARD_DATAGRAM;
	rtnlc_mirror_free(&m);
}

static void lost(void)
{
	struct rtnlc_mirror m = all_current();
	expect("lost", rtnlc_mirror_lost(&m), RTNLC_OK);
	expect_all("all are stale", &m, RTNLC_LOST);
	expect("with what they had", count_of(&m, 16), 2);
	begin(&m, 16, 0, 6);
	expect("lost in a dump", rtnlc_mirror_lost(&m), RTNLC_OK);
	feed(&m, DONE_OF(6));
	expect("which doesn't count", stale(&m, 16), RTNLC_LOST);
	begin(&m, 16, 0, 7);
	feed(&m, DONE_OF(7));
	expect("but the next", stale(&m, 16), RTNLC_CURRENT);
	expect("and no other", stale(&m, 20), RTNLC_LOST);
	rtnlc_mirror_free(&m);
	m = all_current();
	feed(&m, OVERRUN_TOLD);
	expect_heard("an overrun", 1, 0, 0);
	expect_change("of no table", 0, RTNLC_NOTHING, 0, 0, 0, 0);
	expect_all("all are stale", &m, RTNLC_LOST);
	rtnlc_mirror_free(&m);
	m = all_current();
	begin(&m, 24, 0, 6);
	feed(&m, "10000000 0400 0000 06000000 39300000");
	expect("an overrun ends a dump", rtnlc_mirror_table(&m, 24).dumps, false);
	expect_all("all are stale", &m, RTNLC_LOST);
	rtnlc_mirror_free(&m);
}

/* What the kernel says of routes only in part. */
static void unsaid(void)
{
	struct rtnlc_mirror m = all_current();
	feed(&m, SECOND_DOWN);
	expect("a link goes down", stale(&m, 24), RTNLC_SILENT);
	expect("links are current", stale(&m, 16), RTNLC_CURRENT);
	rtnlc_mirror_free(&m);
	m = all_current();
	feed(&m, FIRST_GONE);
	expect("a link is gone", stale(&m, 24), RTNLC_SILENT);
	rtnlc_mirror_free(&m);
	m = all_current();
	feed(&m, "18000000 1500 0000 00000000 00000000 0a408000 02000000");
	expect("an address of IPv6 is gone", stale(&m, 24), RTNLC_CURRENT);
	feed(&m, "18000000 1500 0000 00000000 00000000 02188000 02000000");
	expect("one of IPv4", stale(&m, 24), RTNLC_SILENT);
	rtnlc_mirror_free(&m);
	m = all_current();
	feed(&m, ROUTE_TOLD);
	expect_change("a new route", 0, RTNLC_ADDED, 24, 0, 0, 0);
	expect("which is told whole", stale(&m, 24), RTNLC_CURRENT);
	feed(&m, REPLACED);
	expect_change("it replaces one", 0, RTNLC_CHANGED, 24, 0, 0, 28);
	expect("which isn't said", stale(&m, 24), RTNLC_UNNAMED);
	rtnlc_mirror_free(&m);
}

/* A full table. */
static void full(void)
{
	struct rtnlc_mirror m;
	struct rtnlc_mirrored it;
	limits.entries = 1;
	m = made(8);
	begin(&m, 16, 0, 1);
	feed(&m, FIRST SECOND DONE);
	it = rtnlc_mirror_table(&m, 16);
	expect("full", it.stale, RTNLC_FULL);
	expect("one entry", it.count == 1 && it.limit == 1, true);
	expect("one found no room", (unsigned long)it.missed, 1);
	feed(&m, THIRD_TOLD);
	expect_change("no room", 0, RTNLC_NOTHING, 16, 0, 0, 0);
	expect("once more", (unsigned long)rtnlc_mirror_table(&m, 16).missed, 2);
	feed(&m, FIRST_GONE);
	expect("room doesn't help", stale(&m, 16), RTNLC_FULL);
	begin(&m, 16, 0, 2);
	feed(&m, DONE_2);
	it = rtnlc_mirror_table(&m, 16);
	expect("but a dump does", it.stale, RTNLC_CURRENT);
	expect("none is missed", (unsigned long)it.missed, 0);
	rtnlc_mirror_free(&m);
	limits.entries = 0;
	m = made(8);
	begin(&m, 16, 0, 1);
	feed(&m, DONE);
	expect("no room and none needed", stale(&m, 16), RTNLC_CURRENT);
	feed(&m, FIRST_TOLD);
	expect_change("no room", 0, RTNLC_NOTHING, 16, 0, 0, 0);
	expect("full", stale(&m, 16), RTNLC_FULL);
	limits.entries = RTNLC_STANDARD_ENTRIES;
	rtnlc_mirror_free(&m);
}

/* No change may wait: one that comes while a dump runs is lost. */
static void none_waits(void)
{
	struct rtnlc_mirror m = of_links(0);
	begin(&m, 16, 0, 2);
	feed(&m, THIRD_TOLD);
	expect("it is heard", heard.code, RTNLC_OK);
	expect("one message", heard.changes, 1);
	expect("no room to wait", changes[0].code, RTNLC_NO_ROOM);
	expect("nothing comes of it", changes[0].effect, RTNLC_NOTHING);
	expect("of no table then", changes[0].kind, 0);
	expect("at no index", changes[0].index, 0);
	expect("nothing before", changes[0].before_len, 0);
	expect("too many wait", stale(&m, 16), RTNLC_TOO_MANY_WAIT);
	feed(&m, DONE_2);
	expect("that dump doesn't count", stale(&m, 16), RTNLC_TOO_MANY_WAIT);
	expect("the table stays", count_of(&m, 16), 2);
	begin(&m, 16, 0, 3);
	feed(&m, DONE_OF(3));
	expect("the next does", stale(&m, 16), RTNLC_CURRENT);
	rtnlc_mirror_free(&m);
}

/* ---- Entries and keys ---- */

/* An entry, or its key, in just the room that it takes, in a byte less, and in none. */
static void expect_bytes(const char *what, struct rtnlc_mirror *m, uint16_t kind, uint32_t index,
                         bool is_key, const char *text)
{
	struct rtnlc_put (*call)(struct rtnlc_mirror *, uint16_t, uint32_t, uint8_t *, size_t) =
	    is_key ? rtnlc_mirror_key : rtnlc_mirror_entry;
	uint8_t wanted[256];
	const size_t len = put_hex(text, wanted);
	uint8_t *room = guarded_end(len) - len;
	memset(room, PAINT, len);
	expect_put(what, call(m, kind, index, room + 1, len - 1), RTNLC_NO_ROOM, len);
	expect_put(what, call(m, kind, index, NULL, len), RTNLC_NO_ROOM, len);
	expect("  nothing is put", is_painted(room, len), true);
	expect_put(what, call(m, kind, index, room, len), RTNLC_OK, len);
	expect("  its bytes", memcmp(room, wanted, len) == 0, true);
}

static void expect_found(const char *what, struct rtnlc_mirror *m, uint16_t kind, const char *key,
                         uint8_t code, uint32_t index)
{
	uint8_t bytes[64];
	const struct rtnlc_found found = rtnlc_mirror_find(m, kind, bytes, put_hex(key, bytes));
	expect(what, found.code, code);
	expect("  its index", found.index, index);
}

static void entries(void)
{
	struct rtnlc_mirror m = of_links(8);
	expect_bytes("an entry", &m, 16, 1, false, SECOND_TOLD);
	expect_bytes("the same by another type", &m, 18, 1, false, SECOND_TOLD);
	expect_bytes("its key", &m, 16, 1, true, "02000000");
	expect_found("the entry of a key", &m, 16, "02000000", RTNLC_OK, 1);
	expect_found("of another one", &m, 16, "01000000", RTNLC_OK, 0);
	expect_found("of none", &m, 16, "03000000", RTNLC_END, 0);
	expect_found("a key that is cut", &m, 16, "020000", RTNLC_END, 0);
	expect_found("in another table", &m, 24, "02000000", RTNLC_END, 0);
	expect_found("in no table", &m, 99, "02000000", RTNLC_NO_KIND, 0);
	expect("no bytes", rtnlc_mirror_find(&m, 16, nowhere, 4).code, RTNLC_END);
	expect_put("behind the last", rtnlc_mirror_entry(&m, 16, 2, out, MANY), RTNLC_END, 0);
	expect_put("no key there", rtnlc_mirror_key(&m, 16, 2, out, MANY), RTNLC_END, 0);
	expect_put("no such index", rtnlc_mirror_entry(&m, 16, UINT32_MAX, NULL, 0), RTNLC_END, 0);
	expect_put("no kind", rtnlc_mirror_entry(&m, 99, 0, out, MANY), RTNLC_NO_KIND, 0);
	expect_put("no key of it", rtnlc_mirror_key(&m, 99, 0, out, MANY), RTNLC_NO_KIND, 0);
	expect("no table", rtnlc_mirror_table(&m, 99).code, RTNLC_NO_KIND);
	expect("of nothing", rtnlc_mirror_table(&m, 99).limit, 0);
	feed(&m, FIRST_GONE);
	expect_found("the last entry has moved", &m, 16, "02000000", RTNLC_OK, 0);
	expect_found("the first is gone", &m, 16, "01000000", RTNLC_END, 0);
	rtnlc_mirror_free(&m);
}

/* A forwarding entry is known by its bridge, and moves from port to port. */
static void stations(void)
{
	struct rtnlc_mirror m = made(8);
	begin(&m, 28, 7, 1);
	feed(&m, STATION DONE);
	expect_heard("an entry and the end", 2, 0, 20);
	expect_bytes("its key", &m, 28, 0, true, STATION_KEY);
	expect_found("by its key", &m, 28, STATION_KEY, RTNLC_OK, 0);
	feed(&m, STATION_MOVED);
	expect_heard("another port", 1, 48, 20);
	expect_change("the same entry", 0, RTNLC_CHANGED, 28, 0, 0, 48);
	expect("what it was",
	       is_hex(before, 48,
	              "30000000 1c00 0000 00000000 00000000 07000000 03000000 02000000 0a000200 "
	              "02000000 00010000 08000900 02000000"),
	       true);
	expect_bytes("what it is", &m, 28, 0, false, STATION_MOVED);
	expect_bytes("the same key", &m, 28, 0, true, STATION_KEY);
	feed(&m, STATION_GONE);
	expect_change("whatever device is named", 0, RTNLC_REMOVED, 28, 0, 0, 48);
	expect("what it was", is_hex(before, 48, STATION_MOVED), true);
	expect_found("gone", &m, 28, STATION_KEY, RTNLC_END, 0);
	rtnlc_mirror_free(&m);
}

/* The other byte order: keys are the same. */
static void highest_first(void)
{
	struct rtnlc_mirror m;
	uint8_t room[RTNLC_REQUEST];
	struct rtnlc_put put;
	limits.big = true;
	m = made(8);
	put = rtnlc_mirror_begin(&m, 28, 7, 1, PORT, room, sizeof room);
	expect("a request",
	       is_hex(room, put.len, "0000001c 001e 0301 00000001 00000000 07000000 00000000 00000000"),
	       true);
	feed(&m, STATION_BIG);
	expect_heard("an entry", 1, 0, 20);
	feed(&m, STATION_MOVED_BIG);
	expect_change("a change meanwhile", 0, RTNLC_WAITS, 28, 0, 0, 0);
	feed(&m, DONE_BIG);
	expect("current", stale(&m, 28), RTNLC_CURRENT);
	expect_bytes("what waited is told", &m, 28, 0, false, STATION_MOVED_BIG);
	expect_bytes("its key", &m, 28, 0, true, STATION_KEY);
	expect_found("by its key", &m, 28, STATION_KEY, RTNLC_OK, 0);
	feed(&m, STATION_MOVED_BIG);
	expect_change("told once more", 0, RTNLC_CHANGED, 28, 0, 0, 48);
	expect("what it was", is_hex(before, 48, STATION_MOVED_BIG), true);
	feed(&m, DONE);
	expect("the other order", heard.code, RTNLC_BAD_LENGTH);
	expect("is refused", stale(&m, 28), RTNLC_REFUSED);
	limits.big = false;
	rtnlc_mirror_free(&m);
}

int main(void)
{
	no_mirrors();
	bad_limits();
	requests();
	numbers();
	whole_dump();
	spoiled_dumps();
	given_up();
	families();
	effects();
	several();
	no_room_before();
	no_room();
	refused();
	lost();
	unsaid();
	full();
	none_waits();
	entries();
	stations();
	highest_first();
	return failures > 0;
}
