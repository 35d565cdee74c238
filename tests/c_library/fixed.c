/*
 * What include/rtnlc.h says of codes, sorts, contexts and limits, of null pointers and of the
 * largest datagrams, held against what the calls answer.
 */
#include "expect.h"
#include "layout.h"
#include "made.h"

#define LARGEST (1 << 20)

static const struct rtnlc_options widest = { 0, LARGEST, 0, 32, false, { 0 } };

/* What a scan and a check of a block find, which is freed then. */
static void expect_scan(const char *what, uint8_t *bytes, size_t len,
                        const struct rtnlc_options *limits, uint8_t code, uint32_t place)
{
	struct rtnlc_scanned scanned = rtnlc_scan(bytes, len, limits);
	struct rtnlc_checked checked = rtnlc_check(bytes, len, limits);
	expect(what, scanned.code, code);
	expect(what, scanned.place, place);
	expect(what, checked.code, code);
	expect(what, checked.place, place);
	free(bytes);
}

/* Of a head that breaks a rule: its sort, its level, its number, its length, and what is left. */
static void expect_broken(const char *what, uint8_t *bytes, size_t len,
                          const struct rtnlc_options *limits, struct rtnlc_broken_head wanted)
{
	struct rtnlc_broken_head found = rtnlc_broken(bytes, len, limits);
	expect(what, found.place, wanted.place);
	expect(what, found.len, wanted.len);
	expect(what, found.left, wanted.left);
	expect(what, found.number, wanted.number);
	expect(what, found.level, wanted.level);
	expect(what, found.sort, wanted.sort);
	expect(what, found.whole, wanted.whole);
	expect(what, found.code, wanted.code);
	free(bytes);
}

static void expect_heads(void)
{
	static const struct rtnlc_broken_head none = { 0, 0, 0, 0, 0, 0, false, RTNLC_OK };
	static const struct rtnlc_broken_head large = { 0, 0, 0, 0, 0, 0, false, RTNLC_TOO_LARGE };
	static const struct rtnlc_broken_head cut = { 0, 0, 15, 0, 0, RTNLC_MESSAGE, false, RTNLC_CUT };
	static const struct rtnlc_broken_head longer = { 0, 40, 39, 16, 0, RTNLC_MESSAGE, true,
		                                             RTNLC_BAD_LENGTH };
	static const struct rtnlc_broken_head attr = { LINK_HEAD, 3, 8, 3, 0, RTNLC_BYTES, true,
		                                           RTNLC_BAD_LENGTH };
	static const struct rtnlc_broken_head deep = { LINK_HEAD + 32, 4, 4, 1, 8, RTNLC_BYTES, true,
		                                           RTNLC_TOO_DEEP };
	static const struct rtnlc_broken_head hop = { ROUTE_HEAD + 4, 7, 12, 0, 1, RTNLC_NEXT_HOP, true,
		                                          RTNLC_BAD_LENGTH };
	size_t len;
	uint8_t *bytes = link_with(40, 3);
	expect_broken("nothing is broken", link_with(40, 3), 40, NULL, none);
	expect_broken("too many bytes", link_with(RTNLC_STANDARD_DATAGRAM + 1, 3),
	              RTNLC_STANDARD_DATAGRAM + 1, NULL, large);
	expect_broken("a header of 15 bytes", link_with(40, 3), 15, NULL, cut);
	expect_broken("fewer bytes than a length", link_with(40, 3), 39, NULL, longer);
	put_attr(bytes + LINK_HEAD, 3, 3);
	expect_broken("an attribute of 3 bytes", bytes, 40, NULL, attr);
	bytes = chain_of(9, &len);
	expect_broken("a level more", bytes, len, NULL, deep);
	bytes = (uint8_t *)calloc(44, 1);
	put_header(bytes, 44, 24);
	put_attr(bytes + ROUTE_HEAD, 16, 9);
	put_number(bytes + ROUTE_HEAD + 4, 2, 7);
	expect_broken("a next hop of 7 bytes", bytes, 44, NULL, hop);
}

static void expect_faults(void)
{
	uint8_t *bytes = link_with(40, 3);
	expect_scan("a header of 15 bytes", link_with(40, 3), 15, NULL, RTNLC_CUT, 0);
	expect_scan("fewer bytes than a length", link_with(40, 3), 39, NULL, RTNLC_BAD_LENGTH, 0);
	put_attr(bytes + LINK_HEAD, 3, 3);
	expect_scan("an attribute of 3 bytes", bytes, 40, NULL, RTNLC_BAD_LENGTH, LINK_HEAD);
	bytes = link_with(40, 3);
	put_header(bytes, 31, 16);
	expect_scan("a head of 15 bytes", bytes, 31, NULL, RTNLC_SHORT_BODY, 0);
	expect_scan("the longest container", link_with(LINK_HEAD + 65532, 0x8001), LINK_HEAD + 65532,
	            &widest, RTNLC_BAD_LENGTH, LINK_HEAD + 4);
	expect_scan("a longer container", link_with(LINK_HEAD + 65533, 0x8001), LINK_HEAD + 65533,
	            &widest, RTNLC_TOO_LONG, LINK_HEAD);
}

static void expect_limits(void)
{
	struct rtnlc_options limits = { 0, 16, 0, 0, false, { 0 } };
	size_t len;
	uint8_t *bytes = chain_of(RTNLC_STANDARD_DEPTH, &len);
	expect_scan("the standard depth", bytes, len, NULL, RTNLC_OK, 0);
	bytes = chain_of(RTNLC_STANDARD_DEPTH + 1, &len);
	expect_scan("a level more", bytes, len, NULL, RTNLC_TOO_DEEP,
	            LINK_HEAD + 4 * RTNLC_STANDARD_DEPTH);
	bytes = chain_of(32, &len);
	expect_scan("the greatest depth", bytes, len, &widest, RTNLC_OK, 0);
	bytes = chain_of(33, &len);
	expect_scan("a level above it", bytes, len, &widest, RTNLC_TOO_DEEP, LINK_HEAD + 4 * 32);
	bytes = hops_of(16, &len);
	expect_scan("next hops of that depth", bytes, len, &widest, RTNLC_OK, 0);
	bytes = hops_of(17, &len);
	expect_scan("next hops above it", bytes, len, &widest, RTNLC_TOO_DEEP, ROUTE_HEAD + 12 * 16);
	expect_scan("the standard size", link_with(RTNLC_STANDARD_DATAGRAM, 3), RTNLC_STANDARD_DATAGRAM,
	            NULL, RTNLC_OK, 0);
	expect_scan("a byte more", link_with(RTNLC_STANDARD_DATAGRAM + 1, 3),
	            RTNLC_STANDARD_DATAGRAM + 1, NULL, RTNLC_TOO_LARGE, 0);
	bytes = link_with(LARGEST, 3);
	put_header(bytes, LARGEST, 99);
	expect_scan("the greatest size", bytes, LARGEST, &widest, RTNLC_OK, 0);
	expect_scan("a byte above it", link_with(LARGEST + 1, 3), LARGEST + 1, &widest,
	            RTNLC_TOO_LARGE, 0);
	expect_scan("the least limits", chain_of(0, &len), len, &limits, RTNLC_TOO_LARGE, 0);
	limits.datagram = 32;
	expect_scan("no level", chain_of(0, &len), len, &limits, RTNLC_OK, 0);
	limits.depth = 33;
	expect_scan("a depth above 32", chain_of(0, &len), len, &limits, RTNLC_BAD_LIMIT, 0);
	limits.depth = 32;
	limits.datagram = LARGEST + 4;
	expect_scan("a size above 1,048,576", chain_of(0, &len), len, &limits, RTNLC_BAD_LIMIT, 0);
	limits.datagram = 12;
	expect_scan("a size below 16", chain_of(0, &len), len, &limits, RTNLC_BAD_LIMIT, 0);
	limits.datagram = 34;
	expect_scan("a size that is no multiple of 4", chain_of(0, &len), len, &limits,
	            RTNLC_BAD_LIMIT, 0);
}

/* The cursors at the end, behind it, and in bytes above the most. */
static void expect_cursors(void)
{
	static const uint32_t places[] = { 40, 41, 44, 4294967292u, 4294967295u };
	uint8_t *bytes = link_with(40, 3), *large = (uint8_t *)calloc(LARGEST + 1, 1);
	size_t at;
	for (at = 0; at < sizeof places / sizeof *places; at++) {
		expect("a message behind the end", rtnlc_message_at(bytes, 40, places[at], false).code,
		       RTNLC_END);
		expect("an attribute behind the end", rtnlc_attr_at(bytes, 40, places[at], false).code,
		       RTNLC_END);
		expect("a next hop behind the end", rtnlc_hop_at(bytes, 40, places[at], true).code,
		       RTNLC_END);
		expect("its place", rtnlc_message_at(bytes, 40, places[at], false).next, places[at]);
	}
	expect("a message of 1 MiB", rtnlc_message_at(large, LARGEST, 0, false).code, RTNLC_BAD_LENGTH);
	expect("a message of more", rtnlc_message_at(large, LARGEST + 1, 0, false).code,
	       RTNLC_TOO_LARGE);
	expect("an attribute of 1 MiB", rtnlc_attr_at(large, LARGEST, 0, false).code, RTNLC_BAD_LENGTH);
	expect("an attribute of more", rtnlc_attr_at(large, LARGEST + 1, 0, false).code,
	       RTNLC_TOO_LARGE);
	expect("a next hop of 1 MiB", rtnlc_hop_at(large, LARGEST, 0, false).code, RTNLC_BAD_LENGTH);
	expect("a next hop of more", rtnlc_hop_at(large, LARGEST + 1, 0, false).code, RTNLC_TOO_LARGE);
	expect("a cut message", rtnlc_message_at(bytes, 40, 28, false).code, RTNLC_CUT);
	expect("a cut attribute", rtnlc_attr_at(bytes, 40, 37, false).code, RTNLC_CUT);
	expect("a cut next hop", rtnlc_hop_at(bytes, 40, 36, false).code, RTNLC_CUT);
	free(bytes);
	free(large);
}

/* Every type of a message. */
static void expect_families(void)
{
	static const uint8_t kinds[][3] = {
		{ 16, 16, RTNLC_LINK },  { 17, 16, RTNLC_LINK },  { 19, 16, RTNLC_LINK },
		{ 20, 8, RTNLC_ADDR },   { 21, 8, RTNLC_ADDR },   { 24, 12, RTNLC_ROUTE },
		{ 25, 12, RTNLC_ROUTE }, { 28, 12, RTNLC_NEIGH }, { 29, 12, RTNLC_NEIGH },
		{ 32, 12, RTNLC_RULE },  { 33, 12, RTNLC_RULE },
	};
	size_t at = 0;
	unsigned long kind;
	for (kind = 0; kind < 65536; kind++) {
		struct rtnlc_family family = rtnlc_family_of((uint16_t)kind);
		bool is_listed = at < sizeof kinds / 3 && kinds[at][0] == kind;
		expect("a family's head", family.head_size, is_listed ? kinds[at][1] : 0);
		expect("a family's context", family.context, is_listed ? kinds[at][2] : 0);
		at += is_listed;
	}
}

/* Every number in every context. */
static void expect_holds(void)
{
	unsigned context, number, nested;
	for (context = 0; context < 256; context++)
		for (number = 0; number < 16384; number++)
			for (nested = 0; nested < 2; nested++) {
				struct rtnlc_holds holds = rtnlc_holds((uint8_t)context, (uint16_t)number, nested);
				bool is_any = context >= RTNLC_LINK && context <= RTNLC_PLAIN;
				unsigned inner = nested ? (unsigned)RTNLC_PLAIN : 0;
				unsigned sort = nested ? RTNLC_LIST : RTNLC_BYTES;
				if (context == RTNLC_LINK && number == 18) {
					inner = RTNLC_LINK_INFO;
					sort = RTNLC_LIST;
				} else if (context == RTNLC_ROUTE && number == 8) {
					inner = RTNLC_METRICS;
					sort = RTNLC_LIST;
				} else if (context == RTNLC_ROUTE && number == 9) {
					inner = RTNLC_ROUTE;
					sort = RTNLC_HOPS;
				}
				expect("a sort", holds.sort, is_any ? sort : 0);
				expect("a context", holds.context, is_any ? inner : 0);
			}
}

/* A route with one next hop, and a list: each sort of events. */
static void expect_sorts(void)
{
	static const uint8_t wanted[] = { RTNLC_MESSAGE, RTNLC_HOPS, RTNLC_NEXT_HOP, RTNLC_LIST,
		                              RTNLC_BYTES };
	static const uint8_t levels[] = { 0, 0, 1, 2, 3 };
	uint8_t bytes[48];
	struct rtnlc_event events[5];
	struct rtnlc_taped taped;
	size_t at;
	memset(bytes, 0, sizeof bytes);
	put_header(bytes, 48, 24);
	put_attr(bytes + 28, 20, 9);
	put_number(bytes + 32, 2, 16);
	put_attr(bytes + 40, 8, 8);
	put_attr(bytes + 44, 4, 1);
	taped = rtnlc_tape(bytes, sizeof bytes, NULL, events, 5);
	expect("the heads of a route", taped.count, 5);
	expect("its code", taped.code, RTNLC_OK);
	for (at = 0; at < 5 && at < taped.count; at++) {
		expect("the sort of a head", events[at].sort, wanted[at]);
		expect("the level of a head", events[at].level, levels[at]);
	}
}

static void expect_nothing(void)
{
	static const char wanted[] = "datagram 7 bytes 0\n";
	static const char wanted_json[] = "{\"datagram\":7,\"bytes\":0,\"messages\":[]}\n";
	char text[sizeof wanted], json[sizeof wanted_json];
	struct rtnlc_shown shown = rtnlc_show(7, NULL, 0, NULL, text, sizeof text);
	expect("the text of nothing", shown.len, sizeof wanted - 1);
	expect("its code", shown.code, RTNLC_OK);
	expect("its bytes", memcmp(text, wanted, sizeof wanted - 1) != 0, 0);
	expect("its length without a buffer", rtnlc_show(7, NULL, 0, NULL, NULL, 0).len,
	       sizeof wanted - 1);
	shown = rtnlc_show_json(7, NULL, 0, NULL, json, sizeof json);
	expect("the JSON of nothing", shown.len, sizeof wanted_json - 1);
	expect("its bytes", memcmp(json, wanted_json, sizeof wanted_json - 1) != 0, 0);
	expect("a scan of nothing", rtnlc_scan(NULL, 0, NULL).code, RTNLC_OK);
	expect("its visits", rtnlc_scan(NULL, 0, NULL).visits, 0);
	expect("a tape of nothing", rtnlc_tape(NULL, 0, NULL, NULL, 0).code, RTNLC_OK);
	expect("its heads", rtnlc_tape(NULL, 0, NULL, NULL, 0).count, 0);
	expect("a check of nothing", rtnlc_check(NULL, 0, NULL).code, RTNLC_OK);
	expect("whether it is canonical", rtnlc_check(NULL, 0, NULL).canonical, true);
	expect("a message of nothing", rtnlc_message_at(NULL, 0, 0, false).code, RTNLC_END);
	expect("an attribute of nothing", rtnlc_attr_at(NULL, 0, 0, true).code, RTNLC_END);
	expect("a next hop of nothing", rtnlc_hop_at(NULL, 0, 9, false).code, RTNLC_END);
}

int main(void)
{
	expect_heads();
	expect_faults();
	expect_limits();
	expect_cursors();
	expect_families();
	expect_holds();
	expect_sorts();
	expect_nothing();
	return failures ? 1 : 0;
}
