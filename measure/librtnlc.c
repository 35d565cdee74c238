/* Goes over a recording's datagrams by the calls of the C library, and counts what it finds; it
 * keeps nothing.
 * usage: librtnlc scan|tape|cursors|heads PASSES < BINARY, where each datagram stands behind its
 * size, four bytes, lowest first. By `heads` it prints how many heads there are, how many of
 * messages, of those behind which other heads stand, and of payloads longer than INLINE. */
#include <rtnlc.h>
#include <stdio.h>
#include <stdlib.h>
#include <string.h>

/* As long as a payload may be that takes no memory of its own. */
#define INLINE 23

static unsigned long count;
static struct rtnlc_event events[1 << 16];
static unsigned long heads, messages, regions, payloads;

static void attributes(const uint8_t *region, uint32_t size, uint8_t context);

static void next_hops(const uint8_t *region, uint32_t size)
{
	struct rtnlc_hop hop;

	for (uint32_t at = 0; hop = rtnlc_hop_at(region, size, at, false), hop.code == RTNLC_OK; at = hop.next)
		attributes(region + at + 8, hop.len, RTNLC_ROUTE);
}

static void attributes(const uint8_t *region, uint32_t size, uint8_t context)
{
	struct rtnlc_attr attr;

	for (uint32_t at = 0; attr = rtnlc_attr_at(region, size, at, false), attr.code == RTNLC_OK; at = attr.next) {
		struct rtnlc_holds holds = rtnlc_holds(context, attr.number, attr.nested);

		count += attr.number + attr.len;
		if (holds.sort == RTNLC_LIST)
			attributes(region + at + 4, attr.len, holds.context);
		else if (holds.sort == RTNLC_HOPS)
			next_hops(region + at + 4, attr.len);
	}
}

static void by_cursors(const uint8_t *bytes, uint32_t size)
{
	struct rtnlc_message message;

	for (uint32_t at = 0; message = rtnlc_message_at(bytes, size, at, false), message.code == RTNLC_OK; at = message.next) {
		struct rtnlc_family family = rtnlc_family_of(message.kind);

		count++;
		if (family.context != RTNLC_NO_CONTEXT)
			attributes(bytes + at + 16 + family.head_size, message.len - family.head_size, family.context);
	}
}

static void count_heads(const struct rtnlc_event *at, const struct rtnlc_event *end)
{
	for (; at < end; at++) {
		uint32_t front = at->sort == RTNLC_MESSAGE ? rtnlc_family_of(at->number).head_size : 0;

		heads++;
		messages += at->sort == RTNLC_MESSAGE;
		regions += at->sort != RTNLC_BYTES && at->len > front;
		payloads += at->sort == RTNLC_BYTES && at->len > INLINE;
	}
}

static void by_tape(const uint8_t *bytes, uint32_t size, const struct rtnlc_options *options, bool counts)
{
	size_t found = rtnlc_tape(bytes, size, options, events, sizeof(events) / sizeof(*events)).count;

	count += found;
	if (counts)
		count_heads(events, events + found);
}

enum way { SCAN, TAPE, HEADS, CURSORS };

static enum way way_of(const char *word)
{
	if (!strcmp(word, "tape"))
		return TAPE;
	if (!strcmp(word, "heads"))
		return HEADS;
	return strcmp(word, "cursors") ? SCAN : CURSORS;
}

int main(int argc, char **argv)
{
	static uint8_t bytes[1 << 24];
	static const struct rtnlc_options options = { .datagram = 1 << 20, .depth = RTNLC_STANDARD_DEPTH };
	size_t size = fread(bytes, 1, sizeof(bytes), stdin);
	enum way way = way_of(argc > 1 ? argv[1] : "scan");
	int passes = argc > 2 ? atoi(argv[2]) : 1;

	while (passes-- > 0) {
		for (size_t at = 0; at + 4 <= size;) {
			uint32_t len;

			memcpy(&len, bytes + at, 4);
			if (way == SCAN)
				count += rtnlc_scan(bytes + at + 4, len, &options).visits;
			else if (way != CURSORS)
				by_tape(bytes + at + 4, len, &options, way == HEADS);
			else
				by_cursors(bytes + at + 4, len);
			at += 4 + ((len + 3) & ~3u);
		}
	}
	if (way == HEADS)
		printf("%lu %lu %lu %lu\n", heads, messages, regions, payloads);
	else
		printf("%lu\n", count);
	return 0;
}
