/*
 * Holds rtnlc_find against a walk by rtnlc_attr_at, on every region of each datagram of a
 * recording: `find little` or `find big` <RECORDING. The regions are those of messages, of lists
 * and of next hops, each whole and cut, and the datagram itself. It says how many answers there
 * were.
 */
#include "guarded.h"
#include "walk.h"

#define LARGEST (1 << 17)

static uint8_t *bytes_end;
static unsigned long answers;
static size_t number;

static bool is_attr(struct rtnlc_attr one, struct rtnlc_attr other)
{
	return one.place == other.place && one.next == other.next && one.len == other.len &&
	       one.number == other.number && one.nested == other.nested && one.net == other.net &&
	       one.code == other.code;
}

/* The first of this number from a place on, or why there is none. */
static struct rtnlc_attr walked_to(const uint8_t *bytes, size_t len, uint32_t place,
                                   uint16_t wanted, bool big)
{
	struct rtnlc_attr attr = rtnlc_attr_at(bytes, len, place, big);
	while (attr.code == RTNLC_OK && attr.number != wanted)
		attr = rtnlc_attr_at(bytes, len, attr.next, big);
	return attr;
}

static void hold(const uint8_t *bytes, size_t len, uint32_t place, uint16_t wanted, bool big)
{
	struct rtnlc_attr found = rtnlc_find(bytes, len, place, wanted, big);
	if (!is_attr(found, walked_to(bytes, len, place, wanted, big)))
		fail("what is found", number);
	if (found.code == RTNLC_OK ? found.number != wanted : found.next != found.place || found.len)
		fail("the fields of what is found", number);
	answers++;
}

/* From one place: each number that there is from it on, and some that there may not be. */
static void hold_place(const uint8_t *bytes, size_t len, uint32_t place, bool big)
{
	static const uint16_t others[] = { 0, 1, 2, 3, 8, 9, 18, 40, 16383, 16384, 0x8001, 65535 };
	struct rtnlc_attr attr = rtnlc_attr_at(bytes, len, place, big);
	size_t at;
	for (at = 0; at < sizeof others / sizeof *others; at++)
		hold(bytes, len, place, others[at], big);
	for (at = 0; at < 24 && attr.code == RTNLC_OK; at++) {
		hold(bytes, len, place, attr.number, big);
		attr = rtnlc_attr_at(bytes, len, attr.next, big);
	}
}

/* A region, from the front, from its second attribute, from places that no attribute begins at,
 * and cut. It is put at the end of memory that can be read. */
static void hold_region(const uint8_t *region, size_t size, bool big)
{
	size_t cut;
	for (cut = 0; cut < 6 && cut <= size; cut++) {
		size_t len = cut < 5 ? size - cut : size / 2;
		uint8_t *bytes = bytes_end - len;
		struct rtnlc_attr first;
		memcpy(bytes, region, len);
		first = rtnlc_attr_at(bytes, len, 0, big);
		hold_place(bytes, len, 0, big);
		hold_place(bytes, len, first.next, big);
		hold_place(bytes, len, 2, big);
		hold_place(bytes, len, (uint32_t)len, big);
		hold_place(bytes, len, (uint32_t)len + 1, big);
		hold_place(bytes, len, UINT32_MAX, big);
	}
}

int main(int words, char **word)
{
	bool big = words > 1 && !strcmp(word[1], "big");
	struct rtnlc_options limits = { RTNLC_STANDARD_TOTAL, 1 << 20, 0, 32, big, { 0 } };
	struct datagram one = { NULL, 0, 0 };
	bytes_end = guarded_end(LARGEST);
	hold(NULL, 0, 0, 1, big);
	while (next_datagram(stdin, &one) && one.len <= LARGEST) {
		struct walk w = walked(one.bytes, one.len, one.number, limits);
		size_t at;
		number = one.number;
		hold_region(one.bytes, one.len, big);
		for (at = 0; at < w.count; at++) {
			const struct rtnlc_event *event = &w.events[at];
			struct rtnlc_family family = rtnlc_family_of(event->number);
			const uint8_t *head = one.bytes + event->place;
			if (event->sort == RTNLC_MESSAGE && family.head_size)
				hold_region(head + 16 + family.head_size, event->len - family.head_size, big);
			else if (event->sort == RTNLC_LIST)
				hold_region(head + 4, event->len, big);
			else if (event->sort == RTNLC_NEXT_HOP)
				hold_region(head + 8, event->len, big);
		}
		free(w.events);
		free(one.bytes);
	}
	printf("%lu datagrams, %lu answers\n", (unsigned long)one.number, answers);
	return fflush(stdout) ? 3 : 0;
}
