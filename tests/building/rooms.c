/*
 * A datagram of all sorts of calls, in every room and under every limit of a datagram, from none
 * to more than it needs: beside the model, and once more at the end of memory, where a page
 * follows that can't be touched.
 */
#include "../c_library/guarded.h"
#include "beside_model.h"

#define WHOLE 312

static const uint8_t name[] = "one", four[] = { 192, 0, 2, 1 }, odd[] = { 1, 2, 3, 4, 5 };
static const uint8_t zeros[24];

static const struct call calls[] = {
	{ BEGIN, 16, 5, 7, 9, { 0, 0, 1, 0, 10, 0, 0, 0, 1, 0, 0, 0, 1 }, 16, NULL, 0, 0, 0, 0, 0 },
	{ TEXT, 3, 0, 0, 0, { 0 }, 0, name, 3, 0, 0, 0, 0 },
	{ U32, 4, 0, 0, 0, { 0 }, 0, NULL, 0, 1400, 0, 0, 0 },
	{ OPEN, 18, 0, 0, 0, { 0 }, 0, NULL, 0, 0, 0, 0, 0 },
	{ PUT, 1, 0, 0, 0, { 0 }, 0, odd, 5, 0, 0, 0, 0 },
	{ OPEN, 2 | NESTED, 0, 0, 0, { 0 }, 0, NULL, 0, 0, 0, 0, 0 },
	{ U16, 1 | NET, 0, 0, 0, { 0 }, 0, NULL, 0, 5, 0, 0, 0 },
	{ U64, 2, 0, 0, 0, { 0 }, 0, NULL, 0, 1ull << 40, 0, 0, 0 },
	{ CLOSE, 0, 0, 0, 0, { 0 }, 0, NULL, 0, 0, 0, 0, 0 },
	{ CLOSE, 0, 0, 0, 0, { 0 }, 0, NULL, 0, 0, 0, 0, 0 },
	{ END, 0, 0, 0, 0, { 0 }, 0, NULL, 0, 0, 0, 0, 0 },
	{ BEGIN, 20, 5, 8, 9, { 2, 24, 0, 0, 10 }, 8, NULL, 0, 0, 0, 0, 0 },
	{ PUT, 2, 0, 0, 0, { 0 }, 0, four, 4, 0, 0, 0, 0 },
	{ END, 0, 0, 0, 0, { 0 }, 0, NULL, 0, 0, 0, 0, 0 },
	{ BEGIN, 24, 5, 9, 9, { 2, 24, 0, 0, 254, 3, 0, 1 }, 12, NULL, 0, 0, 0, 0, 0 },
	{ PUT, 1, 0, 0, 0, { 0 }, 0, four, 4, 0, 0, 0, 0 },
	{ OPEN, 8, 0, 0, 0, { 0 }, 0, NULL, 0, 0, 0, 0, 0 },
	{ U32, 2, 0, 0, 0, { 0 }, 0, NULL, 0, 1400, 0, 0, 0 },
	{ CLOSE, 0, 0, 0, 0, { 0 }, 0, NULL, 0, 0, 0, 0, 0 },
	{ OPEN, 9, 0, 0, 0, { 0 }, 0, NULL, 0, 0, 0, 0, 0 },
	{ HOP, 0, 0, 0, 0, { 0 }, 0, NULL, 0, 0, 0, 1, 10 },
	{ PUT, 5, 0, 0, 0, { 0 }, 0, four, 4, 0, 0, 0, 0 },
	{ CLOSE, 0, 0, 0, 0, { 0 }, 0, NULL, 0, 0, 0, 0, 0 },
	{ HOP, 0, 0, 0, 0, { 0 }, 0, NULL, 0, 0, 4, 255, -1 },
	{ CLOSE, 0, 0, 0, 0, { 0 }, 0, NULL, 0, 0, 0, 0, 0 },
	{ CLOSE, 0, 0, 0, 0, { 0 }, 0, NULL, 0, 0, 0, 0, 0 },
	{ END, 0, 0, 0, 0, { 0 }, 0, NULL, 0, 0, 0, 0, 0 },
	{ MESSAGE, 2, 0, 9, 9, { 0 }, 0, zeros, 21, 0, 0, 0, 0 },
	{ BEGIN, 28, 5, 10, 9, { 2, 0, 0, 0, 10, 0, 0, 0, 128 }, 12, NULL, 0, 0, 0, 0, 0 },
	{ PUT, 2, 0, 0, 0, { 0 }, 0, odd, 0, 0, 0, 0, 0 },
	{ U8, 12, 0, 0, 0, { 0 }, 0, NULL, 0, 3, 0, 0, 0 },
	{ END, 0, 0, 0, 0, { 0 }, 0, NULL, 0, 0, 0, 0, 0 },
	{ BEGIN, 32, 5, 11, 9, { 2, 0, 24, 0, 100, 0, 0, 1 }, 12, NULL, 0, 0, 0, 0, 0 },
	{ U32, 10, 0, 0, 0, { 0 }, 0, NULL, 0, 16, 0, 0, 0 },
	{ END, 0, 0, 0, 0, { 0 }, 0, NULL, 0, 0, 0, 0, 0 },
};
#define COUNT (sizeof calls / sizeof *calls)

/* At the end of memory, with the least bytes that are read of a head and a payload there too. */
static void at_the_end(uint8_t *end, uint8_t *end_to_read, size_t room)
{
	struct rtnlc_builder b;
	size_t at;
	must(!rtnlc_builder_new(&b, NULL, room ? end - room : NULL, room), "a builder");
	for (at = 0; at < COUNT; at++) {
		struct call it = calls[at];
		if (it.verb == PUT || it.verb == MESSAGE) {
			memcpy(end_to_read - it.len, calls[at].bytes, it.len);
			it.bytes = it.len ? end_to_read - it.len : NULL;
		}
		called(&b, &it);
	}
	must(rtnlc_builder_finish(&b).code == (room < WHOLE ? RTNLC_NO_ROOM : RTNLC_OK), "its end");
}

/* A message of no family about as long as any may be. */
static void long_messages(void)
{
	static uint8_t body[LARGEST + 4];
	size_t len;
	for (len = LARGEST - 24; len <= sizeof body; len++) {
		struct call it = { MESSAGE, 3, 2, 7, 9, { 0 }, 0, body, len, 0, 0, 0, 0 };
		beside_model(&it, 1, LARGEST, LARGEST, 8, false);
		beside_model(&it, 1, LARGEST - 8, LARGEST, 8, true);
	}
}

int main(void)
{
	uint8_t *end = guarded_end(PAGE), *end_to_read = guarded_end(PAGE);
	size_t room, largest;
	for (room = 0; room <= WHOLE + 8; room++) {
		unsigned long whole = answered[RTNLC_OK];
		beside_model(calls, COUNT, room, LARGEST, 8, room % 2);
		must((answered[RTNLC_OK] - whole == COUNT) == (room >= WHOLE), "the room that it needs");
		at_the_end(end, end_to_read, room);
		for (largest = 16; largest <= WHOLE + 8; largest += 4)
			beside_model(calls, COUNT, room, largest, 8, false);
	}
	for (room = 0; room <= 8; room++)
		beside_model(calls, COUNT, LARGEST, LARGEST, (uint8_t)room, false);
	long_messages();
	must(answered[RTNLC_TOO_LONG], "messages that are too long");
	printf("%u rooms, %lu calls\n", WHOLE + 9, calls_made);
	return 0;
}
