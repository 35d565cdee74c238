/*
 * Dumps of ten thousand and of a million routes, in constant space: each datagram is made, fed to
 * a stream and gone, and the destination of each route is read in the events that are handed out.
 * Its memory may grow by a hundredth of what it was; the routes of a million have 43 MiB.
 */
#include "lines.h"
#include <sys/resource.h>

#define ROOM   16384
#define ROUTES 300
#define ROUTE  44
#define NEW_ROUTE 24 /* RTM_NEWROUTE */

static struct rtnlc_event events[ROOM];
static uint8_t bytes[ROUTES * ROUTE];

/* An IPv4 route whose destination lies in its last four bytes, of sequence number 1 and port 2. */
static const uint8_t route[ROUTE] = {
	44, 0, 0, 0, 24, 0, 2, 0, 1, 0, 0, 0, 2, 0, 0, 0, 2, 32, 0, 0, 254, 3, 0, 1, 0, 0, 0, 0,
	8,  0, 4, 0, 1,  0, 0, 0, 8, 0, 1, 0, 0, 0, 0, 0,
};
static const uint8_t done[20] = { 20, 0, 0, 0, 3, 0, 2, 0, 1, 0, 0, 0, 2 };

static uint32_t number_at(const uint8_t *at)
{
	return (uint32_t)at[0] << 24 | (uint32_t)at[1] << 16 | (uint32_t)at[2] << 8 | at[3];
}

/* Puts as many routes as fit, from one on up to another, and answers how many bytes they have. */
static size_t put_routes(uint32_t from, uint32_t to)
{
	size_t size = 0, at;
	for (; size < sizeof bytes && from < to; size += ROUTE, from++) {
		memcpy(bytes + size, route, ROUTE);
		for (at = 0; at < 4; at++)
			bytes[size + ROUTE - 1 - at] = (uint8_t)(from >> 8 * at);
	}
	return size;
}

/* The sum of the destinations among the events of the routes. */
static uint64_t destinations(size_t count)
{
	uint64_t sum = 0;
	size_t at;
	for (at = 0; at < count; at++)
		if (events[at].sort == RTNLC_BYTES && events[at].level == 0 && events[at].number == 1)
			sum += number_at(bytes + events[at].place + 4);
	return sum;
}

/* A dump of so many routes; the bytes of memory that the program has had at most, in KiB. */
static long routes(uint32_t count)
{
	struct rtnlc_stream dump;
	struct rtnlc_fed fed;
	struct rusage usage;
	uint64_t sum = 0, items = 0;
	uint32_t next;
	uint8_t request[RTNLC_REQUEST];
	if (rtnlc_stream_new(&dump, NULL) ||
	    rtnlc_stream_begin(&dump, NEW_ROUTE, 2, 1, 2, request, sizeof request).code)
		fail("a beginning", count);
	for (next = 0; next < count; next += fed.items) {
		size_t size = put_routes(next, count);
		fed = rtnlc_stream_feed(&dump, bytes, size, events, ROOM);
		if (fed.code || fed.ended || fed.ignored || fed.events != 3 * (size / ROUTE) || !fed.items)
			fail("routes", next);
		items += fed.items;
		sum += destinations(fed.events);
	}
	fed = rtnlc_stream_feed(&dump, done, sizeof done, events, ROOM);
	if (fed.code || !fed.ended || !rtnlc_stream_status(&dump).complete)
		fail("the end", count);
	if (items != count || sum != (uint64_t)count * (count - 1) / 2)
		fail("all routes", count);
	if (dump.received != (uint64_t)count * ROUTE + sizeof done ||
	    dump.visits != (uint64_t)count * 16)
		fail("the counts", count);
	getrusage(RUSAGE_SELF, &usage);
	return usage.ru_maxrss;
}

int main(void)
{
	long before = routes(10000), after = routes(1000000);
	printf("%ld KiB behind ten thousand routes, %ld behind a million\n", before, after);
	return fflush(stdout) || after - before > before / 100;
}
