/* Reads a dump by the C library, and says what came of it.
 * usage: dumps_rtnlc read|stream|routes|session FILE, as dump.h has it. By `read` nothing is made
 * of it; by `stream` it goes through a stream; by `routes` too, and what each route holds is
 * looked at; by `session` it goes into the table of a session. */
#include "dump.h"
#include <linux/rtnetlink.h>
#include <rtnlc.h>
#include <stdbool.h>

/* The type that asks for the entries of a NEW. */
#define GET(kind) ((kind) + (RTM_GETLINK - RTM_NEWLINK))

static const struct rtnlc_options options = {
	.total = 1099511627776, .datagram = LONGEST, .entries = 65536,
	.depth = RTNLC_STANDARD_DEPTH,
};
static uint8_t request[RTNLC_REQUEST];

/* What of a route is kept until the next: its first attribute of each number. */
static const struct rtnlc_event *attributes[RTA_MAX + 1], *metrics[RTAX_MAX + 1];
static unsigned long count;

static uint32_t number(const struct rtnlc_event *event)
{
	uint32_t value = 0;

	if (event)
		memcpy(&value, datagram + event->place + 4, sizeof(value));
	return value;
}

/* Whether an attribute of a route, outside its next hops, has the length that its number calls
 * for. */
static bool keep_attribute(const struct rtnlc_event *event)
{
	if (event->number > RTA_MAX)
		return true;
	switch (event->number) {
	case RTA_DST:
	case RTA_SRC:
	case RTA_OIF:
	case RTA_GATEWAY:
	case RTA_PRIORITY:
	case RTA_PREFSRC:
	case RTA_FLOW:
	case RTA_TABLE:
		if (event->len != sizeof(uint32_t))
			return false;
	}
	if (!attributes[event->number])
		attributes[event->number] = event;
	return true;
}

static bool keep_metric(const struct rtnlc_event *event)
{
	if (event->number > RTAX_MAX)
		return true;
	if (event->len != sizeof(uint32_t))
		return false;
	if (!metrics[event->number])
		metrics[event->number] = event;
	return true;
}

static void look(void)
{
	count += number(attributes[RTA_DST]) + number(attributes[RTA_OIF]) + number(metrics[RTAX_MTU]);
	memset(attributes, 0, sizeof(attributes));
	memset(metrics, 0, sizeof(metrics));
}

/* The events of a datagram's items: each route's, and behind it those of the heads in it. */
static bool look_at_all(const struct rtnlc_event *at, size_t events)
{
	const struct rtnlc_event *end = at + events;
	bool in_metrics = false;

	while (at < end) {
		for (at++; at < end && at->sort != RTNLC_MESSAGE; at++) {
			if (at->level == 0)
				in_metrics = at->number == RTA_METRICS;
			if (at->level == 0 ? !keep_attribute(at) : in_metrics && at->level == 1 && !keep_metric(at))
				return false;
		}
		look();
	}
	return true;
}

static int stream(FILE *file, bool looks)
{
	static struct rtnlc_event events[LONGEST / 4];
	struct rtnlc_stream stream;
	struct rtnlc_fed fed = { .code = rtnlc_stream_new(&stream, &options) };
	unsigned long items = 0;
	size_t len;

	if (rtnlc_stream_begin(&stream, GET(first_kind(file)), 0, SEQ, PORT, request,
	                       sizeof(request)).code)
		return FAILED;
	while (fed.code == RTNLC_OK && !fed.ended && (len = next(file))) {
		fed = rtnlc_stream_feed(&stream, datagram, len, events, LONGEST / 4);
		items += fed.items;
		if (looks && !look_at_all(events, fed.events))
			return FAILED;
	}
	printf("%lu entries, %lu\n", items, count);
	return rtnlc_stream_status(&stream).complete ? 0 : FAILED;
}

static int session(FILE *file)
{
	struct rtnlc_session session = { 0 };
	struct rtnlc_fed fed = { .code = rtnlc_session_new(&session, &options) };
	uint16_t kind = first_kind(file);
	bool complete;
	size_t len;

	if (rtnlc_session_begin(&session, GET(kind), 0, SEQ, PORT, request, sizeof(request)).code)
		return FAILED;
	while (fed.code == RTNLC_OK && !fed.ended && (len = next(file)))
		fed = rtnlc_session_feed(&session, datagram, len);
	printf("%u entries\n", rtnlc_session_table(&session, kind).count);
	complete = rtnlc_session_status(&session).complete;
	rtnlc_session_free(&session);
	return complete ? 0 : FAILED;
}

int main(int argc, char **argv)
{
	FILE *file = opened(argc > 2 ? argv[2] : NULL);

	if (!strcmp(argv[1], "session"))
		return session(file);
	if (!strcmp(argv[1], "read"))
		return printf("%lu bytes\n", read_all(file)) < 0 ? FAILED : 0;
	return stream(file, !strcmp(argv[1], "routes"));
}
