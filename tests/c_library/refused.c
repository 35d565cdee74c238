/*
 * Refuses the allocations of rtnlc_check, rtnlc_show and rtnlc_show_json on each datagram of a
 * recording in turn: the first in one call, the second in the next, until a call asks for no more.
 * It is linked with --wrap for malloc, calloc, realloc and free, and says how many were refused.
 */
#include "refusing.h"

#define ROOM  (1 << 20)
#define PAINT 0xa5

static char out[ROOM], painted[ROOM];
static unsigned long blocks_before;

static void begin(unsigned long number)
{
	blocks_before = blocks;
	refuse(number);
}

/* Ends what begin began, and answers whether one was refused. Nothing is left allocated. */
static bool end(const char *what, size_t number)
{
	if (blocks != blocks_before)
		fail(what, number);
	return was_refused();
}

static void refuse_check(const struct datagram *one, const struct rtnlc_options *limits)
{
	struct rtnlc_checked whole = rtnlc_check(one->bytes, one->len, limits), found;
	unsigned long number = 0;
	bool is_again;
	do {
		begin(++number);
		found = rtnlc_check(one->bytes, one->len, limits);
		is_again = end("what a check leaves allocated", one->number);
		if (is_again && (found.code != RTNLC_NO_MEMORY || found.place || found.canonical))
			fail("a check whose allocation was refused", one->number);
	} while (is_again);
	if (found.code != whole.code || found.place != whole.place ||
	    found.canonical != whole.canonical)
		fail("a check behind refusals", one->number);
}

/* rtnlc_show or rtnlc_show_json. */
typedef struct rtnlc_shown shows(size_t, const uint8_t *, size_t, const struct rtnlc_options *,
                                 char *, size_t);

static void refuse_show(shows *show, const struct datagram *one,
                        const struct rtnlc_options *limits)
{
	struct rtnlc_shown whole = show(one->number, one->bytes, one->len, limits, NULL, 0), found;
	unsigned long number = 0;
	bool is_again;
	do {
		begin(++number);
		found = show(one->number, one->bytes, one->len, limits, out, ROOM);
		is_again = end("what a text leaves allocated", one->number);
		if (is_again &&
		    (found.code != RTNLC_NO_MEMORY || found.len || memcmp(out, painted, ROOM)))
			fail("a text whose allocation was refused", one->number);
	} while (is_again);
	if (found.code || found.len != whole.len)
		fail("a text behind refusals", one->number);
	memset(out, PAINT, found.len < ROOM ? found.len : ROOM);
	if (number < 2)
		fail("a text that takes no memory", one->number);
}

/* A whole life of a stream; each of its calls has its answer added. */
static uint8_t call_stream(const struct datagram *one, const struct rtnlc_options *limits)
{
	struct rtnlc_event *events = (struct rtnlc_event *)(void *)out;
	struct rtnlc_message first = rtnlc_message_at(one->bytes, one->len, 0, limits->big);
	struct rtnlc_stream stream;
	uint8_t request[RTNLC_REQUEST], sum = rtnlc_stream_new(&stream, limits);
	sum += rtnlc_stream_begin(&stream, first.kind, 0, first.seq, first.port, request,
	                          sizeof request)
	           .code;
	sum += rtnlc_request(first.kind, 0, first.seq, limits->big, request, sizeof request).code;
	sum += rtnlc_stream_feed(&stream, one->bytes, one->len, events, ROOM / sizeof *events).code;
	sum += rtnlc_stream_status(&stream).code + rtnlc_stream_abandon(&stream);
	return sum;
}

/* No other call, but those of a session, asks for any. */
static void call_others(const struct datagram *one, const struct rtnlc_options *limits)
{
	struct rtnlc_event *events = (struct rtnlc_event *)(void *)out;
	uint8_t sum = 0;
	begin(0);
	sum += rtnlc_scan(one->bytes, one->len, limits).code;
	sum += rtnlc_broken(one->bytes, one->len, limits).code;
	sum += rtnlc_tape(one->bytes, one->len, limits, events, ROOM / sizeof *events).code;
	sum += rtnlc_message_at(one->bytes, one->len, 0, limits->big).code;
	sum += rtnlc_attr_at(one->bytes, one->len, 0, limits->big).code;
	sum += rtnlc_hop_at(one->bytes, one->len, 0, limits->big).code;
	sum += rtnlc_find(one->bytes, one->len, 0, 1, limits->big).code;
	sum += call_stream(one, limits);
	sum += rtnlc_family_of(16).context + rtnlc_holds(RTNLC_LINK, 18, false).context;
	sum += rtnlc_type_name(16, (char *)out, ROOM).code;
	sum += rtnlc_attr_name(RTNLC_LINK, 66, (char *)out, ROOM).code;
	if (asked)
		fail("a call that asks for memory", one->number + sum * 0);
	memset(out, PAINT, ROOM);
}

int main(int count, char **words)
{
	struct rtnlc_options limits = { RTNLC_STANDARD_TOTAL, RTNLC_STANDARD_DATAGRAM,
		                            RTNLC_STANDARD_ENTRIES, RTNLC_STANDARD_DEPTH, false, { 0 } };
	struct datagram one = { NULL, 0, 0 };
	limits.big = count > 1 && strcmp(words[1], "big") == 0;
	memset(out, PAINT, ROOM);
	memset(painted, PAINT, ROOM);
	while (next_datagram(stdin, &one)) {
		refuse_check(&one, &limits);
		refuse_show(rtnlc_show, &one, &limits);
		refuse_show(rtnlc_show_json, &one, &limits);
		call_others(&one, &limits);
		free(one.bytes);
	}
	printf("%lu datagrams, %lu refusals\n", (unsigned long)one.number, refusals);
	return fflush(stdout) ? 3 : 0;
}
