/* Reads a dump of routes of any length as a stream, which keeps none, and prints where each leads.
 * cc stream.c $(pkg-config --cflags --libs rtnlc) -o stream && ./stream [SOCKET] */
#include "dump.h"

/* A default route has no RTA_DST, one with many next hops no RTA_OIF. */
static void print_route(struct part body)
{
	const struct part oif = part_find(part_attrs(body, RTM_NEWROUTE), RTA_OIF);
	char destination[PART_TEXT], index[PART_TEXT];
	printf("%s oif %s\n", part_destination(body, destination), part_number(oif, index));
}

int main(int count, char **words)
{
	static struct rtnlc_event events[RTNLC_STANDARD_DATAGRAM / 4];
	static struct source s = { .program = "stream" };
	struct rtnlc_fed fed = { .ended = false };
	uint8_t request[RTNLC_REQUEST];
	struct rtnlc_stream stream;
	struct rtnlc_put put;
	source_open(&s, count, words, 0);
	source_check(&s, rtnlc_stream_new(&stream, &source_options), 0);
	put = rtnlc_stream_begin(&stream, RTM_GETROUTE, 0, ++s.seq, s.port, request, sizeof request);
	dump_ask(&s, put, request);
	while (!fed.ended && source_next(&s, false)) {
		fed = rtnlc_stream_feed(&stream, s.bytes, s.len, events, RTNLC_STANDARD_DATAGRAM / 4);
		source_check(&s, fed.code, fed.place);
		for (size_t at = 0; at < fed.events; at++)
			if (events[at].sort == RTNLC_MESSAGE)
				print_route(part_body(s.bytes, events + at));
	}
	dump_check(&s, rtnlc_stream_status(&stream));
	if (rtnlc_stream_status(&stream).interrupted)
		source_fail(&s, FAILED, "interrupted"); /* what was handed out can't be taken back */
	return source_close(&s);
}
