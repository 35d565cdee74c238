/* What the programs over our library share: a dump into a table, and as a stream. How a message is
 * read stands beside the examples. */
#include "../../dump.h"
#include <linux/rtnetlink.h>
#include <rtnlc.h>
#include <stdbool.h>
#include <sys/socket.h>

#define SOURCE_BIG false
#include "../../../examples/c/parts.h"

static const struct rtnlc_options options = {
	.total = RTNLC_STANDARD_TOTAL, .datagram = LONGEST, .entries = 65536,
	.depth = RTNLC_STANDARD_DEPTH, .big = SOURCE_BIG,
};
static struct rtnlc_event events[LONGEST / 4];
static FILE *file;

static void check(uint8_t code, uint32_t place)
{
	if (code != RTNLC_OK) {
		fprintf(stderr, "%s at %u\n", rtnlc_code_name(code), (unsigned)place);
		exit(FAILED);
	}
}

/* The next datagram of a dump, which must be there. */
static size_t next_answer(void)
{
	size_t len = next(file);

	check(len ? RTNLC_OK : RTNLC_END, 0);
	return len;
}

static void complete(struct rtnlc_status status)
{
	if (!status.complete) {
		fprintf(stderr, "incomplete: %s\n", strerror(-status.status));
		exit(FAILED);
	}
}

static void dump(struct rtnlc_session *session, uint16_t kind, uint8_t family, uint32_t seq)
{
	uint8_t request[RTNLC_REQUEST];
	struct rtnlc_fed fed = { .ended = false };

	check(rtnlc_session_begin(session, kind, family, seq, PORT, request, sizeof request).code, 0);
	while (!fed.ended) {
		size_t len = next_answer();

		fed = rtnlc_session_feed(session, datagram, len);
		check(fed.code, fed.place);
	}
	complete(rtnlc_session_status(session));
}

/* The body of an entry, which stands in a buffer until the next; no bytes where there is none. */
static struct part entry(struct rtnlc_session *session, uint16_t kind, uint32_t index)
{
	static uint8_t message[LONGEST];
	struct rtnlc_put put = rtnlc_session_entry(session, kind, index, message, sizeof message);
	struct part body = { message + NLMSG_HDRLEN, put.code == RTNLC_OK ? put.len - NLMSG_HDRLEN : 0 };

	return body;
}

static void stream(struct rtnlc_stream *stream, uint16_t kind, uint8_t family, uint32_t seq,
                   void (*each)(struct part body))
{
	uint8_t request[RTNLC_REQUEST];
	struct rtnlc_fed fed = { .ended = false };

	check(rtnlc_stream_begin(stream, kind, family, seq, PORT, request, sizeof request).code, 0);
	while (!fed.ended) {
		size_t len = next_answer();

		fed = rtnlc_stream_feed(stream, datagram, len, events, LONGEST / 4);
		check(fed.code, fed.place);
		for (size_t at = 0; at < fed.events; at++)
			if (events[at].sort == RTNLC_MESSAGE)
				each(part_body(datagram, events + at));
	}
	complete(rtnlc_stream_status(stream));
}
