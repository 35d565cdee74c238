/*
 * A dump over a source: its request, its end, and a whole one into the table of a session.
 */
#include "source.h"
#include "parts.h"

/* Sends the request of a dump that was begun; fails where it wasn't. */
static inline void dump_ask(const struct source *s, struct rtnlc_put put, const uint8_t *request)
{
	source_check(s, put.code, 0);
	if (send(s->socket, request, put.len, MSG_NOSIGNAL) < 0)
		source_fail(s, FAILED, "%s", strerror(errno));
}

/* Fails where the kernel refused the dump that has ended. */
static inline void dump_check(const struct source *s, struct rtnlc_status end)
{
	if (end.status < 0)
		source_fail(s, REFUSED, "refused: %s", strerror(-end.status));
	if (end.state == RTNLC_OVERRUN)
		source_fail(s, LOST, "lost datagrams");
}

/* One dump, fed until it has ended. */
static inline struct rtnlc_status dump_once(struct source *s, struct rtnlc_session *session,
                                            uint16_t kind, uint8_t family)
{
	uint8_t request[RTNLC_REQUEST];
	struct rtnlc_put put = rtnlc_session_begin(session, kind, family, ++s->seq, s->port, request,
	                                           sizeof request);
	struct rtnlc_fed fed = { .ended = false };
	dump_ask(s, put, request);
	while (!fed.ended && source_next(s, false)) {
		fed = rtnlc_session_feed(session, s->bytes, s->len);
		source_check(s, fed.code, fed.place);
	}
	return rtnlc_session_status(session);
}

/* Fills the table, all of it; again, at most ten times, where the kernel's changed meanwhile. */
static inline void dump_table(struct source *s, struct rtnlc_session *session, uint16_t kind,
                              uint8_t family)
{
	struct rtnlc_status end = dump_once(s, session, kind, family);
	int turn;
	for (turn = 0; turn < 10 && end.interrupted; turn++) {
		dump_check(s, end);
		end = dump_once(s, session, kind, family);
	}
	dump_check(s, end);
	if (end.interrupted)
		source_fail(s, FAILED, "interrupted");
	if (rtnlc_session_table(session, kind).missed > 0)
		source_fail(s, FAILED, "more entries than the table has room for");
}

/* Puts an entry, a whole message, into `entry`, which has room for a datagram. Answers its body: no
 * bytes where the table has no such entry. */
static inline struct part dump_entry(struct rtnlc_session *session, uint16_t kind, uint32_t index,
                                     uint8_t *entry)
{
	const struct rtnlc_put put =
	    rtnlc_session_entry(session, kind, index, entry, RTNLC_STANDARD_DATAGRAM);
	const size_t len = put.code == RTNLC_OK ? put.len - NLMSG_HDRLEN : 0;
	const struct part body = { entry + NLMSG_HDRLEN, len };
	return body;
}
