/*
 * A request that changes something, and the kernel's acknowledgement of it (netlink(7), NLM_F_ACK):
 * an ERROR of its sequence number, whose code is 0.
 */
#include "source.h"

/* Ends a program that was called wrongly. */
__attribute__((noreturn)) static inline void change_misused(const char *usage)
{
	fprintf(stderr, "usage: %s\n", usage);
	exit(FAILED);
}

/* Begins the next request, which asks for an acknowledgement, in a buffer. What is refused, here
 * and behind, change_end says. */
static inline struct rtnlc_builder change_begin(struct source *s, uint8_t *out, size_t room,
                                                uint16_t kind, uint16_t flags, const void *head,
                                                size_t len)
{
	struct rtnlc_builder b;
	flags |= NLM_F_REQUEST | NLM_F_ACK;
	source_check(s, rtnlc_builder_new(&b, &source_options, out, room), 0);
	rtnlc_builder_begin(&b, kind, flags, ++s->seq, s->port, head, len);
	return b;
}

/* Whether the datagram answers the last request; fails where the kernel refused that. */
static inline bool change_is_answered(const struct source *s)
{
	const struct rtnlc_scanned scanned = rtnlc_scan(s->bytes, s->len, &source_options);
	struct rtnlc_message it = { 0 };
	int32_t error;
	source_check(s, scanned.code, scanned.place);
	do {
		it = rtnlc_message_at(s->bytes, s->len, it.next, SOURCE_BIG);
		if (it.code != RTNLC_OK)
			return false;
	} while (it.kind != NLMSG_ERROR || it.seq != s->seq);
	memcpy(&error, s->bytes + it.place + NLMSG_HDRLEN, sizeof error);
	if (error != 0)
		source_fail(s, REFUSED, "refused: %s", strerror(-error));
	return true;
}

/* Sends a request, and waits until the kernel has acknowledged it. */
static inline void change_ask(struct source *s, struct rtnlc_put put, const uint8_t *request)
{
	if (put.code != RTNLC_OK)
		source_fail(s, FAILED, "%s", rtnlc_code_name(put.code));
	if (send(s->socket, request, put.len, MSG_NOSIGNAL) < 0)
		source_fail(s, FAILED, "%s", strerror(errno));
	while (source_next(s, false) && !change_is_answered(s))
		continue;
}

/* Ends the request that was begun, and asks it. */
static inline void change_end(struct source *s, struct rtnlc_builder *b)
{
	rtnlc_builder_end(b);
	change_ask(s, rtnlc_builder_finish(b), b->out);
}
