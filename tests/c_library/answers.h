/*
 * What answers are, and what several programs feed: room that ends at a page that can't be
 * touched, the end of a dump, and a stream whose dump waits.
 */
#ifndef ANSWERS_H
#define ANSWERS_H

#include "guarded.h"
#include "made.h"

#define SEVENTH 7

static const uint8_t done[20] = { 20, 0, 0, 0, 3, 0, 2, 0, 1, 0, 0, 0, 2 };
static struct rtnlc_event events[64];
static uint8_t request[RTNLC_REQUEST];
static uint8_t *out_end;

static inline void must(bool holds, const char *what)
{
	if (!holds)
		fail(what, 0);
}

static inline bool is_same(const void *one, const void *other, size_t size)
{
	return memcmp(one, other, size) == 0;
}

static inline bool is_put(struct rtnlc_put put, size_t len, uint8_t code)
{
	return put.len == len && put.code == code;
}

/* Whether nothing was taken, for this reason. */
static inline bool is_untaken(struct rtnlc_fed fed, uint8_t code)
{
	return fed.code == code && !fed.events && !fed.items && !fed.ignored && !fed.place &&
	       !fed.ended;
}

/* Whether a status tells nothing, for this reason. */
static inline bool is_nothing(struct rtnlc_status it, uint8_t code)
{
	return it.code == code && !it.received && !it.visits && !it.ignored && !it.seq && !it.port &&
	       !it.status && !it.kind && !it.family && !it.state && !it.damaged && !it.interrupted &&
	       !it.complete;
}

/* A stream whose dump waits, and has taken a route. */
static inline struct rtnlc_stream waiting(void)
{
	struct rtnlc_stream it;
	size_t len;
	uint8_t *bytes = hops_of(1, &len);
	struct rtnlc_fed fed;
	put_number(bytes + 8, 4, SEVENTH);
	must(rtnlc_stream_new(&it, NULL) == RTNLC_OK, "a stream");
	must(is_put(rtnlc_stream_begin(&it, 25, 2, SEVENTH, 0, request, 28), 28, RTNLC_OK), "a dump");
	fed = rtnlc_stream_feed(&it, bytes, len, events, 64);
	must(fed.items == 1 && fed.events == 3 && it.visits == 20 && it.received == 40, "a route");
	free(bytes);
	return it;
}

#endif
