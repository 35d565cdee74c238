/*
 * A walk over a datagram by the cursors, rtnlc_family_of and rtnlc_holds alone. It keeps an event
 * for each head that it meets, up to the first fault, and what the head there says.
 */
#ifndef WALK_H
#define WALK_H

#include "lines.h"

#define LONGEST_CONTAINER 65532

struct walk {
	const uint8_t *bytes;
	size_t len, number;
	struct rtnlc_options limits;
	struct rtnlc_event *events; /* room for len / 4 + 1, more than there are heads */
	size_t count;
	uint64_t visits;
	struct rtnlc_broken_head broken; /* its place and its code are those of the fault */
};

/* A number of two or of four bytes of the datagram, in its order. */
static inline uint32_t number_at(const struct walk *w, uint32_t place, unsigned size)
{
	uint32_t found = 0;
	unsigned at;
	for (at = 0; at < size; at++)
		found |= (uint32_t)w->bytes[place + at] << 8 * (w->limits.big ? size - 1 - at : at);
	return found;
}

/* Ends at a head of a region that has so many bytes from there on. */
static inline bool stop_at(struct walk *w, uint32_t place, uint32_t left, uint8_t sort,
                           unsigned level, uint8_t code)
{
	struct rtnlc_broken_head *broken = &w->broken;
	bool is_message = sort == RTNLC_MESSAGE;
	broken->place = place;
	broken->left = left;
	broken->sort = sort;
	broken->level = (uint8_t)level;
	broken->code = code;
	broken->whole = left >= (is_message ? 16 : sort == RTNLC_NEXT_HOP ? 8 : 4);
	if (broken->whole) {
		broken->len = number_at(w, place, is_message ? 4 : 2);
		if (sort != RTNLC_NEXT_HOP)
			broken->number = (uint16_t)(number_at(w, place + (is_message ? 4 : 2), 2) %
			                            (is_message ? 65536 : 16384));
	}
	return false;
}

static inline struct rtnlc_event *met(struct walk *w, uint32_t place, uint32_t len, uint8_t sort,
                                     unsigned level)
{
	struct rtnlc_event *event = &w->events[w->count++];
	memset(event, 0, sizeof *event);
	event->place = place;
	event->len = len;
	event->sort = sort;
	event->level = (uint8_t)level;
	return event;
}

static inline bool walk_attrs(struct walk *w, uint32_t base, uint32_t len, uint8_t context,
                              unsigned level);

static inline bool walk_hops(struct walk *w, uint32_t base, uint32_t len, unsigned level)
{
	uint32_t at = 0;
	for (;;) {
		struct rtnlc_hop hop = rtnlc_hop_at(w->bytes + base, len, at, w->limits.big);
		if (hop.place != at ||
		    (hop.code && (hop.next != at || hop.len || hop.ifindex || hop.flags || hop.hops)))
			fail("fields of a next hop that is none", w->number);
		if (hop.code == RTNLC_END)
			return true;
		if (hop.code)
			return stop_at(w, base + at, len - at, RTNLC_NEXT_HOP, level, hop.code);
		w->visits += hop.next - at;
		met(w, base + at, hop.len, RTNLC_NEXT_HOP, level);
		if (!walk_attrs(w, base + at + 8, hop.len, RTNLC_ROUTE, level + 1))
			return false;
		at = hop.next;
	}
}

/* What an attribute holds, where it opens levels: no more bytes and no more levels than may be. */
static inline bool walk_held(struct walk *w, uint32_t place, uint32_t len, uint32_t left,
                             struct rtnlc_holds holds, unsigned level)
{
	if (holds.sort == RTNLC_BYTES)
		return true;
	if (4 + len > LONGEST_CONTAINER)
		return stop_at(w, place, left, RTNLC_BYTES, level, RTNLC_TOO_LONG);
	if (level + (holds.sort == RTNLC_HOPS ? 2 : 1) > w->limits.depth)
		return stop_at(w, place, left, RTNLC_BYTES, level, RTNLC_TOO_DEEP);
	if (holds.sort == RTNLC_HOPS)
		return walk_hops(w, place + 4, len, level + 1);
	return walk_attrs(w, place + 4, len, holds.context, level + 1);
}

static inline bool walk_attrs(struct walk *w, uint32_t base, uint32_t len, uint8_t context,
                              unsigned level)
{
	uint32_t at = 0;
	for (;;) {
		struct rtnlc_attr attr = rtnlc_attr_at(w->bytes + base, len, at, w->limits.big);
		struct rtnlc_holds holds;
		struct rtnlc_event *event;
		if (attr.place != at || (attr.code && (attr.next != at || attr.len || attr.number ||
		                                       attr.nested || attr.net)))
			fail("fields of an attribute that is none", w->number);
		if (attr.code == RTNLC_END)
			return true;
		if (attr.code)
			return stop_at(w, base + at, len - at, RTNLC_BYTES, level, attr.code);
		holds = rtnlc_holds(context, attr.number, attr.nested);
		w->visits += attr.next - at;
		event = met(w, base + at, attr.len, holds.sort, level);
		event->number = attr.number;
		event->nested = attr.nested;
		event->net = attr.net;
		if (!walk_held(w, base + at, attr.len, len - at, holds, level))
			return false;
		at = attr.next;
	}
}

static inline bool walk_messages(struct walk *w)
{
	uint32_t at = 0;
	for (;;) {
		struct rtnlc_message message = rtnlc_message_at(w->bytes, w->len, at, w->limits.big);
		struct rtnlc_family family = rtnlc_family_of(message.kind);
		if (message.place != at ||
		    (message.code && (message.next != at || message.len || message.seq || message.port ||
		                      message.kind || message.flags)))
			fail("fields of a message that is none", w->number);
		if (message.code == RTNLC_END)
			return true;
		if (message.code)
			return stop_at(w, at, (uint32_t)w->len - at, RTNLC_MESSAGE, 0, message.code);
		met(w, at, message.len, RTNLC_MESSAGE, 0)->number = message.kind;
		if (family.head_size && !walk_attrs(w, at + 16 + family.head_size,
		                                    message.len - family.head_size, family.context, 0))
			return false;
		at = message.next;
	}
}

/* Walks over a datagram of at most as many bytes as the limits say. */
static inline struct walk walked(const uint8_t *bytes, size_t len, size_t number,
                                 struct rtnlc_options limits)
{
	struct walk w;
	memset(&w, 0, sizeof w);
	w.bytes = bytes;
	w.len = len;
	w.number = number;
	w.limits = limits;
	w.events = (struct rtnlc_event *)taken((len / 4 + 1) * sizeof *w.events);
	if (len > limits.datagram)
		w.broken.code = RTNLC_TOO_LARGE;
	else
		walk_messages(&w);
	return w;
}

#endif
