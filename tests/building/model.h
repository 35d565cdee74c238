/*
 * A second builder, written from the header's words and docs/FORMAT.md alone: what each call is to
 * answer, and what is handed out in the end.
 */
#ifndef MODEL_H
#define MODEL_H

#include "random.h"

#define MOST_OPEN 34

struct open_head {
	size_t start;
	enum held holds; /* what stands behind it: LIST or HOPS */
	enum place place;
};

struct model {
	uint8_t *bytes;
	size_t len, room, largest, open, depth;
	bool big;
	uint8_t refusal;
	struct open_head heads[MOST_OPEN];
};

static inline void write_in(bool is_big, uint8_t *to, uint64_t value, size_t width)
{
	size_t at;
	for (at = 0; at < width; at++)
		to[is_big ? width - 1 - at : at] = (uint8_t)(value >> 8 * at);
}

static inline void write_number(const struct model *m, uint8_t *to, uint64_t value, size_t width)
{
	write_in(m->big, to, value, width);
}

static inline uint8_t lacks(const struct model *m, size_t len)
{
	if (len > m->room - m->len)
		return RTNLC_NO_ROOM;
	return m->len + len > m->largest ? RTNLC_TOO_LARGE : RTNLC_OK;
}

/* The payload of an attribute of bytes, and its length. */
static inline size_t payload_of(const struct call *it, bool big, uint8_t *to)
{
	size_t width = width_of(it->verb);
	if (width) {
		write_in(is_highest_first(it->verb, big), to, it->value, width);
		return width;
	}
	if (it->len)
		memcpy(to, it->bytes, it->len);
	to[it->len] = 0;
	return it->len + (it->verb == TEXT);
}

static inline uint8_t put_refusal(const struct model *m, const struct call *it, size_t len)
{
	const struct open_head *top = &m->heads[m->open - 1];
	if (!m->open)
		return RTNLC_NOTHING_OPEN;
	if (top->holds != LIST || held_by(top->place, it->type) != BYTES)
		return RTNLC_MISMATCH;
	return len > 65531 ? (uint8_t)RTNLC_TOO_LONG : lacks(m, 4 + rounded(len));
}

static inline uint8_t open_refusal(const struct model *m, const struct call *it)
{
	const struct open_head *top = &m->heads[m->open - 1];
	enum held held;
	if (!m->open)
		return RTNLC_NOTHING_OPEN;
	held = held_by(top->place, it->type);
	if (top->holds != LIST || held == BYTES)
		return RTNLC_MISMATCH;
	/* The message is the first head; the attributes of next hops lie two levels further down. */
	if (m->open + (held == HOPS) > m->depth)
		return RTNLC_TOO_DEEP;
	return lacks(m, 4);
}

static inline uint8_t hop_refusal(const struct model *m)
{
	if (!m->open)
		return RTNLC_NOTHING_OPEN;
	return m->heads[m->open - 1].holds == HOPS ? lacks(m, 8) : (uint8_t)RTNLC_MISMATCH;
}

/* The row of a message type, or none. */
static inline const struct kind *kind_of(uint16_t type)
{
	size_t at;
	for (at = 0; at < KINDS; at++)
		if (kinds[at].type == type)
			return &kinds[at];
	return NULL;
}

static inline uint8_t begin_refusal(const struct model *m, const struct call *it)
{
	const struct kind *kind = kind_of(it->type);
	if (m->open)
		return RTNLC_STILL_OPEN;
	if (!kind || kind->size != it->head_len)
		return RTNLC_MISMATCH;
	return lacks(m, 16 + kind->size);
}

/* How many bytes the body has at least of a message of no family. */
static inline size_t least_body(uint16_t type)
{
	static const uint16_t gets[] = { 18, 22, 26, 30, 34 };
	size_t at;
	for (at = 0; at < sizeof gets / sizeof *gets; at++)
		if (gets[at] == type)
			return 1;
	return type == 2 ? 20 : 0;
}

static inline uint8_t message_refusal(const struct model *m, const struct call *it)
{
	if (m->open)
		return RTNLC_STILL_OPEN;
	if (kind_of(it->type) || it->len < least_body(it->type))
		return RTNLC_MISMATCH;
	return 16 + it->len > 1048576 ? (uint8_t)RTNLC_TOO_LONG : lacks(m, 16 + rounded(it->len));
}

static inline uint8_t close_refusal(const struct model *m)
{
	if (m->open < 2)
		return RTNLC_NOTHING_OPEN;
	return m->len - m->heads[m->open - 1].start > 65532 ? RTNLC_TOO_LONG : RTNLC_OK;
}

static inline uint8_t refusal_of(const struct model *m, const struct call *it, size_t len)
{
	if (m->refusal)
		return m->refusal;
	switch (it->verb) {
	case BEGIN:
		return begin_refusal(m, it);
	case MESSAGE:
		return message_refusal(m, it);
	case OPEN:
		return open_refusal(m, it);
	case HOP:
		return hop_refusal(m);
	case CLOSE:
		return close_refusal(m);
	case END:
		return m->open ? m->open > 1 ? RTNLC_STILL_OPEN : RTNLC_OK : RTNLC_NOTHING_OPEN;
	default:
		return put_refusal(m, it, len);
	}
}

static inline void opened(struct model *m, enum held holds, enum place place)
{
	struct open_head *top = &m->heads[m->open++];
	/* The length is set when the head is closed. */
	memset(m->bytes + m->len, 0, 4);
	top->start = m->len;
	top->holds = holds;
	top->place = place;
}

static inline void header_begun(struct model *m, const struct call *it)
{
	uint8_t *to = m->bytes + m->len;
	write_number(m, to + 4, it->type, 2);
	write_number(m, to + 6, it->flags, 2);
	write_number(m, to + 8, it->seq, 4);
	write_number(m, to + 12, it->port, 4);
}

static inline void begun(struct model *m, const struct call *it)
{
	uint8_t *to = m->bytes + m->len;
	opened(m, LIST, kind_of(it->type)->place);
	header_begun(m, it);
	memcpy(to + 16, it->head, it->head_len);
	clear_unused(it->type, to + 16);
	m->len += 16 + it->head_len;
}

/* A message of no family, with zeros behind it. */
static inline void message_put(struct model *m, const struct call *it)
{
	uint8_t *to = m->bytes + m->len;
	memset(to, 0, 16 + rounded(it->len));
	header_begun(m, it);
	write_number(m, to, 16 + it->len, 4);
	if (it->len)
		memcpy(to + 16, it->bytes, it->len);
	m->len += 16 + rounded(it->len);
}

static inline void attribute_begun(struct model *m, const struct call *it)
{
	enum held held = held_by(m->heads[m->open - 1].place, it->type);
	opened(m, held, held == HOPS ? IN_ROUTE : IN_OTHER);
	write_number(m, m->bytes + m->len + 2, it->type, 2);
	m->len += 4;
}

static inline void hop_begun(struct model *m, const struct call *it)
{
	uint8_t *to = m->bytes + m->len;
	opened(m, LIST, IN_ROUTE);
	to[2] = it->hop_flags;
	to[3] = it->hops;
	write_number(m, to + 4, (uint32_t)it->ifindex, 4);
	m->len += 8;
}

static inline void closed(struct model *m, size_t width)
{
	size_t start = m->heads[--m->open].start;
	write_number(m, m->bytes + start, m->len - start, width);
}

static inline void attribute_put(struct model *m, const struct call *it, const uint8_t *payload,
                                 size_t len)
{
	uint8_t *to = m->bytes + m->len;
	memset(to, 0, 4 + rounded(len));
	write_number(m, to, 4 + len, 2);
	write_number(m, to + 2, it->type, 2);
	memcpy(to + 4, payload, len);
	m->len += 4 + rounded(len);
}

/* Makes a call, and answers what it is to answer. */
static inline uint8_t modelled(struct model *m, const struct call *it)
{
	static uint8_t payload[POOL];
	size_t len = it->verb >= PUT && it->verb <= BE64 ? payload_of(it, m->big, payload) : 0;
	m->refusal = refusal_of(m, it, len);
	if (m->refusal)
		return m->refusal;
	if (it->verb == BEGIN)
		begun(m, it);
	else if (it->verb == MESSAGE)
		message_put(m, it);
	else if (it->verb == OPEN)
		attribute_begun(m, it);
	else if (it->verb == HOP)
		hop_begun(m, it);
	else if (it->verb == CLOSE || it->verb == END)
		closed(m, it->verb == END ? 4 : 2);
	else
		attribute_put(m, it, payload, len);
	return RTNLC_OK;
}

#endif
