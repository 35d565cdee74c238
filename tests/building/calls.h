/*
 * Calls of the builder as values: a message is a list of them, and so is a tree of attributes.
 */
#ifndef CALLS_H
#define CALLS_H

#include <rtnlc.h>
#include <stdio.h>
#include <stdlib.h>
#include <string.h>

#define NESTED 0x8000u
#define NET 0x4000u
#define NUMBER 0x3fffu

enum verb {
	BEGIN,
	PUT,
	TEXT,
	U8,
	U16,
	U32,
	U64,
	BE16,
	BE32,
	BE64,
	OPEN,
	HOP,
	CLOSE,
	END,
	MESSAGE /* of no family */
};

/* A call of the builder. What its verb has no use for is 0. */
struct call {
	enum verb verb;
	uint16_t type; /* of a message; or an attribute's number with its two flag bits */
	uint16_t flags;
	uint32_t seq, port;
	uint8_t head[20]; /* of a message's body */
	size_t head_len;
	const uint8_t *bytes; /* a payload, or the body of a message of no family */
	size_t len;
	uint64_t value; /* a number that is put */
	uint8_t hop_flags, hops;
	int32_t ifindex;
};

/* How many bytes a call has that puts a number; 0 of other calls. */
static inline size_t width_of(enum verb verb)
{
	static const uint8_t widths[] = { 1, 2, 4, 8, 2, 4, 8 };
	return verb >= U8 && verb <= BE64 ? widths[verb - U8] : 0;
}

/* Whether its bytes have the highest first, of a builder in this order. */
static inline bool is_highest_first(enum verb verb, bool big) { return big || verb >= BE16; }

static inline uint8_t number_put(struct rtnlc_builder *b, const struct call *it)
{
	switch (it->verb) {
	case U8:
		return rtnlc_builder_put_u8(b, it->type, (uint8_t)it->value);
	case U16:
		return rtnlc_builder_put_u16(b, it->type, (uint16_t)it->value);
	case U32:
		return rtnlc_builder_put_u32(b, it->type, (uint32_t)it->value);
	case U64:
		return rtnlc_builder_put_u64(b, it->type, it->value);
	case BE16:
		return rtnlc_builder_put_be16(b, it->type, (uint16_t)it->value);
	case BE32:
		return rtnlc_builder_put_be32(b, it->type, (uint32_t)it->value);
	default:
		return rtnlc_builder_put_be64(b, it->type, it->value);
	}
}

/* Makes a call, and answers its code. */
static inline uint8_t called(struct rtnlc_builder *b, const struct call *it)
{
	switch (it->verb) {
	case BEGIN:
		return rtnlc_builder_begin(b, it->type, it->flags, it->seq, it->port, it->head,
		                           it->head_len);
	case MESSAGE:
		return rtnlc_builder_message(b, it->type, it->flags, it->seq, it->port, it->bytes,
		                             it->len);
	case PUT:
		return rtnlc_builder_put(b, it->type, it->bytes, it->len);
	case TEXT:
		return rtnlc_builder_put_text(b, it->type, (const char *)it->bytes, it->len);
	case OPEN:
		return rtnlc_builder_open(b, it->type);
	case HOP:
		return rtnlc_builder_open_hop(b, it->hop_flags, it->hops, it->ifindex);
	case CLOSE:
		return rtnlc_builder_close(b);
	case END:
		return rtnlc_builder_end(b);
	default:
		return number_put(b, it);
	}
}

static inline void must(int is_so, const char *what)
{
	if (is_so)
		return;
	fprintf(stderr, "failed: %s\n", what);
	exit(1);
}

#endif
