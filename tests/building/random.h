/*
 * Random calls: whole datagrams of the five families, with attributes of random numbers, flags and
 * lengths, and lists and next hops one in another. One seed always makes the same ones.
 */
#ifndef RANDOM_H
#define RANDOM_H

#include "calls.h"

#define MOST_CALLS 4096
#define POOL (1u << 17)

static uint64_t state = 88172645463325252ull;

static inline uint32_t chosen(uint32_t below)
{
	state ^= state << 13;
	state ^= state >> 7;
	state ^= state << 17;
	return (uint32_t)((state >> 11) % below);
}

/* Bytes of which payloads are pieces. */
static uint8_t pool[POOL];

static inline void seed(uint64_t with)
{
	size_t at;
	state ^= with * 0x9e3779b97f4a7c15ull;
	for (at = 0; at < POOL; at++)
		pool[at] = (uint8_t)chosen(256);
}

/* What an attribute holds where it stands, as docs/FORMAT.md has it in a table. */
enum place { IN_LINK, IN_ADDR, IN_ROUTE, IN_NEIGH, IN_RULE, IN_OTHER };
enum held { BYTES, LIST, HOPS };

static inline enum held held_by(enum place place, uint16_t type)
{
	uint16_t number = type & NUMBER;
	if (place == IN_ROUTE && number == 9)
		return HOPS;
	if ((place == IN_LINK && number == 18) || (place == IN_ROUTE && number == 8))
		return LIST;
	return type & NESTED ? LIST : BYTES;
}

struct made {
	struct call calls[MOST_CALLS];
	size_t count;
	size_t left; /* bytes that may still be put */
	uint32_t depth;
};

static inline size_t rounded(size_t len) { return (len + 3) & ~(size_t)3; }

static inline struct call *next_call(struct made *to, enum verb verb, size_t size)
{
	struct call *it = &to->calls[to->count++];
	memset(it, 0, sizeof *it);
	it->verb = verb;
	to->left -= size;
	return it;
}

static inline uint16_t random_type(void)
{
	static const uint16_t known[] = { 8, 9, 18, 1, 2, 3, 5, 0, 16383 };
	uint16_t type = chosen(3) ? (uint16_t)chosen(70) : (uint16_t)chosen(16384);
	if (!chosen(4))
		type = known[chosen(sizeof known / sizeof *known)];
	if (!chosen(3))
		type |= NESTED;
	return (uint16_t)(chosen(8) ? type : type | NET);
}

static inline size_t random_length(size_t most)
{
	size_t len = chosen(8) ? chosen(24) : chosen(64) ? chosen(400) : chosen(70000);
	return len < most ? len : most;
}

/* An attribute of bytes, by one of the calls that put them. */
static inline void random_bytes(struct made *to, uint16_t type)
{
	uint32_t way = chosen(10);
	size_t len = random_length(to->left - 8);
	struct call *it;
	if (way < 7 && to->left >= 16) {
		it = next_call(to, (enum verb)(U8 + way), 4 + rounded(width_of((enum verb)(U8 + way))));
		it->value = (uint64_t)chosen(UINT32_MAX) << 32 | chosen(UINT32_MAX);
	} else {
		len = len > 65530 ? 65530 : len;
		it = next_call(to, way == 7 ? TEXT : PUT, 4 + rounded(len + 1));
		it->bytes = pool + chosen((uint32_t)(POOL - len));
		it->len = len;
	}
	it->type = type;
}

static inline void random_list(struct made *to, enum place place, uint32_t level);

static inline void random_hops(struct made *to, uint32_t level)
{
	uint32_t count = chosen(4);
	while (count-- > 0 && to->left >= 16 && to->count + 64 < MOST_CALLS) {
		struct call *it = next_call(to, HOP, 8);
		it->hop_flags = (uint8_t)chosen(256);
		it->hops = (uint8_t)chosen(256);
		it->ifindex = (int32_t)((int64_t)chosen(UINT32_MAX) - INT32_MAX);
		random_list(to, IN_ROUTE, level + 2);
		next_call(to, CLOSE, 0);
	}
}

static inline void random_attribute(struct made *to, enum place place, uint32_t level)
{
	uint16_t type = random_type();
	enum held held = held_by(place, type);
	if (held == BYTES) {
		random_bytes(to, type);
		return;
	}
	if (level + (held == HOPS ? 2 : 1) > to->depth)
		return;
	next_call(to, OPEN, 4)->type = type;
	if (held == HOPS)
		random_hops(to, level);
	else
		random_list(to, IN_OTHER, level + 1);
	next_call(to, CLOSE, 0);
}

static inline void random_list(struct made *to, enum place place, uint32_t level)
{
	uint32_t count = chosen(chosen(3) ? 4 : 9);
	while (count-- > 0 && to->left >= 16 && to->count + 64 < MOST_CALLS)
		random_attribute(to, place, level);
}

/* NEW, DEL and SET of the five families: where their attributes stand, and their head's size. */
static const struct kind {
	uint16_t type;
	enum place place;
	size_t size;
} kinds[] = {
	{ 16, IN_LINK, 16 },  { 17, IN_LINK, 16 },  { 19, IN_LINK, 16 },  { 20, IN_ADDR, 8 },
	{ 21, IN_ADDR, 8 },   { 24, IN_ROUTE, 12 }, { 25, IN_ROUTE, 12 }, { 24, IN_ROUTE, 12 },
	{ 28, IN_NEIGH, 12 }, { 29, IN_NEIGH, 12 }, { 32, IN_RULE, 12 },  { 33, IN_RULE, 12 },
};
#define KINDS (sizeof kinds / sizeof *kinds)

/* Bytes of a head that are no field's, which are written as zeros: one of a link's head, three of
 * a neighbour's, two of a rule's. */
static inline void clear_unused(uint16_t type, uint8_t *head)
{
	if (type / 4 == 4)
		head[1] = 0;
	if (type / 4 == 7)
		head[1] = head[2] = head[3] = 0;
	if (type / 4 == 8)
		head[5] = head[6] = 0;
}

static inline struct call *random_head(struct made *to, const struct kind *kind)
{
	struct call *it = next_call(to, BEGIN, 16 + kind->size);
	size_t at;
	it->type = kind->type;
	it->flags = (uint16_t)chosen(65536);
	it->seq = chosen(UINT32_MAX);
	it->port = chosen(UINT32_MAX);
	it->head_len = kind->size;
	for (at = 0; at < kind->size; at++)
		it->head[at] = (uint8_t)chosen(256);
	return it;
}

/* A message of no family: of netlink itself, of a type that nobody knows, or a GET. */
static inline void random_message(struct made *to)
{
	static const uint16_t types[] = { 1, 2, 3, 4, 18, 22, 26, 30, 34, 36, 23, 27, 15, 65535 };
	size_t len = random_length(to->left - 40), least = 20;
	struct call *it = next_call(to, MESSAGE, 16 + rounded(len < least ? least : len));
	it->type = types[chosen(sizeof types / sizeof *types)];
	it->flags = (uint16_t)chosen(65536);
	it->seq = chosen(UINT32_MAX);
	it->port = chosen(UINT32_MAX);
	it->len = it->type == 2 || it->type / 4 * 4 + 2 == it->type ? len < least ? least : len : len;
	it->bytes = pool + chosen((uint32_t)(POOL - it->len));
}

/* A datagram of one message or more, of so many bytes at most. */
static inline void random_datagram(struct made *to, size_t most)
{
	uint32_t count = 1 + chosen(chosen(2) ? 1 : 4);
	to->count = 0;
	to->left = most;
	while (count-- > 0 && to->left >= 48 && to->count + 128 < MOST_CALLS) {
		const struct kind *kind = &kinds[chosen(KINDS)];
		if (!chosen(6)) {
			random_message(to);
			continue;
		}
		random_head(to, kind);
		random_list(to, kind->place, 0);
		next_call(to, END, 0);
	}
}

#endif
