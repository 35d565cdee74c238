/*
 * Datagrams that are made here, lowest byte first.
 */
#ifndef MADE_H
#define MADE_H

#include "lines.h"

#define LINK_HEAD  32 /* the header of a message and the head of a link */
#define ROUTE_HEAD 28 /* and of a route */

static inline void put_number(uint8_t *to, size_t bytes, uint32_t number)
{
	size_t at;
	for (at = 0; at < bytes; at++)
		to[at] = (uint8_t)(number >> (8 * at));
}

/* The header of a message of this type and length. */
static inline void put_header(uint8_t *to, uint32_t len, uint16_t kind)
{
	memset(to, 0, 16);
	put_number(to, 4, len);
	put_number(to + 4, 2, kind);
}

static inline void put_attr(uint8_t *to, uint32_t len, uint16_t number)
{
	put_number(to, 2, len);
	put_number(to + 2, 2, number);
}

/* A link of so many bytes in all, whose only attribute, of this number, has the rest, where
 * there is any. */
static inline uint8_t *link_with(size_t len, uint16_t number)
{
	uint8_t *bytes = (uint8_t *)taken(len);
	memset(bytes, 0, len);
	put_header(bytes, (uint32_t)len, 16);
	if (len > LINK_HEAD)
		put_attr(bytes + LINK_HEAD, (uint32_t)(len - LINK_HEAD), number);
	return bytes;
}

/* A link with so many containers in one another; the innermost is empty. */
static inline uint8_t *chain_of(size_t levels, size_t *len)
{
	uint8_t *bytes;
	size_t at;
	*len = LINK_HEAD + 4 * levels;
	bytes = link_with(*len, 0x8001);
	for (at = 0; at < levels; at++)
		put_attr(bytes + LINK_HEAD + 4 * at, (uint32_t)(4 * (levels - at)), 0x8001);
	return bytes;
}

/* A route with so many next hops in one another, each two levels above the last; the innermost
 * is empty. */
static inline uint8_t *hops_of(size_t count, size_t *len)
{
	uint8_t *bytes;
	size_t at;
	*len = ROUTE_HEAD + 12 * count;
	bytes = (uint8_t *)taken(*len);
	memset(bytes, 0, *len);
	put_header(bytes, (uint32_t)*len, 24);
	for (at = ROUTE_HEAD; at < *len; at += 12) {
		put_attr(bytes + at, (uint32_t)(*len - at), 9);
		put_number(bytes + at + 4, 2, (uint32_t)(*len - at - 4));
	}
	return bytes;
}

#endif
