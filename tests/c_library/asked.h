/*
 * What the programs over a dump share: what is asked of it, what must hold, and a sum of what is
 * answered.
 */
#ifndef ASKED_H
#define ASKED_H

#include "lines.h"

/* The first arguments: the type of the entries, the sequence number and the port id. */
static inline void read_asked(char **word, uint16_t *kind, uint32_t *seq, uint32_t *port)
{
	*kind = (uint16_t)strtoul(word[1], NULL, 10);
	*seq = (uint32_t)strtoul(word[2], NULL, 10);
	*port = (uint32_t)strtoul(word[3], NULL, 10);
}

static inline void must(bool holds, const char *what, size_t number)
{
	if (!holds)
		fail(what, number);
}

/* A sum of bytes in which their order counts. */
static inline uint64_t added(uint64_t sum, const void *block, size_t size)
{
	const uint8_t *bytes = (const uint8_t *)block;
	for (; size; size--)
		sum = (sum ^ *bytes++) * 1099511628211u;
	return sum;
}

#endif
