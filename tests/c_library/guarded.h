/*
 * Memory that ends at a page which can't be touched: whatever reads or writes behind a block
 * there is stopped by a signal.
 */
#ifndef GUARDED_H
#define GUARDED_H

#include "lines.h"
#include <sys/mman.h>

#define PAGE ((size_t)4096)

/* The end of so many bytes, which is that of their page. */
static inline uint8_t *guarded_end(size_t size)
{
	size_t whole = (size + PAGE - 1) / PAGE * PAGE;
	uint8_t *start = (uint8_t *)mmap(NULL, whole + PAGE, PROT_READ | PROT_WRITE,
	                                 MAP_PRIVATE | MAP_ANONYMOUS, -1, 0);
	if (start == (uint8_t *)MAP_FAILED || mprotect(start + whole, PAGE, PROT_NONE))
		exit(4);
	return start + whole;
}

#define PAINT 0xa5

/* Whether nothing has touched these bytes since they were painted. */
static inline bool is_painted(const void *block, size_t size)
{
	const uint8_t *bytes = (const uint8_t *)block;
	size_t at;
	for (at = 0; at < size; at++)
		if (bytes[at] != PAINT)
			return false;
	return true;
}

#endif
