/* Counts the answers that are other than what is expected of them, and says which. */
#ifndef EXPECT_H
#define EXPECT_H

#include <stddef.h>
#include <stdio.h>

static size_t failures;

static inline void expect(const char *what, unsigned long found, unsigned long wanted)
{
	if (found == wanted)
		return;
	failures++;
	fprintf(stderr, "%s: expected %lu, found %lu\n", what, wanted, found);
}

#endif
