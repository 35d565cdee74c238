/*
 * The words of the library: each code of the header has a name of its own, and any other number
 * one that none of them has. It prints the version that is linked, which is the header's.
 */
#include "lines.h"

static const uint8_t codes[] = {
	RTNLC_OK,        RTNLC_CUT,       RTNLC_BAD_LENGTH,  RTNLC_SHORT_BODY, RTNLC_TOO_LONG,
	RTNLC_TOO_DEEP,  RTNLC_TOO_LARGE, RTNLC_TOTAL,       RTNLC_NOT_WAITING, RTNLC_BUSY,
	RTNLC_SAME_SEQ,  RTNLC_MISMATCH,  RTNLC_BAD_LIMIT,   RTNLC_NO_MEMORY,  RTNLC_NO_ROOM,
	RTNLC_NO_STREAM, RTNLC_NO_KIND,   RTNLC_NO_SESSION,  RTNLC_NOTHING_OPEN, RTNLC_STILL_OPEN,
	RTNLC_NO_BUILDER, RTNLC_NO_SEED,  RTNLC_NO_MIRROR,   RTNLC_END,
};

/* The names of the faults, as docs/FORMAT.md has them. */
static const char *const faults[] = { "cut",      "bad length", "short body", "too long",
	                                  "too deep", "too large",  "total" };

static bool is_listed(unsigned code)
{
	return memchr(codes, (int)code, sizeof codes) != NULL;
}

int main(void)
{
	unsigned one, other;
	for (one = 0; one < 256; one++) {
		const char *name = rtnlc_code_name((uint8_t)one);
		if (!name || !name[0] || name != rtnlc_code_name((uint8_t)one))
			fail("the name of a code", one);
		for (other = 0; other < one; other++) {
			bool is_same = !strcmp(name, rtnlc_code_name((uint8_t)other));
			if (is_same != (!is_listed(one) && !is_listed(other)))
				fail("names of two codes", one);
		}
	}
	for (one = 0; one < sizeof faults / sizeof *faults; one++)
		if (strcmp(rtnlc_code_name((uint8_t)(one + 1)), faults[one]))
			fail("the name of a fault", one + 1);
	if (strcmp(rtnlc_version(), rtnlc_proved() ? RTNLC_VERSION : RTNLC_VERSION "+unproved"))
		fail("the version", 0);
	puts(RTNLC_VERSION);
	return fflush(stdout) ? 3 : 0;
}
