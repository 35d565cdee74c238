/* Keeps a table current by a mirror of the C library, and says what came of it: how many entries
 * there are, how many were added, changed and removed, and how many bytes of the heap are taken.
 * usage: mirror_rtnlc read|before|told|quiet FILE, as dump.h has it: a dump, and notifications
 * behind it. By `read` nothing is made of it; by `told` the mirror says what each message changed,
 * by `before` with the entry before it; by `quiet` it doesn't. */
#include "dump.h"
#include "heap.h"
#include <linux/rtnetlink.h>
#include <rtnlc.h>
#include <stdbool.h>

#define WAITING 16

static const struct rtnlc_options options = {
	.total = RTNLC_STANDARD_TOTAL, .datagram = LONGEST, .entries = 65536,
	.depth = RTNLC_STANDARD_DEPTH, .seed = { 1 },
};
static struct rtnlc_change changes[LONGEST / 16];
static uint8_t entries[LONGEST], request[RTNLC_REQUEST];
/* How many changes, and how many bytes of the entries before them, the mirror may put. */
static size_t told, before;

/* By effect. */
static unsigned long counts[RTNLC_WAITS + 1];

static bool feed(struct rtnlc_mirror *mirror, size_t len)
{
	const struct rtnlc_heard heard =
	    rtnlc_mirror_feed(mirror, datagram, len, changes, told, entries, before);
	size_t at;

	for (at = 0; at < heard.changes; at++)
		counts[changes[at].effect]++;
	return heard.code == RTNLC_OK;
}

static int keep(FILE *file)
{
	struct rtnlc_mirror mirror = { 0 };
	const uint16_t kind = first_kind(file);
	const size_t begun = on_heap();
	struct rtnlc_mirrored table;
	size_t len;

	if (rtnlc_mirror_new(&mirror, &options, WAITING) ||
	    rtnlc_mirror_begin(&mirror, kind, 0, SEQ, PORT, request, sizeof(request)).code)
		return FAILED;
	while ((len = next(file)))
		if (!feed(&mirror, len))
			return FAILED;
	table = rtnlc_mirror_table(&mirror, kind);
	printf("%u %lu %lu %lu %zu\n", table.count, counts[RTNLC_ADDED], counts[RTNLC_CHANGED],
	       counts[RTNLC_REMOVED], on_heap() - begun);
	rtnlc_mirror_free(&mirror);
	return table.stale == RTNLC_CURRENT ? 0 : FAILED;
}

int main(int argc, char **argv)
{
	FILE *file = opened(argc > 2 ? argv[2] : NULL);

	if (!strcmp(argv[1], "read"))
		return printf("%lu bytes\n", read_all(file)) < 0 ? FAILED : 0;
	before = strcmp(argv[1], "before") ? 0 : LONGEST;
	told = strcmp(argv[1], "quiet") ? LONGEST / 16 : 0;
	return keep(file);
}
