/*
 * Refuses each allocation of the calls on a mirror in turn. A call whose allocation is refused says
 * so and leaves what the header says; then the tables are dumped anew, and are current with the
 * entries that they should have. Nothing is left allocated. It says how many were refused.
 */
#include "mirrored.h"
#include "refusing.h"

#define DONE_9 "14000000 0300 0200 09000000 39300000 00000000"
#define ITEM_9                                                                                     \
	"30000000 1c00 0200 09000000 39300000 07000000 03000000 02000000 0a000200 02000000 00010000 "  \
	"08000900 02000000"

/* A step of a mirror: the digits of a datagram, or a beginning where there are none. */
struct step {
	const char *text;
	uint16_t kind;
	uint8_t family;
	uint32_t seq;
};

/* Items, changes that wait, what tells them in the end, each effect, and a dump that is given up
 * while changes wait. */
static const struct step steps[] = {
	{ NULL, 16, 0, 1 },
	{ FIRST SECOND, 0, 0, 0 },
	{ THIRD_TOLD FIRST_GONE, 0, 0, 0 },
	{ DONE, 0, 0, 0 },
	{ FIRST_TOLD, 0, 0, 0 },
	{ SECOND_AGAIN FIRST_GONE FIRST_TOLD, 0, 0, 0 },
	{ NULL, 28, 7, 2 },
	{ STATION_MOVED, 0, 0, 0 },
	{ DONE_2, 0, 0, 0 },
	{ STATION_MOVED STATION_GONE STATION_MOVED, 0, 0, 0 },
	{ NULL, 28, 7, 3 },
	{ STATION_GONE STATION_MOVED, 0, 0, 0 },
	{ NULL, 28, 7, 4 },
	{ NULL, 24, 0, 5 },
	{ ROUTE_TOLD, 0, 0, 0 },
	{ NULL, 24, 0, 6 },
	{ REPLACED ROUTE_TOLD, 0, 0, 0 },
};

#define STEPS (sizeof steps / sizeof *steps)

static uint8_t request[RTNLC_REQUEST];

/* How many of each were refused: beginnings, datagrams, changes, and entries before them. */
static unsigned long begins, datagrams, short_changes, unput_entries;

static void must(bool holds, const char *what, size_t number)
{
	if (!holds)
		fail(what, number);
}

static struct rtnlc_put begun(struct rtnlc_mirror *m, const struct step *it)
{
	memset(request, PAINT, sizeof request);
	return rtnlc_mirror_begin(m, it->kind, it->family, it->seq, PORT, request, sizeof request);
}

/* Makes the step, with none refused. */
static void make(struct rtnlc_mirror *m, size_t at)
{
	size_t change;
	if (!steps[at].text) {
		must(begun(m, &steps[at]).code == RTNLC_OK, "a beginning", at);
		return;
	}
	feed(m, steps[at].text);
	must(heard.code == RTNLC_OK, "a datagram", at);
	for (change = 0; change < heard.changes; change++)
		must(changes[change].code == RTNLC_OK, "a change", at);
}

/* A beginning that was refused has begun all the same, and its table is stale. */
static void hold_begin(struct rtnlc_mirror *m, struct rtnlc_put put, size_t at)
{
	const struct rtnlc_mirrored it = rtnlc_mirror_table(m, steps[at].kind);
	must(put.code == RTNLC_NO_MEMORY && put.len >= 28, "a refused beginning", at);
	must(request[4] == steps[at].kind + 2 && request[8] == steps[at].seq, "its request", at);
	must(it.dumps && it.seq == steps[at].seq && it.stale, "it has begun, and is stale", at);
	begins++;
}

/* A datagram that was refused: nothing was heard and all tables are stale, or a change was lost and
 * a table is stale, or what an entry was before couldn't be put. */
static void hold_feed(struct rtnlc_mirror *m, size_t at)
{
	size_t table, change, short_ones = 0, unput = 0, stale_ones = 0;
	for (table = 0; table < 5; table++)
		stale_ones += stale(m, kinds[table]) != RTNLC_CURRENT;
	if (heard.code) {
		must(heard.code == RTNLC_NO_MEMORY && !heard.changes && !heard.before && !heard.place,
		     "a refused datagram", at);
		must(stale_ones == 5, "all tables are stale", at);
		datagrams++;
		return;
	}
	for (change = 0; change < heard.changes; change++) {
		const struct rtnlc_change *it = &changes[change];
		const bool was = it->effect == RTNLC_CHANGED || it->effect == RTNLC_REMOVED;
		must(!it->code || it->code == RTNLC_NO_MEMORY, "the code of a change", at);
		must(!it->code || it->effect == RTNLC_NOTHING, "what is lost has no effect", at);
		must(was || !it->before_len, "the length before", at);
		short_ones += it->code != RTNLC_OK;
		unput += was && !it->before_len;
	}
	must(short_ones || unput, "something is said of it", at);
	must(!short_ones || stale_ones, "a table is stale", at);
	short_changes += short_ones;
	unput_entries += unput;
}

/* Dumps forwarding entries anew: they are current then, with the one that there is. */
static void mend(struct rtnlc_mirror *m, size_t at)
{
	const struct step anew = { NULL, 28, 7, 9 };
	must(begun(m, &anew).code == RTNLC_OK || rtnlc_mirror_table(m, 28).dumps, "a dump anew", at);
	feed(m, ITEM_9 DONE_9);
	must(heard.code == RTNLC_OK && !stale(m, 28) && count_of(m, 28) == 1, "is current", at);
}

/* Refuses each allocation of a step: each in a mirror of its own, up to that step. */
static void refuse_step(size_t at)
{
	unsigned long number = 0, left = blocks;
	bool is_again = true;
	while (is_again) {
		struct rtnlc_mirror m = { 0 };
		struct rtnlc_put put = { 0, 0 };
		size_t step;
		must(rtnlc_mirror_new(&m, NULL, 8) == RTNLC_OK, "a mirror", at);
		for (step = 0; step < at; step++)
			make(&m, step);
		refuse(++number);
		if (steps[at].text)
			feed(&m, steps[at].text);
		else
			put = begun(&m, &steps[at]);
		is_again = was_refused();
		if (is_again && steps[at].text)
			hold_feed(&m, at);
		else if (is_again)
			hold_begin(&m, put, at);
		mend(&m, at);
		rtnlc_mirror_free(&m);
		must(blocks == left, "what a mirror leaves allocated", at);
	}
}

static void refuse_new(void)
{
	unsigned long number = 0, left = blocks;
	bool is_again = true;
	while (is_again) {
		struct rtnlc_mirror m = { 0 };
		uint8_t code;
		refuse(++number);
		code = rtnlc_mirror_new(&m, NULL, 8);
		is_again = was_refused();
		must(code == (is_again ? RTNLC_NO_MEMORY : RTNLC_OK), "the code of a new one", number);
		must(!is_again == (m.at != NULL), "whether it is there", number);
		must(!is_again || blocks == left, "none is left", number);
		rtnlc_mirror_free(&m);
		must(blocks == left, "what is freed", number);
	}
}

/* An entry, or a key: nothing is put where it was refused. */
static void refuse_put(struct rtnlc_mirror *m, uint16_t kind, bool is_key)
{
	unsigned long number = 0, left = blocks;
	bool is_again = true;
	while (is_again) {
		struct rtnlc_put put;
		memset(out, PAINT, 1024);
		refuse(++number);
		put = is_key ? rtnlc_mirror_key(m, kind, 0, out, MANY) :
		               rtnlc_mirror_entry(m, kind, 0, out, MANY);
		is_again = was_refused();
		must(put.code == (is_again ? RTNLC_NO_MEMORY : RTNLC_OK), "the code of what is put", kind);
		must(!is_again || (put.len == 0 && is_painted(out, 1024)), "nothing is put", kind);
		must(blocks == left, "what it leaves allocated", kind);
	}
}

/* What no call but these takes. */
static void take_none(struct rtnlc_mirror *m)
{
	refuse(0);
	must(!rtnlc_mirror_lost(m) && !rtnlc_mirror_table(m, 16).code, "a loss and a table", 0);
	must(rtnlc_mirror_find(m, 16, out, 4).code == RTNLC_END, "a key that isn't there", 0);
	must(asked == 0, "and no memory", 0);
}

int main(void)
{
	struct rtnlc_mirror m = { 0 };
	unsigned long left = blocks;
	size_t at;
	refuse_new();
	for (at = 0; at < STEPS; at++)
		refuse_step(at);
	must(rtnlc_mirror_new(&m, NULL, 8) == RTNLC_OK, "a mirror", 0);
	for (at = 0; at < STEPS; at++)
		make(&m, at);
	refuse_put(&m, 16, false);
	refuse_put(&m, 16, true);
	refuse_put(&m, 28, false);
	refuse_put(&m, 28, true);
	memset(out, PAINT, 4);
	take_none(&m);
	rtnlc_mirror_free(&m);
	must(blocks == left, "what is left in the end", 0);
	must(begins && datagrams && short_changes && unput_entries, "a refusal of each sort", 0);
	printf("%lu refusals\n", refusals);
	return failures > 0 || fflush(stdout) ? 3 : 0;
}
