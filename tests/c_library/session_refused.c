/*
 * Refuses each allocation of the calls on a session in turn, over a recording: session_refused
 * KIND SEQ PORT ORDER <RECORDING. A call whose allocation is refused says so and leaves what the
 * header says; made again, in the end with none refused, it does its work. The entries are those
 * of a session that was never refused, and nothing is left allocated. It says how many
 * allocations were refused.
 */
#include "asked.h"
#include "refusing.h"

#define ROOM  (1 << 17)
#define PAINT 0xa5
#define MOST  4096

/* All that can be seen of a session. */
struct shot {
	struct rtnlc_status status;
	struct rtnlc_table tables[5];
	uint64_t sums[5];
};

static struct rtnlc_options limits = { RTNLC_STANDARD_TOTAL, RTNLC_STANDARD_DATAGRAM,
	                                   RTNLC_STANDARD_ENTRIES, RTNLC_STANDARD_DEPTH, false,
	                                   { 0 } };
static struct datagram all[MOST];
static size_t count;
static uint8_t out[ROOM];

/* A sum of all entries of a family, and of their keys. */
static uint64_t sum_of(struct rtnlc_session *s, uint16_t kind, uint32_t entries)
{
	uint64_t sum = 14695981039346656037u;
	uint32_t at;
	for (at = 0; at < entries; at++) {
		struct rtnlc_put put = rtnlc_session_entry(s, kind, at, out, ROOM);
		must(put.code == RTNLC_OK, "an entry", at);
		sum = added(sum, out, put.len);
		put = rtnlc_session_key(s, kind, at, out, ROOM);
		must(put.code == RTNLC_OK, "a key", at);
		sum = added(sum, out, put.len);
	}
	return sum;
}

static struct shot shot_of(struct rtnlc_session *s)
{
	struct shot shot;
	size_t family;
	memset(&shot, 0, sizeof shot);
	shot.status = rtnlc_session_status(s);
	for (family = 0; family < 5; family++) {
		uint16_t kind = (uint16_t)(16 + 4 * family);
		shot.tables[family] = rtnlc_session_table(s, kind);
		shot.sums[family] = sum_of(s, kind, shot.tables[family].count);
	}
	return shot;
}

static bool are_tables(const struct shot *one, const struct shot *other)
{
	size_t at;
	for (at = 0; at < 5; at++)
		if (one->tables[at].count != other->tables[at].count ||
		    one->tables[at].missed != other->tables[at].missed ||
		    one->tables[at].limit != other->tables[at].limit || one->sums[at] != other->sums[at])
			return false;
	return true;
}

/* Whether one status is another, but for the bytes received and visited, whether it is damaged,
 * and what follows from that. */
static bool is_like(const struct rtnlc_status *one, const struct rtnlc_status *other)
{
	return one->ignored == other->ignored && one->seq == other->seq && one->port == other->port &&
	       one->status == other->status && one->kind == other->kind &&
	       one->family == other->family && one->state == other->state &&
	       one->interrupted == other->interrupted && one->code == other->code;
}

static bool is_as_it_was(struct rtnlc_session *s, const struct shot *before)
{
	struct shot now = shot_of(s);
	return are_tables(&now, before) && is_like(&now.status, &before->status) &&
	       now.status.received == before->status.received &&
	       now.status.visits == before->status.visits &&
	       now.status.damaged == before->status.damaged &&
	       now.status.complete == before->status.complete;
}

static void refuse_new(struct rtnlc_session *s)
{
	unsigned long number = 0, before = blocks;
	for (;;) {
		uint8_t code;
		refuse(++number);
		code = rtnlc_session_new(s, &limits);
		if (!was_refused()) {
			must(code == RTNLC_OK && s->at && number > 1, "a session", number);
			return;
		}
		must(code == RTNLC_NO_MEMORY && !s->at && blocks == before, "no session", number);
	}
}

/* Nothing has begun where it was refused. */
static void refuse_begin(struct rtnlc_session *s, uint16_t kind, uint32_t seq, uint32_t port)
{
	unsigned long number = 0;
	uint8_t request[RTNLC_REQUEST], painted[RTNLC_REQUEST];
	memset(painted, PAINT, sizeof painted);
	for (;;) {
		struct shot before = shot_of(s);
		struct rtnlc_put put;
		memset(request, PAINT, sizeof request);
		refuse(++number);
		put = rtnlc_session_begin(s, kind, 0, seq, port, request, sizeof request);
		if (!was_refused()) {
			must(put.code == RTNLC_OK && put.len >= 24, "a beginning", number);
			must(rtnlc_session_status(s).state == RTNLC_WAITING, "a dump that waits", number);
			must(rtnlc_session_table(s, kind).count == 0, "an empty table", number);
			return;
		}
		must(put.code == RTNLC_NO_MEMORY && put.len == 0, "no beginning", number);
		must(!memcmp(request, painted, sizeof request), "the request of none", number);
		must(is_as_it_was(s, &before), "a session behind it", number);
	}
}

/* What a datagram that was refused so has left: the dump waits as before, no table has changed,
 * and the dump is damaged. The bytes count as received, and no more of them as visited than a
 * scan visits. */
static void hold_feed(struct rtnlc_session *s, const struct datagram *one,
                      const struct shot *before)
{
	struct shot after = shot_of(s);
	uint64_t visited = after.status.visits - before->status.visits;
	must(are_tables(&after, before), "the tables behind it", one->number);
	must(is_like(&after.status, &before->status), "the status behind it", one->number);
	must(after.status.state == RTNLC_WAITING && after.status.damaged && !after.status.complete,
	     "the dump behind it", one->number);
	must(after.status.received == before->status.received + one->len, "its bytes", one->number);
	must(visited <= rtnlc_scan(one->bytes, one->len, &limits).visits, "its visits", one->number);
}

static struct rtnlc_fed refuse_feed(struct rtnlc_session *s, const struct datagram *one)
{
	unsigned long number = 0;
	for (;;) {
		struct shot before = shot_of(s);
		struct rtnlc_fed fed;
		refuse(++number);
		fed = rtnlc_session_feed(s, one->bytes, one->len);
		if (!was_refused())
			return fed;
		must(fed.code == RTNLC_NO_MEMORY, "a refused datagram's code", one->number);
		must(!fed.items && !fed.ignored && !fed.place && !fed.ended && !fed.events,
		     "a refused datagram's answer", one->number);
		hold_feed(s, one, &before);
	}
}

/* Each entry: nothing is put where it was refused. No call beside takes memory. */
static void refuse_entries(struct rtnlc_session *s, uint16_t kind)
{
	uint32_t at, entries = rtnlc_session_table(s, kind).count;
	for (at = 0; at < entries; at++) {
		unsigned long number = 0, before = blocks;
		struct rtnlc_put put;
		bool is_again;
		do {
			memset(out, PAINT, 1024);
			refuse(++number);
			put = rtnlc_session_entry(s, kind, at, out, ROOM);
			is_again = was_refused();
			must(put.code == (is_again ? RTNLC_NO_MEMORY : RTNLC_OK), "an entry's code", at);
			must(!is_again || (put.len == 0 && out[0] == PAINT && !memcmp(out, out + 1, 1023)),
			     "nothing is put", at);
			must(blocks == before, "what an entry leaves allocated", at);
		} while (is_again);
		refuse(0);
		put = rtnlc_session_key(s, kind, at, out, ROOM);
		must(!rtnlc_session_find(s, kind, out, put.len).code && !asked, "a key and memory", at);
	}
}

/* A session that is refused wherever it can be, if so it is to be, up to the end of a dump. */
static struct shot read_dump(struct rtnlc_session *s, uint16_t kind, uint32_t seq, uint32_t port,
                             bool is_so)
{
	uint8_t request[RTNLC_REQUEST];
	size_t at;
	if (is_so) {
		refuse_new(s);
		refuse_begin(s, kind, seq, port);
	} else
		must(!rtnlc_session_new(s, &limits) &&
		         !rtnlc_session_begin(s, kind, 0, seq, port, request, sizeof request).code,
		     "a beginning", 0);
	for (at = 0; at < count; at++) {
		if (is_so)
			refuse_feed(s, &all[at]);
		else
			rtnlc_session_feed(s, all[at].bytes, all[at].len);
	}
	if (is_so)
		refuse_entries(s, kind);
	return shot_of(s);
}

int main(int words, char **word)
{
	struct rtnlc_session s = { 0 };
	struct shot whole, refused;
	unsigned long before = blocks;
	uint16_t kind;
	uint32_t seq, port;
	if (words != 5)
		return 2;
	read_asked(word, &kind, &seq, &port);
	limits.big = !strcmp(word[4], "big");
	while (count < MOST && next_datagram(stdin, &all[count])) {
		count++;
		all[count % MOST].number = count;
	}
	before = blocks;
	whole = read_dump(&s, kind, seq, port, false);
	rtnlc_session_free(&s);
	refused = read_dump(&s, kind, seq, port, true);
	must(are_tables(&whole, &refused) && is_like(&whole.status, &refused.status), "the dump", 0);
	/* Another dump of the family: nothing of the first one goes before it has begun. */
	must(whole.status.state == RTNLC_DONE, "its end", 0);
	refuse_begin(&s, kind, seq + 1, port);
	refuse(0);
	must(rtnlc_session_abandon(&s) == RTNLC_OK && !asked, "abandoned", 0);
	rtnlc_session_free(&s);
	must(blocks == before && !asked, "what a session leaves allocated", 0);
	for (; count; count--)
		free(all[count - 1].bytes);
	printf("%lu refusals\n", refusals);
	return fflush(stdout) ? 3 : 0;
}
