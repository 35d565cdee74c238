/*
 * Feeds a recording to a stream and to a session, and holds them against one another: stream KIND
 * SEQ PORT ORDER <RECORDING. The stream must hand out the events of just those messages that a
 * walk by rtnlc_message_at says are the items, as a tape has them; and a second session, which is
 * handed these messages alone, must come to the table of the first.
 */
#include "alike.h"
#include "asked.h"

#define ROOM (1 << 15)

static struct rtnlc_options limits = { RTNLC_STANDARD_TOTAL, RTNLC_STANDARD_DATAGRAM,
	                                   RTNLC_STANDARD_ENTRIES, RTNLC_STANDARD_DEPTH, false,
	                                   { 0 } };
static struct rtnlc_stream stream;
static struct rtnlc_session whole, parts;
static struct rtnlc_event events[ROOM], tape[ROOM];
static uint8_t some[1 << 17], same[1 << 17];
static uint16_t kind;
static uint32_t seq, port;
static unsigned long items;

/* Whether a message ends the dump: DONE, OVERRUN, or an error of a code that isn't 0. */
static bool is_end(const struct datagram *one, const struct rtnlc_message *it)
{
	static const uint8_t zeros[4] = { 0 };
	if (it->kind == 2)
		return memcmp(one->bytes + it->place + 16, zeros, 4) != 0;
	return it->kind == 3 || it->kind == 4;
}

/* Moves to the front of the tape the events of the items, which are handed to the second session
 * one by one, and counts them. */
static size_t items_of(const struct datagram *one, size_t heads, uint32_t *count)
{
	struct rtnlc_message it;
	size_t at = 0, kept = 0;
	bool is_over = false;
	for (it.next = 0;;) {
		bool belongs, is_item;
		it = rtnlc_message_at(one->bytes, one->len, it.next, limits.big);
		if (it.code)
			break;
		belongs = it.seq == seq && it.port == port && !is_over;
		is_item = belongs && it.kind == kind;
		is_over = is_over || (belongs && is_end(one, &it));
		*count += is_item;
		if (is_item) {
			struct rtnlc_fed fed = rtnlc_session_feed(&parts, one->bytes + it.place, 16 + it.len);
			must(!fed.code && fed.items == 1 && !fed.ignored && !fed.ended, "an item", one->number);
		}
		for (; at < heads && tape[at].place < it.next; at++)
			if (is_item)
				tape[kept++] = tape[at];
	}
	must(at == heads && it.code == RTNLC_END, "a walk to the end", one->number);
	return kept;
}

static bool is_event(const struct rtnlc_event *found, const struct rtnlc_event *wanted)
{
	return found->place == wanted->place && found->len == wanted->len &&
	       found->number == wanted->number && found->level == wanted->level &&
	       found->sort == wanted->sort && found->nested == wanted->nested &&
	       found->net == wanted->net;
}

/* A datagram that was taken: its events are those of its items. */
static void hold_items(const struct datagram *one, const struct rtnlc_fed *fed)
{
	struct rtnlc_taped taped = rtnlc_tape(one->bytes, one->len, &limits, tape, ROOM);
	uint32_t count = 0;
	size_t at, kept;
	must(taped.code == RTNLC_OK && taped.count <= ROOM, "a tape", one->number);
	kept = items_of(one, taped.count, &count);
	must(kept == fed->events && count == fed->items, "how many items", one->number);
	for (at = 0; at < kept; at++)
		must(is_event(&events[at], &tape[at]), "an event of an item", one->number);
	items += count;
}

static void feed(const struct datagram *one)
{
	bool waits = stream.state == RTNLC_WAITING;
	struct rtnlc_fed of_session = rtnlc_session_feed(&whole, one->bytes, one->len);
	/* A quarter as many events as bytes is always room enough. */
	struct rtnlc_fed of_stream =
	    rtnlc_stream_feed(&stream, one->bytes, one->len, events, one->len / 4);
	struct rtnlc_status told = rtnlc_stream_status(&stream);
	struct rtnlc_status by_session = rtnlc_session_status(&whole);
	uint64_t missed = rtnlc_session_table(&whole, kind).missed;
	must(is_fed(&of_session, &of_stream), "what session and stream answer", one->number);
	must(is_status(&by_session, &told, missed), "what they tell", one->number);
	must(is_told(&stream, &told), "what a stream tells", one->number);
	must(waits || of_stream.code == RTNLC_NOT_WAITING, "behind the end", one->number);
	if (of_stream.code == RTNLC_OK)
		hold_items(one, &of_stream);
	else
		must(of_stream.events == 0, "the events of a refusal", one->number);
}

/* The second session has the table of the first. */
static void hold_tables(void)
{
	struct rtnlc_table table = rtnlc_session_table(&whole, kind);
	uint32_t at;
	must(rtnlc_session_table(&parts, kind).count == table.count, "the entries", table.count);
	must(rtnlc_session_table(&parts, kind).missed == table.missed, "the missed", table.count);
	for (at = 0; at < table.count; at++) {
		struct rtnlc_put put = rtnlc_session_entry(&whole, kind, at, some, sizeof some);
		struct rtnlc_put by_parts = rtnlc_session_entry(&parts, kind, at, same, sizeof same);
		must(!put.code && !by_parts.code && put.len == by_parts.len, "an entry's length", at);
		must(!memcmp(some, same, put.len), "an entry", at);
		put = rtnlc_session_key(&whole, kind, at, some, sizeof some);
		by_parts = rtnlc_session_key(&parts, kind, at, same, sizeof same);
		must(!put.code && !by_parts.code && put.len == by_parts.len, "a key's length", at);
		must(!memcmp(some, same, put.len), "a key", at);
	}
}

int main(int words, char **word)
{
	struct datagram one = { NULL, 0, 0 };
	uint8_t request[RTNLC_REQUEST];
	if (words != 5)
		return 2;
	read_asked(word, &kind, &seq, &port);
	limits.big = !strcmp(word[4], "big");
	must(!rtnlc_stream_new(&stream, &limits) && !rtnlc_session_new(&whole, &limits) &&
	         !rtnlc_session_new(&parts, &limits),
	     "what is new", 0);
	must(!rtnlc_stream_begin(&stream, kind, 0, seq, port, request, sizeof request).code &&
	         !rtnlc_session_begin(&whole, kind, 0, seq, port, request, sizeof request).code &&
	         !rtnlc_session_begin(&parts, kind, 0, seq, port, request, sizeof request).code,
	     "a beginning", 0);
	while (next_datagram(stdin, &one)) {
		feed(&one);
		free(one.bytes);
	}
	hold_tables();
	rtnlc_session_free(&whole);
	rtnlc_session_free(&parts);
	printf("%lu datagrams, %lu items\n", (unsigned long)one.number, items);
	return fflush(stdout) ? 3 : 0;
}
