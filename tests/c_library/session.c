/*
 * Reads a recording as the answers to a dump, by a session, and prints what `rtnl table` prints:
 * session KIND SEQ PORT ORDER ENTRIES <RECORDING. Of each entry it looks at the key, and at what
 * too little room gets.
 */
#include "asked.h"

#define ROOM (1 << 17)

static uint8_t message[ROOM], again[ROOM], key[ROOM];
static char text[1 << 20];
static struct rtnlc_options limits = { RTNLC_STANDARD_TOTAL, RTNLC_STANDARD_DATAGRAM,
	                                   RTNLC_STANDARD_ENTRIES, RTNLC_STANDARD_DEPTH, false,
	                                   { 0 } };
static unsigned long unfed;

static const char *word(uint16_t kind)
{
	static const char *const words[] = { "link", "addr", "route", "neigh", "rule" };
	return words[(kind - 16) / 4 % 5];
}

static const char *said(bool so)
{
	return so ? "yes" : "no";
}

/* Feeds all datagrams, up to the end of the dump, and prints those that are refused. */
static void feed_all(struct rtnlc_session *s)
{
	struct datagram one = { NULL, 0, 0 };
	while (next_datagram(stdin, &one)) {
		struct rtnlc_fed fed = rtnlc_session_feed(s, one.bytes, one.len);
		unsigned long number = (unsigned long)one.number;
		free(one.bytes);
		must(fed.events == 0, "the events of a session", one.number);
		if (fed.code == RTNLC_NOT_WAITING)
			unfed++;
		else if (fed.code == RTNLC_TOTAL || fed.code == RTNLC_TOO_LARGE)
			printf("datagram %lu refused %s\n", number, rtnlc_code_name(fed.code));
		else if (fed.code)
			printf("datagram %lu refused %s at %lu\n", number, rtnlc_code_name(fed.code),
			       (unsigned long)fed.place);
	}
}

/* The lines of a message's text behind those of the datagram and of the message itself. */
static void print_body(size_t len, size_t number)
{
	struct rtnlc_shown shown = rtnlc_show(1, message, len, &limits, text, sizeof text - 1);
	const char *body;
	must(shown.code == RTNLC_OK && shown.len < sizeof text, "the text of an entry", number);
	text[shown.len] = 0;
	body = strchr(text, '\n');
	body = body ? strchr(body + 1, '\n') : NULL;
	must(body != NULL, "the message of an entry", number);
	printf("entry %lu\n%s", (unsigned long)number, body + 1);
}

/* An entry and its key, in just the room that they take, and in a byte less. */
static void print_entry(struct rtnlc_session *s, uint16_t kind, uint32_t at)
{
	struct rtnlc_put size = rtnlc_session_entry(s, kind, at, NULL, 0), put, its;
	struct rtnlc_message head;
	struct rtnlc_found found;
	must(size.code == RTNLC_NO_ROOM && size.len >= 24 && size.len <= ROOM, "no room", at);
	put = rtnlc_session_entry(s, kind, at, again, size.len - 1);
	must(put.code == RTNLC_NO_ROOM && put.len == size.len, "less room", at);
	put = rtnlc_session_entry(s, kind, at, message, size.len);
	must(put.code == RTNLC_OK && put.len == size.len, "just the room", at);
	head = rtnlc_message_at(message, put.len, 0, limits.big);
	must(head.code == RTNLC_OK && head.next == put.len && head.kind == kind, "one message", at);
	must(!head.flags && !head.seq && !head.port, "the numbers of an entry", at);
	must(rtnlc_check(message, put.len, &limits).canonical, "a canonical entry", at);
	its = rtnlc_session_key(s, kind, at, key, ROOM);
	must(its.code == RTNLC_OK && its.len, "a key", at);
	put = rtnlc_session_key(s, kind, at, again, its.len - 1);
	must(put.code == RTNLC_NO_ROOM && put.len == its.len, "less room for a key", at);
	found = rtnlc_session_find(s, kind, key, its.len);
	must(found.code == RTNLC_OK && found.index == at, "the entry of a key", at);
	must(rtnlc_session_find(s, kind, key, its.len - 1).code == RTNLC_END, "a cut key", at);
	print_body(size.len, (size_t)at + 1);
}

static void print_end(const struct rtnlc_status *it)
{
	if (it->state == RTNLC_DONE)
		printf("end done %ld\n", (long)it->status);
	else if (it->state == RTNLC_FAILED)
		printf("end error %ld\n", (long)it->status);
	else
		puts(it->state == RTNLC_OVERRUN ? "end overrun" : "end none");
}

static void print_counts(struct rtnlc_session *s, uint16_t kind, uint32_t count)
{
	struct rtnlc_table table = rtnlc_session_table(s, kind);
	struct rtnlc_status it = rtnlc_session_status(s);
	must(table.limit == limits.entries && table.count == count, "the size of a table", count);
	print_end(&it);
	printf("entries %lu missed %lu ignored %lu unfed %lu damaged %s interrupted %s\n",
	       (unsigned long)count, (unsigned long)table.missed, (unsigned long)it.ignored, unfed,
	       said(it.damaged), said(it.interrupted));
	printf("received %lu visits %lu\n", (unsigned long)it.received, (unsigned long)it.visits);
	printf("complete %s\n", said(it.complete));
}

int main(int words, char **word_at)
{
	struct rtnlc_session s = { 0 };
	struct rtnlc_put put;
	uint8_t request[RTNLC_REQUEST];
	uint32_t seq, port, at, count;
	uint16_t kind;
	if (words != 6)
		return 2;
	read_asked(word_at, &kind, &seq, &port);
	limits.big = !strcmp(word_at[4], "big");
	limits.entries = (uint32_t)strtoul(word_at[5], NULL, 10);
	must(rtnlc_session_new(&s, &limits) == RTNLC_OK, "a new session", 0);
	/* The type that asks is of the family too. */
	put = rtnlc_session_begin(&s, (uint16_t)(kind + 2), 0, seq, port, request, sizeof request);
	must(put.code == RTNLC_OK, "a beginning", 0);
	printf("dump %s seq %lu port %lu\n", word(kind), (unsigned long)seq, (unsigned long)port);
	feed_all(&s);
	count = rtnlc_session_table(&s, kind).count;
	for (at = 0; at < count; at++)
		print_entry(&s, kind, at);
	must(rtnlc_session_entry(&s, kind, count, message, ROOM).code == RTNLC_END, "no entry", count);
	must(rtnlc_session_key(&s, kind, count, key, ROOM).code == RTNLC_END, "no key", count);
	must(rtnlc_session_find(&s, kind, NULL, 0).code == RTNLC_END, "the key of no bytes", count);
	print_counts(&s, kind, count);
	rtnlc_session_free(&s);
	return fflush(stdout) ? 3 : 0;
}
