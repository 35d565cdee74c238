/* Keeps the kernel's tables of links, addresses, routes, neighbours and rules, and prints what
 * changes in them: of this machine, or of what another program plays as a kernel, on a unix socket.
 * A line has + before an entry that is new, ~ before one that has changed and - before one that is
 * gone; = says that a table is current, and ? why it can't be trusted.
 * cc mirror.c $(pkg-config --cflags --libs rtnlc) -o mirror && ./mirror [SOCKET] */
#include "dump.h"
#include <poll.h>

/* How many changes may wait for the end of a dump, and how much is printed of an entry. */
#define WAITING 16384
#define LINE    160

static const uint32_t groups = RTMGRP_LINK | RTMGRP_NEIGH | RTMGRP_IPV4_IFADDR |
                               RTMGRP_IPV6_IFADDR | RTMGRP_IPV4_ROUTE | RTMGRP_IPV6_ROUTE |
                               RTMGRP_IPV4_RULE | 1u << (RTNLGRP_IPV6_RULE - 1);

/* A table, as it stood when it was looked at last. */
struct watched {
	const char *name;
	uint16_t kind;
	uint8_t stale;
	bool dumps;
	int spoiled; /* how many dumps weren't whole since it was current */
};

static struct watched tables[] = {
	{ .name = "links", .kind = RTM_NEWLINK, .stale = RTNLC_NEVER_DUMPED },
	{ .name = "addresses", .kind = RTM_NEWADDR, .stale = RTNLC_NEVER_DUMPED },
	{ .name = "routes", .kind = RTM_NEWROUTE, .stale = RTNLC_NEVER_DUMPED },
	{ .name = "neighbours", .kind = RTM_NEWNEIGH, .stale = RTNLC_NEVER_DUMPED },
	{ .name = "rules", .kind = RTM_NEWRULE, .stale = RTNLC_NEVER_DUMPED },
};

#define TABLES (sizeof tables / sizeof *tables)

static const char *reason(uint8_t stale)
{
	static const char *const words[] = { "current", "never dumped", "lost",
		                                 "refused", "no memory",    "too many changes wait",
		                                 "silent",  "unnamed",      "full" };
	return stale < sizeof words / sizeof *words ? words[stale] : "unknown";
}

/* Prints a message: what rtnlc_show says of its body, in one line. */
static void print_message(char sign, const uint8_t *bytes, size_t len)
{
	char text[4 * LINE], line[LINE + 1];
	const struct rtnlc_shown shown =
	    rtnlc_show(1, bytes, len, &source_options, text, sizeof text);
	const size_t end = shown.len < sizeof text ? shown.len : sizeof text;
	size_t at, lines = 0, put = 0;
	for (at = 0; shown.code == RTNLC_OK && at < end && put < LINE; at++) {
		const bool is_blank = text[at] == ' ' || text[at] == '\n';
		lines += text[at] == '\n';
		if (lines > 1 && !(is_blank && (put == 0 || line[put - 1] == ' ')))
			line[put++] = is_blank ? ' ' : text[at];
	}
	line[put > 0 && line[put - 1] == ' ' ? put - 1 : put] = '\0';
	printf("%c %s\n", sign, line);
}

/* Prints what became of each message of a datagram. An entry that is gone is printed as it was, if
 * there was room for that. */
static void print_changes(const struct source *s, const struct rtnlc_change *changes, size_t count,
                          const uint8_t *before)
{
	static const char signs[] = { 0, '+', '~', '-', 0 };
	struct rtnlc_message it = { .next = 0 };
	for (size_t at = 0; at < count; at++) {
		const struct rtnlc_change *change = changes + at;
		const char sign = signs[change->effect];
		it = rtnlc_message_at(s->bytes, s->len, it.next, SOURCE_BIG);
		if (sign == '-' && change->before_len > 0)
			print_message(sign, before + change->before, change->before_len);
		else if (sign != 0)
			print_message(sign, s->bytes + it.place, NLMSG_HDRLEN + it.len);
	}
}

/* Prints which table is current now, or can't be trusted, and which dump has told nothing. */
static void print_tables(struct rtnlc_mirror *m)
{
	for (struct watched *it = tables; it < tables + TABLES; it++) {
		const struct rtnlc_mirrored now = rtnlc_mirror_table(m, it->kind);
		const bool is_spoiled = it->dumps && !now.dumps && now.stale != RTNLC_CURRENT;
		if (now.stale == RTNLC_CURRENT && it->stale != RTNLC_CURRENT)
			printf("= %s %u entries\n", it->name, (unsigned)now.count);
		else if (now.stale != it->stale || is_spoiled)
			printf("? %s stale: %s\n", it->name, reason(now.stale));
		it->spoiled = now.stale == RTNLC_CURRENT ? 0 : it->spoiled + is_spoiled;
		it->stale = now.stale;
		it->dumps = now.dumps;
	}
	fflush(stdout);
}

/* A dump can make the table current: one that is full stays so until an entry goes. */
static bool wants_dump(struct rtnlc_mirror *m, const struct watched *it)
{
	const struct rtnlc_mirrored now = rtnlc_mirror_table(m, it->kind);
	return now.stale != RTNLC_CURRENT && (now.stale != RTNLC_FULL || now.count < now.limit);
}

/* Begins a dump of a table. Where those before weren't whole, it waits up to a tenth of a second
 * first. */
static void ask(struct source *s, struct rtnlc_mirror *m, struct watched *it)
{
	uint8_t request[RTNLC_REQUEST];
	struct rtnlc_put put;
	poll(NULL, 0, 10 * (it->spoiled < 10 ? it->spoiled : 10));
	put = rtnlc_mirror_begin(m, it->kind, AF_UNSPEC, ++s->seq, s->port, request, sizeof request);
	dump_ask(s, put, request);
	it->dumps = true;
}

/* Begins a dump of the first table that wants one, unless one runs: the kernel answers one at a
 * time. */
static void ask_next(struct source *s, struct rtnlc_mirror *m)
{
	struct watched *next = NULL;
	for (struct watched *it = tables; it < tables + TABLES; it++) {
		if (it->dumps)
			return;
		if (next == NULL && wants_dump(m, it))
			next = it;
	}
	if (next != NULL)
		ask(s, m, next);
}

/* Begins the dump that runs once more: its end may have been in a datagram that wasn't taken. */
static void ask_again(struct source *s, struct rtnlc_mirror *m)
{
	for (struct watched *it = tables; it < tables + TABLES; it++)
		if (it->dumps && rtnlc_mirror_table(m, it->kind).dumps)
			ask(s, m, it);
}

/* Hears a datagram, and prints what it changes; false at the end of the socket. */
static bool hear_next(struct source *s, struct rtnlc_mirror *m)
{
	static struct rtnlc_change changes[RTNLC_STANDARD_DATAGRAM / 16];
	static uint8_t before[RTNLC_STANDARD_DATAGRAM];
	struct rtnlc_heard heard = { .code = RTNLC_OK };
	const int error = source_take(s);
	if (error == ENOBUFS || error == EMSGSIZE)
		rtnlc_mirror_lost(m);
	else if (error != 0)
		source_fail(s, FAILED, "%s", strerror(error));
	else
		heard = rtnlc_mirror_feed(m, s->bytes, s->len, changes, sizeof changes / sizeof *changes,
		                          before, sizeof before);
	print_changes(s, changes, heard.changes, before);
	if (error == EMSGSIZE || heard.code != RTNLC_OK)
		ask_again(s, m);
	return error != 0 || s->len > 0;
}

int main(int count, char **words)
{
	static struct source source = { .program = "mirror" };
	struct rtnlc_mirror mirror = { 0 };
	source_open(&source, count, words, groups);
	source_check(&source, rtnlc_mirror_new(&mirror, &source_options, WAITING), 0);
	do {
		print_tables(&mirror);
		ask_next(&source, &mirror);
	} while (hear_next(&source, &mirror));
	rtnlc_mirror_free(&mirror);
	return source_close(&source);
}
