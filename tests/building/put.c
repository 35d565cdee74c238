/*
 * Builds the datagrams that standard input asks for, a call on each line, and prints each as
 * hexadecimal digits, or by which name it is refused:
 *
 *   begin TYPE FLAGS SEQ PORT HEAD    put TYPE BYTES      open TYPE    hop FLAGS HOPS INDEX
 *   u8 TYPE NUMBER, and u16 to be64   text TYPE WORD      close        end        finish
 *
 * HEAD and BYTES are hexadecimal digits, and may be `-` for none; `finish` hands the datagram out.
 * usage: put [big]
 */
#include "calls.h"

#define ROOM 65536

static uint8_t out[ROOM], payload[ROOM];
static const char *const numbers[] = { "u8", "u16", "u32", "u64", "be16", "be32", "be64" };

static size_t digits(const char *word, uint8_t *to)
{
	size_t len = strcmp(word, "-") ? strlen(word) / 2 : 0, at;
	unsigned byte;
	for (at = 0; at < len; at++) {
		must(sscanf(word + 2 * at, "%2x", &byte) == 1, "hexadecimal digits");
		to[at] = (uint8_t)byte;
	}
	return len;
}

static void read_begin(const char *line, struct call *it)
{
	static char word[64];
	must(sscanf(line, "%*s %hu %hu %u %u %63s", &it->type, &it->flags, &it->seq, &it->port,
	            word) == 5,
	     "the words of begin");
	it->verb = BEGIN;
	it->head_len = digits(word, it->head);
}

static void read_hop(const char *line, struct call *it)
{
	unsigned flags, hops;
	int index;
	must(sscanf(line, "%*s %u %u %d", &flags, &hops, &index) == 3, "the words of hop");
	must(flags < 256 && hops < 256, "numbers of a next hop");
	it->verb = HOP;
	it->hop_flags = (uint8_t)flags;
	it->hops = (uint8_t)hops;
	it->ifindex = index;
}

/* The calls that have a type, and perhaps bytes, a word or a number. */
static void read_typed(const char *line, const char *verb, struct call *it)
{
	static char word[2 * ROOM];
	size_t at;
	must(sscanf(line, "%*s %hu %131071s", &it->type, word) >= 1, "a type");
	it->bytes = payload;
	if (!strcmp(verb, "open"))
		it->verb = OPEN;
	else if (!strcmp(verb, "put")) {
		it->verb = PUT;
		it->len = digits(word, payload);
	} else if (!strcmp(verb, "text")) {
		it->verb = TEXT;
		it->len = strlen(word);
		memcpy(payload, word, it->len);
	} else {
		for (at = 0; at < 7 && strcmp(verb, numbers[at]); at++)
			;
		must(at < 7, "a call");
		it->verb = (enum verb)(U8 + at);
		it->value = strtoull(word, NULL, 0);
	}
}

static struct call read_call(const char *line)
{
	struct call it;
	char verb[8];
	memset(&it, 0, sizeof it);
	must(sscanf(line, "%7s", verb) == 1, "a word");
	if (!strcmp(verb, "begin"))
		read_begin(line, &it);
	else if (!strcmp(verb, "hop"))
		read_hop(line, &it);
	else if (!strcmp(verb, "close"))
		it.verb = CLOSE;
	else if (!strcmp(verb, "end"))
		it.verb = END;
	else
		read_typed(line, verb, &it);
	return it;
}

static void print_built(const struct rtnlc_builder *b)
{
	struct rtnlc_put put = rtnlc_builder_finish(b);
	size_t at;
	if (put.code)
		printf("refused %s", rtnlc_code_name(put.code));
	for (at = 0; at < put.len; at++)
		printf("%02x", out[at]);
	putchar('\n');
}

int main(int argc, char **argv)
{
	static char line[4 * ROOM];
	struct rtnlc_options options = { RTNLC_STANDARD_TOTAL, ROOM, 0, RTNLC_STANDARD_DEPTH,
		                             false, { 0 } };
	struct rtnlc_builder b;
	struct call it;
	options.big = argc > 1 && !strcmp(argv[1], "big");
	must(!rtnlc_builder_new(&b, &options, out, sizeof out), "a builder");
	while (fgets(line, sizeof line, stdin)) {
		if (!strncmp(line, "finish", 6)) {
			print_built(&b);
			must(!rtnlc_builder_new(&b, &options, out, sizeof out), "a builder");
			continue;
		}
		it = read_call(line);
		called(&b, &it);
	}
	return 0;
}
