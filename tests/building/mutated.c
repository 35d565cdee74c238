/*
 * Sequences of calls that are changed: calls dropped, doubled and exchanged, other numbers, flags,
 * lengths, heads, rooms and limits. Each is run beside the model, which says what is refused, and
 * by which name.
 * usage: mutated SEED COUNT
 */
#include "beside_model.h"

static struct made made;

static void dropped(size_t at)
{
	memmove(&made.calls[at], &made.calls[at + 1], (--made.count - at) * sizeof made.calls[0]);
}

static void doubled(size_t at)
{
	memmove(&made.calls[at + 1], &made.calls[at], (made.count++ - at) * sizeof made.calls[0]);
}

static void exchanged(size_t at, size_t other)
{
	struct call it = made.calls[at];
	made.calls[at] = made.calls[other];
	made.calls[other] = it;
}

/* Another length of a payload, about the longest of an attribute or any. */
static void lengthened(struct call *it)
{
	static const size_t lengths[] = { 0, 1, 4, 33000, 65530, 65531, 65532, 65536, 70000 };
	it->len = lengths[chosen(sizeof lengths / sizeof *lengths)];
	if (chosen(20))
		it->len %= 257;
	it->bytes = pool + chosen((uint32_t)(POOL - it->len));
}

static void changed(struct call *it)
{
	static const uint16_t others[] = { 2, 3, 18, 22, 23, 26, 36, 65535, 15, 24 };
	uint32_t way = chosen(4);
	if ((it->verb == BEGIN || it->verb == MESSAGE) && way < 2)
		it->type = chosen(2) ? others[chosen(10)] : kinds[chosen(KINDS)].type;
	else if (it->verb == BEGIN && way == 2)
		it->head_len = chosen(sizeof it->head + 1);
	else if (it->verb == PUT || it->verb == TEXT || it->verb == MESSAGE)
		lengthened(it);
	else if (it->verb != BEGIN && way < 3)
		it->type = random_type();
	else
		it->verb = (enum verb)chosen(MESSAGE + 1);
}

static void mutate(void)
{
	uint32_t left = chosen(4);
	while (left-- > 0 && made.count > 1 && made.count + 1 < MOST_CALLS) {
		size_t at = chosen((uint32_t)made.count);
		uint32_t way = chosen(6);
		if (way == 0)
			dropped(at);
		else if (way == 1)
			doubled(at);
		else if (way == 2)
			exchanged(at, chosen((uint32_t)made.count));
		else
			changed(&made.calls[at]);
	}
}

/* Room for all of it and more, or less. */
static size_t some_room(size_t whole)
{
	return chosen(3) ? whole + chosen(200) : chosen((uint32_t)whole + 1);
}

static void put_of(size_t len)
{
	struct call *it = next_call(&made, PUT, 4 + rounded(len));
	it->type = (uint16_t)(1 + chosen(7));
	it->bytes = pool + chosen((uint32_t)(POOL - len));
	it->len = len;
}

/* A route with a list, or with a next hop, of about as many bytes as one may have. */
static void long_container(void)
{
	bool is_hop = chosen(2);
	size_t first = 20000 + chosen(20000);
	made.count = 0;
	random_head(&made, kind_of(24));
	next_call(&made, OPEN, 4)->type = is_hop ? 9 : (uint16_t)(NESTED | chosen(8));
	if (is_hop)
		next_call(&made, HOP, 8);
	put_of(first);
	put_of(65532 - 30 - rounded(first) + chosen(40));
	next_call(&made, CLOSE, 0);
	if (is_hop)
		next_call(&made, CLOSE, 0);
	next_call(&made, END, 0);
}

static void one_sequence(void)
{
	size_t most = chosen(1000) ? 48 + chosen(500) : 150000, whole, largest;
	made.depth = chosen(chosen(4) ? 6 : 33);
	made.left = most;
	if (most > 1000 && chosen(2))
		long_container();
	else
		random_datagram(&made, most);
	whole = most - made.left;
	mutate();
	largest = chosen(4) ? LARGEST : 16 + 4 * chosen((uint32_t)whole / 4 + 1);
	if (!chosen(6))
		made.depth = chosen(made.depth + 1);
	beside_model(made.calls, made.count, some_room(most > 1000 ? LARGEST - 200 : whole), largest,
	             (uint8_t)made.depth, chosen(2));
}

int main(int argc, char **argv)
{
	static const uint8_t codes[] = { RTNLC_OK, RTNLC_TOO_LONG, RTNLC_TOO_DEEP, RTNLC_TOO_LARGE,
		                         RTNLC_MISMATCH, RTNLC_NO_ROOM, RTNLC_NOTHING_OPEN,
		                         RTNLC_STILL_OPEN };
	unsigned long count, at;
	if (argc < 3)
		return 2;
	seed(strtoul(argv[1], NULL, 10));
	count = strtoul(argv[2], NULL, 10);
	for (at = 0; at < count; at++)
		one_sequence();
	printf("%lu sequences, %lu calls;", count, calls_made);
	for (at = 0; at < sizeof codes; at++) {
		printf(" %s %lu", rtnlc_code_name(codes[at]), answered[codes[at]]);
		must(count < 10000 || answered[codes[at]], "each refusal is met");
	}
	putchar('\n');
	return 0;
}
