/*
 * The five requests that change something beside what the builder makes of the same fields: random
 * ones in every room and in both orders, every operation, null pointers and empty bytes in each
 * field, lengths of a gateway above 16, what is too long and too large. Buffers, and what is read,
 * end at a page that can't be touched, and all of a buffer is compared, behind a refusal too.
 * usage: requests SEED COUNT
 *        requests pairs: the places of each two fields of one type, as exchanged.c reads them
 */
#include "../c_library/guarded.h"
#include "by_builder.h"
#include "random.h"

/* Room for most requests, and for two of the longest datagrams. */
#define MOST    4096
#define LARGEST (2 * RTNLC_STANDARD_DATAGRAM)
#define LIST    3
#define MANY    (1 << 16)

static uint8_t *out_end, *other_end, *fields_end, *read_end;
static unsigned long compared, answered[256];

/* One request, held against the builder's; in a room of its own. */
static struct rtnlc_put beside(enum asked family, const union fields *it, uint8_t operation,
                               uint32_t seq, bool big, size_t room)
{
	uint8_t *out = out_end - room, *other = other_end - room;
	const size_t size = families[family].size;
	struct rtnlc_builder b;
	struct rtnlc_put put, wanted;
	memset(out, PAINT, room);
	memset(other, PAINT, room);
	if (it)
		it = (const union fields *)memcpy(fields_end - size, it, size);
	put = put_request(family, it, operation, seq, big, room ? out : NULL, room);
	compared++;
	answered[put.code]++;
	if (!it || operation >= OPERATIONS) {
		must(put.code == RTNLC_MISMATCH && put.len == 0, "the code of no request");
		must(is_painted(out, room), "no request writes nothing");
		return put;
	}
	b = by_builder(family, it, operation, seq, big, other, room);
	wanted = rtnlc_builder_finish(&b);
	must(put.code == wanted.code, "the code");
	must(put.len == wanted.len, "the length");
	must(!memcmp(out, other, room), "the bytes");
	must(is_painted(out + b.built.len, room - b.built.len), "what is behind them");
	return put;
}

/* In every room up to some more than it takes. */
static void in_every_room(enum asked family, const union fields *it, uint8_t operation, bool big)
{
	struct rtnlc_put whole = beside(family, it, operation, 7, big, LARGEST);
	size_t room;
	must(whole.code == RTNLC_OK && whole.len % 4 == 0, "a whole request");
	for (room = 0; room <= whole.len + 5; room++) {
		struct rtnlc_put put = beside(family, it, operation, 0xfffefdfc, big, room);
		must(put.code == (room < whole.len ? RTNLC_NO_ROOM : RTNLC_OK), "the room");
	}
}

static struct rtnlc_bytes some_bytes(void)
{
	static const size_t lengths[] = { 0, 4, 16, 6, 1, 5, 15, 40 };
	struct rtnlc_bytes it;
	it.len = lengths[chosen(8)];
	it.at = chosen(6) ? read_end - it.len : NULL;
	if (chosen(2))
		it.at = pool + chosen(POOL / 2);
	return it;
}

static void random_lists(union fields *it)
{
	static struct rtnlc_metric *metrics;
	static struct rtnlc_next_hop *hops;
	size_t at;
	if (!metrics) {
		metrics = (struct rtnlc_metric *)guarded_end(PAGE) - LIST;
		hops = (struct rtnlc_next_hop *)guarded_end(PAGE) - LIST;
	}
	for (at = 0; at < LIST; at++) {
		metrics[at].number = (uint16_t)chosen(16384);
		metrics[at].value = chosen(UINT32_MAX);
		memcpy(hops + at, pool + chosen(POOL / 2), sizeof *hops);
		hops[at].gateway_len = (uint8_t)(chosen(2) ? 4 * chosen(5) : chosen(256));
	}
	it->route.metric_count = chosen(LIST + 1);
	it->route.metrics = chosen(6) ? metrics + LIST - it->route.metric_count : NULL;
	it->route.hop_count = chosen(LIST + 1);
	it->route.hops = chosen(6) ? hops + LIST - it->route.hop_count : NULL;
}

static union fields random_fields(enum asked family)
{
	const struct family *of = families + family;
	union fields it;
	size_t at;
	memset(&it, 0, sizeof it);
	for (at = 0; at < of->count; at++) {
		const struct field *field = of->fields + at;
		struct rtnlc_bytes bytes = some_bytes();
		if (field->type == IS_BYTES)
			memcpy(field_at(&it, field), &bytes, sizeof bytes);
		else if (field->type == IS_BOOL)
			set_number(&it, field, chosen(2));
		else if (field->type < IS_BOOL)
			set_number(&it, field, chosen(3) ? chosen(UINT32_MAX) : chosen(300));
	}
	if (family == ROUTE)
		random_lists(&it);
	return it;
}

/* Fields that are all there, of which no two hold the same. */
static union fields full_fields(enum asked family)
{
	static const struct rtnlc_metric metrics[] = { { RTAX_MTU, 1400 }, { RTAX_HOPLIMIT, 20 } };
	static const struct rtnlc_next_hop hops[] = {
		{ 10, RTNH_F_ONLINK, 9, 4, { 192, 0, 2, 254 } },
		{ -2, 0, 255, 16, { 0x20, 1, 0x0d, 0xb8, 0, 1, 2, 3, 4, 5, 6, 7, 8, 9, 10, 11 } },
		{ 11, 0, 0, 0, { 1 } },
	};
	const struct family *of = families + family;
	union fields it;
	size_t at;
	memset(&it, 0, sizeof it);
	for (at = 0; at < of->count; at++) {
		const struct field *field = of->fields + at;
		struct rtnlc_bytes bytes;
		bytes.at = pool + 64 * at;
		bytes.len = 3 + at;
		if (field->type == IS_BYTES)
			memcpy(field_at(&it, field), &bytes, sizeof bytes);
		else if (field->type <= IS_BOOL)
			set_number(&it, field, (uint32_t)(0x10203040 * (at + 1) + 0x35 * at));
	}
	if (family == ROUTE) {
		it.route.metrics = metrics;
		it.route.metric_count = COUNT_OF(metrics);
		it.route.hops = hops;
		it.route.hop_count = COUNT_OF(hops);
	}
	return it;
}

static void every_operation(enum asked family)
{
	const union fields it = full_fields(family);
	unsigned operation;
	for (operation = 0; operation < 256; operation++) {
		beside(family, &it, (uint8_t)operation, 1, operation % 2, MOST);
		beside(family, NULL, (uint8_t)operation, 1, operation % 2, MOST);
		beside(family, NULL, (uint8_t)operation, 1, operation % 2, 0);
	}
}

/* A null pointer, whatever the length, and a pointer to no bytes, in each field in turn and in all
 * at once. */
static void empty_fields(enum asked family)
{
	const struct family *of = families + family;
	union fields none = full_fields(family);
	size_t at;
	for (at = 0; at < of->count; at++) {
		const struct field *field = of->fields + at;
		const bool is_list = field->type == IS_METRICS || field->type == IS_HOPS;
		union fields it = full_fields(family);
		struct rtnlc_bytes null, empty;
		null.at = NULL;
		null.len = 9;
		empty.at = pool;
		empty.len = 0;
		if (field->type != IS_BYTES && !is_list)
			continue;
		memcpy(field_at(&it, field), &null, sizeof null);
		in_every_room(family, &it, RTNLC_ADD, at % 2);
		memcpy(field_at(&none, field), &null, sizeof null);
		in_every_room(family, &none, RTNLC_ADD, at % 2);
		/* A list begins where any does: it has its pointer still. */
		it = full_fields(family);
		if (is_list)
			memset((uint8_t *)field_at(&it, field) + sizeof(void *), 0, sizeof(size_t));
		else
			memcpy(field_at(&it, field), &empty, sizeof empty);
		in_every_room(family, &it, RTNLC_DELETE, at % 2);
	}
	memset(&none, 0, sizeof none);
	in_every_room(family, &none, RTNLC_ADD, false);
}

static void gateways(void)
{
	union fields it = full_fields(ROUTE);
	struct rtnlc_next_hop hop = { 3, 1, 2, 0, { 1, 2, 3, 4, 5, 6, 7, 8, 9, 10, 11, 12, 13, 14 } };
	unsigned len;
	it.route.hops = &hop;
	it.route.hop_count = 1;
	for (len = 0; len < 256; len++) {
		hop.gateway_len = (uint8_t)len;
		in_every_room(ROUTE, &it, RTNLC_REPLACE, len % 2);
	}
}

static void metrics(void)
{
	union fields it = full_fields(ROUTE);
	struct rtnlc_metric metric = { 0, 5 };
	unsigned number;
	it.route.metrics = &metric;
	it.route.metric_count = 1;
	for (number = 0; number <= UINT16_MAX; number++) {
		metric.number = (uint16_t)number;
		must(beside(ROUTE, &it, RTNLC_ADD, 1, number % 2, 2 * MOST / 8).code ==
		         (number < 16384 ? RTNLC_OK : RTNLC_MISMATCH),
		     "a metric's number");
	}
}

/* As many as fill the longest datagram, one more, and very many. */
static void long_lists(void)
{
	static struct rtnlc_next_hop hops[MANY];
	static struct rtnlc_metric many[MANY];
	const size_t longest[] = { (RTNLC_STANDARD_DATAGRAM - 32) / 16,
		                       (RTNLC_STANDARD_DATAGRAM - 32) / 8 };
	size_t at, list, counts[3];
	for (at = 0; at < MANY; at++) {
		hops[at].gateway_len = 4;
		hops[at].index = (int32_t)at;
		many[at].number = (uint16_t)(at % 16384);
	}
	for (list = 0; list < 2; list++) {
		counts[0] = longest[list];
		counts[1] = longest[list] + 1;
		counts[2] = MANY;
		for (at = 0; at < 3; at++) {
			union fields it;
			struct rtnlc_put put;
			memset(&it, 0, sizeof it);
			it.route.hops = hops;
			it.route.metrics = many;
			it.route.hop_count = list ? 0 : counts[at];
			it.route.metric_count = list ? counts[at] : 0;
			put = beside(ROUTE, &it, RTNLC_ADD, 1, false, LARGEST);
			must(put.code == (at ? RTNLC_TOO_LARGE : RTNLC_OK), "the longest list");
			must(put.len == (at ? 0 : RTNLC_STANDARD_DATAGRAM), "its length");
			put = beside(ROUTE, &it, RTNLC_ADD, 1, true, RTNLC_STANDARD_DATAGRAM - 1);
			must(put.code == RTNLC_NO_ROOM, "the longest list without room");
		}
	}
}

/* Bytes of about the longest attribute, in each field that holds some. */
static void long_bytes(enum asked family)
{
	const struct family *of = families + family;
	size_t at, len;
	for (at = 0; at < of->count; at++) {
		const struct field *field = of->fields + at;
		for (len = 65470; field->type == IS_BYTES && len < 65540; len++) {
			struct rtnlc_bytes it;
			union fields whole;
			memset(&whole, 0, sizeof whole);
			it.at = pool;
			it.len = 1;
			/* The data of a link stand behind its kind. */
			if (family == LINK)
				whole.link.kind = it;
			it.len = len;
			memcpy(field_at(&whole, field), &it, sizeof it);
			beside(family, &whole, RTNLC_ADD, 1, len % 2, LARGEST);
			beside(family, &whole, RTNLC_ADD, 1, len % 2, 64);
		}
	}
}

/* One request of each family behind another: the library reads five messages. */
static void together(void)
{
	uint8_t *out = out_end - MOST;
	struct rtnlc_checked checked;
	size_t len = 0, place = 0, family;
	for (family = 0; family < FAMILIES; family++) {
		union fields it = full_fields((enum asked)family);
		struct rtnlc_put put = put_request((enum asked)family, &it, RTNLC_DELETE, (uint32_t)family,
		                                   false, out + len, MOST - len);
		must(!put.code, "room for one more");
		len += put.len;
	}
	for (family = 0; family < FAMILIES; family++) {
		struct rtnlc_message it = rtnlc_message_at(out, len, (uint32_t)place, false);
		must(!it.code && it.seq == family && it.port == 0, "a message of several");
		must(it.kind == delete_types[family] && it.flags == ASKS, "its type and flags");
		place = it.next;
	}
	checked = rtnlc_check(out, len, NULL);
	must(place == len && !checked.code && checked.canonical, "several requests");
}

static void print_pairs(const struct family *of)
{
	size_t one, other;
	for (other = 0; other < of->count; other++)
		for (one = 0; one < other; one++)
			if (of->fields[one].type == of->fields[other].type && of->fields[one].type <= IS_BYTES)
				printf("%s %u %u\n", of->name, (unsigned)one, (unsigned)other);
}

/* All of a family by itself, with so many random requests. */
static void pass_family(enum asked family, size_t count)
{
	union fields it = full_fields(family);
	size_t number;
	in_every_room(family, &it, RTNLC_ADD, false);
	for (number = 0; number < count; number++) {
		it = random_fields(family);
		in_every_room(family, &it, (uint8_t)chosen(OPERATIONS), number % 2);
	}
	every_operation(family);
	empty_fields(family);
	long_bytes(family);
}

int main(int argc, char **argv)
{
	const bool is_pairs = argc > 1 && !strcmp(argv[1], "pairs");
	size_t family, count = argc > 2 ? (size_t)atoi(argv[2]) : 100;
	out_end = guarded_end(LARGEST);
	other_end = guarded_end(LARGEST);
	fields_end = guarded_end(PAGE);
	read_end = guarded_end(PAGE);
	seed(argc > 1 ? (uint64_t)atoi(argv[1]) : 1);
	memcpy(read_end - PAGE, pool, PAGE);
	for (family = 0; family < FAMILIES; family++)
		if (is_pairs)
			print_pairs(families + family);
		else
			pass_family((enum asked)family, count);
	if (is_pairs)
		return 0;
	gateways();
	metrics();
	long_lists();
	together();
	must(answered[RTNLC_TOO_LONG] && answered[RTNLC_TOO_LARGE], "what is too long");
	printf("%lu requests\n", compared);
	return 0;
}
