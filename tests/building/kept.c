/*
 * What C keeps of a builder, with a field of it changed. Where the header says that this is no
 * builder, a call says so, and changes nothing; else the call does what the model does that begins
 * there. Nothing is ever written at the room or behind it.
 * usage: kept SEED COUNT
 */
#include "beside_model.h"

static struct made made;
static unsigned long taken, refused;

/* ---- What the header says of struct rtnlc_built ---- */

static bool has_limits(const struct rtnlc_built *it)
{
	return it->total <= 1ull << 40 && it->entries <= 65536 && it->depth <= 32 && it->big <= 1 &&
	       it->datagram % 4 == 0 && it->datagram >= 16 && it->datagram <= 1048576;
}

static bool is_refusal(uint8_t code)
{
	static const uint8_t codes[] = { 0, RTNLC_TOO_LONG, RTNLC_TOO_DEEP, RTNLC_TOO_LARGE,
		                         RTNLC_MISMATCH, RTNLC_NO_ROOM, RTNLC_NOTHING_OPEN,
		                         RTNLC_STILL_OPEN };
	return memchr(codes, code, sizeof codes) != NULL;
}

/* An open head is among the accepted bytes, and what stands behind it no deeper than allowed. */
static bool is_open_head(const struct rtnlc_built *it, size_t at)
{
	uint8_t content = it->contents[at];
	size_t levels = at + (content == RTNLC_HOPS_BEHIND);
	return content <= RTNLC_HOPS_BEHIND && levels <= it->depth &&
	       (uint64_t)it->starts[at] + 4 <= it->len;
}

static bool is_builder(const struct rtnlc_built *it, size_t room)
{
	size_t at;
	if (!has_limits(it) || !is_refusal(it->refusal) || it->len > room ||
	    it->len > it->datagram || it->count > it->depth + 1)
		return false;
	for (at = 0; at < it->count; at++)
		if (!is_open_head(it, at))
			return false;
	return true;
}

/* ---- The model that begins there ---- */

static struct model model_of(const struct rtnlc_built *it, size_t room)
{
	static const uint8_t places[] = { IN_OTHER, IN_LINK,  IN_OTHER, IN_ADDR, IN_ROUTE,
		                          IN_OTHER, IN_NEIGH, IN_RULE,  IN_OTHER, IN_ROUTE };
	struct model m = { expected, it->len,    room,        it->datagram, it->count,
		           it->depth, it->big != 0, it->refusal, { { 0, BYTES, IN_LINK } } };
	size_t at;
	for (at = 0; at < it->count; at++) {
		m.heads[at].start = it->starts[at];
		m.heads[at].holds = it->contents[at] == RTNLC_HOPS_BEHIND ? HOPS
		                    : it->contents[at]                    ? LIST
		                                                          : BYTES;
		m.heads[at].place = (enum place)places[it->contents[at]];
	}
	memcpy(expected, block, room + GUARD);
	return m;
}

static bool is_kept(const struct rtnlc_built *it, const struct model *m)
{
	size_t at;
	if (it->len != m->len || it->count != m->open || it->refusal != m->refusal ||
	    it->depth != m->depth || it->datagram != m->largest || it->big != m->big)
		return false;
	for (at = 0; at < m->open; at++)
		if (it->starts[at] != m->heads[at].start)
			return false;
	return true;
}

/* ---- Changes ---- */

static uint32_t changed_number(uint32_t number)
{
	static const uint32_t others[] = { 0, 1, 4, 9, 10, 16, 33, 34, 255, 1048576, UINT32_MAX };
	uint32_t way = chosen(4);
	if (way < 2)
		return way ? number + 1 : number - 1;
	return way == 2 ? chosen(64) : others[chosen(sizeof others / sizeof *others)];
}

static void change(struct rtnlc_built *it)
{
	uint32_t at = chosen(chosen(3) ? it->count + 1u : 33u) % 33;
	switch (chosen(10)) {
	case 0:
		it->len = changed_number(it->len);
		break;
	case 1:
		it->starts[at] = changed_number(it->starts[at]);
		break;
	case 2:
		it->contents[at] = (uint8_t)changed_number(it->contents[at]);
		break;
	case 3:
		it->count = (uint8_t)changed_number(it->count);
		break;
	case 4:
		it->depth = (uint8_t)changed_number(it->depth);
		break;
	case 5:
		it->refusal = (uint8_t)changed_number(it->refusal);
		break;
	case 6:
		it->big = (uint8_t)changed_number(it->big);
		break;
	case 7:
		it->datagram = changed_number(it->datagram);
		break;
	case 8:
		it->entries = changed_number(it->entries);
		break;
	default:
		it->total = chosen(2) ? 1ull << 40 : (1ull << 40) + 1;
	}
}

/* A builder in the midst of a random datagram. */
static struct rtnlc_builder begun_builder(size_t room)
{
	struct rtnlc_options options = { RTNLC_STANDARD_TOTAL, LARGEST, 4096, 0, false, { 0 } };
	struct rtnlc_builder b;
	size_t at, count;
	made.depth = chosen(8);
	options.depth = (uint8_t)made.depth;
	random_datagram(&made, 48 + chosen(400));
	count = chosen((uint32_t)made.count + 1);
	memset(block, PAINT, room + GUARD);
	must(!rtnlc_builder_new(&b, &options, block, room), "a builder");
	for (at = 0; at < count; at++)
		must(!called(&b, &made.calls[at]), "a call");
	return b;
}

static void one_change(void)
{
	size_t room = 512 + chosen(200);
	struct rtnlc_builder b = begun_builder(room);
	struct rtnlc_built kept;
	const struct call *it = &made.calls[chosen((uint32_t)made.count)];
	struct model m;
	uint8_t code;
	do
		change(&b.built);
	while (!chosen(3));
	kept = b.built;
	memcpy(before, block, room + GUARD);
	if (!is_builder(&kept, room)) {
		must(called(&b, it) == RTNLC_NO_BUILDER, "what is no builder");
		must(rtnlc_builder_finish(&b).code == RTNLC_NO_BUILDER, "what has no end");
		must(!memcmp(&kept, &b.built, sizeof kept), "what is kept of no builder");
		must(!memcmp(block, before, room + GUARD), "no builder writes nothing");
		refused++;
		return;
	}
	m = model_of(&kept, room);
	code = modelled(&m, it);
	must(called(&b, it) == code, "what a changed builder answers");
	must(is_kept(&b.built, &m), "what is kept of a changed builder");
	must(!memcmp(block, code ? before : expected, room + GUARD), "what a changed builder writes");
	taken++;
}

int main(int argc, char **argv)
{
	unsigned long count, at;
	if (argc < 3)
		return 2;
	seed(strtoul(argv[1], NULL, 10));
	count = strtoul(argv[2], NULL, 10);
	for (at = 0; at < count; at++)
		one_change();
	printf("%lu changed builders: %lu no builder, %lu taken\n", count, refused, taken);
	must(refused && taken, "both are met");
	return 0;
}
