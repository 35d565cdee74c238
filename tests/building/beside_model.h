/*
 * Runs calls beside the model: each answers what the model does, a refused one changes no byte,
 * none changes a byte behind what is accepted or behind the room, and what is handed out at the
 * end is the model's.
 */
#ifndef BESIDE_MODEL_H
#define BESIDE_MODEL_H

#include "model.h"

/* Bytes behind the room, which nobody touches, and what all bytes are before. */
#define GUARD 64
#define PAINT 0xa5
#define LARGEST (1u << 20)

static uint8_t block[LARGEST + GUARD], before[LARGEST + GUARD], expected[LARGEST + GUARD];
/* How often each code was answered first. */
static unsigned long answered[256];
static unsigned long calls_made;

static inline void one_call(struct rtnlc_builder *b, struct model *m, const struct call *it)
{
	uint8_t earlier = m->refusal, wanted = modelled(m, it), code = called(b, it);
	if (code != wanted)
		fprintf(stderr, "call %d: %u, not %u\n", (int)it->verb, code, wanted);
	must(code == wanted, "a call's answer");
	if (code)
		must(!memcmp(block, before, m->room + GUARD), "a refused call changes nothing");
	else
		must(!memcmp(block + m->len, before + m->len, m->room + GUARD - m->len),
		     "a call changes nothing behind what is accepted");
	if (!code)
		memcpy(before, block, m->len);
	answered[code] += !earlier;
	calls_made++;
}

/* These calls, in so much room and within these limits. */
static inline void beside_model(const struct call *calls, size_t count, size_t room,
                                size_t largest, uint8_t depth, bool big)
{
	struct rtnlc_options options = { RTNLC_STANDARD_TOTAL, (uint32_t)largest,
		                         RTNLC_STANDARD_ENTRIES, depth, big, { 0 } };
	struct model m = { expected, 0, room, largest, 0, depth, big, 0, { { 0, BYTES, IN_LINK } } };
	struct rtnlc_builder b;
	struct rtnlc_put put;
	uint8_t wanted;
	size_t at;
	memset(block, PAINT, room + GUARD);
	memset(before, PAINT, room + GUARD);
	must(!rtnlc_builder_new(&b, &options, room ? block : NULL, room), "a builder");
	for (at = 0; at < count; at++)
		one_call(&b, &m, &calls[at]);
	put = rtnlc_builder_finish(&b);
	wanted = m.refusal ? m.refusal : m.open ? RTNLC_STILL_OPEN : RTNLC_OK;
	must(put.code == wanted, "what the end answers");
	must(wanted ? put.len == 0 : put.len == m.len && !memcmp(block, expected, m.len),
	     "what is handed out");
	must(!memcmp(block, before, room + GUARD), "the end changes nothing");
}

#endif
