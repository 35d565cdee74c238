/*
 * A library in which two fields of a request are exchanged. EXCHANGED in the environment says
 * which, as `route 3 7` by their places in requests.h. It is linked by --wrap of the five calls;
 * requests.c notices each.
 */
#include "requests.h"

static void exchange(enum asked family, union fields *it)
{
	static const size_t sizes[] = { sizeof(uint8_t), sizeof(uint16_t), sizeof(uint32_t),
		                            sizeof(bool), sizeof(struct rtnlc_bytes) };
	const char *words = getenv("EXCHANGED");
	uint8_t kept[sizeof(struct rtnlc_bytes)], *one, *other;
	char name[8];
	unsigned places[2];
	size_t size;
	must(words && sscanf(words, "%7s %u %u", name, places, places + 1) == 3, "what is exchanged");
	if (strcmp(name, families[family].name))
		return;
	one = field_at(it, families[family].fields + places[0]);
	other = field_at(it, families[family].fields + places[1]);
	size = sizes[families[family].fields[places[0]].type];
	memcpy(kept, one, size);
	memcpy(one, other, size);
	memcpy(other, kept, size);
}

#define CHANGED(name, family)                                                                    \
	struct rtnlc_put __real_rtnlc_request_##name(const struct rtnlc_##name##_request *, uint8_t, \
	                                             uint32_t, bool, uint8_t *, size_t);             \
	struct rtnlc_put __wrap_rtnlc_request_##name(const struct rtnlc_##name##_request *it,        \
	                                             uint8_t operation, uint32_t seq, bool big,      \
	                                             uint8_t *out, size_t room)                      \
	{                                                                                            \
		union fields changed;                                                                    \
		if (it) {                                                                                \
			changed.name = *it;                                                                  \
			exchange(family, &changed);                                                          \
		}                                                                                        \
		return __real_rtnlc_request_##name(it ? &changed.name : NULL, operation, seq, big, out,  \
		                                   room);                                                \
	}

CHANGED(link, LINK)
CHANGED(addr, ADDR)
CHANGED(route, ROUTE)
CHANGED(neigh, NEIGH)
CHANGED(rule, RULE)
