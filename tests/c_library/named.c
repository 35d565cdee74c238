/*
 * The names of message types and attributes: those of the kernel's headers, by the headers' own
 * numbers; none of any other type, flagged number or context; and in each room about what they
 * take, which ends at a page that can't be touched. It prints each name of an attribute, with its
 * context and its number.
 */
#include "answers.h"
#include <sys/socket.h>

#include <linux/fib_rules.h>
#include <linux/if_addr.h>
#include <linux/if_link.h>
#include <linux/neighbour.h>
#include <linux/netlink.h>
#include <linux/rtnetlink.h>

struct named {
	uint8_t context; /* 0 of a type */
	uint16_t number;
	const char *name;
};

#define TYPE(name) { RTNLC_NO_CONTEXT, name, #name }
#define FAMILY(name) TYPE(RTM_NEW##name), TYPE(RTM_DEL##name), TYPE(RTM_GET##name)
#define OF(context, name) { RTNLC_##context, name, #name }

static const struct named types[] = {
	TYPE(NLMSG_NOOP), TYPE(NLMSG_ERROR), TYPE(NLMSG_DONE), TYPE(NLMSG_OVERRUN),
	FAMILY(LINK), TYPE(RTM_SETLINK), FAMILY(ADDR), FAMILY(ROUTE), FAMILY(NEIGH), FAMILY(RULE),
};

/* Some of each context: the first, one that printed text has no name for, and a long one. */
static const struct named attributes[] = {
	OF(LINK, IFLA_ADDRESS), OF(LINK, IFLA_IFNAME), OF(LINK, IFLA_STATS64),
	OF(LINK, IFLA_CARRIER_DOWN_COUNT), OF(LINK_INFO, IFLA_INFO_KIND),
	OF(LINK_INFO, IFLA_INFO_SLAVE_DATA), OF(ADDR, IFA_ADDRESS), OF(ADDR, IFA_RT_PRIORITY),
	OF(ADDR, IFA_TARGET_NETNSID), OF(ROUTE, RTA_DST), OF(ROUTE, RTA_MULTIPATH),
	OF(ROUTE, RTA_TTL_PROPAGATE), OF(ROUTE, RTA_NH_ID), OF(METRICS, RTAX_LOCK),
	OF(METRICS, RTAX_FASTOPEN_NO_COOKIE), OF(NEIGH, NDA_DST), OF(NEIGH, NDA_NDM_FLAGS_MASK),
	OF(RULE, FRA_DST), OF(RULE, FRA_SUPPRESS_PREFIXLEN),
};

static struct rtnlc_put put_name(const struct named *it, char *out, size_t room)
{
	return it->context ? rtnlc_attr_name(it->context, it->number, out, room) :
	                     rtnlc_type_name(it->number, out, room);
}

/* In all room up to more than any name takes. */
static void expect_name(const struct named *it)
{
	const size_t len = strlen(it->name);
	size_t room;
	for (room = 0; room <= RTNLC_NAME + 1; room++) {
		char *out = (char *)out_end - room;
		const size_t put = room >= len ? len : 0;
		memset(out, PAINT, room);
		must(is_put(put_name(it, room ? out : NULL, room), len,
		            room >= len ? (uint8_t)RTNLC_OK : (uint8_t)RTNLC_NO_ROOM),
		     it->name);
		must(is_same(out, it->name, put), it->name);
		must(is_painted(out + put, room - put), "what is behind a name");
	}
}

static void expect_none(const struct named *it)
{
	char *out = (char *)out_end - RTNLC_NAME;
	memset(out, PAINT, RTNLC_NAME);
	must(is_put(put_name(it, out, RTNLC_NAME), 0, RTNLC_END), "a name for nothing");
	must(is_put(put_name(it, NULL, 0), 0, RTNLC_END), "a name for nothing, without room");
	must(is_painted(out, RTNLC_NAME), "what is put for nothing");
}

static void all_types(void)
{
	const struct named *row = types, *end = types + sizeof types / sizeof *types;
	struct named it = { RTNLC_NO_CONTEXT, 0, NULL };
	unsigned long kind;
	for (kind = 0; kind < 65536; kind++) {
		it.number = (uint16_t)kind;
		if (row < end && row->number == kind)
			expect_name(row++);
		else
			expect_none(&it);
	}
	must(row == end, "a type that was not asked for");
}

/* Each name that there is; none of a context that there isn't, or with one of the flag bits. */
static void all_attributes(void)
{
	struct named it = { RTNLC_NO_CONTEXT, 0, NULL };
	unsigned context, number;
	for (context = 1; context < 256; context++)
		for (number = 0; number < 65536; number++) {
			char name[RTNLC_NAME];
			struct rtnlc_put put;
			it.context = (uint8_t)context;
			it.number = (uint16_t)number;
			put = put_name(&it, name, sizeof name);
			if (context >= RTNLC_PLAIN || number == 0 || number > 127)
				expect_none(&it);
			else if (put.code != RTNLC_END)
				printf("%u %u %.*s\n", context, number, (int)put.len, name);
		}
}

int main(void)
{
	size_t at;
	out_end = guarded_end(PAGE);
	for (at = 0; at < sizeof attributes / sizeof *attributes; at++)
		expect_name(attributes + at);
	must(is_put(rtnlc_attr_name(RTNLC_NO_CONTEXT, 1, NULL, 0), 0, RTNLC_END), "no context");
	all_types();
	all_attributes();
	return fflush(stdout) ? 3 : 0;
}
