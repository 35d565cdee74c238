/* The lines of a route. */
#include "rtnlc_dump.h"

/* The names of links by their numbers, of which this many are kept. */
#define NAMES 4096
static char names[NAMES][IF_NAMESIZE];

static void keep_name(struct part body)
{
	char text[PART_TEXT];
	struct ifinfomsg link;

	memcpy(&link, body.bytes, sizeof link);
	part_name(part_find(part_attrs(body, RTM_NEWLINK), IFLA_IFNAME), text);
	if ((unsigned)link.ifi_index < NAMES)
		snprintf(names[link.ifi_index], IF_NAMESIZE, "%.15s", text);
}

static void print_hop(const char *to, struct part attrs, uint32_t index, uint32_t table)
{
	char by[PART_TEXT];

	printf("%s %s %s %u\n", to, part_gateway(attrs, by),
	       index < NAMES && *names[index] ? names[index] : "-", table);
}

/* A line for each next hop. */
static void print_route(struct part body)
{
	struct part attrs = part_attrs(body, RTM_NEWROUTE), hops = part_find(attrs, RTA_MULTIPATH);
	struct rtnlc_hop hop = { .code = RTNLC_OK };
	char text[PART_TEXT];
	const char *to = part_destination(body, text);
	struct rtmsg route;

	memcpy(&route, body.bytes, sizeof route);
	uint32_t table = part_u32(part_find(attrs, RTA_TABLE), route.rtm_table);
	if (!hops.len)
		print_hop(to, attrs, part_u32(part_find(attrs, RTA_OIF), 0), table);
	while ((hop = rtnlc_hop_at(hops.bytes, hops.len, hop.next, SOURCE_BIG)).code == RTNLC_OK) {
		struct part inside = { hops.bytes + hop.place + sizeof(struct rtnexthop), hop.len };
		print_hop(to, inside, hop.ifindex, table);
	}
}
