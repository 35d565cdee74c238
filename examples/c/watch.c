/* Prints what changes of links, addresses, routes and neighbours, as the kernel says it.
 * cc watch.c $(pkg-config --cflags --libs rtnlc) -o watch && ./watch [SOCKET] */
#include "source.h"
#include "parts.h"

static const uint32_t groups = RTMGRP_LINK | RTMGRP_NEIGH | RTMGRP_IPV4_IFADDR |
                               RTMGRP_IPV6_IFADDR | RTMGRP_IPV4_ROUTE | RTMGRP_IPV6_ROUTE;

/* Of a message of links, addresses, routes or neighbours. A head needn't be aligned. */
static void print_change(uint16_t kind, struct part body)
{
	const char *verb = kind % 4 == 0 ? "new" : "del";
	const struct part attrs = part_attrs(body, kind);
	char one[PART_TEXT], other[PART_TEXT], index[PART_TEXT];
	struct ifaddrmsg addr;
	struct ndmsg neigh;
	switch (kind) {
	case RTM_NEWLINK: case RTM_DELLINK:
		printf("%s link %s %s\n", verb, part_name(part_find(attrs, IFLA_IFNAME), one),
		       part_state(attrs));
		break;
	case RTM_NEWADDR: case RTM_DELADDR:
		memcpy(&addr, body.bytes, sizeof addr);
		printf("%s addr %s/%u %u\n", verb, part_address(part_find(attrs, IFA_ADDRESS), one),
		       addr.ifa_prefixlen, (unsigned)addr.ifa_index);
		break;
	case RTM_NEWROUTE: case RTM_DELROUTE:
		printf("%s route %s %s %s\n", verb, part_destination(body, one),
		       part_gateway(attrs, other), part_number(part_find(attrs, RTA_OIF), index));
		break;
	case RTM_NEWNEIGH: case RTM_DELNEIGH:
		memcpy(&neigh, body.bytes, sizeof neigh);
		printf("%s neigh %s %s %d\n", verb, part_address(part_find(attrs, NDA_DST), one),
		       part_hardware(part_find(attrs, NDA_LLADDR), other), neigh.ndm_ifindex);
	}
	fflush(stdout);
}

int main(int count, char **words)
{
	static struct rtnlc_event events[RTNLC_STANDARD_DATAGRAM / 4];
	static struct source source = { .program = "watch" };
	source_open(&source, count, words, groups);
	while (source_next(&source, true)) {
		struct rtnlc_taped taped = rtnlc_tape(source.bytes, source.len, &source_options, events,
		                                      sizeof events / sizeof *events);
		source_check(&source, taped.code, taped.place);
		for (size_t at = 0; at < taped.count; at++)
			if (events[at].sort == RTNLC_MESSAGE)
				print_change(events[at].number, part_body(source.bytes, events + at));
	}
	return source_close(&source);
}
