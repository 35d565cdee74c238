/* Prints a line for each notification of links, addresses, routes and neighbours, by our
 * library. */
#include "rtnlc_dump.h"

static void print(uint16_t kind, struct part body)
{
	const char *what = kind % 4 == 0 ? "new" : "del";
	struct part attrs = part_attrs(body, kind);
	char one[PART_TEXT], two[PART_TEXT], index[PART_TEXT];
	struct ifaddrmsg addr;
	struct ndmsg neigh;

	switch (kind) {
	case RTM_NEWLINK:
	case RTM_DELLINK:
		printf("%s link %s %s\n", what, part_name(part_find(attrs, IFLA_IFNAME), one),
		       part_state(attrs));
		break;
	case RTM_NEWADDR:
	case RTM_DELADDR:
		memcpy(&addr, body.bytes, sizeof addr);
		printf("%s addr %s/%u %u\n", what, part_address(part_find(attrs, IFA_ADDRESS), one),
		       addr.ifa_prefixlen, addr.ifa_index);
		break;
	case RTM_NEWROUTE:
	case RTM_DELROUTE:
		printf("%s route %s %s %s\n", what, part_destination(body, one), part_gateway(attrs, two),
		       part_number(part_find(attrs, RTA_OIF), index));
		break;
	case RTM_NEWNEIGH:
	case RTM_DELNEIGH:
		memcpy(&neigh, body.bytes, sizeof neigh);
		printf("%s neigh %s %s %d\n", what, part_address(part_find(attrs, NDA_DST), one),
		       part_hardware(part_find(attrs, NDA_LLADDR), two), neigh.ndm_ifindex);
	}
	fflush(stdout);
}

int main(int argc, char **argv)
{
	size_t len;

	file = opened(argc > 1 ? argv[1] : NULL);
	while ((len = next(file))) {
		struct rtnlc_taped taped = rtnlc_tape(datagram, len, &options, events, LONGEST / 4);

		check(taped.code, taped.place);
		for (size_t at = 0; at < taped.count; at++)
			if (events[at].sort == RTNLC_MESSAGE)
				print(events[at].number, part_body(datagram, events + at));
	}
	return 0;
}
