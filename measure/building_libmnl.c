/* Builds requests for routes by libmnl's calls: with CHECKED by those that look whether there is
 * room. Next hops are put together by hand, since libmnl has no call for them. */
#include "building.h"
#include <libmnl/libmnl.h>

#ifdef CHECKED
#define PUT(head, type, len, data)                                  \
	do {                                                        \
		if (!mnl_attr_put_check(head, ROOM, type, len, data)) \
			exit(1);                                    \
	} while (0)
#else
#define PUT(head, type, len, data) mnl_attr_put(head, type, len, data)
#endif

static struct nlattr *opened(struct nlmsghdr *head, uint16_t type)
{
#ifdef CHECKED
	struct nlattr *nest = mnl_attr_nest_start_check(head, ROOM, type);
	if (!nest)
		exit(1);
	return nest;
#else
	return mnl_attr_nest_start(head, type);
#endif
}

static void next_hop(struct nlmsghdr *head, int at)
{
	struct rtnexthop *hop = mnl_nlmsg_get_payload_tail(head);
	uint32_t address = gateway(254 - at);

#ifdef CHECKED
	if (head->nlmsg_len + sizeof(*hop) > ROOM)
		exit(1);
#endif
	hop->rtnh_flags = 0;
	hop->rtnh_hops = 9;
	hop->rtnh_ifindex = 10 + at;
	head->nlmsg_len += sizeof(*hop);
	PUT(head, RTA_GATEWAY, 4, &address);
	hop->rtnh_len = (uint16_t)((char *)mnl_nlmsg_get_payload_tail(head) - (char *)hop);
}

/* The attributes behind the destination, in the order in which ip(8) sends them. */
static void way_of(struct nlmsghdr *head, int hops, uint32_t priority)
{
	struct nlattr *nest;

	if (hops == 1) {
		uint32_t address = gateway(254), index = 10;
		PUT(head, RTA_GATEWAY, 4, &address);
		PUT(head, RTA_PRIORITY, 4, &priority);
		PUT(head, RTA_OIF, 4, &index);
		return;
	}
	PUT(head, RTA_PRIORITY, 4, &priority);
	nest = opened(head, RTA_MULTIPATH);
	for (int at = 0; at < hops; at++)
		next_hop(head, at);
	mnl_attr_nest_end(head, nest);
}

int main(int argc, char **argv)
{
	static char bytes[ROOM];
	int hops = argc > 1 && !strcmp(argv[1], "two") ? 2 : 1;
	uint32_t number, all = argc > 2 ? (uint32_t)atoi(argv[2]) : 1;

	for (number = 0; number < all; number++) {
		struct nlmsghdr *head = mnl_nlmsg_put_header(bytes);
		uint32_t to = destination(number);

		head->nlmsg_type = RTM_NEWROUTE;
		head->nlmsg_flags = FLAGS;
		head->nlmsg_seq = number;
		*(struct rtmsg *)mnl_nlmsg_put_extra_header(head, sizeof(route)) = route;
		PUT(head, RTA_DST, 4, &to);
		way_of(head, hops, number % 1024);
		if (number == 0)
			print_first((const uint8_t *)bytes, head->nlmsg_len);
		count((const uint8_t *)bytes, head->nlmsg_len);
	}
	printf("%lu\n", sum);
	return 0;
}
