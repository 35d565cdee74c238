/* Builds requests for routes by the builder of our C library. */
#include "building.h"
#include <rtnlc.h>

/* The attributes behind the destination, in the order in which ip(8) sends them. */
static void way_of(struct rtnlc_builder *b, int hops, uint32_t priority)
{
	if (hops == 1) {
		uint32_t address = gateway(254);
		rtnlc_builder_put(b, RTA_GATEWAY, &address, 4);
		rtnlc_builder_put_u32(b, RTA_PRIORITY, priority);
		rtnlc_builder_put_u32(b, RTA_OIF, 10);
		return;
	}
	rtnlc_builder_put_u32(b, RTA_PRIORITY, priority);
	rtnlc_builder_open(b, RTA_MULTIPATH | NLA_F_NESTED);
	for (int at = 0; at < hops; at++) {
		uint32_t address = gateway(254 - at);
		rtnlc_builder_open_hop(b, 0, 9, 10 + at);
		rtnlc_builder_put(b, RTA_GATEWAY, &address, 4);
		rtnlc_builder_close(b);
	}
	rtnlc_builder_close(b);
}

int main(int argc, char **argv)
{
	static uint8_t bytes[ROOM];
	int hops = argc > 1 && !strcmp(argv[1], "two") ? 2 : 1;
	uint32_t number, all = argc > 2 ? (uint32_t)atoi(argv[2]) : 1;
	struct rtnlc_builder b;

	for (number = 0; number < all; number++) {
		uint32_t to = destination(number);
		struct rtnlc_put put;

		rtnlc_builder_new(&b, NULL, bytes, sizeof bytes);
		rtnlc_builder_begin(&b, RTM_NEWROUTE, FLAGS, number, 0, &route, sizeof route);
		rtnlc_builder_put(&b, RTA_DST, &to, 4);
		way_of(&b, hops, number % 1024);
		rtnlc_builder_end(&b);
		put = rtnlc_builder_finish(&b);
		if (put.code)
			return 1;
		if (number == 0)
			print_first(bytes, put.len);
		count(bytes, put.len);
	}
	printf("%lu\n", sum);
	return 0;
}
