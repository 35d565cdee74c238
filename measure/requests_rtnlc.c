/* Builds requests for routes by the one call of our C library that puts each of them. */
#include "building.h"
#include <rtnlc.h>

/* What is the same in each request, with one next hop or two: it stands here once. */
static struct rtnlc_route_request begin(int hops)
{
	static uint32_t last;
	static struct rtnlc_next_hop two[2] = { { 10, 0, 9, 4, { 0 } }, { 11, 0, 9, 4, { 0 } } };
	struct rtnlc_route_request request = {
		.family = route.rtm_family,
		.destination_length = route.rtm_dst_len,
		.table = route.rtm_table,
		.protocol = route.rtm_protocol,
		.route_type = route.rtm_type,
		.has_priority = true,
	};

	if (hops == 1) {
		last = gateway(254);
		request.gateway = (struct rtnlc_bytes){ &last, 4 };
		request.oif = 10;
		request.has_oif = true;
		return request;
	}
	for (int at = 0; at < hops; at++) {
		uint32_t address = gateway(254 - at);
		memcpy(two[at].gateway, &address, 4);
	}
	request.hops = two;
	request.hop_count = 2;
	return request;
}

int main(int argc, char **argv)
{
	static uint8_t bytes[ROOM];
	int hops = argc > 1 && !strcmp(argv[1], "two") ? 2 : 1;
	uint32_t number, all = argc > 2 ? (uint32_t)atoi(argv[2]) : 1;
	uint32_t to;
	struct rtnlc_route_request request = begin(hops);

	request.destination = (struct rtnlc_bytes){ &to, 4 };
	for (number = 0; number < all; number++) {
		struct rtnlc_put put;

		to = destination(number);
		request.priority = number % 1024;
		put = rtnlc_request_route(&request, RTNLC_ADD, number, false, bytes, sizeof bytes);
		if (put.code)
			return 1;
		if (number == 0)
			print_first(bytes, put.len);
		count(bytes, put.len);
	}
	printf("%lu\n", sum);
	return 0;
}
