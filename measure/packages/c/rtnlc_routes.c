/* Prints a line for each next hop of each route of two dumps, by our library: from tables. */
#include "rtnlc_route.h"

int main(int argc, char **argv)
{
	static const uint8_t families[] = { AF_INET, AF_INET6 };
	struct rtnlc_session session = { 0 };
	struct part body;

	file = opened(argc > 1 ? argv[1] : NULL);
	check(rtnlc_session_new(&session, &options), 0);
	dump(&session, RTM_GETLINK, AF_UNSPEC, 1);
	for (uint32_t at = 0; (body = entry(&session, RTM_NEWLINK, at)).len; at++)
		keep_name(body);
	for (uint32_t i = 0; i < 2; i++) {
		dump(&session, RTM_GETROUTE, families[i], 2 + i);
		for (uint32_t at = 0; (body = entry(&session, RTM_NEWROUTE, at)).len; at++)
			print_route(body);
	}
	rtnlc_session_free(&session);
	return 0;
}
