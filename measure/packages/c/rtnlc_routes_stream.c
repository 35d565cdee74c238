/* Prints a line for each next hop of each route of two dumps, by our library: as they come. */
#include "rtnlc_route.h"

int main(int argc, char **argv)
{
	struct rtnlc_stream dumps;

	file = opened(argc > 1 ? argv[1] : NULL);
	check(rtnlc_stream_new(&dumps, &options), 0);
	stream(&dumps, RTM_GETLINK, AF_UNSPEC, 1, keep_name);
	stream(&dumps, RTM_GETROUTE, AF_INET, 2, print_route);
	stream(&dumps, RTM_GETROUTE, AF_INET6, 3, print_route);
	return 0;
}
