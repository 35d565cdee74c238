/* Prints a line for each next hop of each route of two dumps, by libnl. */
#include "libnl_text.h"

struct line {
	struct nl_cache *links;
	struct rtnl_route *route;
};

static void print_hop(struct rtnl_nexthop *hop, void *arg)
{
	struct line *line = arg;
	char to[TEXT], by[TEXT], name[TEXT];
	struct nl_addr *gateway = hop ? rtnl_route_nh_get_gateway(hop) : NULL;

	if (hop && !gateway)
		gateway = rtnl_route_nh_get_via(hop);
	if (!hop || !rtnl_link_i2name(line->links, rtnl_route_nh_get_ifindex(hop), name, TEXT))
		strcpy(name, "-");
	printf("%s %s %s %u\n", destination(line->route, to), address(gateway, by), name,
	       rtnl_route_get_table(line->route));
}

static void print(struct nl_object *object, void *links)
{
	struct line line = { links, (struct rtnl_route *)object };

	if (rtnl_route_get_nnexthops(line.route))
		rtnl_route_foreach_nexthop(line.route, print_hop, &line);
	else
		print_hop(NULL, &line);
}

int main(int argc, char **argv)
{
	static const int families[] = { AF_INET, AF_INET6 };
	struct nl_sock *sock = opened_socket(argc > 1 ? argv[1] : NULL);
	struct nl_cache *links, *routes;
	int error = rtnl_link_alloc_cache(sock, AF_UNSPEC, &links);

	if (error < 0)
		return failed("links", error);
	for (int i = 0; i < 2; i++) {
		error = rtnl_route_alloc_cache(sock, families[i], 0, &routes);
		if (error < 0)
			return failed("routes", error);
		nl_cache_foreach(routes, print, links);
		nl_cache_free(routes);
	}
	nl_cache_free(links);
	nl_socket_free(sock);
	return 0;
}
