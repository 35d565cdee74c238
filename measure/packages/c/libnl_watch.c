/* Prints a line for each notification of links, addresses, routes and neighbours, by libnl. */
#include "libnl_text.h"

static void print_route(const char *what, struct rtnl_route *route)
{
	struct rtnl_nexthop *hop = NULL;
	struct nl_addr *gateway = NULL;
	char to[TEXT], by[TEXT], index[TEXT] = "-";

	if (rtnl_route_get_nnexthops(route) == 1) {
		hop = rtnl_route_nexthop_n(route, 0);
		gateway = rtnl_route_nh_get_gateway(hop);
		if (!gateway)
			gateway = rtnl_route_nh_get_via(hop);
		if (rtnl_route_nh_get_ifindex(hop))
			snprintf(index, TEXT, "%d", rtnl_route_nh_get_ifindex(hop));
	}
	printf("%s route %s %s %s\n", what, destination(route, to), address(gateway, by), index);
}

static void print(struct nl_object *object, void *arg)
{
	const char *type = nl_object_get_type(object), *what = arg;
	char one[TEXT], two[TEXT];

	if (!strcmp(type, "route/link")) {
		struct rtnl_link *link = (struct rtnl_link *)object;
		printf("%s link %s %s\n", what, rtnl_link_get_name(link), state(link, one));
	} else if (!strcmp(type, "route/addr")) {
		struct rtnl_addr *addr = (struct rtnl_addr *)object;
		printf("%s addr %s %d\n", what, prefix(rtnl_addr_get_local(addr), one),
		       rtnl_addr_get_ifindex(addr));
	} else if (!strcmp(type, "route/route")) {
		print_route(what, (struct rtnl_route *)object);
	} else if (!strcmp(type, "route/neigh")) {
		struct rtnl_neigh *neigh = (struct rtnl_neigh *)object;
		printf("%s neigh %s %s %d\n", what, address(rtnl_neigh_get_dst(neigh), one),
		       address(rtnl_neigh_get_lladdr(neigh), two), rtnl_neigh_get_ifindex(neigh));
	}
	fflush(stdout);
}

static int got(struct nl_msg *message, void *arg)
{
	int error = 0;

	(void)arg;
	switch (nlmsg_hdr(message)->nlmsg_type) {
	case RTM_NEWLINK:
	case RTM_NEWADDR:
	case RTM_NEWROUTE:
	case RTM_NEWNEIGH:
		error = nl_msg_parse(message, print, "new");
		break;
	case RTM_DELLINK:
	case RTM_DELADDR:
	case RTM_DELROUTE:
	case RTM_DELNEIGH:
		error = nl_msg_parse(message, print, "del");
	}
	return error < 0 ? error : NL_OK;
}

int main(int argc, char **argv)
{
	struct nl_sock *sock = opened_socket(argc > 1 ? argv[1] : NULL);
	int error = 0;

	nl_socket_modify_cb(sock, NL_CB_VALID, NL_CB_CUSTOM, got, NULL);
	while (error >= 0 && !has_ended)
		error = nl_recvmsgs_default(sock);
	nl_socket_free(sock);
	return error < 0 ? failed("watch", error) : 0;
}
