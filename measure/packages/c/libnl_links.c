/* Prints a line for each interface of a dump, by libnl. */
#include "libnl_text.h"

static void print(struct nl_object *object, void *arg)
{
	struct rtnl_link *link = (struct rtnl_link *)object;
	char word[TEXT], hardware[TEXT];

	(void)arg;
	printf("%s %s %u %s\n", rtnl_link_get_name(link), state(link, word), rtnl_link_get_mtu(link),
	       address(rtnl_link_get_addr(link), hardware));
}

int main(int argc, char **argv)
{
	struct nl_sock *sock = opened_socket(argc > 1 ? argv[1] : NULL);
	struct nl_cache *links;
	int error = rtnl_link_alloc_cache(sock, AF_UNSPEC, &links);

	if (error < 0)
		return failed("links", error);
	nl_cache_foreach(links, print, NULL);
	nl_cache_free(links);
	nl_socket_free(sock);
	return 0;
}
