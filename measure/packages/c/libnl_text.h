/* What the programs over libnl print. */
#include "libnl.h"
#include <ctype.h>

#define TEXT 128

static const char *address(struct nl_addr *addr, char *text)
{
	return addr && nl_addr_get_len(addr) ? nl_addr2str(addr, text, TEXT) : "-";
}

/* An address, always with its length. */
static const char *prefix(struct nl_addr *addr, char *text)
{
	char alone[TEXT];

	if (!addr || !inet_ntop(nl_addr_get_family(addr), nl_addr_get_binary_addr(addr), alone, TEXT))
		return "-";
	snprintf(text, TEXT, "%.99s/%u", alone, nl_addr_get_prefixlen(addr));
	return text;
}

static const char *destination(struct rtnl_route *route, char *text)
{
	struct nl_addr *addr = rtnl_route_get_dst(route);

	return nl_addr_get_prefixlen(addr) ? prefix(addr, text) : "default";
}

/* The state of a link, in capital letters. */
static const char *state(struct rtnl_link *link, char *text)
{
	rtnl_link_operstate2str(rtnl_link_get_operstate(link), text, TEXT);
	for (char *at = text; *at; at++)
		*at = toupper(*at);
	return text;
}

static int failed(const char *what, int error)
{
	fprintf(stderr, "%s: %s\n", what, nl_geterror(error));
	return FAILED;
}
