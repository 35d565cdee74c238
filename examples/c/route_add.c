/* Adds a route with one next hop or more, and waits for the kernel's acknowledgement: of this
 * machine, or of what another program plays as a kernel, on a unix socket.
 * cc route_add.c $(pkg-config --cflags --libs rtnlc) -o route_add
 * ./route_add PREFIX via ADDRESS dev DEV [via ADDRESS dev DEV].. [SOCKET] */
#include "change.h"
#include <arpa/inet.h>
#include <ctype.h>
#include <net/if.h>

static const char usage[] = "route_add PREFIX via ADDRESS dev DEV [via ADDRESS dev DEV].. [SOCKET]";

/* Puts an address of IPv6, whose text has a colon, or of IPv4 into 16 bytes, and answers how many
 * it has. */
static uint8_t address_of(const char *word, uint8_t *bytes)
{
	const bool is_ipv6 = strchr(word, ':') != NULL;
	if (inet_pton(is_ipv6 ? AF_INET6 : AF_INET, word, bytes) != 1)
		change_misused(usage);
	return is_ipv6 ? 16 : 4;
}

/* Gives the route the prefix that it leads to, whose address goes into 16 bytes. */
static void set_prefix(struct rtnlc_route_request *route, char *word, uint8_t *bytes)
{
	char *const slash = strchr(word, '/'), *end = NULL;
	const unsigned long length = slash ? strtoul(slash + 1, &end, 10) : 0;
	if (!slash || !isdigit((unsigned char)slash[1]) || *end != '\0')
		change_misused(usage);
	*slash = '\0';
	route->destination = (struct rtnlc_bytes){ bytes, address_of(word, bytes) };
	if (length > 8 * route->destination.len)
		change_misused(usage);
	route->destination_length = (uint8_t)length;
	route->family = route->destination.len == 4 ? AF_INET : AF_INET6;
}

/* The number of the word behind the ways, `via ADDRESS dev DEV` each: there may be one more. */
static int end_of_ways(int count, char **words)
{
	uint8_t address[16];
	int at;
	for (at = 2; at + 4 <= count; at += 4) {
		if (strcmp(words[at], "via") != 0 || strcmp(words[at + 2], "dev") != 0)
			change_misused(usage);
		address_of(words[at + 1], address);
	}
	if (at == 2 || at + 1 < count)
		change_misused(usage);
	return at;
}

static uint32_t index_of(const struct source *s, const char *name)
{
	const uint32_t index = if_nametoindex(name);
	if (index == 0)
		source_fail(s, FAILED, "no interface %s", name);
	return index;
}

/* Where a way leads. */
static struct rtnlc_next_hop hop_of(const struct source *s, char **way)
{
	struct rtnlc_next_hop it = { .index = (int32_t)index_of(s, way[3]) };
	it.gateway_len = address_of(way[1], it.gateway);
	return it;
}

/* Gives the route all ways: several are next hops of equal weight. */
static void set_ways(const struct source *s, struct rtnlc_route_request *route,
                     struct rtnlc_next_hop *hops, char **way, size_t count)
{
	for (size_t at = 0; at < count; at++)
		hops[at] = hop_of(s, way + 4 * at);
	if (count == 1) {
		route->gateway = (struct rtnlc_bytes){ hops->gateway, hops->gateway_len };
		route->oif = (uint32_t)hops->index;
		route->has_oif = true;
		return;
	}
	route->hops = hops;
	route->hop_count = count;
}

int main(int count, char **words)
{
	static struct source source = { .program = "route_add" };
	struct rtnlc_route_request route = { .table = RT_TABLE_MAIN,
		                                 .protocol = RTPROT_STATIC,
		                                 .route_type = RTN_UNICAST };
	const int end = end_of_ways(count, words);
	struct rtnlc_next_hop hops[end / 4];
	struct rtnlc_put put;
	uint8_t to[16], out[4096];
	set_prefix(&route, words[1], to);
	source_open(&source, count - end + 1, words + end - 1, 0);
	set_ways(&source, &route, hops, words + 2, (size_t)end / 4);
	put = rtnlc_request_route(&route, RTNLC_ADD, ++source.seq, SOURCE_BIG, out, sizeof out);
	change_ask(&source, put, out);
	return source_close(&source);
}
