/* Prints where each route leads, of IPv4 and then of IPv6, a line for each next hop: destination,
 * gateway, name of the link, number of the table.
 * cc routes.c $(pkg-config --cflags --libs rtnlc) -o routes && ./routes [SOCKET] */
#include "dump.h"

static struct source source = { .program = "routes" };
static struct rtnlc_session session;

/* The name of a link, whose key is its index, the lowest byte first. */
static const char *link_name(uint32_t index, char *text)
{
	static uint8_t entry[RTNLC_STANDARD_DATAGRAM];
	const uint8_t key[] = { (uint8_t)index, (uint8_t)(index >> 8), (uint8_t)(index >> 16),
		                    (uint8_t)(index >> 24) };
	struct rtnlc_found at = rtnlc_session_find(&session, RTM_NEWLINK, key, sizeof key);
	struct part body = { NULL, 0 };
	if (at.code == RTNLC_OK)
		body = dump_entry(&session, RTM_NEWLINK, at.index, entry);
	return body.len ? part_name(part_find(part_attrs(body, RTM_NEWLINK), IFLA_IFNAME), text) : "-";
}

static void print_hop(const char *to, struct part attrs, uint32_t index, uint32_t table)
{
	char gateway[PART_TEXT], name[PART_TEXT];
	printf("%s %s %s %u\n", to, part_gateway(attrs, gateway), link_name(index, name), table);
}

static void print_route(struct part body)
{
	const struct part attrs = part_attrs(body, RTM_NEWROUTE);
	const struct part hops = part_find(attrs, RTA_MULTIPATH);
	struct rtnlc_hop hop = { .code = RTNLC_OK };
	char text[PART_TEXT];
	const char *to = part_destination(body, text);
	struct rtmsg route;
	memcpy(&route, body.bytes, sizeof route);
	const uint32_t table = part_u32(part_find(attrs, RTA_TABLE), route.rtm_table);
	if (hops.len == 0)
		print_hop(to, attrs, part_u32(part_find(attrs, RTA_OIF), 0), table);
	while ((hop = rtnlc_hop_at(hops.bytes, hops.len, hop.next, SOURCE_BIG)).code == RTNLC_OK) {
		struct part inside = { hops.bytes + hop.place + sizeof(struct rtnexthop), hop.len };
		print_hop(to, inside, (uint32_t)hop.ifindex, table);
	}
}

int main(int count, char **words)
{
	static uint8_t entry[RTNLC_STANDARD_DATAGRAM];
	source_open(&source, count, words, 0);
	source_check(&source, rtnlc_session_new(&session, &source_options), 0);
	dump_table(&source, &session, RTM_GETLINK, 0);
	for (int turn = 0; turn < 2; turn++) {
		struct part body;
		dump_table(&source, &session, RTM_GETROUTE, turn == 0 ? AF_INET : AF_INET6);
		for (uint32_t at = 0; (body = dump_entry(&session, RTM_NEWROUTE, at, entry)).len; at++)
			print_route(body);
	}
	rtnlc_session_free(&session);
	return source_close(&source);
}
