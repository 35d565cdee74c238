/* Reads a dump of links into a table, and prints the name, state, MTU and hardware address of each:
 * of this machine, or of what another program plays as a kernel, on a unix socket.
 * cc links.c $(pkg-config --cflags --libs rtnlc) -o links && ./links [SOCKET] */
#include "dump.h"

static void print_link(struct part body)
{
	const struct part attrs = part_attrs(body, RTM_NEWLINK);
	char name[PART_TEXT], mtu[PART_TEXT], address[PART_TEXT];
	printf("%s %s %s %s\n", part_name(part_find(attrs, IFLA_IFNAME), name), part_state(attrs),
	       part_number(part_find(attrs, IFLA_MTU), mtu),
	       part_hardware(part_find(attrs, IFLA_ADDRESS), address));
}

int main(int count, char **words)
{
	static struct source source = { .program = "links" };
	static uint8_t entry[RTNLC_STANDARD_DATAGRAM];
	struct rtnlc_session session = { 0 };
	struct part body;
	uint32_t at = 0;
	source_open(&source, count, words, 0);
	source_check(&source, rtnlc_session_new(&session, &source_options), 0);
	dump_table(&source, &session, RTM_GETLINK, 0);
	while ((body = dump_entry(&session, RTM_NEWLINK, at++, entry)).len > 0)
		print_link(body);
	rtnlc_session_free(&session);
	return source_close(&source);
}
