/* The line of a link. */
#include "rtnlc_dump.h"

static void print_link(struct part body)
{
	struct part attrs = part_attrs(body, RTM_NEWLINK);
	char name[PART_TEXT], mtu[PART_TEXT], hardware[PART_TEXT];

	printf("%s %s %s %s\n", part_name(part_find(attrs, IFLA_IFNAME), name), part_state(attrs),
	       part_number(part_find(attrs, IFLA_MTU), mtu),
	       part_hardware(part_find(attrs, IFLA_ADDRESS), hardware));
}
