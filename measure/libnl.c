/* Parses each message of a recording's datagrams into libnl's object, and lets it go.
 * usage: libnl PASSES < BINARY, where each datagram stands behind its size, four bytes, lowest first. */
#include <netlink/msg.h>
#include <netlink/netlink.h>
#include <netlink/object.h>
#include <stdint.h>
#include <stdio.h>
#include <stdlib.h>

static void parsed(struct nl_object *object, void *count)
{
	(void)object;
	++*(unsigned long *)count;
}

int main(int argc, char **argv)
{
	static char bytes[1 << 24];
	size_t size = fread(bytes, 1, sizeof(bytes), stdin);
	int passes = argc > 1 ? atoi(argv[1]) : 1;
	unsigned long count = 0, refused = 0;

	while (passes-- > 0) {
		for (size_t at = 0; at + 4 <= size;) {
			uint32_t len = *(const uint32_t *)(bytes + at);
			struct nlmsghdr *head = (void *)(bytes + at + 4);
			int left = len;

			for (; nlmsg_ok(head, left); head = nlmsg_next(head, &left)) {
				struct nl_msg *message = nlmsg_convert(head);

				nlmsg_set_proto(message, NETLINK_ROUTE);
				if (head->nlmsg_type >= NLMSG_MIN_TYPE && nl_msg_parse(message, parsed, &count) < 0)
					refused++;
				nlmsg_free(message);
			}
			at += 4 + ((len + 3) & ~3u);
		}
	}
	printf("%lu parsed, %lu refused\n", count, refused);
	return 0;
}
