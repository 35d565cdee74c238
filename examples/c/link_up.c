/* Brings a link up, and waits for the kernel's acknowledgement: of this machine, or of what another
 * program plays as a kernel, on a unix socket.
 * cc link_up.c $(pkg-config --cflags --libs rtnlc) -o link_up && ./link_up DEV [SOCKET] */
#include "change.h"
#include <linux/if.h>

int main(int count, char **words)
{
	static struct source source = { .program = "link_up" };
	const struct ifinfomsg head = { .ifi_flags = IFF_UP, .ifi_change = IFF_UP };
	struct rtnlc_builder b;
	uint8_t out[256];
	if (count < 2 || count > 3)
		change_misused("link_up DEV [SOCKET]");
	source_open(&source, count - 1, words + 1, 0);
	b = change_begin(&source, out, sizeof out, RTM_NEWLINK, 0, &head, sizeof head);
	rtnlc_builder_put_text(&b, IFLA_IFNAME, words[1], strlen(words[1]));
	change_end(&source, &b);
	return source_close(&source);
}
