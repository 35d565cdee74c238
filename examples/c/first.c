/* Prints the name of each link of this machine, over rtnlc and a socket alone.
 * cc first.c $(pkg-config --cflags --libs rtnlc) -o first && ./first */
#include <err.h>
#include <stdio.h>
#include <sys/socket.h>
#include <linux/rtnetlink.h>
#include <rtnlc.h>

int main(void)
{
	static uint8_t in[RTNLC_STANDARD_DATAGRAM], out[RTNLC_REQUEST];
	static struct rtnlc_event heads[sizeof in / 4]; /* enough for any datagram */
	struct sockaddr_nl me = { .nl_family = AF_NETLINK };
	socklen_t size = sizeof me;
	int fd = socket(AF_NETLINK, SOCK_RAW, NETLINK_ROUTE);
	if (fd < 0 || bind(fd, (void *)&me, size) || getsockname(fd, (void *)&me, &size))
		err(1, "netlink");
	struct rtnlc_stream dump;
	rtnlc_stream_new(&dump, NULL); /* the standard limits */
	struct rtnlc_put ask = rtnlc_stream_begin(&dump, RTM_GETLINK, 0, 1, me.nl_pid, out, sizeof out);
	if (send(fd, out, ask.len, 0) < 0) err(1, "send");
	for (struct rtnlc_fed got = { 0 }; !got.ended;) {
		ssize_t len = recv(fd, in, sizeof in, 0);
		if (len < 0) err(1, "recv");
		got = rtnlc_stream_feed(&dump, in, (size_t)len, heads, sizeof in / 4);
		if (got.code != RTNLC_OK)
			errx(1, "%s at byte %u", rtnlc_code_name(got.code), (unsigned)got.place);
		for (struct rtnlc_event *h = heads; h < heads + got.events; h++) /* each header, in order */
			if (h->level == 0 && h->sort == RTNLC_BYTES && h->number == IFLA_IFNAME)
				printf("%.*s\n", (int)h->len, (char *)in + h->place + 4);
	}
	return !rtnlc_stream_status(&dump).complete;
}
