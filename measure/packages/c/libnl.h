/* libnl's socket, which receives the datagrams of a file in place of the kernel's. */
#include "../../dump.h"
#include <netlink/cache.h>
#include <netlink/msg.h>
#include <netlink/netlink.h>
#include <netlink/object.h>
#include <netlink/route/addr.h>
#include <netlink/route/link.h>
#include <netlink/route/neighbour.h>
#include <netlink/route/nexthop.h>
#include <netlink/route/route.h>
#include <netlink/socket.h>
#include <arpa/inet.h>
#include <stdbool.h>

static FILE *file;
static bool has_ended;

static int receive(struct nl_sock *sock, struct sockaddr_nl *from, unsigned char **bytes,
                   struct ucred **credentials)
{
	size_t len = next(file);

	(void)sock;
	(void)credentials;
	has_ended = len == 0;
	memset(from, 0, sizeof(*from));
	*bytes = len ? memcpy(malloc(len), datagram, len) : NULL;
	return len;
}

/* A request goes nowhere. */
static int send_nowhere(struct nl_sock *sock, struct nl_msg *message)
{
	(void)sock;
	return nlmsg_hdr(message)->nlmsg_len;
}

static struct nl_sock *opened_socket(const char *path)
{
	struct nl_sock *sock = nl_socket_alloc();
	struct nl_cb *callbacks = nl_socket_get_cb(sock);

	file = opened(path);
	nl_socket_set_local_port(sock, PORT);
	nl_socket_disable_seq_check(sock);
	nl_cb_overwrite_recv(callbacks, receive);
	nl_cb_overwrite_send(callbacks, send_nowhere);
	nl_cb_put(callbacks);
	return sock;
}
