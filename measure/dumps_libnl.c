/* Reads a dump into libnl's cache, and says what came of it: the entries, and how many messages it
 * refused.
 * usage: dumps_libnl read|parsed|pickup FILE, as dump.h has it. By `read` nothing is made of
 * it; by `parsed` each message is parsed and put into the cache by nl_msg_parse and
 * nl_cache_add; by `pickup` libnl's own loop does that, nl_cache_pickup, which receives the
 * datagrams in place of those of a socket. */
#include "dump.h"
#include <netlink/cache.h>
#include <netlink/msg.h>
#include <netlink/netlink.h>
#include <netlink/object.h>
#include <netlink/socket.h>

/* Each family's cache, in the order of message types. */
static const char *const caches[] = { "route/link", "route/addr", "route/route", "route/neigh",
	                              "route/rule" };

static FILE *file;
static unsigned long refused;

static void put(struct nl_object *object, void *cache)
{
	refused += nl_cache_add(cache, object) < 0;
}

static void parse(struct nl_cache *cache)
{
	size_t len;

	while ((len = next(file))) {
		struct nlmsghdr *head = (void *)datagram;
		int left = len;

		for (; nlmsg_ok(head, left); head = nlmsg_next(head, &left)) {
			struct nl_msg *message = nlmsg_convert(head);

			nlmsg_set_proto(message, NETLINK_ROUTE);
			if (head->nlmsg_type >= NLMSG_MIN_TYPE && nl_msg_parse(message, put, cache) < 0)
				refused++;
			nlmsg_free(message);
		}
	}
}

/* What the socket receives. */
static int receive(struct nl_sock *sock, struct sockaddr_nl *from, unsigned char **bytes,
                   struct ucred **credentials)
{
	size_t len = next(file);

	(void)sock;
	(void)credentials;
	memset(from, 0, sizeof(*from));
	*bytes = memcpy(malloc(len + 1), datagram, len);
	return len;
}

static int pick_up(struct nl_cache *cache)
{
	struct nl_sock *sock = nl_socket_alloc();
	struct nl_cb *callbacks = nl_socket_get_cb(sock);
	int error;

	nl_socket_set_local_port(sock, PORT);
	nl_socket_disable_seq_check(sock);
	nl_cb_overwrite_recv(callbacks, receive);
	error = nl_cache_pickup(sock, cache);
	nl_cb_put(callbacks);
	nl_socket_free(sock);
	return error;
}

int main(int argc, char **argv)
{
	struct nl_cache *cache;
	unsigned int family;

	file = opened(argc > 2 ? argv[2] : NULL);
	if (!strcmp(argv[1], "read"))
		return printf("%lu bytes\n", read_all(file)) < 0 ? FAILED : 0;
	family = (first_kind(file) - NLMSG_MIN_TYPE) / 4;
	if (family >= sizeof(caches) / sizeof(*caches) || nl_cache_alloc_name(caches[family], &cache) < 0)
		return FAILED;
	if (strcmp(argv[1], "pickup"))
		parse(cache);
	else if (pick_up(cache) < 0)
		return FAILED;
	printf("%d entries, %lu refused\n", nl_cache_nitems(cache), refused);
	nl_cache_free(cache);
	return 0;
}
