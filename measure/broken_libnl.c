/* Reads the datagram on standard input by libnl's own loop, nl_recvmsgs, as what a socket received,
 * parses each message into an object of libnl-route, and prints how many came of it. Where one of
 * both answers an error, it says so on standard error, and the status is 1. */
#include <netlink/msg.h>
#include <netlink/netlink.h>
#include <netlink/socket.h>
#include <stdio.h>
#include <stdlib.h>
#include <string.h>

static char room[1 << 16];
static size_t size;
static int status, objects;

static void judge(const char *call, int code)
{
	if (code >= 0)
		return;
	fprintf(stderr, "%s: %s\n", call, nl_geterror(code));
	status = 1;
}

/* What the socket receives: the datagram, and then nothing. */
static int receive(struct nl_sock *sock, struct sockaddr_nl *from, unsigned char **bytes,
                   struct ucred **credentials)
{
	size_t given = size;

	(void)sock;
	(void)credentials;
	memset(from, 0, sizeof(*from));
	*bytes = memcpy(malloc(given + 1), room, given);
	size = 0;
	return given;
}

static void parsed(struct nl_object *object, void *data)
{
	(void)object;
	(void)data;
	objects++;
}

static int message(struct nl_msg *message, void *data)
{
	judge("nl_msg_parse", nl_msg_parse(message, parsed, data));
	return NL_OK;
}

int main(void)
{
	struct nl_sock *sock = nl_socket_alloc();
	struct nl_cb *callbacks = nl_socket_get_cb(sock);

	size = fread(room, 1, sizeof(room), stdin);
	nl_socket_disable_seq_check(sock);
	nl_socket_modify_cb(sock, NL_CB_VALID, NL_CB_CUSTOM, message, NULL);
	nl_cb_overwrite_recv(callbacks, receive);
	judge("nl_recvmsgs", nl_recvmsgs(sock, callbacks));
	nl_cb_put(callbacks);
	nl_socket_free(sock);
	printf("%d\n", objects);
	return status;
}
