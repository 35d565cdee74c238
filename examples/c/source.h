/*
 * Where the datagrams of the programs in this folder come from: the kernel, or a program that plays
 * it. The library opens no socket. What fails is said in a line on standard error, and ends the
 * program by its status.
 */
#include <errno.h>
#include <stdarg.h>
#include <stdio.h>
#include <stdlib.h>
#include <string.h>
#include <sys/socket.h>
#include <sys/un.h>
#include <unistd.h>
#include <linux/netlink.h>
#include <linux/rtnetlink.h>
#include <rtnlc.h>

/* The order of this machine's numbers, and room for the largest tables. */
#define SOURCE_BIG (__BYTE_ORDER__ == __ORDER_BIG_ENDIAN__)
static const struct rtnlc_options source_options = {
	.total = RTNLC_STANDARD_TOTAL, .datagram = RTNLC_STANDARD_DATAGRAM, .entries = 65536,
	.depth = RTNLC_STANDARD_DEPTH, .big = SOURCE_BIG,
};

enum source_status { BROKEN = 1, FAILED = 2, REFUSED = 3, CUT = 4, LOST = 5 };

struct source {
	const char *program;
	int socket;
	uint32_t seq, port; /* of the last request, and of its answers */
	size_t len;         /* of the datagram in `bytes` */
	uint8_t bytes[RTNLC_STANDARD_DATAGRAM];
};

__attribute__((noreturn, format(printf, 3, 4)))
static inline void source_fail(const struct source *s, int status, const char *format, ...)
{
	va_list words;
	va_start(words, format);
	fflush(stdout);
	fprintf(stderr, "%s: ", s->program);
	vfprintf(stderr, format, words);
	fputc('\n', stderr);
	va_end(words);
	exit(status);
}

/* Ends a program that has said all, and answers its status. */
static inline int source_close(const struct source *s)
{
	close(s->socket);
	return fflush(stdout) != 0 ? FAILED : 0;
}

/* Opens the unix socket of the path in the arguments, or a netlink socket that joins the groups. */
static inline void source_open(struct source *s, int count, char **words, uint32_t groups)
{
	struct sockaddr_nl own = { .nl_family = AF_NETLINK, .nl_groups = groups };
	struct sockaddr_un path = { .sun_family = AF_UNIX };
	socklen_t size = sizeof own;
	if (count > 1) {
		snprintf(path.sun_path, sizeof path.sun_path, "%s", words[1]);
		s->socket = socket(AF_UNIX, SOCK_SEQPACKET | SOCK_CLOEXEC, 0);
		if (s->socket < 0 || connect(s->socket, (struct sockaddr *)&path, sizeof path) != 0)
			source_fail(s, FAILED, "%s", strerror(errno));
		return;
	}
	s->socket = socket(AF_NETLINK, SOCK_RAW | SOCK_CLOEXEC, NETLINK_ROUTE);
	if (s->socket < 0 || bind(s->socket, (struct sockaddr *)&own, size) != 0 ||
	    getsockname(s->socket, (struct sockaddr *)&own, &size) != 0)
		source_fail(s, FAILED, "%s", strerror(errno));
	s->port = own.nl_pid;
}

/* Takes the next datagram of the kernel, and of no other process, into `bytes`: none at the end of
 * the socket. Answers 0, or an errno: ENOBUFS where some were lost, EMSGSIZE of one that is cut. */
static inline int source_take(struct source *s)
{
	struct sockaddr_nl from = { 0 };
	struct iovec room = { s->bytes, sizeof s->bytes };
	struct msghdr message = { &from, sizeof from, &room, 1, NULL, 0, 0 };
	ssize_t len;
	do
		len = recvmsg(s->socket, &message, 0);
	while (len < 0 ? errno == EINTR : from.nl_family == AF_NETLINK && from.nl_pid != 0);
	s->len = len < 0 ? 0 : (size_t)len;
	if (len < 0)
		return errno;
	return message.msg_flags & MSG_TRUNC ? EMSGSIZE : 0;
}

/* The same, and fails where there is none; false at the end of the socket, which fails where `ends`
 * is false. */
static inline bool source_next(struct source *s, bool ends)
{
	const int error = source_take(s);
	if (error == ENOBUFS)
		source_fail(s, LOST, "lost datagrams");
	if (error == EMSGSIZE)
		source_fail(s, CUT, "cut datagram");
	if (error != 0)
		source_fail(s, FAILED, "%s", strerror(error));
	if (s->len == 0 && !ends)
		source_fail(s, FAILED, "the answer ended early");
	return s->len > 0;
}

/* Fails where a datagram was not taken, by the code and the place that the library answered. */
static inline void source_check(const struct source *s, uint8_t code, uint32_t place)
{
	if (code >= RTNLC_CUT && code <= RTNLC_TOO_LARGE)
		source_fail(s, BROKEN, "broken datagram: %s at %u", rtnlc_code_name(code), (unsigned)place);
	if (code != RTNLC_OK)
		source_fail(s, FAILED, "%s", rtnlc_code_name(code));
}
