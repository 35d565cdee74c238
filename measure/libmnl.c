/* Walks over what a recording's datagrams hold by libmnl's calls, and counts it; it keeps nothing.
 * usage: libmnl loops|callbacks PASSES < BINARY, where each datagram stands behind its size, four bytes, lowest
 * first. */
#include "libmnl_walk.h"

int main(int argc, char **argv)
{
	static char bytes[1 << 24];
	size_t size = fread(bytes, 1, sizeof(bytes), stdin);
	int passes = argc > 2 ? atoi(argv[2]) : 1;

	by_callbacks = argc > 1 && !strcmp(argv[1], "callbacks");
	while (passes-- > 0) {
		for (size_t at = 0; at + 4 <= size;) {
			uint32_t len = *(const uint32_t *)(bytes + at);
			const struct nlmsghdr *head = (const void *)(bytes + at + 4);
			int left = len;

			for (; mnl_nlmsg_ok(head, left); head = mnl_nlmsg_next(head, &left))
				message(head);
			at += 4 + ((len + 3) & ~3u);
		}
	}
	printf("%lu\n", count);
	return 0;
}
