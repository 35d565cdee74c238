/* Reads the datagram on standard input by libmnl's own loop, mnl_cb_run, walks over each message by
 * callbacks, and prints the count. Where the loop answers an error, it says so on standard error,
 * and the status is 1. */
#include "libmnl_walk.h"

static int handed(const struct nlmsghdr *head, void *data)
{
	(void)data;
	message(head);
	return MNL_CB_OK;
}

int main(void)
{
	static char datagram[1 << 16];
	size_t size = fread(datagram, 1, sizeof(datagram), stdin);

	by_callbacks = true;
	if (mnl_cb_run(datagram, size, 0, 0, handed, NULL) == MNL_CB_ERROR) {
		perror("mnl_cb_run");
		return 1;
	}
	printf("%lu\n", count);
	return 0;
}
