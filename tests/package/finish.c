/* Prints what the library shows of a datagram that ends a dump, and ends well where that is all. */
#include <stdio.h>

#include <rtnlc.h>

int main(void)
{
	const uint8_t bytes[] = { 0x14, 0, 0, 0, 3, 0, 2, 0, 1, 0, 0, 0, 0x39, 0x30, 0, 0, 0, 0, 0, 0 };
	char text[256];
	struct rtnlc_shown shown = rtnlc_show(1, bytes, sizeof bytes, NULL, text, sizeof text);
	if (shown.code != RTNLC_OK || shown.len > sizeof text)
		return 1;
	return fwrite(text, 1, shown.len, stdout) != shown.len || fflush(stdout) != 0;
}
