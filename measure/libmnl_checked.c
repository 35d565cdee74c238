/* Walks over what a recording's datagrams hold by libmnl's calls with the checks of a scan, and counts what it
 * visits; it keeps nothing.
 * usage: libmnl_checked loops PASSES < BINARY, where each datagram stands behind its size, four bytes, lowest first. */
#include "libmnl_checked.h"

int main(int argc, char **argv)
{
	static char bytes[1 << 24];
	size_t size = fread(bytes, 1, sizeof(bytes), stdin);
	int passes = argc > 2 ? atoi(argv[2]) : 1;
	unsigned long count = 0;

	while (passes-- > 0) {
		for (size_t at = 0; at + 4 <= size;) {
			uint32_t len = *(const uint32_t *)(bytes + at);
			struct found found = datagram(bytes + at + 4, len, 8);

			count += found.visits;
			if (found.reason != SOUND)
				fprintf(stderr, "ends at %u by %d\n", found.place, found.reason);
			at += 4 + ((len + 3) & ~3u);
		}
	}
	printf("%lu\n", count);
	return 0;
}
