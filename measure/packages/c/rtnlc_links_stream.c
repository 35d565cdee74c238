/* Prints a line for each interface of a dump, by our library: as they come. */
#include "rtnlc_link.h"

int main(int argc, char **argv)
{
	struct rtnlc_stream dumps;

	file = opened(argc > 1 ? argv[1] : NULL);
	check(rtnlc_stream_new(&dumps, &options), 0);
	stream(&dumps, RTM_GETLINK, AF_UNSPEC, 1, print_link);
	return 0;
}
