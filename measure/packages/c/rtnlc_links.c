/* Prints a line for each interface of a dump, by our library: from a table. */
#include "rtnlc_link.h"

int main(int argc, char **argv)
{
	struct rtnlc_session session = { 0 };
	struct part body;

	file = opened(argc > 1 ? argv[1] : NULL);
	check(rtnlc_session_new(&session, &options), 0);
	dump(&session, RTM_GETLINK, AF_UNSPEC, 1);
	for (uint32_t at = 0; (body = entry(&session, RTM_NEWLINK, at)).len; at++)
		print_link(body);
	rtnlc_session_free(&session);
	return 0;
}
