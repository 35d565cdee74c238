/* Keeps a cache of libnl current as its cache manager does, and says the same of it as
 * mirror_rtnlc.c.
 * usage: mirror_libnl read|before|told|quiet FILE, as dump.h has it: a dump, and notifications
 * behind it. By `read` nothing is made of it. Else nl_msg_parse parses each message. Those of the
 * dump go into the cache by nl_cache_add; notifications by nl_cache_include, as nl_cache_mngr_add
 * has them: by `told` with a callback for what changes, by `quiet` without one. By `before` it is
 * nl_cache_include_v2, whose callback has the object before, too. */
#include "dump.h"
#include "heap.h"
#include <netlink/cache.h>
#include <netlink/msg.h>
#include <netlink/netlink.h>
#include <netlink/object.h>
#include <stdbool.h>

/* Each family's cache, in the order of message types. */
static const char *const caches[] = { "route/link", "route/addr", "route/route", "route/neigh",
	                              "route/rule" };

/* By NL_ACT_*. */
static unsigned long counts[NL_ACT_MAX + 1];
static bool failed, told, before;

static void count(struct nl_cache *cache, struct nl_object *object, int action, void *data)
{
	(void)cache, (void)object, (void)data;
	counts[action]++;
}

static void count_both(struct nl_cache *cache, struct nl_object *old, struct nl_object *new,
                       uint64_t differ, int action, void *data)
{
	(void)cache, (void)old, (void)new, (void)differ, (void)data;
	counts[action]++;
}

static void add(struct nl_object *object, void *cache)
{
	failed |= nl_cache_add(cache, object) < 0;
}

static void include(struct nl_object *object, void *cache)
{
	failed |= (before ? nl_cache_include_v2(cache, object, count_both, NULL)
	                  : nl_cache_include(cache, object, told ? count : NULL, NULL)) < 0;
}

/* Those of a dump carry SEQ. */
static void take(struct nl_cache *cache, size_t len)
{
	struct nlmsghdr *head = (void *)datagram;
	int left = len;

	for (; nlmsg_ok(head, left); head = nlmsg_next(head, &left)) {
		struct nl_msg *message = nlmsg_convert(head);

		nlmsg_set_proto(message, NETLINK_ROUTE);
		if (head->nlmsg_type >= NLMSG_MIN_TYPE)
			failed |= nl_msg_parse(message, head->nlmsg_seq == SEQ ? add : include, cache) < 0;
		nlmsg_free(message);
	}
}

static int keep(FILE *file)
{
	const unsigned int family = (first_kind(file) - NLMSG_MIN_TYPE) / 4;
	const size_t begun = on_heap();
	struct nl_cache *cache;
	size_t len;

	if (family >= sizeof(caches) / sizeof(*caches) || nl_cache_alloc_name(caches[family], &cache) < 0)
		return FAILED;
	while ((len = next(file)))
		take(cache, len);
	printf("%d %lu %lu %lu %zu\n", nl_cache_nitems(cache), counts[NL_ACT_NEW],
	       counts[NL_ACT_CHANGE], counts[NL_ACT_DEL], on_heap() - begun);
	nl_cache_free(cache);
	return failed ? FAILED : 0;
}

int main(int argc, char **argv)
{
	FILE *file = opened(argc > 2 ? argv[2] : NULL);

	if (!strcmp(argv[1], "read"))
		return printf("%lu bytes\n", read_all(file)) < 0 ? FAILED : 0;
	told = !strcmp(argv[1], "told");
	before = !strcmp(argv[1], "before");
	return keep(file);
}
