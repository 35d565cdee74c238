/* A walk over what a message holds by libmnl's calls, with the checks of a scan: each length against its head and
 * the bytes that are left, how many bytes and how many levels a container may have, and how many bytes the head of a
 * message's type has. It ends at the first head that breaks one, with its offset. It goes into lists and next hops,
 * by loops; for next hops libmnl has no call. Where EVENTS is defined it also puts what a tape puts of each head. */
#include <libmnl/libmnl.h>
#include <linux/if_link.h>
#include <linux/fib_rules.h>
#include <linux/neighbour.h>
#include <linux/rtnetlink.h>
#include <stdbool.h>
#include <stdint.h>
#include <stdio.h>
#include <stdlib.h>
#include <string.h>

enum context { LINK, ROUTE, OTHER };
enum reason { SOUND, CUT, BAD_LENGTH, TOO_LONG, TOO_DEEP, SHORT_BODY };

/* What a walk found: the bytes that it visited, and where and why it ended. */
struct found {
	uint64_t visits;
	uint32_t place;
	enum reason reason;
};

/* The datagram at hand. */
static const char *begin;
static int depth;

enum sort { MESSAGE, BYTES, LIST, HOPS, NEXT_HOP };

#ifdef EVENTS
static struct event {
	uint32_t place, len;
	uint16_t number;
	uint8_t level, sort, nested, net;
} events[1 << 16];
static size_t event_count;

static inline void put(const void *at, uint32_t len, uint16_t kind, uint8_t level, enum sort sort)
{
	if (event_count < sizeof(events) / sizeof(*events))
		events[event_count] = (struct event){
			.place = (const char *)at - begin, .len = len,
			.number = sort == MESSAGE ? kind : kind & NLA_TYPE_MASK, .level = level, .sort = sort,
			.nested = sort != MESSAGE && kind & NLA_F_NESTED, .net = sort != MESSAGE && kind & NLA_F_NET_BYTEORDER,
		};
	event_count++;
}
#else
#define put(at, len, kind, level, sort) ((void)0)
#endif

static bool ends(struct found *found, const void *at, enum reason reason)
{
	found->place = (const char *)at - begin;
	found->reason = reason;
	return false;
}

static bool region(const void *bytes, int left, enum context context, int level, struct found *found);

static bool next_hops(const void *bytes, int left, int level, struct found *found)
{
	const struct rtnexthop *hop = bytes;

	while (left > 0) {
		int span;

		if (left < (int)sizeof(*hop))
			return ends(found, hop, CUT);
		if (hop->rtnh_len < sizeof(*hop) || hop->rtnh_len > left)
			return ends(found, hop, BAD_LENGTH);
		span = RTNH_ALIGN(hop->rtnh_len);
		found->visits += span < left ? span : left;
		put(hop, hop->rtnh_len - sizeof(*hop), 0, level, NEXT_HOP);
		if (!region(RTNH_DATA(hop), hop->rtnh_len - sizeof(*hop), ROUTE, level + 1, found))
			return false;
		left -= span;
		hop = RTNH_NEXT(hop);
	}
	return true;
}

/* Whether what an attribute holds is sound; it holds bytes, a list or next hops. */
static bool holds(const struct nlattr *attr, enum context context, int level, struct found *found)
{
	int type = mnl_attr_get_type(attr);
	bool hops = context == ROUTE && type == RTA_MULTIPATH;

	if (!hops && !(attr->nla_type & NLA_F_NESTED) && !(context == LINK && type == IFLA_LINKINFO) &&
	    !(context == ROUTE && type == RTA_METRICS)) {
		put(attr, mnl_attr_get_payload_len(attr), attr->nla_type, level, BYTES);
		return true;
	}
	put(attr, mnl_attr_get_payload_len(attr), attr->nla_type, level, hops ? HOPS : LIST);
	if (attr->nla_len > 65532)
		return ends(found, attr, TOO_LONG);
	if (level + (hops ? 2 : 1) > depth)
		return ends(found, attr, TOO_DEEP);
	if (hops)
		return next_hops(mnl_attr_get_payload(attr), mnl_attr_get_payload_len(attr), level + 1, found);
	return region(mnl_attr_get_payload(attr), mnl_attr_get_payload_len(attr), OTHER, level + 1, found);
}

static bool region(const void *bytes, int left, enum context context, int level, struct found *found)
{
	const struct nlattr *attr = bytes;

	for (; mnl_attr_ok(attr, left); attr = mnl_attr_next(attr)) {
		int span = MNL_ALIGN(mnl_attr_get_len(attr));

		found->visits += span < left ? span : left;
		if (!holds(attr, context, level, found))
			return false;
		left -= span;
	}
	if (left > 0)
		return ends(found, attr, left < (int)sizeof(*attr) ? CUT : BAD_LENGTH);
	return true;
}

/* The size of the head of a body of this type, and less than nothing for a body that is no family's. */
static int head_of(int type)
{
	static const int heads[] = {
		sizeof(struct ifinfomsg), sizeof(struct ifaddrmsg), sizeof(struct rtmsg),
		sizeof(struct ndmsg), sizeof(struct fib_rule_hdr),
	};

	return type >= 16 && type < 36 ? heads[(type - 16) / 4] : -1;
}

/* Whether the body of a message is sound: that of a request for a dump (GET) is its first byte and the rest. */
static bool body(const struct nlmsghdr *head, struct found *found)
{
	int type = head->nlmsg_type, size = head_of(type), len = mnl_nlmsg_get_payload_len(head);
	bool get = size >= 0 && type % 4 == 2;
	int least = get ? 1 : size >= 0 ? size : type == NLMSG_ERROR ? 20 : 0;
	enum context context = type / 4 == RTM_NEWLINK / 4 ? LINK : type / 4 == RTM_NEWROUTE / 4 ? ROUTE : OTHER;

	if (len < least)
		return ends(found, head, SHORT_BODY);
	put(head, len, type, 0, MESSAGE);
	if (size < 0 || get)
		return true;
	return region((const char *)mnl_nlmsg_get_payload(head) + size, len - size, context, 0, found);
}

static struct found datagram(const void *bytes, int left, int most_levels)
{
	struct found found = { 0 };
	const struct nlmsghdr *head = bytes;

	begin = bytes;
	depth = most_levels;
#ifdef EVENTS
	event_count = 0;
#endif
	/* mnl_nlmsg_ok takes a length from 2^31 on as one below 0. */
	for (; mnl_nlmsg_ok(head, left) && head->nlmsg_len <= (uint32_t)left; head = mnl_nlmsg_next(head, &left))
		if (!body(head, &found))
			return found;
	if (left > 0)
		ends(&found, head, left < (int)sizeof(*head) ? CUT : BAD_LENGTH);
	return found;
}
