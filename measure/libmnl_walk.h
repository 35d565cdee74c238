/* A walk over what a message holds by libmnl's calls, which counts it and keeps nothing. It goes into
 * lists and next hops, by loops (mnl_attr_for_each) or by callbacks (mnl_attr_parse). For next hops
 * libmnl has no call. */
#include <libmnl/libmnl.h>
#include <linux/if_link.h>
#include <linux/fib_rules.h>
#include <linux/neighbour.h>
#include <linux/rtnetlink.h>
#include <stdbool.h>
#include <stdint.h>
#include <stdio.h>
#include <stdlib.h>
#include <string.h>

static unsigned long count;
static bool by_callbacks;

enum context { LINK, ROUTE, OTHER };

static void region(const void *bytes, size_t size, enum context *context);

static void next_hops(const struct nlattr *attr)
{
	const struct rtnexthop *hop = mnl_attr_get_payload(attr);
	int left = mnl_attr_get_payload_len(attr);
	enum context context = ROUTE;

	for (; left >= (int)sizeof(*hop) && hop->rtnh_len >= sizeof(*hop) && hop->rtnh_len <= left;
	     left -= RTNH_ALIGN(hop->rtnh_len), hop = RTNH_NEXT(hop))
		region(RTNH_DATA(hop), hop->rtnh_len - sizeof(*hop), &context);
}

static int attribute(const struct nlattr *attr, void *data)
{
	enum context context = *(enum context *)data, inner = OTHER;
	int type = mnl_attr_get_type(attr);

	count += type + mnl_attr_get_payload_len(attr);
	if (context == ROUTE && type == RTA_MULTIPATH)
		next_hops(attr);
	else if ((attr->nla_type & NLA_F_NESTED) || (context == LINK && type == IFLA_LINKINFO) ||
	         (context == ROUTE && type == RTA_METRICS))
		region(mnl_attr_get_payload(attr), mnl_attr_get_payload_len(attr), &inner);
	return MNL_CB_OK;
}

static void region(const void *bytes, size_t size, enum context *context)
{
	const struct nlattr *attr;

	if (by_callbacks)
		mnl_attr_parse_payload(bytes, size, attribute, context);
	else
		mnl_attr_for_each_payload(bytes, size)
			attribute(attr, context);
}

static int head_of(int type)
{
	static const int heads[] = {
		sizeof(struct ifinfomsg), sizeof(struct ifaddrmsg), sizeof(struct rtmsg),
		sizeof(struct ndmsg), sizeof(struct fib_rule_hdr),
	};

	return type >= 16 && type < 36 ? heads[(type - 16) / 4] : -1;
}

static void message(const struct nlmsghdr *head)
{
	int size = head_of(head->nlmsg_type);
	enum context context = head->nlmsg_type == RTM_NEWLINK ? LINK : head->nlmsg_type == RTM_NEWROUTE ? ROUTE : OTHER;

	count++;
	if (size >= 0 && mnl_nlmsg_get_payload_len(head) >= (size_t)size)
		region((const char *)mnl_nlmsg_get_payload(head) + MNL_ALIGN(size),
		       mnl_nlmsg_get_payload_len(head) - size, &context);
}
