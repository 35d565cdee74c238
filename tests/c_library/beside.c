/*
 * Calls of libmnl, of libnl and of rtnlc in one program, over the same bytes. With OURS_FIRST the
 * header of rtnlc stands before theirs, else behind; with LIBNETLINK iproute2's takes the place of
 * libnl's, as these two may be at odds with each other.
 */
#ifdef OURS_FIRST
#include <rtnlc.h>
#endif
#include <libmnl/libmnl.h>
#include <linux/rtnetlink.h>
#ifdef LIBNETLINK
#include <libnetlink.h>
#else
#include <netlink/msg.h>
#include <netlink/netlink.h>
#include <netlink/route/link.h>
#endif
#ifndef OURS_FIRST
#include <rtnlc.h>
#endif
#include <stdio.h>
#include <stdlib.h>
#include <string.h>

static void expect(bool is_so, const char *what)
{
	if (!is_so) {
		fprintf(stderr, "beside: %s\n", what);
		exit(1);
	}
}

/* libmnl writes the request of a dump: ours is the same. */
static void compare_requests(void)
{
	char theirs[MNL_NLMSG_HDRLEN + sizeof(struct ifinfomsg)];
	uint8_t ours[RTNLC_REQUEST];
	struct nlmsghdr *head = mnl_nlmsg_put_header(theirs);
	struct rtnlc_put put;

	mnl_nlmsg_put_extra_header(head, sizeof(struct ifinfomsg));
	head->nlmsg_type = RTM_GETLINK;
	head->nlmsg_flags = NLM_F_REQUEST | NLM_F_DUMP;
	head->nlmsg_seq = 7;
	put = rtnlc_request(RTM_GETLINK, 0, 7, false, ours, sizeof ours);
	expect(put.code == RTNLC_OK && put.len == head->nlmsg_len, "the length of a request");
	expect(memcmp(ours, theirs, put.len) == 0, "the bytes of a request");
}

/* libmnl writes a link: each finds its name at the same byte. */
static void compare_links(void)
{
	char bytes[256];
	struct nlmsghdr *head = mnl_nlmsg_put_header(bytes);
	const uint8_t *region = (const uint8_t *)bytes + 32;
	struct rtnlc_attr name;

	head->nlmsg_type = RTM_NEWLINK;
	mnl_nlmsg_put_extra_header(head, sizeof(struct ifinfomsg));
	mnl_attr_put_u32(head, IFLA_MTU, 65536);
	mnl_attr_put_strz(head, IFLA_IFNAME, "lo");
	expect(rtnlc_scan((uint8_t *)bytes, head->nlmsg_len, NULL).code == RTNLC_OK, "a scan");
	name = rtnlc_find(region, head->nlmsg_len - 32, 0, IFLA_IFNAME, false);
	expect(name.code == RTNLC_OK && name.len == 3, "a name");
#ifdef LIBNETLINK
	{
		struct rtattr *found[IFLA_MAX + 1];
		parse_rtattr(found, IFLA_MAX, (struct rtattr *)(bytes + 32), head->nlmsg_len - 32);
		expect((const uint8_t *)RTA_DATA(found[IFLA_IFNAME]) == region + name.place + 4,
		       "where libnetlink finds it");
	}
#else
	{
		struct rtnl_link *link = rtnl_link_alloc();
		struct nlattr *found = nlmsg_find_attr(head, sizeof(struct ifinfomsg), IFLA_IFNAME);
		expect((const uint8_t *)nla_data(found) == region + name.place + 4, "where libnl finds it");
		expect(link != NULL, "memory for a link");
		rtnl_link_set_name(link, (const char *)region + name.place + 4);
		expect(strcmp(rtnl_link_get_name(link), "lo") == 0, "the name in libnl");
		rtnl_link_put(link);
	}
#endif
}

int main(void)
{
	struct rtnlc_session session = { NULL };

	compare_requests();
	compare_links();
	expect(rtnlc_session_new(&session, NULL) == RTNLC_OK, "a session");
	rtnlc_session_free(&session);
	expect(strncmp(rtnlc_version(), RTNLC_VERSION, strlen(RTNLC_VERSION)) == 0, "the version");
	puts("beside one another");
	return 0;
}
