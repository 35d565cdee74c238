/*
 * Builds random datagrams and reads each again: by the library's own check and tape, and by
 * libmnl's loops. Each comes to the very parts that were put.
 * usage: trees SEED COUNT little|big [WANTED]. With WANTED it prints each datagram that has no
 * more bytes than that, and its parts as JSON: pyroute2.py compares them.
 */
#include "model.h"
#include <libmnl/libmnl.h>
#include <linux/rtnetlink.h>

#define ROOM (1u << 20)

static uint8_t out[ROOM];
static struct made made;
static struct rtnlc_event events[1 << 16];
/* The part that is expected next by a reading. */
static size_t next_part;
static unsigned long parts_read;

static size_t build(const struct rtnlc_options *options)
{
	struct rtnlc_builder b;
	struct rtnlc_put put;
	size_t at;
	must(!rtnlc_builder_new(&b, options, out, sizeof out), "a builder");
	for (at = 0; at < made.count; at++)
		must(!called(&b, &made.calls[at]), "a call that is not to be refused");
	put = rtnlc_builder_finish(&b);
	must(!put.code, "a datagram");
	return put.len;
}

/* A head with zeros for its bytes that mean nothing. */
static const uint8_t *head_of(const struct call *it)
{
	static uint8_t head[sizeof it->head];
	memcpy(head, it->head, sizeof head);
	clear_unused(it->type, head);
	return head;
}

static bool is_payload(const struct call *it, bool big, const void *bytes, size_t len)
{
	static uint8_t payload[POOL];
	return payload_of(it, big, payload) == len && !memcmp(payload, bytes, len);
}

/* ---- By the library ---- */

/* Whether an event is the part: its head, and the bytes behind it where it holds bytes. */
static bool is_event(const struct rtnlc_event *event, const struct call *it, bool big)
{
	uint16_t flags = (uint16_t)((event->nested ? NESTED : 0) | (event->net ? NET : 0));
	if (it->verb == BEGIN || it->verb == MESSAGE)
		return event->sort == RTNLC_MESSAGE && event->number == it->type;
	if (it->verb == HOP)
		return event->sort == RTNLC_NEXT_HOP;
	if ((event->number | flags) != it->type)
		return false;
	if (it->verb == OPEN)
		return event->sort == RTNLC_LIST || event->sort == RTNLC_HOPS;
	return event->sort == RTNLC_BYTES &&
	       is_payload(it, big, out + event->place + 4, event->len);
}

static void by_library(size_t len, const struct rtnlc_options *options)
{
	struct rtnlc_checked checked = rtnlc_check(out, len, options);
	struct rtnlc_taped taped = rtnlc_tape(out, len, options, events, 1 << 16);
	size_t at, found = 0;
	uint8_t level = 0;
	must(!checked.code && checked.canonical, "the library's check");
	must(!taped.code, "the library's tape");
	for (at = 0; at < made.count; at++) {
		const struct call *it = &made.calls[at];
		if (it->verb == CLOSE)
			level--;
		if (it->verb == CLOSE || it->verb == END)
			continue;
		must(found < taped.count && is_event(&events[found], it, options->big), "an event");
		must(events[found++].level == level, "the level of an event");
		level = (uint8_t)(level + (it->verb == OPEN || it->verb == HOP));
	}
	must(found == taped.count, "the number of events");
}

/* ---- By libmnl ---- */

static const struct call *part(enum verb verb)
{
	const struct call *it = &made.calls[next_part++];
	must(it->verb == verb, "a part in its order");
	parts_read++;
	return it;
}

static void attribute(const struct nlattr *attr, enum place place);

static void next_hops(const struct nlattr *list)
{
	const struct rtnexthop *hop = (const struct rtnexthop *)mnl_attr_get_payload(list);
	int left = mnl_attr_get_payload_len(list);
	for (; RTNH_OK(hop, left); left -= (int)RTNH_ALIGN(hop->rtnh_len), hop = RTNH_NEXT(hop)) {
		const struct call *it = part(HOP);
		const struct nlattr *attr;
		must(it->hop_flags == hop->rtnh_flags && it->hops == hop->rtnh_hops &&
		             it->ifindex == hop->rtnh_ifindex,
		     "a next hop");
		mnl_attr_for_each_payload((const struct nlattr *)(const void *)RTNH_DATA(hop),
		                          hop->rtnh_len - sizeof *hop)
			attribute(attr, IN_ROUTE);
		part(CLOSE);
	}
	must(left == 0, "what is left behind next hops");
}

static void attribute(const struct nlattr *attr, enum place place)
{
	uint16_t type = attr->nla_type;
	enum held held = held_by(place, type);
	const struct nlattr *inner;
	if (held == BYTES) {
		const struct call *it = &made.calls[next_part++];
		must(it->verb >= PUT && it->verb <= BE64 && it->type == type, "an attribute");
		must(is_payload(it, false, mnl_attr_get_payload(attr),
		                mnl_attr_get_payload_len(attr)),
		     "a payload");
		parts_read++;
		return;
	}
	must(part(OPEN)->type == type, "a container");
	if (held == HOPS)
		next_hops(attr);
	else
		mnl_attr_for_each_nested(inner, attr) attribute(inner, IN_OTHER);
	part(CLOSE);
}

static void by_libmnl(size_t len)
{
	const struct nlmsghdr *head = (const struct nlmsghdr *)(const void *)out;
	int left = (int)len;
	next_part = 0;
	for (; mnl_nlmsg_ok(head, left); head = mnl_nlmsg_next(head, &left)) {
		const struct call *it = &made.calls[next_part++];
		enum place place = IN_LINK;
		const struct nlattr *attr;
		size_t at;
		must(head->nlmsg_type == it->type && head->nlmsg_flags == it->flags &&
		             head->nlmsg_seq == it->seq && head->nlmsg_pid == it->port,
		     "a header");
		if (it->verb == MESSAGE) {
			must(!memcmp(mnl_nlmsg_get_payload(head), it->bytes, it->len) &&
			             mnl_nlmsg_get_payload_len(head) == it->len,
			     "a body");
			continue;
		}
		must(it->verb == BEGIN, "a message");
		must(!memcmp(mnl_nlmsg_get_payload(head), head_of(it), it->head_len), "a head");
		for (at = 0; at < KINDS; at++)
			place = kinds[at].type == it->type ? kinds[at].place : place;
		mnl_attr_for_each(attr, head, (unsigned)it->head_len) attribute(attr, place);
		part(END);
	}
	must(left == 0 && next_part == made.count, "the number of messages");
}

/* ---- For pyroute2 ---- */

static void print_bytes(const uint8_t *bytes, size_t len)
{
	static const char digits[] = "0123456789abcdef";
	size_t at;
	for (at = 0; at < len; at++) {
		putchar(digits[bytes[at] >> 4]);
		putchar(digits[bytes[at] & 15]);
	}
}

/* [TYPE, FLAGS, SEQ, PORT, HEAD, [..]], where a message of no family has its body for a head and
 * nothing behind it; [FLAGS, HOPS, INDEX, [..]], [TYPE, [..]], [TYPE, HEX] */
static void print_part(const struct call *it, bool big)
{
	static uint8_t payload[POOL];
	if (it->verb == BEGIN || it->verb == MESSAGE) {
		bool is_begun = it->verb == BEGIN;
		printf("[%u, %u, %u, %u, \"", it->type, it->flags, it->seq, it->port);
		print_bytes(is_begun ? head_of(it) : it->bytes, is_begun ? it->head_len : it->len);
		printf(is_begun ? "\", [" : "\", []]");
	} else if (it->verb == HOP) {
		printf("[%u, %u, %d, [", it->hop_flags, it->hops, (int)it->ifindex);
	} else if (it->verb == OPEN) {
		printf("[%u, [", it->type);
	} else {
		printf("[%u, \"", it->type);
		print_bytes(payload, payload_of(it, big, payload));
		printf("\"]");
	}
}

static void print_datagram(size_t len, bool big)
{
	bool is_first = true;
	size_t at;
	print_bytes(out, len);
	printf("\n[");
	for (at = 0; at < made.count; at++) {
		const struct call *it = &made.calls[at];
		bool is_end = it->verb == CLOSE || it->verb == END;
		if (is_end)
			printf("]]");
		else {
			printf("%s", is_first ? "" : ", ");
			print_part(it, big);
		}
		is_first = !is_end && (it->verb == BEGIN || it->verb == OPEN || it->verb == HOP);
	}
	printf("]\n");
}

int main(int argc, char **argv)
{
	struct rtnlc_options options = { RTNLC_STANDARD_TOTAL, ROOM, RTNLC_STANDARD_ENTRIES, 0,
		                             0, { 0 } };
	unsigned long count, wanted = argc > 4 ? strtoul(argv[4], NULL, 10) : 0, at, printed = 0;
	if (argc < 4)
		return 2;
	seed(strtoul(argv[1], NULL, 10));
	count = strtoul(argv[2], NULL, 10);
	options.big = !strcmp(argv[3], "big");
	for (at = 0; at < count; at++) {
		size_t len;
		made.depth = chosen(33);
		options.depth = (uint8_t)made.depth;
		random_datagram(&made, chosen(50) ? 2000 : 65000);
		len = build(&options);
		by_library(len, &options);
		if (!options.big)
			by_libmnl(len);
		if (len <= wanted) {
			print_datagram(len, options.big);
			printed++;
		}
	}
	fprintf(stderr, "%lu datagrams, %lu parts by libmnl, %lu printed\n", count, parts_read,
	        printed);
	return 0;
}
