/*
 * The requests that change something as calls of the builder, each attribute where ip(8) sends it:
 * what the five calls are held against. Numbers and structs are those of the kernel's headers.
 */
#ifndef BY_BUILDER_H
#define BY_BUILDER_H

#include "requests.h"
#include <linux/fib_rules.h>
#include <linux/if.h>
#include <linux/if_link.h>
#include <linux/neighbour.h>
#include <linux/rtnetlink.h>

#define ASKS (NLM_F_REQUEST | NLM_F_ACK)

static const uint16_t operation_flags[OPERATIONS] = {
	ASKS | NLM_F_CREATE | NLM_F_EXCL,
	ASKS | NLM_F_CREATE | NLM_F_REPLACE,
	ASKS | NLM_F_REPLACE,
	ASKS | NLM_F_CREATE | NLM_F_APPEND,
	ASKS | NLM_F_CREATE,
	ASKS,
	ASKS,
};
static const uint16_t new_types[FAMILIES] = { RTM_NEWLINK, RTM_NEWADDR, RTM_NEWROUTE, RTM_NEWNEIGH,
	                                          RTM_NEWRULE };
static const uint16_t delete_types[FAMILIES] = { RTM_DELLINK, RTM_DELADDR, RTM_DELROUTE,
	                                             RTM_DELNEIGH, RTM_DELRULE };

/* Writes a number of a head. */
static inline void head_number(uint8_t *to, size_t width, uint32_t value, bool big)
{
	size_t at;
	for (at = 0; at < width; at++)
		to[big ? width - 1 - at : at] = (uint8_t)(value >> 8 * at);
}

static inline bool is_there(struct rtnlc_bytes it) { return it.at && it.len; }

static inline void put_some(struct rtnlc_builder *b, uint16_t type, struct rtnlc_bytes it)
{
	if (is_there(it))
		rtnlc_builder_put(b, type, it.at, it.len);
}

static inline void put_name(struct rtnlc_builder *b, uint16_t type, struct rtnlc_bytes it)
{
	if (is_there(it))
		rtnlc_builder_put_text(b, type, (const char *)it.at, it.len);
}

static inline void put_some_u32(struct rtnlc_builder *b, uint16_t type, bool has, uint32_t value)
{
	if (has)
		rtnlc_builder_put_u32(b, type, value);
}

static inline void link_attrs(struct rtnlc_builder *b, const struct rtnlc_link_request *it)
{
	put_some(b, IFLA_ADDRESS, it->address);
	put_some_u32(b, IFLA_MTU, it->has_mtu, it->mtu);
	put_some_u32(b, IFLA_MASTER, it->has_master, it->master);
	put_some_u32(b, IFLA_LINK, it->has_link, it->link);
	put_name(b, IFLA_IFNAME, it->name);
	if (is_there(it->kind)) {
		rtnlc_builder_open(b, IFLA_LINKINFO);
		rtnlc_builder_put(b, IFLA_INFO_KIND, it->kind.at, it->kind.len);
		put_some(b, IFLA_INFO_DATA, it->data);
		rtnlc_builder_close(b);
	}
}

static inline size_t link_head(uint8_t *head, const struct rtnlc_link_request *it, bool big)
{
	head_number(head + 4, 4, (uint32_t)it->index, big);
	head_number(head + 8, 4, it->has_up && it->up ? IFF_UP : 0, big);
	head_number(head + 12, 4, it->has_up ? IFF_UP : 0, big);
	return sizeof(struct ifinfomsg);
}

static inline void addr_attrs(struct rtnlc_builder *b, const struct rtnlc_addr_request *it)
{
	const bool is_alone = !is_there(it->peer);
	const size_t local_len = it->local.at ? it->local.len : 0;
	rtnlc_builder_put(b, IFA_LOCAL, it->local.at, local_len);
	put_some(b, IFA_ADDRESS, it->peer);
	put_some(b, IFA_BROADCAST, it->broadcast);
	put_name(b, IFA_LABEL, it->label);
	put_some_u32(b, IFA_FLAGS, it->flags > 255, it->flags);
	if (is_alone)
		rtnlc_builder_put(b, IFA_ADDRESS, it->local.at, local_len);
	if (it->has_lifetimes) {
		uint8_t lifetimes[sizeof(struct ifa_cacheinfo)] = { 0 };
		head_number(lifetimes, 4, it->preferred, b->built.big);
		head_number(lifetimes + 4, 4, it->valid, b->built.big);
		rtnlc_builder_put(b, IFA_CACHEINFO, lifetimes, sizeof lifetimes);
	}
}

static inline size_t addr_head(uint8_t *head, const struct rtnlc_addr_request *it, bool big)
{
	head[0] = it->family;
	head[1] = it->prefix_length;
	head[2] = it->flags > 255 ? 0 : (uint8_t)it->flags;
	head[3] = it->scope;
	head_number(head + 4, 4, it->index, big);
	return sizeof(struct ifaddrmsg);
}

static inline void put_hops(struct rtnlc_builder *b, const struct rtnlc_next_hop *hops,
                            size_t count)
{
	size_t at;
	rtnlc_builder_open(b, RTA_MULTIPATH);
	for (at = 0; at < count; at++) {
		const struct rtnlc_next_hop *hop = hops + at;
		rtnlc_builder_open_hop(b, hop->flags, hop->hops, hop->index);
		if (hop->gateway_len)
			rtnlc_builder_put(b, RTA_GATEWAY, hop->gateway,
			                  hop->gateway_len > 16 ? 16 : hop->gateway_len);
		rtnlc_builder_close(b);
	}
	rtnlc_builder_close(b);
}

static inline void route_attrs(struct rtnlc_builder *b, const struct rtnlc_route_request *it)
{
	size_t at;
	put_some(b, RTA_DST, it->destination);
	put_some(b, RTA_SRC, it->source);
	put_some(b, RTA_GATEWAY, it->gateway);
	put_some(b, RTA_PREFSRC, it->preferred_source);
	put_some_u32(b, RTA_PRIORITY, it->has_priority, it->priority);
	put_some_u32(b, RTA_TABLE, it->table > 255, it->table);
	put_some_u32(b, RTA_OIF, it->has_oif, it->oif);
	if (it->metrics && it->metric_count) {
		rtnlc_builder_open(b, RTA_METRICS);
		for (at = 0; at < it->metric_count; at++) {
			const struct rtnlc_metric *metric = it->metrics + at;
			/* A number with a flag bit is no metric's. */
			if (metric->number > NUMBER && !b->built.refusal)
				b->built.refusal = RTNLC_MISMATCH;
			rtnlc_builder_put_u32(b, metric->number, metric->value);
		}
		rtnlc_builder_close(b);
	}
	if (it->hops && it->hop_count)
		put_hops(b, it->hops, it->hop_count);
}

static inline size_t route_head(uint8_t *head, const struct rtnlc_route_request *it, bool big)
{
	head[0] = it->family;
	head[1] = is_there(it->destination) ? it->destination_length : 0;
	head[2] = is_there(it->source) ? it->source_length : 0;
	head[3] = it->tos;
	head[4] = it->table > 255 ? 0 : (uint8_t)it->table;
	head[5] = it->protocol;
	head[6] = it->scope;
	head[7] = it->route_type;
	head_number(head + 8, 4, it->flags, big);
	return sizeof(struct rtmsg);
}

static inline void neigh_attrs(struct rtnlc_builder *b, const struct rtnlc_neigh_request *it)
{
	put_some(b, NDA_DST, it->destination);
	put_some(b, NDA_LLADDR, it->link_address);
	if (it->has_vlan)
		rtnlc_builder_put_u16(b, NDA_VLAN, it->vlan);
}

static inline size_t neigh_head(uint8_t *head, const struct rtnlc_neigh_request *it, bool big)
{
	head[0] = it->family;
	head_number(head + 4, 4, (uint32_t)it->index, big);
	head_number(head + 8, 2, it->state, big);
	head[10] = it->flags;
	return sizeof(struct ndmsg);
}

static inline void rule_attrs(struct rtnlc_builder *b, const struct rtnlc_rule_request *it)
{
	put_some(b, FRA_SRC, it->source);
	put_some(b, FRA_DST, it->destination);
	put_some_u32(b, FRA_FWMARK, it->has_mark, it->mark);
	put_some_u32(b, FRA_FWMASK, it->has_mask, it->mask);
	put_name(b, FRA_IIFNAME, it->iif);
	put_name(b, FRA_OIFNAME, it->oif);
	put_some_u32(b, FRA_TABLE, it->table > 255, it->table);
	put_some_u32(b, FRA_GOTO, it->has_target, it->target);
	put_some_u32(b, FRA_SUPPRESS_PREFIXLEN, it->has_suppress_prefix_length,
	             it->suppress_prefix_length);
	put_some_u32(b, FRA_PRIORITY, it->has_priority, it->priority);
}

static inline size_t rule_head(uint8_t *head, const struct rtnlc_rule_request *it, bool big)
{
	head[0] = it->family;
	head[1] = is_there(it->destination) ? it->destination_length : 0;
	head[2] = is_there(it->source) ? it->source_length : 0;
	head[3] = it->tos;
	head[4] = it->table > 255 ? 0 : (uint8_t)it->table;
	head[7] = it->action;
	head_number(head + 8, 4, it->invert ? FIB_RULE_INVERT : 0, big);
	return sizeof(struct fib_rule_hdr);
}

static inline size_t head_of(enum asked family, uint8_t *head, const union fields *it, bool big)
{
	switch (family) {
	case LINK:
		return link_head(head, &it->link, big);
	case ADDR:
		return addr_head(head, &it->addr, big);
	case ROUTE:
		return route_head(head, &it->route, big);
	case NEIGH:
		return neigh_head(head, &it->neigh, big);
	default:
		return rule_head(head, &it->rule, big);
	}
}

static inline void attrs_of(enum asked family, struct rtnlc_builder *b, const union fields *it)
{
	switch (family) {
	case LINK:
		link_attrs(b, &it->link);
		break;
	case ADDR:
		addr_attrs(b, &it->addr);
		break;
	case ROUTE:
		route_attrs(b, &it->route);
		break;
	case NEIGH:
		neigh_attrs(b, &it->neigh);
		break;
	default:
		rule_attrs(b, &it->rule);
	}
}

/* Builds the request of an operation that there is; the builder says how far that went. */
static inline struct rtnlc_builder by_builder(enum asked family, const union fields *it,
                                              uint8_t operation, uint32_t seq, bool big,
                                              uint8_t *out, size_t room)
{
	const struct rtnlc_options options = { RTNLC_STANDARD_TOTAL, RTNLC_STANDARD_DATAGRAM,
		                                   RTNLC_STANDARD_ENTRIES, RTNLC_STANDARD_DEPTH, big,
		                                   { 0 } };
	const uint16_t type = (operation == RTNLC_DELETE ? delete_types : new_types)[family];
	uint8_t head[20] = { 0 };
	struct rtnlc_builder b;
	must(!rtnlc_builder_new(&b, &options, out, room), "a builder");
	rtnlc_builder_begin(&b, type, operation_flags[operation], seq, 0, head,
	                    head_of(family, head, it, big));
	attrs_of(family, &b, it);
	rtnlc_builder_end(&b);
	return b;
}

#endif
