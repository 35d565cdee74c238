/*
 * The five requests that change something as one: their fields by the names that they have in
 * include/rtnlc.h, and the call of each.
 */
#ifndef REQUESTS_H
#define REQUESTS_H

#include "calls.h"

enum asked { LINK, ADDR, ROUTE, NEIGH, RULE };
#define FAMILIES   5
#define OPERATIONS 7

union fields {
	struct rtnlc_link_request link;
	struct rtnlc_addr_request addr;
	struct rtnlc_route_request route;
	struct rtnlc_neigh_request neigh;
	struct rtnlc_rule_request rule;
};

/* What a field is: a number of so many bytes, a truth value, bytes, or a list. */
enum field_type { IS_U8, IS_U16, IS_U32, IS_BOOL, IS_BYTES, IS_METRICS, IS_HOPS };

struct field {
	const char *name;
	enum field_type type;
	size_t place;
};

#define AT(family, type, name) { #name, type, offsetof(struct rtnlc_##family##_request, name) }

static const struct field link_fields[] = {
	AT(link, IS_BYTES, name),      AT(link, IS_BYTES, address), AT(link, IS_BYTES, kind),
	AT(link, IS_BYTES, data),      AT(link, IS_U32, index),     AT(link, IS_U32, mtu),
	AT(link, IS_U32, master),      AT(link, IS_U32, link),      AT(link, IS_BOOL, has_mtu),
	AT(link, IS_BOOL, has_master), AT(link, IS_BOOL, has_link), AT(link, IS_BOOL, has_up),
	AT(link, IS_BOOL, up),
};

static const struct field addr_fields[] = {
	AT(addr, IS_BYTES, local),   AT(addr, IS_BYTES, peer),       AT(addr, IS_BYTES, broadcast),
	AT(addr, IS_BYTES, label),   AT(addr, IS_U32, index),        AT(addr, IS_U32, flags),
	AT(addr, IS_U32, preferred), AT(addr, IS_U32, valid),        AT(addr, IS_BOOL, has_lifetimes),
	AT(addr, IS_U8, family),     AT(addr, IS_U8, prefix_length), AT(addr, IS_U8, scope),
};

static const struct field route_fields[] = {
	AT(route, IS_BYTES, destination), AT(route, IS_BYTES, source),
	AT(route, IS_BYTES, gateway),     AT(route, IS_BYTES, preferred_source),
	AT(route, IS_METRICS, metrics),   AT(route, IS_HOPS, hops),
	AT(route, IS_U32, table),         AT(route, IS_U32, flags),
	AT(route, IS_U32, priority),      AT(route, IS_U32, oif),
	AT(route, IS_BOOL, has_priority), AT(route, IS_BOOL, has_oif),
	AT(route, IS_U8, family),         AT(route, IS_U8, destination_length),
	AT(route, IS_U8, source_length),  AT(route, IS_U8, tos),
	AT(route, IS_U8, protocol),       AT(route, IS_U8, scope),
	AT(route, IS_U8, route_type),
};

static const struct field neigh_fields[] = {
	AT(neigh, IS_BYTES, destination), AT(neigh, IS_BYTES, link_address),
	AT(neigh, IS_U32, index),         AT(neigh, IS_U16, state),
	AT(neigh, IS_U16, vlan),          AT(neigh, IS_BOOL, has_vlan),
	AT(neigh, IS_U8, family),         AT(neigh, IS_U8, flags),
};

static const struct field rule_fields[] = {
	AT(rule, IS_BYTES, source),
	AT(rule, IS_BYTES, destination),
	AT(rule, IS_BYTES, iif),
	AT(rule, IS_BYTES, oif),
	AT(rule, IS_U32, table),
	AT(rule, IS_U32, mark),
	AT(rule, IS_U32, mask),
	AT(rule, IS_U32, target),
	AT(rule, IS_U32, suppress_prefix_length),
	AT(rule, IS_U32, priority),
	AT(rule, IS_BOOL, has_mark),
	AT(rule, IS_BOOL, has_mask),
	AT(rule, IS_BOOL, has_target),
	AT(rule, IS_BOOL, has_suppress_prefix_length),
	AT(rule, IS_BOOL, has_priority),
	AT(rule, IS_BOOL, invert),
	AT(rule, IS_U8, family),
	AT(rule, IS_U8, source_length),
	AT(rule, IS_U8, destination_length),
	AT(rule, IS_U8, tos),
	AT(rule, IS_U8, action),
};

#define COUNT_OF(list) (sizeof(list) / sizeof *(list))

static const struct family {
	const char *name;
	const struct field *fields;
	size_t count; /* of the fields */
	size_t size;
} families[FAMILIES] = {
	{ "link", link_fields, COUNT_OF(link_fields), sizeof(struct rtnlc_link_request) },
	{ "addr", addr_fields, COUNT_OF(addr_fields), sizeof(struct rtnlc_addr_request) },
	{ "route", route_fields, COUNT_OF(route_fields), sizeof(struct rtnlc_route_request) },
	{ "neigh", neigh_fields, COUNT_OF(neigh_fields), sizeof(struct rtnlc_neigh_request) },
	{ "rule", rule_fields, COUNT_OF(rule_fields), sizeof(struct rtnlc_rule_request) },
};

static inline void *field_at(union fields *it, const struct field *field)
{
	return (uint8_t *)it + field->place;
}

static inline void set_number(union fields *it, const struct field *field, uint32_t value)
{
	uint8_t u8 = (uint8_t)value;
	uint16_t u16 = (uint16_t)value;
	bool truth = value != 0;
	if (field->type == IS_U8)
		memcpy(field_at(it, field), &u8, sizeof u8);
	else if (field->type == IS_U16)
		memcpy(field_at(it, field), &u16, sizeof u16);
	else if (field->type == IS_U32)
		memcpy(field_at(it, field), &value, sizeof value);
	else
		memcpy(field_at(it, field), &truth, sizeof truth);
}

/* The call of a family; of no fields where `it` is null. */
static inline struct rtnlc_put put_request(enum asked family, const union fields *it,
                                           uint8_t operation, uint32_t seq, bool big, uint8_t *out,
                                           size_t room)
{
	switch (family) {
	case LINK:
		return rtnlc_request_link(it ? &it->link : NULL, operation, seq, big, out, room);
	case ADDR:
		return rtnlc_request_addr(it ? &it->addr : NULL, operation, seq, big, out, room);
	case ROUTE:
		return rtnlc_request_route(it ? &it->route : NULL, operation, seq, big, out, room);
	case NEIGH:
		return rtnlc_request_neigh(it ? &it->neigh : NULL, operation, seq, big, out, room);
	default:
		return rtnlc_request_rule(it ? &it->rule : NULL, operation, seq, big, out, room);
	}
}

#endif
