/*
 * How the programs of this folder read a message: the attributes in it by their numbers, and the
 * values of these. A text says "-" of what is missing, or has another size than it should.
 */
#include <arpa/inet.h>
#include <net/if.h>

/* Bytes inside of a datagram; none where `len` is 0. */
struct part {
	const uint8_t *bytes;
	size_t len;
};

/* Room for what an address, a name or a hardware address says. */
#define PART_TEXT 128

/* The body of a message, by its event. */
static inline struct part part_body(const uint8_t *datagram, const struct rtnlc_event *message)
{
	const struct part body = { datagram + message->place + NLMSG_HDRLEN, message->len };
	return body;
}

/* The attributes behind the head of a family, in the body of a message of this type. */
static inline struct part part_attrs(struct part body, uint16_t kind)
{
	const size_t head = rtnlc_family_of(kind).head_size;
	const struct part attrs = { body.bytes + head, body.len - head };
	return attrs;
}

/* The payload of the first attribute of this number. */
static inline struct part part_find(struct part attrs, uint16_t number)
{
	const struct rtnlc_attr found =
	    rtnlc_find(attrs.bytes, attrs.len, 0, number, SOURCE_BIG);
	const size_t place = found.code == RTNLC_OK ? found.place + 4 : 0;
	const struct part payload = { attrs.bytes + place, found.len };
	return payload;
}

/* The value of 4 bytes, or another. */
static inline uint32_t part_u32(struct part it, uint32_t otherwise)
{
	if (it.len == sizeof otherwise)
		memcpy(&otherwise, it.bytes, sizeof otherwise);
	return otherwise;
}

/* Each of these answers a text, for which there is room at `text`. */
static inline const char *part_number(struct part it, char *text)
{
	snprintf(text, PART_TEXT, "%u", (unsigned)part_u32(it, 0));
	return it.len == 4 ? text : "-";
}

/* A name may have any bytes. Those that a terminal doesn't just print are written as \x1b is. */
static inline const char *part_name(struct part it, char *text)
{
	size_t at, len = 0;
	for (at = 0; at < it.len && it.bytes[at] && len + 4 < PART_TEXT; at++) {
		const unsigned byte = it.bytes[at];
		const bool is_plain = byte > ' ' && byte < 0x7f && byte != '\\';
		len += (size_t)snprintf(text + len, 5, is_plain ? "%c" : "\\x%02x", byte);
	}
	text[len] = 0;
	return len ? text : "-";
}

static inline const char *part_address(struct part it, char *text)
{
	const int family = it.len == 4 ? AF_INET : AF_INET6;
	const bool is_one = it.len == 4 || it.len == 16;
	return is_one && inet_ntop(family, it.bytes, text, PART_TEXT) ? text : "-";
}

static inline const char *part_hardware(struct part it, char *text)
{
	size_t at;
	for (at = 0; at < it.len && at < PART_TEXT / 3; at++)
		snprintf(text + 3 * at, 4, "%02x:", it.bytes[at]);
	text[at ? 3 * at - 1 : 0] = 0;
	return at ? text : "-";
}

/* The word of a link's operational state, as ip(8) has it. */
static inline const char *part_state(struct part attrs)
{
	static const char *const words[] = { "UNKNOWN", "NOTPRESENT", "DOWN", "LOWERLAYERDOWN",
		                                 "TESTING", "DORMANT",    "UP" };
	const struct part state = part_find(attrs, IFLA_OPERSTATE);
	return state.len == 1 && state.bytes[0] < 7 ? words[state.bytes[0]] : "-";
}

/* RTA_GATEWAY of a route or a next hop, or the address in RTA_VIA. */
static inline const char *part_gateway(struct part attrs, char *text)
{
	struct part gateway = part_find(attrs, RTA_GATEWAY), via = part_find(attrs, RTA_VIA);
	if (!gateway.len && via.len > sizeof(struct rtvia)) {
		gateway.bytes = via.bytes + sizeof(struct rtvia);
		gateway.len = via.len - sizeof(struct rtvia);
	}
	return part_address(gateway, text);
}

/* Where a route leads: an address and the length of its prefix, or "default". */
static inline const char *part_destination(struct part body, char *text)
{
	struct rtmsg route;
	memcpy(&route, body.bytes, sizeof route);
	if (route.rtm_dst_len == 0)
		return "default";
	if (part_address(part_find(part_attrs(body, RTM_NEWROUTE), RTA_DST), text) != text)
		return "-";
	snprintf(text + strlen(text), 5, "/%u", route.rtm_dst_len);
	return text;
}
