/* What the programs that build routes share: which routes, and what is printed of them.
 * usage: PROGRAM WAY COUNT. By `one` each route has one next hop, by `two` it has two. */
#ifndef BUILDING_H
#define BUILDING_H

#include <arpa/inet.h>
#include <linux/rtnetlink.h>
#include <stdint.h>
#include <stdio.h>
#include <stdlib.h>
#include <string.h>

/* Bytes that a request has room for. */
#define ROOM 512
#define FLAGS (NLM_F_REQUEST | NLM_F_ACK | NLM_F_CREATE | NLM_F_EXCL)

/* The sum of all requests' lengths, and of a byte of each. */
static unsigned long sum;

static const struct rtmsg route = { .rtm_family = AF_INET,
	                            .rtm_dst_len = 24,
	                            .rtm_table = RT_TABLE_MAIN,
	                            .rtm_protocol = RTPROT_BOOT,
	                            .rtm_type = RTN_UNICAST };

/* The destination of a route, in network order. */
static inline uint32_t destination(uint32_t number) { return htonl(0x0a000000 + number * 256); }

static inline uint32_t gateway(uint32_t last) { return htonl(0xc0000200 + last); }

static inline void count(const uint8_t *bytes, size_t len)
{
	sum += len + bytes[len - 1] + bytes[24];
}

/* Prints the first request, by which programs are compared. */
static inline void print_first(const uint8_t *bytes, size_t len)
{
	for (size_t at = 0; at < len; at++)
		printf("%02x", bytes[at]);
	putchar('\n');
}

#endif
