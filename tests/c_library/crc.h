/*
 * The CRC-32 of zlib, by which a line tells of many bytes.
 */
#ifndef CRC_H
#define CRC_H

#include <stddef.h>
#include <stdint.h>

/* The sum of what came before and of these bytes behind it; 0 is that of no bytes. */
static inline uint32_t crc_of(uint32_t sum, const uint8_t *bytes, size_t len)
{
	static uint32_t table[256];
	uint32_t row, bit;
	size_t at;
	for (row = 0; !table[255] && row < 256; row++)
		for (table[row] = row, bit = 0; bit < 8; bit++)
			table[row] = table[row] >> 1 ^ (table[row] & 1 ? 0xedb88320u : 0);
	sum = ~sum;
	for (at = 0; at < len; at++)
		sum = sum >> 8 ^ table[(sum ^ bytes[at]) & 255];
	return ~sum;
}

#endif
