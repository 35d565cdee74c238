/*
 * Reads recordings: a datagram of hexadecimal digits on a line, and comments behind '#'. Each
 * datagram lies in a block of its own, of exactly its size.
 */
#ifndef LINES_H
#define LINES_H

#include "rtnlc.h"
#include <stdio.h>
#include <stdlib.h>
#include <string.h>

struct datagram {
	uint8_t *bytes;
	size_t len, number;
};

static const char hex_digits[] = "0123456789abcdef";

static inline void fail(const char *why, size_t number)
{
	fprintf(stderr, "datagram %lu: %s\n", (unsigned long)number, why);
	exit(1);
}

static inline void *taken(size_t size)
{
	void *block = malloc(size ? size : 1);
	if (!block) {
		fputs("out of memory\n", stderr);
		exit(4);
	}
	return block;
}

/* The next line without its end, or null; it lies in a block of its own. */
static inline char *next_line(FILE *file)
{
	size_t room = 1 << 18, len = 0;
	char *line = (char *)taken(room);
	while (fgets(line + len, (int)(room - len), file)) {
		len += strlen(line + len);
		if (len && line[len - 1] == '\n') {
			line[len - 1] = 0;
			return line;
		}
		room *= 2;
		line = (char *)realloc(line, room);
		if (!line)
			exit(4);
	}
	if (len)
		return line;
	free(line);
	return NULL;
}

/* Makes a datagram of a line, unless that holds none. */
static inline bool read_line(const char *line, struct datagram *to)
{
	size_t at, size = strlen(line) / 2;
	if (line[0] == '#' || size == 0)
		return false;
	to->bytes = (uint8_t *)taken(size);
	to->len = size;
	for (at = 0; at < 2 * size; at++) {
		const char *digit = (const char *)memchr(hex_digits, line[at], 16);
		if (!digit)
			fail("no hexadecimal digit", to->number);
		to->bytes[at / 2] =
			(uint8_t)((at % 2 ? to->bytes[at / 2] << 4 : 0) | (digit - hex_digits));
	}
	return true;
}

/* The next datagram of a recording, counted from 1; the caller frees its block. */
static inline bool next_datagram(FILE *file, struct datagram *to)
{
	bool is_read = false;
	char *line;
	while (!is_read && (line = next_line(file))) {
		to->number++;
		is_read = read_line(line, to);
		to->number -= !is_read;
		free(line);
	}
	return is_read;
}

#endif
