/* The datagrams of a dump from a file, one after another into one buffer, as recv(2) gives them
 * of a socket. Each stands behind its size, four bytes, lowest first, and is padded to four
 * bytes. The answers carry SEQ and PORT. */
#include <stdint.h>
#include <stdio.h>
#include <stdlib.h>
#include <string.h>

#define SEQ 1
#define PORT 2
#define LONGEST 65536

/* The status of a dump that is not whole. */
#define FAILED 2

static _Alignas(16) uint8_t datagram[LONGEST];

static FILE *opened(const char *path)
{
	FILE *file = path ? fopen(path, "rb") : NULL;

	if (!file) {
		perror(path ? path : "no file");
		exit(FAILED);
	}
	return file;
}

/* The type of the first message of all. */
static inline uint16_t first_kind(FILE *file)
{
	struct { uint32_t size, len; uint16_t kind; } begin = { 0 };

	if (fread(&begin, sizeof(begin), 1, file) != 1)
		fputs("no datagram\n", stderr);
	rewind(file);
	return begin.kind;
}

/* The bytes of the next datagram, or 0 at the end. */
static size_t next(FILE *file)
{
	uint32_t len;

	if (fread(&len, sizeof(len), 1, file) != 1)
		return 0;
	if (len > LONGEST || fread(datagram, (len + 3) & ~3u, 1, file) != 1) {
		fputs("no datagram\n", stderr);
		exit(FAILED);
	}
	return len;
}

/* Reads the whole file, which is what all programs do beside. */
static unsigned long read_all(FILE *file)
{
	unsigned long count = 0;
	size_t len;

	while ((len = next(file)))
		count += len;
	return count;
}
