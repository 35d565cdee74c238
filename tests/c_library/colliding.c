/*
 * How long a session takes for neighbours whose addresses were chosen so that their keys collide,
 * beside as many others: by a hash of a fixed seed, by one prefix for all, and by the seed of
 * another session. Under a seed that was not known they take no longer; under the one for which
 * they were made they do, so that the program sees that they collide. Times are of the processor,
 * the least of some rounds.
 */
#include "lines.h"
#include <math.h>
#include <time.h>

#define MANY 65536
#define FEW 8192
#define SIZE 48
#define IN_ONE 1360
#define ROUNDS 7
#define MOST 1.5
#define SEQ 1
#define PORT 1

/* Makes a neighbour of a number. */
typedef void make(uint8_t *to, uint32_t number);

/* What the least significant bits of the hashes of chosen keys have in common. */
#define ALIKE 0xfff

static uint8_t message[MANY][SIZE];
static uint64_t chosen[FEW];
static const uint8_t known[16] = { 1, 2, 3, 4, 5, 6, 7, 8, 9, 10, 11, 12, 13, 14, 15, 16 };

/* A number in as many bytes, the lowest first. */
static void put(uint8_t *to, uint64_t value, size_t size)
{
	for (size_t i = 0; i < size; i++)
		to[i] = (uint8_t)(value >> 8 * i);
}

/* RTM_NEWNEIGH of AF_INET6 on link 1, whose NDA_DST is these two numbers. */
static void neighbour(uint8_t *to, uint64_t first, uint64_t second)
{
	memset(to, 0, SIZE);
	put(to, SIZE, 4);
	put(to + 4, 28, 2);
	put(to + 6, 2, 2);
	put(to + 8, SEQ, 4);
	put(to + 12, PORT, 4);
	to[16] = 10;
	put(to + 20, 1, 4);
	put(to + 28, 20, 2);
	put(to + 30, 1, 2);
	put(to + 32, first, 8);
	put(to + 40, second, 8);
}

/* The key of that neighbour, as docs/FORMAT.md has it. */
static void key_of(uint8_t key[31], uint64_t first)
{
	memset(key, 0, 31);
	key[0] = 10;
	key[1] = 1;
	key[6] = 1;
	key[7] = 16;
	put(key + 15, first, 8);
}

static uint64_t rotated(uint64_t value, int by)
{
	return value << by | value >> (64 - by);
}

static void sip_round(uint64_t v[4])
{
	v[0] += v[1];
	v[1] = rotated(v[1], 13) ^ v[0];
	v[0] = rotated(v[0], 32);
	v[2] += v[3];
	v[3] = rotated(v[3], 16) ^ v[2];
	v[0] += v[3];
	v[3] = rotated(v[3], 21) ^ v[0];
	v[2] += v[1];
	v[1] = rotated(v[1], 17) ^ v[2];
	v[2] = rotated(v[2], 32);
}

static uint64_t read_number(const uint8_t *from, size_t size)
{
	uint64_t value = 0;
	for (size_t i = 0; i < size; i++)
		value |= (uint64_t)from[i] << 8 * i;
	return value;
}

/* SipHash-1-3 of Aumasson and Bernstein, folded to 32 bits, as a table takes it. */
static uint32_t hash(const uint8_t *bytes, size_t len, const uint8_t seed[16])
{
	uint64_t zero = read_number(seed, 8), one = read_number(seed + 8, 8), word;
	uint64_t v[4] = { zero ^ 0x736f6d6570736575, one ^ 0x646f72616e646f6d,
		              zero ^ 0x6c7967656e657261, one ^ 0x7465646279746573 };
	for (size_t at = 0; at <= len; at += 8) {
		word = at + 8 <= len ? read_number(bytes + at, 8)
		                     : read_number(bytes + at, len - at) | (uint64_t)len << 56;
		v[3] ^= word;
		sip_round(v);
		v[0] ^= word;
	}
	v[2] ^= 0xff;
	for (int i = 0; i < 3; i++)
		sip_round(v);
	word = v[0] ^ v[1] ^ v[2] ^ v[3];
	return (uint32_t)(word ^ word >> 32);
}

/* The first halves of addresses whose keys collide under the known seed. */
static void choose_for_known_seed(void)
{
	uint64_t tried = 0;
	for (size_t found = 0; found < FEW; tried++) {
		uint8_t key[31];
		key_of(key, tried);
		if (!(hash(key, sizeof key, known) & ALIKE))
			chosen[found++] = tried;
	}
}

/* Neighbours by their number. */
static void made_for_fixed_seed(uint8_t *to, uint32_t number)
{
	neighbour(to, number, 0x9e3779b97f4a7c15);
}

static void of_one_prefix(uint8_t *to, uint32_t number)
{
	neighbour(to, 0xb80d0120, (uint64_t)number << 32);
}

static void made_for_known_seed(uint8_t *to, uint32_t number)
{
	neighbour(to, chosen[number], 0);
}

static void other(uint8_t *to, uint32_t number)
{
	neighbour(to, number, 0x0123456789abcdef);
}

/* Feeds them to a new session, and tells the seconds that this took. */
static double seconds(size_t count, const uint8_t *seed)
{
	struct rtnlc_options options = { .total = RTNLC_STANDARD_TOTAL, .datagram = 65536,
		                             .entries = MANY, .depth = RTNLC_STANDARD_DEPTH };
	struct rtnlc_session s = { 0 };
	uint8_t request[64];
	clock_t begun;
	if (seed)
		memcpy(options.seed, seed, sizeof options.seed);
	if (rtnlc_session_new(&s, &options) ||
	    rtnlc_session_begin(&s, 28, 0, SEQ, PORT, request, sizeof request).code)
		fail("no session", 0);
	begun = clock();
	for (size_t at = 0; at < count; at += IN_ONE) {
		size_t more = count - at < IN_ONE ? count - at : IN_ONE;
		if (rtnlc_session_feed(&s, message[at], more * SIZE).code)
			fail("refused", at);
	}
	begun = clock() - begun;
	if (rtnlc_session_table(&s, 28).count != count)
		fail("not all are kept", count);
	rtnlc_session_free(&s);
	return (double)begun / CLOCKS_PER_SEC;
}

/* The same of neighbours that are made so. */
static double seconds_of(make *make_one, uint32_t count, const uint8_t *seed)
{
	for (uint32_t i = 0; i < count; i++)
		make_one(message[i], i);
	return seconds(count, seed);
}

/* How many times as long these take as others. Both are tried in turn, since the machine may have
 * other work for a while. */
static double ratio(const char *what, make *make_one, uint32_t count, const uint8_t *seed)
{
	double least = HUGE_VAL, others = HUGE_VAL;
	for (int round = 0; round < ROUNDS; round++) {
		double one = seconds_of(make_one, count, seed), another = seconds_of(other, count, seed);
		least = one < least ? one : least;
		others = another < others ? another : others;
	}
	printf("%s: %.2f times the others\n", what, least / others);
	return least / others;
}

int main(void)
{
	bool holds = ratio("made for a fixed seed", made_for_fixed_seed, MANY, NULL) <= MOST;
	holds &= ratio("of one prefix", of_one_prefix, MANY, NULL) <= MOST;
	choose_for_known_seed();
	holds &= ratio("made for another seed", made_for_known_seed, FEW, NULL) <= MOST;
	holds &= ratio("made for this seed", made_for_known_seed, FEW, known) > MOST;
	return !holds;
}
