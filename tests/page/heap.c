/*
 * The heap of the page's module, over an arena that stands for its memory: blocks that are taken,
 * moved and freed at random keep their bytes and touch no others; what is freed is taken again;
 * where the memory may not grow the answer is null, and what was there stays. The products of
 * 128 bits are those of the machine. The status is 1 where one of this is not so.
 */
#include <stdint.h>
#include <stdio.h>
#include <stdlib.h>
#include <string.h>

#define ARENA ((size_t)1 << 26)
#define PAINT 0xa5

static unsigned char *arena; /* where the heap begins, at a page */
static size_t pages, most = ARENA >> 16;
/* What answers a growth that is refused: -1 of 32 bits, as in the page, and then of 64. */
static size_t refusal = 0xffffffff;

static size_t size_in_pages(void)
{
	return ((size_t)arena >> 16) + pages;
}

static size_t grow_by(size_t more)
{
	size_t before = size_in_pages();
	if (more > most - pages)
		return refusal;
	pages += more;
	return before;
}

/* The heap as it is compiled for the page, but for the names of what it has here. */
#define __builtin_wasm_memory_size(memory)       size_in_pages()
#define __builtin_wasm_memory_grow(memory, more) grow_by(more)
#define __heap_base                              (*arena)
#define malloc                                   page_malloc
#define free                                     page_free
#define realloc                                  page_realloc
#define memcmp                                   page_memcmp
#define bcmp                                     page_bcmp
#define size_t                                   page_size_t
#include "../../c/heap.c"
#undef size_t
#undef malloc
#undef free
#undef realloc
#undef memcmp
#undef bcmp

#define BLOCKS 512

struct held {
	unsigned char *at;
	size_t count;
	unsigned char sign;
};

static struct held all[BLOCKS];
static uint64_t state = 1;

static size_t random_below(size_t bound)
{
	state = state * 6364136223846793005u + 1442695040888963407u;
	return (size_t)(state >> 33) % bound;
}

static void must(int is, const char *what)
{
	if (is)
		return;
	fprintf(stderr, "heap: %s\n", what);
	exit(1);
}

static void keeps(const struct held *it, size_t count)
{
	size_t at;
	for (at = 0; at < count; at++)
		must(it->at[at] == it->sign, "a block keeps its bytes");
}

static void fill(struct held *it, unsigned char *at, size_t count)
{
	must(at != NULL && (uintptr_t)at % 16 == 0, "a block is there, and aligned");
	must(at >= arena && at + count <= arena + (pages << 16), "a block lies in the memory");
	it->at = at;
	it->count = count;
	it->sign = (unsigned char)(1 + random_below(255));
	memset(at, it->sign, count);
}

/* One step with one block: it is taken, moved or freed, by the calls for C or by those of the
 * proved code. */
static void step(struct held *it, size_t longest)
{
	size_t count = random_below(random_below(16) ? 200 : longest);
	int is_proved = random_below(2) == 0;
	unsigned char *at;
	if (!it->at) {
		at = is_proved ? rattle_alloc(count, 8).at : page_malloc(count);
		fill(it, at, count);
	} else if (random_below(2)) {
		size_t kept = count < it->count ? count : it->count;
		at = is_proved ? rattle_realloc(it->at, it->count, count, 8).at
		               : page_realloc(it->at, count);
		must(at != NULL, "a block is moved");
		it->at = at;
		keeps(it, kept);
		fill(it, at, count);
	} else {
		keeps(it, it->count);
		if (is_proved)
			rattle_dealloc(it->at);
		else
			page_free(it->at);
		it->at = NULL;
	}
}

static void free_all(void)
{
	size_t at;
	for (at = 0; at < BLOCKS; at++) {
		if (all[at].at)
			keeps(&all[at], all[at].count);
		page_free(all[at].at);
		all[at].at = NULL;
	}
}

static void at_random(void)
{
	size_t round, steps;
	for (round = 0; round < 20; round++) {
		for (steps = 0; steps < 20000; steps++)
			step(&all[random_below(BLOCKS)], 4000);
		free_all();
	}
}

/* A thousand dumps one after another take no more than one does. */
static void again(void)
{
	size_t round, at, before = 0;
	for (round = 0; round < 1000; round++) {
		for (at = 0; at < BLOCKS; at++)
			fill(&all[at], page_malloc(at * 7), at * 7);
		free_all();
		if (round == 0)
			before = pages;
		must(pages == before, "what was freed is taken again");
	}
}

static void refused(void)
{
	struct held it;
	unsigned char *at;
	most = pages;
	fill(&it, page_malloc(100), 100);
	must(page_malloc(ARENA) == NULL, "there is no memory");
	must(page_malloc((size_t)-1) == NULL, "nor so much");
	must(page_malloc((size_t)-16) == NULL, "nor that");
	must(page_realloc(it.at, ARENA) == NULL, "a block can't be moved");
	must(!rattle_alloc(ARENA, 8).is_granted, "nor taken by the proved code");
	must(!rattle_realloc(it.at, 100, ARENA, 8).is_granted, "nor moved by it");
	keeps(&it, 100);
	must(pages == most, "the memory has not grown");
	while ((at = page_malloc(1000)) != NULL)
		memset(at, PAINT, 1000);
	keeps(&it, 100);
	most = ARENA >> 16;
	must(page_malloc(1000) != NULL, "it grows where it may");
}

static void products(void)
{
	size_t round;
	for (round = 0; round < 1000000; round++) {
		unsigned __int128 one = 0, other = 0;
		int part;
		for (part = 0; part < 4; part++) {
			one = one << 32 | (random_below(3) ? random_below((size_t)1 << 31) * 3 : 0);
			other = other << 32 | (random_below(3) ? random_below((size_t)1 << 31) * 3 : 0xffffffff);
		}
		must(__multi3(one, other) == one * other, "a product of 128 bits");
	}
	must(page_memcmp("abc", "abd", 3) < 0 && page_memcmp("b", "a", 1) > 0, "bytes differ");
	must(page_memcmp("abc", "abd", 2) == 0 && page_bcmp("a", "b", 0) == 0, "bytes are the same");
}

int main(void)
{
	unsigned char *whole = malloc(ARENA + (1 << 16));
	must(whole != NULL, "there is an arena");
	arena = (unsigned char *)(((uintptr_t)whole + 0xffff) & ~(uintptr_t)0xffff);
	pages = 1;
	at_random();
	again();
	products();
	refused();
	refusal = (size_t)-1;
	refused();
	free(whole);
	return 0;
}
