/*
 * The memory of the page's module. A block has a power of two of bytes, its head among them. One
 * that is freed waits in the list of its size, and is taken again before the memory grows, which
 * it does by pages, up to the limit that the linker was given.
 */
#include "memory.c"

typedef unsigned char byte;

#define PAGE  65536
#define LEAST 5
#define LISTS 30

/* A block's head; of a free one also the next of its list. */
struct block {
	size_t list;
	struct block *next;
};

extern byte __heap_base;

static struct block *lists[LISTS]; /* the free blocks of 2^index bytes */
static byte *end;                  /* behind the last block; null before the first */

/* The list of the blocks that have room for so many bytes, or LISTS where none has. */
static size_t list_for(size_t count)
{
	size_t list = LEAST;
	while (list < LISTS && count > ((size_t)1 << list) - sizeof(struct block))
		list++;
	return list;
}

/* A new block behind all others, or null. In a memory of 32 bits the answer of a growth that is
 * refused is -1 of 32 bits, to which the addresses of 64 bits here add nothing. */
static struct block *grown(size_t list)
{
	byte *at = end ? end : (byte *)(((size_t)&__heap_base + 15) & ~(size_t)15);
	size_t have = __builtin_wasm_memory_size(0);
	size_t want = ((size_t)at + ((size_t)1 << list) + PAGE - 1) / PAGE;
	if (want > have && (unsigned)__builtin_wasm_memory_grow(0, want - have) == (unsigned)-1)
		return 0;
	end = at + ((size_t)1 << list);
	return (struct block *)at;
}

void *malloc(size_t count)
{
	size_t list = list_for(count);
	struct block *block;
	if (list == LISTS)
		return 0;
	block = lists[list];
	if (block)
		lists[list] = block->next;
	else
		block = grown(list);
	if (!block)
		return 0;
	block->list = list;
	return block + 1;
}

void free(void *at)
{
	if (at) {
		struct block *block = (struct block *)at - 1;
		block->next = lists[block->list];
		lists[block->list] = block;
	}
}

/* What was there stays where no memory is left, as in C. */
void *realloc(void *at, size_t count)
{
	size_t list = at ? ((struct block *)at - 1)->list : 0;
	void *moved;
	if (list_for(count) == list)
		return at;
	moved = malloc(count);
	if (moved && at) {
		size_t kept = ((size_t)1 << list) - sizeof(struct block);
		__builtin_memcpy(moved, at, kept < count ? kept : count);
		free(at);
	}
	return moved;
}

/* ---- What a compiler calls ---- */

int memcmp(const void *left, const void *right, size_t count)
{
	const byte *one = left, *other = right;
	for (; count > 0; count--, one++, other++)
		if (*one != *other)
			return *one < *other ? -1 : 1;
	return 0;
}

int bcmp(const void *left, const void *right, size_t count)
{
	return memcmp(left, right, count);
}

/* The product of two numbers of 128 bits, of which the lower 128 are kept. */
unsigned __int128 __multi3(unsigned __int128 left, unsigned __int128 right)
{
	const size_t half = 0xffffffff, one = (size_t)left, other = (size_t)right;
	size_t low = (one & half) * (other & half);
	size_t first = (one >> 32) * (other & half) + (low >> 32);
	size_t second = (one & half) * (other >> 32) + (first & half);
	size_t high = (one >> 32) * (other >> 32) + (first >> 32) + (second >> 32);
	high += (size_t)(left >> 64) * other + one * (size_t)(right >> 64);
	return (unsigned __int128)high << 64 | (second << 32 | (low & half));
}
