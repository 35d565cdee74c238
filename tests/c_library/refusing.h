/*
 * Refuses allocations: a program that includes this is linked with --wrap for malloc, calloc,
 * realloc and free, and says which allocation is to be refused, counted from 1.
 */
#ifndef REFUSING_H
#define REFUSING_H

#include "lines.h"

#ifdef __cplusplus
extern "C" {
#endif
void *__real_malloc(size_t size);
void *__real_calloc(size_t count, size_t size);
void *__real_realloc(void *block, size_t size);
void __real_free(void *block);
void *__wrap_malloc(size_t size);
void *__wrap_calloc(size_t count, size_t size);
void *__wrap_realloc(void *block, size_t size);
void __wrap_free(void *block);
#ifdef __cplusplus
}
#endif

/* How many were asked for since `refuse`, which of them is refused, and how many blocks there
 * are. */
static unsigned long asked, refused_one, blocks, refusals;

static inline bool is_refused(void)
{
	return ++asked == refused_one;
}

void *__wrap_malloc(size_t size)
{
	void *block = is_refused() ? NULL : __real_malloc(size);
	blocks += block != NULL;
	return block;
}

void *__wrap_calloc(size_t count, size_t size)
{
	void *block = is_refused() ? NULL : __real_calloc(count, size);
	blocks += block != NULL;
	return block;
}

void *__wrap_realloc(void *block, size_t size)
{
	void *moved = is_refused() ? NULL : __real_realloc(block, size);
	blocks += !block && moved;
	return moved;
}

void __wrap_free(void *block)
{
	blocks -= block != NULL;
	__real_free(block);
}

/* From here on the allocation of this number is refused, and none where it is 0. */
static inline void refuse(unsigned long number)
{
	asked = 0;
	refused_one = number;
}

/* Ends what `refuse` began, and answers whether one was refused. */
static inline bool was_refused(void)
{
	bool it = refused_one && asked >= refused_one;
	refused_one = 0;
	refusals += it;
	return it;
}

#endif
