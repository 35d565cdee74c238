/* What a program has of malloc, by glibc from 2.33 on. */
#include <malloc.h>
#include <stddef.h>

/* The bytes that malloc has given and not taken back, with what it keeps beside them. */
static size_t on_heap(void)
{
	struct mallinfo2 now = mallinfo2();

	return now.uordblks + now.hblkhd;
}
