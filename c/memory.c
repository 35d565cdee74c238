/*
 * The functions by which the code of the library takes memory, for which the kit has none on other
 * processors and in the page. An answer says whether there is memory, and where; no bytes are a
 * block of the alignment.
 */
typedef __SIZE_TYPE__ size_t;

void *malloc(size_t count);
void *realloc(void *at, size_t count);
void free(void *at);

struct granted {
	size_t is_granted;
	void *at;
};

static char nothing;

static struct granted granted(void *at)
{
	return (struct granted){ at != 0, at ? at : &nothing };
}

struct granted rattle_alloc(size_t count, size_t alignment)
{
	return granted(malloc(count ? count : alignment));
}

struct granted rattle_realloc(void *at, size_t old, size_t count, size_t alignment)
{
	(void)old;
	return granted(realloc(at, count ? count : alignment));
}

void rattle_dealloc(void *at)
{
	free(at);
}
