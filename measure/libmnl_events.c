/* The program of libmnl_checked.c, which also puts an event of each head, as a tape does. */
#define EVENTS
#include "libmnl_checked.c"
