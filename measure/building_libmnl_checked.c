/* As building_libmnl.c, by the calls that look whether there is room. */
#define CHECKED
#include "building_libmnl.c"
