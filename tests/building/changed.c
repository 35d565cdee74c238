/*
 * A library with a fault in it: CHANGE says which. It is linked by --wrap of the call that it
 * changes; the tests of this folder notice each.
 */
#include <linux/rtnetlink.h>
#include <rtnlc.h>

#if CHANGE == 1 /* a wrong byte of a number */
uint8_t __real_rtnlc_builder_put_u32(struct rtnlc_builder *, uint16_t, uint32_t);
uint8_t __wrap_rtnlc_builder_put_u32(struct rtnlc_builder *b, uint16_t type, uint32_t value)
{
	return __real_rtnlc_builder_put_u32(b, type, value ^ 0x100);
}
#elif CHANGE == 2 /* a text without its zero */
uint8_t __wrap_rtnlc_builder_put_text(struct rtnlc_builder *b, uint16_t type, const char *text,
                                      size_t len)
{
	return rtnlc_builder_put(b, type, text, len);
}
#elif CHANGE == 3 /* the weight in place of the weight less one */
uint8_t __real_rtnlc_builder_open_hop(struct rtnlc_builder *, uint8_t, uint8_t, int32_t);
uint8_t __wrap_rtnlc_builder_open_hop(struct rtnlc_builder *b, uint8_t flags, uint8_t hops,
                                      int32_t ifindex)
{
	return __real_rtnlc_builder_open_hop(b, flags, (uint8_t)(hops + 1), ifindex);
}
#elif CHANGE == 4 /* a number in the wrong order */
uint8_t __wrap_rtnlc_builder_put_be32(struct rtnlc_builder *b, uint16_t type, uint32_t value)
{
	return rtnlc_builder_put_u32(b, type, value);
}
#elif CHANGE == 5 /* a byte behind what is accepted */
uint8_t __real_rtnlc_builder_end(struct rtnlc_builder *);
uint8_t __wrap_rtnlc_builder_end(struct rtnlc_builder *b)
{
	uint8_t code = __real_rtnlc_builder_end(b);
	if (!code)
		b->out[b->built.len] = 0;
	return code;
}
#elif CHANGE == 6 /* a byte that a refused call leaves */
uint8_t __real_rtnlc_builder_close(struct rtnlc_builder *);
uint8_t __wrap_rtnlc_builder_close(struct rtnlc_builder *b)
{
	uint8_t code = __real_rtnlc_builder_close(b);
	if (code && b->built.len)
		b->out[b->built.len - 1] ^= 1;
	return code;
}
#elif CHANGE == 7 /* a refusal that doesn't stick */
uint8_t __real_rtnlc_builder_put(struct rtnlc_builder *, uint16_t, const void *, size_t);
uint8_t __wrap_rtnlc_builder_put(struct rtnlc_builder *b, uint16_t type, const void *bytes,
                                 size_t len)
{
	b->built.refusal = 0;
	return __real_rtnlc_builder_put(b, type, bytes, len);
}
#elif CHANGE == 8 /* a container whose flag is lost */
uint8_t __real_rtnlc_builder_open(struct rtnlc_builder *, uint16_t);
uint8_t __wrap_rtnlc_builder_open(struct rtnlc_builder *b, uint16_t type)
{
	uint16_t number = type & NLA_TYPE_MASK;
	bool is_known = number == RTA_MULTIPATH || number == RTA_METRICS;
	return __real_rtnlc_builder_open(b, is_known ? number : type);
}
#elif CHANGE == 9 /* a length that counts too little */
struct rtnlc_put __real_rtnlc_builder_finish(const struct rtnlc_builder *);
struct rtnlc_put __wrap_rtnlc_builder_finish(const struct rtnlc_builder *b)
{
	struct rtnlc_put put = __real_rtnlc_builder_finish(b);
	put.len -= put.len > 64 ? 4 : 0;
	return put;
}
#endif
