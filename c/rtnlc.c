/*
 * What C calls: each call takes null pointers as include/rtnlc.h says, and hands everything else
 * to the call of crates/rtnl_c, which is proved. c/build.sh names those calls proved_*.
 */
#ifndef __wasm__
#ifndef _DEFAULT_SOURCE
#define _DEFAULT_SOURCE /* syscall */
#endif
#include <errno.h>
#include <sys/syscall.h>
#include <unistd.h>
#endif
#include "rtnlc.h"

/* A session or a mirror as the proved calls take it: `made` says whether `at` points to one. */
struct handle {
	void *at;
	bool made;
};

struct rtnlc_scanned proved_scan(const uint8_t *, size_t, const struct rtnlc_options *);
struct rtnlc_broken_head proved_broken(const uint8_t *, size_t, const struct rtnlc_options *);
struct rtnlc_taped proved_tape(const uint8_t *, size_t, const struct rtnlc_options *,
                               struct rtnlc_event *, size_t);
struct rtnlc_message proved_message_at(const uint8_t *, size_t, uint32_t, bool);
struct rtnlc_attr proved_attr_at(const uint8_t *, size_t, uint32_t, bool);
struct rtnlc_hop proved_hop_at(const uint8_t *, size_t, uint32_t, bool);
struct rtnlc_attr proved_find(const uint8_t *, size_t, uint32_t, uint16_t, bool);
struct rtnlc_family proved_family_of(uint16_t);
struct rtnlc_holds proved_holds(uint8_t, uint16_t, bool);
struct rtnlc_checked proved_check(const uint8_t *, size_t, const struct rtnlc_options *);
struct rtnlc_shown proved_show(size_t, const uint8_t *, size_t, const struct rtnlc_options *,
                               uint8_t *, size_t);
struct rtnlc_shown proved_show_json(size_t, const uint8_t *, size_t, const struct rtnlc_options *,
                                    uint8_t *, size_t);
struct rtnlc_put proved_request(uint16_t, uint8_t, uint32_t, bool, uint8_t *, size_t);
struct rtnlc_put proved_request_link(const struct rtnlc_link_request *, uint8_t, uint32_t, bool,
                                     uint8_t *, size_t);
struct rtnlc_put proved_request_addr(const struct rtnlc_addr_request *, uint8_t, uint32_t, bool,
                                     uint8_t *, size_t);
struct rtnlc_put proved_request_route(const struct rtnlc_route_request *, uint8_t, uint32_t, bool,
                                      uint8_t *, size_t);
struct rtnlc_put proved_request_neigh(const struct rtnlc_neigh_request *, uint8_t, uint32_t, bool,
                                      uint8_t *, size_t);
struct rtnlc_put proved_request_rule(const struct rtnlc_rule_request *, uint8_t, uint32_t, bool,
                                     uint8_t *, size_t);
struct rtnlc_put proved_type_name(uint16_t, uint8_t *, size_t);
struct rtnlc_put proved_attr_name(uint8_t, uint16_t, uint8_t *, size_t);

uint8_t proved_session_new(struct handle *, const struct rtnlc_options *);
void proved_session_free(struct handle *);
struct rtnlc_put proved_session_begin(struct handle *, uint16_t, uint8_t, uint32_t, uint32_t,
                                      uint8_t *, size_t);
struct rtnlc_fed proved_session_feed(struct handle *, const uint8_t *, size_t);
uint8_t proved_session_abandon(struct handle *);
struct rtnlc_status proved_session_status(struct handle *);
struct rtnlc_table proved_session_table(struct handle *, uint16_t);
struct rtnlc_put proved_session_entry(struct handle *, uint16_t, uint32_t, uint8_t *, size_t);
struct rtnlc_put proved_session_key(struct handle *, uint16_t, uint32_t, uint8_t *, size_t);
struct rtnlc_found proved_session_find(struct handle *, uint16_t, const uint8_t *, size_t);

uint8_t proved_mirror_new(struct handle *, const struct rtnlc_options *, uint32_t);
void proved_mirror_free(struct handle *);
struct rtnlc_put proved_mirror_begin(struct handle *, uint16_t, uint8_t, uint32_t, uint32_t,
                                     uint8_t *, size_t);
struct rtnlc_heard proved_mirror_feed(struct handle *, const uint8_t *, size_t,
                                      struct rtnlc_change *, size_t, uint8_t *, size_t);
uint8_t proved_mirror_lost(struct handle *);
struct rtnlc_mirrored proved_mirror_table(struct handle *, uint16_t);
struct rtnlc_put proved_mirror_entry(struct handle *, uint16_t, uint32_t, uint8_t *, size_t);
struct rtnlc_put proved_mirror_key(struct handle *, uint16_t, uint32_t, uint8_t *, size_t);
struct rtnlc_found proved_mirror_find(struct handle *, uint16_t, const uint8_t *, size_t);

uint8_t proved_stream_new(struct rtnlc_stream *, const struct rtnlc_options *);
struct rtnlc_put proved_stream_begin(struct rtnlc_stream *, uint16_t, uint8_t, uint32_t, uint32_t,
                                     uint8_t *, size_t);
struct rtnlc_fed proved_stream_feed(struct rtnlc_stream *, const uint8_t *, size_t,
                                    struct rtnlc_event *, size_t);
uint8_t proved_stream_abandon(struct rtnlc_stream *);
struct rtnlc_status proved_stream_status(const struct rtnlc_stream *);

uint8_t proved_builder_new(struct rtnlc_built *, const struct rtnlc_options *);
uint8_t proved_builder_begin(struct rtnlc_built *, uint8_t *, size_t, uint16_t, uint16_t, uint32_t,
                             uint32_t, const uint8_t *, size_t);
uint8_t proved_builder_put(struct rtnlc_built *, uint8_t *, size_t, uint16_t, const uint8_t *,
                           size_t);
uint8_t proved_builder_put_text(struct rtnlc_built *, uint8_t *, size_t, uint16_t, const uint8_t *,
                                size_t);
uint8_t proved_builder_put_u8(struct rtnlc_built *, uint8_t *, size_t, uint16_t, uint8_t);
uint8_t proved_builder_put_u16(struct rtnlc_built *, uint8_t *, size_t, uint16_t, uint16_t);
uint8_t proved_builder_put_u32(struct rtnlc_built *, uint8_t *, size_t, uint16_t, uint32_t);
uint8_t proved_builder_put_u64(struct rtnlc_built *, uint8_t *, size_t, uint16_t, uint64_t);
uint8_t proved_builder_put_be16(struct rtnlc_built *, uint8_t *, size_t, uint16_t, uint16_t);
uint8_t proved_builder_put_be32(struct rtnlc_built *, uint8_t *, size_t, uint16_t, uint32_t);
uint8_t proved_builder_put_be64(struct rtnlc_built *, uint8_t *, size_t, uint16_t, uint64_t);
uint8_t proved_builder_open(struct rtnlc_built *, uint8_t *, size_t, uint16_t);
uint8_t proved_builder_open_hop(struct rtnlc_built *, uint8_t *, size_t, uint8_t, uint8_t, int32_t);
uint8_t proved_builder_close(struct rtnlc_built *, uint8_t *, size_t);
uint8_t proved_builder_end(struct rtnlc_built *, uint8_t *, size_t);
uint8_t proved_builder_message(struct rtnlc_built *, uint8_t *, size_t, uint16_t, uint16_t,
                               uint32_t, uint32_t, const uint8_t *, size_t);
struct rtnlc_put proved_builder_finish(const struct rtnlc_built *, const uint8_t *, size_t);

static const struct rtnlc_options standard = { RTNLC_STANDARD_TOTAL, RTNLC_STANDARD_DATAGRAM,
	                                           RTNLC_STANDARD_ENTRIES, RTNLC_STANDARD_DEPTH,
	                                           false, { 0 } };

/* A null pointer stands for no bytes and no room, whatever the size beside it: the proved calls get
 * the place of this one and a size of 0, so it is neither read nor written. It is aligned for each
 * type of element. */
static const struct rtnlc_event nothing;

static const void *read_at(const void *from)
{
	return from ? from : &nothing;
}

static void *write_at(void *to)
{
	return to ? to : (void *)&nothing;
}

static size_t size_at(const void *pointer, size_t size)
{
	return pointer ? size : 0;
}

/* What the proved calls take for bytes, for a buffer, and for a builder with its buffer. */
#define BYTES(from, len) read_at(from), size_at(from, len)
#define ROOM(to, room)   write_at(to), size_at(to, room)
#define PARTS(b)         &(b)->built, ROOM((b)->out, (b)->room)

static const struct rtnlc_options *limits_at(const struct rtnlc_options *options)
{
	return options ? options : &standard;
}

struct rtnlc_scanned rtnlc_scan(const uint8_t *bytes, size_t len,
                                const struct rtnlc_options *options)
{
	return proved_scan(BYTES(bytes, len), limits_at(options));
}

struct rtnlc_broken_head rtnlc_broken(const uint8_t *bytes, size_t len,
                                      const struct rtnlc_options *options)
{
	return proved_broken(BYTES(bytes, len), limits_at(options));
}

struct rtnlc_taped rtnlc_tape(const uint8_t *bytes, size_t len,
                              const struct rtnlc_options *options, struct rtnlc_event *out,
                              size_t room)
{
	return proved_tape(BYTES(bytes, len), limits_at(options), ROOM(out, room));
}

struct rtnlc_message rtnlc_message_at(const uint8_t *bytes, size_t len, uint32_t place, bool big)
{
	return proved_message_at(BYTES(bytes, len), place, big);
}

struct rtnlc_attr rtnlc_attr_at(const uint8_t *bytes, size_t len, uint32_t place, bool big)
{
	return proved_attr_at(BYTES(bytes, len), place, big);
}

struct rtnlc_hop rtnlc_hop_at(const uint8_t *bytes, size_t len, uint32_t place, bool big)
{
	return proved_hop_at(BYTES(bytes, len), place, big);
}

struct rtnlc_attr rtnlc_find(const uint8_t *bytes, size_t len, uint32_t place, uint16_t number,
                             bool big)
{
	return proved_find(BYTES(bytes, len), place, number, big);
}

struct rtnlc_family rtnlc_family_of(uint16_t kind)
{
	return proved_family_of(kind);
}

struct rtnlc_holds rtnlc_holds(uint8_t context, uint16_t number, bool nested)
{
	return proved_holds(context, number, nested);
}

struct rtnlc_checked rtnlc_check(const uint8_t *bytes, size_t len,
                                 const struct rtnlc_options *options)
{
	return proved_check(BYTES(bytes, len), limits_at(options));
}

struct rtnlc_shown rtnlc_show(size_t number, const uint8_t *bytes, size_t len,
                              const struct rtnlc_options *options, char *out, size_t room)
{
	return proved_show(number, BYTES(bytes, len), limits_at(options), ROOM(out, room));
}

struct rtnlc_shown rtnlc_show_json(size_t number, const uint8_t *bytes, size_t len,
                                   const struct rtnlc_options *options, char *out, size_t room)
{
	return proved_show_json(number, BYTES(bytes, len), limits_at(options), ROOM(out, room));
}

struct rtnlc_put rtnlc_request(uint16_t kind, uint8_t family, uint32_t seq, bool big, uint8_t *out,
                               size_t room)
{
	return proved_request(kind, family, seq, big, ROOM(out, room));
}

struct rtnlc_put rtnlc_type_name(uint16_t kind, char *out, size_t room)
{
	return proved_type_name(kind, ROOM(out, room));
}

struct rtnlc_put rtnlc_attr_name(uint8_t context, uint16_t number, char *out, size_t room)
{
	return proved_attr_name(context, number, ROOM(out, room));
}

/* Where a session or a mirror is kept: null where the pointer to its struct is. */
#define PLACE(kept) ((kept) ? &(kept)->at : NULL)

/* What has no session or no mirror is a handle with none. */
static struct handle handle_of(void *const *place)
{
	void *at = place ? *place : NULL;
	struct handle handle = { at, at != NULL };
	return handle;
}

/* After a call the session or the mirror is where its handle says. */
static void keep(void **place, const struct handle *handle)
{
	if (place)
		*place = handle->made ? handle->at : NULL;
}

/* Returns what a call answers that takes `handle`, the handle of a session or of a mirror, and
 * keeps what the call left in it. */
#define RETURN_KEPT(kept, type, call)                  \
	do {                                               \
		struct handle handle = handle_of(PLACE(kept)); \
		const type answer = call;                      \
		keep(PLACE(kept), &handle);                    \
		return answer;                                 \
	} while (0)

/* A seed that is all 0 is none. */
static bool has_seed(const struct rtnlc_options *options)
{
	uint8_t any = 0;
	for (size_t i = 0; i < sizeof options->seed; i++)
		any |= options->seed[i];
	return any != 0;
}

/* Takes a seed from the kernel, at once: early at boot it is as random as can be had then. It is
 * asked by number, since glibc has a name for the call only from 2.25 on. */
static bool take_seed(struct rtnlc_options *options)
{
#ifdef __wasm__
	(void)options;
	return false;
#else
	const unsigned insecure = 4, nonblocking = 1; /* GRND_INSECURE since Linux 5.6, GRND_NONBLOCK */
	const long size = sizeof options->seed;
	long got = syscall(SYS_getrandom, options->seed, size, insecure);
	if (got < 0 && errno == EINVAL)
		got = syscall(SYS_getrandom, options->seed, size, nonblocking);
	return got == size;
#endif
}

/* Whether the options have a seed, or need none since what it would be for is made, or got one. */
static bool is_seeded(const void *made, struct rtnlc_options *options)
{
	return made || has_seed(options) || take_seed(options);
}

uint8_t rtnlc_session_new(struct rtnlc_session *s, const struct rtnlc_options *options)
{
	struct rtnlc_options seeded = *limits_at(options);
	if (!s)
		return RTNLC_NO_SESSION;
	if (!is_seeded(s->at, &seeded))
		return RTNLC_NO_SEED;
	RETURN_KEPT(s, uint8_t, proved_session_new(&handle, &seeded));
}

void rtnlc_session_free(struct rtnlc_session *s)
{
	struct handle handle = handle_of(PLACE(s));
	proved_session_free(&handle);
	keep(PLACE(s), &handle);
}

struct rtnlc_put rtnlc_session_begin(struct rtnlc_session *s, uint16_t kind, uint8_t family,
                                     uint32_t seq, uint32_t port, uint8_t *out, size_t room)
{
	RETURN_KEPT(s, struct rtnlc_put,
	            proved_session_begin(&handle, kind, family, seq, port, ROOM(out, room)));
}

struct rtnlc_fed rtnlc_session_feed(struct rtnlc_session *s, const uint8_t *bytes, size_t len)
{
	RETURN_KEPT(s, struct rtnlc_fed, proved_session_feed(&handle, BYTES(bytes, len)));
}

uint8_t rtnlc_session_abandon(struct rtnlc_session *s)
{
	RETURN_KEPT(s, uint8_t, proved_session_abandon(&handle));
}

struct rtnlc_status rtnlc_session_status(struct rtnlc_session *s)
{
	RETURN_KEPT(s, struct rtnlc_status, proved_session_status(&handle));
}

struct rtnlc_table rtnlc_session_table(struct rtnlc_session *s, uint16_t kind)
{
	RETURN_KEPT(s, struct rtnlc_table, proved_session_table(&handle, kind));
}

struct rtnlc_put rtnlc_session_entry(struct rtnlc_session *s, uint16_t kind, uint32_t index,
                                     uint8_t *out, size_t room)
{
	RETURN_KEPT(s, struct rtnlc_put, proved_session_entry(&handle, kind, index, ROOM(out, room)));
}

struct rtnlc_put rtnlc_session_key(struct rtnlc_session *s, uint16_t kind, uint32_t index,
                                   uint8_t *out, size_t room)
{
	RETURN_KEPT(s, struct rtnlc_put, proved_session_key(&handle, kind, index, ROOM(out, room)));
}

struct rtnlc_found rtnlc_session_find(struct rtnlc_session *s, uint16_t kind, const uint8_t *key,
                                      size_t len)
{
	RETURN_KEPT(s, struct rtnlc_found, proved_session_find(&handle, kind, BYTES(key, len)));
}

uint8_t rtnlc_mirror_new(struct rtnlc_mirror *m, const struct rtnlc_options *options,
                         uint32_t waiting)
{
	struct rtnlc_options seeded = *limits_at(options);
	if (!m)
		return RTNLC_NO_MIRROR;
	if (!is_seeded(m->at, &seeded))
		return RTNLC_NO_SEED;
	RETURN_KEPT(m, uint8_t, proved_mirror_new(&handle, &seeded, waiting));
}

void rtnlc_mirror_free(struct rtnlc_mirror *m)
{
	struct handle handle = handle_of(PLACE(m));
	proved_mirror_free(&handle);
	keep(PLACE(m), &handle);
}

struct rtnlc_put rtnlc_mirror_begin(struct rtnlc_mirror *m, uint16_t kind, uint8_t family,
                                    uint32_t seq, uint32_t port, uint8_t *out, size_t room)
{
	RETURN_KEPT(m, struct rtnlc_put,
	            proved_mirror_begin(&handle, kind, family, seq, port, ROOM(out, room)));
}

struct rtnlc_heard rtnlc_mirror_feed(struct rtnlc_mirror *m, const uint8_t *bytes, size_t len,
                                     struct rtnlc_change *changes, size_t room, uint8_t *before,
                                     size_t before_room)
{
	RETURN_KEPT(m, struct rtnlc_heard,
	            proved_mirror_feed(&handle, BYTES(bytes, len), ROOM(changes, room),
	                               ROOM(before, before_room)));
}

uint8_t rtnlc_mirror_lost(struct rtnlc_mirror *m)
{
	RETURN_KEPT(m, uint8_t, proved_mirror_lost(&handle));
}

struct rtnlc_mirrored rtnlc_mirror_table(struct rtnlc_mirror *m, uint16_t kind)
{
	RETURN_KEPT(m, struct rtnlc_mirrored, proved_mirror_table(&handle, kind));
}

struct rtnlc_put rtnlc_mirror_entry(struct rtnlc_mirror *m, uint16_t kind, uint32_t index,
                                    uint8_t *out, size_t room)
{
	RETURN_KEPT(m, struct rtnlc_put, proved_mirror_entry(&handle, kind, index, ROOM(out, room)));
}

struct rtnlc_put rtnlc_mirror_key(struct rtnlc_mirror *m, uint16_t kind, uint32_t index,
                                  uint8_t *out, size_t room)
{
	RETURN_KEPT(m, struct rtnlc_put, proved_mirror_key(&handle, kind, index, ROOM(out, room)));
}

struct rtnlc_found rtnlc_mirror_find(struct rtnlc_mirror *m, uint16_t kind, const uint8_t *key,
                                     size_t len)
{
	RETURN_KEPT(m, struct rtnlc_found, proved_mirror_find(&handle, kind, BYTES(key, len)));
}

uint8_t rtnlc_stream_new(struct rtnlc_stream *stream, const struct rtnlc_options *options)
{
	return stream ? proved_stream_new(stream, limits_at(options)) : RTNLC_NO_STREAM;
}

struct rtnlc_put rtnlc_stream_begin(struct rtnlc_stream *stream, uint16_t kind, uint8_t family,
                                    uint32_t seq, uint32_t port, uint8_t *out, size_t room)
{
	static const struct rtnlc_put none = { 0, RTNLC_NO_STREAM };
	return stream ? proved_stream_begin(stream, kind, family, seq, port, ROOM(out, room)) : none;
}

struct rtnlc_fed rtnlc_stream_feed(struct rtnlc_stream *stream, const uint8_t *bytes, size_t len,
                                   struct rtnlc_event *out, size_t room)
{
	static const struct rtnlc_fed none = { 0, 0, 0, 0, false, RTNLC_NO_STREAM };
	return stream ? proved_stream_feed(stream, BYTES(bytes, len), ROOM(out, room)) : none;
}

uint8_t rtnlc_stream_abandon(struct rtnlc_stream *stream)
{
	return stream ? proved_stream_abandon(stream) : RTNLC_NO_STREAM;
}

struct rtnlc_status rtnlc_stream_status(const struct rtnlc_stream *stream)
{
	/* All bytes of zero are no stream, since a datagram limit is 16 at least. */
	static const struct rtnlc_stream none;
	return proved_stream_status(stream ? stream : &none);
}

/* Bytes of a request, of which a null pointer stands for none too. */
static void settle(struct rtnlc_bytes *bytes)
{
	if (!bytes->at) {
		bytes->at = &nothing;
		bytes->len = 0;
	}
}

static const struct rtnlc_put not_asked = { 0, RTNLC_MISMATCH };

struct rtnlc_put rtnlc_request_link(const struct rtnlc_link_request *link, uint8_t operation,
                                    uint32_t seq, bool big, uint8_t *out, size_t room)
{
	struct rtnlc_link_request it;
	if (!link)
		return not_asked;
	it = *link;
	settle(&it.name);
	settle(&it.address);
	settle(&it.kind);
	settle(&it.data);
	return proved_request_link(&it, operation, seq, big, ROOM(out, room));
}

struct rtnlc_put rtnlc_request_addr(const struct rtnlc_addr_request *addr, uint8_t operation,
                                    uint32_t seq, bool big, uint8_t *out, size_t room)
{
	struct rtnlc_addr_request it;
	if (!addr)
		return not_asked;
	it = *addr;
	settle(&it.local);
	settle(&it.peer);
	settle(&it.broadcast);
	settle(&it.label);
	return proved_request_addr(&it, operation, seq, big, ROOM(out, room));
}

struct rtnlc_put rtnlc_request_route(const struct rtnlc_route_request *route, uint8_t operation,
                                     uint32_t seq, bool big, uint8_t *out, size_t room)
{
	struct rtnlc_route_request it;
	if (!route)
		return not_asked;
	it = *route;
	settle(&it.destination);
	settle(&it.source);
	settle(&it.gateway);
	settle(&it.preferred_source);
	if (!it.metrics) {
		it.metrics = read_at(NULL);
		it.metric_count = 0;
	}
	if (!it.hops) {
		it.hops = read_at(NULL);
		it.hop_count = 0;
	}
	return proved_request_route(&it, operation, seq, big, ROOM(out, room));
}

struct rtnlc_put rtnlc_request_neigh(const struct rtnlc_neigh_request *neigh, uint8_t operation,
                                     uint32_t seq, bool big, uint8_t *out, size_t room)
{
	struct rtnlc_neigh_request it;
	if (!neigh)
		return not_asked;
	it = *neigh;
	settle(&it.destination);
	settle(&it.link_address);
	return proved_request_neigh(&it, operation, seq, big, ROOM(out, room));
}

struct rtnlc_put rtnlc_request_rule(const struct rtnlc_rule_request *rule, uint8_t operation,
                                    uint32_t seq, bool big, uint8_t *out, size_t room)
{
	struct rtnlc_rule_request it;
	if (!rule)
		return not_asked;
	it = *rule;
	settle(&it.source);
	settle(&it.destination);
	settle(&it.iif);
	settle(&it.oif);
	return proved_request_rule(&it, operation, seq, big, ROOM(out, room));
}

uint8_t rtnlc_builder_new(struct rtnlc_builder *b, const struct rtnlc_options *options,
                          uint8_t *out, size_t room)
{
	uint8_t code = b ? proved_builder_new(&b->built, limits_at(options)) : RTNLC_NO_BUILDER;
	if (code == RTNLC_OK) {
		b->out = out;
		b->room = room;
	}
	return code;
}

uint8_t rtnlc_builder_begin(struct rtnlc_builder *b, uint16_t kind, uint16_t flags, uint32_t seq,
                            uint32_t port, const void *head, size_t len)
{
	return b ? proved_builder_begin(PARTS(b), kind, flags, seq, port, BYTES(head, len))
	         : RTNLC_NO_BUILDER;
}

uint8_t rtnlc_builder_put(struct rtnlc_builder *b, uint16_t type, const void *bytes, size_t len)
{
	return b ? proved_builder_put(PARTS(b), type, BYTES(bytes, len)) : RTNLC_NO_BUILDER;
}

uint8_t rtnlc_builder_put_text(struct rtnlc_builder *b, uint16_t type, const char *text, size_t len)
{
	return b ? proved_builder_put_text(PARTS(b), type, BYTES(text, len)) : RTNLC_NO_BUILDER;
}

/* The calls that put a number are alike. */
#define PUTS_NUMBER(name, number)                                                          \
	uint8_t rtnlc_builder_put_##name(struct rtnlc_builder *b, uint16_t type, number value) \
	{                                                                                      \
		return b ? proved_builder_put_##name(PARTS(b), type, value) : RTNLC_NO_BUILDER;    \
	}

PUTS_NUMBER(u8, uint8_t)
PUTS_NUMBER(u16, uint16_t)
PUTS_NUMBER(u32, uint32_t)
PUTS_NUMBER(u64, uint64_t)
PUTS_NUMBER(be16, uint16_t)
PUTS_NUMBER(be32, uint32_t)
PUTS_NUMBER(be64, uint64_t)

uint8_t rtnlc_builder_open(struct rtnlc_builder *b, uint16_t type)
{
	return b ? proved_builder_open(PARTS(b), type) : RTNLC_NO_BUILDER;
}

uint8_t rtnlc_builder_open_hop(struct rtnlc_builder *b, uint8_t flags, uint8_t hops,
                               int32_t ifindex)
{
	return b ? proved_builder_open_hop(PARTS(b), flags, hops, ifindex) : RTNLC_NO_BUILDER;
}

uint8_t rtnlc_builder_close(struct rtnlc_builder *b)
{
	return b ? proved_builder_close(PARTS(b)) : RTNLC_NO_BUILDER;
}

uint8_t rtnlc_builder_end(struct rtnlc_builder *b)
{
	return b ? proved_builder_end(PARTS(b)) : RTNLC_NO_BUILDER;
}

uint8_t rtnlc_builder_message(struct rtnlc_builder *b, uint16_t kind, uint16_t flags,
                              uint32_t seq, uint32_t port, const void *body, size_t len)
{
	return b ? proved_builder_message(PARTS(b), kind, flags, seq, port, BYTES(body, len))
	         : RTNLC_NO_BUILDER;
}

struct rtnlc_put rtnlc_builder_finish(const struct rtnlc_builder *b)
{
	static const struct rtnlc_put none = { 0, RTNLC_NO_BUILDER };
	return b ? proved_builder_finish(PARTS(b)) : none;
}

/* Words, which no proof is about. */
const char *rtnlc_code_name(uint8_t code)
{
	switch (code) {
	case RTNLC_OK: return "ok";
	case RTNLC_CUT: return "cut";
	case RTNLC_BAD_LENGTH: return "bad length";
	case RTNLC_SHORT_BODY: return "short body";
	case RTNLC_TOO_LONG: return "too long";
	case RTNLC_TOO_DEEP: return "too deep";
	case RTNLC_TOO_LARGE: return "too large";
	case RTNLC_TOTAL: return "total";
	case RTNLC_NOT_WAITING: return "not waiting";
	case RTNLC_BUSY: return "busy";
	case RTNLC_SAME_SEQ: return "same sequence number";
	case RTNLC_MISMATCH: return "mismatch";
	case RTNLC_BAD_LIMIT: return "bad limit";
	case RTNLC_NO_MEMORY: return "out of memory";
	case RTNLC_NO_ROOM: return "no room";
	case RTNLC_NO_STREAM: return "no stream";
	case RTNLC_NO_KIND: return "no such family";
	case RTNLC_NO_SESSION: return "no session";
	case RTNLC_NOTHING_OPEN: return "nothing open";
	case RTNLC_STILL_OPEN: return "still open";
	case RTNLC_NO_BUILDER: return "no builder";
	case RTNLC_NO_SEED: return "no seed";
	case RTNLC_NO_MIRROR: return "no mirror";
	case RTNLC_END: return "end";
	default: return "unknown code";
	}
}

/* `strings` finds the second of these in a library. */
#ifdef RTNLC_PROVED
static const char version[] = RTNLC_VERSION "\0librtnlc is proved";
#else
static const char version[] = RTNLC_VERSION "+unproved\0librtnlc is not proved";
#endif

const char *rtnlc_version(void)
{
	return version;
}

bool rtnlc_proved(void)
{
	return version[sizeof(RTNLC_VERSION) - 1] == '\0';
}
