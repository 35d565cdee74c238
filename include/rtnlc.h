/* SPDX-License-Identifier: MIT OR Apache-2.0 */
/* Copyright (c) 2026 the rtnl authors */
/*
 * rtnlc: a proved reader and builder of rtnetlink datagrams, for C and C++ (netlink(7),
 * rtnetlink(7), RFC 3549).
 *
 * A datagram is bytes in memory: what one recv(2) on a netlink socket gave, or what is to be sent.
 * No call opens a socket, and none keeps a pointer that it was handed, but that of the buffer in a
 * struct rtnlc_builder. The manual page rtnlc(3) is installed with this header; docs/C.md of the
 * sources has a table of all calls, its loops and a request.
 *
 * What the caller owes, and no more:
 *  - `bytes` points to `len` bytes that can be read. A null pointer is no bytes, whatever `len` is.
 *  - `out` points to `room` elements that can be written, and that overlap nothing else that the
 *    call is handed. A null pointer is no room, whatever `room` is.
 *  - `options` points to a struct rtnlc_options, or is null: then the standard limits hold.
 *  - A session, a mirror, a stream or a builder is in one call at a time.
 * Any bytes are taken, and each call ends, whatever they hold. A datagram needn't be aligned.
 *
 * Threads: no call writes anything but its result, what it was handed to write, and its session or
 * its mirror. Any thread may call, and a session, a mirror, a stream or a builder may go from one
 * thread to another between two calls.
 * Memory: rtnlc_check, rtnlc_show and rtnlc_show_json take some from malloc, realloc and free, and
 * have given all of it back when they return. A session or a mirror holds memory until it is freed,
 * and its calls take some. These three and all calls of a session or a mirror can't be made from a
 * signal handler; the others take no memory, and can.
 * Stack: no call needs more than RTNLC_STACK bytes, however deep the datagram is.
 *
 * Places are offsets in bytes, from the front of the bytes that were handed in. `len` fields count
 * the bytes behind a head, without padding.
 */
#ifndef RTNLC_H
#define RTNLC_H

#include <stdbool.h>
#include <stddef.h>
#include <stdint.h>

#if defined __BYTE_ORDER__ && __BYTE_ORDER__ != __ORDER_LITTLE_ENDIAN__
#error "librtnlc is for processors that have the lowest byte first"
#endif

#ifdef __cplusplus
extern "C" {
#endif

/* What a compiler can be told of buffers, where it listens. Both words are gone at the end. */
#if defined __GNUC__ && !defined __clang__ && __GNUC__ >= 11
#define RTNLC_READS(pointer, size) __attribute__((access(read_only, pointer, size)))
#define RTNLC_WRITES(pointer, size) __attribute__((access(write_only, pointer, size)))
#else
#define RTNLC_READS(pointer, size)
#define RTNLC_WRITES(pointer, size)
#endif

#define RTNLC_VERSION "0.3.0"
/* What programs are linked with, the first two numbers of the version as one: 0 * 100 + 3. */
#define RTNLC_ABI 3
#define RTNLC_STACK 32768

/* Why a call didn't do what it was asked for. */
enum rtnlc_code {
	RTNLC_OK = 0,
	RTNLC_CUT = 1,          /* fewer bytes are left than a head has */
	RTNLC_BAD_LENGTH = 2,   /* a length is below its head's size, or above the bytes that are left */
	RTNLC_SHORT_BODY = 3,   /* a message is shorter than the head of its type */
	RTNLC_TOO_LONG = 4,     /* a container has more than 65,532 bytes, an attribute above 65,535 */
	RTNLC_TOO_DEEP = 5,     /* a container opens a level above the depth limit */
	RTNLC_TOO_LARGE = 6,    /* the datagram is above the datagram limit; nothing was looked at */
	RTNLC_TOTAL = 7,        /* all datagrams would be above the total limit; nothing was looked at */
	RTNLC_NOT_WAITING = 8,  /* no dump waits for its answers */
	RTNLC_BUSY = 9,         /* a dump waits for its answers, or the session or the mirror is made
	                         * already */
	RTNLC_SAME_SEQ = 10,    /* the sequence number is that of the dump before; of a mirror, it isn't
	                         * above that of each before */
	RTNLC_MISMATCH = 11,    /* a value is of another kind than its attribute, or its type, holds */
	RTNLC_BAD_LIMIT = 12,   /* one of the options is out of its range; nothing was looked at */
	RTNLC_NO_MEMORY = 13,   /* an allocation was refused */
	RTNLC_NO_ROOM = 17,     /* the buffer has less room than the answer needs, which is told */
	RTNLC_NO_STREAM = 18,   /* null, or what no call leaves in a struct rtnlc_stream */
	RTNLC_NO_KIND = 19,     /* the message type is of no family that is dumped */
	RTNLC_NO_SESSION = 20,  /* null, or a session that was never made, or is freed */
	RTNLC_NOTHING_OPEN = 21, /* nothing is open that could be closed, or into which could be put */
	RTNLC_STILL_OPEN = 22,  /* something is still open in what should end, or before the next */
	RTNLC_NO_BUILDER = 23,  /* null, or what no call leaves in a struct rtnlc_builder */
	RTNLC_NO_SEED = 24,     /* getrandom(2) gave no seed; one can be handed in */
	RTNLC_NO_MIRROR = 25,   /* null, or a mirror that was never made, or is freed */
	RTNLC_END = 255         /* nothing more stands there */
};

/* What a head is. */
enum rtnlc_sort {
	RTNLC_MESSAGE = 0,  /* struct nlmsghdr */
	RTNLC_BYTES = 1,    /* an attribute that holds bytes */
	RTNLC_LIST = 2,     /* an attribute that holds attributes */
	RTNLC_HOPS = 3,     /* RTA_MULTIPATH of a route: an attribute that holds next hops */
	RTNLC_NEXT_HOP = 4  /* struct rtnexthop */
};

/* Where an attribute stands, which says what its number means. */
enum rtnlc_context {
	RTNLC_NO_CONTEXT = 0,
	RTNLC_LINK = 1,      /* IFLA_* */
	RTNLC_LINK_INFO = 2, /* IFLA_INFO_* in IFLA_LINKINFO of a link */
	RTNLC_ADDR = 3,      /* IFA_* */
	RTNLC_ROUTE = 4,     /* RTA_* of a route, and of each of its next hops */
	RTNLC_METRICS = 5,   /* RTAX_* in RTA_METRICS of a route */
	RTNLC_NEIGH = 6,     /* NDA_* */
	RTNLC_RULE = 7,      /* FRA_* */
	RTNLC_PLAIN = 8      /* any other list */
};

/* The limits of a call, of a session, a mirror, a stream or a builder, each in its range, whichever
 * a call uses. */
struct rtnlc_options {
	uint64_t total;    /* bytes of all datagrams of a session or a stream at most: 0 to 2^40 */
	uint32_t datagram; /* bytes of a datagram at most: a multiple of 4 from 16 to 1,048,576 */
	uint32_t entries;  /* entries of each table of a session or a mirror at most: 0 to 65,536 */
	uint8_t depth;     /* levels that containers may open at most: 0 to 32 */
	bool big;          /* numbers have their highest byte first, as on s390x */
	uint8_t seed[16];  /* by which the tables of a session or a mirror hash, so that nobody else can
	                    * choose keys that collide; all 0: rtnlc_session_new and rtnlc_mirror_new
	                    * take one from getrandom(2) */
};

/* The limits that hold where no options are handed in, with the lowest byte first. */
#define RTNLC_STANDARD_TOTAL 1073741824
#define RTNLC_STANDARD_DATAGRAM 65536
#define RTNLC_STANDARD_ENTRIES 4096
#define RTNLC_STANDARD_DEPTH 8

/* ---- Whether a datagram is accepted ---- */

struct rtnlc_scanned {
	uint64_t visits; /* how many attribute bytes were visited */
	uint32_t place;  /* of the first fault; 0 where there is none */
	uint8_t code;    /* RTNLC_OK, RTNLC_CUT to RTNLC_TOO_LARGE, or RTNLC_BAD_LIMIT */
};

/* Checks every head of a datagram, and keeps nothing. The visits never exceed the depth limit plus
 * one times `len`. */
RTNLC_READS(1, 2)
struct rtnlc_scanned rtnlc_scan(const uint8_t *bytes, size_t len,
                                const struct rtnlc_options *options);

struct rtnlc_broken_head {
	uint32_t place;  /* of the head, which is that of the first fault */
	uint32_t len;    /* the length that it says, with its own bytes */
	uint32_t left;   /* bytes from there to the end of the list that it lies in; for a message, to
	                  * the end of the datagram */
	uint16_t number; /* as in struct rtnlc_event */
	uint8_t level;   /* as there */
	uint8_t sort;    /* RTNLC_MESSAGE, RTNLC_NEXT_HOP, or RTNLC_BYTES for any attribute */
	bool whole;      /* its bytes are all there; else `len` and `number` are 0 */
	uint8_t code;    /* as for rtnlc_scan; where it is no rule, all else is 0 */
};

/* The head that breaks a rule at the first fault that rtnlc_scan answers, and what it says of
 * itself. The heads in which it lies are the last events of rtnlc_tape before its place: the last
 * message, and the last event of each level below its own. */
RTNLC_READS(1, 2)
struct rtnlc_broken_head rtnlc_broken(const uint8_t *bytes, size_t len,
                                      const struct rtnlc_options *options);

/* ---- Its heads, in one pass ---- */

struct rtnlc_event {
	uint32_t place;  /* of the head */
	uint32_t len;    /* bytes behind the head, without padding */
	uint16_t number; /* a message's type; an attribute's without its two flag bits; 0 of a next hop */
	uint8_t level;   /* 0 for messages and for the attributes of a body; one more in each container */
	uint8_t sort;    /* enum rtnlc_sort */
	bool nested;     /* NLA_F_NESTED */
	bool net;        /* NLA_F_NET_BYTEORDER */
};

struct rtnlc_taped {
	size_t count;    /* how many heads there are, or up to the fault; also above `room` */
	uint64_t visits;
	uint32_t place;
	uint8_t code;    /* as for rtnlc_scan */
};

/* As rtnlc_scan, and puts an event for each head into `out`, in the order of their offsets: each
 * message, and behind it the heads in it. As many as fit are put, which are `count` or `room`, the
 * lesser, and the rest of `out` is as it was. On a fault those are the heads before it, and that
 * of a container which is too long or too deep itself; on RTNLC_TOO_LARGE and RTNLC_BAD_LIMIT
 * there are none. A datagram has at most a quarter as many heads as bytes. */
RTNLC_READS(1, 2) RTNLC_WRITES(4, 5)
struct rtnlc_taped rtnlc_tape(const uint8_t *bytes, size_t len,
                              const struct rtnlc_options *options, struct rtnlc_event *out,
                              size_t room);

/* ---- One head after another ---- */

struct rtnlc_message {
	uint32_t place;  /* the one asked for */
	uint32_t next;   /* where the next message stands */
	uint32_t len;    /* bytes of the body, which begins at place + 16 */
	uint32_t seq, port;
	uint16_t kind, flags;
	uint8_t code;    /* RTNLC_OK, RTNLC_CUT to RTNLC_SHORT_BODY, RTNLC_TOO_LARGE or RTNLC_END */
};

struct rtnlc_attr {
	uint32_t place;
	uint32_t next;
	uint32_t len;    /* bytes of the payload, which begins at place + 4 */
	uint16_t number; /* without the two flag bits */
	bool nested, net;
	uint8_t code;    /* RTNLC_OK, RTNLC_CUT, RTNLC_BAD_LENGTH, RTNLC_TOO_LARGE or RTNLC_END */
};

struct rtnlc_hop {
	uint32_t place;
	uint32_t next;
	uint32_t len;    /* bytes of its attributes, which begin at place + 8 */
	int32_t ifindex;
	uint8_t flags, hops;
	uint8_t code;    /* as for rtnlc_attr */
};

/* What stands at an offset: a message of a datagram, an attribute or a next hop of a region, which
 * is a part of a datagram. Begin at 0 and go on at `next`, until the code is not RTNLC_OK. Nothing
 * but the head at that offset is looked at. Bytes above 1,048,576 are RTNLC_TOO_LARGE. Where the
 * code is not RTNLC_OK, `next` is the place, and the other fields are 0. */
RTNLC_READS(1, 2)
struct rtnlc_message rtnlc_message_at(const uint8_t *bytes, size_t len, uint32_t place, bool big);
RTNLC_READS(1, 2)
struct rtnlc_attr rtnlc_attr_at(const uint8_t *bytes, size_t len, uint32_t place, bool big);
RTNLC_READS(1, 2)
struct rtnlc_hop rtnlc_hop_at(const uint8_t *bytes, size_t len, uint32_t place, bool big);

/* The first attribute of this number (without the two flag bits) at an offset of a region or behind
 * it: the one that counts, where a number stands twice. Heads before it are looked at, one after
 * another, their payloads are not. RTNLC_END where there is none; RTNLC_CUT or RTNLC_BAD_LENGTH at
 * the first head that breaks a rule, with its offset; RTNLC_TOO_LARGE as above. */
RTNLC_READS(1, 2)
struct rtnlc_attr rtnlc_find(const uint8_t *bytes, size_t len, uint32_t place, uint16_t number,
                             bool big);

struct rtnlc_family {
	uint8_t head_size; /* bytes of the family's head, behind which attributes stand; or 0 */
	uint8_t context;   /* enum rtnlc_context */
};

/* What the body of a message of this type begins with: NEW, DEL and SET of links, addresses,
 * routes, neighbours and rules. Others have no attributes that are read: both fields are 0. */
struct rtnlc_family rtnlc_family_of(uint16_t kind);

struct rtnlc_holds {
	uint8_t sort;    /* RTNLC_BYTES, RTNLC_LIST or RTNLC_HOPS; 0 where `context` is no context */
	uint8_t context; /* of the attributes in it, or in its next hops; else 0 */
};

/* What an attribute of this number (without the two flag bits) holds, where it stands. */
struct rtnlc_holds rtnlc_holds(uint8_t context, uint16_t number, bool nested);

/* ---- Its text ---- */

struct rtnlc_checked {
	uint32_t place;
	uint8_t code;   /* as for rtnlc_scan, or RTNLC_NO_MEMORY */
	bool canonical; /* accepted, and written as its messages are */
};

/* Whether a datagram is written as its messages are: every padding whole and of zeros, and every
 * byte of a head that is not kept zero. */
RTNLC_READS(1, 2)
struct rtnlc_checked rtnlc_check(const uint8_t *bytes, size_t len,
                                 const struct rtnlc_options *options);

struct rtnlc_shown {
	size_t len;   /* bytes of the text, also above `room` */
	uint8_t code; /* RTNLC_OK, RTNLC_BAD_LIMIT or RTNLC_NO_MEMORY */
};

/* Puts the text that `rtnl show` prints of a datagram of this number into `out`, as far as it
 * fits, and no zero byte behind it. A refused datagram has a text too, which says why. Where the
 * code is not RTNLC_OK nothing is put. */
RTNLC_READS(2, 3) RTNLC_WRITES(5, 6)
struct rtnlc_shown rtnlc_show(size_t number, const uint8_t *bytes, size_t len,
                              const struct rtnlc_options *options, char *out, size_t room);

/* As rtnlc_show, of the line of JSON that `rtnl show --format json` prints of it, with its
 * newline. Its objects are those of share/rtnl.schema.json. */
RTNLC_READS(2, 3) RTNLC_WRITES(5, 6)
struct rtnlc_shown rtnlc_show_json(size_t number, const uint8_t *bytes, size_t len,
                                   const struct rtnlc_options *options, char *out, size_t room);

/* ---- The request of a dump ---- */

struct rtnlc_put {
	size_t len;   /* bytes; on RTNLC_NO_ROOM how many there must be room for, where a call doesn't
	               * say otherwise; else 0 */
	uint8_t code; /* where it is not RTNLC_OK, `out` is as it was, and nothing else has happened,
	               * but for the calls that say otherwise */
};

/* Room for any request of a dump: that of links has 32 bytes, the others fewer. */
#define RTNLC_REQUEST 32

/* Puts the request of a dump into `out`: a GET message of the family with the flags NLM_F_REQUEST,
 * NLM_F_ROOT and NLM_F_MATCH, port id 0, and the family's whole head. `kind` is any message type
 * of the family, as RTM_GETLINK or RTM_NEWLINK; `family` an address family, or 0 for all.
 * Behind `seq` stands the byte order, as in struct rtnlc_options, and no port id as in the calls
 * that begin a dump. RTNLC_NO_KIND, or RTNLC_NO_ROOM. */
RTNLC_WRITES(5, 6)
struct rtnlc_put rtnlc_request(uint16_t kind, uint8_t family, uint32_t seq, bool big, uint8_t *out,
                               size_t room);

/* ---- Where a dump stands, of a session and of a stream ---- */

enum rtnlc_state {
	RTNLC_IDLE = 0,     /* no dump was begun */
	RTNLC_WAITING = 1,  /* the last one waits for its answers */
	RTNLC_DONE = 2,     /* it has ended by DONE; a status of 0 or more is no failure */
	RTNLC_FAILED = 3,   /* by ERROR, whose code is not 0 */
	RTNLC_OVERRUN = 4,  /* by OVERRUN */
	RTNLC_ABANDONED = 5 /* by the caller */
};

struct rtnlc_status {
	uint64_t received; /* bytes of all datagrams that were looked at, since it was made */
	uint64_t visits;   /* attribute bytes visited in them: at most depth + 1 times those received */
	uint64_t ignored;  /* messages of the last dump that were neither entries nor its end */
	uint32_t seq, port;
	int32_t status;    /* of DONE, 0 where it has none; or the code of ERROR, a negative errno */
	uint16_t kind;     /* the NEW type of the last dump's family, as RTM_NEWLINK */
	uint8_t family;    /* the address family that it asked for */
	uint8_t state;     /* enum rtnlc_state */
	bool damaged;      /* a datagram of the last dump was refused */
	bool interrupted;  /* the kernel's table changed meanwhile, NLM_F_DUMP_INTR: dump again */
	bool complete;     /* ended by DONE with no failure, neither damaged nor interrupted, and the
	                    * table of a session missed no entry */
	uint8_t code;      /* RTNLC_OK, RTNLC_NO_SESSION or RTNLC_NO_STREAM; else all fields are 0 */
};

struct rtnlc_fed {
	size_t events;    /* of a stream: those at the front of `out`; on RTNLC_NO_ROOM those that there
	                   * must be room for; else 0 */
	uint32_t items;   /* messages that are entries of the dump, those too that a table missed */
	uint32_t ignored; /* messages that are neither that nor its end */
	uint32_t place;   /* of the first fault; 0 where there is none */
	bool ended;       /* one of them ended the dump */
	uint8_t code;     /* RTNLC_OK, or why the datagram was not taken: then all but `place` and
	                   * `events` is 0 */
};

/* ---- Dumps, read into bounded tables ---- */

/* One dump of rtnetlink after another (NLM_F_DUMP of netlink(7)): begin one, send its request,
 * feed what comes back until it has ended, and look at the table. The session owns its tables; the
 * caller owns this struct and every buffer, and no pointer into a session is handed out. Begin it
 * as `struct rtnlc_session s = { 0 };`, end it with rtnlc_session_free, copy it only to move it,
 * and leave its field alone. All calls but rtnlc_session_new answer RTNLC_NO_SESSION where it is
 * null, was never made or is freed. */
struct rtnlc_session {
	void *at;
};

/* Makes a session. RTNLC_BAD_LIMIT, RTNLC_NO_MEMORY, RTNLC_NO_SEED, or RTNLC_NO_SESSION for a null
 * pointer: then none is made. RTNLC_BUSY where it is made already, and stays. It never waits for
 * random bytes: early at boot a seed is as random as the kernel can make it then. */
uint8_t rtnlc_session_new(struct rtnlc_session *s, const struct rtnlc_options *options);

/* Frees a session and all that it holds. One that was never made or is freed is left alone. */
void rtnlc_session_free(struct rtnlc_session *s);

/* Begins a dump, and puts its request into `out`, as rtnlc_request does. `port` is the port id
 * that the answers carry: that of the socket, as getsockname(2) says it. The family's table is
 * emptied; the tables of the other families stay. The first that applies is answered:
 * RTNLC_NO_SESSION; RTNLC_NO_KIND; RTNLC_NO_ROOM; RTNLC_BUSY; RTNLC_SAME_SEQ; RTNLC_NO_MEMORY. */
RTNLC_WRITES(6, 7)
struct rtnlc_put rtnlc_session_begin(struct rtnlc_session *s, uint16_t kind, uint8_t family,
                                     uint32_t seq, uint32_t port, uint8_t *out, size_t room);

/* Takes a datagram into the dump that waits: all of its entries, or none. The first that applies
 * is answered: RTNLC_NO_SESSION; RTNLC_NOT_WAITING; RTNLC_TOTAL; RTNLC_TOO_LARGE; RTNLC_CUT to
 * RTNLC_TOO_DEEP at the first fault; RTNLC_NO_MEMORY, which comes in place of whatever would come
 * later. Then the dump waits as before, and all tables are as they were; but for RTNLC_NO_SESSION
 * and RTNLC_NOT_WAITING the dump is damaged from then on. `events` is 0. */
RTNLC_READS(2, 3)
struct rtnlc_fed rtnlc_session_feed(struct rtnlc_session *s, const uint8_t *bytes, size_t len);

/* Ends the dump that waits, as abandoned; its table stays. RTNLC_NOT_WAITING or
 * RTNLC_NO_SESSION. */
uint8_t rtnlc_session_abandon(struct rtnlc_session *s);

/* Where the last dump stands. */
struct rtnlc_status rtnlc_session_status(struct rtnlc_session *s);

struct rtnlc_table {
	uint64_t missed; /* how often a new entry found no room */
	uint32_t count;  /* entries */
	uint32_t limit;
	uint8_t code;    /* RTNLC_OK, RTNLC_NO_KIND or RTNLC_NO_SESSION */
};

/* The size of a family's table, which holds the entries of the last dump of that family. */
struct rtnlc_table rtnlc_session_table(struct rtnlc_session *s, uint16_t kind);

/* Puts the entry of an index from 0 on, in order of first appearance, into `out`: one whole
 * message of the family's NEW type in its canonical bytes, with flags, sequence number and port id
 * 0. RTNLC_NO_SESSION; RTNLC_NO_KIND; RTNLC_END where the table has no such entry;
 * RTNLC_NO_MEMORY; RTNLC_NO_ROOM. A message that can't be written is RTNLC_TOO_LONG,
 * RTNLC_TOO_DEEP or RTNLC_MISMATCH, which no entry of a dump has been seen to be. */
RTNLC_WRITES(4, 5)
struct rtnlc_put rtnlc_session_entry(struct rtnlc_session *s, uint16_t kind, uint32_t index,
                                     uint8_t *out, size_t room);

/* Puts the key of that entry into `out`: bytes that two entries share exactly where they are the
 * same object. RTNLC_NO_SESSION, RTNLC_NO_KIND, RTNLC_END or RTNLC_NO_ROOM. */
RTNLC_WRITES(4, 5)
struct rtnlc_put rtnlc_session_key(struct rtnlc_session *s, uint16_t kind, uint32_t index,
                                   uint8_t *out, size_t room);

struct rtnlc_found {
	uint32_t index;
	uint8_t code; /* RTNLC_OK; RTNLC_END where no entry has the key; RTNLC_NO_KIND or
	               * RTNLC_NO_SESSION */
};

/* The index of the entry with these bytes for its key. */
RTNLC_READS(3, 4)
struct rtnlc_found rtnlc_session_find(struct rtnlc_session *s, uint16_t kind, const uint8_t *key,
                                      size_t len);

/* ---- The kernel's tables, kept current ---- */

/* Why a table may differ from the kernel's, until the next whole dump of it. */
enum rtnlc_stale {
	RTNLC_CURRENT = 0,       /* it doesn't */
	RTNLC_NEVER_DUMPED = 1,  /* no dump of it was whole yet, of the address family asked for last */
	RTNLC_LOST = 2,          /* the kernel dropped messages: ENOBUFS, or NLMSG_OVERRUN */
	RTNLC_REFUSED = 3,       /* a datagram was refused */
	RTNLC_SHORT = 4,         /* there was no memory for what was heard */
	RTNLC_TOO_MANY_WAIT = 5, /* more changes came while a dump ran than may wait for its end */
	RTNLC_SILENT = 6,        /* the kernel takes routes of IPv4 away with a link or an address, and
	                          * tells nobody */
	RTNLC_UNNAMED = 7,       /* a route was replaced, joined or taken from others, and the message
	                          * doesn't say which */
	RTNLC_FULL = 8           /* the table had no room for an entry */
};

/* What a message makes of the table of its kind. */
enum rtnlc_effect {
	RTNLC_NOTHING = 0, /* nothing: it tells of no entry of a table, of one that wasn't there, or of
	                    * one for which there was no room; or it is an item or the end of a dump */
	RTNLC_ADDED = 1,   /* the entry is new, and stands last, at `index` */
	RTNLC_CHANGED = 2, /* the entry at `index` was told anew; `before` is the one that was there */
	RTNLC_REMOVED = 3, /* `before` is gone from `index`, where the last entry stands now */
	RTNLC_WAITS = 4    /* a dump of the table runs: the change waits for its end */
};

/* The tables of links, addresses, routes, neighbours and rules, kept as the kernel has them
 * (rtnetlink(7)): join the multicast groups, begin a dump of each table, send its request, and feed
 * all that the socket receives, the answers of dumps and the notifications. What is told while a
 * dump runs waits until its end. `stale` of rtnlc_mirror_table says of each table whether it can be
 * trusted; dump it again where it can't. The mirror owns its tables; the caller owns this struct
 * and every buffer, and no pointer into a mirror is handed out. Begin it as
 * `struct rtnlc_mirror m = { 0 };`, end it with rtnlc_mirror_free, copy it only to move it, and
 * leave its field alone. All calls but rtnlc_mirror_new answer RTNLC_NO_MIRROR where it is null,
 * was never made or is freed. */
struct rtnlc_mirror {
	void *at;
};

/* Makes a mirror, of whose tables at most `waiting` changes each wait for the end of a dump.
 * RTNLC_BAD_LIMIT, RTNLC_NO_MEMORY, RTNLC_NO_SEED, or RTNLC_NO_MIRROR for a null pointer: then none
 * is made. RTNLC_BUSY where it is made already, and stays. The total limit says nothing of it. */
uint8_t rtnlc_mirror_new(struct rtnlc_mirror *m, const struct rtnlc_options *options,
                         uint32_t waiting);

/* Frees a mirror and all that it holds. One that was never made or is freed is left alone. */
void rtnlc_mirror_free(struct rtnlc_mirror *m);

/* Begins a dump, and puts its request into `out`, as rtnlc_session_begin does. A dump of the same
 * table that runs is given up. Where it asks for another address family than the one before, the
 * table is stale until it has ended whole. The first that applies is answered: RTNLC_NO_MIRROR;
 * RTNLC_NO_KIND; RTNLC_NO_ROOM; RTNLC_SAME_SEQ where `seq` isn't above that of each dump before:
 * then nothing has begun. RTNLC_NO_MEMORY where what waited for the end of the dump that was given
 * up is lost: then the dump has begun all the same, its request is in `out`, and the table is
 * stale. */
RTNLC_WRITES(6, 7)
struct rtnlc_put rtnlc_mirror_begin(struct rtnlc_mirror *m, uint16_t kind, uint8_t family,
                                    uint32_t seq, uint32_t port, uint8_t *out, size_t room);

/* What became of one message of a datagram. */
struct rtnlc_change {
	uint32_t before;     /* where the entry before it stands in the bytes that were put */
	uint32_t before_len; /* of RTNLC_CHANGED and RTNLC_REMOVED its length, 0 where it wasn't put;
	                      * else 0 */
	uint32_t index;      /* the entry's index in its table, as of rtnlc_mirror_entry; 0 of
	                      * RTNLC_NOTHING and RTNLC_WAITS */
	uint16_t kind;       /* the NEW type of the table, as RTM_NEWLINK; 0 where the message is of
	                      * none, and where the code is not RTNLC_OK */
	uint8_t effect;      /* enum rtnlc_effect */
	uint8_t code;        /* RTNLC_OK; RTNLC_NO_MEMORY, or RTNLC_NO_ROOM where as many changes wait
	                      * as may: then what it tells is lost, and a table is stale */
};

struct rtnlc_heard {
	uint64_t visits;  /* attribute bytes visited: at most the depth limit plus one times `len` */
	size_t changes;   /* how many were put: one for each message, or 0 where `room` is 0 */
	size_t before;    /* how many bytes of entries before them were put */
	uint32_t place;   /* of the first fault; 0 where there is none */
	uint8_t code;     /* RTNLC_OK, or why the datagram was not taken */
};

/* Takes a datagram: each table takes what its messages tell of it. Of each message it puts what
 * that makes of the table of its kind into `changes`, and the entries before them into `before`,
 * as far as there is room and memory: each a whole message of the table's NEW type in its canonical
 * bytes. No more of `before` is used than its first 4,294,967,295 bytes. A table may be stale then
 * that wasn't before, or current: rtnlc_mirror_table tells it.
 *
 * The first that applies is answered: RTNLC_NO_MIRROR; RTNLC_NO_ROOM where `room` isn't 0 and less
 * than a sixteenth of `len`, rounded down, which is always enough: then nothing is looked at.
 * RTNLC_TOO_LARGE; RTNLC_CUT to RTNLC_TOO_DEEP at the first fault; RTNLC_NO_MEMORY: then nothing
 * was heard, and all tables are stale. */
RTNLC_READS(2, 3) RTNLC_WRITES(4, 5) RTNLC_WRITES(6, 7)
struct rtnlc_heard rtnlc_mirror_feed(struct rtnlc_mirror *m, const uint8_t *bytes, size_t len,
                                     struct rtnlc_change *changes, size_t room, uint8_t *before,
                                     size_t before_room);

/* Says that the kernel dropped messages for this socket: all tables are stale. For ENOBUFS of
 * recv(2), and for all else that may have kept a datagram from the mirror. RTNLC_NO_MIRROR. */
uint8_t rtnlc_mirror_lost(struct rtnlc_mirror *m);

struct rtnlc_mirrored {
	uint64_t missed; /* how often a new entry found no room since the last whole dump */
	uint32_t count;  /* entries */
	uint32_t limit;
	uint32_t seq;    /* of the dump of it that runs; 0 where none does */
	uint8_t stale;   /* enum rtnlc_stale */
	bool dumps;      /* a dump of it runs; meanwhile the table is as it was when that began */
	uint8_t code;    /* RTNLC_OK, RTNLC_NO_KIND or RTNLC_NO_MIRROR; else all fields are 0 */
};

/* How a table stands, and whether it can be trusted. */
struct rtnlc_mirrored rtnlc_mirror_table(struct rtnlc_mirror *m, uint16_t kind);

/* Puts the entry of an index from 0 on into `out`, as rtnlc_session_entry does. A removal moves the
 * last entry to the index of the one that goes. */
RTNLC_WRITES(4, 5)
struct rtnlc_put rtnlc_mirror_entry(struct rtnlc_mirror *m, uint16_t kind, uint32_t index,
                                    uint8_t *out, size_t room);

/* Puts the key of that entry into `out`, as rtnlc_session_key does. The key of a bridge's
 * forwarding entry has the bridge for the port. */
RTNLC_WRITES(4, 5)
struct rtnlc_put rtnlc_mirror_key(struct rtnlc_mirror *m, uint16_t kind, uint32_t index,
                                  uint8_t *out, size_t room);

/* The index of the entry with these bytes for its key. */
RTNLC_READS(3, 4)
struct rtnlc_found rtnlc_mirror_find(struct rtnlc_mirror *m, uint16_t kind, const uint8_t *key,
                                     size_t len);

/* ---- Dumps of any length, in constant space ---- */

/* Where the dumps of one socket stand, one after another, with no table. The caller keeps it, and
 * may read it, copy it and store it. Any bytes are taken for one: RTNLC_NO_STREAM where a field is
 * out of its range or above the bound that is said here, where `ignored` is above `received`,
 * where anything was counted before the first dump, or where an ERROR has code 0. No call leaves
 * one so. What is a stream in other numbers than a call leaves, as of a GET type of the family, is
 * taken too, and a call that answers neither RTNLC_NO_STREAM nor RTNLC_NO_KIND writes it as calls
 * do. */
struct rtnlc_stream {
	uint64_t total;      /* as in struct rtnlc_options */
	uint64_t received;   /* bytes of all datagrams so far: at most `total` */
	uint64_t visits;     /* attribute bytes visited: at most `depth` plus one times `received` */
	uint64_t ignored;    /* messages of the last dump that are neither its items nor its end */
	uint32_t datagram;   /* as in struct rtnlc_options */
	uint32_t entries;    /* as there; it says nothing of a stream */
	uint32_t seq, port;  /* of the last dump */
	int32_t status;      /* of its DONE, or the code of its ERROR; else 0 */
	uint16_t kind;       /* the NEW type of its family */
	uint8_t family;      /* of its request */
	uint8_t state;       /* enum rtnlc_state; on RTNLC_IDLE those of the last dump say nothing */
	uint8_t depth, big;  /* as in struct rtnlc_options; big is 0 or 1 */
	uint8_t damaged;     /* 1 where a datagram of it was refused, else 0 */
	uint8_t interrupted; /* 1 where an item or its DONE has NLM_F_DUMP_INTR, else 0 */
};

/* Makes a stream of these limits; those of tables say nothing here. RTNLC_BAD_LIMIT, or
 * RTNLC_NO_STREAM for a null pointer: then nothing is written. */
uint8_t rtnlc_stream_new(struct rtnlc_stream *stream, const struct rtnlc_options *options);

/* Begins a dump, and puts its request into `out`, as rtnlc_session_begin does. The first that
 * applies is answered: RTNLC_NO_STREAM; RTNLC_NO_KIND; RTNLC_NO_ROOM; RTNLC_BUSY;
 * RTNLC_SAME_SEQ. */
RTNLC_WRITES(6, 7)
struct rtnlc_put rtnlc_stream_begin(struct rtnlc_stream *stream, uint16_t kind, uint8_t family,
                                    uint32_t seq, uint32_t port, uint8_t *out, size_t room);

/* Takes a datagram into the dump that waits. At the front of `out` it leaves the events of its
 * items: for each the event of its message, as rtnlc_tape has it, and behind it those of the heads
 * in it. The entries are looked at there, before the datagram's bytes go: nothing of them is kept.
 * What stands in `out` behind them, or after a refusal, is of no use. Room for a quarter as many
 * events as the datagram has bytes is always enough.
 *
 * The first that applies is answered: RTNLC_NO_STREAM; RTNLC_NOT_WAITING; RTNLC_TOTAL;
 * RTNLC_TOO_LARGE; RTNLC_CUT to RTNLC_TOO_DEEP at the first fault; RTNLC_NO_ROOM. RTNLC_NO_STREAM,
 * RTNLC_NOT_WAITING and RTNLC_NO_ROOM leave the stream as it was, so the datagram can be fed again
 * with more room: for the events of all its heads, those of other messages too. After the others
 * the dump still waits and is damaged. */
RTNLC_READS(2, 3) RTNLC_WRITES(4, 5)
struct rtnlc_fed rtnlc_stream_feed(struct rtnlc_stream *stream, const uint8_t *bytes, size_t len,
                                   struct rtnlc_event *out, size_t room);

/* Ends the dump that waits, as abandoned. RTNLC_NOT_WAITING or RTNLC_NO_STREAM. */
uint8_t rtnlc_stream_abandon(struct rtnlc_stream *stream);

/* Where the last dump stands, as of a session. */
struct rtnlc_status rtnlc_stream_status(const struct rtnlc_stream *stream);

/* ---- Building a datagram ---- */

/* What is built in a buffer of the caller's: messages one after another, in each its family's head
 * and attributes, which are put, or opened and closed where they hold others. It takes no memory,
 * and what it hands out is never malformed: within the limits, canonical, and read again as exactly
 * what was put, each attribute by its context as rtnlc_holds has it.
 *
 * The first refusal sticks: each call behind it answers it again and does nothing, and so does
 * rtnlc_builder_finish; so a caller may look at the code of that call alone. A call that is
 * refused changes no byte of the buffer. No call changes one at `room` or behind it.
 *
 * The caller keeps it, and may read it, copy it and store it; between two calls the buffer may move
 * with what is in it, if `out` is set to where it is. Any bytes of `built` are taken for one:
 * RTNLC_NO_BUILDER, and nothing is written, where a limit is out of its range, where more bytes are
 * accepted than `room` or than the datagram limit, where an open head is not among them or deeper
 * than the depth limit, where a number is none of those said here. No call leaves one so. */
struct rtnlc_built {
	uint64_t total;       /* as in struct rtnlc_options; it says nothing of a builder */
	uint32_t entries;     /* the same */
	uint32_t datagram;    /* as in struct rtnlc_options */
	uint32_t len;         /* bytes of the buffer that are accepted */
	uint32_t starts[33];  /* the offsets of the open heads, that of the message first; what is
	                       * behind the last one says nothing */
	uint8_t contents[33]; /* what stands behind each head: enum rtnlc_context of attributes, or
	                       * RTNLC_HOPS_BEHIND */
	uint8_t count;        /* how many heads are open: at most `depth` plus one */
	uint8_t depth, big;   /* as in struct rtnlc_options; big is 0 or 1 */
	uint8_t refusal;      /* the code of the first refusal, or 0 */
};

#define RTNLC_HOPS_BEHIND 9

struct rtnlc_builder {
	uint8_t *out;  /* the buffer: `room` bytes that can be written, and that overlap nothing else */
	size_t room;
	struct rtnlc_built built;
};

/* Makes a builder over a buffer that has accepted nothing yet. RTNLC_BAD_LIMIT, or RTNLC_NO_BUILDER
 * for a null pointer: then nothing is written. No byte of the buffer is touched. */
uint8_t rtnlc_builder_new(struct rtnlc_builder *b, const struct rtnlc_options *options,
                          uint8_t *out, size_t room);

/* Begins a message of a type NEW, DEL or SET. `head` points to its family's struct, as the kernel
 * has it: ifinfomsg, ifaddrmsg, rtmsg, ndmsg or fib_rule_hdr, of `len` bytes, with numbers in the
 * builder's order; bytes that mean nothing go out as zeros. The first that applies is answered, as
 * by all calls below: RTNLC_NO_BUILDER; an earlier refusal; RTNLC_STILL_OPEN where a message is
 * open; RTNLC_MISMATCH where the type is none of these, or its head has another length;
 * RTNLC_NO_ROOM; RTNLC_TOO_LARGE. */
RTNLC_READS(6, 7)
uint8_t rtnlc_builder_begin(struct rtnlc_builder *b, uint16_t kind, uint16_t flags, uint32_t seq,
                            uint32_t port, const void *head, size_t len);

/* Puts an attribute that holds these bytes, with zeros behind it up to a multiple of four. `type`
 * is its number, with NLA_F_NESTED and NLA_F_NET_BYTEORDER where they are meant; neither changes
 * the bytes. RTNLC_NOTHING_OPEN where no message is open; RTNLC_MISMATCH where next hops stand, and
 * for an attribute that holds others, by its context, number and NLA_F_NESTED; RTNLC_TOO_LONG for
 * more than 65,531 bytes; RTNLC_NO_ROOM; RTNLC_TOO_LARGE. */
RTNLC_READS(3, 4)
uint8_t rtnlc_builder_put(struct rtnlc_builder *b, uint16_t type, const void *bytes, size_t len);

/* The same of a text of `len` bytes, with one zero byte behind it. */
RTNLC_READS(3, 4)
uint8_t rtnlc_builder_put_text(struct rtnlc_builder *b, uint16_t type, const char *text,
                               size_t len);

/* The same of a number in one byte; in two, four or eight bytes in the builder's order, as the
 * kernel has most numbers; and in network byte order, as it has those of the types __be16 to
 * __be64. */
uint8_t rtnlc_builder_put_u8(struct rtnlc_builder *b, uint16_t type, uint8_t value);
uint8_t rtnlc_builder_put_u16(struct rtnlc_builder *b, uint16_t type, uint16_t value);
uint8_t rtnlc_builder_put_u32(struct rtnlc_builder *b, uint16_t type, uint32_t value);
uint8_t rtnlc_builder_put_u64(struct rtnlc_builder *b, uint16_t type, uint64_t value);
uint8_t rtnlc_builder_put_be16(struct rtnlc_builder *b, uint16_t type, uint16_t value);
uint8_t rtnlc_builder_put_be32(struct rtnlc_builder *b, uint16_t type, uint32_t value);
uint8_t rtnlc_builder_put_be64(struct rtnlc_builder *b, uint16_t type, uint64_t value);

/* Opens an attribute that holds attributes, or next hops: what is put next stands in it.
 * RTNLC_NOTHING_OPEN; RTNLC_MISMATCH where next hops stand, and for an attribute that holds bytes;
 * RTNLC_TOO_DEEP; RTNLC_NO_ROOM; RTNLC_TOO_LARGE. */
uint8_t rtnlc_builder_open(struct rtnlc_builder *b, uint16_t type);

/* Opens a next hop in RTA_MULTIPATH: rtnh_flags, rtnh_hops (the weight less one), rtnh_ifindex.
 * Attributes of routes stand in it. RTNLC_NOTHING_OPEN; RTNLC_MISMATCH where no next hops stand;
 * RTNLC_NO_ROOM; RTNLC_TOO_LARGE. */
uint8_t rtnlc_builder_open_hop(struct rtnlc_builder *b, uint8_t flags, uint8_t hops,
                               int32_t ifindex);

/* Closes the attribute or the next hop that was opened last: its length is set. It needs no room.
 * RTNLC_NOTHING_OPEN; RTNLC_TOO_LONG for more than 65,532 bytes. */
uint8_t rtnlc_builder_close(struct rtnlc_builder *b);

/* Ends the message: its length is set. It needs no room. RTNLC_NOTHING_OPEN where none is open;
 * RTNLC_STILL_OPEN where an attribute or a next hop is. */
uint8_t rtnlc_builder_end(struct rtnlc_builder *b);

/* Puts a whole message of no family, whose body is these bytes, with zeros behind it up to a
 * multiple of four: NOOP, ERROR, DONE and OVERRUN of netlink itself, a type that is not known here,
 * or a GET. RTNLC_STILL_OPEN where a message is open; RTNLC_MISMATCH for NEW, DEL and SET of a
 * family, which rtnlc_builder_begin begins, and for a body that is shorter than its type says (20
 * bytes of ERROR, 1 of GET); RTNLC_TOO_LONG for a message of more than 1,048,576 bytes;
 * RTNLC_NO_ROOM; RTNLC_TOO_LARGE. */
RTNLC_READS(6, 7)
uint8_t rtnlc_builder_message(struct rtnlc_builder *b, uint16_t kind, uint16_t flags,
                              uint32_t seq, uint32_t port, const void *body, size_t len);

/* How many bytes the datagram has, at the front of `out`. RTNLC_NO_BUILDER; the first refusal;
 * RTNLC_STILL_OPEN where a message is open: then `len` is 0. It changes nothing, and more messages
 * may come behind. */
struct rtnlc_put rtnlc_builder_finish(const struct rtnlc_builder *b);

/* ---- Requests that change something ---- */

/* What a request asks for, in the words of ip(8). Each has NLM_F_REQUEST and NLM_F_ACK, so the
 * kernel answers it by an ERROR of its sequence number, whose code is 0 or a negative errno. */
enum rtnlc_operation {
	RTNLC_ADD = 0,     /* made, refused where it is there: NEW, NLM_F_CREATE and NLM_F_EXCL */
	RTNLC_REPLACE = 1, /* made, or put in its place: NEW, NLM_F_CREATE and NLM_F_REPLACE */
	RTNLC_CHANGE = 2,  /* put in the place of what is there: NEW, NLM_F_REPLACE; not of links */
	RTNLC_APPEND = 3,  /* made, behind those that are there: NEW, NLM_F_CREATE and NLM_F_APPEND; of
	                    * routes, and of a bridge's entries */
	RTNLC_PREPEND = 4, /* made, before those that are there: NEW, NLM_F_CREATE; of routes */
	RTNLC_SET = 5,     /* fields of what is there are set: NEW alone; of links */
	RTNLC_DELETE = 6   /* taken away: DEL alone */
};

/* Each of the five calls below puts one message into `out`: its type and flags as the operation
 * has them, `seq`, port id 0, the head of its family, and an attribute for each field that is
 * there, in an order and with the bytes in which ip(8) sends them. `big` is as in struct
 * rtnlc_options. Several requests in one datagram are put one behind another, each at the end of
 * the one before. What the kernel would refuse is put as it is: an address of another length than
 * its family's, an operation that the family doesn't know.
 *
 * A struct may begin as all zeros: then nothing is there. A number `x` beside a `has_x` is there
 * where `has_x` is true; bytes are where they are not empty. What a request points to is only read,
 * while the call runs, and doesn't overlap `out`. A null pointer in it stands for none, whatever
 * the count beside it.
 *
 * The answer's `len` is that of the message, a multiple of four; or 0 beside the code of the first
 * part that can't be put:
 *  - RTNLC_MISMATCH for a request that is null, and for an operation that is none of these, with no
 *    byte written; and for a metric's number of 16,384 or more;
 *  - RTNLC_TOO_LONG for an attribute above 65,535 bytes, its head of four bytes and the zero byte
 *    of a name among them;
 *  - RTNLC_NO_ROOM, which doesn't tell how much it takes;
 *  - RTNLC_TOO_LARGE for a message above RTNLC_STANDARD_DATAGRAM bytes.
 * After a refusal the front of `out` holds the parts before that one, which are no message; the
 * rest of `out` is as it was. */

/* Bytes of the caller's: an address in network order, or a name without its zero byte. There are
 * none where `len` is 0 or `at` is null. */
struct rtnlc_bytes {
	const void *at;
	size_t len;
};

/* A link: the one with `index`; or, where that is 0, the one with `name`. With an index, `name` is
 * the name that it gets. */
struct rtnlc_link_request {
	struct rtnlc_bytes name;    /* IFLA_IFNAME */
	struct rtnlc_bytes address; /* IFLA_ADDRESS, of the link layer */
	struct rtnlc_bytes kind;    /* IFLA_INFO_KIND of a virtual interface, as "vlan" */
	struct rtnlc_bytes data;    /* IFLA_INFO_DATA: attributes of the kind's own, with their heads
	                             * and padding; none where there is no kind */
	int32_t index;              /* 0 where the name says which one, or the kernel chooses it */
	uint32_t mtu;               /* IFLA_MTU, in bytes */
	uint32_t master;            /* IFLA_MASTER, an index; 0 takes it out of its bridge or its like */
	uint32_t link;              /* IFLA_LINK, the index of the interface that it lies on */
	bool has_mtu, has_master, has_link;
	bool has_up, up;            /* IFF_UP: brought up, or down */
};

/* Puts the request of a link. */
RTNLC_WRITES(5, 6)
struct rtnlc_put rtnlc_request_link(const struct rtnlc_link_request *link, uint8_t operation,
                                    uint32_t seq, bool big, uint8_t *out, size_t room);

/* An address of an interface. */
struct rtnlc_addr_request {
	struct rtnlc_bytes local;     /* IFA_LOCAL: 4 bytes for IPv4, 16 for IPv6; put if empty, too */
	struct rtnlc_bytes peer;      /* IFA_ADDRESS, of the other end; without one the local address */
	struct rtnlc_bytes broadcast; /* IFA_BROADCAST */
	struct rtnlc_bytes label;     /* IFA_LABEL */
	uint32_t index;               /* of the interface */
	uint32_t flags;               /* IFA_F_* bits: in the head up to 255, in IFA_FLAGS above */
	uint32_t preferred, valid;    /* IFA_CACHEINFO: lifetimes in seconds; 2^32 - 1 for ever */
	bool has_lifetimes;           /* whether both are there */
	uint8_t family;               /* AF_INET or AF_INET6 */
	uint8_t prefix_length;        /* bits of the address that are the network's; of the other
	                               * end's, where there is one */
	uint8_t scope;                /* RT_SCOPE_* */
};

/* Puts the request of an address. */
RTNLC_WRITES(5, 6)
struct rtnlc_put rtnlc_request_addr(const struct rtnlc_addr_request *addr, uint8_t operation,
                                    uint32_t seq, bool big, uint8_t *out, size_t room);

/* A metric of a route: its number RTAX_*, and its value. */
struct rtnlc_metric {
	uint16_t number;
	uint32_t value;
};

/* One of several next hops of a route, as struct rtnexthop. */
struct rtnlc_next_hop {
	int32_t index;       /* of the interface; 0 for none */
	uint8_t flags;       /* RTNH_F_* bits */
	uint8_t hops;        /* the weight less one */
	uint8_t gateway_len; /* bytes of RTA_GATEWAY: 4 or 16, 0 for none; above 16 as 16 */
	uint8_t gateway[16]; /* in network order */
};

/* A route. ip(8) adds one with RTPROT_BOOT, RT_TABLE_MAIN, RTN_UNICAST, and for IPv4 with
 * RT_SCOPE_LINK where there is no gateway; it deletes one with protocol and type 0, and for IPv4
 * with RT_SCOPE_NOWHERE. */
struct rtnlc_route_request {
	struct rtnlc_bytes destination;      /* RTA_DST; none for the default route */
	struct rtnlc_bytes source;           /* RTA_SRC, that packets must have */
	struct rtnlc_bytes gateway;          /* RTA_GATEWAY */
	struct rtnlc_bytes preferred_source; /* RTA_PREFSRC */
	const struct rtnlc_metric *metrics;  /* RTA_METRICS, in this order */
	size_t metric_count;
	const struct rtnlc_next_hop *hops;   /* RTA_MULTIPATH, in this order; in place of a gateway
	                                      * and oif */
	size_t hop_count;
	uint32_t table;                      /* in the head up to 255, in RTA_TABLE above */
	uint32_t flags;                      /* RTNH_F_ONLINK for a gateway that is on the link */
	uint32_t priority;                   /* RTA_PRIORITY, the metric of ip(8): the lowest is taken */
	uint32_t oif;                        /* RTA_OIF, the index of the output interface */
	bool has_priority, has_oif;
	uint8_t family;                      /* AF_INET or AF_INET6 */
	uint8_t destination_length;          /* how many bits of the destination count; 0 without one */
	uint8_t source_length;               /* and of the source */
	uint8_t tos;
	uint8_t protocol;                    /* RTPROT_* */
	uint8_t scope;                       /* RT_SCOPE_* */
	uint8_t route_type;                  /* RTN_*, rtm_type */
};

/* Puts the request of a route. */
RTNLC_WRITES(5, 6)
struct rtnlc_put rtnlc_request_route(const struct rtnlc_route_request *route, uint8_t operation,
                                     uint32_t seq, bool big, uint8_t *out, size_t room);

/* A neighbour. ip(8) takes NUD_PERMANENT where no state is said. */
struct rtnlc_neigh_request {
	struct rtnlc_bytes destination;  /* NDA_DST, the network address */
	struct rtnlc_bytes link_address; /* NDA_LLADDR */
	int32_t index;                   /* of the interface */
	uint16_t state;                  /* NUD_* bits */
	uint16_t vlan;                   /* NDA_VLAN, of a bridge's entry */
	bool has_vlan;
	uint8_t family;                  /* AF_INET, AF_INET6, or AF_BRIDGE */
	uint8_t flags;                   /* NTF_* bits */
};

/* Puts the request of a neighbour. */
RTNLC_WRITES(5, 6)
struct rtnlc_put rtnlc_request_neigh(const struct rtnlc_neigh_request *neigh, uint8_t operation,
                                     uint32_t seq, bool big, uint8_t *out, size_t room);

/* A rule. One that is added has FR_ACT_TO_TBL and a table, or another action and table 0; ip(8)
 * deletes one with action 0. */
struct rtnlc_rule_request {
	struct rtnlc_bytes source;       /* FRA_SRC */
	struct rtnlc_bytes destination;  /* FRA_DST */
	struct rtnlc_bytes iif;          /* FRA_IIFNAME, by which packets come */
	struct rtnlc_bytes oif;          /* FRA_OIFNAME, by which they leave */
	uint32_t table;                  /* in the head up to 255, in FRA_TABLE above */
	uint32_t mark, mask;             /* FRA_FWMARK, FRA_FWMASK */
	uint32_t target;                 /* FRA_GOTO, under FR_ACT_GOTO */
	uint32_t suppress_prefix_length; /* FRA_SUPPRESS_PREFIXLEN */
	uint32_t priority;               /* FRA_PRIORITY, its place among the others */
	bool has_mark, has_mask, has_target, has_suppress_prefix_length, has_priority;
	bool invert;                     /* FIB_RULE_INVERT: for the packets that don't match */
	uint8_t family;                  /* AF_INET or AF_INET6 */
	uint8_t source_length;           /* how many bits of the source count; 0 without one */
	uint8_t destination_length;      /* and of the destination */
	uint8_t tos;
	uint8_t action;                  /* FR_ACT_* */
};

/* Puts the request of a rule. */
RTNLC_WRITES(5, 6)
struct rtnlc_put rtnlc_request_rule(const struct rtnlc_rule_request *rule, uint8_t operation,
                                    uint32_t seq, bool big, uint8_t *out, size_t room);

/* ---- Words ---- */

/* Room for any name of a message type or an attribute: none has more bytes than 31. */
#define RTNLC_NAME 32

/* Puts the name of a message type in the kernel's headers, as "RTM_NEWLINK" or "NLMSG_DONE", into
 * `out`, and no zero byte behind it: NEW, DEL, GET and SET of links, addresses, routes, neighbours
 * and rules, and the types of netlink itself. RTNLC_END where it is another; RTNLC_NO_ROOM. */
RTNLC_WRITES(2, 3)
struct rtnlc_put rtnlc_type_name(uint16_t kind, char *out, size_t room);

/* The same of an attribute of this number (without the two flag bits) where it stands, as
 * "IFLA_IFNAME". RTNLC_END where it has no name here, or `context` is no context. */
RTNLC_WRITES(3, 4)
struct rtnlc_put rtnlc_attr_name(uint8_t context, uint16_t number, char *out, size_t room);

/* What a code says, in a few words, as "bad length": a string that is always there and never
 * null. */
const char *rtnlc_code_name(uint8_t code);

/* The version of the library that is linked, as RTNLC_VERSION is that of this header; behind it
 * stands +unproved where the library was compiled without a proof. */
const char *rtnlc_version(void);

/* Whether the library that is linked was made of what was proved. */
bool rtnlc_proved(void);

#undef RTNLC_READS
#undef RTNLC_WRITES

#ifdef __cplusplus
}
#endif

#endif
