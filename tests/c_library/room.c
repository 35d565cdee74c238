/*
 * Buffers of each size about what an answer takes: requests of every message type, beginnings,
 * events, entries and keys. Each ends where its room does, at a page that can't be touched.
 */
#include "answers.h"

/* Of every type: a request by its bytes, in all room up to more than it takes. */
static void request_of(uint16_t kind, uint8_t get, size_t head, bool big)
{
	static const uint8_t little[16] = { 0, 0, 0, 0, 0, 0, 1, 3, 4, 3, 2, 1 };
	static const uint8_t highest[16] = { 0, 0, 0, 0, 0, 0, 3, 1, 1, 2, 3, 4 };
	uint8_t wanted[RTNLC_REQUEST] = { 0 };
	size_t room, len = 16 + head;
	memcpy(wanted, big ? highest : little, 16);
	wanted[big ? 3 : 0] = (uint8_t)len;
	wanted[big ? 5 : 4] = get;
	wanted[16] = 10;
	for (room = 0; room <= RTNLC_REQUEST + 1; room++) {
		uint8_t *out = out_end - room;
		bool fits = head && room >= len;
		uint8_t code = head ? RTNLC_NO_ROOM : RTNLC_NO_KIND;
		memset(out, PAINT, room);
		must(is_put(rtnlc_request(kind, 10, 0x01020304, big, room ? out : NULL, room),
		            head ? len : 0, fits ? (uint8_t)RTNLC_OK : code),
		     "a request");
		must(!fits || is_same(out, wanted, len), "the bytes of a request");
		must(is_painted(out + (fits ? len : 0), room - (fits ? len : 0)), "what is behind it");
	}
}

static void all_kinds(void)
{
	static const uint8_t heads[] = { 16, 8, 12, 12, 12 };
	unsigned long kind;
	for (kind = 0; kind < 65536; kind++) {
		/* NEW, DEL and GET of five families, and SET of links. */
		bool is_known = kind >= 16 && kind <= 34 && (kind % 4 < 3 || kind == 19);
		size_t row = is_known ? (kind - 16) / 4 : 0;
		request_of((uint16_t)kind, (uint8_t)(18 + 4 * row), is_known ? heads[row] : 0, kind % 2);
		request_of((uint16_t)kind, (uint8_t)(18 + 4 * row), is_known ? heads[row] : 0, !(kind % 2));
	}
}

/* A beginning without room, or of no type, leaves the session and the stream as they were. */
static void begins_of(struct rtnlc_session *s, struct rtnlc_stream *stream, uint16_t kind,
                      size_t len)
{
	struct rtnlc_stream before = *stream;
	uint8_t code = len ? RTNLC_NO_ROOM : RTNLC_NO_KIND;
	size_t room;
	for (room = 0; room < (len ? len : RTNLC_REQUEST); room++) {
		uint8_t *out = out_end - room;
		memset(out, PAINT, room);
		must(is_put(rtnlc_session_begin(s, kind, 0, 1, 2, room ? out : NULL, room), len, code),
		     "a session without room");
		must(is_put(rtnlc_stream_begin(stream, kind, 0, 1, 2, room ? out : NULL, room), len,
		            code),
		     "a stream without room");
		must(is_painted(out, room), "what is put without room");
	}
	must(is_nothing(rtnlc_session_status(s), RTNLC_OK), "a session as it was");
	must(is_same(&before, stream, sizeof before), "a stream as it was");
}

static void room_of_begins(void)
{
	struct rtnlc_session s = { 0 };
	struct rtnlc_stream stream;
	uint8_t *out = out_end - 28, asked[28];
	must(!rtnlc_session_new(&s, NULL) && !rtnlc_stream_new(&stream, NULL), "new ones");
	begins_of(&s, &stream, 18, 32);
	begins_of(&s, &stream, 21, 24);
	begins_of(&s, &stream, 24, 28);
	begins_of(&s, &stream, 3, 0);
	begins_of(&s, &stream, 23, 0);
	must(rtnlc_session_table(&s, 23).code == RTNLC_NO_KIND, "the table of no kind");
	must(is_put(rtnlc_session_entry(&s, 23, 0, NULL, 0), 0, RTNLC_NO_KIND), "its entry");
	must(is_put(rtnlc_session_key(&s, 23, 0, NULL, 0), 0, RTNLC_NO_KIND), "its key");
	must(rtnlc_session_find(&s, 23, NULL, 0).code == RTNLC_NO_KIND, "nothing found");
	must(is_put(rtnlc_request(34, 7, 5, false, asked, 28), 28, RTNLC_OK), "a request");
	must(is_put(rtnlc_session_begin(&s, 33, 7, 5, 2, out, 28), 28, RTNLC_OK), "just the room");
	must(is_same(out, asked, 28), "the session's request");
	memset(out, PAINT, 28);
	must(is_put(rtnlc_stream_begin(&stream, 33, 7, 5, 2, out, 28), 28, RTNLC_OK), "just the room");
	must(is_same(out, asked, 28), "the stream's request");
	must(rtnlc_session_status(&s).kind == 32 && stream.kind == 32, "the NEW type");
	rtnlc_session_free(&s);
}

/* Events into all room up to more than a datagram has heads: none behind the room, and nothing
 * changed where there is too little. */
static void room_of_events(void)
{
	struct rtnlc_stream good = waiting(), it;
	size_t len, room;
	uint8_t *bytes = hops_of(3, &len);
	put_number(bytes + 8, 4, SEVENTH);
	for (room = 0; room <= 9; room++) {
		struct rtnlc_event *out = (struct rtnlc_event *)(void *)(out_end - room * sizeof *out);
		struct rtnlc_fed fed;
		it = good;
		fed = rtnlc_stream_feed(&it, bytes, len, room ? out : NULL, room);
		if (room < 7) {
			must(fed.code == RTNLC_NO_ROOM && fed.events == 7, "too few events");
			must(!fed.items && !fed.ignored && !fed.ended && !fed.place, "what it answers");
			must(is_same(&it, &good, sizeof it), "a stream as it was");
		} else
			must(!fed.code && fed.events == 7 && fed.items == 1 && it.ignored == 0, "events");
	}
	free(bytes);
}

/* Entries and keys into all room up to more than they take. */
static void room_of_entries(void)
{
	struct rtnlc_session s = { 0 };
	uint8_t *bytes = link_with(44, 3), wanted[44];
	size_t room, sizes[2] = { 44, 4 };
	put_number(bytes + 20, 4, SEVENTH);
	memcpy(wanted, bytes, 44);
	must(!rtnlc_session_new(&s, NULL), "a session");
	must(!rtnlc_session_begin(&s, 18, 0, 0, 0, request, 32).code, "a dump");
	must(rtnlc_session_feed(&s, bytes, 44).items == 1, "a link");
	for (room = 0; room <= 48; room++) {
		uint8_t *out = out_end - room;
		bool fits = room >= sizes[0], key_fits = room >= sizes[1];
		memset(out, PAINT, room);
		must(is_put(rtnlc_session_entry(&s, 19, 0, room ? out : NULL, room), 44,
		            fits ? RTNLC_OK : RTNLC_NO_ROOM),
		     "an entry by its room");
		must(!fits || is_same(out, wanted, 44), "the bytes of an entry");
		must(is_painted(out + (fits ? 44 : 0), room - (fits ? 44 : 0)), "what is behind it");
		memset(out, PAINT, room);
		must(is_put(rtnlc_session_key(&s, 17, 0, room ? out : NULL, room), 4,
		            key_fits ? RTNLC_OK : RTNLC_NO_ROOM),
		     "a key by its room");
		must(!key_fits || is_same(out, wanted + 20, 4), "the bytes of a key");
		must(is_painted(out + (key_fits ? 4 : 0), room - (key_fits ? 4 : 0)), "what is behind it");
	}
	must(is_put(rtnlc_session_entry(&s, 16, 1, NULL, 0), 0, RTNLC_END), "no such entry");
	must(is_put(rtnlc_session_key(&s, 16, UINT32_MAX, NULL, 0), 0, RTNLC_END), "no such key");
	must(is_put(rtnlc_session_entry(&s, 20, 0, NULL, 0), 0, RTNLC_END), "another family");
	must(!rtnlc_session_find(&s, 18, wanted + 20, 4).code, "found by its key");
	must(rtnlc_session_find(&s, 18, wanted + 21, 4).code == RTNLC_END, "found by no key");
	free(bytes);
	rtnlc_session_free(&s);
}

int main(void)
{
	out_end = guarded_end(PAGE);
	all_kinds();
	room_of_begins();
	room_of_events();
	room_of_entries();
	return 0;
}
