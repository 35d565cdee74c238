/*
 * Makes the calls that the lines of its input name, on a session and on a stream at once, and
 * prints a line of what each answers; dumps.py says what must stand there. The lines are `new
 * TOTAL DATAGRAM ENTRIES DEPTH BIG`, `begin KIND FAMILY SEQ PORT`, `feed ROOM HEX`, `abandon` and
 * `end`. Where the two answer otherwise than one another, the line ends in `unlike`.
 */
#include "alike.h"
#include "crc.h"
#include "lines.h"

#define ROOM  (1 << 14)
#define BYTES (1 << 17)

static struct rtnlc_session session;
static struct rtnlc_stream stream;
static struct rtnlc_event events[ROOM];
static uint8_t bytes[BYTES];
static size_t number;

/* The sum of events, each as 14 bytes, lowest byte first. */
static uint32_t sum_of_events(size_t count)
{
	uint32_t sum = 0;
	size_t at, byte;
	for (at = 0; at < count; at++) {
		const struct rtnlc_event *event = &events[at];
		uint8_t row[14];
		for (byte = 0; byte < 4; byte++) {
			row[byte] = (uint8_t)(event->place >> 8 * byte);
			row[4 + byte] = (uint8_t)(event->len >> 8 * byte);
		}
		row[8] = (uint8_t)event->number;
		row[9] = (uint8_t)(event->number >> 8);
		row[10] = event->level;
		row[11] = event->sort;
		row[12] = event->nested;
		row[13] = event->net;
		sum = crc_of(sum, row, sizeof row);
	}
	return sum;
}

/* The end of a line: whether session and stream tell the same of their dump. */
static void end_line(bool is_so)
{
	struct rtnlc_status of_session = rtnlc_session_status(&session);
	struct rtnlc_status of_stream = rtnlc_stream_status(&stream);
	uint64_t missed = of_session.kind ? rtnlc_session_table(&session, of_session.kind).missed : 0;
	is_so = is_so && is_told(&stream, &of_stream) && is_status(&of_session, &of_stream, missed);
	puts(is_so ? "" : " unlike");
}

static void make(const char *line)
{
	struct rtnlc_options options = { 0, 0, 0, 0, false, { 0 } };
	unsigned long total;
	unsigned datagram, entries, depth, big;
	uint8_t code;
	if (sscanf(line, "new %lu %u %u %u %u", &total, &datagram, &entries, &depth, &big) != 5)
		fail("a line", number);
	options.total = total;
	options.datagram = datagram;
	options.entries = entries;
	options.depth = (uint8_t)depth;
	options.big = big != 0;
	rtnlc_session_free(&session);
	code = rtnlc_session_new(&session, &options);
	printf("new %u %u", code, rtnlc_stream_new(&stream, &options));
	end_line(true);
}

static void begin(const char *line)
{
	struct rtnlc_put put, same;
	unsigned kind, family, seq, port;
	uint8_t request[RTNLC_REQUEST];
	size_t at;
	if (sscanf(line, "begin %u %u %u %u", &kind, &family, &seq, &port) != 4)
		fail("a line", number);
	put = rtnlc_session_begin(&session, (uint16_t)kind, (uint8_t)family, seq, port, bytes,
	                          RTNLC_REQUEST);
	same = rtnlc_stream_begin(&stream, (uint16_t)kind, (uint8_t)family, seq, port, request,
	                          sizeof request);
	printf("begin %u ", put.code);
	for (at = 0; at < put.len; at++)
		printf("%02x", bytes[at]);
	end_line(put.code == same.code && put.len == same.len && !memcmp(request, bytes, put.len));
}

/* Feeds the stream with so much room, and again with as much as it then asks for, which leaves it
 * as it was. */
static struct rtnlc_fed feed_stream(const struct datagram *one, size_t room, long *needed)
{
	struct rtnlc_stream before = stream;
	struct rtnlc_fed fed = rtnlc_stream_feed(&stream, one->bytes, one->len, events, room);
	*needed = -1;
	if (fed.code != RTNLC_NO_ROOM)
		return fed;
	if (memcmp(&before, &stream, sizeof stream) || fed.events <= room || fed.events > ROOM)
		fail("what too little room leaves", number);
	if (fed.items || fed.ignored || fed.place || fed.ended)
		fail("the answer of too little room", number);
	*needed = (long)fed.events;
	return rtnlc_stream_feed(&stream, one->bytes, one->len, events, fed.events);
}

static void feed(const char *line)
{
	struct datagram one = { NULL, 0, 0 };
	struct rtnlc_fed of_session, of_stream;
	unsigned room;
	long needed;
	int hex = 0;
	if (sscanf(line, "feed %u %n", &room, &hex) != 1 || !hex || room > ROOM)
		fail("a line", number);
	/* A datagram of no bytes has no digits. */
	if (line[hex] && !read_line(line + hex, &one))
		fail("a datagram", number);
	of_session = rtnlc_session_feed(&session, one.bytes, one.len);
	of_stream = feed_stream(&one, room, &needed);
	printf("feed %u %lu %lu %lu %d %lu %08lx %ld", of_stream.code,
	       (unsigned long)of_stream.place, (unsigned long)of_stream.items,
	       (unsigned long)of_stream.ignored, of_stream.ended, (unsigned long)of_stream.events,
	       (unsigned long)sum_of_events(of_stream.events), needed);
	end_line(is_fed(&of_session, &of_stream));
	free(one.bytes);
}

static void print_table(uint16_t kind)
{
	struct rtnlc_table table = rtnlc_session_table(&session, kind);
	uint32_t at, entries = 0, keys = 0;
	for (at = 0; at < table.count; at++) {
		struct rtnlc_put put = rtnlc_session_entry(&session, kind, at, bytes, sizeof bytes);
		struct rtnlc_found found;
		if (put.code)
			fail(rtnlc_code_name(put.code), number);
		entries = crc_of(entries, bytes, put.len);
		put = rtnlc_session_key(&session, kind, at, bytes, sizeof bytes);
		keys = crc_of(keys, bytes, put.len);
		found = rtnlc_session_find(&session, kind, bytes, put.len);
		if (put.code || found.code || found.index != at)
			fail("the key of an entry", number);
	}
	printf(" %u:%lu:%lu:%lu:%08lx:%08lx", kind, (unsigned long)table.limit,
	       (unsigned long)table.count, (unsigned long)table.missed, (unsigned long)entries,
	       (unsigned long)keys);
}

static void end(void)
{
	struct rtnlc_status it = rtnlc_session_status(&session);
	uint16_t kind;
	printf("end %u %ld %lu %lu %lu %d %d %d %d %u %u %lu %lu", it.state, (long)it.status,
	       (unsigned long)it.received, (unsigned long)it.visits, (unsigned long)it.ignored,
	       it.damaged, it.interrupted, it.complete, rtnlc_stream_status(&stream).complete, it.kind,
	       it.family, (unsigned long)it.seq, (unsigned long)it.port);
	for (kind = 16; kind <= 32; kind = (uint16_t)(kind + 4))
		print_table(kind);
	end_line(true);
}

int main(void)
{
	char *line;
	while ((line = next_line(stdin))) {
		number++;
		if (!strncmp(line, "feed", 4))
			feed(line);
		else if (!strncmp(line, "begin", 5))
			begin(line);
		else if (!strncmp(line, "new", 3))
			make(line);
		else if (!strcmp(line, "end"))
			end();
		else if (!strcmp(line, "abandon")) {
			uint8_t code = rtnlc_session_abandon(&session);
			printf("abandon %u", code);
			end_line(code == rtnlc_stream_abandon(&stream));
		} else
			fail("a line", number);
		free(line);
	}
	rtnlc_session_free(&session);
	return fflush(stdout) ? 3 : 0;
}
