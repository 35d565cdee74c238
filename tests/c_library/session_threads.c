/*
 * Sessions, mirrors and streams in threads, over a recording: session_threads KIND SEQ PORT
 * <RECORDING. Two threads at once have one of each; then one of each goes from thread to thread,
 * each datagram and each entry in another one. All come to what one thread alone comes to.
 */
#include "asked.h"
#include <pthread.h>

#define ROOM    (1 << 17)
#define EVENTS  (1 << 15)
#define MOST    512
#define THREADS 2
#define TIMES   3

/* What goes from thread to thread, and the next step of it. */
struct baton {
	struct rtnlc_session session;
	struct rtnlc_mirror mirror;
	struct rtnlc_stream stream;
	uint64_t sum;
	size_t step;
	uint8_t *out;
	struct rtnlc_event *events;
	bool is_over;
};

static struct datagram all[MOST];
static size_t count;
static uint16_t kind;
static uint32_t seq, port;

static void begin(struct baton *it)
{
	must(!rtnlc_session_new(&it->session, NULL) && !rtnlc_stream_new(&it->stream, NULL), "new", 0);
	must(!rtnlc_session_begin(&it->session, kind, 0, seq, port, it->out, ROOM).code &&
	         !rtnlc_stream_begin(&it->stream, kind, 0, seq, port, it->out, ROOM).code,
	     "a beginning", 0);
	must(!rtnlc_mirror_new(&it->mirror, NULL, MOST) &&
	         !rtnlc_mirror_begin(&it->mirror, kind, 0, seq, port, it->out, ROOM).code,
	     "a mirror's beginning", 0);
}

static void feed(struct baton *it, const struct datagram *one)
{
	struct rtnlc_fed fed = rtnlc_session_feed(&it->session, one->bytes, one->len);
	struct rtnlc_heard heard =
	    rtnlc_mirror_feed(&it->mirror, one->bytes, one->len, NULL, 0, it->out, ROOM);
	it->sum = it->sum * 31 + heard.code + heard.visits * 3u + heard.place * 5u;
	it->sum = it->sum * 31 + fed.items * 7u + fed.ignored * 5u + fed.code;
	fed = rtnlc_stream_feed(&it->stream, one->bytes, one->len, it->events, EVENTS);
	it->sum = it->sum * 31 + fed.items * 7u + fed.ignored * 5u + fed.code + fed.events * 3u;
}

/* An entry of the mirror, and its key. */
static void read_mirrored(struct baton *it, uint32_t at)
{
	struct rtnlc_put put = rtnlc_mirror_entry(&it->mirror, kind, at, it->out, ROOM);
	it->sum = added(it->sum, it->out, put.len);
	put = rtnlc_mirror_key(&it->mirror, kind, at, it->out, ROOM);
	it->sum = added(it->sum, it->out, put.len);
	if (!put.code && rtnlc_mirror_find(&it->mirror, kind, it->out, put.len).index != at)
		fail("a key of a mirror", at);
}

static void read_entry(struct baton *it, uint32_t at)
{
	struct rtnlc_put put = rtnlc_session_entry(&it->session, kind, at, it->out, ROOM);
	it->is_over = put.code == RTNLC_END;
	it->sum = added(it->sum, it->out, put.len);
	put = rtnlc_session_key(&it->session, kind, at, it->out, ROOM);
	it->sum = added(it->sum, it->out, put.len);
	if (!it->is_over && rtnlc_session_find(&it->session, kind, it->out, put.len).index != at)
		fail("a key", at);
	read_mirrored(it, at);
}

static void finish(struct baton *it)
{
	struct rtnlc_status told = rtnlc_session_status(&it->session);
	const struct rtnlc_mirrored table = rtnlc_mirror_table(&it->mirror, kind);
	it->sum = it->sum * 31 + table.count * 3u + table.stale;
	it->sum = it->sum * 31 + told.visits + told.received * 3u + told.state + told.complete;
	told = rtnlc_stream_status(&it->stream);
	it->sum = it->sum * 31 + told.visits + told.received * 3u + told.state + told.complete;
	rtnlc_session_free(&it->session);
	rtnlc_mirror_free(&it->mirror);
}

/* One step: a beginning, a datagram, an entry, or the end. */
static void *step(void *baton)
{
	struct baton *it = (struct baton *)baton;
	size_t at = it->step++;
	if (at == 0)
		begin(it);
	else if (at <= count)
		feed(it, &all[at - 1]);
	else if (!it->is_over)
		read_entry(it, (uint32_t)(at - count - 1));
	return NULL;
}

static struct baton baton(void)
{
	struct baton it;
	memset(&it, 0, sizeof it);
	it.out = (uint8_t *)taken(ROOM);
	it.events = (struct rtnlc_event *)taken(EVENTS * sizeof *it.events);
	return it;
}

static uint64_t end(struct baton *it)
{
	finish(it);
	free(it->out);
	free(it->events);
	return it->sum;
}

/* All steps in one thread, several times. */
static void *alone(void *to)
{
	int times;
	for (times = 0; times < TIMES; times++) {
		struct baton it = baton();
		while (!it.is_over)
			step(&it);
		*(uint64_t *)to = end(&it);
	}
	return NULL;
}

/* Each step in a thread of its own. */
static uint64_t handed_on(void)
{
	struct baton it = baton();
	pthread_t thread;
	while (!it.is_over)
		if (pthread_create(&thread, NULL, step, &it) || pthread_join(thread, NULL))
			exit(4);
	return end(&it);
}

int main(int words, char **word)
{
	pthread_t threads[THREADS];
	uint64_t whole, sums[THREADS];
	size_t at;
	if (words != 4)
		return 2;
	read_asked(word, &kind, &seq, &port);
	while (count < MOST && next_datagram(stdin, &all[count]))
		count++;
	must(count > 0, "no datagrams", 0);
	alone(&whole);
	for (at = 0; at < THREADS; at++)
		if (pthread_create(&threads[at], NULL, alone, &sums[at]))
			return 4;
	for (at = 0; at < THREADS; at++)
		must(!pthread_join(threads[at], NULL) && sums[at] == whole, "a thread's answers", at);
	must(handed_on() == whole, "what goes from thread to thread", 0);
	printf("%lu datagrams\n", (unsigned long)count);
	for (; count; count--)
		free(all[count - 1].bytes);
	return fflush(stdout) ? 3 : 0;
}
