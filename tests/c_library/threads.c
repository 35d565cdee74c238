/*
 * Four threads make every call on every datagram of a recording at once. Each comes to the sum
 * of all answers to which one alone came before.
 */
#include "asked.h"
#include <pthread.h>

#define THREADS 4
#define ROOM    (1 << 18)

static struct datagram *all;
static size_t count;

static uint64_t with_number(uint64_t sum, uint64_t number)
{
	return added(sum, &number, sizeof number);
}

static uint64_t with_event(uint64_t sum, struct rtnlc_event event)
{
	struct rtnlc_holds holds = rtnlc_holds((uint8_t)(event.level + 1), event.number, event.nested);
	sum = with_number(sum, event.place + ((uint64_t)event.len << 32));
	sum = with_number(sum, event.number * 65536u + event.level * 256u + event.sort * 4u +
	                           event.nested * 2u + event.net);
	return with_number(sum,
	                   holds.sort * 256u + holds.context + rtnlc_family_of(event.number).context);
}

static uint64_t with_datagram(uint64_t sum, const struct datagram *one, struct rtnlc_event *events,
                              char *text)
{
	struct rtnlc_scanned scanned = rtnlc_scan(one->bytes, one->len, NULL);
	struct rtnlc_taped taped = rtnlc_tape(one->bytes, one->len, NULL, events, ROOM);
	struct rtnlc_checked checked = rtnlc_check(one->bytes, one->len, NULL);
	struct rtnlc_shown shown = rtnlc_show(one->number, one->bytes, one->len, NULL, text, ROOM);
	struct rtnlc_broken_head broken = rtnlc_broken(one->bytes, one->len, NULL);
	size_t at;
	sum = with_number(sum, scanned.visits + scanned.place * 256u + scanned.code);
	sum = with_number(sum, broken.left * 256u + broken.level);
	sum = with_number(sum, taped.count + taped.visits + taped.place * 256u + taped.code);
	sum = with_number(sum, checked.place * 65536u + checked.code * 2u + checked.canonical);
	sum = added(with_number(sum, shown.len + shown.code), text,
	            shown.len < ROOM ? shown.len : ROOM);
	shown = rtnlc_show_json(one->number, one->bytes, one->len, NULL, text, ROOM);
	sum = added(with_number(sum, shown.len + shown.code), text,
	            shown.len < ROOM ? shown.len : ROOM);
	for (at = 0; at < taped.count; at++)
		sum = with_event(sum, events[at]);
	for (at = 0; at < one->len; at += 4) {
		sum = with_number(sum, rtnlc_message_at(one->bytes, one->len, (uint32_t)at, false).next);
		sum = with_number(sum, rtnlc_attr_at(one->bytes, one->len, (uint32_t)at, false).next);
		sum = with_number(sum, rtnlc_hop_at(one->bytes, one->len, (uint32_t)at, false).next);
	}
	return sum;
}

static void *sum_of_all(void *to)
{
	struct rtnlc_event *events = (struct rtnlc_event *)taken(ROOM * sizeof *events);
	char *text = (char *)taken(ROOM);
	uint64_t sum = 14695981039346656037u;
	size_t at;
	for (at = 0; at < count; at++)
		sum = with_datagram(sum, &all[at], events, text);
	free(events);
	free(text);
	*(uint64_t *)to = sum;
	return NULL;
}

int main(void)
{
	struct datagram one = { NULL, 0, 0 };
	pthread_t threads[THREADS];
	uint64_t alone, sums[THREADS];
	size_t at;
	all = (struct datagram *)taken((size_t)65536 * sizeof *all);
	while (count < 65536 && next_datagram(stdin, &one))
		all[count++] = one;
	sum_of_all(&alone);
	for (at = 0; at < THREADS; at++)
		if (pthread_create(&threads[at], NULL, sum_of_all, &sums[at]))
			return 4;
	for (at = 0; at < THREADS; at++)
		if (pthread_join(threads[at], NULL) || sums[at] != alone)
			fail("a thread's answers", at);
	printf("%lu datagrams\n", (unsigned long)count);
	for (at = 0; at < count; at++)
		free(all[at].bytes);
	free(all);
	return fflush(stdout) ? 3 : 0;
}
